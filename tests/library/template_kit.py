"""What the tests of `lambda_local from_template` have in common: the UP.json of a template, and what is said of it."""
import contextlib
import importlib.util
import io
import json
import os
import subprocess
import tempfile

from lambda_local.from_template.find import Source
from lambda_local.from_template.project import up_of_source
from tests import ROOT
from tests.library.cases import Case

FROM_TEMPLATE = [os.path.join(ROOT, "lambda_local"), "from_template"]
HAS_YAML = bool(importlib.util.find_spec("yaml"))
HAS_CLIENT = bool(importlib.util.find_spec("awslambdaric"))


def up_of(path):
    """UP.json's object of a template, as its defaults have it."""
    return up_of_source(Source(path, True))


def up_and_said(template):
    """UP.json's object of a template, made in this process, and what is said."""
    with tempfile.TemporaryDirectory() as folder:
        path, output = os.path.join(folder, "template.json"), io.StringIO()
        with open(path, "w") as file:
            json.dump(template, file)
        with contextlib.redirect_stderr(output):
            return up_of(path), output.getvalue()


def python(handler):
    return {"command": ["python3", "-m", "awslambdaric", handler]} if HAS_CLIENT else {"runtime": "python"}


def made_of(template, name="template.yaml", folders=("src",)):
    """The functions that are made of a template, by name, and what is said. The status instead of them if it is
    refused."""
    with tempfile.TemporaryDirectory() as folder:
        for part in folders:
            os.makedirs(os.path.join(folder, part), exist_ok=True)
        path = os.path.join(folder, name)
        with open(path, "w") as file:
            file.write(template if isinstance(template, str) else json.dumps(template))
        output = os.path.join(folder, "up.json")
        done = subprocess.run([*FROM_TEMPLATE, path, "-o", output], stdout=subprocess.PIPE, stderr=subprocess.PIPE,
                              text=True, timeout=60)
        if done.returncode:
            return done.returncode, done.stderr
        with open(output) as file:
            return {function["name"]: function for function in json.load(file)["functions"]}, done.stderr


def function_of(**properties):
    """A CloudFormation template with one function."""
    return {"Resources": {"F": {"Type": "AWS::Lambda::Function",
                                "Properties": {"Runtime": "provided.al2023", **properties}}}}


SAM = """Globals: {Function: {Runtime: python3.12, Timeout: 5, Environment: {Variables: {A: 1, LIVE: true}}}}
Parameters: {Name: {Type: String, Default: given}, Stage: {Type: String, Default: dev},
             Seconds: {Type: Number, Default: 7}, Open: {Type: String}}
Resources:
  Table: {Type: AWS::DynamoDB::Table}
  One: {Type: AWS::Serverless::Function, Properties: {
    CodeUri: src/, Handler: app.run, Layers: [x], Environment: {Variables: {B: !Ref Table}}}}
  Two: {Type: AWS::Lambda::Function, Properties: {
    FunctionName: !Ref Name, Runtime: provided.al2023, Handler: i.h, ReservedConcurrentExecutions: 3}}
  Three: {Type: AWS::Serverless::Function, Properties: {
    FunctionName: !Sub "orders-${Stage}-${AWS::Region}", Handler: a.b, Timeout: !Ref Seconds}}
  Four: {Type: AWS::Serverless::Function, Properties: {FunctionName: !Sub "orders-${Open}", Handler: a.b,
    Environment: {Variables: {OTHER: !Ref Three, ARN: !GetAtt Three.Arn, QUEUE: !GetAtt Queue.Arn, MODE: !Ref Open,
      WHO: !Sub "${AWS::AccountId}/${!Raw}"}}}}
"""


class TemplateCase(Case):
    def case(self, title, template, wanted, *words, **named):
        made, said = made_of(template, **named)
        self.check(title, made, wanted)
        if words:
            self.check(title + ": what is said", [word for word in words if word not in said] or "all", "all")
        self.check(title + ": no traceback", "Traceback" in said, False)
