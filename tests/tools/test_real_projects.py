"""Checks a project of each kind, written as such projects are: a SAM template, a serverless.yml, and what `cdk synth`
writes, each with routes, a layer, a schedule and variables, taken by from_template and served unchanged by tools/up. A
template of YAML needs PyYAML."""
import importlib.util
import json
import os
import subprocess
import tempfile
import urllib.request
from typing import List, Tuple

from lambda_local.configuration import Members
from tests import ROOT
from tests.library.cases import Case
from tests.library.up_kit import Up

HAS_YAML = bool(importlib.util.find_spec("yaml"))
# A handler of REST events and one of HTTP events, over a module that a layer has; and one of a schedule.
CODE = '''import json, logging, os
from shared import greeting
logging.getLogger().setLevel(logging.INFO)
def rest(event, context):
    logging.getLogger().info("asked by %s", event["httpMethod"])
    return {"statusCode": 200, "body": json.dumps({"said": greeting(event["pathParameters"]["name"]),
            "stage": event["requestContext"]["stage"], "table": os.environ["TABLE"]})}
def http(event, context):
    logging.getLogger().info("asked by %s", event["requestContext"]["http"]["method"])
    return {"said": greeting(event["pathParameters"]["name"]), "table": os.environ["TABLE"]}
def nightly(event, context):
    return {"kind": event["detail-type"], "left": context.get_remaining_time_in_millis() > 0}
'''
LAYER = '''def greeting(name):
    return f"Hello, {name}!"
'''
SAM = '''AWSTemplateFormatVersion: '2010-09-09'
Transform: AWS::Serverless-2016-10-31
Parameters:
  Stage: {Type: String, Default: dev}
Globals:
  Function:
    Runtime: python3.11
    Timeout: 5
    MemorySize: 256
    CodeUri: src/
    Environment: {Variables: {TABLE: !Sub 'orders-${Stage}'}}
Resources:
  Shared:
    Type: AWS::Serverless::LayerVersion
    Properties: {LayerName: shared, ContentUri: layer/, CompatibleRuntimes: [python3.11]}
  RestFunction:
    Type: AWS::Serverless::Function
    Properties:
      Handler: app.rest
      Layers: [!Ref Shared]
      Events:
        Greet: {Type: Api, Properties: {Path: '/greet/{name}', Method: get}}
  NightlyFunction:
    Type: AWS::Serverless::Function
    Properties:
      Handler: app.nightly
      Layers: [!Ref Shared]
      Events:
        Night: {Type: Schedule, Properties: {Schedule: 'cron(0 3 * * ? *)'}}
Outputs:
  Url: {Value: !Sub 'https://${ServerlessRestApi}.execute-api.${AWS::Region}.amazonaws.com/Prod/greet'}
'''
SERVERLESS = '''service: orders
frameworkVersion: '3'
provider:
  name: aws
  runtime: python3.11
  stage: ${opt:stage, 'dev'}
  environment:
    TABLE: ${self:service}-${sls:stage}
layers:
  shared: {path: layer}
functions:
  rest:
    handler: src/app.rest
    layers: [{Ref: SharedLambdaLayer}]
    events:
      - http: {path: 'greet/{name}', method: get, cors: true}
  nightly:
    handler: src/app.nightly
    layers: [{Ref: SharedLambdaLayer}]
    events:
      - schedule: cron(0 3 * * ? *)
'''


def of_cdk(handler, **more):
    return {"Type": "AWS::Lambda::Function", "Properties": {
        "Code": {"S3Bucket": {"Fn::Sub": "cdk-hnb659fds-assets-${AWS::AccountId}-${AWS::Region}"}, "S3Key": "abc.zip"},
        "Handler": handler, "Runtime": "python3.11", "Role": {"Fn::GetAtt": ["RoleA1", "Arn"]},
        "Environment": {"Variables": {"TABLE": "orders-dev"}}, "Layers": [{"Ref": "SharedB2"}], **more},
        "Metadata": {"aws:cdk:path": "Stack/Function/Resource", "aws:asset:path": "src", "aws:asset:property": "Code"}}


CDK = {"Resources": {
    "RoleA1": {"Type": "AWS::IAM::Role", "Properties": {}},
    "SharedB2": {"Type": "AWS::Lambda::LayerVersion", "Properties": {"Content": {"S3Bucket": "b", "S3Key": "c.zip"}},
                 "Metadata": {"aws:asset:path": "layer", "aws:asset:property": "Content"}},
    "HttpC3": of_cdk("app.http"), "NightlyD4": of_cdk("app.nightly"),
    "ApiE5": {"Type": "AWS::ApiGatewayV2::Api", "Properties": {"Name": "Api", "ProtocolType": "HTTP"}},
    "IntegrationF6": {"Type": "AWS::ApiGatewayV2::Integration", "Properties": {
        "ApiId": {"Ref": "ApiE5"}, "IntegrationType": "AWS_PROXY", "PayloadFormatVersion": "2.0",
        "IntegrationUri": {"Fn::GetAtt": ["HttpC3", "Arn"]}}},
    "RouteG7": {"Type": "AWS::ApiGatewayV2::Route", "Properties": {
        "ApiId": {"Ref": "ApiE5"}, "RouteKey": "GET /greet/{name}",
        "Target": {"Fn::Join": ["", ["integrations/", {"Ref": "IntegrationF6"}]]}}},
    "NightH8": {"Type": "AWS::Events::Rule", "Properties": {
        "ScheduleExpression": "cron(0 3 * * ? *)", "State": "ENABLED",
        "Targets": [{"Arn": {"Fn::GetAtt": ["NightlyD4", "Arn"]}, "Id": "Target0"}]}},
    "PermissionI9": {"Type": "AWS::Lambda::Permission", "Properties": {"Action": "lambda:InvokeFunction"}}}}


def made_of(template, name):
    """UP.json of a project in a folder of its own, and what was said."""
    def prepare(at):
        for path, text in ((name, template), ("src/app.py", CODE), ("layer/python/shared.py", LAYER)):
            os.makedirs(os.path.dirname(os.path.join(at, path)), exist_ok=True)
            with open(os.path.join(at, path), "w") as file:
                file.write(text)
        done = subprocess.run([os.path.join(ROOT, "lambda_local"), "from_template", name, "-o", "made.json"], cwd=at,
                              capture_output=True, text=True)
        said.append((done.returncode, done.stderr))
        with open(os.path.join(at, "made.json")) as file:
            made.update(json.load(file))
    made: Members = {}
    said: List[Tuple[int, str]] = []
    with tempfile.TemporaryDirectory() as folder:
        prepare(folder)
    return made, said[0], prepare


class RealProjects(Case):
    def a_project(self, kind, template, name, front, wanted):
        made, (status, said), prepare = made_of(template, name)
        self.check(f"{kind}: it is taken", (status, len(made.get("functions", []))), (0, 2))
        print("\n".join(f"     {line}" for line in said.splitlines()))
        nightly = [function["name"] for function in made["functions"] if "schedule" in function]
        self.check(f"{kind}: one function has a schedule", len(nightly), 1)
        up = Up("--report", functions=made["functions"], whole={name: value for name, value in made.items()
                                                                  if name != "functions"}, prepare=prepare)
        self.check(f"{kind}: it is ready", up.until("ready"))
        address = up.told(r"routes: (http://[0-9.:]+)")
        with urllib.request.urlopen(address + front, timeout=30) as answer:
            self.check(f"{kind}: its route answers", json.load(answer), wanted)
        with open(os.path.join(ROOT, "examples", "events", "schedule.json")) as file:
            self.check(f"{kind}: what a schedule invokes", up.invoke(nightly[0], 20, **json.load(file))[0],
                       {"kind": "Scheduled Event", "left": True})
        self.check(f"{kind}: its log has what the handler logs, as Lambda writes it", up.until("REPORT RequestId: ")
                   and bool(
            up.count(r"\[INFO\]\t\d{4}-\d\d-\d\dT\d\d:\d\d:\d\d\.\d{3}Z\t[0-9a-f-]{36}\tasked by GET$")))
        print("\n".join(f"     {line}" for line in up.lines))
        self.check(f"{kind}: it ends", up.end()[0], 0)

    def test_a_project_of_SAM_is_served(self):
        if HAS_YAML:
            self.a_project("SAM", SAM, "template.yaml", "/greet/Ada",
                           {"said": "Hello, Ada!", "stage": "Prod", "table": "orders-dev"})

    def test_a_project_of_Serverless_is_served(self):
        if HAS_YAML:
            self.a_project("Serverless", SERVERLESS, "serverless.yml", "/greet/Ada",
                           {"said": "Hello, Ada!", "stage": "dev", "table": "orders-dev"})

    def test_a_project_of_CDK_is_served(self):
        self.a_project("CDK", json.dumps(CDK), "Stack.template.json", "/greet/Ada",
                       {"said": "Hello, Ada!", "table": "orders-dev"})
