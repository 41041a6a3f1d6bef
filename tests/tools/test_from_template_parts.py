"""Checks what lambda_local from_template makes of templates besides: wrong ones, other types, places of code, layers,
schedules, and functions that are grouped."""
import contextlib
import io
import json
import os
import subprocess
import tempfile
import time
from typing import Any, Dict

from lambda_local.configuration import OF_SERVICE, mistakes
from lambda_local.configuration import Members
from lambda_local.from_template.messages import Fault
from lambda_local.front import settings
from lambda_local.up.members import MEMBERS
from tests import ROOT
from tests.library.template_kit import (FROM_TEMPLATE, HAS_YAML, TemplateCase, function_of, made_of, python,
                                        up_of)


def replaced(node, value):
    """The tree with each of its nodes in turn replaced by the value, which is of another type."""
    if isinstance(node, dict):
        for key in node:
            yield {**node, key: value}
            for inner in replaced(node[key], value):
                yield {**node, key: inner}
    elif isinstance(node, list):
        for index, member in enumerate(node):
            for inner in [value, *replaced(member, value)]:
                yield [*node[:index], inner, *node[index + 1:]]


def resource(kind, **properties):
    return {"Type": f"AWS::{kind}", "Properties": properties}


ROOT_OF = {"Fn::GetAtt": ["Old", "RootResourceId"]}
OF_GATEWAYS = {
    "Shop": resource("Serverless::Api", StageName="a", Variables={"a": "b"}, BinaryMediaTypes=["a"],
                     Cors={"AllowOrigin": "'*'", "MaxAge": "'1'"}),
    "Old": resource("ApiGateway::RestApi", BinaryMediaTypes=["a"]),
    "Part": resource("ApiGateway::Resource", ParentId=ROOT_OF, PathPart="a", RestApiId={"Ref": "Old"}),
    "Get": resource("ApiGateway::Method", HttpMethod="GET", ResourceId={"Ref": "Part"}, RestApiId={"Ref": "Old"},
                    Integration={"Type": "AWS_PROXY", "Uri": {"Fn::GetAtt": ["Two", "Arn"]}}),
    "Ask": resource("ApiGateway::Method", HttpMethod="OPTIONS", ResourceId=ROOT_OF, RestApiId={"Ref": "Old"},
                    Integration={"Type": "MOCK", "IntegrationResponses": [{"ResponseParameters": {
                        "method.response.header.Access-Control-Allow-Origin": "'*'"}}]}),
    "New": resource("ApiGatewayV2::Api", ProtocolType="HTTP", CorsConfiguration={"AllowOrigins": ["a"]},
                    Target={"Fn::GetAtt": ["Two", "Arn"]}, RouteKey="GET /new"),
    "Leads": resource("ApiGatewayV2::Integration", IntegrationUri={"Fn::GetAtt": ["Two", "Arn"]},
                      PayloadFormatVersion="2.0"),
    "Way": resource("ApiGatewayV2::Route", ApiId={"Ref": "New"}, RouteKey="GET /way",
                    Target={"Fn::Join": ["/", ["integrations", {"Ref": "Leads"}]]}),
}


class FromTemplateParts(TemplateCase):
    def test_wrong_templates_are_refused_in_a_line(self):
        for name, text, status, words in (
                ("no template", "[1]", 2, "not a template: it must have Resources, or functions"),
                ("an empty one", "{}", 2, "not a template"),
                ("no function", '{"Resources": {"T": {"Type": "AWS::S3::Bucket"}}}', 2, "has no function"),
                ("no folder of functions", '{"functions": 5}', 2, "not a template")):
            made, said = made_of(text, name="x.json")
            self.check(f"{name}", (made, words in said and "Traceback" not in said), (status, True), shown=said)

    def test_wrong_YAML_is_refused_in_a_line(self):
        if HAS_YAML:
            made, said = made_of("Resources:\n  A: [\n")
            self.check("no YAML", (made, "template.yaml: line 3, column 1: " in said), (2, True), shown=said)
            bomb = "m0: &m0 {a: 1, b: 2}\n" + "".join(
                f"m{n}: &m{n} {{<<: [{', '.join([f'*m{n - 1}'] * 10)}]}}\n" for n in range(1, 8))
            begun = time.monotonic()
            made, said = made_of(bomb)
            self.check("merge keys that grow tenfold at each level are refused",
                       (made, "template.yaml: its merge keys (<<) bring more than 100,000 members" in said,
                        time.monotonic() - begun < 60), (2, True, True))
            made, said = made_of("a: " + "[" * 200 + "]" * 200 + "\n")
            self.check("200 levels are refused", (made, "template.yaml: it is nested too deep" in said), (2, True))
            properties = '{Runtime: x, "A\\e[2J": 1}'
            made, said = made_of(f"Resources:\n  F: {{Type: AWS::Serverless::Function, Properties: {properties}}}\n")
            self.check("a name reaches no terminal", ("\x1b" in said, "A\\x1b[2J" in said), (False, True))

    def test_no_file_is_told_in_a_line(self):
        done = subprocess.run([*FROM_TEMPLATE, "/no/such/file"], stderr=subprocess.PIPE, text=True)
        self.check("no file", (done.returncode, done.stderr),
                   (2, "from_template: /no/such/file: No such file or directory: name a template\n"))

    def test_no_folder_to_write_to_is_told(self):
        with tempfile.TemporaryDirectory() as folder:
            path = os.path.join(folder, "t.json")
            with open(path, "w") as file:
                json.dump(function_of(), file)
            done = subprocess.run([*FROM_TEMPLATE, path, "-o", os.path.join(folder, "no", "up.json")],
                                  stderr=subprocess.PIPE, text=True)
            self.check("no folder to write to",
                       (done.returncode, "No such file or directory" in done.stderr and "Traceback" not in done.stderr),
                       (4, True))

    def test_a_part_of_another_type_makes_no_traceback(self):
        """Of each part of a template a value of another type: no traceback, and never is it all refused for one
        function."""
        one: Members = {"Type": "AWS::Serverless::Function", "Properties": {
            "FunctionName": {"Fn::Join": ["-", ["a", {"Ref": "Stage"}]]},
            "Handler": {"Fn::Sub": ["${x}.h", {"x": "a"}]},
            "Timeout": {"Fn::FindInMap": ["M", "a", "b"]},
            "CodeUri": "src", "Runtime": {"Fn::If": ["C", "python3.12", "nodejs20.x"]},
            "ReservedConcurrentExecutions": 2,
            "Environment": {"Variables": {"A": {"Fn::GetAtt": ["T", "Arn"]}, "B": {"Ref": "T"},
                                          "D": {"Fn::Select": [0, {"Fn::Split": [",", "x,y"]}]}}}},
               "Metadata": {"aws:asset:path": "x"},
                                          "Condition": "C"}
        one["Properties"]["Events"] = {"Get": {
            "Type": "HttpApi", "Properties": {"Path": "/", "Method": "GET", "ApiId": {"Ref": "Api"}}},
            "Old": {"Type": "Api", "Properties": {"Path": "/old", "Method": "GET", "RestApiId": {"Ref": "Shop"}}}}
        whole = {"Parameters": {"Stage": {"Type": "String", "Default": "dev"}}, "Mappings": {"M": {"a": {"b": 3}}},
                 "Conditions": {"C": {"Fn::Not": [{"Fn::Equals": ["a", {"Ref": "Stage"}]}]}},
                 "Globals": {"Function": {"Environment": {"Variables": {"E": 1}}}},
                 "Resources": {"One": one, "T": {"Type": "AWS::DynamoDB::Table", "Properties": {"TableName": "t"}},
                               "Two": function_of()["Resources"]["F"],
                               "Api": {"Type": "AWS::Serverless::HttpApi",
                                       "Properties": {"CorsConfiguration": {"AllowOrigins": ["a"]}}},
                               "Url": {"Type": "AWS::Lambda::Url",
                                       "Properties": {"TargetFunctionArn": "Two", "Cors": {"MaxAge": 1}}},
                               **OF_GATEWAYS}}
        less = {"service": {"name": "shop"}, "provider": {"stage": "${opt:stage, 'dev'}", "runtime": "python3.12",
                                                          "environment": {"A": "${self:custom.a}"}},
                                                          "custom": {"a": ["${self:custom.b}"], "b": {"c": 1}},
                "params": {"default": {"p": 1}}, "functions": {"one": {"handler": "a.b", "events": [
                    {"http": {"path": "a", "method": "get", "cors": {"origins": ["a"]}}}, {"httpApi": "GET /b"}],
                        "environment": {"P": "${param:p}", "Q": {"Ref": "TwoLambdaFunction"}}},
                                                               "two": {"handler": "c.d"}},
                "resources": {"Resources": {"T": {"Type": "AWS::S3::Bucket"}}}}
        with tempfile.TemporaryDirectory() as folder:
            path = os.path.join(folder, "t.json")
            for name, template, needed in (("CloudFormation", whole, "Resources"), ("Serverless", less, "functions")):
                tried, refused = 0, []
                for value in (5, "x", "${self:custom.a}", None, True, [], [[]], {}, {"x": 1}, {"Ref": 5},
                              {"Fn::Sub": []}):
                    for changed in replaced(template, value):
                        tried += 1
                        with open(path, "w") as file:
                            json.dump(changed, file)
                        with contextlib.redirect_stderr(io.StringIO()):
                            try:
                                whole_up = json.loads(json.dumps(up_of(path)))
                                found = [*mistakes(whole_up, {**OF_SERVICE, **settings.AT_THE_TOP}, MEMBERS,
                                                   ["functions"],
                                                   ["name"]), *settings.mistakes(whole_up)]
                                refused += [(mistake, changed) for mistake in found]
                            except Fault as fault:
                                if changed[needed] == template[needed]:
                                    refused.append((str(fault), changed))
                            except Exception as fault:
                                refused.append((repr(fault), changed))
                self.check(f"{name}: {tried} templates with a part of another type", refused[:2], [])

    def test_folders_of_functions_are_found_from_anywhere(self):
        """A template's function is found wherever its UP.json is, and wherever lambda_local up is started."""
        with tempfile.TemporaryDirectory() as root:
            for name in ("app/src", "made", "else where"):
                os.makedirs(os.path.join(root, name))
            with open(os.path.join(root, "app", "src", "app.py"), "w") as file:
                file.write("import os\ndef run(event, context): return os.getcwd()\n")
            functions = {key: {"Type": "AWS::Serverless::Function", "Properties": {"CodeUri": code,
                                                                                   "Handler": "app.run",
                    "Runtime": "python3.12"}} for key, code in (("F", "./src"), ("G", "s3://far/away"))}
            with open(os.path.join(root, "app", "template.json"), "w") as file:
                json.dump({"Resources": functions}, file)
            shell = 'cd "$1" && "$2" "$3" "$4" '
            for name, where, template, words, wanted in (
                    ("beside it", "app", "template.json", "-o ../app/up.json", ["src", None]),
                    ("elsewhere", "else where", "../app/template.json", "-o ../made/up.json", ["../app/src", "../app"]),
                    ("through a pipe", "else where", "../app/template.json", "| cat > ../made/up.json",
                     [os.path.join(root, "app", "src"), os.path.join(root, "app")]),
                    ("by a redirection", "made", "../app/template.json", "> up.json", ["../app/src", "../app"])):
                subprocess.run(["sh", "-c", shell + words, "sh", os.path.join(root, where), *FROM_TEMPLATE, template],
                               stderr=subprocess.DEVNULL)
                made = os.path.join(root, "app" if name == "beside it" else "made", "up.json")
                with open(made) as file:
                    whole = json.load(file)
                self.check(f"folders of an UP.json {name}",
                           [function.get("directory") for function in whole["functions"]],
                           wanted)
            with open(made, "w") as file:
                json.dump({"functions": whole["functions"][:1]}, file)
            command = 'curl -s -d "{}" "$AWS_ENDPOINT_URL_LAMBDA/2015-03-31/functions/F/invocations"'
            done = subprocess.run([os.path.join(ROOT, "lambda_local"), "up", "../made/up.json", "--", "sh", "-c",
                                   command],
                                  cwd=os.path.join(root, "else where"),
                                  stdout=subprocess.PIPE, stderr=subprocess.PIPE, text=True, timeout=120)
            self.check("lambda_local up runs it from a third folder", (done.returncode, done.stdout),
                       (0, json.dumps(os.path.join(root, "app", "src"))))

    def test_layers_of_each_dialect_are_taken(self):
        template = {"Resources": {
            "Shared": {"Type": "AWS::Serverless::LayerVersion", "Properties": {"ContentUri": "layer"}},
            "Built": {"Type": "AWS::Serverless::LayerVersion", "Properties": {"ContentUri": "src"},
                      "Metadata": {"BuildMethod": "python3.12"}},
            "Asset": {"Type": "AWS::Lambda::LayerVersion", "Properties": {"Content": {"S3Bucket": "b", "S3Key": "k"}},
                      "Metadata": {"aws:asset:path": "layer"}},
            "Far": {"Type": "AWS::Lambda::LayerVersion", "Properties": {"Content": {"S3Bucket": "b", "S3Key": "k"}}},
            "Gone": {"Type": "AWS::Serverless::LayerVersion", "Properties": {"ContentUri": "not/here"}},
            **{name: {"Type": "AWS::Serverless::Function", "Properties": {
                "Runtime": "python3.12", "Handler": "app.run", "CodeUri": "src", "Layers": listed}}
               for name, listed in {
                   "F": [{"Ref": "Shared"}, {"Ref": "Asset"}],
                   "G": [{"Ref": "Built"}, {"Ref": "Far"}, {"Ref": "Gone"},
                         "arn:aws:lambda:us-east-1:1:layer:x:1"]}.items()}}}
        self.case("the layers of a SAM template", template, {
            "F": {"name": "F", "directory": "src", "handler": "app.run",
                  "layers": ["layer", "layer"],
                  **python("app.run")},
            "G": {"name": "G", "directory": "src", "handler": "app.run", "layers": ["src"],
                  **python("app.run")}},
            "G: the layer Built is built from src: build it", "G: ignores the layer Far, whose content is not here",
            "G: ignores the layer Gone: not/here is not a folder or .zip file (yet)",
            "G: ignores the layer arn:aws:lambda:us-east-1:1:layer:x:1, whose content is not here",
            folders=("src", "layer/python"))
        if HAS_YAML:
            self.case("the layers of a serverless.yml", "service: s\nprovider: {name: aws, runtime: python3.12}\n"
                      "layers:\n  common-code: {path: layer}\nfunctions:\n  f:\n    handler: app.run\n"
                      "    layers: [{Ref: CommonDashcodeLambdaLayer}]\n", {
                          "s-dev-f": {"name": "s-dev-f", "handler": "app.run", "timeout": 6,
                                      "memory": 1024,
                                      "layers": ["layer"], **python("app.run")}}, folders=("layer",),
                      name="serverless.yml")

    def test_schedules_of_SAM_are_taken(self):
        def sam(**events):
            return {"Resources": {"F": {"Type": "AWS::Serverless::Function", "Properties": {
                "Runtime": "python3.12", "Handler": "app.run", "CodeUri": "src", "Events": events}}}}

        def made(schedule):
            return {"F": {"name": "F", "directory": "src", "handler": "app.run",
                          **({"schedule": schedule} if schedule else {}), **python("app.run")}}
        self.case("a schedule of SAM",
                  sam(Tick={"Type": "Schedule", "Properties": {"Schedule": "rate(5 minutes)"}}),
                  made("rate(5 minutes)"))
        self.case("two, one with its input", sam(
            A={"Type": "Schedule", "Properties": {"Schedule": "rate(1 hour)"}},
            B={"Type": "ScheduleV2", "Properties": {"ScheduleExpression": "cron(0 12 * * ? *)", "Input": '{"a": 1}'}}),
            made(["rate(1 hour)", {"expression": "cron(0 12 * * ? *)", "input": {"a": 1}}]))
        self.case("one that is not enabled, and one that is none here", sam(
            A={"Type": "Schedule", "Properties": {"Schedule": "rate(1 hour)", "Enabled": False}},
            B={"Type": "ScheduleV2", "Properties": {"ScheduleExpression": "at(2030-01-01T00:00:00)"}}), made(None),
            "F: ignores its event A, which is not enabled", "F: ignores its event B, at(2030-01-01T00:00:00): ")

    def test_schedules_of_CDK_are_taken(self):
        def made(schedule):
            return {"F": {"name": "F", "directory": "src", "handler": "app.run",
                          **({"schedule": schedule} if schedule else {}), **python("app.run")}}
        cdk = {"Resources": {
            "Fn1": {"Type": "AWS::Lambda::Function", "Properties": {"Runtime": "python3.12", "Handler": "app.run"},
                    "Metadata": {"aws:asset:path": "src"}},
            "Rule1": {"Type": "AWS::Events::Rule", "Properties": {
                "ScheduleExpression": "rate(1 day)", "State": "ENABLED",
                "Targets": [{"Arn": {"Fn::GetAtt": ["Fn1", "Arn"]}, "Id": "Target0", "Input": '{"from":"rule"}'}]}},
            "Rule2": {"Type": "AWS::Events::Rule", "Properties": {
                "EventPattern": {"source": ["aws.s3"]}, "Targets": [{"Arn": {"Fn::GetAtt": ["Fn1", "Arn"]}}]}}}}
        self.case("a rule of CDK", cdk, {"Fn1": {"name": "Fn1", "directory": "src",
                                                 "handler": "app.run",
                                                 "schedule": {"expression": "rate(1 day)", "input": {"from": "rule"}},
                                                 **python("app.run")}},
                  "Rule2: ignores this AWS::Events::Rule, which has no ScheduleExpression")

    def test_schedules_of_Serverless_are_taken(self):
        def made(schedule):
            return {"F": {"name": "F", "directory": "src", "handler": "app.run",
                          **({"schedule": schedule} if schedule else {}), **python("app.run")}}
        if HAS_YAML:
            self.case("schedules of a serverless.yml",
                      "service: s\nprovider: {name: aws, runtime: python3.12}\nfunctions:\n"
                      "  f:\n    handler: app.run\n    events:\n      - schedule: rate(10 minutes)\n"
                      "      - schedule: {rate: ['cron(0 12 * * ? *)'], input: {a: 1}}\n"
                      "      - schedule: {rate: rate(1 hour), enabled: false}\n", {
                          "s-dev-f": {"name": "s-dev-f", "handler": "app.run", "timeout": 6,
                                      "memory": 1024,
                                      "schedule": ["rate(10 minutes)",
                                                   {"expression": "cron(0 12 * * ? *)", "input": {"a": 1}}],
                                      **python("app.run")}}, "ignores its schedule, which is not enabled",
                      name="serverless.yml")

    def test_what_is_the_same_of_several_functions_is_said_once(self):
        """What is the same of several functions is said once."""
        of: Dict[str, Any] = {"Type": "AWS::Serverless::Function", "Properties": {
            "Runtime": "python3.12", "Handler": "app.run", "CodeUri": "src",
            "Environment": {"Variables": {"TABLE": {"Ref": "Table"}}}}}
        _, said = made_of({"Resources": {"F": of, "G": of, "H": of, "Table": {"Type": "AWS::DynamoDB::Table"}}})
        lines = [line for line in said.splitlines() if "Table" in line]
        self.check("a table that three functions name is one line", lines, [
            "from_template: ignores Table, AWS::DynamoDB::Table, which another service must have "
            "(docs/services.md): TABLE of F, G, H names it"])
        of["Properties"]["Environment"]["Variables"]["TABLE"] = {"Ref": "Other"}
        _, said = made_of({"Resources": {"F": of, "G": of, "H": of}})
        lines = [line for line in said.splitlines() if "placeholder" in line]
        self.check("a placeholder that three functions have is one line", (len(lines), lines[0].startswith(
            "from_template: F, G, H: the variable TABLE is ") if lines else None), (1, True))
