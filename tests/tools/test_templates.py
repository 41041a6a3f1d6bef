"""Checks what lambda_local up makes of projects: which file it finds, nested stacks, what `cdk synth` writes, OpenAPI,
variables of Serverless, and templates that would read other files."""
import os
import subprocess
from unittest.mock import patch

from lambda_local.configuration import Members
from lambda_local.from_template import find
from lambda_local.from_template.given import Given
from lambda_local.from_template.messages import Fault
from tests import ROOT
from tests.library.cases import Case
from tests.library.project_kit import folder_of, made_by, sam, variables_of, write
from tests.library.template_kit import FROM_TEMPLATE, HAS_YAML, python

SQS = "arn:aws:sqs:us-east-1:123456789012:"

CDK_FUNCTION: Members = {"Type": "AWS::Lambda::Function", "Properties": {
    "Handler": "app.run", "Runtime": "provided.al2023",
    "Code": {"S3Bucket": {"Fn::Sub": "b-${AWS::AccountId}"}, "S3Key": "abc.zip"}}}


class Templates(Case):
    def test_files_are_found_in_the_order_of_the_page(self):
        """The order of docs/templates.md."""
        order = ["up.json", ".aws-sam/build/template.yaml", "template.yaml", "template.yml", "template.json",
                 "serverless.yml", "serverless.yaml", "serverless.json", "cdk.out"]
        with folder_of() as folder:
            write(folder, {name: "{}" for name in order[:-1]})
            write(folder, {"cdk.out/manifest.json": "{}"})
            seen = []
            for name in order:
                seen.append(os.path.relpath(find.source_of(folder).path, folder))
                path = os.path.join(folder, name)
                os.remove(os.path.join(path, "manifest.json") if os.path.isdir(path) else path)
            self.check("what is taken first", seen, order)
            with self.assertRaises(Fault) as caught:
                find.source_of(folder)
            self.check("nothing", str(caught.exception), f"{folder} has no project that can be served: there is no "
                       "up.json, template.yaml, serverless.yml, cdk.out or .aws-sam/build; name a file")
            write(folder, {"cdk.json": "{}"})
            with self.assertRaises(Fault) as caught:
                find.source_of(folder)
            self.check("an app of CDK that is not synthesized", str(caught.exception).endswith(": run cdk synth"))
            write(folder, {"a.json": {"functions": [{"name": "f"}]}, "b.json": {"Resources": {}},
                           "c.json": {"service": "s", "provider": {}, "functions": {}}, "d.json": "{"})
            self.check("by what a file has", [find.source_of(os.path.join(folder, f"{name}.json")).is_template
                                              for name in "abcd"], [False, True, True, False])

    def test_a_built_template_that_is_older_is_told(self):
        with folder_of(template_0_yaml="{}", _0_aws="") as folder:
            write(folder, {".aws-sam/build/template.yaml": "{}"})
            os.utime(os.path.join(folder, ".aws-sam/build/template.yaml"), (1, 1))
            self.check("what is built is older", "template.yaml has changed since: run sam build"
                       in find.source_of(folder).note)

    def test_one_command_serves_a_template_and_six_parallel_callers(self):
        """One command, and six parallel callers are answered."""
        app = ("import json, os, time\ndef run(event, context):\n    time.sleep(0.3)\n"
               "    return {'statusCode': 200, 'body': os.environ['STAGE'] + event['pathParameters']['id']}\n")
        template = {"Parameters": {"Stage": {"Type": "String", "Default": "dev"}}, "Resources": {"Orders": sam(
            Runtime="python3.12", Environment={"Variables": {"STAGE": {"Ref": "Stage"}}},
            Events={"Get": {"Type": "HttpApi", "Properties": {"Path": "/orders/{id}", "Method": "get"}}})}}
        code = ("import concurrent.futures, os, urllib.request\n"
                "def ask(n):\n    url = os.environ['LAMBDA_LOCAL_ROUTES']\n"
                "    with urllib.request.urlopen(url + f'/orders/{n}') as it:"
                "\n        return it.read().decode()\n"
                "with concurrent.futures.ThreadPoolExecutor(6) as pool:\n    print(*pool.map(ask, range(6)))\n")
        with folder_of(template_0_json=template, src__app_0_py=app, ask_0_py=code) as folder:
            done = subprocess.run([os.path.join(ROOT, "lambda_local"), "up", "--parameter", "Stage=prod", "--",
                                   "python3", "ask.py"], cwd=folder, capture_output=True, text=True, timeout=120)
            self.check("a template is served as it is", (done.returncode, done.stdout),
                       (0, "prod0 prod1 prod2 prod3 prod4 prod5\n"), shown=done.stderr)
            for line in ("[up] found template.json", "[up] serves template.json: 1 function",
                         "GET http://127.0.0.1:"):
                self.check(f"it says {line}", line in done.stderr, shown=done.stderr)
            for words, fault in ((["--parameter", "Stag=x"], "--parameter Stag: template.json has no such parameter, "
                                                             "did you mean Stage?"),
                                 (["--stage", "x"], "--stage: template.json is not a serverless.yml"),
                                 (["nowhere.yaml"], "nowhere.yaml: No such file or directory: name a template")):
                done = subprocess.run([os.path.join(ROOT, "lambda_local"), "up", *words, "--", "true"], cwd=folder,
                                      capture_output=True, text=True, timeout=60)
                self.check(f"wrong: {fault}", (done.returncode, fault in done.stderr), (2, True), shown=done.stderr)

    def test_from_template_overwrites_what_it_wrote_itself_and_nothing_else(self):
        """from_template overwrites what it wrote itself, and nothing else."""
        with folder_of(template_0_json={"Resources": {"F": sam()}}, src__bootstrap="") as folder:
            def eject(*words):
                done = subprocess.run([*FROM_TEMPLATE, "-o", "up.json", *words], cwd=folder, capture_output=True,
                                      text=True, timeout=60)
                return done.returncode, done.stderr
            path = os.path.join(folder, "up.json")
            self.check("written, and written again", (eject("template.json"), eject("template.json")),
                       ((0, ""), (0, "")))
            with open(path) as file:
                text = file.read().replace('"src"', '"mine"')
            with open(path, "w") as file:
                file.write(text)
            status, said = eject("template.json")
            with open(path) as file:
                self.check("what was changed by hand is kept", (status, "--force overwrites it" in said, file.read()),
                           (2, True, text))
            self.check("unless that is asked for", (eject("--force", "template.json")[0], os.listdir(folder)),
                       (0, os.listdir(folder)))
            write(folder, {"up.json": "{}"})
            self.check("nor what somebody else wrote", eject("template.json")[0], 2)

    def test_globals_are_merged_as_SAM_does(self):
        """As SAM merges them (SAM Developer Guide, "Globals section"): lists are joined, maps merged, the rest is the
        resource's own."""
        shared = {"Layers": [{"Ref": "L1"}], "Timeout": 3, "Environment": {"Variables": {"A": "g", "B": "g"}}}
        template = {"Globals": {"Function": shared, "HttpApi": {"CorsConfiguration": {"AllowOrigins": ["http://a"],
                                                                                    "MaxAge": 5}}},
                    "Resources": {
            "L1": {"Type": "AWS::Serverless::LayerVersion", "Properties": {"ContentUri": "one"}},
            "L2": {"Type": "AWS::Serverless::LayerVersion", "Properties": {"ContentUri": "two"}},
            "Shop": {"Type": "AWS::Serverless::HttpApi", "Properties": {"CorsConfiguration": {
                "AllowOrigins": ["http://b"]}}},
            "F": sam(Layers=[{"Ref": "L2"}], Timeout={"Fn::If": ["Slow", 9, 3]}, Environment={"Variables": {"B": "f"}},
                     Events={"Two": {"Type": "HttpApi", "Properties": {"Path": "/b", "Method": "get",
                                                                        "ApiId": {"Ref": "Shop"}}}})},
                    "Conditions": {"Slow": {"Fn::Equals": ["a", "a"]}}}
        with folder_of(template_0_json=template, one__python__a_0_py="", two__python__b_0_py="") as folder:
            made, whole, _ = made_by(os.path.join(folder, "template.json"))
            self.check("lists and maps of Globals", (made["F"]["layers"], made["F"]["variables"], made["F"]["timeout"]),
                       (["one", "two"], {"A": "g", "B": "f"}, 9))
            self.check("of an API", whole["api"]["cors"], {"allowOrigins": ["http://a", "http://b"], "maxAge": 5})

    def test_nested_stacks_have_what_is_passed_and_give_what_they_have(self):
        """Nested stacks, with what is passed to them and what they give, and two APIs that have the same route."""
        event = {"Get": {"Type": "HttpApi", "Properties": {"Path": "/orders", "Method": "get"}}}
        inner = {"Parameters": {"Table": {"Type": "String"}, "Mode": {"Type": "String", "Default": "off"}},
                 "Conditions": {"On": {"Fn::Equals": [{"Ref": "Mode"}, "on"]}},
                 "Resources": {"F": sam(Environment={"Variables": {"T": {"Ref": "Table"}}}, Events=event),
                               "Extra": {**sam(), "Condition": "On"}},
                 "Outputs": {"Name": {"Value": {"Ref": "F"}}}}
        template = {"Resources": {
            "F": sam(Events=event, Environment={"Variables": {"OTHER": {"Fn::GetAtt": ["Sub", "Outputs.Name"]}}}),
            "Orders": {"Type": "AWS::DynamoDB::Table", "Properties": {"TableName": "orders"}},
            "Sub": {"Type": "AWS::Serverless::Application", "Properties": {
                "Location": "sub/template.json", "Parameters": {"Table": {"Ref": "Orders"}, "Mode": "on"}}},
            "Old": {"Type": "AWS::CloudFormation::Stack", "Properties": {"TemplateURL": "sub/plain.json"}},
            "Store": {"Type": "AWS::Serverless::Application", "Properties": {"Location": {"ApplicationId": "a"}}},
            "Out": {"Type": "AWS::Serverless::Application", "Properties": {"Location": "../template.json"}},
            "Round": {"Type": "AWS::Serverless::Application", "Properties": {"Location": "sub/gone.json"}}}}
        with folder_of(template_0_json=template, sub__template_0_json=inner, sub__src__bootstrap="",
                       sub__plain_0_json={"Resources": {"Plain": sam(Runtime="provided.al2023")}}) as folder:
            made, whole, said = made_by(os.path.join(folder, "template.json"))
            self.check("functions of all stacks", {name: function["directory"] for name, function in made.items()},
                       {"F": "src", "Sub-F": "sub/src", "Extra": "sub/src", "Plain": "sub/src"})
            self.check("what is passed, and what comes back", (variables_of(made, "Sub-F"), variables_of(made)),
                       ({"T": "orders"}, {"OTHER": "Sub-F"}))
            self.check("each API has its route", (whole["routes"], whole["apis"]),
                       ({"GET /orders": "F"}, {"Sub-ServerlessHttpApi": {"routes": {"GET /orders": "Sub-F"}}}))
            for words in ("ignores Store, AWS::Serverless::Application: its template",
                          f"ignores Out, AWS::Serverless::Application: ../template.json is outside of {folder}",
                          "ignores Round, AWS::Serverless::Application: "):
                self.check(f"nested: {words}", words in said, shown=said)

    def test_a_stack_in_itself_ends(self):
        circle = {"Resources": {"F": sam(), "Sub": {"Type": "AWS::Serverless::Application",
                                                    "Properties": {"Location": "template.json"}}}}
        with folder_of(template_0_json=circle) as folder:
            self.check("a stack in itself", "its stacks are nested too deep" in str(
                made_by(os.path.join(folder, "template.json"))))

    def test_an_assembly_of_CDK_is_read_with_stacks_assets_and_exports(self):
        """A folder that `cdk synth` writes: its stacks, assets, nested stacks, exports and stages."""
        function = CDK_FUNCTION
        assets = {"version": "36", "files": {"abc": {"source": {"path": "asset.abc", "packaging": "zip"},
                                                     "destinations": {"d": {"objectKey": "abc.zip"}}}}}
        one = {"Resources": {"One": function, "Table": {"Type": "AWS::DynamoDB::Table",
                                                        "Properties": {"TableName": "t"}},
                             "Provider": function, "Custom": {"Type": "Custom::Thing", "Properties": {
                                 "ServiceToken": {"Fn::GetAtt": ["Provider", "Arn"]}}},
                             "Nest": {"Type": "AWS::CloudFormation::Stack", "Properties": {"TemplateURL": {
                                 "Fn::Join": ["", ["https://s3.", {"Ref": "AWS::URLSuffix"}]]}},
                                      "Metadata": {"aws:asset:path": "OneNest.nested.template.json"}}},
               "Outputs": {"O": {"Value": {"Ref": "Table"}, "Export": {"Name": "One:Table"}}}}
        two = {"Resources": {"Two": {**function, "Properties": {**function["Properties"], "Environment": {
            "Variables": {"T": {"Fn::ImportValue": "One:Table"}}}}}}}
        manifest = {"version": "36.0.0", "artifacts": {
            "One.assets": {"type": "cdk:asset-manifest", "properties": {"file": "One.assets.json"}},
            **{name: {"type": "aws:cloudformation:stack", "properties": {"templateFile": f"{name}.template.json"}}
               for name in ("Two", "One")}}}
        with folder_of(manifest_0_json=manifest, One_0_template_0_json=one, Two_0_template_0_json=two,
                       One_0_assets_0_json=assets, Two_0_assets_0_json=assets, asset_0_abc__bootstrap="",
                       OneNest_0_nested_0_template_0_json={"Resources": {"Three": {**function, "Metadata": {
                           "aws:asset:path": "asset.abc"}}}}) as folder:
            made, _, said = made_by(folder, is_assembly=True)
            self.check("all stacks", {name: member.get("directory") for name, member in made.items()},
                       dict.fromkeys(("Two", "One", "Three"), "asset.abc"), shown=said)
            self.check("an export", variables_of(made, "Two"), {"T": "t"})
            self.check("what deployments alone invoke", "ignores Provider, which serves custom resources" in said,
                       shown=said)

    def test_a_stage_of_an_assembly_can_be_chosen(self):
        app = {"artifacts": {f"assembly-{name}": {"type": "cdk:cloud-assembly", "properties": {
            "directoryName": f"assembly-{name}"}} for name in ("Dev", "Prod")}}
        stage = {"artifacts": {"S": {"type": "aws:cloudformation:stack", "properties": {
            "templateFile": "S.template.json"}}}}
        with folder_of(manifest_0_json=app) as folder:
            for name in ("Dev", "Prod"):
                write(folder, {f"assembly-{name}/manifest.json": stage, f"assembly-{name}/S.template.json": {
                    "Resources": {name: CDK_FUNCTION}}})
            self.check("the first stage", (list(made_by(folder, is_assembly=True)[0]),
                                           "uses stage Dev" in made_by(folder, is_assembly=True)[2]),
                       (["Dev"], True))
            self.check("another one", list(made_by(folder, is_assembly=True, stage="prod")[0]), ["Prod"])
            self.check("none", made_by(folder, is_assembly=True, stage="x")[0],
                       "--stage x: there is no such stage; there are Dev, Prod")

    def test_routes_of_OpenAPI_are_taken(self):
        """Routes of an API that OpenAPI describes (API Gateway Developer Guide, "x-amazon-apigateway-integration")."""
        def operation(uri, kind="aws_proxy", **more):
            return {"x-amazon-apigateway-integration": {"type": kind, "httpMethod": "POST", "uri": uri, **more}}
        uri = {"Fn::Sub": "arn:aws:apigateway:${AWS::Region}:lambda:path/2015-03-31/functions/${F.Arn}/invocations"}
        body = {"openapi": "3.0.1", "paths": {
            "/orders/{id}": {"get": operation(uri), "options": operation(None, "mock"),
                             "parameters": [{"name": "id"}]},
            "/all": {"x-amazon-apigateway-any-method": operation(uri)},
            "/far": {"get": operation("http://far.example", "http_proxy")}, "/none": {"get": {}},
            "/safe": {"get": {**operation(uri), "security": [{"key": []}]}}}}
        http = {"paths": {"/http": {"get": operation(uri, payloadFormatVersion="2.0")}}}
        template = {"Resources": {
            "F": sam(), "Rest": {"Type": "AWS::Serverless::Api", "Properties": {"StageName": "v1",
                                                                                "DefinitionBody": body}},
            "Http": {"Type": "AWS::Serverless::HttpApi", "Properties": {"DefinitionBody": {"Fn::Transform": {
                "Name": "AWS::Include", "Parameters": {"Location": "http.json"}}}}},
            "Gone": {"Type": "AWS::Serverless::HttpApi", "Properties": {"DefinitionUri": "../http.json"}}}}
        with folder_of(template_0_json=template, http_0_json=http) as folder:
            _, whole, said = made_by(os.path.join(folder, "template.json"))
            rest = {"function": "F", "payload": "1.0", "stage": "v1"}
            self.check("routes of OpenAPI", whole["routes"], {
                "GET /orders/{id}": rest, "ANY /all": rest, "GET /safe": rest, "GET /http": "F"}, shown=said)
            for words in ("ignores GET /far of Rest: its integration HTTP_PROXY is not a function here",
                          "ignores GET /none of Rest: it has no x-amazon-apigateway-integration",
                          "ignores security key of GET /safe of Rest, which",
                          "ignores DefinitionUri of Gone: ../http.json"):
                self.check(f"OpenAPI: {words}", words in said, shown=said)

    def test_variables_of_serverless_have_the_sources_that_it_names(self):
        """Sources of values that a serverless.yml has (Serverless Framework, "Variables")."""
        whole = {"service": "${file(config.json):service}", "useDotenv": True, "provider": {
            "runtime": "provided", "stage": "${opt:stage, 'dev'}", "environment": "${file(env.json)}"},
            "custom": "${file(custom.json)}", "functions": ["${file(fns.json)}", {"g": "${file(fns.json):f}"}],
            "params": {"default": {"p": "d"}, "prod": {"p": "of prod"}}}
        variables = {"A": "${file(config.json):deep.0.${sls:stage}, 'none'}", "B": "${env:ONLY_IN_FILE}",
                     "C": "${self:custom.c}", "D": "${opt:size, 'small'}", "E": "${strToBool(${self:custom.yes})}",
                     "F": "${param:p}", "G": "${file(gone.json):x, 'default'}", "H": "${file(text.txt)}",
                     "I": "${file(code.js):x}", "J": "${file(../out.json):x}", "K": "${file(link.json):x}"}
        with folder_of() as above:
            folder = os.path.join(above, "app")
            write(folder, {"serverless.json": whole,
                           "config.json": {"service": "shop", "deep": [{"dev": "D", "prod": "P"}]},
                           "env.json": {"ALL": "${self:service}-${sls:stage}"}, "text.txt": "plain\n",
                           "custom.json": {"c": "${self:custom.inner}", "inner": 7, "yes": "true"},
                           "fns.json": {"f": {"handler": "x", "environment": variables}}, "code.js": "throw 1",
                           ".env": "ONLY_IN_FILE=default\n", ".env.prod": "ONLY_IN_FILE=prod\n"})
            write(above, {"out.json": {"x": "outside"}})
            os.symlink(os.path.join(above, "out.json"), os.path.join(folder, "link.json"))
            path = os.path.join(folder, "serverless.json")
            made, _, said = made_by(path)
            common = {"C": "7", "E": "true", "G": "default", "H": "plain"}
            self.check("functions of files", sorted(made), ["shop-dev-f", "shop-dev-g"], shown=said)
            self.check("values", variables_of(made, "shop-dev-f"),
                       {"ALL": "shop-dev", "A": "D", "B": "default", "D": "small", "F": "d", **common})
            made = made_by(path, stage="prod", parameters=["size=big"])[0]
            self.check("of a stage", variables_of(made, "shop-prod-g"),
                       {"ALL": "shop-prod", "A": "P", "B": "prod", "D": "big", "F": "of prod", **common})
            for words in ("the variable I: file(code.js) is code, which is not run",
                          f"the variable J: file(../out.json): ../out.json is outside of {folder}",
                          f"the variable K: file(link.json): link.json is outside of {folder}"):
                self.check(f"not read: {words}", words in said, shown=said)

    def test_what_nobody_reads_of_a_serverless_yml_is_said(self):
        """What nobody reads is said, of each object."""
        if not HAS_YAML:
            self.skipTest("PyYAML is not here")
        text = ("service: s\nprovider: {name: aws, runtime: provided, tracing: {lambda: true}, iam: {role: x}}\n"
                "functions:\n"
                "  f:\n    handler: x\n    url: {authorizer: aws_iam, invokeMode: RESPONSE_STREAM, colour: x}\n"
                "    tracing: Active\n    events:\n"
                "      - http: {path: a, method: get, async: true, private: true, authorizer: auth,"
                " request: {schemas: {}}, integration: lambda}\n"
                "      - httpApi: {path: /b, method: get, authorizer: {name: jwt}}\n"
                "      - schedule: {rate: rate(1 hour), inputPath: $.a}\n      - stream: arn\n")
        with folder_of(serverless_0_yml=text) as folder:
            made, _, said = made_by(os.path.join(folder, "serverless.yml"))
            self.check("a URL that streams", made["s-dev-f"]["url"], {"invoke": "RESPONSE_STREAM"})
            for words in ("ignores tracing of provider", "its URL takes requests without a signature here",
                          "ignores colour of its URL",
                          "ignores async, private, request of its event http",
                          "ignores the authorizer auth of get a, so its routes take each caller: there is no",
                          "its event http is a proxy integration here, not lambda",
                          "ignores the authorizer jwt of get /b, which takes each caller",
                          "ignores inputPath of its schedule",
                          "ignores its event stream, Kinesis: arn is not the ARN of a stream",
                          "s-dev-f: ignores tracing"):
                self.check(f"Serverless: {words}", words in said, shown=said)

    def test_what_nobody_reads_of_a_SAM_template_is_said(self):
        template = {"Resources": {"F": sam(Tracing="Active", VpcConfig={}, Role="x", Tags={"a": "b"}, Events={
            "A": {"Type": "Api", "Properties": {"Path": "/a", "Method": "get", "Auth": {"Authorizer": "x"}}},
            "B": {"Type": "ScheduleV2", "Properties": {"ScheduleExpression": "cron(0 9 * * ? *)", "KmsKeyArn": "x",
                                                       "ScheduleExpressionTimezone": "Europe/Berlin"}},
            "C": {"Fn::If": ["No", {"Type": "S3"}, {"Ref": "AWS::NoValue"}]}, "D": {"Type": "DynamoDB"},
            "E": {"Type": "S3"}}, LoggingConfig={"LogFormat": "JSON", "ApplicationLogLevel": "DEBUG"})},
            "Conditions": {"No": {"Fn::Equals": ["a", "b"]}}}
        with folder_of(template_0_json=template) as folder:
            made, _, said = made_by(os.path.join(folder, "template.json"))
            self.check("a time zone", made["F"]["schedule"], {"expression": "cron(0 9 * * ? *)",
                                                              "timezone": "Europe/Berlin"})
            self.check("the log's format", variables_of(made), {"AWS_LAMBDA_LOG_FORMAT": "JSON",
                                                                "AWS_LAMBDA_LOG_LEVEL": "DEBUG"})
            for words in ("F: ignores Tracing, VpcConfig\n", "ignores the authorizer x of GET /a of F,",
                          "ignores KmsKeyArn of its event B",
                          "ignores its event D, DynamoDB: its stream is not known here\n",
                          "ignores its event E (S3): lambda_local invoke --sample s3 sends one like it"):
                self.check(f"SAM: {words.strip()}", words in said, shown=said)
            self.check("what a condition leaves out is not there", "its event C" in said, False)

    def test_aliases_retries_and_destinations_are_taken(self):
        """Aliases, retries and destinations."""
        config = {"MaximumRetryAttempts": 0, "MaximumEventAgeInSeconds": 60, "DestinationConfig": {"OnFailure": {
            "Type": "Lambda", "Destination": {"Fn::GetAtt": ["G", "Arn"]}}}}
        template = {"Resources": {
            "F": sam(AutoPublishAlias="live", EventInvokeConfig=config), "G": sam(
                Environment={"Variables": {"ALIAS": {"Ref": "F.Alias"}, "VERSION": {"Ref": "F.Version"},
                                           "OWN": {"Ref": "Blue"}}},
                DeadLetterQueue={"Type": "SQS", "TargetArn": {"Fn::GetAtt": ["Dead", "Arn"]}}),
            "Dead": {"Type": "AWS::SQS::Queue", "Properties": {"QueueName": "dead"}},
            "Blue": {"Type": "AWS::Lambda::Alias", "Properties": {"Name": "blue", "FunctionName": {"Ref": "G"},
                                                                  "FunctionVersion": "1"}},
            "Config": {"Type": "AWS::Lambda::EventInvokeConfig", "Properties": {
                "FunctionName": {"Ref": "G"}, "MaximumRetryAttempts": 1, "Qualifier": "$LATEST"}}}}
        arn = "arn:aws:lambda:us-east-1:123456789012:function:"
        with folder_of(template_0_json=template) as folder:
            made, _, said = made_by(os.path.join(folder, "template.json"))
            self.check("aliases", (made["F"]["aliases"], made["G"]["aliases"], variables_of(made, "G")),
                       (["live"], ["blue"], {"ALIAS": f"{arn}F:live", "VERSION": f"{arn}F", "OWN": f"{arn}G:blue"}))
            self.check("asynchronous invocations", (made["F"]["asynchronous"], made["G"]["asynchronous"]),
                       ({"retries": 0, "maximumAge": 60, "onFailure": "G"}, {"retries": 1}))
            dead = "arn:aws:sqs:us-east-1:123456789012:dead"
            wanted = (f'G: ignores DeadLetterQueue, {dead}, which would get each event that failed: set '
                      'AWS_ENDPOINT_URL_SQS (docs/services.md), or "asynchronous": {"deadLetter": {"arn": .., "url": '
                      "..}} of it in lambda_local.json")
            self.check("a queue for dead letters, of no server", wanted in said, shown=said)
            with patch.dict(os.environ, {"AWS_ENDPOINT_URL_SQS": "http://127.0.0.1:5000/"}):
                made, _, said = made_by(os.path.join(folder, "template.json"))
            self.check("a queue for dead letters, of a server", (made["G"]["asynchronous"], "DeadLetter" in said), (
                {"retries": 1, "deadLetter": {"arn": dead, "url": "http://127.0.0.1:5000"}}, False), shown=said)
            write(folder, {"lambda_local.json": {"functions": {"G": {"asynchronous": {"deadLetter": {
                "arn": dead, "url": "http://127.0.0.1:1"}}}}}})
            self.check("what that line says to write", made_by(os.path.join(folder, "template.json"))[0]["G"][
                "asynchronous"], {"retries": 1, "deadLetter": {"arn": dead, "url": "http://127.0.0.1:1"}})

    def test_destinations_of_Serverless_are_taken(self):
        whole = {"service": "s", "provider": {"runtime": "provided"}, "functions": {
            "f": {"handler": "x", "maximumRetryAttempts": 2, "destinations": {
                "onFailure": {"Ref": "GLambdaFunction"}, "onSuccess": {"type": "sqs", "arn": f"{SQS}good"}},
                  "onError": "arn:aws:sns:us-east-1:123456789012:dead"},
            "g": {"handler": "x", "package": {"artifact": "g.zip"}}}}
        with folder_of(serverless_0_json=whole, g_0_zip="") as folder:
            with patch.dict(os.environ, {"AWS_ENDPOINT_URL": "http://127.0.0.1:5000"}):
                made, _, said = made_by(os.path.join(folder, "serverless.json"))
            self.check("Serverless", (made["s-dev-f"].get("asynchronous"), made["s-dev-g"]["directory"]),
                       ({"retries": 2, "onFailure": "s-dev-g",
                         "onSuccess": {"arn": f"{SQS}good", "url": "http://127.0.0.1:5000"},
                         "deadLetter": {"arn": "arn:aws:sns:us-east-1:123456789012:dead",
                                        "url": "http://127.0.0.1:5000"}}, "g.zip"), shown=said)

    def test_a_destination_that_is_no_function_queue_or_topic_is_told(self):
        for what, given, wanted in (
                ("OnSuccess", f"{SQS}q.fifo", "it is not a function here, a queue or a topic"),
                ("OnFailure", "arn:aws:events:us-east-1:123456789012:event-bus/b", "not a function here, a queue"),
                ("OnSuccess", "nobody", "it is not a function here")):
            with folder_of(template_0_json={"Resources": {"F": sam(EventInvokeConfig={"DestinationConfig": {
                    what: {"Destination": given}}})}}) as folder:
                made, _, said = made_by(os.path.join(folder, "template.json"))
                seen = made["F"].get("asynchronous"), wanted in said
                self.check(f"{what}, {given}", seen, (None, True), shown=said)

    def test_a_hostile_template_reads_nothing_outside_of_its_folder_and_ends(self):
        """A template has no file read outside of its folder, and does not stop the tool."""
        with folder_of() as above:
            folder = os.path.join(above, "app")
            write(above, {"secret.json": {"Resources": {"Secret": sam()}}})
            os.makedirs(folder)
            os.symlink(above, os.path.join(folder, "up"))
            os.mkfifo(os.path.join(folder, "pipe.json"))
            names = ("../secret.json", f"{above}/secret.json", "up/secret.json", "pipe.json", "/dev/zero", "a\0b", "/")
            stacks = {f"S{number}": {"Type": "AWS::CloudFormation::Stack", "Properties": {"TemplateURL": name}}
                      for number, name in enumerate(names)}
            template = {"Resources": {"F": sam(), **stacks}}
            write(folder, {"template.json": template})
            made, _, said = made_by(os.path.join(folder, "template.json"))
            self.check("nothing outside is read", (list(made), said.count("AWS::CloudFormation::Stack: ")),
                       (["F"], len(names)), shown=said)
            wide = {"Fn::Join": ["", [{"Ref": "AWS::Region"}] * 20_000]}
            write(folder, {"template.json": {"Resources": {"F": sam(Environment={"Variables": {"A": wide}})}}})
            self.check("an expression of many parts", "nested too deep" in made_by(
                os.path.join(folder, "template.json"))[2])
            if HAS_YAML:
                laughs = "".join(f"x{n}: &x{n} [{', '.join([f'*x{n - 1}'] * 10)}]\n" for n in range(1, 12))
                write(folder, {"t.yaml": f"x0: &x0 [a]\n{laughs}Resources: {{F: {{Type: *x11}}}}\n"})
                self.check("aliases that grow", made_by(os.path.join(folder, "t.yaml"))[0],
                           f"{folder}/t.yaml: its aliases make more than 1,000,000 values")
            self.check("nothing is given", Given().of_function("F"), {})
        self.check("the client of a language", "runtime" in python("x") or "command" in python("x"))
