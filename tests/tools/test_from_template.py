"""Checks the UP.json that lambda_local from_template writes for templates of AWS SAM, CDK and the Serverless Framework:
their functions, and what the values of a template can be."""
import contextlib
import io
import json
import os
import tempfile

from lambda_local.configuration import Members
from tests.library.template_kit import HAS_YAML, SAM, TemplateCase, function_of, made_of, python, up_of


def made_function(**members):
    return {"F": {"name": "F", "command": ["./bootstrap"], **members}}


LESS = """service: shop
provider: {name: aws, runtime: provided.al2023, stage: "${opt:stage, 'dev'}", region: eu-west-1,
           environment: {STAGE: "${self:provider.stage}"}}
custom: {table: {dev: orders-dev}, limits: {seconds: 9}, nothing: null}
functions:
  pay: {handler: app.pay, events: [x], environment: {
    TABLE: "${self:custom.table.${opt:stage, self:provider.stage}}", SECRET: "${ssm:/shop/key}", SIZE: "${opt:size, 3}",
    EMPTY: "${opt:x, ''}",
    QUEUE: {Ref: Queue}, WHERE: "${aws:region}/${aws:accountId}", OTHER: {Ref: RefundLambdaFunction},
    BOTH: "a ${opt:y, 'b, c'} d", NOTHING: "${self:custom.nothing}"}}
  refund: {name: "${self:service}-${sls:stage}-back", handler: app.refund, timeout: "${self:custom.limits.seconds}"}
  ship: {handler: app.ship, name: "ship-${cf:other.Name}", image: "x"}
plugins: [a]
"""


class FromTemplate(TemplateCase):
    def test_a_SAM_template_is_made_into_an_UP_json(self):
        if not HAS_YAML:
            self.skipTest("PyYAML is not here")
        common = {"variables": {"A": "1", "LIVE": "true"}}
        self.case("SAM", SAM, {
            "One": {"name": "One", "handler": "app.run", "timeout": 5, **common,
                    "variables": {"A": "1", "LIVE": "true", "B": "Table"}, "directory": "src", **python("app.run")},
            "given": {"name": "given", "handler": "i.h", "reserved": 3, "command": ["./bootstrap"]},
            "orders-dev-us-east-1": {"name": "orders-dev-us-east-1", "handler": "a.b", "timeout": 7, **common,
                                     **python("a.b")},
            "Four": {"name": "Four", "handler": "a.b", "timeout": 5, **python("a.b"), "variables": {
                "A": "1", "LIVE": "true", "OTHER": "orders-dev-us-east-1",
                "ARN": "arn:aws:lambda:us-east-1:123456789012:function:orders-dev-us-east-1",
                "QUEUE": "Queue.Arn", "MODE": "Open", "WHO": "123456789012/${Raw}"}},
        }, "ignores Table, AWS::DynamoDB::Table", "One: ignores the layer x, whose content is not here",
        "ignores Table, AWS::DynamoDB::Table, which another service must have (docs/services.md): B of One names it",
            "Four: it is named Four, since its FunctionName is not known here: it needs the parameter Open, which has "
            "no Default",
            "Four: the variable MODE is Open, a placeholder for the parameter Open",
            "Four: the variable QUEUE is Queue.Arn")

    def test_a_CDK_template_is_made_into_an_UP_json(self):
        asset: Members = {"Type": "AWS::Lambda::Function", "Metadata": {"aws:asset:path": "asset.1"}, "Properties": {
            "Handler": "bootstrap", "Runtime": "provided.al2023", "Code": {"S3Bucket": {"Ref": "x"}}}}
        template = {"Resources": {
            "F1": asset, "F2": {**asset, "Metadata": {}, "Properties": {**asset["Properties"],
                    "FunctionName": {"Fn::Join": ["", ["orders-", {"Ref": "AWS::StackName"}]]}}}}}
        self.case("CDK", template, {
            "F1": {"name": "F1", "handler": "bootstrap", "command": ["./bootstrap"],
                   "directory": "asset.1"},
            "orders-Shop": {"name": "orders-Shop", "handler": "bootstrap"},
        }, "F1: there is no ", "orders-Shop: has no command, since its code is not here",
            "asset.1/bootstrap yet: build it", "orders-Shop: ignores Code, which is not a folder here",
        name="Shop.template.json", folders=["asset.1"])

    def test_a_folder_of_CDK_that_is_not_there_yet_is_told(self):
        asset: Members = {"Type": "AWS::Lambda::Function", "Metadata": {"aws:asset:path": "asset.1"}, "Properties": {
            "Handler": "bootstrap", "Runtime": "provided.al2023", "Code": {"S3Bucket": {"Ref": "x"}}}}
        self.case("CDK, a folder that is not there yet", {"Resources": {"F1": asset}}, {"F1": {
            "name": "F1", "handler": "bootstrap", "command": ["./bootstrap"],
            "directory": "asset.1"}},
            "asset.1 is not a folder (yet)", name="Shop.template.json", folders=[])

    def test_a_serverless_yml_is_made_into_an_UP_json(self):
        if not HAS_YAML:
            self.skipTest("PyYAML is not here")
        # (a timeout of 6 s and 1024 MB are Serverless' own defaults)
        common = {"timeout": 6, "memory": 1024, "command": ["./bootstrap"]}
        self.case("Serverless", LESS, {
            "shop-dev-pay": {"name": "shop-dev-pay", "handler": "app.pay", **common, "variables": {
                "STAGE": "dev", "TABLE": "orders-dev", "SECRET": "/shop/key", "SIZE": "3", "EMPTY": "",
                "QUEUE": "Queue",
                "WHERE": "eu-west-1/123456789012",
                "OTHER": "shop-dev-back", "BOTH": "a b, c d"}},
            "shop-dev-back": {"name": "shop-dev-back", "handler": "app.refund", **common, "timeout": 9,
                              "variables": {"STAGE": "dev"}},
            "ship": {"name": "ship", "handler": "app.ship", "timeout": 6, "memory": 1024,
                     "variables": {"STAGE": "dev"}},
        }, "ignores plugins", "ignores events", "SECRET is /shop/key, a placeholder for ${ssm:/shop/key}",
        "ignores the variable NOTHING, which has no value",
            "ship: it is named ship, since its FunctionName is not known here: it needs ${cf:other.Name}",
            "ship: has no command, since its code is an image", name="serverless.yml")

    def test_variables_in_a_circle_are_told(self):
        made, said = made_of({"service": "s", "provider": {"runtime": "provided"},
                              "custom": {"a": "${self:custom.b}", "b": "${self:custom.a}"},
                              "functions": {"f": {"handler": "x", "environment": {"A": "${self:custom.a}"}}}})
        circle = "ignores the variable A: its expressions are nested too deep, or go round in a circle"
        self.check("Serverless: variables in a circle", (made["s-dev-f"].get("variables"), circle in said),
                   (None, True))

    def test_expressions_are_worked_out(self):
        parameters = {"Stage": {"Type": "String", "Default": "dev"},
                      "Key": {"Type": "AWS::SSM::Parameter::Value<String>", "Default": "/key"},
                      "Many": {"Type": "CommaDelimitedList", "Default": "a, b"}}
        more = {"Parameters": parameters, "Mappings": {"Sizes": {"dev": {"memory": 256}}},
                "Conditions": {"IsProd": {"Fn::Equals": [{"Ref": "Stage"}, "prod"]},
                               "IsDev": {"Fn::Not": [{"Condition": "IsProd"}]},
                               "Both": {"Fn::And": [{"Condition": "IsProd"}, {"Condition": "IsDev"}]},
                               "Either": {"Fn::Or": [{"Condition": "IsProd"}, {"Condition": "IsDev"}]}}}
        variables = {
            "JOIN": {"Fn::Join": ["-", ["a", {"Ref": "Stage"}, 1]]},
            "SUB": {"Fn::Sub": ["${x}-${Stage}", {"x": {"Ref": "AWS::Partition"}}]},
            "MAP": {"Fn::FindInMap": ["Sizes", {"Ref": "Stage"}, "memory"]}, "IF": {"Fn::If": ["IsProd", "yes", "no"]},
            "OR": {"Fn::If": ["Either", "yes", "no"]},
            "AND": {"Fn::If": ["Both", "yes", "no"]}, "GONE": {"Fn::If": ["IsProd", "x", {"Ref": "AWS::NoValue"}]},
            "SELECT": {"Fn::Select": [1, {"Ref": "Many"}]},
            "SPLIT": {"Fn::Select": [0, {"Fn::Split": ["/", "x/y"]}]}, "STACK": {"Ref": "AWS::StackId"},
            "TABLE": {"Ref": "Named"}, "KEY": {"Ref": "Key"},
            "IMPORT": {"Fn::ImportValue": "net"}, "SECRET": "{{resolve:secretsmanager:x}}", "NULL": None, "LIST": [1],
            "CIDR": {"Fn::Cidr": ["a", 1, 2]}, "BAD": {"Fn::Join": 5}}
        template = function_of(Environment={"Variables": variables},
                               MemorySize={"Fn::FindInMap": ["Sizes", {"Ref": "Stage"}, "memory"]})
        template.update(more)
        template["Resources"]["Named"] = {"Type": "AWS::DynamoDB::Table",
                                          "Properties": {"TableName": {"Fn::Sub": "orders-${Stage}"}}}
        template["Resources"]["Off"] = {**template["Resources"]["F"], "Condition": "IsProd"}
        self.case("expressions", template, made_function(memory=256, variables={
            "JOIN": "a-dev-1", "SUB": "aws-dev", "MAP": "256", "IF": "no", "OR": "yes", "AND": "no", "SELECT": "b",
            "SPLIT": "x", "TABLE": "orders-dev", "KEY": "/key",
            "STACK": "arn:aws:cloudformation:us-east-1:123456789012:stack/Shop/00000000-0000-0000-0000-000000000000",
            "IMPORT": "net", "SECRET": "{{resolve:secretsmanager:x}}"}),
            "ignores Off: its condition IsProd is not met",
            "the variable KEY is /key, a placeholder for the parameter Key, whose value is in the Parameter Store",
            "IMPORT is net, a placeholder for the export net", "SECRET is {{resolve:secretsmanager:x}}, a placeholder",
            "ignores the variable NULL, which has no value",
            "ignores the variable LIST: [1] is not a string",
            "ignores the variable CIDR: Fn::Cidr is not worked out here",
            "ignores the variable BAD: Fn::Join needs a separator and a list",
            name="Shop.json")

    def test_a_condition_that_cannot_be_worked_out_is_told_and_its_function_taken(self):
        """A function whose condition cannot be worked out is taken, and that is said."""
        for name, conditions, reason in (
                ("one that the template does not have", {}, "there is no condition Wanted"),
                ("one by another that it does not have", {"Wanted": {"Fn::Not": [{"Condition": "Other"}]}},
                 "there is no condition Other"),
                ("a circle", {"Wanted": {"Condition": "Other"}, "Other": {"Fn::Not": [{"Condition": "Wanted"}]}},
                 "its conditions go round in a circle"),
                ("a number", {"Wanted": 5}, "5 is not a condition"),
                ("what is not worked out", {"Wanted": {"Fn::Contains": [["a"], "a"]}},
                 "Fn::Contains is not worked out here")):
            template: Members = {**function_of(), "Conditions": conditions}
            template["Resources"]["F"]["Condition"] = "Wanted"
            self.case(f"a condition: {name}", template, made_function(),
                      f"F: it is kept, since its condition Wanted cannot be worked out here: {reason}")

    def test_a_value_by_a_condition_that_is_not_there_is_told(self):
        self.case("a value by a condition that is not there",
                  function_of(Environment={"Variables": {"A": {"Fn::If": ["Wanted", "yes", "no"]}}}), made_function(),
                  "F: ignores the variable A: there is no condition Wanted")

    def test_an_image_is_told(self):
        self.case("an image", function_of(PackageType="Image", Runtime=None), {"F": {"name": "F"}},
                  "F: has no command, since its code is an image: write one, such as docker run")
        self.case("an image by its URI", function_of(Code={"ImageUri": "x"}), {"F": {"name": "F"}},
                  "its code is an image")
        self.case("an image, and a runtime for all",
                  {"Globals": {"Function": {"Runtime": "python3.12", "Handler": "x.y"}},
                   "Resources": {"F": {"Type": "AWS::Serverless::Function", "Properties": {"PackageType": "Image"}}}},
                  {"F": {"name": "F"}},
                  "its code is an image")

    def test_code_in_the_template_is_told(self):
        self.case("code in the template",
                  function_of(Code={"ZipFile": "exports.x = 1"}, Handler="index.x", Runtime="nodejs20.x"),
                  {"F": {"name": "F", "handler": "index.x", "inline": "exports.x = 1", "runtime": "node"}})
        sam_inline = {"Resources": {"F": {
            "Type": "AWS::Serverless::Function",
            "Properties": {"InlineCode": "x", "Runtime": "python3.12", "Handler": "index.x"}}}}
        self.case("InlineCode", sam_inline,
                  {"F": {"name": "F", "handler": "index.x", "inline": "x", **python("index.x")}})

    def test_code_elsewhere_is_told(self):
        far = {name: value for name, value in made_function()["F"].items() if name not in ("runtime", "command")}
        self.case("code far away", function_of(CodeUri="s3://far/away"), {"F": far},
                  "ignores CodeUri, which is not a folder here", "F: has no command, since its code is not here")
        self.case("code of CloudFormation's package", function_of(Code="src"), made_function(directory="src"))

    def test_a_runtime_without_its_client_is_told(self):
        self.case("Node without its client", function_of(Runtime="nodejs20.x", Handler="a.b"),
                  {"F": {"name": "F", "handler": "a.b", "runtime": "node"}})
        self.case("a runtime that is not known", function_of(Runtime="dotnet8"),
                  {"F": {"name": "F"}},
                  "F: has no command, since none is known for the runtime dotnet8")

    def test_Node_with_its_client_and_an_archive_are_taken(self):
        with tempfile.TemporaryDirectory() as folder:
            os.makedirs(os.path.join(folder, "node_modules", ".bin"))
            os.makedirs(os.path.join(folder, "src"))
            open(os.path.join(folder, "node_modules", ".bin", "aws-lambda-ric"), "w").close()
            open(os.path.join(folder, "code.zip"), "w").close()
            path = os.path.join(folder, "template.json")
            with open(path, "w") as file:
                json.dump({"Resources": {"F": {"Type": "AWS::Serverless::Function",
                                               "Properties": {"CodeUri": "src", "Runtime": "nodejs20.x",
                                                              "Handler": "a.b"}},
                                         "G": {"Type": "AWS::Serverless::Function",
                                               "Properties": {"CodeUri": "code.zip", "Runtime": "java21"}}}}, file)
            with contextlib.redirect_stderr(io.StringIO()) as said:
                made = up_of(path)["functions"]
            self.check("Node with its client", made[0]["command"], ["npx", "aws-lambda-ric", "a.b"])
            self.check("an archive", (made[1].get("directory"), "CodeUri" in said.getvalue()), ("code.zip", False))

    def test_numbers_are_within_their_limits_or_told(self):
        self.case("a huge reservation", function_of(ReservedConcurrentExecutions=300),
                  made_function(reserved=300))
        self.case("a reservation of none", function_of(ReservedConcurrentExecutions=0), made_function(reserved=0))
        self.case("numbers as texts", function_of(Timeout="30", MemorySize="512"), made_function(timeout=30,
                                                                                                 memory=512))
        for name, value in (("Timeout", 901), ("Timeout", 0), ("Timeout", "soon"), ("Timeout", 2.5), ("Timeout", True),
                            ("Timeout", {}), ("MemorySize", [1]), ("ReservedConcurrentExecutions", -1)):
            self.case(f"{name} {value!r}", function_of(**{name: value}), made_function(),
                      f"F: ignores {name}: it must be a whole number from ")

    def test_reservations_are_no_more_than_there_is(self):
        many = {"Resources": {f"F{number}": function_of(ReservedConcurrentExecutions=20)["Resources"]["F"]
                              for number in range(70)}}
        made, said = made_of(many)
        self.check("seventy functions of twenty", len(made), 64)
        self.check("and what is said", "F69: 64 are the most" in said)

    def test_names_that_are_none_are_told(self):
        self.case("a name that is none", function_of(FunctionName="a b"), made_function(),
                  "F: it is named F, since its FunctionName is not known here: a b is not a name of 1 to 64 "
                  "letters, digits, - and _")
        self.case("a name that is too long", function_of(FunctionName="x" * 65), made_function(), "it is named F")
        self.case("a name that is a number", function_of(FunctionName=5),
                  {"5": {"name": "5", "command": ["./bootstrap"]}})
        twice = {"Resources": {key: function_of(FunctionName="same")["Resources"]["F"] for key in ("A", "B", "same")}}
        made, said = made_of(twice)
        self.check("a name that appears twice", sorted(made), ["B", "same", "same-2"])
        self.check("and what is said", "B: it is named B, since another function is named same" in said)
        self.case("variables with other names", function_of(Environment={"Variables": {"A=B": 1, "": 2, "C": 3}}),
                  made_function(variables={"C": "3"}), "ignores the variable A=B: its name must")
        self.case("a handler that is none", function_of(Handler="a\nb"), made_function(),
                  "F: ignores Handler: it must be a string of 1 to 128 printable characters")
