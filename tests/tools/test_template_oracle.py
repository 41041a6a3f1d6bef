"""Compares what from_template reads of SAM templates with what AWS's own translator (aws-sam-translator) makes of them,
if that is installed: functions with their properties, routes, and what else invokes them. The templates are those of
tests/tools/sam_templates.yaml, written as projects are."""
import contextlib
import importlib.util
import io
import json
import logging
import os
import re
import tempfile
import unittest
from typing import Any, Dict

from lambda_local.from_template import cloudformation
from lambda_local.from_template.find import Source
from lambda_local.from_template.project import up_of_source
from lambda_local.from_template.reader import parse
from lambda_local.from_template.values import NO_VALUE, Scope
from tests import ROOT
from tests.library.cases import Case

HAS_TRANSLATOR = bool(importlib.util.find_spec("samtranslator")) and bool(importlib.util.find_spec("yaml"))
COMPARED = ("Handler", "Runtime", "Timeout", "MemorySize", "Environment", "Layers", "ReservedConcurrentExecutions",
            "FunctionName", "LoggingConfig", "PackageType")
LAMBDA = "AWS::Lambda::"
# What the translator writes and lambda_local does not read, each with its reason.
DIFFERENCES = {"PackageType": "a function whose code is an image says so by its ImageUri; the translator writes it out"}


def templates():
    with open(os.path.join(ROOT, "tests", "tools", "sam_templates.yaml"), encoding="utf-8") as file:
        for text in file.read().split("\n---\n"):
            yield text.partition("\n")[0].lstrip("# "), text


class Loader:
    """Gives no managed policies, which AWS itself would."""

    def load(self):
        return {"AWSLambdaExecute": "arn:aws:iam::aws:policy/AWSLambdaExecute"}


def packaged(whole):
    """The template as `sam package` has it: code in a bucket."""
    for part in [*whole["Resources"].values(), {"Properties": whole.get("Globals", {}).get("Function", {})}]:
        given = part.get("Properties", {})
        for name in ("CodeUri", "ContentUri"):
            if isinstance(given.get(name), str):
                given[name] = "s3://bucket/key"
        shared = whole.get("Globals", {}).get("Function", {})
        if part.get("Type") == cloudformation.SAM_FUNCTION and not {"CodeUri", "InlineCode", "ImageUri"} & {
                *given, *shared}:
            given["CodeUri"] = "s3://bucket/key"
    return whole


def translated(text):
    from samtranslator.translator.transform import transform
    from samtranslator.yaml_helper import yaml_parse
    os.environ.setdefault("AWS_DEFAULT_REGION", "us-east-1")
    whole = yaml_parse(text)
    defaults = {name: given["Default"] for name, given in whole.get("Parameters", {}).items() if "Default" in given}
    logging.disable(logging.CRITICAL)
    return transform(packaged(whole), defaults, Loader()), yaml_parse(text)


def plain(value):
    """A value of a template as JSON has it, its functions in their long form."""
    return json.loads(json.dumps(value, default=str))


def resources(whole, *kinds):
    return {key: one.get("Properties", {}) for key, one in whole["Resources"].items() if one["Type"] in kinds}


def properties(given):
    """What of a function's properties is compared: the translator ignores what is empty."""
    found = {name: plain(given[name]) for name in COMPARED if given.get(name) not in (None, [], {})}
    # (the translator names a layer by its content)
    text = re.sub(r'("Ref": "[A-Za-z]+)[0-9a-f]{10}"', r'\1"', json.dumps(found.get("Layers", [])))
    found.update({"Layers": json.loads(text)} if "Layers" in found else {})
    if found.get("Environment") == {"Variables": {}}:
        del found["Environment"]
    return {name: value for name, value in found.items() if name not in DIFFERENCES}


def by_conditions(given, scope):
    """The same by the template's conditions, as from_template hands properties on."""
    chosen = {name: scope.chosen(value) for name, value in given.items()}
    return {name: value for name, value in chosen.items() if value is not NO_VALUE}


def function_of(uri):
    """The logical id of the function that an integration's URI names, by itself or by its alias."""
    return re.sub(r"Alias\w+$", "", re.findall(r"functions/\$\{(\w+)(?:\.Arn)?\}/invocations", json.dumps(uri))[0])


def routes_of(whole):
    """Each route that the translator makes, with its function."""
    found = {}
    for api in resources(whole, "AWS::ApiGateway::RestApi", "AWS::ApiGatewayV2::Api").values():
        for path, item in api.get("Body", {}).get("paths", {}).items():
            item = item.get("Fn::If", [None, item])[1] if isinstance(item, dict) else item
            for method, operation in item.items():
                given = operation.get("Fn::If", [None, operation])[1] if isinstance(operation, dict) else {}
                integration = given.get("x-amazon-apigateway-integration", {}) if isinstance(given, dict) else {}
                if integration.get("type") == "aws_proxy":
                    name = "ANY" if method == "x-amazon-apigateway-any-method" else method.upper()
                    found["$default" if path == "/$default" or path == "$default" else f"{name} {path}"] = function_of(
                        integration["uri"])
    return found


def sources_of(whole, wanted):
    """How many queues, streams, topics and schedules invoke each function, those that are off left out."""
    found: Dict[Any, int] = {}
    aliases = {key: one["FunctionName"]["Ref"] for key, one in resources(whole, LAMBDA + "Alias").items()}

    def note(value, what):
        name = re.findall(r'"(?:Ref|Fn::GetAtt)": (?:\[)?"(\w+)', json.dumps(value))
        key = aliases.get(name[0], name[0]) if name else None
        if key in wanted:
            found[key, what] = found.get((key, what), 0) + 1
    for one in resources(whole, LAMBDA + "EventSourceMapping").values():
        source = json.dumps(one["EventSourceArn"])
        if one.get("Enabled") is not False and "sqs" in source.lower() or "Jobs" in source:
            note(one["FunctionName"], "queue")
        elif one.get("Enabled") is not False and ("StreamArn" in source or "kinesis" in source.lower()):
            note(one["FunctionName"], "stream")
    for one in resources(whole, "AWS::SNS::Subscription").values():
        if one["Protocol"] == "lambda":
            note(one["Endpoint"], "topic")
    for one in resources(whole, "AWS::Events::Rule").values():
        if "ScheduleExpression" in one and one.get("State") != "DISABLED":
            note(one["Targets"][0]["Arn"], "schedule")
    for one in resources(whole, "AWS::Scheduler::Schedule").values():
        if one.get("State") != "DISABLED":
            note(one["Target"]["Arn"], "schedule")
    return found


def ours(whole):
    """UP.json of a template, and the names of its functions by their logical ids."""
    os.environ["AWS_ENDPOINT_URL"] = "http://127.0.0.1:9324"  # (so that queues and streams have addresses)
    with tempfile.TemporaryDirectory() as folder, contextlib.redirect_stderr(io.StringIO()):
        path = os.path.join(folder, "template.json")
        for name in ("src", "common/python", "extra/python", "layer/python", "tracer/python"):
            os.makedirs(os.path.join(folder, name))
        with open(path, "w") as file:
            json.dump(plain(whole), file)
        try:
            return up_of_source(Source(path, True))
        finally:
            del os.environ["AWS_ENDPOINT_URL"]


@unittest.skipUnless(HAS_TRANSLATOR, "aws-sam-translator or PyYAML is not here: pip install aws-sam-translator pyyaml")
class TemplateOracle(Case):
    def test_templates_are_read_as_AWSs_own_translator_reads_them(self):
        count = 0
        for name, text in templates():
            count += 1
            with self.subTest(name):
                made, whole = translated(text)
                read = parse(name, text)
                assert isinstance(read, dict)
                self.check(f"{name}: the text is read alike", plain(read), plain(whole))
                self.a_template(name, read, made)
        self.check("templates", count >= 40, shown=count)

    def a_template(self, name, read, made):
        with contextlib.redirect_stderr(io.StringIO()):
            scope = Scope(read, "stack")
            functions = dict(cloudformation.functions_in(read, scope))
            written = resources(made, LAMBDA + "Function").items()
            theirs = {key: properties(by_conditions(one, scope)) for key, one in written
                      if "Condition" not in made["Resources"][key] or cloudformation.is_wanted(
                          key, made["Resources"][key], scope)}
            self.check(f"{name}: functions and their properties",
                       {key: properties(one) for key, one in functions.items()}, theirs)
            aliases = {one["FunctionName"]["Ref"]: one["Name"] for one in resources(made, LAMBDA + "Alias").values()}
            self.check(f"{name}: aliases", {key: alias for key in functions
                                            for alias in cloudformation.aliases_of(key, scope)}, aliases)
        up = ours(read)
        names = {scope_name: key for scope_name, key in self.names(read, functions).items()}
        ports = [up.get("routes", {}), *(one["routes"] for one in up.get("apis", {}).values())]
        routes = {key: names[of["function"] if isinstance(of, dict) else of] for port in ports
                  for key, of in port.items()}
        self.check(f"{name}: routes", routes, {key: function for key, function in routes_of(made).items()
                                               if function in functions})
        found = {}
        for one in up["functions"]:
            key = names[one["name"]]
            for kind in ("queue", "schedule", "stream", "topic"):
                given = one.get(kind, [])
                found.update({(key, kind): len(given) if isinstance(given, list) else 1} if given else {})
        self.check(f"{name}: queues, streams, topics and schedules", found, sources_of(made, functions))
        urls = {re.sub(r"Url$", "", key) for key in resources(made, LAMBDA + "Url")}
        self.check(f"{name}: URLs", sorted(names[one["name"]] for one in up["functions"] if "url" in one),
                   sorted("Plain" if key == "" else key for key in urls))

    @staticmethod
    def names(read, functions):
        scope = Scope(read, "stack")
        return {(scope.evaluate(one["FunctionName"]).value if "FunctionName" in one else key): key
                for key, one in functions.items()}
