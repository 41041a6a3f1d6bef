"""Checks that a hostile project does not harm who serves it: no code of it is run, no file outside of its folder is
read, wherever links lead, and texts and conditions that double at each level, or very many of anything, do not keep
the tool. YAML needs PyYAML."""
import contextlib
import importlib.util
import io
import json
import os
import resource
import shutil
import tempfile
import time
from typing import Dict, Optional, Tuple
from unittest import mock

from lambda_local.configuration import Members
from lambda_local.from_template import find
from lambda_local.from_template.given import Given, given_by
from lambda_local.from_template.messages import Fault
from lambda_local.from_template.project import up_of_source
from tests.library.cases import Case

HAS_YAML = bool(importlib.util.find_spec("yaml"))
SECRET = "canary-7f3a"
LONGEST_SECONDS = 20.0  # of processor time, of one project
MOST_MEMORY = 1 << 30  # bytes more than before


def function(**properties: object) -> Members:
    return {"Type": "AWS::Serverless::Function", "Properties": {"Handler": "a.b", "Runtime": "python3.12",
                                                                "CodeUri": "src", **properties}}


def with_variable(value: object, **more: object) -> Members:
    return {"Resources": {"F": function(Environment={"Variables": {"A": value}})}, **more}


def doubled(levels: int, last: str = "x" * 1000) -> object:
    value: object = last
    for _ in range(levels):
        value = {"Fn::Sub": ["${a}${a}", {"a": value}]}
    return value


def in_json(levels: int) -> object:
    value: object = '"\\'
    for _ in range(levels):
        value = {"Fn::ToJsonString": [value]}
    return value


def conditions(levels: int) -> Members:
    made: Members = {"C0": {"Fn::Equals": ["a", "a"]}}
    for level in range(levels):
        made[f"C{level + 1}"] = {"Fn::And": [{"Condition": f"C{level}"}] * 3}
    return made


def variables_of_paths(levels: int) -> str:
    """Each level's address has six parts, and each of these is a variable of the level below."""
    lines = ["service: s", "provider: {name: aws, runtime: python3.12}", "custom:", "  v0: &v {x: 1}"]
    for level in range(1, levels):
        lines.append(f"  v{level}: {{" + ", ".join(
            f"{name}: '${{self:custom.v{level - 1}.b.b.b.b}}'" for name in "bx") + "}")
    return "\n".join([*lines, "functions:", "  f: {handler: a.b, environment: {A: '${self:custom.v"
                      f"{levels - 1}.b.b.x}}'}}}}"])


def doubling_texts(levels: int) -> str:
    lines = ["service: s", "provider: {name: aws, runtime: python3.12}", "custom:", f"  t0: {'y' * 500}"]
    lines += [f"  t{level}: '${{self:custom.t{level - 1}}}${{self:custom.t{level - 1}}}'" for level in range(1, levels)]
    return "\n".join([*lines, "functions:", f"  f: {{handler: a.b, environment: {{A: '${{self:custom.t{levels - 1}}}'"
                      "}}"])


def of_number(text: str) -> str:
    return ("Resources:\n  F:\n    Type: AWS::Serverless::Function\n    Properties:\n      Handler: a.b\n"
            f"      Runtime: python3.12\n      CodeUri: src\n      Timeout: {text}\n      MemorySize: {text}\n"
            f"      EventInvokeConfig: {{MaximumRetryAttempts: {text}}}\n"
            f"      Events: {{E: {{Type: HttpApi, Properties: {{Path: /a, Method: {text}}}}}}}\n")


def of_serverless(text: str) -> str:
    return ("service: s\nprovider: {name: aws, runtime: python3.12}\nfunctions:\n  f:\n    handler: a.b\n"
            f"    environment:\n      A: {text}\n")


QUOTES = "'" + "''a,".join([""] * 100_000)
BOMBS: Dict[str, Tuple[str, object]] = {
    "texts that double": ("template.json", with_variable(doubled(45))),
    "a text in JSON in JSON": ("template.json", with_variable(in_json(45))),
    "a text in base64 in base64": ("template.json", with_variable({"Fn::Base64": {"Fn::Base64": doubled(12)}})),
    "a long text joined by itself": ("template.json", with_variable(
        {"Fn::Join": [{"Ref": "P"}, [{"Ref": "P"}] * 3000]}, Parameters={"P": {"Type": "String",
                                                                                "Default": "z" * 1_000_000}})),
    "a long text in a list in JSON": ("template.json", with_variable(
        {"Fn::ToJsonString": [{"Ref": "P"}] * 3000}, Parameters={"P": {"Type": "String", "Default": "z" * 1_000_000}})),
    "a long list that is none": ("template.json", with_variable(
        {"Fn::Join": [[{"Ref": "P"}] * 3000, []]}, Parameters={"P": {"Type": "String", "Default": "z" * 1_000_000}})),
    "a long text of each variable": ("template.json", {
        "Parameters": {"P": {"Type": "String", "Default": "z" * 1_000_000}},
        "Resources": {"F": function(Environment={"Variables": {f"A{n}": {"Ref": "P"} for n in range(20_000)}})}}),
    "a list of very many": ("template.json", with_variable(
        {"Fn::Select": [0, {"Fn::Split": ["a", "a" * 3_000_000]}]})),
    "conditions that treble": ("template.json", {
        "Conditions": conditions(45), "Resources": {"F": {**function(), "Condition": "C45"}}}),
    "very many expressions": ("template.json", {"Resources": {"F": function(Environment={"Variables": {
        f"A{n}": {"Fn::Join": ["", [{"Ref": "F"}] * 1200]} for n in range(900)}})}}),
    "very many resources": ("template.json", {"Resources": {
        **{f"T{n}": {"Type": f"A::B::C{n % 20_000}"} for n in range(100_000)}, "F": function()}}),
    "very many functions": ("template.json", {"Resources": {f"F{n}": function() for n in range(20_000)}}),
    "very many events": ("template.json", {"Resources": {"F": function(Events={
        f"E{n}": {"Type": "HttpApi", "Properties": {"Path": f"/{n}", "Method": "get"}} for n in range(20_000)})}}),
    "very many routes of a document": ("template.json", {"Resources": {"F": function(), "Api": {
        "Type": "AWS::Serverless::HttpApi", "Properties": {"DefinitionBody": {"paths": {f"/{n}": {"get": {
            "x-amazon-apigateway-integration": {"type": "aws_proxy", "uri": {"Fn::GetAtt": ["F", "Arn"]}}}}
            for n in range(20_000)}}}}}}),
    "a number in base 60": ("template.yml", of_number("1" + ":59" * 10_000)),
    "a number in base 16": ("template.yml", of_number("0x" + "F" * 6000)),
    "a number in base 2": ("template.yml", of_number("0b" + "1" * 20_000)),
    "a number with a point in base 60": ("template.yml", of_number("1" + ":59" * 10_000 + ".5")),
    "Serverless: addresses of addresses": ("serverless.yml", variables_of_paths(30)),
    "Serverless: texts that double": ("serverless.yml", doubling_texts(45)),
    "Serverless: very many quotes": ("serverless.yml", of_serverless('"${' + QUOTES + '}"')),
    "Serverless: a variable in each of many": ("serverless.yml", of_serverless('"' + "${self:a, 'b'}" * 5000 + '"')),
}
NAMED = ("../secret.json", "link/secret.json", "secret_link.json", "{outside}/secret.json", "inner/../../secret.json")
OUTSIDE: Dict[str, Tuple[str, object]] = {
    "a file of Serverless": ("serverless.yml", of_serverless("${file({name}):text}")),
    "a text file of Serverless": ("serverless.yml", of_serverless("${file({name})}")),
    "functions of Serverless": ("serverless.yml", "service: s\nprovider: {name: aws}\nfunctions:\n"
                                                  "  f: {handler: a.b, runtime: python3.12}\n"
                                                  "  g: ${file({name})}\n"),
    "resources of Serverless": ("serverless.yml", of_serverless("x") + "resources: ${file({name})}\n"),
    "a nested stack": ("template.json", {"Resources": {"F": function(), "N": {
        "Type": "AWS::Serverless::Application", "Properties": {"Location": "{name}"}}}}),
    "a stack of CDK": ("template.json", {"Resources": {"F": function(), "N": {
        "Type": "AWS::CloudFormation::Stack", "Metadata": {"aws:asset:path": "{name}"}}}}),
    "a document of an API": ("template.json", {"Resources": {"F": function(), "Api": {
        "Type": "AWS::Serverless::HttpApi", "Properties": {"DefinitionUri": "{name}"}}}}),
    "a document that is included": ("template.json", {"Resources": {"F": function(), "Api": {
        "Type": "AWS::Serverless::HttpApi", "Properties": {"DefinitionBody": {"Fn::Transform": {
            "Name": "AWS::Include", "Parameters": {"Location": "{name}"}}}}}}}),
}
# Documents that the readers above would take, were they inside: each has the secret where it would be seen.
STOLEN = {"text": SECRET, "handler": SECRET, "Resources": {SECRET: function(FunctionName=SECRET)},
          "openapi": "3.0.1", "paths": {f"/{SECRET}": {"get": {"x-amazon-apigateway-integration": {
              "type": "aws_proxy", "uri": {"Fn::GetAtt": ["F", "Arn"]}}}}}}


def filled(given: object, name: str) -> str:
    return (given if isinstance(given, str) else json.dumps(given)).replace("{name}", name)


class Hostile(Case):
    folder: str
    root: str

    def setUp(self) -> None:
        """A folder `project` with links out of it, beside a file with a secret."""
        self.root = tempfile.mkdtemp()
        self.addCleanup(shutil.rmtree, self.root)
        self.folder = os.path.join(self.root, "project")
        os.makedirs(os.path.join(self.folder, "src"))
        os.makedirs(os.path.join(self.folder, "inner"))
        self.write(os.path.join(self.root, "secret.json"), json.dumps(STOLEN))
        self.write(os.path.join(self.root, "secret.env"), f"SECRET={SECRET}\n")
        os.symlink(self.root, os.path.join(self.folder, "link"))
        os.symlink("../secret.json", os.path.join(self.folder, "secret_link.json"))

    def write(self, name: str, text: str) -> str:
        path = os.path.join(self.folder, name)
        with open(path, "w", encoding="utf-8") as file:
            file.write(text)
        return path

    def seen(self, path: str, given: Optional[Given] = None) -> str:
        """All that is made and said of a project, or its fault."""
        said = io.StringIO()
        with contextlib.redirect_stderr(said):
            try:
                source = find.source_of(path)
                made = json.dumps(up_of_source(source, given or Given()))
            except Fault as fault:
                made = f"refused: {fault}"
        return made + "\n" + said.getvalue()

    def test_a_bomb_ends_within_its_bounds_and_a_line(self) -> None:
        for name, (file, what) in BOMBS.items():
            if file.endswith(".yml") and not HAS_YAML:
                continue
            path = self.write(file, what if isinstance(what, str) else json.dumps(what))
            before, begun = resource.getrusage(resource.RUSAGE_SELF).ru_maxrss, time.process_time()
            seen = self.seen(path)
            took = time.process_time() - begun
            more = (resource.getrusage(resource.RUSAGE_SELF).ru_maxrss - before) << 10
            self.check(f"{name}: it ends ({took:.1f} s, {more >> 20} MiB)",
                       took < LONGEST_SECONDS and more < MOST_MEMORY, shown=(took, more))
            said = seen.split("\n", 1)[1]
            self.check(f"{name}: what is said is short", len(said) < 500_000 and max(map(len, said.split("\n"))) < 2100,
                       shown=len(said))
            os.remove(path)

    def test_files_outside_of_the_folder_are_not_read_and_that_is_said(self) -> None:
        for kind, (file, what) in OUTSIDE.items():
            if file.endswith(".yml") and not HAS_YAML:
                continue
            for form in NAMED:
                name = form.format(outside=self.root)
                path = self.write(file, filled(what, name))
                seen = self.seen(path)
                self.check(f"{kind}, {form}: it is not read", SECRET in seen, False, shown=seen)
                self.check(f"{kind}, {form}: that is said", "outside" in seen or "is not a file here" in seen,
                           shown=seen)
                os.remove(path)
            inside = self.write(file, filled(what, "inner/stolen.json"))
            self.write("inner/stolen.json", json.dumps(STOLEN))
            self.check(f"{kind}: inside it is", SECRET in self.seen(inside), shown=self.seen(inside))
            os.remove(inside)

    def test_links_beside_a_template_lead_nowhere_outside(self) -> None:
        """Files that nobody names are read if they are in the folder, and not if they lead out of it."""
        self.write("template.json", json.dumps({"Resources": {"F": function()}}))
        self.write("../values.json", json.dumps({"functions": {"F": {"variables": {"A": SECRET}}}}))
        os.symlink("../values.json", os.path.join(self.folder, "lambda_local.json"))
        seen = self.seen(self.folder)
        self.check("lambda_local.json", (SECRET in seen, "outside of the template's folder: --values takes it" in seen),
                   (False, True), shown=seen)
        os.remove(os.path.join(self.folder, "lambda_local.json"))
        os.remove(os.path.join(self.folder, "template.json"))
        if HAS_YAML:
            self.write("serverless.yml", "useDotenv: true\n" + of_serverless("${env:SECRET, 'none'}"))
            os.symlink("../secret.env", os.path.join(self.folder, ".env"))
            seen = self.seen(self.folder)
            self.check(".env", (SECRET in seen, "ignores .env" in seen), (False, True), shown=seen)

    def test_links_of_an_assembly_lead_nowhere_outside(self) -> None:
        template = {"Resources": {SECRET: function()}}
        self.write("../stolen.template.json", json.dumps(template))
        self.write("../manifest.json", json.dumps({"artifacts": {"S": {
            "type": "aws:cloudformation:stack", "properties": {"templateFile": "own.template.json",
                                                               "stackName": SECRET}}}}))
        self.write("own.template.json", json.dumps({"Resources": {"F": function()}}))
        for name, target in (("A.template.json", "../stolen.template.json"), ("manifest.json", "../manifest.json")):
            os.symlink(target, os.path.join(self.folder, name))
            seen = self.seen(self.folder)
            self.check(f"{name}: it is not read", (SECRET in seen, "is outside of" in seen), (False, True), shown=seen)
            os.remove(os.path.join(self.folder, name))
        self.write("manifest.json", json.dumps({"artifacts": {"S": {
            "type": "aws:cloudformation:stack", "properties": {"templateFile": "../stolen.template.json"}}}}))
        seen = self.seen(self.folder)
        self.check("a template that a manifest names", (SECRET in seen, "is outside of" in seen), (False, True),
                   shown=seen)

    def test_a_folder_that_cannot_be_listed_is_told(self) -> None:
        """A folder that cannot be listed is none that can be served, in a line."""
        os.makedirs(os.path.join(self.folder, "cdk.out"))
        with mock.patch.object(os, "listdir", side_effect=PermissionError(13, "Permission denied")):
            seen = self.seen(self.folder)
        self.check("a folder that cannot be read", seen.startswith("refused: ") and "has no project" in seen,
                   shown=seen)

    def test_no_code_of_a_project_is_run(self) -> None:
        if not HAS_YAML:
            return
        mark = os.path.join(self.root, "ran")
        for name, text in (
                ("a JavaScript file", of_serverless("${file(evil.js):run}")),
                ("an object of Python", of_serverless(f"!!python/object/apply:os.system ['touch {mark}']")),
                ("a command", of_serverless(f"'$(touch {mark})`touch {mark}`'"))):
            self.write("evil.js", f"require('fs').writeFileSync('{mark}', 'x')\n")
            self.seen(self.write("serverless.yml", text))
            self.check(f"{name} is not run", os.path.exists(mark), False)

    def test_what_users_give_is_read_at_once(self) -> None:
        """Files of values whose readers looked at each blank once for each other one."""
        blanks = " " * 500_000
        for name, options, text in (
                ("blanks in a value", "env_files", f"A=a{blanks}b{blanks}#\n"),
                ("quotes", "env_files", "A='" * 300_000),
                ("quotes that are escaped", "env_files", 'A="' + '\\"' * 500_000),
                ("a long name", "env_files", "A" * 1_000_000), ("lines", "env_files", "A=1\n" * 250_000)):
            path = self.write("given.env", text)
            begun = time.process_time()
            with contextlib.suppress(Fault):
                given_by(**{options: [path]})  # type: ignore[arg-type]
            took = time.process_time() - begun
            self.check(f"{name}: it is read at once ({took:.1f} s)", took < LONGEST_SECONDS)
