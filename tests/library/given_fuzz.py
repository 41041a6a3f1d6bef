"""For tests/tools/test_fuzz.py: files that users give for a template (.env, samconfig.toml, --parameters, --env-vars,
lambda_local.json) and projects of several files, one of which is hostile. Each reader takes bytes, goes the whole way
to the members of UP.json, and may refuse by its own fault; what it takes, the system and the JSON that is made of it
take too. TOML is compared with Python's own reader, from 3.11 on."""
import contextlib
import io
import json
import os
import re
import tempfile
from typing import Callable, Dict, Tuple

from lambda_local import outgoing
from lambda_local.configuration import Members
from lambda_local.from_template import find
from lambda_local.from_template.given import Given, given_by
from lambda_local.from_template.messages import Fault as TemplateFault
from lambda_local.from_template.project import up_of_source
from lambda_local.service import Fault
from lambda_local.toml_reader import NotToml, read_toml
from lambda_local.up import members

try:
    import tomllib
except ImportError:
    tomllib = None  # type: ignore[assignment]  # (before Python 3.11)
CONTROL = re.compile("[\x00-\x08\x0a-\x1f\x7f-\x9f\ud800-\udfff]")
OF_DATES = re.compile(r"\d\d:\d\d|\d{4}-\d\d-\d\d")  # (which stay texts here)
FOLDER = tempfile.TemporaryDirectory()
PROJECT = os.path.join(FOLDER.name, "project")
SECRET = "canary-7f3a"
TEMPLATE = {"Parameters": {"A": {"Type": "String", "Default": "x"}, "B": {"Type": "Number", "Default": 1}},
            "Resources": {"F": {"Type": "AWS::Serverless::Function", "Properties": {
                "Runtime": "python3.12", "Handler": "a.b", "CodeUri": "src", "Environment": {"Variables": {
                    "A": {"Ref": "A"}, "B": {"Fn::Sub": "${B}-${A}"}}}}}}}
ENV = (b"# all\nexport A=file\nC=\"two words\" # so\nD='x # y'\n\nE=1 # one\nF=\"a\\nb\n c\"\nG=`x`\nH=a#b\n")
TOML = (b'version = 0.1\n[default]\n[default.global.parameters]\nstack_name = "s"\n[default.deploy.parameters]\n'
        b'capabilities = "CAPABILITY_IAM"\nparameter_overrides = "A=\\"y z\\" B=7"\n[prod.deploy.parameters]\n'
        b'parameter_overrides = [\n  "A=x",  # one\n  \'B=8\',\n]\n')
PARAMETERS = b'{"Parameters": {"A": "x", "B": 2}}\n'
ENV_VARS = b'{"F": {"B": "json", "N": 5, "X": null}, "Parameters": {"P": true}}\n'
VALUES = (b'{"api": {"port": 8080}, "functions": [{"name": "F", "variables": {"B": "2"}, "environments": 1, "layers": '
          b'["l"], "queue": {"url": "http://127.0.0.1:9324/0/q"}}]}\n')
SERVERLESS = (b"service: s\nuseDotenv: true\n"
              b"provider: {name: aws, runtime: python3.12, stage: \"${opt:stage, 'dev'}\"}\n"
              b"custom: {a: \"${file(own.json):text}\", b: {c: \"${self:custom.a}${env:A, 'x'}\"}}\nfunctions:\n  f:\n"
              b"    handler: a.b\n    environment: {A: \"${self:custom.b.c}\", B: \"${param:p, 'q'}\"}\n"
              b"    events: [{httpApi: 'GET /a'}, {schedule: rate(1 hour)}]\nresources:\n  - ${file(more.yml)}\n")
OWN, MORE = b'{"text": "own"}', b"Resources: {T: {Type: 'AWS::DynamoDB::Table', Properties: {TableName: t}}}\n"
PATHS = (b"../secret.json", b"link/secret.json", b"linked.json", b"/dev/zero", b"pipe", b".", b"..", b"link", b"\\0",
         b"own.json", b"more.yml", b"${file(../secret.json):text}", b"${file(linked.json)}", b"${self:custom.b}",
         b"${self:}", b"${file(", b")}", b"${", b"}", b":", b"'", b'"', b", ")


def is_a_line(text: str) -> None:
    """What a person would read has no control character."""
    shown = outgoing.printable(text)
    assert not CONTROL.search(shown), shown


def prepare() -> None:
    os.makedirs(os.path.join(PROJECT, "src"))
    os.symlink("..", os.path.join(PROJECT, "link"))
    os.symlink("../secret.json", os.path.join(PROJECT, "linked.json"))
    os.mkfifo(os.path.join(PROJECT, "pipe"))
    put("../secret.json", json.dumps({"text": SECRET, "Resources": {SECRET: {"Type": "A"}}}).encode())
    put("template.json", json.dumps(TEMPLATE).encode())


def put(name: str, data: bytes) -> str:
    path = os.path.join(PROJECT, name)
    with open(path, "wb") as file:
        file.write(data)
    return path


def served(path: str, given: Given, **options: str) -> str:
    """All that is made and said of a project; nothing of it is cut or escaped."""
    said = io.StringIO()
    made: Members = {}
    with contextlib.redirect_stderr(said):
        try:
            made = members.looked_at(up_of_source(find.source_of(path), given, **options), path)
        except (TemplateFault, Fault) as fault:
            is_a_line(str(fault))
            said.write(str(fault))
    for line in said.getvalue().splitlines():
        is_a_line(line)
    for function in made.get("functions", ()):
        for name, text in function.get("variables", {}).items():
            assert outgoing.is_name_of_variable(name), name
            assert isinstance(text, (str, int, float)), text
    return json.dumps(made) + said.getvalue()


def given_for(**options: object) -> Given:
    try:
        given = given_by(**options)  # type: ignore[arg-type]
    except TemplateFault as fault:
        is_a_line(str(fault))
        return Given()
    for variables in given.variables.values():
        for name, text in variables.items():
            assert outgoing.is_name_of_variable(name) and outgoing.is_for_the_system(text), (name, text)
    return given


def of_template(given: Given) -> None:
    served(os.path.join(PROJECT, "template.json"), given)


def of_env(data: bytes) -> None:
    of_template(given_for(env_files=[put("given.env", data)]))


def of_toml(data: bytes) -> None:
    text = data.decode(errors="replace")
    try:
        own: object = read_toml(text)
    except NotToml:
        own = None
    if tomllib is not None and not OF_DATES.search(text):
        try:
            other: object = tomllib.loads(text)
        except (ValueError, RecursionError):
            other = None
        is_deep = max(map(text.count, ("[", "{", "."))) > 49
        assert repr(own) == repr(other) or own is None and is_deep, (own, other)
    of_template(given_for(parameter_files=[put("samconfig.toml", data)]))


def of_parameters(data: bytes) -> None:
    of_template(given_for(parameter_files=[put("given.json", data)]))


def of_env_vars(data: bytes) -> None:
    of_template(given_for(env_vars=put("vars.json", data)))


def of_values(data: bytes) -> None:
    served(os.path.join(PROJECT, "template.json"), Given(), values=put("own_values.json", data))


def of_projects(data: bytes) -> None:
    """A serverless.yml with its .env and two files, each after a line of its own."""
    parts = data.split(b"\n---\n")
    for name, part in zip((".env", "own.json", "more.yml"), parts[1:]):
        put(name, part)
    assert SECRET not in served(put("serverless.yml", parts[0]), Given())


Part = Tuple[Callable[[bytes], None], bytes, object]


def parts(some: "object", mutated: Callable[..., object], inputs_of: Callable[[bytes], object]) -> Dict[str, Part]:
    """Each part's name: its reader, what is right, and what it is given."""
    prepare()
    project = b"\n---\n".join((SERVERLESS, ENV, OWN, MORE))
    found: Dict[str, Part] = {name: (reader, right, inputs_of(right)) for name, reader, right in (
        ("env", of_env, ENV), ("toml", of_toml, TOML), ("parameters", of_parameters, PARAMETERS),
        ("env_vars", of_env_vars, ENV_VARS), ("values", of_values, VALUES))}
    return {**found, "projects": (of_projects, project, mutated(project, PATHS))}
