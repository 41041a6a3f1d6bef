"""The stacks of a project: a template, those nested in it, and all that a folder of `cdk synth` has."""
import os
import re
from typing import Dict, Iterator, List, NamedTuple, Optional, Tuple

from ..configuration import Members
from . import cloudformation, serverless
from .files import Folder
from .find import MANIFEST
from .given import Given, check_names
from .messages import Fault, excerpt, tell
from .reader import LONGEST, parse, read
from .shared import Shared
from .values import Scope, members_of, type_of

MOST_STACKS, DEEPEST = 200, 10
NESTED = {"AWS::Serverless::Application": "Location", "AWS::CloudFormation::Stack": "TemplateURL"}
STACK, ASSEMBLY = "aws:cloudformation:stack", "cdk:cloud-assembly"  # kinds of artifacts


class Stack(NamedTuple):
    """A template with its scope, and its functions by their logical ids. Its paths are as seen from `base`."""
    template: Members
    scope: Scope
    functions: List[Tuple[str, Members]]
    base: str


def stack_name(path: str) -> str:
    """What a stack of this template would be called: by its file, or by its folder if the file is just called
    template."""
    stem = os.path.basename(path).split(".")[0]
    if stem in ("template", "serverless", ""):
        stem = os.path.basename(os.path.dirname(os.path.abspath(path)))
    return re.sub(r"[^A-Za-z0-9-]", "-", stem).strip("-") or "stack"


class Stacks:
    """Reads stacks, each after the one that it is nested in."""

    def __init__(self, given: Given, folder: str) -> None:
        self.given, self.folder, self.shared = given, Folder(folder), Shared()
        self.found: List[Stack] = []

    def read_file(self, path: str) -> None:
        """The template that the user names, with all that is nested in it."""
        template = read(path)
        if isinstance(template.get("Resources"), dict):
            check_names(self.given.parameters, members_of(template, "Parameters"), path)
            if self.given.stage is not None:
                raise Fault(f"--stage: {path} is not a serverless.yml: give a parameter, --parameter Stage=VALUE")
            self.add(template, path, stack_name(path), self.given)
        elif isinstance(template.get("functions"), (dict, list, str)):
            self.add_serverless(template, path)
        else:
            raise Fault(f"{path} is not a template: it must have Resources, or functions")

    def add_serverless(self, template: Members, path: str) -> None:
        base = os.path.dirname(os.path.abspath(path))
        functions, scope = serverless.functions_in(template, stack_name(path), self.given, self.folder, base)
        self.found.append(Stack(template, scope, functions, base))

    def add(self, template: Members, path: str, name: str, given: Given, prefix: str = "", level: int = 0,
            passed: Optional[Dict[str, Tuple[Scope, object]]] = None) -> Scope:
        if len(self.found) >= MOST_STACKS or level > DEEPEST:
            raise Fault(f"{path}: its stacks are nested too deep, or there are more than {MOST_STACKS}")
        base = os.path.dirname(os.path.abspath(path))
        scope = Scope(template, name, given=given, shared=self.shared, prefix=prefix)
        scope.assets, scope.passed = self.assets_of(path), passed or {}
        stack = Stack(template, scope, cloudformation.functions_in(template, scope), base)
        self.found.append(stack)
        for output in scope.outputs.values():
            export = members_of(output, "Export").get("Name")
            named = scope.evaluate_or_reason(export).value if export is not None else None
            if isinstance(named, str):
                self.shared.exports.setdefault(named, (scope, output.get("Value")))
        for key, resource in scope.resources.items():
            if type_of(resource) in NESTED and cloudformation.is_wanted(key, resource, scope):
                self.add_nested(str(key), resource, stack, level)
        return scope

    def add_nested(self, key: str, resource: Members, stack: Stack, level: int) -> None:
        properties, scope = members_of(resource, "Properties"), stack.scope
        given = members_of(resource, "Metadata").get(cloudformation.ASSET)
        location = given if given is not None else properties.get(NESTED[resource["Type"]])
        value = scope.evaluate_or_reason(location).value
        if not isinstance(value, str) or "://" in value:
            tell(f"ignores {key}, {resource['Type']}: its template {excerpt(value)} is not a file here")
            return
        try:
            path = self.folder.inside(stack.base, value)
            if os.path.isdir(path):
                path = next((os.path.join(path, name) for name in ("template.yaml", "template.yml", "template.json")
                             if os.path.isfile(os.path.join(path, name))), path)
            template = parse(path, self.folder.text(stack.base, path, LONGEST))
        except Fault as fault:
            tell(f"ignores {key}, {resource['Type']}: {fault}")
            return
        if not isinstance(template, dict) or not isinstance(template.get("Resources"), dict):
            tell(f"ignores {key}, {resource['Type']}: {value} is not a template: it must have Resources")
            return
        passed = {str(name): (scope, expression) for name, expression in members_of(properties, "Parameters").items()}
        scope.nested[key] = self.add(template, path, f"{scope.pseudo['AWS::StackName']}-{key}",
                                     self.given._replace(parameters={}), f"{scope.prefix}{key}/", level + 1, passed)

    def assets_of(self, path: str) -> Dict[str, str]:
        """The path of each asset that CDK has staged for a stack, by its key in the bucket."""
        name = re.sub(r"(\.nested)?\.template\.json$", ".assets.json", path)
        if name == path or not os.path.isfile(name):
            return {}
        try:
            return dict(assets_in(parse(name, self.folder.text("", name, LONGEST))))
        except Fault as fault:
            tell(f"ignores {os.path.basename(name)}: {fault}")
            return {}

    # ---- what `cdk synth` writes -------------------------------------------------------------------------------------

    def object_in(self, path: str) -> Members:
        """What a file of the folder has, which is an object."""
        whole = parse(path, self.folder.text("", path, LONGEST))
        if not isinstance(whole, dict):
            raise Fault(f"{path} must be an object, not {excerpt(whole)}: run cdk synth")
        return whole

    def read_assembly(self, folder: str, level: int = 0) -> None:
        """All stacks of a folder of CDK."""
        stacks, inner = self.artifacts_of(folder)
        for path, name in stacks:
            template = self.object_in(path)
            if isinstance(template.get("Resources"), dict):
                self.add(template, path, name, self.given)
        if inner and level < DEEPEST:
            self.read_assembly(self.chosen_stage(inner), level + 1)
        if not level:
            parameters = {name: one for stack in self.found for name, one in stack.scope.parameters.items()}
            check_names(self.given.parameters, parameters, folder)
            if not self.found:
                raise Fault(f"{folder} has no stack: run cdk synth")

    def chosen_stage(self, inner: Dict[str, str]) -> str:
        """The folder of one of the stages of an app: each is the whole of it."""
        wanted = self.given.stage
        name = next((name for name in inner if wanted is None or name.lower() == wanted.lower()), None)
        if name is None:
            raise Fault(f"--stage {wanted}: there is no such stage; there are {', '.join(inner)}")
        if len(inner) > 1 and wanted is None:
            tell(f"uses stage {name}: --stage chooses another of {', '.join(inner)}")
        return inner[name]

    def artifacts_of(self, folder: str) -> Tuple[List[Tuple[str, str]], Dict[str, str]]:
        """The templates of the stacks with their names, and the folders of further assemblies by their stages."""
        if not os.path.isfile(os.path.join(folder, MANIFEST)):
            names = [name for name in sorted(os.listdir(folder)) if name.endswith(".template.json")
                     and not name.endswith(".nested.template.json")]
            return [(os.path.join(folder, name), stack_name(name)) for name in names], {}
        manifest = self.object_in(os.path.join(folder, MANIFEST))
        stacks, inner = [], {}
        for key, artifact in members_of(manifest, "artifacts").items():
            properties = members_of(artifact, "properties")
            kind = artifact.get("type") if isinstance(artifact, dict) else None
            file, directory = properties.get("templateFile"), properties.get("directoryName")
            if kind == STACK and isinstance(file, str):
                stacks.append((self.folder.inside(folder, file), str(properties.get("stackName", key))))
            elif kind == ASSEMBLY and isinstance(directory, str):
                inner[str(key).replace("assembly-", "")] = self.folder.inside(folder, directory)
        return stacks, inner


def assets_in(whole: object) -> Iterator[Tuple[str, str]]:
    for asset in members_of(whole, "files").values():
        path = members_of(asset, "source").get("path")
        for destination in members_of(asset, "destinations").values():
            key = destination.get("objectKey") if isinstance(destination, dict) else None
            if isinstance(path, str) and isinstance(key, str):
                yield key, path


def stacks_of(path: str, is_assembly: bool, given: Given) -> List[Stack]:
    """All stacks of a template, or of a folder of CDK."""
    folder = path if is_assembly else os.path.dirname(os.path.abspath(path))
    stacks = Stacks(given, folder)
    if is_assembly:
        stacks.read_assembly(path)
    else:
        stacks.read_file(path)
    return stacks.found
