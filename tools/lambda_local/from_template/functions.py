"""A function's part of UP.json, made of its properties by the names that CloudFormation gives them. What cannot be
taken is reported and left out: a whole template is never refused because of one function."""
import importlib.util
import os
import re
import shutil
from typing import Dict, List, NamedTuple, Optional, Sequence

from ..configuration import Members
from . import addresses, asynchronous, queues, schedules, streams, topics
from .cloudformation import aliases_of
from .layers import layers_of
from .messages import VALUES, LineGroups, excerpt, tell
from .objects import Object
from .services import PAGE, ids_in
from .shared import Unknown
from .values import NO_VALUE, Scope, is_scalar, members_of, text_of

READ = {"FunctionName", "Handler", "Timeout", "ReservedConcurrentExecutions", "Environment", "Runtime", "CodeUri",
        "Code", "InlineCode", "MemorySize", "PackageType", "ImageUri", "ImageConfig", "Layers", "AutoPublishAlias",
        "LoggingConfig", *addresses.READ, *asynchronous.READ}
# What a deployment alone has, or nobody notices here
WITHOUT_MEANING = {"Role", "Policies", "PermissionsBoundary", "AssumeRolePolicyDocument", "Tags", "Description",
                   "Architectures", "VersionDescription", "DeploymentPreference", "AutoPublishCodeSha256",
                   "AutoPublishAliasAllProperties", "CodeSigningConfigArn", "PropagateTags", "RolePath",
                   "SourceKMSKeyArn", "KmsKeyArn", "RuntimeManagementConfig", "PackageType",
                   # and Serverless' own
                   "description", "tags", "role", "iamRoleStatements", "iamRoleStatementsName",
                   "iamRoleStatementsInherit", "architecture", "versionFunction", "logRetentionInDays", "condition",
                   "dependsOn", "disableLogs", "logDataProtectionPolicy", "runtimeManagement"}
LOGGING = {"LogFormat": "AWS_LAMBDA_LOG_FORMAT", "ApplicationLogLevel": "AWS_LAMBDA_LOG_LEVEL",
           "LogGroup": "AWS_LAMBDA_LOG_GROUP_NAME"}
MOST_FUNCTIONS = 64  # of a service
NAME = re.compile(r"[A-Za-z0-9_-]{1,64}")
VARIABLE = re.compile(r"\w+")
HANDLER = re.compile(r"[ -~]{1,128}")
MOST_INLINE = 4 << 20  # characters of code in a template (CloudFormation takes 4 MB)
LONGEST_VARIABLE, MOST_OF_VARIABLES = (128 << 10) - 1, 1 << 20  # bytes of one, and of all of a function (the system's)


class Listed(NamedTuple):
    """A function of a template. Its paths are as seen from `base`."""
    key: str
    properties: Members
    scope: Scope
    base: str


def safe_name(key: object) -> str:
    """A function's name by its logical id."""
    return re.sub(r"[^A-Za-z0-9_-]", "", str(key))[:64] or "function"


def name_of(key: str, properties: Members, scope: Scope) -> str:
    """The function's own name if it is known here, else its logical id."""
    if "FunctionName" not in properties:
        return safe_name(key)
    name, placeholders = scope.evaluate_or_reason(properties["FunctionName"])
    if name is NO_VALUE:
        return safe_name(key)
    if not placeholders and is_scalar(name) and NAME.fullmatch(text_of(name)):
        return text_of(name)
    if placeholders:
        why = f"it needs {' and '.join(placeholders)}"
    else:
        why = f"{excerpt(name)} is not a name of 1 to 64 letters, digits, - and _"
    tell(f"{key}: it is named {safe_name(key)}, since its FunctionName is not known here: {why}")
    return safe_name(key)


def names_of(listed: Sequence[Listed]) -> List[str]:
    """The name of each function, which no other has; the scopes know it from then on."""
    names: List[str] = []
    for key, properties, scope, _ in listed:
        wanted, own = name_of(key, properties, scope), safe_name(key)
        nested = safe_name(scope.prefix.replace("/", "-") + own)
        others = (own, nested, *(f"{own[:60]}-{number}" for number in range(2, MOST_FUNCTIONS + 2)))
        name = next(name for name in (wanted, *others) if name not in names)
        if name != wanted:
            tell(f"{scope.prefix}{key}: it is named {name}, since another function is named {wanted}")
        names.append(name)
        scope.functions[key] = name
    return names


class Maker:
    """Makes one function."""

    is_elsewhere = False  # its code is not among the files here

    def __init__(self, name: str, listed: Listed, group: LineGroups) -> None:
        self.name, self.group = name, group
        self.key, self.properties, self.scope, self.base = listed
        self.made: Members = {"name": name}

    def tell(self, line: str) -> None:
        self.group.add(self.name, line)

    def value_of(self, name: str) -> object:
        """Returns a property's value; None if it is absent, or unknown, which is reported. A placeholder is unknown."""
        if name not in self.properties:
            return None
        value, placeholders = self.scope.evaluate_or_reason(self.properties[name])
        if placeholders:
            self.tell(f"ignores {name}: it needs {' and '.join(placeholders)}")
            return None
        return None if value is NO_VALUE else value

    def whole(self, name: str, least: int, most: int) -> Optional[int]:
        value = self.value_of(name)
        if value is None:
            return None
        text = text_of(value) if is_scalar(value) else ""
        if not re.fullmatch(r"\d{1,9}(\.0*)?", text) or not least <= int(float(text)) <= most:
            self.tell(f"ignores {name}: it must be a whole number from {least} to {most}, not {excerpt(value)}")
            return None
        return int(float(text))

    def put(self, member: str, value: object) -> None:
        if value is not None:
            self.made[member] = value

    def make(self) -> Members:
        handler = self.value_of("Handler")
        if handler is not None and not (isinstance(handler, str) and HANDLER.fullmatch(handler)):
            self.tell("ignores Handler: it must be a string of 1 to 128 printable characters, not "
                      f"{excerpt(handler)}")
            handler = None
        self.put("handler", handler)
        self.put("timeout", self.whole("Timeout", 1, 900))
        self.put("memory", self.whole("MemorySize", 1, 1_000_000))
        self.put("reserved", self.whole("ReservedConcurrentExecutions", 0, 1_000_000))
        self.variables()
        self.logging()
        self.code()
        self.command()
        addressed = addresses.Addresses(self.properties, self.scope, self.tell)
        self.put("url", addressed.url())
        self.put("routes", addressed.routes() or None)
        self.put("layers", layers_of(self.properties.get("Layers"), self.scope, self.base, self.tell) or None)
        self.put("aliases", list(aliases_of(self.key, self.scope)) or None)
        self.put("asynchronous", asynchronous.of_function(self.properties, self.scope, self.tell))
        schedules.put(self.made, schedules.of_events(self.properties, self.scope, self.tell))
        queues.put(self.made, queues.of_events(self.properties, self.scope, self.tell), self.tell)
        streams.put(self.made, "stream", streams.of_events(self.properties, self.scope, self.tell))
        streams.put(self.made, "topic", topics.of_events(self.properties, self.scope, self.tell))
        if left := sorted(str(name) for name in set(self.properties) - READ - WITHOUT_MEANING):
            self.tell(f"ignores {', '.join(left)}")
        return self.made

    def logging(self) -> None:
        """The variables that Lambda makes of it, as the bundled runtimes read them."""
        given = Object(self.properties.get("LoggingConfig"), "LoggingConfig", self.scope, self.tell)
        given.without_meaning(["SystemLogLevel"])
        for member, name in LOGGING.items():
            value = given.text(member)
            if value is not None:
                self.made.setdefault("variables", {}).setdefault(name, value)
        given.close()

    def variables(self) -> None:
        given = self.scope.given.of_function(self.key, self.name)
        environment = self.properties.get("Environment")
        variables = environment.get("Variables") if isinstance(environment, dict) else environment
        variables = self.scope.chosen(variables)
        if variables is None or variables is NO_VALUE:
            variables = {}
        if not isinstance(variables, dict):
            self.tell(f"ignores its variables: they must be an object, not {excerpt(variables)}")
            variables = {}
        found: Dict[str, str] = {}
        left = MOST_OF_VARIABLES
        for name, expression in variables.items():
            if not VARIABLE.fullmatch(str(name)):
                self.tell(f"ignores the variable {excerpt(name)}: its name must have only letters, digits and _")
                continue
            if name in given:
                continue
            for key in ids_in(expression):
                self.scope.used.setdefault(key, {}).setdefault(str(name), []).append(self.name)
            try:
                value, placeholders = self.scope.evaluate(expression)
                if value is not None and value is not NO_VALUE:
                    text = text_of(value)
                    left -= len(str(name)) + len(text)
                    if left < 0 or len(text.encode(errors="replace")) > LONGEST_VARIABLE:
                        self.tell(f"ignores the variable {name}: one has at most {LONGEST_VARIABLE:,} bytes, and "
                                  f"all of a function {MOST_OF_VARIABLES:,}")
                        continue
                    found[str(name)] = text.replace("\0", "")
                elif value is None:
                    self.tell(f"ignores the variable {name}, which has no value")
            except Unknown as reason:
                self.tell(f"ignores the variable {name}: {reason}")
                continue
            if placeholders and not set(placeholders) <= self.scope.of_services:
                self.tell(f"the variable {name} is {excerpt(found[str(name)])}, a placeholder for "
                          f"{' and '.join(placeholders)}: set it under \"variables\" in {VALUES} if the handler "
                          f"needs another value")
        if found or given:
            self.made["variables"] = {**found, **given}

    # --- its code, and what runs it ---

    def is_image(self) -> bool:
        code = self.properties.get("Code")
        return (self.properties.get("PackageType") == "Image" or "ImageUri" in self.properties
                or isinstance(code, dict) and "ImageUri" in code)

    def is_inline(self) -> bool:
        code = self.properties.get("Code")
        return "InlineCode" in self.properties or isinstance(code, dict) and "ZipFile" in code

    def code(self) -> None:
        """Its folder, as seen from the template's."""
        if self.is_image():
            return
        if self.is_inline():
            return self.inline()
        name = next((name for name in ("CodeUri", "Code") if name in self.properties), None)
        if name is None:
            return
        given = self.properties.get(name)
        is_far = isinstance(given, dict) and not {"S3Bucket", "S3Key", "Bucket", "Key"}.isdisjoint(given)
        code = given if is_far else self.value_of(name)
        if code is None:
            return
        if not isinstance(code, str) or "://" in code or "\0" in code:
            self.is_elsewhere = True
            self.tell(f"ignores {name}, which is not a folder here")
            return
        at = os.path.join(self.base, code)
        if os.path.isfile(at) and not at.endswith((".zip", ".jar")):
            code = os.path.dirname(code) or "."
        self.made["directory"] = code

    def inline(self) -> None:
        """Code in the template, which is the module index."""
        given = self.properties.get("InlineCode", members_of(self.properties, "Code").get("ZipFile"))
        code, placeholders = self.scope.evaluate_or_reason(given)
        if not isinstance(code, str) or len(code) > MOST_INLINE:
            self.tell(f"ignores its code, which must be a string{': ' * bool(placeholders)}"
                      f"{' and '.join(placeholders)}")
            return
        if placeholders:
            self.tell(f"its code has a placeholder for {' and '.join(placeholders)}")
        self.made["inline"] = code

    def command(self) -> None:
        """What starts its runtime; none if that cannot be known, and then the user starts it."""
        if self.is_image():
            self.tell("has no command, since its code is an image: write one, such as docker run "
                      "(docs/your_function.md has it)")
            return
        if self.is_elsewhere:
            self.tell("has no command, since its code is not here: set its folder as \"directory\", and a "
                      f"\"command\" or a \"runtime\", in {VALUES}")
            return
        known, handler = self.value_of("Runtime"), self.made.get("handler", "index.handler")
        runtime = known if isinstance(known, str) else ""
        if runtime.startswith("python"):
            if importlib.util.find_spec("awslambdaric"):
                self.made["command"] = ["python3", "-m", "awslambdaric", handler]
            else:
                self.made["runtime"] = "python"
        elif runtime.startswith("nodejs"):
            if self.has_client("aws-lambda-ric"):
                self.made["command"] = ["npx", "aws-lambda-ric", handler]
            else:
                self.made["runtime"] = "node"
        elif runtime.startswith("provided") or runtime == "go1.x":
            self.made["command"] = ["./bootstrap"]
            at = os.path.join(self.base, self.made.get("directory", ""))
            if os.path.isdir(at) and not os.path.isfile(os.path.join(at, "bootstrap")):
                self.tell(f"there is no {os.path.normpath(os.path.join(at, 'bootstrap'))} yet: build it before "
                          f"lambda_local up is started")
        else:
            self.tell(f"has no command, since none is known for the runtime {runtime or '(none)'}: set \"command\" in "
                      f"{VALUES}, or start the runtime yourself")

    def has_client(self, name: str) -> bool:
        """Whether a package of npm is on the path, or installed for the function or above it."""
        at = os.path.abspath(os.path.join(self.base, self.made.get("directory", "")))
        folders = [at]
        while os.path.dirname(folders[-1]) != folders[-1]:
            folders.append(os.path.dirname(folders[-1]))
        installed = (os.path.join(folder, "node_modules", ".bin", name) for folder in folders)
        return bool(shutil.which(name)) or any(map(os.path.exists, installed))


def functions_of(listed: List[Listed]) -> List[Members]:
    """The functions of UP.json, as many as a service may have."""
    beyond = LineGroups("ignores the functions {names}: {line}")
    for one in listed[MOST_FUNCTIONS:]:
        beyond.add(one.scope.prefix + one.key, f"{MOST_FUNCTIONS} are the most")
    beyond.say()
    listed, group = listed[:MOST_FUNCTIONS], LineGroups()
    names = names_of(listed)
    made = [Maker(name, one, group).make() for name, one in zip(names, listed)]
    group.say()
    return made


def tell_services(scope: Scope) -> None:
    """One line for each resource that another service must serve, with the variables by which functions find it."""
    for key in scope.services:
        names = [f"{variable} of {', '.join(functions)}" for variable, functions in scope.used.get(key, {}).items()]
        tell(f"ignores {scope.prefix}{key}, {members_of(scope.resources, key)['Type']}, which another service must "
             f"have ({PAGE})" + (f": {'; '.join(names)} names it" if names else ""))
