"""What the variables of a serverless.yml come to: `${self:..}`, `${opt:..}`, `${sls:..}`, `${env:..}`, `${param:..}`,
`${aws:..}`, `${file(..)}` and `${strToBool(..)}`, with their defaults. No code is run, and no file is read outside of
the template's folder."""
import os
import re
from typing import Dict, Iterator, Match, Optional

from ..configuration import Members
from . import layers
from .files import Folder
from .given import Given, of_env_file
from .messages import Fault, excerpt, tell
from .reader import LONGEST, parse
from .shared import Unknown
from .values import ACCOUNT, REGION, Scope, is_scalar, members_of, text_of

INNERMOST = re.compile(r"\$\{([^${}]*)\}")
WHOLE = re.compile(r"\s*\$\{([^${}]*)\}\s*")  # a text that is a single variable
FILE = re.compile(r"file\(([^)]*)\)(?::(.*))?")
TO_BOOL = re.compile(r"strToBool\((.*)\)")
LITERALS = {"true": True, "false": False, "null": None}
BOOLS = {"true": True, "1": True, "false": False, "0": False}
MOST_STEPS = 200  # until variables that name one another count as a circle
READABLE = (".yml", ".yaml", ".json")
OF_CODE = (".js", ".cjs", ".mjs", ".ts")


def logical_id(key: str) -> str:
    """What Serverless calls a function in its CloudFormation."""
    return (key[:1].upper() + key[1:]).replace("-", "Dash").replace("_", "Underscore") + "LambdaFunction"


def after_blanks(text: str, at: int) -> int:
    while at < len(text) and text[at].isspace():
        at += 1
    return at


def sources_in(inside: str) -> Iterator[str]:
    """The sources of a variable, which commas separate: texts in quotes, or such as `self:a`. A comma may be in quotes,
    and in the name of a file."""
    at = 0
    while at <= len(inside):
        at, end = after_blanks(inside, at), -1
        close = inside.find(inside[at], at + 1) if inside[at:at + 1] in ("'", '"') else -1
        if close > 0:
            after = after_blanks(inside, close + 1)
            end = after if inside[after:after + 1] in ("", ",") else -1
        if end < 0:
            close = inside.find(")", at) if inside.startswith("file(", at) else at
            end = inside.find(",", max(close, at))
            end = len(inside) if end < 0 else end
        yield inside[at:end].strip()
        at = end + 1


class ServerlessScope(Scope):
    def __init__(self, whole: Members, stack: str, given: Given, folder: Folder, base: str) -> None:
        self.folder, self.base = folder, base
        self.files: Dict[str, object] = {}  # what each file that was read has
        super().__init__({}, stack, given=given)
        self.stage, self.region = given.stage or "dev", REGION  # (as options, until they are known)
        self.whole: Members = {"service": "service", **whole}
        self.environment = dict(given.environment)
        provider = self.raw(self.whole.get("provider"))
        self.provider: Members = {"stage": "dev", "region": REGION, **(provider if isinstance(provider, dict) else {})}
        self.whole["provider"] = self.provider
        self.stage = given.stage or self.provider_text("stage", self.stage)
        self.provider["stage"] = self.stage
        if self.whole.get("useDotenv") is True:
            self.read_dotenv()
        self.region = self.pseudo["AWS::Region"] = self.provider_text("region", self.region)
        self.read_resources()
        self.layers = layers.of_serverless(self.whole)

    def read_dotenv(self) -> None:
        """The files .env, and before it that of the stage."""
        for name in (".env", f".env.{self.stage}"):
            try:
                path = self.folder.inside(self.base, name)
                if os.path.isfile(path):
                    self.environment.update(of_env_file(path, "useDotenv:"))
            except Fault as fault:
                tell(f"ignores {name}: {fault}")

    def read_resources(self) -> None:
        """Its CloudFormation, which may be in several parts, each a file."""
        given = self.raw(self.whole.get("resources"))
        for part in given if isinstance(given, list) else [given]:
            one = self.raw(part)
            if one is not None and not isinstance(one, dict):
                tell(f"ignores resources: {excerpt(one)}: it must be an object{self.why(part)}")
            for name, into in (("Parameters", self.parameters), ("Conditions", self.conditions),
                               ("Mappings", self.mappings), ("Outputs", self.outputs)):
                into.update(members_of(one, name))
            resources = self.raw(one.get("Resources")) if isinstance(one, dict) else None
            self.resources.update({str(key): self.raw(resource) for key, resource in resources.items()}
                                  if isinstance(resources, dict) else {})

    @property
    def authorizers(self) -> Members:
        return members_of(members_of(self.provider, "httpApi"), "authorizers")

    @property
    def payload(self) -> str:
        """The format of the events of its HTTP API."""
        return "1.0" if str(members_of(self.provider, "httpApi").get("payload")) == "1.0" else "2.0"

    def provider_text(self, name: str, otherwise: str) -> str:
        """A text of `provider`."""
        try:
            value, placeholders = self.evaluate(self.provider[name])
        except Unknown:
            return otherwise
        return text_of(value) if is_scalar(value) and not placeholders else otherwise

    # ---- texts with variables ----------------------------------------------------------------------------------------

    def raw(self, value: object) -> object:
        """What a text that is a single variable stands for, with the variables inside of it as they are."""
        for _ in range(MOST_STEPS):
            if not isinstance(value, str) or "${" not in value:
                break
            try:
                match = WHOLE.fullmatch(value)
                if match is None:
                    replaced = self.innermost_replaced(value)
                    if replaced is None or not WHOLE.fullmatch(replaced) and "${" not in replaced:
                        break
                    value = replaced
                elif not match[1].startswith("AWS::"):
                    value = self.variable(match[1])
                else:
                    break
            except Unknown:
                break
        return value

    def why(self, value: object) -> str:
        """Why a variable stands for nothing here, at the end of a sentence."""
        reason = self.evaluate_or_reason(value) if isinstance(value, str) and "${" in value else None
        return f": {', '.join(reason.placeholders)}" if reason and reason.placeholders else ""

    def innermost_replaced(self, text: str) -> Optional[str]:
        match = INNERMOST.search(text)
        if match is None:
            return None
        return self.replaced(text, match, self.value(self.variable(match[1])))

    def replaced(self, text: str, match: Match[str], value: object) -> str:
        """A text with a value in the place of a variable."""
        found = "" if value is None else text_of(value)
        self.shared.spend(letters=len(text) + len(found))
        return text[:match.start()] + found + text[match.end():]

    def text(self, text: str) -> object:
        """Returns a text with its variables replaced, the innermost first; for a single variable, returns its value."""
        for _ in range(MOST_STEPS):
            match = INNERMOST.search(text)
            if match is None:
                return super().text(text)
            value = self.value(self.variable(match[1]))
            if match[0] == text:
                return value
            text = self.replaced(text, match, value)
        raise Unknown("its variables go round in a circle")

    def variable(self, inside: str) -> object:
        """The first of its sources that has a value; else a placeholder."""
        self.shared.depth += 1
        try:
            self.shared.enter()
            return self.value_of_variable(inside)
        finally:
            self.shared.depth -= 1

    def value_of_variable(self, inside: str) -> object:
        if inside.startswith("AWS::"):
            return self.ref(inside)
        if found := TO_BOOL.fullmatch(inside.strip()):
            value = BOOLS.get(found[1].strip().strip("\"'").lower())
            if value is None:
                raise Unknown(f"strToBool({found[1]}) is not true or false")
            return value
        for source in sources_in(inside):
            if source[:1] in ("'", '"') and source[-1] == source[0] and len(source) > 1:
                return source[1:-1]
            try:
                return self.source(source)
            except LookupError:
                continue
        options = {"opt:stage": self.stage, "opt:region": self.region}  # (given at a deployment, which this is not)
        first = inside.split(",")[0].strip()
        return options.get(first) or self.placeholder(first.partition(":")[2] or first, "${" + inside + "}")

    # ---- sources -----------------------------------------------------------------------------------------------------

    def source(self, source: str) -> object:
        """The value of one source, such as `self:provider.stage`; LookupError if it has none."""
        if found := FILE.fullmatch(source):
            return self.of_file(found[1].strip(), found[2])
        kind, colon, address = source.partition(":")
        if not colon:
            if source in LITERALS:
                return LITERALS[source]
            if re.fullmatch(r"-?\d{1,15}(\.\d+)?", source):
                return float(source) if "." in source else int(source)
            raise LookupError(source)
        if kind == "self":
            return self.walk(self.whole, address)
        if kind == "env":
            return self.environment[address] if address in self.environment else os.environ[address]
        if kind == "opt":
            return {**({"stage": self.given.stage} if self.given.stage else {}), **self.given.parameters}[address]
        if kind == "param":
            params = members_of(self.whole, "params")
            return {**members_of(params, "default"), **members_of(params, self.stage), **self.given.parameters}[address]
        known = {"sls:stage": self.stage, "aws:region": self.region, "aws:accountId": ACCOUNT,
                 "sls:instanceId": "local"}
        return known[source.replace(" ", "")]

    def of_file(self, name: str, address: Optional[str]) -> object:
        """What a file has at an address. One that is not there has nothing, so that a default is taken."""
        if name.endswith(OF_CODE):
            raise Unknown(f"file({name}) is code, which is not run")
        try:
            path = self.folder.inside(self.base, name)
            if not os.path.isfile(path):
                raise LookupError(name)
            if path not in self.files:
                text = self.folder.text(self.base, name, LONGEST)
                self.files[path] = parse(path, text) if name.endswith(READABLE) else text.strip()
        except Fault as fault:
            raise Unknown(f"file({name}): {fault}") from None
        return self.walk(self.files[path], address) if address else self.files[path]

    def walk(self, part: object, address: str) -> object:
        for name in filter(None, address.split(".")):
            part = self.raw(part)
            if isinstance(part, list) and name.isdigit() and int(name) < len(part):
                part = part[int(name)]
            elif isinstance(part, dict) and name in part:
                part = part[name]
            else:
                raise LookupError(address)
        return part

    # ---- functions ---------------------------------------------------------------------------------------------------

    def ref(self, name: object) -> object:
        """A function goes by another name in the CloudFormation that Serverless writes."""
        own = next((function for key, function in self.functions.items() if logical_id(key) == name), None)
        return own or super().ref(name)

    def get_att(self, argument: object) -> object:
        key = next((key for key in self.functions if argument in (f"{logical_id(key)}.Arn", [logical_id(key), "Arn"])),
                   None)
        return super().get_att([key, "Arn"] if key else argument)
