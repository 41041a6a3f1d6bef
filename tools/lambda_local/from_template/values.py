"""The values of a template's expressions here: parameters have what is given for them or their defaults, pseudo
parameters the service's account and region, functions their names. A reference to anything else is a placeholder, which
is reported; `services` has the names and ARNs of resources that other services serve."""
import base64
import datetime
import json
import re
from typing import Any, Callable, Dict, List, Match, NamedTuple, Optional, Set, Tuple

from ..configuration import Members
from . import services
from .given import NOTHING, Given
from .messages import excerpt
from .shared import DEEPEST, LONGEST_TEXT, MOST_STEPS, Shared, Unknown

ACCOUNT, REGION = "123456789012", "us-east-1"  # those of lambda_local up
NO_VALUE = object()  # what AWS::NoValue stands for: the property is not there
IN_TEXT = re.compile(r"\$\{(!?)([^${}]*)\}")  # of Fn::Sub
# The methods that work out a function
FUNCTIONS = {"Ref": "ref", "Fn::GetAtt": "get_att", "Fn::Join": "join", "Fn::Sub": "sub", "Fn::Select": "select",
             "Fn::Split": "split", "Fn::FindInMap": "find_in_map", "Fn::ImportValue": "import_value",
             "Fn::If": "choose", "Fn::Base64": "in_base64", "Fn::ToJsonString": "in_json", "Fn::Length": "length",
             "Fn::GetAZs": "zones"}


class Value(NamedTuple):
    value: object
    placeholders: Tuple[str, ...]  # what in it is one, such as "the resource Table"


def is_scalar(value: object) -> bool:
    return isinstance(value, (str, int, float, datetime.date))


def text_of(value: object) -> str:
    """A value as CloudFormation writes it into a text."""
    if isinstance(value, bool):
        return "true" if value else "false"
    if isinstance(value, datetime.date):
        return value.isoformat()
    if not is_scalar(value):
        raise Unknown(f"{excerpt(value)} is not a string")
    return str(value)


def letters_in(value: object) -> int:
    """How many characters, at least, a value has as JSON."""
    if isinstance(value, dict):
        return sum(len(str(name)) + letters_in(inner) for name, inner in value.items())
    return sum(map(letters_in, value)) if isinstance(value, list) else len(value) if isinstance(value, str) else 1


def type_of(resource: object) -> str:
    """The type of a resource or an event; nothing if it has none."""
    kind = resource.get("Type") if isinstance(resource, dict) else None
    return kind if isinstance(kind, str) else ""


def members_of(template: object, name: object) -> Members:
    """A part of a template that should be an object; an empty one if it isn't."""
    part = template.get(name) if isinstance(template, dict) else None
    return part if isinstance(part, dict) else {}


class Scope:
    """The names that a template's expressions may use. `functions` has the name of each function by its logical id,
    `aliases` the function and the name of each alias by its own, and `nested` the scopes of nested stacks."""

    def __init__(self, template: object, stack: str, region: str = REGION, given: Given = NOTHING,
                 shared: Optional[Shared] = None, prefix: str = "") -> None:
        self.parameters, self.conditions = members_of(template, "Parameters"), members_of(template, "Conditions")
        self.mappings, self.resources = members_of(template, "Mappings"), members_of(template, "Resources")
        self.outputs, self.given, self.prefix = members_of(template, "Outputs"), given, prefix
        self.shared = shared or Shared()
        self.passed: "Dict[str, Tuple[Scope, object]]" = {}  # to a nested stack, as parameters
        self.nested: Dict[str, Scope] = {}
        self.functions: Dict[str, str] = {}
        self.aliases: Dict[str, Tuple[str, Optional[str]]] = {}
        self.layers: Dict[str, str] = {}  # the path of each that is not among the resources, by its logical id
        self.assets: Dict[str, str] = {}  # the path of each that CDK has staged, by its key in the bucket
        self.used: Dict[str, Dict[str, List[str]]] = {}  # by which variables of which functions resources are named
        self.pseudo: Dict[str, object] = {
            "AWS::AccountId": ACCOUNT, "AWS::Region": region, "AWS::Partition": "aws",
            "AWS::URLSuffix": "amazonaws.com", "AWS::StackName": stack, "AWS::NotificationARNs": [],
            "AWS::NoValue": NO_VALUE,
            "AWS::StackId": f"arn:aws:cloudformation:{region}:{ACCOUNT}:stack/{stack}/"
                            "00000000-0000-0000-0000-000000000000"}

    @property
    def services(self) -> List[str]:
        """The resources that other services serve."""
        return [str(key) for key, resource in self.resources.items()
                if type_of(resource) in services.KINDS]

    @property
    def of_services(self) -> Set[str]:
        """The placeholders for such resources."""
        forms = ("the resource {}", "the address of the queue {}")
        return {form.format(key) for key in self.services for form in forms}

    @property
    def authorizers(self) -> Members:
        """Those that Serverless' HTTP API has, by their names."""
        return {}

    @property
    def payload(self) -> str:
        """The format of the events of an HTTP API whose routes name none."""
        return "2.0"

    def evaluate(self, expression: object) -> Value:
        """Its value with its placeholders; Unknown if it has none."""
        self.shared.placeholders, self.shared.steps = [], 0
        value = self.value(expression)
        return Value(value, tuple(dict.fromkeys(self.shared.placeholders)))

    def evaluate_or_reason(self, expression: object) -> Value:
        """The same; None, with the reason in the place of placeholders, if it has none."""
        try:
            return self.evaluate(expression)
        except Unknown as reason:
            return Value(None, (str(reason),))

    def text(self, text: str) -> object:
        """A text outside of Fn::Sub."""
        if text.startswith("{{resolve:"):
            self.shared.placeholders.append(f"the dynamic reference {text}")
        return text

    def value(self, expression: object) -> object:
        self.shared.depth += 1
        try:
            self.shared.enter()
            if isinstance(expression, str):
                return self.text(expression)
            if isinstance(expression, list):
                return [value for value in map(self.value, expression) if value is not NO_VALUE]
            if isinstance(expression, dict):
                return self.of_object(expression)
            return expression
        finally:
            self.shared.depth -= 1

    def chosen(self, expression: object) -> object:
        """An expression by the conditions around it, and otherwise as it is; NO_VALUE if it is not there."""
        for _ in range(DEEPEST):
            if not isinstance(expression, dict) or len(expression) != 1:
                break
            (name, argument), = expression.items()
            if name == "Ref" and argument == "AWS::NoValue":
                return NO_VALUE
            if name != "Fn::If" or not (isinstance(argument, list) and len(argument) == 3):
                break
            try:
                expression = argument[1] if self.holds(argument[0]) else argument[2]
            except Unknown:
                break
        if isinstance(expression, list):
            return [member for member in map(self.chosen, expression) if member is not NO_VALUE]
        return expression

    def of_object(self, expression: Members) -> object:
        if len(expression) == 1:
            (name, argument), = expression.items()
            if name in FUNCTIONS:
                work_out: Callable[[object], object] = getattr(self, FUNCTIONS[name])
                return work_out(argument)
            if str(name).startswith("Fn::"):
                raise Unknown(f"{name} is not worked out here")
        members = ((name, self.value(member)) for name, member in expression.items())
        return {name: value for name, value in members if value is not NO_VALUE}

    # --- the functions ---

    def placeholder(self, text: object, what: str) -> object:
        self.shared.placeholders.append(what)
        return text

    def ref(self, name: object) -> object:
        if not isinstance(name, str):
            raise Unknown(f"Ref needs a name, not {excerpt(name)}")
        if name in self.pseudo:
            return self.pseudo[name]
        if name in self.parameters:
            return self.parameter(name)
        if name in self.functions:
            return self.functions[name]
        if name in self.aliases:
            return self.arn_of_alias(name)
        known = services.ref(name, members_of(self.resources, name), self)
        return self.placeholder(name, f"the resource {name}") if known is None else known

    def arn_of(self, function: str, qualifier: Optional[str] = None) -> str:
        arn = f"arn:aws:lambda:{self.pseudo['AWS::Region']}:{ACCOUNT}:function:{function}"
        return f"{arn}:{qualifier}" if qualifier else arn

    def arn_of_alias(self, name: str) -> object:
        """By which a function is invoked; that of a version is the function's own, since it has no other version."""
        key, alias = self.aliases[name]
        return self.arn_of(self.functions[key], alias) if key in self.functions else self.placeholder(
            name, f"the resource {name}")

    def parameter(self, name: str) -> object:
        parameter = self.parameters[name]
        if name in self.passed:
            scope, expression = self.passed[name]
            return scope.value(expression)
        if name in self.given.parameters:
            return self.typed(parameter, self.given.parameters[name])
        default = parameter.get("Default") if isinstance(parameter, dict) else None
        if not is_scalar(default):
            return self.placeholder(name, f"the parameter {name}, which has no Default")
        if str(parameter.get("Type", "")).startswith("AWS::SSM::"):
            return self.placeholder(default, f"the parameter {name}, whose value is in the Parameter Store")
        return self.typed(parameter, default)

    @staticmethod
    def typed(parameter: object, value: object) -> object:
        """A parameter's value; of one that is a list, its parts."""
        kind = str(parameter.get("Type", "")) if isinstance(parameter, dict) else ""
        if kind.startswith("List<") or kind == "CommaDelimitedList":
            return [part.strip() for part in text_of(value).split(",", MOST_STEPS)]
        return value

    def get_att(self, argument: object) -> object:
        words = argument.split(".", 1) if isinstance(argument, str) else argument
        if not (isinstance(words, list) and len(words) == 2 and all(isinstance(word, str) for word in words)):
            raise Unknown(f"Fn::GetAtt needs a resource and its attribute, not {excerpt(argument)}")
        name, attribute = words
        if name in self.functions and attribute == "Arn":
            return self.arn_of(self.functions[name])
        if attribute in ("Alias", "Version", "Arn") and (f"{name}.{attribute}" in self.aliases or name in self.aliases):
            return self.arn_of_alias(name if name in self.aliases else f"{name}.{attribute}")
        if name in self.nested and attribute.startswith("Outputs."):
            return self.nested[name].output(attribute[len("Outputs."):], f"{name}.{attribute}")
        known = services.attribute(name, attribute, members_of(self.resources, name), self)
        return known if known is not None else self.placeholder(
            f"{name}.{attribute}", f"the attribute {attribute} of {name}")

    def output(self, name: str, otherwise: str) -> object:
        """What an output of this stack has."""
        if "Value" not in members_of(self.outputs, name):
            return self.placeholder(otherwise, f"the output {name}, which its stack does not have")
        return self.value(self.outputs[name]["Value"])

    def join(self, argument: object) -> str:
        if not (isinstance(argument, list) and len(argument) == 2):
            raise Unknown(f"Fn::Join needs a separator and a list, not {excerpt(argument)}")
        separator, parts = self.value(argument[0]), self.value(argument[1])
        if not isinstance(parts, list):
            raise Unknown(f"Fn::Join needs a list, not {excerpt(parts)}")
        texts = [text_of(part) for part in parts]
        self.shared.spend(letters=sum(map(len, texts)) + len(text_of(separator)) * len(texts))
        return text_of(separator).join(texts)

    def sub(self, argument: object) -> str:
        text: object = argument
        own: object = {}
        if isinstance(argument, list) and len(argument) == 2:
            text, own = argument
        if not (isinstance(text, str) and isinstance(own, dict)):
            raise Unknown(f"Fn::Sub needs a string, or a string and an object, not {excerpt(argument)}")

        names: Members = own
        length = len(text)

        def replace(match: Match[str]) -> str:
            nonlocal length
            literal, name = match[1], match[2].strip()
            if literal:
                return "${" + match[2] + "}"
            value = self.value(names[name]) if name in names else self.get_att(name) if "." in name else self.ref(name)
            found = "" if value is NO_VALUE else text_of(value)
            length += len(found)
            self.shared.spend(letters=len(found))
            if length > LONGEST_TEXT:
                raise Unknown(f"a text of more than {LONGEST_TEXT:,} characters")
            return found
        self.shared.spend(letters=length)
        return IN_TEXT.sub(replace, text)

    def select(self, argument: object) -> object:
        try:
            if not isinstance(argument, (list, tuple)):
                raise TypeError
            index, given = argument
            values = self.value(given)
            if not isinstance(values, list):
                raise TypeError
            number = int(text_of(self.value(index)))
            if number < 0:
                raise IndexError
            return values[number]
        except (TypeError, ValueError, IndexError):
            raise Unknown(f"Fn::Select needs an index and a list that has it, not {excerpt(argument)}") from None

    def split(self, argument: object) -> List[str]:
        try:
            if not isinstance(argument, list):
                raise TypeError
            separator, text = argument
            parts = text_of(self.value(text)).split(text_of(separator))
            self.shared.spend(len(parts))
            return parts
        except (TypeError, ValueError):
            raise Unknown(f"Fn::Split needs a separator and a string, not {excerpt(argument)}") from None

    def find_in_map(self, argument: object) -> object:
        try:
            if not isinstance(argument, list):
                raise TypeError
            entry: Any = self.mappings
            for name in argument[:3]:
                entry = entry[self.value(name)]
            return self.value(entry)
        except (KeyError, TypeError, IndexError):
            last = argument[3] if isinstance(argument, list) and len(argument) == 4 else None
            if isinstance(last, dict) and "DefaultValue" in last:
                return self.value(last["DefaultValue"])
            raise Unknown(f"Mappings has no {excerpt(argument)}") from None

    def import_value(self, argument: object) -> object:
        name = text_of(self.value(argument))
        if name in self.shared.exports:
            scope, expression = self.shared.exports[name]
            return scope.value(expression)
        return self.placeholder(name, f"the export {name}")

    def in_base64(self, argument: object) -> str:
        data = text_of(self.value(argument)).encode(errors="replace")
        self.shared.spend(letters=len(data) * 4 // 3)
        return base64.b64encode(data).decode()

    def in_json(self, argument: object) -> str:
        try:
            value = self.value(argument)
            self.shared.spend(letters=letters_in(value))
            return json.dumps(value, separators=(",", ":"), default=text_of)
        except (TypeError, ValueError) as fault:
            raise Unknown(f"Fn::ToJsonString: {fault}") from None

    def length(self, argument: object) -> int:
        values = self.value(argument)
        if not isinstance(values, list):
            raise Unknown(f"Fn::Length needs a list, not {excerpt(argument)}")
        return len(values)

    def zones(self, argument: object) -> List[str]:
        region = text_of(self.value(argument)) or str(self.pseudo["AWS::Region"])
        return [region + letter for letter in "abc"]

    def choose(self, argument: object) -> object:
        if not (isinstance(argument, list) and len(argument) == 3):
            raise Unknown(f"Fn::If needs a condition and two values, not {excerpt(argument)}")
        return self.value(argument[1] if self.holds(argument[0]) else argument[2])

    # --- conditions ---

    def holds(self, condition: object) -> bool:
        """Whether a condition, by its name or itself, is met."""
        self.shared.depth += 1
        try:
            self.shared.enter("its conditions go round in a circle")
            if isinstance(condition, str):
                if condition not in self.conditions:
                    raise Unknown(f"there is no condition {condition}")
                return self.holds(self.conditions[condition])
            return self.of_condition(condition)
        finally:
            self.shared.depth -= 1

    def of_condition(self, condition: object) -> bool:
        if not (isinstance(condition, dict) and len(condition) == 1):
            raise Unknown(f"{excerpt(condition)} is not a condition")
        (name, argument), = condition.items()
        if name == "Condition":
            return self.holds(argument)
        if not isinstance(argument, list):
            raise Unknown(f"{name} needs a list, not {excerpt(argument)}")
        if name == "Fn::Equals" and len(argument) == 2:
            return text_of(self.value(argument[0])) == text_of(self.value(argument[1]))
        if name == "Fn::Not" and len(argument) == 1:
            return not self.holds(argument[0])
        if name in ("Fn::And", "Fn::Or"):
            return (all if name == "Fn::And" else any)(map(self.holds, argument))
        raise Unknown(f"{name} is not worked out here")
