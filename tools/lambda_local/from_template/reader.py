"""A template as dictionaries and lists, from JSON or YAML with CloudFormation's tags."""
import sys
from typing import Any, Callable, Dict

from ..configuration import Members
from ..json_reader import NotJson, is_deeper, read_json
from .messages import Fault, tell

LONGEST = 16 << 20  # bytes of a template (CloudFormation takes 1 MB)
DEEPEST = 100  # levels of one (an expression has 50: `values`)
MERGE = "tag:yaml.org,2002:merge"
MOST_MERGED = 100_000  # members that merge keys bring: `<<: [*a, *a]` doubles them at each level
MOST_VALUES = 1_000_000  # of a template, each alias written out
LONGEST_NUMBER = 400  # letters; one in base 60 takes time as the square of its length, one in base 16 cannot be printed
WITHOUT_PREFIX = ("Ref", "Condition")  # of the short forms, such as !Ref; the others are Fn::


def yaml_loader(yaml: Any) -> Any:
    """A loader of plain YAML that writes each short form out: `!Sub x` is {"Fn::Sub": "x"}."""
    class Loader(yaml.SafeLoader):  # type: ignore[misc]  # (yaml has no types)
        pass

    def write_out(loader: Any, tag: str, node: Any) -> Members:
        name = tag if tag in WITHOUT_PREFIX else f"Fn::{tag}"
        if isinstance(node, yaml.ScalarNode):
            value = loader.construct_scalar(node)
            return {name: value.split(".", 1) if tag == "GetAtt" else value}
        construct = loader.construct_sequence if isinstance(node, yaml.SequenceNode) else loader.construct_mapping
        return {name: construct(node, deep=True)}

    def number(construct: Callable[[Any, Any], object]) -> Callable[[Any, Any], object]:
        def made(loader: Any, node: Any) -> object:
            if isinstance(node, yaml.ScalarNode) and len(node.value) > LONGEST_NUMBER:
                raise Fault(f"line {node.start_mark.line + 1}: a number has at most {LONGEST_NUMBER} letters")
            return construct(loader, node)
        return made

    Loader.add_multi_constructor("!", write_out)
    Loader.add_constructor("tag:yaml.org,2002:int", number(Loader.construct_yaml_int))
    Loader.add_constructor("tag:yaml.org,2002:float", number(Loader.construct_yaml_float))
    Loader.flatten_mapping = count_merges(Loader.flatten_mapping, yaml)
    return Loader


def count_merges(flatten: Callable[[Any, Any], object], yaml: Any) -> Callable[[Any, Any], None]:
    """Returns what merges the keys `<<` of a mapping node into it, and refuses more members than a template has."""
    counts: Dict[Any, int] = {}  # by loader, of which there is one for each template

    def count(loader: Any, node: Any, level: int) -> None:
        """Merges what is below a node first, so that its length is known, and adds that."""
        for one in node.value if isinstance(node, yaml.SequenceNode) else [node]:
            if isinstance(one, yaml.MappingNode):  # (of another, yaml says that it is none)
                merge(loader, one, level + 1)
                counts[loader] = counts.get(loader, 0) + len(one.value)
                if counts[loader] > MOST_MERGED:
                    raise Fault(f"its merge keys (<<) bring more than {MOST_MERGED:,} members")

    def merge(loader: Any, node: Any, level: int = 0) -> None:
        if level > DEEPEST:
            raise Fault("its merge keys (<<) are nested too deep")
        given = [value for key, value in node.value if key.tag == MERGE]
        for value in given:
            count(loader, value, level)
        if given:
            flatten(loader, node)

    def flatten_counted(loader: Any, node: Any) -> None:
        merge(loader, node)
        flatten(loader, node)
    return flatten_counted


def size_of(whole: object, known: Dict[int, int]) -> int:
    """How many values there are if each alias is written out. One that stands in itself has as many as may be."""
    if not isinstance(whole, (list, dict)):
        return 1
    if id(whole) not in known:
        known[id(whole)] = MOST_VALUES
        values = whole.values() if isinstance(whole, dict) else whole
        known[id(whole)] = 1 + sum(size_of(one, known) for one in values)
    return known[id(whole)]


def parse(path: str, text: str) -> object:
    try:
        return read_json(text, DEEPEST)
    except NotJson:
        pass
    try:
        import yaml
    except ImportError:
        tell(f"{path} is not JSON, and the YAML reader is not installed: pip install pyyaml")
        sys.exit(4)
    try:
        whole: object = yaml.load(text, yaml_loader(yaml))
        if is_deeper(whole, DEEPEST):
            raise Fault("it is nested too deep")
        if size_of(whole, {}) > MOST_VALUES:
            raise Fault(f"its aliases make more than {MOST_VALUES:,} values")
        return whole
    except Fault as fault:
        raise Fault(f"{path}: {fault}") from None
    except yaml.MarkedYAMLError as fault:
        mark = fault.problem_mark or fault.context_mark
        where = f"line {mark.line + 1}, column {mark.column + 1}: " if mark else ""
        raise Fault(f"{path}: {where}{fault.problem or fault.context}: write YAML or JSON") from None
    except RecursionError:
        raise Fault(f"{path}: it is nested too deep") from None
    except (yaml.YAMLError, ValueError, TypeError, AttributeError, KeyError, IndexError, OverflowError) as fault:
        raise Fault(f"{path}: it is neither YAML nor JSON: {' '.join(str(fault).split())}") from None


def read(path: str) -> Members:
    """The template, which is an object."""
    try:
        with open(path, encoding="utf-8") as file:
            text = file.read(LONGEST + 1)
    except OSError as fault:
        raise Fault(f"{path}: {fault.strerror}: name a template") from None
    except UnicodeDecodeError:
        raise Fault(f"{path}: it is not text: name a template") from None
    if len(text) > LONGEST:
        raise Fault(f"{path}: it is longer than {LONGEST:,} bytes: name a template")
    whole = parse(path, text)
    if not isinstance(whole, dict):
        raise Fault(f"{path} is not a template: it must have Resources, or functions")
    return whole
