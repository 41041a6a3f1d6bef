"""Which records of a stream a function gets: those that one of its patterns takes (Developer Guide, "Control which
events Lambda sends to your function"). A pattern is an object like the record, with a list of what is taken for each
value."""
import base64
import binascii
import operator
from typing import Any, Callable, Dict, Iterator, List, Mapping, Sequence

from ..configuration import shown
from ..json_reader import NotJson, read_json

MOST_FILTERS = 10  # of a stream
DEEPEST = 20  # levels of a pattern
ABSENT = object()
COMPARED: Dict[str, Callable[[float, float], bool]] = {"=": operator.eq, "<": operator.lt, "<=": operator.le,
                                                       ">": operator.gt, ">=": operator.ge}


def is_number(value: object) -> bool:
    return isinstance(value, (int, float)) and not isinstance(value, bool)


def is_simple(value: object) -> bool:
    return value is None or isinstance(value, (str, bool)) or is_number(value)


# ---- what is right ---------------------------------------------------------------------------------------------------


def is_numeric(given: object) -> bool:
    """One comparison with a number, or two."""
    return isinstance(given, list) and len(given) in (2, 4) and all(
        isinstance(word, str) and word in COMPARED for word in given[::2]) and all(map(is_number, given[1::2]))


def is_anything_but(given: object) -> bool:
    if isinstance(given, list):
        return given != [] and all(isinstance(one, str) or is_number(one) for one in given)
    if isinstance(given, dict):
        return list(given) in (["prefix"], ["suffix"]) and all(isinstance(one, str) for one in given.values())
    return isinstance(given, str) or is_number(given)


OPERATORS: Dict[str, Callable[[object], bool]] = {
    "prefix": lambda given: isinstance(given, str), "suffix": lambda given: isinstance(given, str),
    "equals-ignore-case": lambda given: isinstance(given, str), "exists": lambda given: isinstance(given, bool),
    "numeric": is_numeric, "anything-but": is_anything_but}


def mistakes(pattern: object, where: str, level: int = 0) -> Iterator[str]:
    """What is wrong with a pattern."""
    if not isinstance(pattern, dict) or not pattern or level > DEEPEST:
        yield f"{where}{shown(pattern)} must be an object with at least one member, and up to {DEEPEST} levels"
        return
    for name, wanted in pattern.items():
        place = f"{where}{name}: "
        if name == "$or":
            if not isinstance(wanted, list) or not wanted:
                yield f"{place}{shown(wanted)} must be a list of patterns"
                continue
            for one in wanted:
                yield from mistakes(one, place, level + 1)
        elif isinstance(wanted, dict):
            yield from mistakes(wanted, place, level + 1)
        elif not isinstance(wanted, list) or not wanted:
            yield f"{place}{shown(wanted)} must be a list of what is taken, such as [\"INSERT\"], or an object"
        else:
            yield from (f"{place}{shown(one)} must be a value, or an object with one of {', '.join(OPERATORS)}"
                        for one in wanted if not is_matcher(one))


def is_matcher(one: object) -> bool:
    if not isinstance(one, dict):
        return is_simple(one)
    return len(one) == 1 and all(name in OPERATORS and OPERATORS[name](given) for name, given in one.items())


# ---- what is taken ---------------------------------------------------------------------------------------------------


def takes(pattern: Mapping[str, Any], event: object) -> bool:
    """Whether a right pattern takes an event."""
    members = event if isinstance(event, dict) else {}
    for name, wanted in pattern.items():
        if name == "$or":
            if not any(takes(one, members) for one in wanted):
                return False
        elif isinstance(wanted, dict):
            if not takes(wanted, members.get(name)):
                return False
        elif not any(fits(one, members.get(name, ABSENT)) for one in wanted):
            return False
    return True


def fits(wanted: object, value: object) -> bool:
    """Whether a value is as one of a pattern's list says; of a list, one of its items."""
    if isinstance(wanted, dict) and "exists" in wanted:
        return (value is not ABSENT and not isinstance(value, dict)) is bool(wanted["exists"])
    if isinstance(value, list):
        return any(fits(wanted, one) for one in value)
    if not is_simple(value):
        return False
    if not isinstance(wanted, dict):
        return wanted == value and isinstance(wanted, bool) == isinstance(value, bool)
    (name, given), = wanted.items()
    if name == "numeric":
        return is_number(value) and all(COMPARED[word](value, number)  # type: ignore[arg-type]
                                        for word, number in zip(given[::2], given[1::2]))
    if name == "anything-but":
        return is_other(given, value)
    if not isinstance(value, str):
        return False
    return bool(value.startswith(given) if name == "prefix" else value.endswith(given) if name == "suffix"
                else value.casefold() == given.casefold())


def is_other(given: Any, value: object) -> bool:
    if isinstance(given, dict):
        return isinstance(value, str) and not fits(given, value)
    return not any(fits(one, value) for one in (given if isinstance(given, list) else [given]))


def view_of(event: Dict[str, Any]) -> Dict[str, Any]:
    """What a pattern sees of a record: the record of a table; of Kinesis its metadata, and its data as JSON or text."""
    inner = event.get("kinesis")
    if not isinstance(inner, dict):
        return event
    try:
        text = base64.b64decode(str(inner.get("data", ""))).decode()
    except (binascii.Error, UnicodeDecodeError):
        return {**event, **inner, "data": None}
    try:
        data = read_json(text)
    except NotJson:
        data = text
    return {**event, **inner, "data": data if isinstance(data, dict) else text}


def is_taken(filters: Sequence[Mapping[str, Any]], event: Dict[str, Any]) -> bool:
    """Whether one of the patterns takes a record; without any each is taken."""
    return not filters or any(takes(pattern, view_of(event)) for pattern in filters)


def filters_in(patterns: List[object]) -> List[Dict[str, Any]]:
    """Patterns of a template, which are texts or objects, as objects. NotJson says why one is none."""
    made: List[Dict[str, Any]] = []
    for one in patterns:
        pattern = read_json(one) if isinstance(one, str) else one
        for mistake in mistakes(pattern, ""):
            raise NotJson(mistake)
        assert isinstance(pattern, dict)
        made.append(pattern)
    return made
