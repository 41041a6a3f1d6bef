"""Reads JSON of anyone: whatever the text is, it raises `NotJson` and nothing else. Want of memory is no fault of the
text, and stays a MemoryError."""
import json
from typing import Any, Dict, Optional, Union

DEEPEST = 100  # arrays and objects in one another
LONGEST = 64 << 20  # bytes, or letters of a string


class NotJson(ValueError):
    """Why this is not JSON, or more of it than is read here."""


def is_deeper(value: object, levels: int) -> bool:
    """Whether arrays and objects are in one another for more levels than that. It looks at level after level, without a
    call for each, and once at what occurs in several places of one."""
    level = {id(value): value}
    for _ in range(levels + 1):
        nested = [one for one in level.values() if isinstance(one, (list, dict))]
        if not nested:
            return False
        level = {id(member): member for one in nested for member in (one.values() if isinstance(one, dict) else one)}
    return True


def refuse_constant(constant: str) -> object:
    raise ValueError(f"{constant} is not a number of JSON")


def read_json(given: Union[str, bytes], deepest: int = DEEPEST, longest: int = LONGEST) -> object:
    """What JSON says, as a string or as bytes of UTF-8."""
    if len(given) > longest:
        raise NotJson(f"it is longer than {longest:,} bytes")
    try:
        text = given if isinstance(given, str) else given.decode()
        value: object = json.loads(text, parse_constant=refuse_constant)
    except RecursionError:
        raise NotJson("it is nested too deep") from None
    except ValueError as fault:
        raise NotJson(str(fault)) from None
    if text.count("[") + text.count("{") > deepest and is_deeper(value, deepest):
        raise NotJson(f"it is nested too deep: {deepest} levels are the most")
    return value


def members_of(given: Union[str, bytes], longest: int = LONGEST) -> Optional[Dict[str, Any]]:
    """The members of an object in JSON; none if it is something else, such as what a function may post."""
    try:
        value = read_json(given, longest=longest)
    except NotJson:
        return None
    return value if isinstance(value, dict) else None
