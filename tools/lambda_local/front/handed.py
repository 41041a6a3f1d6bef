"""A request that the service hands over (docs/formats.md, "Handlers of requests"): a line of JSON, then its body. It is
read as strictly as what comes from anyone."""
from typing import List, NamedTuple, Optional, Tuple

from ..http1 import Malformed, Request as Head, Target, is_field_value, is_token, target_of
from ..json_reader import NotJson, read_json
from .http import Headers, Request

LONGEST_LINE = 512 << 10  # bytes: a head of 64 KiB, each byte of which may be written as six
MEMBERS = {"id", "port", "method", "target", "headers"}


class NotHanded(Exception):
    """Why this is no request."""


class Handed(NamedTuple):
    number: int  # by which it is answered
    port: int  # to which it came
    request: Request


def is_number(value: object, most: int) -> bool:
    return type(value) is int and 0 <= value <= most


def handed_of(given: bytes) -> Handed:
    """What the service gives. NotHanded if it is none."""
    line, feed, content = given.partition(b"\n")
    if not feed:
        raise NotHanded("its line has no end")
    try:
        members = read_json(line, longest=LONGEST_LINE)
    except NotJson as fault:
        raise NotHanded(f"its line: {fault}") from None
    if not isinstance(members, dict) or set(members) != MEMBERS:
        raise NotHanded(f"its line has other members than {', '.join(sorted(MEMBERS))}")
    number, port, method = members["id"], members["port"], members["method"]
    if not is_number(number, 2 ** 64 - 1) or not is_number(port, 65535):
        raise NotHanded("its id, or its port, is no such number")
    if not isinstance(method, str) or not is_token(method):
        raise NotHanded("its method is none")
    target, parts = target_in(members["target"])
    head = Head(method, target, parts, "HTTP/1.1", fields_in(members["headers"]), len(content), True, False)
    return Handed(number, port, Request(head, content))


def target_in(given: object) -> Tuple[str, Target]:
    """The target, and its parts. That of a tunnel, which has no path, is empty."""
    if not isinstance(given, str):
        raise NotHanded("its target is no text")
    try:
        text = given.encode().decode("latin-1")
        return text, target_of(text) if text else Target(None, "", None)
    except (Malformed, UnicodeEncodeError) as fault:
        raise NotHanded(f"its target: {fault}") from None


def fields_in(given: object) -> Headers:
    fields: List[Tuple[str, str]] = []
    for pair in given if isinstance(given, list) else [None]:
        field = field_in(pair)
        if field is None:
            raise NotHanded("its headers are not pairs of a name and a value")
        fields.append(field)
    return fields


def field_in(pair: object) -> Optional[Tuple[str, str]]:
    if not isinstance(pair, list) or len(pair) != 2 or not all(isinstance(one, str) for one in pair):
        return None
    name, value = pair
    return (name, value) if is_token(name) and is_field_value(value) else None
