"""The one way in which heads go out. What would end a line early, or hide in one, raises Unwritable."""
from typing import Iterable

from .events import Unwritable
from .syntax import FIELD, SECTION, Headers, is_field_value, is_token

FRAME = "\r\n"


def head(line: str, headers: Headers) -> bytes:
    text = "".join([f"{name}: {value}\r\n" for name, value in headers]) + FRAME
    if text.count("\n") != len(headers) + 1 or not SECTION.fullmatch(text):
        name, value = next((name, value) for name, value in headers if not FIELD.fullmatch(f"{name}: {value}\r\n"))
        raise Unwritable(f"the header {name!r} cannot have the value {value[:60]!r}")
    if not is_field_value(line):
        raise Unwritable(f"{line[:60]!r} cannot begin a head")
    return f"{line}\r\n{text}".encode("latin-1")


def request_head(method: str, target: str, headers: Headers) -> bytes:
    if not is_token(method) or not target or not target.isascii() and not is_field_value(target) or " " in target:
        raise Unwritable(f"{method[:20]!r} {target[:60]!r} cannot begin a request")
    return head(f"{method} {target} HTTP/1.1", headers)


def response_head(version: str, status: int, reason: str, headers: Headers) -> bytes:
    return head(f"{version} {status:03d} {reason}", headers)


def chunk(data: bytes) -> bytes:
    """A part of a body in chunks, which is not empty."""
    return b"%x\r\n%b\r\n" % (len(data), data)


def last_chunk(pieces: Iterable[bytes] = ()) -> bytes:
    return b"".join(map(chunk, pieces)) + b"0\r\n\r\n"
