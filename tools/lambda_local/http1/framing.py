"""Where the body of a message ends (RFC 9112, section 6.3), and whether its connection is kept (section 9.3). There is
no choice between two readings of one message: that is what request smuggling lives on."""
import re
from typing import Dict, List, Optional, Tuple

from .syntax import Headers, Malformed, elements, is_token

KNOWN = ("content-length", "transfer-encoding", "connection", "expect", "host")
UNTIL_CLOSE = -1
LARGEST = 2 ** 64


def known_in(headers: Headers) -> Dict[str, List[str]]:
    """The values of the headers that the connection itself acts on, by their names in lower case."""
    values: Dict[str, List[str]] = {}
    for name, value in headers:
        lower = name.lower()
        if lower in KNOWN:
            values.setdefault(lower, []).append(value)
    return values


def has_word(values: Optional[List[str]], word: str) -> bool:
    return bool(values) and any(word == element.lower() for value in values or () for element in elements(value))


def length_in(values: List[str]) -> int:
    """What several Content-Length say, if they say the same."""
    numbers = {int(match[1] or "0") if (match := re.fullmatch("0*([0-9]{0,20})", value)) and value else None
               for value in values}
    number = numbers.pop()
    if numbers or number is None or number >= LARGEST:
        raise Malformed(400, "Content-Length must be one number")
    return number


def is_chunked(values: List[str]) -> bool:
    """Whether the codings end with `chunked`; Malformed if their list is not well formed."""
    codings = [element for value in values for element in elements(value)]
    named = [coding.lower() for coding in codings if coding]
    if not all(map(is_token, named)) or "chunked" in named[:-1] or codings[-1] == "":
        raise Malformed(400, "Transfer-Encoding is not a list of codings that ends with chunked")
    return named[-1] == "chunked"


def framing_of(version: str, headers: Dict[str, List[str]], unstated: int, unchunked: Optional[int]) -> Optional[int]:
    """The length of a body; none if it is in chunks. `unstated` is the length if no header says any, and `unchunked` if
    the last coding is not `chunked`, which cannot be if it is none."""
    lengths, codings = headers.get("content-length"), headers.get("transfer-encoding")
    if codings is None:
        return unstated if lengths is None else length_in(lengths)
    if lengths is not None:
        raise Malformed(400, "Content-Length and Transfer-Encoding stand together")
    if version == "HTTP/1.0":
        raise Malformed(400, "HTTP/1.0 has no Transfer-Encoding")
    if is_chunked(codings):
        return None
    if unchunked is None:
        raise Malformed(400, "Transfer-Encoding does not end with chunked")
    return unchunked


def of_request(method: str, version: str, headers: Headers) -> Tuple[Optional[int], bool, bool]:
    """The length of a request's body, none for one in chunks; whether its connection is kept, and whether its sender
    waits for 100 Continue."""
    known = known_in(headers)
    hosts = len(known.get("host", ()))
    if hosts > 1 or hosts == 0 and version == "HTTP/1.1":
        raise Malformed(400, "a request has one Host")
    length = framing_of(version, known, 0, None)
    if method == "CONNECT" and length != 0:
        raise Malformed(400, "CONNECT has no content")
    expects = version == "HTTP/1.1" and length != 0 and has_word(known.get("expect"), "100-continue")
    return length, is_kept(version, known), expects


def is_kept(version: str, known: Dict[str, List[str]]) -> bool:
    options = known.get("connection")
    return not has_word(options, "close") and (version == "HTTP/1.1" or has_word(options, "keep-alive"))


def of_response(method: str, status: int, version: str, headers: Headers) -> Tuple[Optional[int], bool]:
    """The length of a response's body, none for one in chunks, UNTIL_CLOSE for one that the end of the connection ends;
    and whether the connection is kept."""
    known = known_in(headers)
    if method == "HEAD" or status < 200 or status in (204, 304):
        return 0, is_kept(version, known)
    length = framing_of(version, known, UNTIL_CLOSE, UNTIL_CLOSE)
    return length, length != UNTIL_CLOSE and is_kept(version, known)
