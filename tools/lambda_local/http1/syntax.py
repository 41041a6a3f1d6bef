"""The grammar of heads (RFC 9110, section 5; RFC 9112, sections 2 to 5), over texts in which each character is one
byte."""
import re
from typing import List, NamedTuple, Optional, Pattern, Tuple

Headers = List[Tuple[str, str]]

NAME = r"[!#$%&'*+.^_`|~0-9A-Za-z-]+"
VALUE = r"[\t -~\x80-\xff]*"
TOKEN = re.compile(NAME)
FIELD = re.compile(f"({NAME}):({VALUE})\r\n")
SECTION = re.compile(f"(?:{NAME}:{VALUE}\r\n)*\r\n")
REQUEST_LINE = re.compile(f"({NAME}) ([!-~\x80-\xff]+) (HTTP/1\\.[01])\r\n")
STATUS_LINE = re.compile(f"(HTTP/1\\.[01]) ([1-5][0-9]{{2}})(?: ({VALUE}))?\r\n")


def begun(*parts: str) -> "Pattern[str]":
    """What may still become these parts, one after the other."""
    made = ""
    for part in reversed(parts):
        made = f"(?:{part}{made})?"
    return re.compile(made)


VERSION = (*"HTTP/1", r"\.", "[01]")
BEGUN_REQUEST_LINE = begun(NAME, " ", "[!-~\x80-\xff]+", " ", *VERSION, "\r")
BEGUN_STATUS_LINE = begun(*VERSION, " ", "[1-5]", "[0-9]", "[0-9]", f"(?: {VALUE})?", "\r")
BEGUN_FIELD = re.compile(f"\r?|{NAME}|{NAME}:{VALUE}\r?")
# The same lines where their head is not whole, so that nothing is said yet of a line feed without CR
ONE_FIELD = re.compile(f"{NAME}:{VALUE}\r?\n")
ONE_REQUEST_LINE = re.compile(REQUEST_LINE.pattern.replace("\r", "\r?"))
ONE_STATUS_LINE = re.compile(STATUS_LINE.pattern.replace("\r", "\r?"))

# A target's parts, each with the bytes that the crate `http` takes in it: those of WHATWG's URL standard.
PATH = re.compile(r'[!"$-;=@-_a-~\x80-\xff]*')
QUERY = re.compile(r"[!$-;=?-~\x80-\xff]*")
AUTHORITY = re.compile(r"[!$-.0-;=@-\[\]_a-z~]*")
SCHEME = re.compile(r"([+.0-9A-Za-z~-]*)://")
MOST_SCHEME, MOST_COLONS = 64, 8


class Malformed(Exception):
    """What cannot be read: the status that its sender gets, and what is wrong."""

    def __init__(self, status: int, reason: str) -> None:
        super().__init__(reason)
        self.status, self.reason = status, reason


class Target(NamedTuple):
    """What a request is about (RFC 9112, section 3.2). The authority is that of a target in absolute or authority form;
    the query is none if there is none. A fragment is left out."""
    authority: Optional[str]
    path: str
    query: Optional[str]

    @property
    def origin_form(self) -> str:
        return self.path if self.query is None else f"{self.path}?{self.query}"


def is_token(text: str) -> bool:
    return TOKEN.fullmatch(text) is not None


def is_field_value(text: str) -> bool:
    return re.fullmatch(VALUE, text) is not None


def is_utf8(text: str) -> bool:
    try:
        return text.isascii() or text.encode("latin-1").decode() != ""
    except UnicodeDecodeError:
        return False


def first(headers: Headers, name: str) -> Optional[str]:
    """The value of the first header of this name, in lower case; none if there is none."""
    return next((value for other, value in headers if other.lower() == name), None)


def every(headers: Headers, name: str) -> List[str]:
    return [value for other, value in headers if other.lower() == name]


def elements(value: str) -> List[str]:
    """The elements of a list, also the empty ones, without the blanks around them."""
    return [element.strip(" \t") for element in value.split(",")]


# ---- lines -----------------------------------------------------------------------------------------------------------


def fields_of(text: str, at: int, most: int) -> Headers:
    """The fields from here on to the end of the text, which is the empty line after them."""
    if not SECTION.fullmatch(text, at):
        raise wrong_field(text, at, most)
    fields = FIELD.findall(text, at)
    if len(fields) > most:
        raise Malformed(431, f"there are more than {most} fields")
    return [(name, value.strip(" \t")) for name, value in fields]


def wrong_field(text: str, at: int, most: int) -> Malformed:
    """The first fault of a section that is not well formed."""
    for _ in range(most + 1):
        field = FIELD.match(text, at)
        if not field:
            return wrong_line(text[at:text.find("\n", at) + 1])
        at = field.end()
    return Malformed(431, f"there are more than {most} fields")


def wrong_line(line: str) -> Malformed:
    if not line.endswith("\r\n"):
        return Malformed(400, "each line of a head must end with CR LF")
    if line[:1] in " \t":
        return Malformed(400, "a header is folded over two lines")
    name, colon, _ = line.partition(":")
    if not colon or not is_token(name):
        return Malformed(400, "a header must be written as NAME: VALUE")
    return Malformed(400, "a header has a byte that may not be in it")


# ---- targets ---------------------------------------------------------------------------------------------------------


def target_of(text: str) -> Target:
    """Raises Malformed if it is not a target in one of its four forms."""
    if not is_utf8(text):
        raise Malformed(400, "the target is not UTF-8")
    if text == "*" or text.startswith("/"):
        return path_of(None, text)
    scheme = SCHEME.match(text) if len(text) > 3 else None
    rest = text[scheme.end():] if scheme else text
    if scheme and len(scheme[1]) > MOST_SCHEME:
        raise Malformed(400, "the target's scheme is too long")
    authority = re.split("[/?#]", rest, maxsplit=1)[0]
    if not authority or not scheme and authority != rest or not is_authority(authority):
        raise Malformed(400, "the target's authority is not HOST:PORT")
    if not scheme:
        return Target(authority, "", None)
    return path_of(authority, rest[len(authority):] or "/")


def end_of(pattern: "re.Pattern[str]", text: str, begin: int) -> int:
    """Where the part of a text ends that has the bytes of this pattern."""
    match = pattern.match(text, begin)
    return begin if match is None else match.end()


def path_of(authority: Optional[str], text: str) -> Target:
    end = end_of(PATH, text, 0) if text != "*" else 1
    path, query, after = text[:end] or "/", None, end
    if text[end:end + 1] == "?":
        after = end_of(QUERY, text, end + 1)
        query = text[end + 1:after]
    if after < len(text) and text[after] != "#":
        raise Malformed(400, "the target has a byte that may not be in it")
    return Target(authority, path, query)


def is_authority(text: str) -> bool:
    """Whether the crate `http` takes it: [USER@]HOST[:PORT], where HOST may be an address in brackets."""
    if not AUTHORITY.fullmatch(text) or text.endswith("@"):
        return False
    colons, opened, closed, has_percent = 0, False, False, False
    for byte in re.findall(r"[%:\[\]@]", text):
        if byte == ":":
            colons += 1
            if colons > MOST_COLONS:
                return False
        elif byte == "[":
            if has_percent or opened:
                return False
            opened = True
        elif byte == "%":
            has_percent = True
        else:
            if byte == "]" and (not opened or closed):
                return False
            closed = closed or byte == "]"
            colons, has_percent = 0, False
    return opened == closed and colons <= 1 and not has_percent
