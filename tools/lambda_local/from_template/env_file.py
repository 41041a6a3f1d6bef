"""Reads a file .env: lines NAME=VALUE, as `dotenv` has them. A value in quotes may go over several lines, and has its
blanks and #; \\n and \\r in double quotes are ends of lines. Another value ends at a # after a blank. No value is
expanded: ${NAME} stays as it is."""
import re
from typing import Dict

from .messages import Fault, excerpt

NAME = re.compile(r"[ \t]*(?:export[ \t]+)?([A-Za-z_][A-Za-z0-9_.]*)[ \t]*=[ \t]*")
QUOTES = "\"'`"
AFTER_QUOTE = re.compile(r"[ \t]*(?:#[^\n]*)?(?:\n|\Z)")
ESCAPES = {"\\n": "\n", "\\r": "\r"}


def read_env(text: str, where: str) -> Dict[str, str]:
    """The variables; Fault with the number of the line that is none."""
    text = text.replace("\r\n", "\n").replace("\r", "\n")
    found: Dict[str, str] = {}
    at = number = 0
    while at < len(text):
        end = text.find("\n", at)
        end = len(text) if end < 0 else end
        line, number = text[at:end], number + 1
        if not line.strip() or line.lstrip().startswith("#"):
            at = end + 1
            continue
        match = NAME.match(text, at, end)
        if not match:
            raise Fault(f"{where}: line {number}: {excerpt(line)} must be NAME=VALUE")
        value, at = quoted(text, match.end()) if text[match.end():match.end() + 1] in tuple(QUOTES) else ("", -1)
        if at < 0:
            value, at = unquoted(text[match.end():end]), end + 1
        if "\0" in value:
            raise Fault(f"{where}: line {number}: {match[1]} has a NUL, which no variable has")
        found[match[1]] = value
        number += text.count("\n", end, at - 1)
    return found


def quoted(text: str, begin: int) -> "tuple[str, int]":
    """The value that begins with this quote, and where the next line is; -1 if the quote does not end, or not its
    line: it is then a part of the value."""
    quote = text[begin]
    close = text.find(quote, begin + 1)
    while close > 0 and text[close - 1] == "\\":  # (one that is escaped stays so, as with dotenv)
        close = text.find(quote, close + 1)
    after = AFTER_QUOTE.match(text, close + 1) if close > 0 else None
    if after is None:
        return "", -1
    value = text[begin + 1:close]
    return re.sub(r"\\[nr]", lambda found: ESCAPES[found[0]], value) if quote == '"' else value, after.end()


def unquoted(text: str) -> str:
    """What is before a comment: a # at the beginning or after a blank."""
    for at, letter in enumerate(text):
        if letter == "#" and (not at or text[at - 1] in " \t"):
            return text[:at].rstrip()
    return text.rstrip()
