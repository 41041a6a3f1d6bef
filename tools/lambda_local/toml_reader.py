"""Reads TOML 1.0 of anyone, as far as a samconfig.toml has it: tables, dotted keys, strings of all four kinds, arrays,
inline tables, numbers, booleans and dates (which stay texts). Whatever the text is, it raises `NotToml` and nothing
else. (Python has a reader of its own from 3.11 on; the tests compare the two.)"""
import re
from typing import Dict, List, NoReturn

Table = Dict[str, object]
DEEPEST = 50  # arrays and inline tables in one another
LONGEST_KEY = 50  # parts of a dotted key
BARE = re.compile(r"[A-Za-z0-9_-]+")
BLANK = re.compile(r"[ \t]*")
COMMENT = re.compile(r"[ \t]*(?:#[^\x00-\x08\x0a-\x1f\x7f]*)?(?:\r?\n|\Z)")
BETWEEN = re.compile(r"(?:[ \t]|\r?\n|#[^\x00-\x08\x0a-\x1f\x7f]*(?=\r?\n|\Z))*")  # in an array
INTEGER = re.compile(r"[+-]?(?:0|[1-9](?:_?\d)*)|0x[0-9A-Fa-f](?:_?[0-9A-Fa-f])*|0o[0-7](?:_?[0-7])*|0b[01](?:_?[01])*",
                     re.ASCII)
FLOAT = re.compile(r"[+-]?(?:0|[1-9](?:_?\d)*)(?:\.\d(?:_?\d)*)?(?:[eE][+-]?\d(?:_?\d)*)?|[+-]?(?:inf|nan)", re.ASCII)
DATE = re.compile(r"\d{4}-\d\d-\d\d(?:[Tt ]\d\d:\d\d:\d\d(?:\.\d+)?(?:[Zz]|[+-]\d\d:\d\d)?)?|\d\d:\d\d:\d\d(?:\.\d+)?",
                  re.ASCII)
WORD = re.compile(r"[^\s,\]}#=]+(?: \d\d:[^\s,\]}#=]+)?")
ESCAPES = {"b": "\b", "t": "\t", "n": "\n", "f": "\f", "r": "\r", '"': '"', "\\": "\\"}
PLAIN = {kind: re.compile(form) for kind, form in (
    ('"', r'[^"\\\x00-\x08\x0a-\x1f\x7f]+'), ("'", r"[^'\x00-\x08\x0a-\x1f\x7f]+"),
    ('"""', r'(?:[^"\\\x00-\x08\x0b-\x1f\x7f\r]|\r\n)+'), ("'''", r"(?:[^'\x00-\x08\x0b-\x1f\x7f\r]|\r\n)+"))}


class NotToml(ValueError):
    """Why this is not TOML, with the number of the line."""


def read_toml(text: str) -> Table:
    reader = Reader(text)
    while reader.at < len(text):
        reader.line()
    return reader.whole


class Reader:
    def __init__(self, text: str) -> None:
        self.text, self.at = text, 0
        self.whole: Table = {}
        self.table = self.whole
        self.closed = {id(self.whole): "table"}  # what each table is: none is defined twice

    def refuse(self, why: str) -> NoReturn:
        raise NotToml(f"line {self.text.count(chr(10), 0, self.at) + 1}: {why}")

    def has(self, word: str) -> bool:
        """Takes a word that is next."""
        if self.text.startswith(word, self.at):
            self.at += len(word)
            return True
        return False

    def skip(self, form: "re.Pattern[str]") -> None:
        match = form.match(self.text, self.at)
        self.at = match.end() if match else self.at

    def line(self) -> None:
        self.skip(BLANK)
        if self.has("[["):
            self.header(self.keys(), "]]")
        elif self.has("["):
            self.header(self.keys(), "]")
        elif not self.text.startswith(("#", "\n", "\r\n"), self.at) and self.at < len(self.text):
            self.pair(self.table, 0)
        match = COMMENT.match(self.text, self.at)
        if match is None:
            self.refuse("there is more than one thing in it")
        self.at = match.end()

    # ---- keys and tables ---------------------------------------------------------------------------------------------

    def keys(self) -> List[str]:
        """A dotted key."""
        found: List[str] = []
        while True:
            self.skip(BLANK)
            match = BARE.match(self.text, self.at)
            if self.text.startswith(('"', "'"), self.at):
                found.append(self.string(self.text[self.at]))
            elif match:
                found.append(match[0])
                self.at = match.end()
            else:
                self.refuse("a key must be a name of letters, digits, _ and -, or a string")
            if len(found) > LONGEST_KEY:
                self.refuse(f"a key of more than {LONGEST_KEY} parts")
            self.skip(BLANK)
            if not self.has("."):
                return found

    def inner(self, table: Table, key: str, kind: str) -> Table:
        """The table of this name in another one, made if it is not there; of an array of tables, its last one."""
        if key not in table:
            made: Table = {}
            table[key] = made
            self.closed[id(made)] = kind
        one = table[key]
        if isinstance(one, list) and self.closed.get(id(one)) == "array of tables":
            one = one[-1]
        if not isinstance(one, dict) or self.closed[id(one)] == "inline":
            self.refuse(f"{key!r} is there already, and cannot be added to")
        return one

    def header(self, keys: List[str], end: str) -> None:
        if not self.has(end):
            self.refuse(f"the name of a table must end with {end}")
        table = self.whole
        for key in keys[:-1]:
            table = self.inner(table, key, "path")
        last = keys[-1]
        if end == "]]":
            array = table.setdefault(last, [])
            if not isinstance(array, list) or self.closed.get(id(array)) == "inline":
                self.refuse(f"{last!r} is there already")
            self.closed[id(array)] = "array of tables"
            made: Table = {}
            array.append(made)
            self.table = made
        else:
            if isinstance(table.get(last), list):
                self.refuse(f"{last!r} is there already")
            self.table = self.inner(table, last, "path")
            if self.closed[id(self.table)] != "path":
                self.refuse(f"the table {last!r} is there already")
        self.closed[id(self.table)] = "table"

    def pair(self, table: Table, level: int) -> None:
        keys = self.keys()
        if not self.has("="):
            self.refuse("a key must be followed by = and a value")
        for key in keys[:-1]:
            is_new = key not in table
            table = self.inner(table, key, "dotted")
            if not is_new and self.closed[id(table)] != "dotted":
                self.refuse(f"the table {key!r} is there already")
        if keys[-1] in table:
            self.refuse(f"{keys[-1]!r} is there twice")
        table[keys[-1]] = self.value(level)

    # ---- values ------------------------------------------------------------------------------------------------------

    def value(self, level: int) -> object:
        self.skip(BLANK)
        if level > DEEPEST:
            self.refuse("it is nested too deep")
        for quote in ('"""', "'''", '"', "'"):
            if self.text.startswith(quote, self.at):
                return self.string(quote)
        if self.has("["):
            return self.array(level)
        if self.has("{"):
            return self.inline(level)
        match = WORD.match(self.text, self.at)
        word = match[0] if match else ""
        self.at += len(word)
        if word in ("true", "false"):
            return word == "true"
        if INTEGER.fullmatch(word) and len(word) < 100:
            return int(word.replace("_", ""), 0)
        if FLOAT.fullmatch(word) and len(word) < 100:
            return float(word.replace("_", ""))
        if not DATE.fullmatch(word):
            self.refuse("a value must be a string, a number, true, false, a date, an array or a table")
        return word

    def array(self, level: int) -> List[object]:
        found: List[object] = []
        self.closed[id(found)] = "inline"
        while True:
            self.skip(BETWEEN)
            if self.has("]"):
                return found
            found.append(self.value(level + 1))
            self.skip(BETWEEN)
            if not self.has(","):
                if not self.has("]"):
                    self.refuse("an array must go on with , or end with ]")
                return found

    def inline(self, level: int) -> Table:
        made: Table = {}
        self.closed[id(made)] = "table"
        self.skip(BLANK)
        while not self.has("}"):
            if made and not self.has(","):
                self.refuse("an inline table must go on with , or end with }")
            self.pair(made, level + 1)
            self.skip(BLANK)
        self.close(made)
        return made

    def close(self, table: Table) -> None:
        """Nothing can be added to an inline table, nor to those that its dotted keys made."""
        self.closed[id(table)] = "inline"
        for one in table.values():
            if isinstance(one, dict) and self.closed[id(one)] != "inline":
                self.close(one)

    def string(self, quote: str) -> str:
        begun, parts = self.at, []
        self.at += len(quote)
        if len(quote) == 3:
            self.has("\r\n") or self.has("\n")
        while True:
            match = PLAIN[quote].match(self.text, self.at)
            if match:
                parts.append(match[0].replace("\r\n", "\n"))
                self.at = match.end()
            elif quote[0] == '"' and self.has("\\"):
                parts.append(self.escape(len(quote) == 3))
            elif self.has(quote):
                return "".join([*parts, *self.quotes_before_the_end(quote)])
            elif len(quote) == 3 and self.has(quote[0]):
                parts.append(quote[0])
            else:
                self.at = begun if self.at >= len(self.text) else self.at
                self.refuse(f"a string has no end, {quote}, or a control character")

    def quotes_before_the_end(self, quote: str) -> List[str]:
        """Up to two quotes belong to a string of three that ends."""
        found: List[str] = []
        while len(quote) == 3 and len(found) < 2 and self.has(quote[0]):
            found.append(quote[0])
        return found

    def escape(self, has_lines: bool) -> str:
        letter = self.text[self.at:self.at + 1]
        self.at += 1
        if letter in ESCAPES and letter:
            return ESCAPES[letter]
        if letter in ("u", "U"):
            digits = self.text[self.at:self.at + (4 if letter == "u" else 8)]
            if not re.fullmatch(r"[0-9A-Fa-f]+", digits) or len(digits) != (4 if letter == "u" else 8):
                self.refuse(f"\\{letter} needs {4 if letter == 'u' else 8} digits")
            number = int(digits, 16)
            if number > 0x10FFFF or 0xD800 <= number < 0xE000:
                self.refuse(f"\\{letter}{digits} is not a character")
            self.at += len(digits)
            return chr(number)
        match = re.compile(r"[ \t]*\r?\n(?:[ \t]|\r?\n)*").match(self.text, self.at - 1) if has_lines else None
        if match is None:
            self.refuse(f"\\{letter} has no meaning in a string")
        self.at = match.end()
        return ""


def table_in(table: object, name: str) -> Table:
    """A table of another one; an empty one if it has none."""
    one = table.get(name) if isinstance(table, dict) else None
    return one if isinstance(one, dict) else {}
