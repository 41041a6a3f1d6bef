"""Runtimes with one mistake each in what they make of an event or an output, as a table: the mistake's name, the check
that catches it, others that cannot but catch it too, and what becomes of each value of an event, of an output, or of
the bytes of one of the two."""
import json
import signal
import sys
import unicodedata
import urllib.parse
from typing import Any, Callable, Dict, Iterable, Set, Tuple

from sound_runtime import Runtime

Rewrite = Callable[[Any], Any]


def deep(change: Rewrite) -> Rewrite:
    """Changes each value within a value, the inner ones first."""
    def changed(value: Any) -> Any:
        if isinstance(value, dict):
            value = {name: changed(member) for name, member in value.items()}
        elif isinstance(value, list):
            value = [changed(member) for member in value]
        return change(value)
    return changed


def texts(change: Callable[[str], Any]) -> Rewrite:
    return deep(lambda value: change(value) if isinstance(value, str) else value)


def objects(change: Callable[[Dict[str, Any]], Any]) -> Rewrite:
    return deep(lambda value: change(value) if isinstance(value, dict) and "do" not in value else value)


def lists(change: Callable[[list], Any]) -> Rewrite:
    return deep(lambda value: change(value) if isinstance(value, list) else value)


def numbers(change: Callable[[Any], Any]) -> Rewrite:
    return deep(lambda value: change(value) if type(value) in (int, float) else value)


def without(wrong: Callable[[str, Any], bool]) -> Rewrite:
    """Objects without the members of which this is true."""
    return objects(lambda value: {name: member for name, member in value.items() if not wrong(name, member)})


def as_number(text: str) -> Any:
    return int(text) if text.lstrip("+-").isdigit() else text


def as_word(text: str) -> Any:
    return {"true": True, "null": None, "no": False}.get(text, text)


def surrogates(body: bytes) -> bytes:
    """Characters of four bytes as two of three, as some old encoders write them (CESU-8)."""
    found = []
    for letter in body.decode():
        if ord(letter) > 0xFFFF:
            code = ord(letter) - 0x10000
            letter = chr(0xD800 + (code >> 10)) + chr(0xDC00 + (code & 0x3FF))
        found.append(letter.encode("utf-8", "surrogatepass"))
    return b"".join(found)


def unquoted_json(body: bytes) -> bytes:
    """The text of an output that is a JSON object or list itself; another output as it is."""
    text = json.loads(body)
    return text.encode() if isinstance(text, str) and text[:1] in ("{", "[") and text[-1:] in ("}", "]") else body


def decoded_twice(text: str) -> str:
    return text.replace("\\n", "\n").replace("\\t", "\t").replace("\\d", "d")


EVENT, OUTPUT, READ, WRITTEN = "event", "output", "read", "written"  # what is changed: values, or bytes
ALL = {"utf8", "long_text", "kinds", "escapes", "error_message", "error_texts"}
LARGE = {"payload_limit", "output_limit", "many_invocations", "long_text"}
TABLE: Iterable[Tuple[str, str, Set[str], str, Rewrite]] = (
    ("SendsRawTexts", "first_echo", set(), WRITTEN,
     lambda body: json.loads(body).encode() if body.startswith(b'"') else body),
    ("SendsTextsOfJsonAsTheyAre", "kinds", set(), WRITTEN, unquoted_json),
    ("AddsAByteOrderMark", "first_echo", set(), WRITTEN, lambda body: b"\xef\xbb\xbf" + body),
    ("WritesNumbersAsTexts", "first_echo", set(), OUTPUT, numbers(str)),
    ("WritesFloats", "first_echo", set(), OUTPUT, numbers(float)),
    ("UnwrapsListsOfOne", "first_echo", set(), OUTPUT, lists(lambda value: value[0] if len(value) == 1 else value)),
    ("WrapsItsOutputs", "first_echo", set(), OUTPUT, lambda output: {"result": output}),
    ("WritesTwoLines", "first_echo", set(), WRITTEN, lambda body: body + b"\n{}"),
    ("WritesPythonsWords", "first_echo", set(), WRITTEN, lambda body: repr(json.loads(body)).encode()),
    ("SplitsSurrogates", "utf8", ALL, WRITTEN, surrogates),
    ("ComposesLetters", "utf8", ALL, WRITTEN, lambda body: unicodedata.normalize("NFC", body.decode()).encode()),
    ("KeepsTheBasicPlane", "utf8", ALL, EVENT,
     texts(lambda text: "".join(letter if ord(letter) < 0x10000 else "\ufffd" for letter in text))),
    ("KeepsAscii", "utf8", ALL, EVENT, texts(lambda text: text.encode("ascii", "ignore").decode())),
    ("ReadsOneLine", "payload_spaces", set(), READ, lambda body: body.split(b"\n")[0]),
    ("TakesWhatBeginsWithABrace", "payload_spaces", set(), READ, lambda body: body if body[:1] != b" " else b"null"),
    ("WritesLongNumbersAsTexts", "numbers", set(), OUTPUT,
     numbers(lambda value: str(value) if isinstance(value, int) and value > 2 ** 53 else value)),
    ("CutsIntegersTo32Bits", "numbers", set(), EVENT,
     numbers(lambda value: (value + 2 ** 31) % 2 ** 32 - 2 ** 31 if isinstance(value, int) else value)),
    ("MixesUpWholeNumbers", "numbers", set(), EVENT,
     numbers(lambda value: value + 2 ** 40 if isinstance(value, int) and value > 2 ** 53 else value)),
    ("RoundsNumbers", "numbers", set(), OUTPUT, numbers(lambda value: round(value, 10))),
    ("WritesTinyNumbersAsZero", "numbers", set(), EVENT,
     numbers(lambda value: 0 if isinstance(value, float) and abs(value) < 1e-300 else value)),
    ("DropsWhatIsFalsy", "kinds", {"payload_scalars"}, OUTPUT, without(lambda name, member: not member and name)),
    ("DropsEmptyLists", "kinds", {"payload_scalars"}, OUTPUT, without(lambda name, member: member == [])),
    ("WritesNullForEmptyTexts", "kinds", set(), OUTPUT,
     objects(lambda value: {name: None if member == "" else member for name, member in value.items()})),
    ("ReadsNumbersFromTexts", "kinds", set(), EVENT, texts(as_number)),
    ("ReadsWordsFromTexts", "kinds", set(), EVENT, texts(as_word)),
    ("CompletesDates", "kinds", set(), OUTPUT, texts(lambda text: text.replace("T10:30:00Z", "T10:30:00.000Z"))),
    ("LosesPrototypes", "kinds", set(), EVENT, without(lambda name, member: name in ("__proto__", "constructor"))),
    ("LosesEmptyNames", "kinds", set(), EVENT, without(lambda name, member: name == "")),
    ("LowersNames", "kinds", set(), OUTPUT,
     objects(lambda value: {name.lower(): member for name, member in value.items()})),
    ("KeepsOneCaseOfAName", "kinds", set(), EVENT,
     objects(lambda value: {name: member for name, member in value.items() if name != "twice"})),
    ("SplitsNamesAtDots", "kinds", set(), EVENT,
     objects(lambda value: {name.split(".")[0]: member for name, member in value.items()})),
    ("DropsNamesWithASign", "kinds", set(), EVENT, without(lambda name, member: name[:1] in "$@#" and name)),
    ("CutsLongLists", "kinds", set(), OUTPUT, lists(lambda value: value[:1000])),
    ("KeepsAThousandMembers", "kinds", set(), EVENT, objects(lambda value: dict(list(value.items())[:1000]))),
    ("DecodesEscapesTwice", "kinds", {"escapes", "error_texts"}, EVENT, texts(decoded_twice)),
    ("DecodesPercents", "kinds", {"error_texts"}, EVENT, texts(urllib.parse.unquote)),
    ("FillsTemplates", "kinds", {"error_texts"}, EVENT,
     texts(lambda text: text.replace("${x}", "").replace("%s", "1"))),
    ("ReadsBase64", "kinds", set(), EVENT, texts(lambda text: "Hello" if text == "SGVsbG8=" else text)),
    ("MakesAddressesClickable", "kinds", set(), OUTPUT, texts(lambda text: text.replace("&e=", "&amp;e="))),
    ("NormalizesLineEnds", "kinds", {"error_texts"}, EVENT, texts(lambda text: text.replace("\r\n", "\n"))),
    ("LowersIdentifiers", "kinds", set(), EVENT, texts(lambda text: text.lower() if len(text) == 36 else text)),
    ("DropsControlCharacters", "escapes", {"error_texts"}, EVENT,
     texts(lambda text: "".join(letter for letter in text if letter >= " " or letter in "\n\r\t"))),
    ("EndsTextsAtNul", "escapes", set(), EVENT, texts(lambda text: text.split("\0")[0])),
    ("CutsTextsAt64K", "long_text", LARGE, EVENT, texts(lambda text: text[:65_535])),
    ("CutsEventsAt128K", "long_text", LARGE, READ,
     lambda body: body if len(body) < 131_072 else body[:131_070] + b'"}'),
    ("KeepsFiftyLevels", "nesting", set(), WRITTEN, lambda body: body if body.count(b"[") < 50 or b'"in"' not in body
     else b"null"),
)


class Rewriting(Runtime):
    """A runtime that changes what one of its rows says."""
    check, also, place, change = "", set(), "", staticmethod(lambda value: value)  # type: ignore[var-annotated]

    def read(self, payload: bytes) -> Any:
        event = super().read(self.change(payload) if self.place == READ else payload)
        return self.change(event) if self.place == EVENT else event

    def dump(self, output: Any) -> bytes:
        if isinstance(output, dict) and "errorType" in output:
            return super().dump(output)
        body = super().dump(self.change(output) if self.place == OUTPUT else output)
        return self.change(body) if self.place == WRITTEN else body


class BigIntsAsFloats(Runtime):
    """Reads each whole number as JavaScript does."""
    check, outcome = "numbers", "SHOULD"

    def read(self, payload: bytes) -> Any:
        return json.loads(payload, parse_int=lambda text: int(text) if len(text) < 16 else float(text))


class DiesOfHalfACharacter(Runtime):
    check, outcome = "half_characters", "SHOULD"

    def read(self, payload: bytes) -> Any:
        event = super().read(payload)
        try:
            json.dumps(event, ensure_ascii=False).encode()
        except UnicodeEncodeError:
            sys.exit("this is no text")
        return event


class HangsAtHalfACharacter(DiesOfHalfACharacter):
    def read(self, payload: bytes) -> Any:
        try:
            return super().read(payload)
        except SystemExit:
            signal.pause()


class RemembersHalfACharacter(DiesOfHalfACharacter):
    """Gives nothing else any more."""
    outcome, has_seen = "FAIL", False

    def read(self, payload: bytes) -> Any:
        try:
            return super().read(payload)
        except SystemExit:
            self.has_seen = True
            return None

    def dump(self, output: Any) -> bytes:
        return super().dump("half" if self.has_seen else output)


class SendsErrorsForOutputsLikeThem(Runtime):
    """Looks at what an output has in place of how it came."""
    check = "output_like_error"

    def respond(self, request: str, output: Any) -> Any:
        if not isinstance(output, dict) or "errorMessage" not in output:
            return super().respond(request, output)
        return self.sent(self.ask("POST", f"invocation/{request}/error", self.dump(output)), request, output)


class WrapsOutputsLikeErrors(Runtime):
    check = "output_like_error"

    def respond(self, request: str, output: Any) -> Any:
        is_like = isinstance(output, dict) and "errorType" in output
        return super().respond(request, {"error": output} if is_like else output)


MISTAKES: Dict[str, type] = {name: type(name, (Rewriting,), {"check": check, "also": also, "place": place,
                                                             "change": staticmethod(change)})
                             for name, check, also, place, change in TABLE}
MISTAKES.update({one.__name__: one for one in (BigIntsAsFloats, DiesOfHalfACharacter, HangsAtHalfACharacter,
                                               RemembersHalfACharacter,
                                               SendsErrorsForOutputsLikeThem, WrapsOutputsLikeErrors)})
