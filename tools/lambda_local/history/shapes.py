"""The objects of a trace by their members (docs/trace.md): what an entry, a call, an answer and a phase may have."""
import base64
import binascii
import itertools
import re
from typing import Any, Callable, Dict, FrozenSet, Iterable, Iterator, List, NamedTuple, Optional, Tuple, Type, Union

from .entries import Answer, Call, Entry, Phase
from .words import REFUSALS, SHUTDOWN_REASONS, THROTTLE_REASONS, Word

MOST = 1 << 64
IDENTIFIER = re.compile(r"[0-9a-f]{8}-[0-9a-f]{4}-[0-9a-f]{4}-[0-9a-f]{4}-[0-9a-f]{12}")
Made = Union[Call, Answer, Phase, Entry]
Check = Callable[[Any], object]
Change = Callable[[Any], Any]
Make = Callable[[Dict[str, Any]], Optional[Made]]
Known = Iterable[Tuple[str, str, str]]  # words, the members that each has, and those that it may have


class NotTrace(ValueError):
    """Which line is none of a trace, and why."""


class Shape(NamedTuple):
    """An object with these members: of which types they are, and what is made of them."""
    types: Tuple[type, ...]
    numbers: Tuple[int, ...]  # the places of numbers
    checks: Tuple[Tuple[int, Check], ...]  # the places of words, names and identifiers
    reasons: Optional[Dict[str, FrozenSet[str]]]  # of each word, if the first two members are a word and a reason
    changes: Tuple[Tuple[int, Change], ...]  # the places of words and bytes
    make: Make  # of one, if it is all right


def shown(value: object) -> str:
    words = ascii(value)
    return words if len(words) <= 80 else words[:77] + ".."


def of_text(text: str) -> bytes:
    """The bytes of a body that is given as text."""
    try:
        return text.encode()
    except UnicodeEncodeError:
        raise NotTrace(f"{shown(text)} has half a character") from None


def of_base64(text: str) -> bytes:
    try:
        return base64.b64decode(text, validate=True)
    except (binascii.Error, ValueError):
        raise NotTrace(f"{shown(text)} is not Base64") from None


WORDS: Dict[str, Word] = {word.value: word for word in Word}
CHECKS: Dict[str, Check] = {**dict.fromkeys(("request", "event", "extension"), IDENTIFIER.fullmatch),
                            **dict.fromkeys(("function", "name", "trace"), str.isprintable)}
CHANGES: Dict[str, Change] = {"answer": WORDS.__getitem__, "body": of_text, "bodyBase64": of_base64}
REASONS = {"throttled": frozenset(THROTTLE_REASONS), "refused": frozenset(REFUSALS)}
# If their names are others.
FIELDS = {"answer": "word", "phase": "name", "count": "reserved", "bodyBase64": "body", "bodyLength": "length"}
# The types of members. The `invoke` of a call is a flag, that of an answer or a phase a ticket; so is `extension` a
# count in a call, and an identifier in an answer.
CALL_TYPES: Dict[str, type] = {
    **dict.fromkeys(("environment", "id", "extension", "ticket", "count", "bodyLength"), int),
    **dict.fromkeys(("qualified", "invoke", "shutdown", "account"), bool),
    **dict.fromkeys(("kind", "function", "trace", "name", "body", "bodyBase64"), str)}
KNOWN_CALLS: Known = (
    ("invoke", "function qualified", "trace body"), ("next spindown expire", "environment", ""),
    ("response failure", "environment id", "body"), ("response-too-large", "environment id", ""),
    ("init-failure", "environment", "body"), ("register", "environment name invoke shutdown account", ""),
    ("ext-next", "environment extension", ""), ("ext-init-failure ext-exit-failure", "environment extension", "body"),
    ("withdraw", "ticket", ""), ("reserve", "function", "count"), ("stop tick", "", ""))
ANSWER_TYPES: Dict[str, type] = {
    **dict.fromkeys(("ticket", "deadline", "invoke", "source", "count", "bodyLength"), int),
    **dict.fromkeys(("answer", "request", "event", "extension", "reason", "body", "bodyBase64"), str)}
KNOWN_ANSWERS: Known = (
    ("deliver", "ticket deadline invoke request", "body"), ("tell", "ticket deadline event invoke request", ""),
    ("shutdown", "ticket deadline event reason", ""), ("registered", "ticket extension", ""),
    ("output error", "ticket source", "body"), ("throttled refused", "ticket reason", ""),
    ("reserved", "ticket count", ""),
    ("timeout init-timeout too-large-output stopped withdrawn unreserved accepted done", "ticket", ""))
PHASE_TYPES: Dict[str, type] = {
    **dict.fromkeys(("environment", "deadline", "bound", "invoke"), int), "phase": str, "reason": str}
KNOWN_PHASES: Known = (("starting", "environment", "deadline bound"), ("idle off", "environment", ""),
          ("busy", "environment deadline invoke", ""), ("closing", "environment deadline reason", "bound"))
ENTRY_TYPES: Dict[str, type] = {
    **dict.fromkeys(("moment", "ticket", "charged", "expires", "place"), int), "request": str, "call": dict,
    **dict.fromkeys(("answers", "phases", "released"), list)}
KNOWN_ENTRIES: Known = (("", "answers call moment phases released ticket", "charged expires place request"),)


def maker(kind: Type[Any], fields: Dict[str, str], names: Tuple[str, ...], shape: Shape) -> Make:
    """What makes a tuple of this kind of the values of members, if they are all right. It is compiled, as those of
    named tuples are: it is called for each object of a trace."""
    known: Dict[str, Any] = {"new": tuple.__new__, "kind": kind, "MOST": MOST, "reasons": shape.reasons}
    wanted = [f"type(v{place}) is {a_type.__name__}" for place, a_type in enumerate(shape.types)]
    wanted += [f"0 <= v{place} < MOST" for place in shape.numbers]
    wanted += [f"check{place}(v{place})" for place, _ in shape.checks]
    wanted += ["v1 in reasons[v0]"] if shape.reasons else []
    known.update((f"check{place}", check) for place, check in shape.checks)
    known.update((f"change{place}", change) for place, change in shape.changes)
    values = {fields.get(name, name): f"v{place}" for place, name in enumerate(names)}
    made = [values.get(field, repr(kind._field_defaults.get(field))) for field in kind._fields]
    exec("\n    ".join(["def make(given):", f"{', '.join(values.values())}, = given.values()",
                        f"if {' and '.join(wanted)}:",
                        *(f"    v{place} = change{place}(v{place})" for place, _ in shape.changes),
                        f"    return new(kind, ({', '.join(made)}))"]), known)
    make: Make = known["make"]
    return make


def members_of(known: Known, word: str) -> Dict[Tuple[str, ...], List[str]]:
    """The words that go with the members of an object, by the names of these in their order."""
    found: Dict[Tuple[str, ...], List[str]] = {}
    for words, required, optional in known:
        others = [name for name in optional.split() if name != "body"]
        some = itertools.chain.from_iterable(itertools.combinations(others, n) for n in range(len(others) + 1))
        bodies = ("", "body", "bodyBase64", "bodyLength") if "body" in optional.split() else ("",)
        for more, body in itertools.product(some, bodies):
            names = tuple(sorted(name for name in (*required.split(), word, *more, body) if name))
            found.setdefault(names, []).extend(words.split())
    return found


def shapes_of(kind: Type[Any], types: Dict[str, type], word: str,
              known: Known) -> Iterator[Tuple[Tuple[str, ...], Shape]]:
    """The shapes of the objects of a kind, by the names of their members."""
    fields = {**FIELDS, **({"invoke": "source"} if kind is Answer else {})}
    for names, words in members_of(known, word).items():
        checks: Dict[str, Check] = {**CHECKS, word: frozenset(words).__contains__}
        reasons = REASONS if kind is Answer and names[:2] == ("answer", "reason") else None
        if "reason" in names and reasons is None:
            checks["reason"] = SHUTDOWN_REASONS.__contains__
        shape = Shape(
            tuple(types[name] for name in names),
            tuple(place for place, name in enumerate(names) if types[name] is int),
            tuple((place, checks[name]) for place, name in enumerate(names) if types[name] is str and name in checks),
            reasons, tuple((place, CHANGES[name]) for place, name in enumerate(names) if name in CHANGES),
            lambda _: None)
        yield names, shape._replace(make=maker(kind, fields, names, shape))


# By the names of the members in their order.
Shapes = Dict[Tuple[str, ...], Shape]
CALLS: Shapes = dict(shapes_of(Call, CALL_TYPES, "kind", KNOWN_CALLS))
ANSWERS: Shapes = dict(shapes_of(Answer, ANSWER_TYPES, "answer", KNOWN_ANSWERS))
PHASES: Shapes = dict(shapes_of(Phase, PHASE_TYPES, "phase", KNOWN_PHASES))
ENTRIES: Shapes = dict(shapes_of(Entry, ENTRY_TYPES, "", KNOWN_ENTRIES))
