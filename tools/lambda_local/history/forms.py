"""Entries of lines that are like one before: but for numbers, identifiers, names and traces, they have the same bytes.
They are not read as JSON again, which takes most of the time that an entry costs who follows a trace.

    forms = Forms(entry_of)
    forms.entries_of(lines)                 # as entry_of(line) of each

A form is learned from a line that is an entry, once some like it had none. In a copy of it, each value that may be
another gets one that is found nowhere else; the copy is read too, and what it is, with a place for each of these, is
what a line of the form is. So each of them is known to be a whole value, and no part of a string. As none has a
quotation mark or a backslash, another of its kind in its place is one too, and as right as that; all else that is asked
of a line depends on bytes that are the same. Who asks for it gets most entries in short (`short`): all lines that have
come are read by one expression then."""
import contextlib
import re
from collections import Counter
from typing import Any, Callable, Dict, Iterable, Iterator, List, Match, NamedTuple, Optional, Sequence, Set

from .entries import Answer, Call, Entry, Phase
from .shapes import NotTrace
from .short import Asked, Delivered, Responded, Taken, short_of

# What may differ, by its kind. (A number of 19 digits is below `shapes.MOST`.)
KINDS = {"number": "(?:0|[1-9][0-9]{0,18})", "text": r"(?!:)[ !#-\[\]-~]*",
         "identifier": "[0-9a-f]{8}-[0-9a-f]{4}-[0-9a-f]{4}-[0-9a-f]{4}-[0-9a-f]{12}"}
VALUE = re.compile(r"(?<=[:\[,])(?P<number>{number})(?=[,\]}}])|(?<=\")(?P<identifier>{identifier})(?=\")|"
                   r"(?:(?<=\"function\":\")|(?<=\"name\":\")|(?<=\"trace\":\"))(?P<text>{text})(?=\")".format(**KINDS))
MARKS = {"number": "1{:018}", "text": "another {}", "identifier": "{:08x}-0000-0000-0000-000000000000"}
BEGINNING = 24  # characters of a line, by which its forms are found: no value is so near to its begin
MISSES = 16  # lines with the same beginning that have no form, until the next one is learned from
MOST_TRIES = 64  # to learn a form: each takes as long as some hundred entries
LONGEST = 4096  # characters of a line that one is learned from
MOST_SHORT = 16  # forms of lines that are read in short: each costs a little for each line
MADE = (Entry, Call, Answer, Phase, Delivered, Responded, Asked)


class Form(NamedTuple):
    match: Callable[[str], Optional[Match[str]]]
    make: Callable[..., Entry]  # of the values in their order


class Place(NamedTuple):
    """Of a value that may be another."""
    before: str  # what is between it and the value before
    kind: str
    mark: object  # what the copy has there


class Source:
    """An expression for what a copy is; `names` are those of its values."""

    def __init__(self, names: Dict[object, str]) -> None:
        self.names, self.used = names, 0
        self.known: Dict[str, Any] = {kind.__name__: kind for kind in MADE}
        self.known["new"] = tuple.__new__

    def of(self, value: object) -> str:
        if isinstance(value, tuple):
            parts = "".join([f"{self.of(one)}, " for one in value])
            return f"({parts})" if type(value) is tuple else f"new({type(value).__name__}, ({parts}))"
        if type(value) in (int, str) and value in self.names:
            self.used += 1
            name = self.names[value]
            return f"int({name})" if type(value) is int else name
        name = f"c{len(self.known)}"
        self.known[name] = value
        return name


class Copy:
    """A copy of a line that is an entry."""

    def __init__(self, text: str, read: Callable[[bytes], Entry]) -> None:
        """NotTrace if the copy is not an entry."""
        self.places, copy, at = [], "", 0
        for count, found in enumerate(VALUE.finditer(text)):
            kind, before = str(found.lastgroup), text[at:found.start()]
            mark, at = MARKS[kind].format(count), found.end()
            copy += before + mark
            self.places.append(Place(before, kind, int(mark) if kind == "number" else mark))
        self.end = text[at:]
        self.entry = read((copy + self.end).encode())
        self.short = short_of(self.entry, {place.mark for place in self.places})

    def pattern(self, names: Dict[object, str]) -> str:
        """That of the lines which are like it. What has no name is not needed; what has the same one is the same."""
        pattern, known = "", set()  # type: str, Set[str]
        for place in self.places:
            name, value = names.get(place.mark), KINDS[place.kind]
            value = f"(?:{value})" if name is None else f"(?P={name})" if name in known else f"(?P<{name}>{value})"
            pattern += re.escape(place.before) + value
            known.add(name or "")
        return pattern + re.escape(self.end)

    def groups(self, names: Dict[object, str]) -> Iterable[str]:
        """The names in the order of that pattern."""
        return dict.fromkeys(names[place.mark] for place in self.places if place.mark in names)

    def form(self) -> Optional[Form]:
        """None if not each value that may be another is one in itself."""
        source = Source({place.mark: f"v{count}" for count, place in enumerate(self.places)})
        exec(f"def make({', '.join(source.names.values())}):\n    return {source.of(self.entry)}", source.known)
        is_whole = source.used == len(self.places)
        return Form(re.compile(self.pattern(source.names)).fullmatch, source.known["make"]) if is_whole else None


def reader_of(copies: Sequence[Copy], read: Callable[[str], Taken]) -> Callable[[str], Iterator[Taken]]:
    """What reads lines, each with its end, at once: in short those that are like a copy, and each other one by `read`.
    """
    source, groups, patterns, steps = Source({}), "", "", ""
    for number, copy in enumerate(copies):
        if copy.short is not None:
            short, names = copy.short
            source.names = {mark: f"{name}{number}" for mark, name in names.items()}
            groups += "".join([f"{name}, " for name in copy.groups(source.names)])
            patterns += f"{copy.pattern(source.names)}\n|"
            steps += f"        if ticket{number}:\n            yield {source.of(short)}\n            continue\n"
    source.known.update(findall=re.compile(f"{patterns}(.*)\n").findall, read=read)
    exec(f"def entries_of(text):\n    for {groups}line in findall(text):\n{steps}        yield read(line)\n",
         source.known)
    entries_of: Callable[[str], Iterator[Taken]] = source.known["entries_of"]
    return entries_of


class Forms:
    """Those that were learned. `read` gives the entry of any line; NotTrace if it is none."""

    def __init__(self, read: Callable[[bytes], Entry], in_short: bool = False) -> None:
        """Entries are given in short, if that is asked and they can be."""
        self.read, self.in_short, self.misses = read, in_short, MISSES
        self.known: Dict[str, List[Form]] = {}  # by the beginnings of their lines
        self.in_one: List[Copy] = []  # of lines that are read in short, the newest first
        self.missed: Counter[str] = Counter()
        self.tries = 0
        self.read_all = reader_of((), self._entry_of)

    def entries_of(self, lines: bytes) -> Iterator[Taken]:
        """The entries of lines, each with its end; NotTrace at one that is none."""
        return self.read_all(lines.decode(errors="surrogateescape"))  # (what is no text is of no form)

    def _entry_of(self, text: str) -> Entry:
        for match, make in self.known.get(text[:BEGINNING], ()):
            found = match(text)
            if found is not None:
                return make(*found.groups())
        entry = self.read(text.encode(errors="surrogateescape"))
        if self.tries < MOST_TRIES and len(text) <= LONGEST:
            self._miss(text)
        return entry

    def _miss(self, text: str) -> None:
        """A line that is an entry has no form."""
        beginning = text[:BEGINNING]
        self.missed[beginning] += 1
        if self.missed[beginning] % self.misses == 0:
            self.tries += 1
            with contextlib.suppress(NotTrace):
                self._learn(beginning, Copy(text, self.read))

    def _learn(self, beginning: str, copy: Copy) -> None:
        form = copy.form()
        if form is not None:
            self.known.setdefault(beginning, []).append(form)
        if form is not None and self.in_short and copy.short and len(self.in_one) < MOST_SHORT:
            self.in_one.insert(0, copy)
            self.read_all = reader_of(self.in_one, self._entry_of)
