"""Reads a trace (docs/trace.md): one JSON object a line, with the members that an entry has, in the order of their
names, and no others (`shapes`)."""
import functools
import json
from typing import IO, Any, Dict, Iterable, Iterator, List, NoReturn, Sequence, Tuple, TypeVar

from .entries import Entry
from .forms import Forms
from .shapes import ANSWERS, CALLS, ENTRIES, MOST, PHASES, NotTrace, Shape, Shapes, shown
from .short import Taken

LONGEST_LINE = 256 << 20  # bytes: two bodies of a script's longest line, each byte of them as an escape
NEW: Any = functools.partial(tuple.__new__, Entry)  # (which is made for each line)
Read = TypeVar("Read", bound=Taken)


def made_of(given: object, shapes: Shapes, what: str) -> Any:
    """What an object of these shapes is; NotTrace if it is none."""
    if type(given) is dict:
        shape = shapes.get(tuple(given))
        if shape is not None:
            made = shape.make(given)
            if made is not None:
                return made
            raise wrong(what, given, shape)
    raise NotTrace(f"{shown(given)} is not {what}")


def wrong(what: str, given: Dict[str, Any], shape: Shape) -> NotTrace:
    """What is said of the first member that is not as it has to be."""
    values = list(given.values())
    places = [place for place, value in enumerate(values) if type(value) is not shape.types[place]]
    places = places or [place for place in shape.numbers if not 0 <= values[place] < MOST]
    places = places or [place for place, check in shape.checks if not check(values[place])]
    name, value = list(given.items())[places[0] if places else 1]  # (the reason)
    return NotTrace(f"the {name} of {what} is {shown(value)}")


def refused(number: str) -> NoReturn:
    raise NotTrace(f"{number[:30]} is not a whole number")


DECODER = json.JSONDecoder(parse_float=refused, parse_constant=refused)


def entry_of(line: bytes) -> Entry:
    """The entry of a line, with or without its end; NotTrace if it is none. (Want of memory is no fault of the line.)
    """
    try:
        text = line.decode()
        given, end = DECODER.raw_decode(text)
    except NotTrace:
        raise
    except RecursionError:
        raise NotTrace("it is nested too deep") from None
    except ValueError as fault:
        raise NotTrace(f"it is not JSON: {fault}") from None
    if text[end:] not in ("", "\n"):
        raise NotTrace(f"after the object it goes on: {shown(text[end:])}")
    made: Entry = made_of(given, ENTRIES, "an entry")
    answers, phases, call = given["answers"], given["phases"], given["call"]
    answers_made = tuple([made_of(answer, ANSWERS, "an answer") for answer in answers]) if answers else ()
    phases_made = tuple([made_of(phase, PHASES, "a phase") for phase in phases]) if phases else ()
    call_made = made_of(call, CALLS, "a call")
    # (The names of members, which end with a quotation mark; in a string there is a backslash before it.)
    names = line.count(b'":') - (line.count(b'\\":') if b"\\" in line else 0)
    if names != len(given) + len(call) + sum(map(len, answers)) + sum(map(len, phases)):
        raise NotTrace("an object has a member twice")
    released = tickets_of(made.released) if made.released else ()
    whole: Entry = NEW((made[0], made[1], call_made, answers_made, phases_made, released, *made[6:]))
    return whole


def tickets_of(given: Sequence[object]) -> Tuple[int, ...]:
    found = tuple([ticket for ticket in given if type(ticket) is int and 0 <= ticket < MOST])
    if len(found) < len(given):
        raise NotTrace(f"these are not tickets: {shown(given)}")
    return found


class Reader:
    """The entries of lines that come one after the other: tickets rise by one, and moments never fall."""

    def __init__(self, environments: int, first: int = 0, moment: int = 0, in_short: bool = False) -> None:
        """The first entry has this ticket, and is not before this moment. `take_all` may give some in short."""
        self.environments, self.next, self.moment = environments, first, moment
        self.forms = Forms(entry_of, in_short)

    def take(self, line: bytes) -> Entry:
        """The entry of a line; NotTrace if it is not the next one."""
        return self._take(map(entry_of, (line, )))[0]

    def take_all(self, lines: bytes) -> List[Taken]:
        """The entries of lines, each with its end, up to the first that is not the next one; NotTrace if none is.
        (Those without bodies, of which most are like one before.)"""
        try:
            found = list(self.forms.entries_of(lines))
            if found and self._are_next(found):
                self.next, self.moment = self.next + len(found), found[-1].moment
                return found
        except NotTrace:
            pass
        return self._take(self.forms.entries_of(lines))  # (one by one, to the first that is wrong)

    def _are_next(self, entries: Sequence[Taken]) -> bool:
        """Whether all of them are the next ones. (A look at all at once takes a third of the time.)"""
        moments, most = [self.moment, *[entry.moment for entry in entries]], self.environments
        numbers = [entry.environment for entry in entries if not isinstance(entry, Entry)]
        whole = [entry for entry in entries if isinstance(entry, Entry)]
        return ([entry.ticket for entry in entries] == list(range(self.next, self.next + len(entries)))
                and moments == sorted(moments) and (not numbers or 0 < min(numbers) and max(numbers) <= most)
                and all(are_known(entry, most) for entry in whole))

    def _take(self, entries: Iterable[Read]) -> List[Read]:
        taken: List[Read] = []
        try:
            for entry in entries:
                self._look_at(entry)
                self.next, self.moment = entry.ticket + 1, entry.moment
                taken.append(entry)
        except NotTrace as fault:
            if not taken:
                raise NotTrace(f"entry {self.next} of the trace: {fault}") from None
        return taken

    def _look_at(self, entry: Taken) -> None:
        if entry.ticket != self.next:
            raise NotTrace(f"its ticket is {entry.ticket}, and not {self.next}")
        if entry.moment < self.moment:
            raise NotTrace(f"its moment {entry.moment} is before {self.moment}, that of the entry before it")
        if not are_known(entry, self.environments):
            raise NotTrace("it names an environment that the configuration does not have")


def are_known(entry: Taken, most: int) -> bool:
    """Whether it names environments up to this number alone."""
    if not isinstance(entry, Entry):
        return 0 < entry.environment <= most
    named = [number for number in (entry.call.environment, entry.place, entry.expires) if number is not None]
    return all(0 < number <= most for number in (*named, *(phase.environment for phase in entry.phases)))


def lines_of(stream: IO[bytes]) -> Iterator[bytes]:
    """The lines of a trace, each whole: one that ends with the stream is cut off, and not given."""
    while line := stream.readline(LONGEST_LINE + 1):
        if not line.endswith(b"\n"):
            if len(line) > LONGEST_LINE:
                raise NotTrace(f"a line is longer than {LONGEST_LINE:,} bytes")
            return
        yield line


def entries_of(lines: Iterable[bytes], environments: int, first: int = 0) -> Iterator[Entry]:
    """The entries of the lines of a trace, the first of which has this ticket."""
    return map(Reader(environments, first).take, lines)
