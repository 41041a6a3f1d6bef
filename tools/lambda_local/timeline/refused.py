"""Calls of a script that a full journal refused: they have no entry, and so no object in the trace."""
import re
from typing import Iterable, Iterator, List, NamedTuple, Union

from ..history.entries import Entry
from ..history.script import FORM_2, Script
from ..history.words import EXPIRE, INVOKE, REGISTER, RESERVE, STOP, WITHDRAW
from ..program import Fault
from ..reasons import CALLS, of_call
from .words import call_words

CALL = re.compile(rb"(0|[1-9][0-9]{0,15}) ([a-z-]+)(?: (.*))?", re.DOTALL)
NUMBER = re.compile(r"[0-9]{1,18}")


class Refused(NamedTuple):
    moment: int
    words: str  # the call without its texts


class Line(NamedTuple):
    """A line of a script that is a call, as far as it is read here."""
    number: int
    moment: int
    kind: str
    rest: bytes

    @property
    def is_stop(self) -> bool:
        return self.kind == STOP


def calls_of(script: Script) -> Iterator[Line]:
    """The lines of a script that are calls. (The program has read them, unless the trace is one that was saved.)"""
    lines = enumerate(script.lines(), 1)
    for _ in range(2 if script.line(1) == FORM_2 else 1):
        next(lines, None)
    for number, line in lines:
        if line and not line.startswith(b"#"):
            found = CALL.fullmatch(line)
            if not found or found[2].decode() not in CALLS:
                raise Fault(2, f"{script.name}: {of_call(number, script.line)}")
            yield Line(number, int(found[1]), found[2].decode(), found[3] or b"")


def refused(line: Line, room: int) -> Refused:
    """A call that has no entry: Fault if the journal had room for it."""
    if room > 0:
        raise Fault(3, f"the trace has no entry for the call of line {line.number}: it is of another script, or not "
                       "whole")
    kind, fields = line.kind, line.rest.decode(errors="replace").split(" ")
    function = fields[0] if kind in (INVOKE, RESERVE) else None
    numbers = fields[:1] if kind == WITHDRAW else fields[1:2]
    count = int(numbers[0]) if numbers and NUMBER.fullmatch(numbers[0]) else None
    return Refused(line.moment, call_words(kind, function, count, fields[2] if kind == REGISTER and fields[2:] else ""))


def with_refusals(script: Script, entries: Iterable[Entry]) -> Iterator[Union[Entry, Refused]]:
    """The entries of a script, and between them the calls that were refused. A stop has more room than any other call:
    so once a call is refused, only stops can have entries."""
    configuration, count = script.configuration, 0
    step = len(configuration.owners) + 1
    calls = calls_of(script)
    expiries: List[Entry] = []

    def room(is_stop: bool) -> int:
        return configuration.most - count - (step if is_stop else 2 * step) + 1

    for entry in entries:
        if entry.call.kind == EXPIRE:
            expiries.append(entry)  # (by the call that follows)
            continue
        for line in calls:
            if line.is_stop == (entry.call.kind == STOP):
                break
            yield refused(line, room(line.is_stop))
        else:
            raise Fault(3, f"entry {entry.ticket} of the trace is of no call: it is of another script")
        yield from expiries
        count, expiries = count + len(expiries) + 1, []
        yield entry
    for line in calls:
        yield refused(line, room(line.is_stop))
