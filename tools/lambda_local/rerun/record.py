"""The invocations of a history, each with its answer."""
import re
from collections import Counter
from typing import Counter as Counts, Dict, Iterable, List, NamedTuple, Optional

from ..history.comparison import compared
from ..history.entries import Entry, count_in
from ..history.replay import entries_of_script
from ..history.script import Script
from ..history.words import INVOKE, SERVED
from ..program import Fault, program_path
from .inner import Made, Roots

# The value of a header (RFC 9110, section 5.5), of letters, marks and spaces.
TRACE = re.compile(r"(?:[!-~\x80-\xff](?:[\t -~\x80-\xff]*[!-~\x80-\xff])?)?")
OPEN = "open"


class Invocation(NamedTuple):
    """An Invoke of a history. `kind` is the word of its answer, or "open" if it has none."""
    ticket: int
    function: str
    place: int  # among the Invokes of its function, from 1: the count of its request identifier
    qualifier: bool  # `$LATEST` was named
    trace: Optional[str]
    payload: bytes
    kind: str
    body: Optional[bytes]  # of its answer
    end: Optional[int]  # the entry that answered it
    made: Optional[Made] = None  # if a function made it, by which it is made again

    @property
    def was_served(self) -> bool:
        return self.kind in SERVED


class Recording(NamedTuple):
    salt: int
    timeouts: Dict[str, int]  # seconds by function
    invocations: List[Invocation]


def read(path: str, program: Optional[str] = None) -> Recording:
    """The recording in a file."""
    return recorded(Script(path, of="a history"), program_path(program))


def parsed(text: str, name: str, program: str) -> Recording:
    """The recording in a history's text."""
    return recorded(Script(name, text.encode()), program)


def recorded(script: Script, program: str) -> Recording:
    """The recording in a history, as the program traces it. Its own answers are those of its replay, or it is refused:
    what is compared with today's answers is what was recorded."""
    try:
        try:
            configuration = script.configuration
            if not configuration.is_of_a_history:
                raise Fault(2, "this is not a history: save what GET /_local/history "
                               "returns")
            if cut := script.leave_out_cut_line():
                raise Fault(2, f"line {cut} has no end: the history is cut off")
        except Fault as fault:
            raise Fault(2, f"{script.name}: {fault}") from None
        invocations = invocations_of(entries_of_script(script, program), script.name)
        if difference := compared(script, program).difference:
            raise Fault(2, f"{script.name}: {difference}: the history was edited, or recorded by another version of "
                           "lambda_local")
    finally:
        script.close()
    timeouts = {name: timeout // 1000 for name, timeout in zip(configuration.names, configuration.timeouts)}
    return Recording(configuration.salt, timeouts, invocations)


def invocations_of(entries: Iterable[Entry], path: str) -> List[Invocation]:
    """The Invokes among some entries, with their answers."""
    found: Dict[int, Invocation] = {}
    counts: Counts[str] = Counter()
    roots = Roots()
    for entry in entries:
        call = entry.call
        if call.kind == INVOKE:
            function = str(call.function)
            counts[function] += 1
            if call.trace is not None and not TRACE.fullmatch(call.trace):
                raise Fault(2, f"{path}: entry {entry.ticket}: {call.trace[:60]!r} is not the value of a trace header")
            found[entry.ticket] = Invocation(entry.ticket, function, counts[function], call.qualified, call.trace,
                                             call.body or b"", OPEN, None, None,
                                             roots.begin(entry.ticket, entry.request, call.trace))
        for answer in entry.answers:
            roots.end(answer.ticket)
            if answer.ticket in found:
                found[answer.ticket] = found[answer.ticket]._replace(kind=str(answer.word), body=answer.body,
                                                                     end=entry.ticket)
    return list(found.values())


class Identified:
    """Some invocations by their request identifiers."""

    def __init__(self, invocations: Iterable[Invocation]) -> None:
        self.all = {(each.function, each.place): each for each in invocations}

    def find(self, function: str, identifier: Optional[str]) -> Optional[Invocation]:
        """The invocation of the function that has this identifier, if there is one."""
        return None if identifier is None else self.all.get((function, count_in(identifier)))
