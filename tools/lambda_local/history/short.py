"""Most entries of a service that works, in short: an Invoke that is delivered at once to a runtime that waits, the
response to it, and the runtime's next Next. Who follows many of them needs no more than that."""
import contextlib
from typing import AbstractSet, Any, Dict, Iterator, NamedTuple, Optional, Tuple, Type, Union

from .entries import Answer, Call, Entry, Phase
from .words import BUSY, IDLE, INVOKE, NEXT, RESPONSE, Word


class Delivered(NamedTuple):
    """An Invoke, and the answer to the Next of an idle environment's runtime."""
    ticket: int
    moment: int
    environment: int
    function: str
    request: str
    poll: int  # the ticket of the Next
    deadline: int


class Responded(NamedTuple):
    """A response, which is an invocation's output."""
    ticket: int
    moment: int
    environment: int
    invoke: int  # the ticket of the Invoke
    length: int  # of the output in bytes


class Asked(NamedTuple):
    """A Next that waits, with which its environment is idle."""
    ticket: int
    moment: int
    environment: int


Short = Union[Delivered, Responded, Asked]
Taken = Union[Entry, Short]


class Value(str):
    """One that a short entry has, by its name; without one, any other."""


ANY, TICKET, MOMENT, ENVIRONMENT, INVOKED = map(Value, ("", "ticket", "moment", "environment", "invoke"))
FUNCTION, REQUEST, POLL, DEADLINE, LENGTH = map(Value, ("function", "request", "poll", "deadline", "length"))
OF_ENTRY: Any = Entry  # (which have a name here in the place of each value)
OF_CALL: Any = Call
OF_ANSWER: Any = Answer
OF_PHASE: Any = Phase
# What each is as a whole entry. A value that has several places is the same in all.
WHOLE: Dict[Type[Any], Any] = {
    Delivered: OF_ENTRY(TICKET, MOMENT, OF_CALL(INVOKE, function=FUNCTION, length=ANY, qualified=ANY, trace=ANY),
                        (OF_ANSWER(POLL, Word.DELIVER, DEADLINE, REQUEST, source=TICKET, length=ANY),),
                        (OF_PHASE(ENVIRONMENT, BUSY, DEADLINE, invoke=TICKET),), (), REQUEST, ENVIRONMENT, TICKET),
    Responded: OF_ENTRY(TICKET, MOMENT, OF_CALL(RESPONSE, ENVIRONMENT, id=ANY, length=ANY),
                        (OF_ANSWER(INVOKED, Word.OUTPUT, source=TICKET, length=LENGTH),
                         OF_ANSWER(TICKET, Word.ACCEPTED))),
    Asked: OF_ENTRY(TICKET, MOMENT, OF_CALL(NEXT, ENVIRONMENT), (), (OF_PHASE(ENVIRONMENT, IDLE),), ANY)}


def names_in(whole: object, entry: object) -> Iterator[Tuple[object, Value]]:
    """The values of an entry that have names in what one is to be; Differs if it is not so."""
    if isinstance(whole, Value):
        if whole:
            yield entry, whole
    elif type(whole) is not type(entry):
        raise Differs
    elif isinstance(whole, tuple) and isinstance(entry, tuple) and len(whole) == len(entry):
        for each in map(names_in, whole, entry):
            yield from each
    elif whole != entry:
        raise Differs


def kind_of(entry: Taken) -> str:
    """The kind of its call."""
    return entry.call.kind if isinstance(entry, Entry) else str(WHOLE[type(entry)].call.kind)


class Differs(Exception):
    """An entry has another form."""


def short_of(entry: Entry, marks: AbstractSet[object]) -> Optional[Tuple[Short, Dict[object, str]]]:
    """An entry in short, if it can be, and how its values are named there. These are marks, each another one."""
    for kind, whole in WHOLE.items():
        with contextlib.suppress(Differs):
            names: Dict[object, str] = dict(names_in(whole, entry))
            if names.keys() <= marks:
                return kind(**{name: mark for mark, name in names.items()}), names
    return None
