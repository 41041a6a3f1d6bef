"""What a history consists of: entries, each with its call, its answers and the phases after it (docs/trace.md).

An entry never changes once it is there: the answers that a call gave, also to earlier calls, are in its own entry."""
from typing import NamedTuple, Optional, Tuple

from .words import Word


class Call(NamedTuple):
    """A call with its arguments; an expiry is one that no line of a script makes."""
    kind: str  # "invoke", "next" ..; "expire" for an expiry
    environment: Optional[int] = None  # from 1
    function: Optional[str] = None
    id: Optional[int] = None  # the count in the request identifier that a report names
    extension: Optional[int] = None  # the count in the extension identifier
    body: Optional[bytes] = None  # the payload, the output or the report
    length: Optional[int] = None  # of the body in bytes, if it is left out
    name: Optional[str] = None  # of an extension that registers
    invoke: bool = False  # it registers for INVOKE
    shutdown: bool = False  # it registers for SHUTDOWN
    account: bool = False  # it asks for the account
    qualified: bool = False  # the Invoke names $LATEST
    trace: Optional[str] = None  # the caller's X-Amzn-Trace-Id
    ticket: Optional[int] = None  # of the poll that is withdrawn
    reserved: Optional[int] = None  # the reservation that is set; none if it is removed


class Answer(NamedTuple):
    """What an entry answered: `ticket` is that of the call that is answered."""
    ticket: int
    word: Word
    deadline: Optional[int] = None
    request: Optional[str] = None  # identifiers
    event: Optional[str] = None
    extension: Optional[str] = None
    reason: Optional[str] = None
    reserved: Optional[int] = None
    source: Optional[int] = None  # the ticket of the call whose bytes it has, or of which an extension is notified
    body: Optional[bytes] = None
    length: Optional[int] = None  # of the body in bytes, if it is left out


class Phase(NamedTuple):
    """The phase of an environment."""
    environment: int
    name: str  # "starting", "idle", "busy", "closing", "off"
    deadline: Optional[int] = None  # if it ends by itself
    bound: Optional[int] = None  # the ticket of the Invoke that it serves next
    invoke: Optional[int] = None  # the ticket of the Invoke that a busy one serves
    reason: Optional[str] = None  # why a closing one closes


class Entry(NamedTuple):
    """A call that was taken, or an expiry."""
    ticket: int  # from 0
    moment: int  # milliseconds
    call: Call
    answers: Tuple[Answer, ...] = ()
    phases: Tuple[Phase, ...] = ()  # those that it changed, by rising number
    released: Tuple[int, ...] = ()  # the tickets of the invocations that are no longer in flight after it
    request: Optional[str] = None  # the identifier of an Invoke
    place: Optional[int] = None  # the environment where an admitted Invoke was placed
    charged: Optional[int] = None  # its own ticket, if it admitted an Invoke
    expires: Optional[int] = None  # the environment whose deadline had come

    @property
    def own(self) -> Optional[Answer]:
        """The answer to its own call; none if that waits."""
        for answer in self.answers:
            if answer.ticket == self.ticket:
                return answer
        return None

    def has(self, word: Word) -> bool:
        """Whether its own call is answered by this word at once."""
        own = self.own
        return own is not None and own.word is word


def count_in(identifier: str) -> int:
    """The count of a request, extension or event identifier."""
    return int(identifier[-12:], 16)


def request_identifier(salt: int, function: int, count: int) -> str:
    """The identifier of the Invoke that is the `count`-th of the function with this number, both from 1."""
    high = salt & ~0xF000 | 0x8000
    whole = f"{high:016x}8{function:03x}{count:012x}"
    return "-".join((whole[:8], whole[8:12], whole[12:16], whole[16:20], whole[20:]))
