"""What a reader gives, and what it raises."""
import enum
from typing import NamedTuple, Optional, Union

from .syntax import Headers, Malformed, Target

__all__ = ["CLOSED", "NEED_DATA", "PAUSED", "Data", "EndOfMessage", "Event", "Malformed", "Request", "Response",
           "Unwritable"]


class Unwritable(ValueError):
    """A name, a value or a line that cannot be in a head."""


class Request(NamedTuple):
    """`length` is that of the body; none for one in chunks."""
    method: str
    target: str  # as it came
    parts: Target
    version: str  # HTTP/1.0 or HTTP/1.1
    headers: Headers
    length: Optional[int]
    keeps_alive: bool
    expects_continue: bool  # the peer waits for 100 Continue before it sends the body


class Response(NamedTuple):
    """`length` is that of the body; none for one in chunks, or until the end of the connection."""
    status: int
    reason: str
    version: str
    headers: Headers
    length: Optional[int]
    keeps_alive: bool  # the connection can carry another message after this one


class Data(NamedTuple):
    """A part of a body, which is not empty."""
    data: bytes


class EndOfMessage(NamedTuple):
    """The message is whole."""
    trailers: Headers = []


class Signal(enum.Enum):
    NEED_DATA = "nothing more can be said before more bytes come"
    PAUSED = "the message is whole: next_message() begins the next one"
    CLOSED = "the peer has ended its side between two messages"


NEED_DATA, PAUSED, CLOSED = Signal.NEED_DATA, Signal.PAUSED, Signal.CLOSED
Event = Union[Request, Response, Data, EndOfMessage, Signal]
