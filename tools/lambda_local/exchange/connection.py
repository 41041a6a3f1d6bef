"""A connection on which requests are sent and answered, one after the other, by the one reader of HTTP that the tools
have. It is written once for threads and for tasks: it waits by `more` and `write` alone, in which a thread blocks
(`of_threads`) and a task gives others their turn (`of_tasks`)."""
import errno
from typing import AsyncIterable, AsyncIterator, List, Optional, Sequence, Tuple

from ..http1 import (CLOSED, NEED_DATA, PAUSED, Data, Event, Malformed, Response, ResponseReader, chunk,
                     last_chunk, request_head)

LOCAL = "127.0.0.1"
NO_DESCRIPTOR = (errno.EMFILE, errno.ENFILE)
MOST_INTERIM = 1000  # responses of 1xx before an answer
MOST_WHOLE = 1 << 30  # bytes of a body that is read whole, where no other limit is given
Fields = Sequence[Tuple[str, str]]


class Unanswered(OSError):
    """There is no answer, or half of one: why, in words."""


def words_of(fault: BaseException) -> str:
    """Why there is no answer, without the number that the system has for it."""
    return getattr(fault, "strerror", None) or str(fault) or type(fault).__name__


class NotAnswer(Unanswered):
    """What comes is not HTTP/1.1, or is cut off."""


class Silent(Unanswered):
    """Nothing has come for as long as is waited for it."""


class TooLong(Exception):
    """A body is longer than it may be."""


class Answer:
    """An answer whose head is here, and its body as it comes. `length` is that of the body: none for one in chunks,
    negative for one until the end of the connection."""

    def __init__(self, connection: "Connection", head: Response) -> None:
        self.connection, self.keeps_alive = connection, head.keeps_alive
        self.status, self.headers, self.length = head.status, head.headers, head.length
        self.is_read = head.length == 0
        if self.is_read:
            connection.reader.next_event()

    @property
    def is_here(self) -> bool:
        """Whether all of its body has come already."""
        return self.is_read or self.length is not None and 0 <= self.length <= len(self.connection.reader.buffer)

    @property
    def keeps(self) -> bool:
        """Whether it is read, and the connection can be used again."""
        return self.keeps_alive and self.is_read

    async def piece(self) -> bytes:
        """The next bytes of its body; none after the last."""
        if not self.is_read:
            event = await self.connection.event()
            if isinstance(event, Data):
                return event.data
            self.is_read = True
        return b""

    async def pieces(self) -> AsyncIterator[bytes]:
        """Its body as it comes. Each piece of one in chunks gives others their turn, so that small ones hold nobody up.
        """
        while piece := await self.piece():
            yield piece
            if self.length is None:
                await self.connection.turn()

    async def whole(self, most: Optional[int] = None) -> bytes:
        """All of its body; TooLong if it has more bytes than that. Unanswered if none is given, and it has too many."""
        fault = Unanswered(f"it has more than {MOST_WHOLE} bytes") if most is None else TooLong()
        most = MOST_WHOLE if most is None else most
        if self.length is not None and self.length > most:
            raise fault
        parts: List[bytes] = []
        size = 0
        async for piece in self.pieces():
            size += len(piece)
            if size > most:
                raise fault
            parts.append(piece)
        return parts[0] if len(parts) == 1 else b"".join(parts)


class Connection:
    """`host` is what requests name, HOST:PORT. What waits raises OSError if the connection breaks; that is Unanswered
    if the peer has ended it, or if nothing comes for `silence` seconds."""

    def __init__(self, host: str, silence: Optional[float] = None) -> None:
        self.host, self.silence = host, silence
        self.reader = ResponseReader()
        self.is_answered = False

    # ---- what waits --------------------------------------------------------------------------------------------------

    async def more(self) -> None:
        """Waits until more has come, or the peer has ended its side."""
        raise NotImplementedError

    async def write(self, data: bytes) -> None:
        """Waits while the peer takes too little."""
        raise NotImplementedError

    def put(self, data: bytes) -> None:
        """Sends what needs no room to be waited for, since an answer may come before the peer has taken all of it."""
        raise NotImplementedError

    async def turn(self) -> None:
        """Gives others their turn, if there are others."""

    def hold(self) -> None:
        """Nothing more is read until it is waited for."""

    def close(self) -> None:
        """Ends it at once."""
        raise NotImplementedError

    # ---- a request ---------------------------------------------------------------------------------------------------

    def request(self, method: str, target: str, headers: Fields = (), length: Optional[int] = 0) -> bytes:
        """The head of a request, whose body has this length, or is in chunks. These headers count before its own."""
        given = {name.lower() for name, _ in headers}
        fields = [*headers] if "host" in given else [("Host", self.host), *headers]
        if length is None:
            fields.append(("Transfer-Encoding", "chunked"))
        elif "content-length" not in given and (length or method not in ("GET", "HEAD")):
            fields.append(("Content-Length", str(length)))
        return request_head(method, target, fields)

    async def send(self, pieces: AsyncIterable[bytes], length: Optional[int]) -> None:
        """Sends a body as it comes: in chunks, or of this length. Unanswered if it has another one."""
        left = length
        async for piece in pieces:
            if left is not None and len(piece) > left:
                raise Unanswered("the body is longer than its length")
            if piece:
                await self.write(chunk(piece) if left is None else piece)
                left = None if left is None else left - len(piece)
        if left:
            raise Unanswered("the body is shorter than its length")
        if left is None:
            await self.write(last_chunk())

    # ---- its answer --------------------------------------------------------------------------------------------------

    async def event(self) -> Event:
        try:
            while (event := self.reader.next_event()) is NEED_DATA:
                await self.more()
        except Malformed as fault:
            raise NotAnswer(str(fault)) from None
        if event is CLOSED or event is PAUSED:
            raise Unanswered("it has closed the connection")
        return event

    async def answer(self, method: str) -> Answer:
        """The answer to the next request, which had this method. The body of the one before has been read."""
        if self.is_answered:
            self.reader.next_message()
        self.reader.method = method
        for _ in range(MOST_INTERIM):
            event = await self.event()
            if isinstance(event, Response) and event.status >= 200:
                self.is_answered = True
                return Answer(self, event)
        raise Unanswered(f"it has sent {MOST_INTERIM} responses of 1xx and no other")
