"""The trace of a service that runs, as its lines come (docs/trace.md): for a thread or a task, as the connection is on
which it is asked for."""
from typing import Awaitable, Iterable, Iterator, List, Optional

from ..exchange.connection import NO_DESCRIPTOR, Answer, Connection, Silent, words_of
from .entries import Entry
from .reader import LONGEST_LINE
from .shapes import NotTrace
from .words import FAILURES, Word

SILENCE = 30.0  # seconds without a byte
AT_ONCE = 32 << 10  # bytes, some 120 entries, after which others have their turn
MOST_SAID = 200  # bytes of an answer that is none


class Lost(Exception):
    """The service does not answer, or its answer breaks off: why, in words."""


class NoDescriptor(Lost):
    """This process has no descriptor for a connection."""


class Lines:
    """The lines of a text that comes in pieces, without their ends."""

    def __init__(self) -> None:
        self.held: List[bytes] = []
        self.size = 0

    def feed(self, piece: bytes) -> List[bytes]:
        """Those that this piece ends; NotTrace if one is too long."""
        return self.whole(piece).split(b"\n")[:-1]

    def whole(self, piece: bytes) -> bytes:
        """The same, each with its end."""
        end = piece.rfind(b"\n") + 1
        if self.size + (piece.find(b"\n") if end else len(piece)) > LONGEST_LINE:
            raise NotTrace(f"a line is longer than {LONGEST_LINE:,} bytes")
        if not end:
            self.held.append(piece)
            self.size += len(piece)
            return b""
        whole = b"".join([*self.held, piece[:end]])
        self.held, self.size = [piece[end:]], len(piece) - end
        return whole

    def end(self) -> None:
        """NotTrace if it ends within a line."""
        if self.size:
            raise NotTrace("its last line is cut off")


def lines_in(pieces: Iterable[bytes]) -> Iterator[bytes]:
    """The lines of a text that comes in pieces, without their ends; NotTrace if it ends within one."""
    lines = Lines()
    for piece in pieces:
        yield from lines.feed(piece)
    lines.end()


class Trace:
    """The lines of an answer, on a connection of its own."""

    def __init__(self, connection: Connection, answer: Answer) -> None:
        self.connection = connection
        self.answer: Optional[Answer] = answer  # while more of it is to come
        self.split = Lines()
        self.lines = b""  # that have come, each with its end, and were not taken
        self.size = 0  # bytes of all that have come

    async def come(self) -> bytes:
        """Some of those that have come, once there are some; none after the last. Silent if nothing comes for long,
        another OSError if it breaks off, NotTrace if it ends within a line."""
        while not self.lines and self.answer is not None:
            piece = await self.answer.piece()
            if piece:
                self.size += len(piece)
                self.lines = self.split.whole(piece)
            else:
                self.answer = None
                self.split.end()
        end = self.lines.rfind(b"\n", 0, AT_ONCE) + 1 or self.lines.find(b"\n") + 1
        return self.lines[:end]

    def take(self, lines: bytes, count: int) -> None:
        """So many of these lines, with which they begin, were taken."""
        is_all = count == lines.count(b"\n")
        self.lines = self.lines[len(lines) if is_all else len(b"\n".join(lines.split(b"\n")[:count])) + 1:]

    def close(self) -> None:
        self.connection.close()


async def trace_of(connecting: Awaitable[Connection], query: str) -> Trace:
    """The answer to this query. Lost, or another OSError, if there is none."""
    target, connection = f"/_local/trace?{query}", None
    try:
        connection = await connecting
        connection.put(connection.request("GET", target))
        answer = await connection.answer("GET")
        if answer.status == 200:
            return Trace(connection, answer)
        said = b""
        async for piece in answer.pieces():
            said = (said + piece)[:MOST_SAID]
        raise Lost(f"GET {target}: {answer.status} {said.decode(errors='replace')}")
    except BaseException as fault:
        if connection is not None:
            connection.close()
        if isinstance(fault, Silent):
            raise lost(fault) from None
        raise


def has_report(entry: Entry) -> bool:
    """Whether a failure is reported in it."""
    for answer in entry.answers:
        if answer.word is Word.ERROR:
            return True
    return entry.call.kind in FAILURES


def lost(fault: Exception) -> Lost:
    if isinstance(fault, Lost):
        return fault
    is_for_want = isinstance(fault, OSError) and fault.errno in NO_DESCRIPTOR
    return (NoDescriptor if is_for_want else Lost)(words_of(fault))
