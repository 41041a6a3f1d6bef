"""A shard: how far it is read, what has been read and not been handled, and its batches. One thread at a time has it,
so the order of its records is kept."""
from collections import deque
from typing import Callable, Deque, List, NamedTuple, Optional, Tuple

from ..clock.followed import Clock
from ..other_server import code_of
from .batches import TOO_LARGE, Batch, cut
from .failures import Invoked
from .filters import is_taken
from .members import Stream
from .servers import CannotParse, Record, SeenShard, Server

EXPIRED, TRIMMED = "ExpiredIteratorException", "TrimmedDataAccessException"
OLDEST, NEWEST, AFTER = "TRIM_HORIZON", "LATEST", "AFTER_SEQUENCE_NUMBER"
READINGS = 3  # of an answer that the client cannot parse, before it is read as JSON
Tell = Callable[[str, str], None]  # a text and its level


class Odd(NamedTuple):
    """What a reading has left out."""
    wrong: int = 0  # are no records
    repeated: int = 0  # have come before
    lost: Tuple[Record, ...] = ()  # the first that were collected, which are in no event, for the same reason


class Task:
    """What threads do again and again, one of them at a time."""

    def __init__(self) -> None:
        self.due = 0.0  # by the machine's clock, for what asks the server
        self.due_by_clock: Optional[int] = None  # by the service's, for what asks the function
        self.pause = self.rest = 0.0  # seconds, after the last fault of the server, of the function
        self.is_busy = self.is_troubled = False
        self.asks_since: Optional[float] = None  # when the server was asked what it has not answered


class Shard(Task):
    def __init__(self, seen: SeenShard, begin: str, stream: Stream, handled: Optional[str] = None) -> None:
        super().__init__()
        self.identifier, self.parents, self.is_closed = seen
        self.begin, self.stream = begin, stream
        self.read_to = self.handled = handled  # sequence numbers: what has been read, and what is done or given up
        self.iterator: Optional[str] = None
        self.collected: List[Record] = []
        self.window_end: Optional[int] = None  # by the service's clock
        self.batches: Deque[Batch] = deque()
        self.last: Optional[Invoked] = None  # invocation with the first of its batches
        self.is_read = False  # a closed shard, to its end
        self.empty = 0  # readings in a row without a record
        self.unparsed = 0  # readings in a row that the client could not parse
        self.size = 0  # bytes of what it holds

    @property
    def is_over(self) -> bool:
        """Whether all of its records are done or given up, and there will be no further ones."""
        return self.is_read and not self.collected and not self.batches

    def number(self) -> int:
        return -1 if self.read_to is None else int(self.read_to)

    @property
    def is_full(self) -> bool:
        """Whether what is collected is a batch, or more than an event has room for."""
        count = cut(self.collected, self.stream.batch)
        return count == self.stream.batch or count < len(self.collected)

    def weigh(self) -> None:
        """Notes the bytes of what it holds."""
        self.size = sum(record.size for record in self.collected) + sum(batch.size for batch in self.batches)

    # ---- reading -----------------------------------------------------------------------------------------------------

    def open(self, server: Server, tell: Tell) -> None:
        """Has an iterator: it begins after what has been read."""
        try:
            kind = self.begin if self.read_to is None else AFTER
            self.iterator = server.iterator(self.identifier, kind, self.read_to)
        except Exception as fault:
            if code_of(fault) != TRIMMED or self.read_to is None:
                raise
            tell(f"{self.identifier}: its records after {self.read_to} are not kept any more: it is read from the "
                 "oldest one on", "warning")
            self.iterator = server.iterator(self.identifier, OLDEST, None)

    def fill(self, server: Server, clock: Clock, tell: Tell) -> Odd:
        """Reads once, and makes a batch of what is collected if it is time. Whatever a server answers, what has been
        read stays."""
        odd, came = Odd(), 0
        if not self.is_full and not self.is_read:
            if self.iterator is None:
                self.open(server, tell)
            odd, came = self._read(server, tell)
        if self.collected and self.window_end is None:
            self.window_end = clock.now() + 1000 * self.stream.window
        lost = self._batch(clock)
        self.empty = 0 if came else self.empty + 1
        return odd._replace(lost=lost)

    def _read(self, server: Server, tell: Tell) -> Tuple[Odd, int]:
        iterator, self.iterator = self.iterator, None  # (after a fault a new one is asked for)
        assert iterator is not None
        try:
            read = server.read(iterator, min(server.most, self.stream.batch - len(self.collected)))
        except CannotParse as fault:
            self.unparsed += 1
            if self.unparsed < READINGS:
                raise
            read = fault.read
        except Exception as fault:
            if code_of(fault) != EXPIRED:
                raise
            if self.read_to is None and self.begin == NEWEST:
                tell(f"{self.identifier}: its iterator has expired before a record came: those that came meanwhile are "
                     "left out", "warning")
            self.due = 0.0
            return Odd(), 0
        self.iterator, self.unparsed = read.following, 0
        wrong = repeated = 0
        for given in read.records:
            record = server.record_of(given, self.identifier) or server.lost(given)
            if record is None:
                wrong += 1
            elif record.number <= self.number():
                repeated += 1
            else:
                self.read_to = record.sequence
                if record.fault or is_taken(self.stream.filters, record.event):
                    self.collected.append(record)
        if not self.collected and not self.batches:
            self.handled = self.read_to  # (what no filter takes is done)
        self.is_read = read.following is None or self.is_closed and read.is_at_end
        return Odd(wrong, repeated), len(read.records) - wrong - repeated

    def _batch(self, clock: Clock) -> Tuple[Record, ...]:
        """Makes a batch if one is full, or its window is over; what comes before all others and is in none."""
        count, is_full = cut(self.collected, self.stream.batch), self.is_full
        if self.collected and count == 0:
            fault = self.collected[0].fault
            count = 1 if not fault else next((place for place, record in enumerate(self.collected)
                                              if record.fault != fault), len(self.collected))
            lost, self.collected = tuple(self.collected[:count]), self.collected[count:]
            return tuple(record._replace(fault=record.fault or TOO_LARGE) for record in lost)
        if self.collected and (is_full or self.is_read or self.stream.window == 0
                               or self.window_end is not None and clock.reached(self.window_end)):
            self.batches.append(Batch(tuple(self.collected[:count])))
            self.collected = self.collected[count:]
            self.window_end = None
        return ()
