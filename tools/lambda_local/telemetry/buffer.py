"""The events of one subscription that wait for their receiver: in order, bounded, and counted if they are dropped."""
from collections import deque
from typing import Callable, Deque, List, Optional

from .subscription import Buffering

ROOM = 4  # batches' worth of events and of bytes that wait
OVERHEAD = 1  # bytes beside an event: its comma, or its line feed
AROUND = 2  # the brackets of a batch

Note = Callable[[int, int], bytes]


class Buffer:
    """`note` makes the event that says how many were dropped before the next one."""

    def __init__(self, limits: Buffering, note: Note):
        self.limits, self.note = limits, note
        self.waiting: Deque[bytes] = deque()
        self.size = AROUND  # of what waits, as one batch
        self.oldest: Optional[float] = None  # when the first of those that wait came
        self.dropped = self.bytes_dropped = 0  # since the last note

    def put(self, event: bytes, now: float) -> None:
        """Takes an event if there is room."""
        width = len(event) + OVERHEAD
        if self.waiting and (len(self.waiting) >= ROOM * self.limits.items
                             or self.size + width > ROOM * self.limits.size):
            self.count(1, len(event))
            return
        self.tell_dropped(now)
        self._take(event, now)

    def count(self, records: int, size: int) -> None:
        self.dropped += records
        self.bytes_dropped += size

    def tell_dropped(self, now: float) -> None:
        if self.dropped:
            records, size, self.dropped, self.bytes_dropped = self.dropped, self.bytes_dropped, 0, 0
            self._take(self.note(records, size), now)

    def _take(self, event: bytes, now: float) -> None:
        if self.oldest is None:
            self.oldest = now
        self.waiting.append(event)
        self.size += len(event) + OVERHEAD

    @property
    def is_full_batch(self) -> bool:
        return len(self.waiting) >= self.limits.items or self.size >= self.limits.size

    def wait(self, now: float) -> Optional[float]:
        """Seconds until the next batch is due; none if nothing waits."""
        if self.oldest is None:
            return None
        return 0.0 if self.is_full_batch else max(0.0, self.oldest + self.limits.seconds - now)

    def batch(self) -> List[bytes]:
        """The next batch, which still waits: at least one event, and no more than its limits allow beside that."""
        found: List[bytes] = []
        size = AROUND
        for event in self.waiting:
            size += len(event) + OVERHEAD
            if found and (size > self.limits.size or len(found) >= self.limits.items):
                break
            found.append(event)
        return found

    def taken(self, count: int, now: float) -> None:
        """The receiver has taken so many of those that wait. Now there is room to say what was dropped after them."""
        for _ in range(count):
            self.size -= len(self.waiting.popleft()) + OVERHEAD
        self.oldest = now if self.waiting else None
        self.tell_dropped(now)
