"""The entries of a service that runs, as they come: its followed trace (docs/trace.md).

    running = Running(port, environments)
    for entry in running.entries():             # the oldest first; it waits for the next one, until the service is Off
        ..

It is one connection, of which no more is read than is asked for: what has not been asked for waits in the service's
history. A service that is silent is asked again from the next entry on, so one that does not answer any more is
noticed. (`up.following` has the same for a task.)"""
import contextlib
import threading
from typing import Iterator, Optional

from ..exchange.connection import Silent
from ..exchange.of_threads import Socket, done
from .entries import Entry
from .reader import Reader
from .trace import SILENCE, Lost, lost, trace_of


class Running:
    """A service whose callers' port this is. One thread at a time takes its entries; `close` may be called by any."""

    def __init__(self, port: int, environments: int, silence: float = SILENCE) -> None:
        self.port, self.silence = port, silence
        self._reader, self._lock = Reader(environments), threading.Lock()
        self._connection: Optional[Socket] = None
        self._is_closed = False

    @property
    def next(self) -> int:
        """The ticket of the first entry that was not taken yet."""
        return self._reader.next

    def entries(self) -> Iterator[Entry]:
        """The entries from `next` on, as they come, until the service is Off, or this is closed. Lost if the service
        does not answer, NotTrace if its answer is none: they may be asked for again, and go on with the next one."""
        while not self._is_closed:
            try:
                with contextlib.closing(done(trace_of(self._connected(), f"follow=1&from={self.next}"))) as trace:
                    while lines := done(trace.come()):
                        for line in lines.split(b"\n")[:-1]:
                            yield self._reader.take(line)
                        trace.take(lines, lines.count(b"\n"))
                return
            except Silent:
                pass  # (it is asked again)
            except (Lost, OSError) as fault:
                if not self._is_closed:
                    raise lost(fault) from None

    def close(self) -> None:
        """Ends the entries: none is waited for any more."""
        with self._lock:
            self._is_closed = True
            if self._connection:
                self._connection.end()

    async def _connected(self) -> Socket:
        connection = Socket(self.port, self.silence)
        with self._lock:
            self._connection = connection
            if self._is_closed:
                connection.end()
        return connection
