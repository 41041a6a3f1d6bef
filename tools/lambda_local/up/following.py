"""The service's followed trace as a task reads it: its entries as they come, without bodies but for the few that have a
report with them. `history.running` has the same for a thread."""
import asyncio
import contextlib
from typing import Callable, List, Optional

from ..exchange.connection import Silent
from ..exchange.of_tasks import connected
from ..history.entries import Entry
from ..history.reader import Reader
from ..history.short import Taken
from ..history.trace import SILENCE, Lost, Trace, has_report, lost, trace_of
from .bell import Bell

REST = 0.01  # seconds in which entries come together
# From so many bytes of them in a second on, some 600 invocations or 75, these seconds. (Where much happens, what runs
# for some milliseconds of each ten holds up who shares its processor, far more than what runs and rests for longer.)
LONG_RESTS = ((512 << 10, 0.1), (64 << 10, 0.05))
# Bytes; if more have come, others may wait behind them, and no rest comes before these. (A connection that is not read
# holds some 64 KiB.)
MUCH = 40 << 10
MOST_TRIES = 3  # to get a report; then its entry is taken without


class Pace:
    """How long one rests who follows, while nobody waits for an entry: many that come are to wake it few times. So an
    entry is taken `longest` after it was made at the latest, or once those before it are."""

    def __init__(self) -> None:
        self.longest = max(rest for _, rest in LONG_RESTS)
        self.since, self.size = 0.0, 0  # when it was asked last, and how many bytes had come by then

    def rest(self, now: float, size: int) -> float:
        """For how many seconds, by what has come since it was asked last; 0 if more may be there already."""
        came, passed = size - self.size, now - self.since
        self.since, self.size = now, size
        if came > MUCH:
            return 0.0
        return min(next((rest for many, rest in LONG_RESTS if came >= many * passed), REST), self.longest)


class Following:
    """Of a service whose callers' port this is."""

    def __init__(self, port: int, environments: int, loop: asyncio.AbstractEventLoop, silence: float = SILENCE,
                 is_awaited: Callable[[], bool] = lambda: True, in_short: bool = False) -> None:
        """If it `is_awaited`, somebody waits for the next entry; who begins to rings `hurry`. Most entries are given
        in short if that is asked."""
        self.port, self.silence, self.environments = port, silence, environments
        self.next = self.moment = 0  # the ticket of the first entry that was not taken, and the moment of that before
        self.in_short = in_short
        self._reader = Reader(environments, in_short=in_short)
        self._read: List[Taken] = []  # those that were read, and not taken yet
        self._tries = 0  # to get the next entry with its report
        self._trace: Optional[Trace] = None
        self.hurry, self.is_awaited, self.pace = Bell(loop), is_awaited, Pace()

    async def entries(self) -> List[Taken]:
        """The next entries, once there are some; none once the service is Off. Lost if the service does not answer,
        NotTrace if its answer is none: it may be asked again, and goes on with the same one."""
        while True:
            try:
                found = await self._entries()
                if found:
                    self.next, self.moment = found[-1].ticket + 1, found[-1].moment
                return found
            except Silent:
                self.close()
            except (OSError, Lost) as fault:
                self.close()
                raise lost(fault) from None
            except BaseException:
                self.close()
                raise

    async def _entries(self) -> List[Taken]:
        if not self._read:
            self._read = await self._some()
        without = next((count for count, entry in enumerate(self._read)
                        if isinstance(entry, Entry) and has_report(entry)), len(self._read))
        if self._read and not without:
            return [await self._reported()]
        found, self._read = self._read[:without], self._read[without:]
        return found

    async def _some(self) -> List[Taken]:
        """Some that have come, without bodies; none after the last."""
        if self._trace is None:
            self._trace = await self._asked(f"follow=1&from={self.next}&bodies=none")
        elif not self._trace.lines:
            await self._rest(self._trace)
        else:
            self._trace.connection.hold()
            await asyncio.sleep(0)
        lines = await self._trace.come()
        if not lines:
            self.close()
            return []
        found = self._reader.take_all(lines)
        self._trace.take(lines, len(found))
        return found

    async def _asked(self, query: str) -> Trace:
        return await trace_of(connected(self.port, self.silence), query)

    async def _reported(self) -> Entry:
        """The next one, which has a report, with its bodies; after some tries without."""
        entry = self._read[0]
        assert isinstance(entry, Entry)
        if self._tries < MOST_TRIES:
            self._tries += 1
            entry = await self._whole(entry)
        self._tries = 0
        del self._read[0]
        return entry

    async def _rest(self, trace: Trace) -> None:
        """While nobody waits for an entry, those of some milliseconds come together, and not amid each invocation."""
        self.hurry.clear()
        rest = self.pace.rest(asyncio.get_running_loop().time(), trace.size)
        if self.is_awaited():
            return
        trace.connection.hold()
        if rest:
            await self.hurry.wait(rest)
        else:
            await asyncio.sleep(0)

    async def _whole(self, entry: Entry) -> Entry:
        """The same entry with its bodies; without, if there is no memory for them."""
        with contextlib.closing(await self._asked(f"from={entry.ticket}")) as trace:
            try:
                lines = await trace.come()
                if not lines:
                    raise Lost(f"it does not give entry {entry.ticket} again")
                return Reader(self.environments, entry.ticket, entry.moment).take(lines[:lines.index(b"\n")])
            except MemoryError:
                return entry

    def give_whole(self) -> None:
        """Gives no entry in short from now on."""
        self.in_short = False
        self.close()

    def close(self) -> None:
        """Ends the connection, if there is one. What was not taken is asked for again."""
        self._reader, self._read = Reader(self.environments, self.next, self.moment, self.in_short), []
        if self._trace:
            self._trace.close()
            self._trace = None
