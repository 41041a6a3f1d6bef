"""Follows what goes on in the account while lambda_local up runs: for its lines, and for what environments ask about
themselves."""
import asyncio
import concurrent.futures
import contextlib
import json
from typing import Awaitable, Callable, Dict, List, Optional, Set, Type

from ..exchange.connection import Unanswered
from ..exchange.of_tasks import Answered, ask
from ..history.entries import Entry
from ..history.shapes import NotTrace
from ..history.short import Taken, kind_of
from ..history.trace import Lost, NoDescriptor
from ..history.words import FAILURES
from ..life import KINDS, Begun, Closes, Ended, Environment, Event, Generation, Life, Reporter, Throttled
from ..service import Service
from .bell import Bell, call_soon, called, done_within, first_of, settle
from .following import Following
from .lines import Lines
from .log import Log
from .loop_clock import LoopClock
from .supervised import told

PAUSES = (0.0, 0.05, 0.1, 0.2, 0.4, 1.0)  # seconds before the service is asked again, as long as no entry comes
UP_TO_DATE = 30.0  # seconds within which what the service has is to be here


def what(event: Event) -> str:
    """An event in words."""
    if isinstance(event, Ended):
        return f"invocation {event.invocation.identifier} of {event.invocation.function}, {event.kind}"
    if isinstance(event, Closes):
        return f"the end of {event.environment.name}, {event.kind}"
    if isinstance(event, Begun):
        return f"the delivery of invocation {event.invocation.identifier} of {event.invocation.function}"
    return f"a throttled invocation of {event.function}"


class Watch:
    """Takes the entries as they come, until the service is Off or has ended."""

    def __init__(self, service: Service, log: Log, loop: asyncio.AbstractEventLoop) -> None:
        """It follows in this loop."""
        self.service, self.log, self.loop = service, log, loop
        self.lines = Lines(log, ())
        self.clock = LoopClock(service.port, lambda text: log("up", text, level="error", kind="fault"), loop)
        self.life = Life(service.configuration)
        self.following = Following(service.port, len(self.life.environments), loop,
                                   is_awaited=lambda: bool(self.waiting), in_short=True)
        self.taken = 0  # entries, of all that followers were given
        self.has_news = Bell(loop)  # an entry has come, for those who look again and again
        self.waiting: "List[asyncio.Future[None]]" = []  # the same, for those who wait for one
        self.over = Bell(loop)  # all is to end
        self.is_lost = False  # the service does not answer: it is asked again
        self.warnings: Set[str] = set()
        self.own: Set[Reporter] = set()  # in whose names this tool reports a failure next, which it says elsewhere
        self.takers: List[Callable[[Entry], None]] = []  # that are given each entry that is whole, before its events
        self.followers: Dict[Type[Event], List[Callable[[Event], None]]] = {kind: [] for kind in KINDS}  # of events
        self.readers: List[Callable[[], None]] = []  # that are notified once all events of some entries were given

    def give(self, take: Callable[[Event], None], *kinds: Type[Event]) -> None:
        """Has each event of these kinds given to this."""
        for kind in kinds:
            self.followers[kind].append(take)

    async def follow(self) -> None:
        in_vain = 0
        self.give(self.lines.take, Ended, Throttled, Closes)  # (after all others)
        while True:
            before, self.is_lost = self.following.next, False
            try:
                while entries := await self.following.entries():
                    self._come(entries)
                break
            except (Lost, NotTrace, MemoryError) as fault:
                in_vain = 0 if self.following.next > before else min(in_vain + 1, len(PAUSES) - 1)
                self._lose(fault, in_vain)
            await asyncio.sleep(PAUSES[in_vain])
            if self.service.process.poll() is not None:
                break
        self._lose(None, 0)

    def _come(self, entries: List[Taken]) -> None:
        self.clock.note(entries[-1].moment)
        for entry in entries:
            try:
                events = self._take(entry) if isinstance(entry, Entry) else self.life.take(entry)
            except Exception as fault:
                self._tell_of(entry, fault)
                continue
            for event in events:
                self._report(event)
        for reader in self.readers:
            reader()
        self.taken = entries[-1].ticket + 1
        self.has_news.set()
        self._wake_tasks()

    def _lose(self, fault: Optional[Exception], in_vain: int) -> None:
        """No entry comes any more, or until the service has been asked again. A service that has just ended answers no
        one: of that others tell."""
        if isinstance(fault, NoDescriptor):
            self.warn("descriptors", "no file descriptor is left to read the history (ulimit -n): what happens is "
                                     "reported once there is one", "error")
        elif isinstance(fault, MemoryError):
            self.warn("memory", "no memory is left to read the history: what happens is reported once there is some",
                      "error")
        elif isinstance(fault, NotTrace):
            self.warn("read", f"the service's history cannot be read: {told(fault)}", "error")
        elif in_vain == len(PAUSES) - 1:
            self.warn("lost", f"the service does not give its history: {fault}: it is asked again until it does",
                      "error")
        self.is_lost = True
        self._wake_tasks()

    def warn(self, name: str, text: str, level: str) -> None:
        """A line about the history, once for each name."""
        if name not in self.warnings:
            self.warnings.add(name)
            self.log("up", text, level=level, kind="history")

    def _tell(self, fault: BaseException, what: str) -> None:
        """A fault in one event, which is reported with it: the next one is taken."""
        self.log("up", f"{what}: {told(fault)}", level="error", kind="fault")

    def _tell_of(self, entry: Taken, fault: BaseException) -> None:
        self._tell(fault, f"could not follow entry {entry.ticket} of the history, {kind_of(entry)}")

    def _take(self, entry: Entry) -> List[Event]:
        """The events of an entry, of which something is to be told."""
        for take in self.takers:
            try:
                take(entry)
            except Exception as fault:
                self._tell_of(entry, fault)
        reporter = self.life.reporter(entry) if entry.call.kind in FAILURES else None
        events = self.life.take(entry)
        if reporter in self.own:
            self.own.discard(reporter)
            return [event for event in events if not isinstance(event, Closes)]
        return events

    def _report(self, event: Event) -> None:
        for take in self.followers[type(event)]:
            try:
                take(event)
            except Exception as fault:
                self._tell(fault, f"could not write the line of {what(event)}")

    # ---- what others ask ---------------------------------------------------------------------------------------------

    def _wake_tasks(self) -> None:
        waiting, self.waiting = self.waiting, []
        for future in waiting:
            settle(future, None)

    async def news(self, *others: "asyncio.Future[None]", seconds: Optional[float] = None) -> None:
        """Waits for the next entry, for what `wake` tells or the loss of the service, or for one of these others."""
        future: "asyncio.Future[None]" = asyncio.get_running_loop().create_future()
        self.waiting.append(future)
        self.following.hurry.set()
        await (first_of([future, *others], seconds) if others else done_within(future, seconds))
        if future in self.waiting:
            self.waiting.remove(future)

    async def comes(self, holds: Callable[[], bool], seconds: float) -> None:
        """Waits until this holds, at most so long, and not while the service does not answer. It is asked after each
        entry."""
        loop = asyncio.get_running_loop()
        end = loop.time() + seconds
        while not (holds() or self.is_lost) and (rest := end - loop.time()) > 0:
            await self.news(seconds=rest)

    async def refreshed(self) -> None:
        """Waits until what the service has by now was taken, of which it is asked, since a trace does not say whether
        there is more. If it does not answer, that is as it was."""
        with contextlib.suppress(OSError):
            count = await self._entries()
            await self.comes(lambda: self.taken >= count, UP_TO_DATE)

    async def _entries(self) -> int:
        """How many entries the service's history has by now. OSError if it does not say so."""
        status, _, body = await ask(self.service.port, "GET", "/_local/stats")
        try:
            return int(json.loads(body)["entries"])
        except (ValueError, KeyError, TypeError):
            raise Unanswered(f"GET /_local/stats: {status}") from None

    def refresh(self) -> None:
        """The same for a thread, while the loop runs."""
        with contextlib.suppress(RuntimeError, concurrent.futures.TimeoutError):
            called(self.loop, self.refreshed(), 2 * UP_TO_DATE)

    def end(self) -> None:
        """All is to end: those who wait are to look again. For any thread."""
        self.over.set()
        self.has_news.set()
        call_soon(self.loop, self._wake_tasks)

    async def reported(self, reporter: Reporter, answer: Awaitable[Answered]) -> None:
        """Waits for the answer to this tool's own report of a failure, of which nothing is said here, and until it was
        taken."""
        self.own.add(reporter)
        try:
            if (await answer)[0] == 202:
                await self.comes(lambda: reporter not in self.own, UP_TO_DATE)
        finally:
            self.own.discard(reporter)

    def environment(self, number: int) -> Environment:
        return self.life.environments[number]

    async def generation(self, number: int, identifier: str) -> Optional[Generation]:
        """The generation of this environment in which an extension is registered; none if it is not known."""
        here = self.environment(number)
        await self.comes(lambda: here.of(identifier) is not None, UP_TO_DATE)
        return here.of(identifier)

    def without_runtime(self, function: str) -> List[int]:
        """The tickets of the function's invocations that no runtime was given yet."""
        return [ticket for ticket, invocation in self.life.invocations.items()
                if invocation.function == function and invocation.delivered is None]
