"""The clock by which the tools wait: the service's, whose moments go on with the machine's clock, stand still in a
pause, and are moved forward on request (docs/semantics.md, "The clock").

What waits by it: the retries of events, their greatest age and their pauses after throttles; schedules; the time that
an environment may be idle, that an Init of its own may take, and that follows early ends; the window of a queue's batch
and its pauses after throttles; the rest of a shutdown; the results that an authorizer has given; and the moments in
events and records. What waits for a connection, a process, another server or a reader is real time, and so is whatever
asks the machine's clock itself: the limits of connections, what is given to a process to end, the wait until all is
ready, the lines of the log.

How it is known: each entry of a trace that is followed has a moment, which is a reading (`note`); so an advance is
known at once. What runs between two readings is counted by the machine's clock, and never runs ahead of a clock that
is running. A pause makes no entry: so the service is asked before anything is taken to be due (`reached`), and, while
it is known to be paused and something waits, now and then (BETWEEN_ASKS). Nothing is asked while nothing waits. Who
has set it may wait until what is due has begun (`ask`, then `settle`). A service that has no clock to ask runs with the
machine's."""
import contextlib
import heapq
import itertools
import threading
import time
from typing import Awaitable, Callable, List, Optional, Tuple

from ..outgoing import renew
from ..service import ask
from .asked import PAUSE, RESUME, SHOW, NotClock, Reading, advance, reading_of

BETWEEN_ASKS = 0.25  # seconds, while the clock is known to be paused and something waits
LONGEST_REST = 30.0  # seconds, after which it is asked in any case: the time of day may have been set
STEP = 0.05  # seconds between two looks of one who waits for something else too
ASK_SECONDS = 5.0  # for an answer
SLACK = 20  # milliseconds by which what is shared may be off
Tell = Callable[[str], None]
Call = Callable[[], Optional[Awaitable[None]]]


class Timer:
    """What is called once a moment is reached; `moment` is in milliseconds."""

    def __init__(self, moment: int, number: int, call: Call) -> None:
        self.moment, self.number, self.call, self.is_cancelled = moment, number, call, False

    def __lt__(self, other: "Timer") -> bool:
        return (self.moment, self.number) < (other.moment, other.number)

    def cancel(self) -> None:
        self.is_cancelled = True


class Shared:
    """A file with one line: a moment, the machine's monotonic clock then, in nanoseconds, and 1 if it has run on since
    or 0 if it is paused. It is written anew only if that says something else."""

    def __init__(self, path: str) -> None:
        self.path = path
        self.noted: Optional[Tuple[float, bool]] = None

    def note(self, moment: int, since: float, is_running: bool) -> None:
        offset = moment - 1000 * since if is_running else float(moment)
        if self.noted and self.noted[1] == is_running and abs(self.noted[0] - offset) < (SLACK if is_running else 1):
            return
        self.noted = offset, is_running
        with contextlib.suppress(OSError):  # (its folder has gone with the service, or has no room: it is as it was)
            renew(self.path, f"{moment} {round(1e9 * since)} {int(is_running)}\n")


class Clock:
    """That of the service at this port. Each method may be called by any thread; `tell` gets a line for a timer that
    fails."""

    def __init__(self, port: int, tell: Tell = lambda line: None) -> None:
        self.port, self.tell = port, tell
        self._changed = threading.Condition(threading.RLock())
        self._known = 0  # the greatest reading: no reading is less
        self._base, self._since = int(1000 * time.time()), time.monotonic()  # what is counted on from
        self._is_running = self._has_clock = True
        self._asked = 0.0  # when the service was asked last
        self._timers: List[Timer] = []
        self._numbers = itertools.count()
        self._calling: Optional[Timer] = None
        self._is_begun = False  # what calls the timers
        self._keeper: Optional[threading.Thread] = None  # that lets it go on
        self._is_closed, self._closing = False, threading.Event()
        self._shared: Optional[Shared] = None

    # ---- what it reads -----------------------------------------------------------------------------------------------

    def now(self) -> int:
        """The moment, in milliseconds, as far as it is known without asking."""
        with self._changed:
            return self._now()

    def _now(self) -> int:
        passed = int(1000 * (time.monotonic() - self._since)) if self._is_running else 0
        return max(self._known, self._base + passed)

    @property
    def is_paused(self) -> bool:
        """Whether it is known to be."""
        return not self._is_running

    def note(self, moment: int) -> None:
        """An entry was made at this moment."""
        if moment <= self._known:
            return
        with self._changed:
            if moment > self._known:
                is_new = not self._is_running or moment > self._now()
                self._known = moment
                if is_new:
                    self._count_from(moment)
                if self._timers and (is_new or self._timers[0].moment <= moment):
                    self._notify()

    def _count_from(self, moment: int) -> None:
        self._base, self._since = moment, time.monotonic()
        if self._shared:
            self._shared.note(self._base, self._since, self._is_running)

    def share(self, path: str) -> None:
        """From now on this file says what it reads, for runtimes that are asked how much time is left."""
        with self._changed:
            self._shared = Shared(path)
            self._shared.note(self._base, self._since, self._is_running)

    def _take(self, reading: Reading) -> None:
        with self._changed:
            self._known = max(self._known, reading.now)
            self._is_running = reading.is_running
            self._count_from(max(self._known, reading.now))
            self._notify()

    def _notify(self) -> None:
        """Something has changed for those who wait; with the lock."""
        self._changed.notify_all()

    def ask(self) -> bool:
        """Has the service say what it reads; whether it does. If not, as one that has ended, its clock is taken to
        run."""
        self._asked = time.monotonic()
        try:
            if self._has_clock:
                status, _, body = ask(self.port, *SHOW, timeout=ASK_SECONDS)
                return self._answered(status, body)
        except OSError:
            pass
        return self._unanswered()

    def _answered(self, status: int, body: bytes) -> bool:
        try:
            self._take(reading_of(status, body))
            return True
        except NotClock as fault:
            self._has_clock = fault.status >= 500  # (one that has no memory just now may have one)
            return self._unanswered()

    def _unanswered(self) -> bool:
        with self._changed:
            self._take(Reading(self._now(), True))
        return False

    def reached(self, moment: int) -> bool:
        """Whether it has come to this moment: of that the service is asked."""
        if self._may_be_reached(moment):
            self.ask()
        return self._known >= moment

    def _may_be_reached(self, moment: int) -> bool:
        """Whether the service is to be asked for that."""
        with self._changed:
            rested = time.monotonic() - self._asked
            return self._known < moment and (self._now() >= moment if self._is_running else rested >= BETWEEN_ASKS)

    def resume(self) -> None:
        """Lets it go on."""
        self._set(RESUME)

    def go_on(self) -> None:
        """Before a stop: lets it go on, and again whenever somebody pauses it, until the service has ended. In a pause
        an environment that shuts down would be waited for."""
        with self._changed:
            if self._keeper is None:
                self._keeper = threading.Thread(target=self._keep_going, name="clock goes on", daemon=True)
                self._keeper.start()
        self.resume()

    def _keep_going(self) -> None:
        while not self._closing.wait(BETWEEN_ASKS) and self.ask():
            if not self._is_running:  # (what it has missed is made up for, whoever pauses it again and again)
                self._set(advance(round(1000 * BETWEEN_ASKS)))
                self.resume()

    def pause(self) -> None:
        """Pauses it, as for a debugger; `is_paused` says whether the service has such a clock."""
        self._set(PAUSE)

    def _set(self, request: Tuple[str, str]) -> None:
        with contextlib.suppress(OSError):  # (it has ended)
            ask(self.port, *request, timeout=ASK_SECONDS)
        self.ask()

    # ---- who waits ---------------------------------------------------------------------------------------------------

    def at(self, moment: int, call: Call) -> Timer:
        """Has this called once the moment is reached, by a thread of the clock's or in its loop: what is due first is
        called first, and what is due at the same moment in the order of these calls. It may not wait long."""
        with self._changed:
            timer = Timer(moment, next(self._numbers), call)
            heapq.heappush(self._timers, timer)
            if not self._is_begun and not self._is_closed:
                self._is_begun = True
                self._begin()
            if self._timers[0] is timer:
                self._notify()
            return timer

    def _begin(self) -> None:
        """Begins to call what is due."""
        threading.Thread(target=self._run, name="clock", daemon=True).start()

    def after(self, seconds: float, call: Call) -> Timer:
        return self.at(self.now() + round(1000 * seconds), call)

    def wait(self, event: threading.Event, seconds: float) -> bool:
        """Waits until the event is set, at most so long by this clock; whether it was set."""
        end = self.now() + round(1000 * seconds)
        while not event.wait(STEP):
            if self.reached(end):
                return event.is_set()
        return True

    def settle(self, seconds: float = ASK_SECONDS) -> None:
        """Waits until all that is due has been called, at most so long."""
        with self._changed:
            self._changed.wait_for(self._is_settled, seconds)

    def _is_settled(self) -> bool:
        return self._is_closed or not self._calling and not self._has_due()

    async def caught_up(self) -> None:
        """Asks what it reads, and waits until what is due has been called; for a task, which a thread does it for."""
        import asyncio  # (which takes a while)
        await asyncio.to_thread(self.ask)
        await asyncio.to_thread(self.settle)

    def _has_due(self) -> bool:
        while self._timers and self._timers[0].is_cancelled:
            heapq.heappop(self._timers)
        return bool(self._timers) and self._timers[0].moment <= self._known

    def close(self) -> None:
        """Nothing more is called."""
        self._closing.set()
        with self._changed:
            self._is_closed = True
            self._timers.clear()
            self._notify()

    def _run(self) -> None:
        while (timer := self._next()) is not None:
            try:
                timer.call()
            except Exception as fault:
                self._tell_failed(timer, fault)
            self._called()

    def _tell_failed(self, timer: Timer, fault: Exception) -> None:
        self.tell(f"what was due at {timer.moment} has failed: {type(fault).__name__}: {fault}")

    def _called(self) -> None:
        with self._changed:
            self._calling = None
            self._notify()

    def _next(self) -> Optional[Timer]:
        """The next timer that is due; none once all ends."""
        while True:
            with self._changed:
                while not self._is_closed and not self._has_due() and not self._is_to_ask():
                    self._changed.wait(self._rest())
                if self._is_closed:
                    return None
                if self._has_due():
                    self._calling = heapq.heappop(self._timers)
                    return self._calling
            self.ask()

    def _is_to_ask(self) -> bool:
        return bool(self._timers) and self._rest() == 0

    def _rest(self) -> Optional[float]:
        """Seconds until the service is to be asked; none if nothing waits."""
        if not self._timers:
            return None
        rested = time.monotonic() - self._asked
        if not self._is_running:
            return max(0.0, BETWEEN_ASKS - rested)
        return max(0.0, min((self._timers[0].moment - self._now()) / 1000, LONGEST_REST - rested))
