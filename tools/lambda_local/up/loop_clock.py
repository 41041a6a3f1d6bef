"""The service's clock, whose timers the loop of lambda_local up calls, and which its tasks ask."""
import asyncio
import contextlib
import heapq
import time
from typing import Optional, Tuple

from ..clock.asked import SHOW
from ..clock.followed import ASK_SECONDS, Clock, Tell, Timer
from ..exchange.of_tasks import ask
from .bell import Bell, call_soon

STEP = 0.002  # seconds between two looks of one who waits for what is due


class LoopClock(Clock):
    """What a timer calls may be a coroutine, which is awaited: what is due next waits for it."""

    def __init__(self, port: int, tell: Tell, loop: asyncio.AbstractEventLoop) -> None:
        super().__init__(port, tell)
        self.loop, self.news = loop, Bell(loop)

    def _begin(self) -> None:
        call_soon(self.loop, lambda: self.loop.create_task(self._serve()))

    def _notify(self) -> None:
        super()._notify()
        self.news.set()

    async def _serve(self) -> None:
        while not self._is_closed:
            self.news.clear()
            timer, rest = self._step()
            if timer:
                await self._call(timer)
            elif rest == 0:
                await self.ask_later()
            else:
                await self.news.wait(rest)

    def _step(self) -> Tuple[Optional[Timer], Optional[float]]:
        """The next timer that is due, or how many seconds it is until the service is to be asked."""
        with self._changed:
            if not self._has_due():
                return None, self._rest()
            self._calling = heapq.heappop(self._timers)
            return self._calling, None

    async def _call(self, timer: Timer) -> None:
        try:
            if (work := timer.call()) is not None:
                await work
        except Exception as fault:
            self._tell_failed(timer, fault)
        self._called()

    async def ask_later(self) -> bool:
        """As `ask`, for a task."""
        self._asked = time.monotonic()
        try:
            if self._has_clock:
                status, _, body = await ask(self.port, *SHOW, seconds=ASK_SECONDS)
                return self._answered(status, body)
        except OSError:
            pass
        return self._unanswered()

    async def caught_up(self) -> None:
        await self.ask_later()
        end = time.monotonic() + ASK_SECONDS
        while not self._is_settled() and time.monotonic() < end:
            await asyncio.sleep(STEP)

    async def set_later(self, request: Tuple[str, str]) -> None:
        """Pauses it, or lets it go on."""
        with contextlib.suppress(OSError):  # (it has ended)
            await ask(self.port, *request, seconds=ASK_SECONDS)
        await self.ask_later()

    async def reached_later(self, moment: int) -> bool:
        """As `reached`, for a task."""
        if self._may_be_reached(moment):
            await self.ask_later()
        return self._known >= moment
