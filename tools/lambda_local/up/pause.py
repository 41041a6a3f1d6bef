"""What callers hear of an environment that waits before it is started again."""
import asyncio
import contextlib
from typing import AsyncIterator, Awaitable, Callable, Iterable, Optional, Set

from .bell import Bell


class Pause:
    """In it each caller hears at once what was reported last. `hurry` ends it before its time."""

    def __init__(self, hurry: Bell) -> None:
        self.last_report = b"{}"
        self.hurry = hurry
        self.report: Optional[bytes] = None  # what callers hear; none outside a pause
        self.answered: Set[int] = set()
        self.answering_now: "Optional[asyncio.Future[None]]" = None  # while a caller is answered

    @contextlib.asynccontextmanager
    async def answering(self) -> AsyncIterator[Bell]:
        """While this lasts, callers are answered. Gives the bell by which the pause is over before its time."""
        self.report = self.last_report
        yield self.hurry
        self.report = None
        if self.answering_now:
            await asyncio.wait({self.answering_now})

    def was_hurried(self) -> bool:
        """Whether it was over before its time, asked once."""
        was_set = self.hurry.is_set()
        self.hurry.clear()
        return was_set

    async def answer(self, waiting: Callable[[], Iterable[int]], fail: Callable[[bytes], Awaitable[None]]) -> None:
        """In a pause: if there are callers who have not been answered, `fail` is given the report for them."""
        callers = set(waiting()) if self.report is not None else set()
        fresh, self.answered = callers - self.answered, callers
        if self.report is not None and fresh:
            self.answering_now = asyncio.get_running_loop().create_future()
            try:
                await fail(self.report)
            finally:
                self.answering_now.set_result(None)
                self.answering_now = None
