"""The tasks of lambda_local up, in the loop in which its front answers."""
import asyncio
import concurrent.futures
import time
from typing import Any, Callable, Container, Coroutine, Dict, List, TypeVar

from .bell import called
from .guarded import Guarded
from .output import Pace
from .supervised import told

Given = TypeVar("Given")
BETWEEN_LOOKS = 0.05  # seconds


class Tasks:
    """Those that run until the end, by their names. `broken` is told why one that an exception has ended cannot go on.
    """

    def __init__(self, loop: asyncio.AbstractEventLoop, broken: Callable[[str], None],
                 is_short: Callable[[], bool] = lambda: False) -> None:
        """While it `is_short`, there is no room for more of what processes print, and what reads it takes some."""
        self.loop, self.broken, self.is_short, self.guarded = loop, broken, is_short, Guarded()
        self.pace = Pace()
        self.running: "Dict[str, concurrent.futures.Future[None]]" = {}

    def begin(self, name: str, work: Coroutine[Any, Any, None]) -> None:
        """Any thread may begin one."""
        def look(task: "concurrent.futures.Future[None]") -> None:
            fault = None if task.cancelled() else task.exception()
            if fault is not None:
                self.broken(f"its task {name} cannot go on: {told(fault)}")
        self.running[name] = task = asyncio.run_coroutine_threadsafe(work, self.loop)
        task.add_done_callback(look)

    def has(self, name: str) -> bool:
        return name in self.running

    def call(self, work: Coroutine[Any, Any, Given], seconds: float) -> Given:
        """What a coroutine gives, for a thread that waits for it at most so long."""
        return called(self.loop, work, seconds)

    def late(self, end: float, lives: Callable[[], bool], but: Container[str] = ()) -> List[str]:
        """The names of those that have not ended at this moment, but for these. They are waited for while their loop
        lives."""
        while left := [name for name, task in self.running.items() if not task.done() and name not in but]:
            rest = end - time.monotonic()
            if rest <= 0 or not lives():
                break
            concurrent.futures.wait([self.running[name] for name in left], min(rest, BETWEEN_LOOKS))
        return left
