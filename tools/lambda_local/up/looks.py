"""What lambda_local up looks at after the account has changed, and otherwise now and then: what environments need, and
how much room and memory are left."""
import time
from typing import Awaitable, Callable, List, NamedTuple, Optional

from . import memory
from .supervised import told
from .watch import Watch

NEARLY_FULL = 0.9
NOW_AND_THEN = 0.2  # seconds


class Hook(NamedTuple):
    """What is done at each look; `task` completes "could not .."."""
    task: str
    run: Callable[[], Optional[Awaitable[None]]]


class Looks:
    def __init__(self, watch: Watch) -> None:
        self.watch = watch
        self.most = watch.service.configuration.get("maxEntries", 1_000_000)
        self.hooks: List[Hook] = []
        self.between = 0.1  # seconds from one look to the next at least
        self.look_at = 0.0

    async def run(self) -> None:
        while not await self.watch.over.wait(self.between):
            await self.watch.has_news.wait(NOW_AND_THEN)
            self.watch.has_news.clear()
            self._look_at_memory()
            self.watch.lines.tell_throttled()
            self._look_at_room()
            for hook in self.hooks:
                await self._call(hook)

    async def _call(self, hook: Hook) -> None:
        try:
            if (work := hook.run()) is not None:
                await work
        except OSError:
            pass  # (a service that has just ended answers no one)
        except Exception as fault:
            self.watch.log("up", f"could not {hook.task}: {told(fault)}", level="error", kind="fault")

    def _look_at_room(self) -> None:
        """Room for a stop is kept back: each environment may expire before it, and once more at it."""
        count, kept = self.watch.following.next, 2 * (len(self.watch.life.environments) + 1)
        if count > self.most - kept:
            self.watch.warn("full", f"the history is full ({count} entries): every call is answered 500 `Journal is "
                                    "full`; stop, or write a higher maxEntries into UP.json", "error")
        elif count >= NEARLY_FULL * self.most:
            self.watch.warn("nearly", f"the history has {count} of its {self.most} entries: once it is full every call "
                                      "is answered 500; write a higher maxEntries into UP.json", "warning")

    def _look_at_memory(self) -> None:
        """Once a second, since asking costs some files."""
        now = time.monotonic()
        if now < self.look_at:
            return
        self.look_at = now + 1
        for use in memory.uses(self.watch.service.process.pid):
            if use.used >= NEARLY_FULL * use.allowed:
                self.watch.warn(use.by, f"{use.used >> 20} MB of {use.allowed >> 20} MB are used of {use.by}: events "
                                        "and the history take memory; stop, or allow more", "warning")
