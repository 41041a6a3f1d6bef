"""A debugger in the process of a test: while it stands, the clocks of all services there are paused; then they go on.

Under pytest its own debugger says when it stands. Without, `breakpoint()` opens one here that says so. A clock that was
paused before stays as it was; and a service that ends lets its clock go on in any case."""
import contextlib
import os
import pdb
import sys
import threading
from types import FrameType
from typing import TYPE_CHECKING, Any, Callable, List, Optional

if TYPE_CHECKING:
    from .clock.own import OwnClock

ENDED = (OSError, RuntimeError)  # of a service that is not there (any more)


class Held:
    """The clocks that a debugger holds, however deep it is nested."""

    def __init__(self) -> None:
        self.lock = threading.RLock()
        self.clocks: List["OwnClock"] = []  # of services that run
        self.paused: List["OwnClock"] = []
        self.depth = 0
        self.hook: Optional[Callable[..., Any]] = None  # what breakpoint() called before

    def begin(self, clock: "OwnClock") -> None:
        """A service has begun; one that begins while a debugger stands is held too."""
        with self.lock:
            self.clocks.append(clock)
            if self.depth:
                self._pause(clock)
            if self.hook is None and is_pythons_own():
                self.hook, sys.breakpointhook = sys.breakpointhook, breaks

    def end(self, clock: "OwnClock") -> None:
        with self.lock:
            for held in (self.clocks, self.paused):
                with contextlib.suppress(ValueError):
                    held.remove(clock)
            if not self.clocks and self.hook is not None:
                if sys.breakpointhook is breaks:
                    sys.breakpointhook = self.hook
                self.hook = None

    def enter(self) -> None:
        with self.lock:
            self.depth += 1
            if self.depth == 1:
                for clock in self.clocks:
                    self._pause(clock)

    def _pause(self, clock: "OwnClock") -> None:
        with contextlib.suppress(*ENDED):
            if not clock.is_paused:
                clock.pause()
                self.paused.append(clock)

    def leave(self) -> None:
        with self.lock:
            self.depth = max(0, self.depth - 1)
            if self.depth == 0:
                paused, self.paused = self.paused, []
                for clock in paused:
                    with contextlib.suppress(*ENDED):
                        clock.resume()


HELD = Held()


class HoldingPdb(pdb.Pdb):
    """Python's debugger, which holds the clocks while it waits for a command."""

    def interaction(self, frame: Optional[FrameType], traceback: Any) -> None:
        HELD.enter()
        try:
            super().interaction(frame, traceback)
        finally:
            HELD.leave()


def breaks(*, header: Optional[str] = None) -> None:
    """What breakpoint() does while a service runs, if nothing else has taken its place."""
    debugger = HoldingPdb()
    if header is not None:
        debugger.message(header)
    debugger.set_trace(sys._getframe(1))


def is_pythons_own() -> bool:
    """Whether breakpoint() would open Python's debugger: not pytest's, nor that of PYTHONBREAKPOINT or an editor."""
    return (sys.breakpointhook is sys.__breakpointhook__ and pdb.set_trace.__module__ == "pdb"
            and os.environ.get("PYTHONBREAKPOINT", "") in ("", "pdb.set_trace"))
