"""The threads and tasks of lambda_local up: one that ends by an exception is reported, and ends the run."""
import os
import threading
import traceback
from typing import Callable

from ..reports import shorten
from .log import Log

BROKEN = 70  # the status of a run that a fault of the tools themselves has ended (sysexits.h: an internal fault)


def told(fault: BaseException) -> str:
    """An exception and the line that raised it, in one line."""
    frames = traceback.extract_tb(fault.__traceback__)
    place = f" ({os.path.basename(frames[-1].filename)}:{frames[-1].lineno})" if frames else ""
    return f"{type(fault).__name__}: {shorten(str(fault))}{place}"


class Supervisor:
    """Hears of each thread of this process that an exception has ended, and of tasks; `when_broken` is called once for
    each."""

    def __init__(self, log: Log, when_broken: Callable[[], None]):
        self.log, self.when_broken, self.is_broken = log, when_broken, False
        threading.excepthook = self.ended

    def ended(self, what: "threading.ExceptHookArgs") -> None:
        name = what.thread.name if what.thread else "that is unknown"
        self.broken(f"its thread {name} cannot go on: {told(what.exc_value or what.exc_type())}")

    def broken(self, why: str) -> None:
        self.is_broken = True
        try:
            self.log("up", f"stopping: {why}", level="error", kind="fault")
        finally:
            self.when_broken()
