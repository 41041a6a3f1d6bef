"""Limits on a busy machine. A program is late if it takes its time, and not if the machine gives it none: so limits are
counted by a clock that goes slower, the less of a processor a thread gets here."""
import threading
import time
from typing import Any, Callable, Optional

PAUSE, FIRST_PAUSE = 0.15, 0.02  # seconds between two looks, and before the first one
SHARE = 10  # of the time that a look takes, it pauses at least: it is not to take what little there is
LONGEST_PAUSE = 3.0  # seconds
WORK = 0.003  # seconds of a processor for each look
LONGEST = 0.3  # seconds that may count without a look, of a machine that is not busy
SLOWEST = 10  # that a limit is stretched at most


class Clock:
    """Looks, in a thread of its own, how long a little work takes. Without that thread it is `time.monotonic`."""

    def __init__(self) -> None:
        self._lock = threading.Lock()
        self._begun: Optional[float] = None
        self._counted, self._at, self._slowness = 0.0, time.monotonic(), 1.0

    def start(self) -> None:
        self._begun = self._at = time.monotonic()
        self._look(FIRST_PAUSE)  # (before anything has a limit)
        threading.Thread(target=self._run, daemon=True).start()

    def now(self) -> float:
        """Seconds; never less than before."""
        if self._begun is None:
            return time.monotonic()
        with self._lock:
            return self._counted + min(time.monotonic() - self._at, LONGEST) / self._slowness

    def stretch(self) -> float:
        """How many times as long as on a machine with nothing else to do limits have been."""
        begun = self._begun
        with self._lock:
            return (time.monotonic() - begun) / max(self._counted, 0.001) if begun else 1.0

    def slowness(self) -> float:
        """How many times as long a little work took at the last look."""
        with self._lock:
            return self._slowness

    def wait(self, wait_once: Callable[[float], Any], seconds: float) -> bool:
        """Calls `wait_once` with parts of this many seconds until it returns true. Returns whether it did."""
        end = self.now() + seconds
        while not wait_once(max(0, min(0.1, end - self.now()))):
            if self.now() >= end:
                return False
        return True

    def sleep(self, seconds: float) -> None:
        """Lets this many seconds pass."""
        self.wait(lambda part: time.sleep(part), seconds)

    def _run(self) -> None:
        pause = PAUSE
        while True:
            pause = min(LONGEST_PAUSE, max(PAUSE, SHARE * self._look(pause)))

    def _look(self, pause: float) -> float:
        """Counts the time since the last look, by how long a little work takes after a pause: the seconds of that."""
        took = self.took(pause)
        with self._lock:
            passed = time.monotonic() - self._at
            seen = min(passed, LONGEST) / self._slowness  # what `now` may have said
            self._slowness = min(SLOWEST, max(1.0, took / WORK))
            self._counted += max(seen, passed / self._slowness)
            self._at += passed
        return took

    @staticmethod
    def took(pause: float) -> float:
        """Lets a pause pass: how many seconds it takes then to be woken and to work a little."""
        begun = time.monotonic()
        time.sleep(pause)
        worked = time.thread_time()
        while time.thread_time() - worked < WORK:
            pass
        return time.monotonic() - begun - pause


CLOCK = Clock()
