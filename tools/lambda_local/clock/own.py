"""The clock of a service that a test has started, as the test sets it."""
import contextlib
from typing import Callable, Iterator, Tuple
from urllib.parse import urlsplit

from ..service import ask
from .asked import PAUSE, RESUME, SHOW, NotClock, Reading, advance, reading_of
from .durations import LONGEST

ASK_SECONDS = 60.0  # for an answer


class OwnClock:
    """`lambda_local.clock` of a test; `endpoint` gives the address of its service. Before and after it is set, `settle`
    waits until what is due by it has begun."""

    def __init__(self, endpoint: Callable[[], str], settle: Callable[[], None]) -> None:
        self.endpoint, self.settle = endpoint, settle

    def _ask(self, request: Tuple[str, str]) -> Reading:
        status, _, body = ask(urlsplit(self.endpoint()).port or 80, *request, timeout=ASK_SECONDS)
        try:
            return reading_of(status, body)
        except NotClock as fault:
            if status == 404:
                raise RuntimeError("the service has no clock that can be set: its program is an older one") from None
            raise (ValueError if status == 400 else RuntimeError)(f"the clock: {fault}") from None

    def _set(self, request: Tuple[str, str]) -> int:
        self.settle()
        reading = self._ask(request)
        self.settle()
        return reading.now

    def now(self) -> int:
        """What it reads: milliseconds since 1970."""
        return self._ask(SHOW).now

    @property
    def is_paused(self) -> bool:
        return not self._ask(SHOW).is_running

    def advance(self, seconds: float = 0, *, milliseconds: float = 0, minutes: float = 0, hours: float = 0,
                days: float = 0) -> int:
        """Moves it forward by the sum of these; what is due by then has happened, or begun, when this returns. Returns
        what it reads then."""
        given = {"seconds": seconds, "milliseconds": milliseconds, "minutes": minutes, "hours": hours, "days": days}
        for name, value in given.items():
            if isinstance(value, bool) or not isinstance(value, (int, float)) or not 0 <= value <= LONGEST:
                raise ValueError(f"advance: {name} is {value!r}: give a number from 0, such as advance(seconds=3)")
        total = round(milliseconds + 1000 * (seconds + 60 * (minutes + 60 * (hours + 24 * days))))
        if not 0 < total <= LONGEST:
            raise ValueError(f"advance: it is {total} milliseconds in all: give from 1 to {LONGEST}, such as "
                             "advance(seconds=3)")
        return self._set(advance(total))

    def pause(self) -> int:
        """Stops it, if it runs; nothing becomes due until it goes on or is moved. Returns what it reads."""
        return self._set(PAUSE)

    def resume(self) -> int:
        """Lets it go on from where it stood. Returns what it reads."""
        return self._set(RESUME)

    @contextlib.contextmanager
    def paused(self) -> Iterator["OwnClock"]:
        """While this lasts it is paused. After it, it goes on, unless it was paused before."""
        was_paused = self.is_paused
        self.pause()
        try:
            yield self
        finally:
            if not was_paused:
                self.resume()
