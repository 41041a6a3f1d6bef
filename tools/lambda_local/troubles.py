"""Trouble that a test calls for by name, of a service whose handlers run in its process: what Lambda does when a
function is throttled, starts anew, takes too long or ends. No handler is changed; what callers get is the service's.

    with service.trouble("f", "throttle"):       # also "timeout" and "crash": each invocation in it
    service.times_out("f", {"order": 7})          # one invocation, and what its caller gets"""
import contextlib
import json
import threading
import time
from typing import TYPE_CHECKING, Any, Dict, Iterator, List, Optional, Set, Tuple
from urllib.parse import urlsplit

from .service import ask

if TYPE_CHECKING:
    from .clock.own import OwnClock

KINDS = ("throttle", "timeout", "crash")
PATIENCE = 5.0  # seconds, until an environment that has answered has asked again
REST = 0.005  # seconds between two looks
LONGEST_INIT = 900  # seconds
CONCURRENCY = "/{}/functions/{}/concurrency"
CRASH = {"errorMessage": "Runtime exited with error: exit status 1", "errorType": "Runtime.ExitError"}


class SlowInit:
    """The next Init of a function, which takes so long; `is_over` once an invocation has waited for it."""

    def __init__(self, seconds: float) -> None:
        self.seconds, self.is_over = seconds, threading.Event()
        self.lock = threading.Lock()

    def begin(self) -> bool:
        """Whether this caller is the first."""
        with self.lock:
            first = not self.is_over.is_set()
            self.is_over.set()
            return first


class Troubled:
    """What a service of a test can be asked to do wrong."""
    clock: "OwnClock"

    def __init__(self) -> None:
        self.troubles: Dict[str, List[str]] = {}  # by function, the last one counts
        self.slow_inits: Dict[str, SlowInit] = {}
        self.beginning = threading.Lock()
        self.begun: Set[int] = set()  # environments whose runtime is about to ask, or has asked
        self.endings: List[threading.Thread] = []  # of environments whose runtime has crashed

    # (what LambdaLocal has)
    endpoint_url: Optional[str]

    def invoke(self, name: str, event: object = None, patience: float = 2.0) -> Any:
        raise NotImplementedError

    def numbers_of(self, name: str) -> List[int]:
        """The numbers of a function's environments; ValueError if there is no such function."""
        raise NotImplementedError

    def has_ended(self) -> bool:
        raise NotImplementedError

    # ---- by name -----------------------------------------------------------------------------------------------------

    @contextlib.contextmanager
    def trouble(self, name: str, kind: str) -> Iterator[None]:
        """While this lasts each invocation of the function, whoever makes it, is throttled ("throttle"), times out
        ("timeout") or finds a runtime that exits ("crash")."""
        if kind not in KINDS:
            raise ValueError(f"trouble: {kind!r} is none: give {', '.join(KINDS[:-1])} or {KINDS[-1]}")
        self.numbers_of(name)
        before = self._reserved(name) if kind == "throttle" else None
        self.troubles.setdefault(name, []).append(kind)
        try:
            if kind == "throttle":
                self._reserve(name, 0)
            yield
        finally:
            self.troubles[name].remove(kind)
            for ending in [self.endings.pop() for _ in list(self.endings)]:
                ending.join()
            if kind == "throttle" and not self.has_ended():
                self._reserve(name, before)

    def throttled(self, name: str) -> "contextlib.AbstractContextManager[None]":
        """While this lasts its reservation is 0, and its callers get 429."""
        return self.trouble(name, "throttle")

    def times_out(self, name: str, event: object = None) -> Any:
        """Invokes it, lets its time go by without calling the handler, and returns what the caller gets. The clock of
        the service is moved, so whatever else is due by then happens too."""
        return self._report(name, event, "timeout")

    def crashes(self, name: str, event: object = None) -> Any:
        """Invokes it, has its runtime exit in place of calling the handler, and returns what the caller gets. The
        environment starts anew."""
        return self._report(name, event, "crash")

    def _report(self, name: str, event: object, kind: str) -> Any:
        from .in_process import FunctionError
        with self.trouble(name, kind):
            try:
                output = self.invoke(name, event)
            except FunctionError as fault:
                return fault.report
        raise AssertionError(f"{name} has answered {output!r}")

    def cold(self, name: str) -> int:
        """Ends its environments, so that the next invocations find new ones; how many there were. RuntimeError if one
        works."""
        return sum([self._end(name, number) for number in self.numbers_of(name)])

    def _end(self, name: str, number: int) -> bool:
        """Ends an environment once it is idle; whether it had begun."""
        end = time.monotonic() + PATIENCE
        while (phase := self.phases()[number]["phase"]) != "starting" or number in self.begun:
            if phase == "idle" and self.spin_down(number):
                return True
            if time.monotonic() > end:
                raise RuntimeError(f"{name} is {phase}, and cannot start anew: end what it works at first")
            time.sleep(REST)
        return False

    def slow_init(self, name: str, seconds: float) -> None:
        """Ends its environments, and has its next Init take so long: one that an invocation waits for, which moves the
        clock of the service. More than 10 s time out, as on Lambda."""
        if isinstance(seconds, bool) or not isinstance(seconds, (int, float)) or not 0 < seconds <= LONGEST_INIT:
            raise ValueError(f"slow_init: {seconds!r}: give a number of seconds, up to {LONGEST_INIT}")
        self.numbers_of(name)
        with self.beginning:
            self.slow_inits[name] = SlowInit(seconds)
        self.cold(name)

    # ---- for the runtimes --------------------------------------------------------------------------------------------

    def kind_of(self, name: str) -> Optional[str]:
        """What an invocation of the function that a runtime was given comes to."""
        kinds = [kind for kind in self.troubles.get(name, ()) if kind != "throttle"]
        return kinds[-1] if kinds else None

    def time_out(self, deadline: int) -> None:
        """Moves the clock to this deadline, if it has not come."""
        left = deadline - self.clock.now()
        if left > 0:
            self.clock.advance(milliseconds=left)

    def crash(self, name: str, number: int) -> None:
        """Before the report of a crash: its environment starts anew once it has asked for the next invocation."""
        def end() -> None:
            with contextlib.suppress(RuntimeError, OSError):  # (it has ended otherwise)
                self._end(name, number)
        ending = threading.Thread(target=end, name=f"end of {name}", daemon=True)
        self.endings.append(ending)
        ending.start()

    def hold_init(self, name: str, number: int) -> None:
        """Before a runtime's first request: if its Init is to be slow, waits until an invocation waits for it, and lets
        the time go by."""
        self.begun.discard(number)
        while slow := self._slow_or_begun(name, number):
            if "bound" in self.phases()[number] and slow.begin():
                self.clock.advance(seconds=slow.seconds)
                self.slow_inits.pop(name, None)
            time.sleep(REST)

    def _slow_or_begun(self, name: str, number: int) -> Optional[SlowInit]:
        """The slow Init that a runtime is to wait for; without one it begins."""
        with self.beginning:
            slow = self.slow_inits.get(name)
            if slow is not None and not slow.is_over.is_set() and not self.has_ended():
                return slow
            self.begun.add(number)
            return None

    # ---- what is asked -----------------------------------------------------------------------------------------------

    def _ask(self, method: str, path: str, body: str = "") -> Tuple[int, bytes]:
        status, _, answer = ask(urlsplit(str(self.endpoint_url)).port or 80, method, path, body or None)
        return status, answer

    def spin_down(self, number: int) -> bool:
        """Ends an environment if it is idle; whether it was."""
        return self._ask("POST", f"/_local/env/{number}/spindown")[0] == 202

    def phases(self) -> Dict[int, Dict[str, Any]]:
        status, body = self._ask("GET", "/_local/environments")
        if status != 200:
            raise RuntimeError("the service does not say what its environments do: its program is an older one")
        return {one["environment"]: one for one in json.loads(body)["environments"]}

    def _reserved(self, name: str) -> Optional[int]:
        reserved: Optional[int] = json.loads(
            self._ask("GET", CONCURRENCY.format("2019-09-30", name))[1]).get("ReservedConcurrentExecutions")
        return reserved

    def _reserve(self, name: str, count: Optional[int]) -> None:
        path = CONCURRENCY.format("2017-10-31", name)
        status, body = self._ask("DELETE", path) if count is None else self._ask(
            "PUT", path, json.dumps({"ReservedConcurrentExecutions": count}))
        if status not in (200, 204):
            raise RuntimeError(f"the reservation of {name} cannot be set: {status} {body.decode(errors='replace')}")
