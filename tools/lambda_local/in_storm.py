"""The trouble of a storm over handlers that run in this process: runtimes ask before each invocation, and before their
first request, what they are to do. The service is asked, and waited for, by threads."""
import asyncio
import threading
import time
from typing import TYPE_CHECKING, Callable, ContextManager, Dict, Optional, Sequence

from .storm import COLD, CRASH, INIT, KINDS, THROTTLE, TIMEOUT, NotMade, Ordered, Progress

if TYPE_CHECKING:
    from .in_process import LambdaLocal

REST = 0.005  # seconds between two looks
ENDING_SECONDS = 5.0  # for environments that are to start anew
QUIET_SECONDS = 2.0  # until nothing else works whose time would go by too
BUSY, IDLE, STARTING = "busy", "idle", "starting"


class InOrder(Ordered):
    """Trouble that waits for its invocation, or has it."""

    def __init__(self, owner: "InMaker", function: str, kind: str, progress: Progress) -> None:
        super().__init__(function, kind, progress)
        self.owner = owner

    async def call_off(self, why: str) -> None:
        if not self.owner.withdraw(self):
            await asyncio.to_thread(self.is_over.wait, ENDING_SECONDS)  # (a runtime has it)
        self.end(False, why=why)


class InMaker:
    """For the functions of this service."""

    def __init__(self, service: "LambdaLocal", handlers: Sequence[str]) -> None:
        self.service, self.handlers, self.lock = service, set(handlers), threading.Lock()
        self.orders: Dict[str, InOrder] = {}
        self.still: Callable[[], ContextManager[object]]  # while it lasts no invocation comes
        self.sent: Callable[[], int]  # invocations without an answer

    def kinds_of(self, function: str) -> Sequence[str]:
        names = [part["name"] for part in self.service.started().configuration["functions"]]
        return () if function not in names else KINDS if function in self.handlers else (THROTTLE,)

    async def working(self, function: str) -> int:
        return await asyncio.to_thread(self._working, function)

    def _working(self, function: str) -> int:
        phases = self.service.phases()
        return sum(phases[number]["phase"] == BUSY for number in self.service.numbers_of(function))

    async def arrange(self, function: str, kind: str, progress: Progress) -> InOrder:
        return await asyncio.to_thread(self._arrange, function, kind, progress)

    def _arrange(self, function: str, kind: str, progress: Progress) -> InOrder:
        order = InOrder(self, function, kind, progress)
        with self.lock:
            self.orders[function] = order
        end = time.monotonic() + ENDING_SECONDS
        while kind in (COLD, INIT):
            phases = self.service.phases()
            found = {number: phases[number]["phase"] for number in self.service.numbers_of(function)}
            idle = [number for number, phase in found.items() if phase == IDLE]
            # (what works without a caller but this one's has answered, and is idle in a moment)
            if not idle and not (BUSY in found.values() and self.sent() <= 1):
                break
            if time.monotonic() > end:
                if not idle:
                    break
                self.withdraw(order)
                raise NotMade("its environments do not end")
            for number in idle:
                self.service.spin_down(number)
            time.sleep(REST)
        return order

    def withdraw(self, order: InOrder) -> bool:
        """Whether no runtime had it."""
        with self.lock:
            return self.orders.get(order.function) is order and self.orders.pop(order.function) is order

    # ---- for the runtimes --------------------------------------------------------------------------------------------

    def take(self, function: str, number: int, request: str, deadline: int, is_new: bool) -> Optional[str]:
        """What a runtime that was given an invocation is to do: CRASH; TIMEOUT, if the time has gone by; or nothing
        but its work."""
        order = self.orders.get(function)
        if order is None or not self.withdraw(order):
            return None
        order.progress(None)
        if order.kind == CRASH:
            order.end(True, request)
            return CRASH
        if order.kind == TIMEOUT and self._time_out(number, deadline):
            order.end(True, request)
            return TIMEOUT
        order.end(order.kind == COLD and is_new, request, "others would have run out of time too"
                  if order.kind == TIMEOUT else "an environment that worked was idle first")
        return None

    def holds(self, function: str, number: int) -> Optional[InOrder]:
        """Before a runtime's first request: waits while one that is to be new, or to fail, waits for its invocation;
        what a runtime has that is to report that its Init fails."""
        while not self.service.has_ended():
            order = self.orders.get(function)
            if order is None or order.kind not in (COLD, INIT):
                break
            if "bound" in self.service.phases()[number]:
                return order if order.kind == INIT and self.withdraw(order) else None
            time.sleep(REST)
        return None

    def _time_out(self, number: int, deadline: int) -> bool:
        """Moves the clock to this deadline as soon as nothing else works; whether it has come."""
        end = time.monotonic() + QUIET_SECONDS
        while time.monotonic() < end:
            with self.still():
                if self.sent() <= 1 and self._is_quiet(number):
                    self.service.time_out(deadline)
                    return True
            time.sleep(4 * REST)
        return False

    def _is_quiet(self, but: int) -> bool:
        return all(number == but or one["phase"] == IDLE or one["phase"] == STARTING and "bound" not in one
                   for number, one in self.service.phases().items())
