"""Trouble that a request (`lambda_local trouble`) or a storm calls for: the next invocation of a function finds a
runtime that exits, one that takes too long, a new environment, or one whose Init fails. The function is as it is: its
runtimes are stopped by a signal before the invocation comes, so that none answers; or its idle environments end, and
the next generation is held until the invocation is bound to it."""
import asyncio
import contextlib
import os
import signal
import threading
import time
from typing import Callable, ContextManager, Dict, Iterable, Iterator, List, Optional, Sequence, Set, Tuple

from ..clock.asked import advance
from ..exchange.of_tasks import ask
from ..front.tasks import begin_task
from ..history.words import BUSY, CLOSING, IDLE, STARTING
from ..life import Begun, Ended, Event, Invocation, Throttled
from ..storm import COLD, CRASH, INIT, KINDS, THROTTLE, TIMEOUT, NotMade, Ordered, Progress
from .environments import Environment
from .log import Log
from .members import Function
from .supervised import told
from .watch import Watch

ASKED_FOR = (CRASH, TIMEOUT, INIT)  # by a request
WAIT_SECONDS = 30.0  # for the invocation
STORM_SECONDS = 10.0  # for one that a storm sends, and for a moment at which its time can go by
ENDING_SECONDS = 5.0  # for environments that are to start anew, and for one to be idle
REST = 0.005  # seconds between two looks
INIT_MS = 10_000


def signalled(environment: Environment, number: int) -> bool:
    """Whether its runtime, with those beside it, has got this signal."""
    runtime = environment.runtime
    if runtime is None:
        return False
    try:
        os.killpg(runtime.started.pid, number)
        return True
    except (ProcessLookupError, PermissionError):
        return False


class Order(Ordered):
    """Trouble that waits for its invocation. A gentle one is a storm's: it spares all others."""

    def __init__(self, owner: "Troubles", function: str, kind: str, progress: Progress, is_gentle: bool) -> None:
        super().__init__(function, kind, progress)
        self.owner, self.is_gentle = owner, is_gentle
        self.until = time.monotonic() + (STORM_SECONDS if is_gentle else WAIT_SECONDS)
        self.stopped: List[Environment] = []

    async def call_off(self, why: str) -> None:
        await self.owner.watch.refreshed()  # (the invocation may have come)
        if self.owner.withdraw(self):
            self.end(False, why=why)
        end = time.monotonic() + ENDING_SECONDS
        while not self.is_over.is_set() and time.monotonic() < end:
            await asyncio.sleep(REST)
        self.end(False, why=why)


class Troubles:
    """The orders of a run: at most one for each function at a time. `take`, `look` and `holds` are called by the watch,
    by the looks and by environments, the others by the front: all in one loop."""

    def __init__(self, functions: Iterable[Function], watch: Watch, log: Log, stopping: threading.Event) -> None:
        self.watch, self.log, self.stopping = watch, log, stopping
        self.orders: Dict[str, Order] = {}
        self.functions = {function.name: function for function in functions}
        self.environments: Dict[str, List[Environment]] = {name: [] for name, function in self.functions.items()
                                                           if function.command}
        self.beginning: Set[Environment] = set()  # whose Init may have begun
        self.moving = 0  # how many move the clock
        self.timeouts: "Set[asyncio.Task[None]]" = set()
        self.still: Callable[[], ContextManager[object]] = contextlib.nullcontext  # while it lasts no invocation comes
        self.sent: Callable[[], int] = lambda: 0  # invocations without an answer, as far as whoever sends them knows

    def look_after(self, environments: Iterable[Environment]) -> None:
        for environment in environments:
            self.environments[environment.function.name].append(environment)
            environment.holds = self.holds

    # ---- what is asked -----------------------------------------------------------------------------------------------

    async def order(self, function: str, kind: str) -> Tuple[int, str]:
        """By a request: a status, and a sentence."""
        if kind not in ASKED_FOR:
            return 400, f"kind is {', '.join(ASKED_FOR[:-1])} or {ASKED_FOR[-1]}"
        if function not in self.environments:
            return 404, "there is no such function whose runtime lambda_local up has started"
        try:
            await self._arrange(Order(self, function, kind, lambda outcome: None, False))
        except NotMade as why:
            return 409, str(why)
        return 202, "the next invocation is awaited"

    def kinds_of(self, function: str) -> Sequence[str]:
        return KINDS if function in self.environments else (THROTTLE,) if function in self.functions else ()

    async def working(self, function: str) -> int:
        await self.watch.refreshed()
        return self._held(function)

    def _held(self, function: str) -> int:
        return sum(invocation.function == function and invocation.delivered is not None
                   for invocation in self.watch.life.invocations.values())

    async def arrange(self, function: str, kind: str, progress: Progress) -> Order:
        """For a storm, whose invocation comes at once."""
        order = Order(self, function, kind, progress, True)
        if kind in (CRASH, TIMEOUT):
            await self._warm(function)
        await self._arrange(order)
        return order

    async def _warm(self, function: str) -> None:
        """Sees to it that an environment of the function is idle."""
        end = time.monotonic() + ENDING_SECONDS
        while not self._in(function, IDLE):
            if time.monotonic() > end or self.stopping.is_set():
                raise NotMade("none of its environments is idle")
            fresh = [one for one in self.environments[function] if one.is_extra and not one.is_started]
            if fresh and not self._in(function, STARTING, CLOSING, started=True):
                fresh[0].begin("the storm is to find one")
            await asyncio.sleep(REST)

    async def _arrange(self, order: Order) -> None:
        self.watch.life.tells_begun = True
        await self.watch.refreshed()
        if order.function in self.orders:
            raise NotMade("such an invocation is awaited already")
        idle = self._in(order.function, IDLE)
        if order.kind in (CRASH, TIMEOUT):
            # (one that works now may be idle once the invocation comes, which is at once for a storm)
            those = self.environments[order.function] if order.is_gentle and idle else idle
            order.stopped = [environment for environment in those if signalled(environment, signal.SIGSTOP)]
            if not order.stopped:
                raise NotMade("it has no idle environment: wait until one is ready")
        self.orders[order.function] = order
        if order.kind in (COLD, INIT):
            await self._start_anew(order)

    def _in(self, function: str, *phases: str, started: bool = False) -> List[Environment]:
        """Those of the function's environments that are in one of these phases."""
        return [environment for environment in self.environments[function]
                if self.watch.environment(environment.number).here.phase.name in phases
                and (environment.is_started or not started)]

    def _is_bound(self, function: str) -> bool:
        return any(self.watch.environment(one.number).is_bound for one in self.environments[function])

    async def _start_anew(self, order: Order) -> None:
        """Ends the idle environments of the function, and waits until their next generation is held."""
        end = time.monotonic() + ENDING_SECONDS
        try:
            while True:
                idle = self._in(order.function, IDLE, CLOSING)
                is_to_end = bool(idle) or order.function in self._beginning()
                if not is_to_end and not self._is_about_to_ask(order.function):
                    break
                for environment in idle:
                    await ask(self.watch.service.port, "POST", f"/_local/env/{environment.number}/spindown")
                if time.monotonic() > end or self.stopping.is_set():
                    if not is_to_end:
                        break  # (an extension works on, after the answer)
                    raise NotMade("its environments do not end")
                await asyncio.sleep(REST)
                await self.watch.refreshed()
        except (OSError, NotMade) as fault:
            self.withdraw(order)
            raise NotMade(told(fault) if not isinstance(fault, NotMade) else str(fault)) from None

    def _is_about_to_ask(self, function: str) -> bool:
        """Whether one of its environments has answered: it is idle once all that is in it has asked again."""
        return len(self._in(function, BUSY)) > self._held(function)

    # ---- what comes --------------------------------------------------------------------------------------------------

    def withdraw(self, order: Order) -> bool:
        """Whether it was still waiting; what it has stopped goes on."""
        if self.orders.get(order.function) is not order:
            return False
        del self.orders[order.function]
        self._let_go(order, None)
        return True

    @staticmethod
    def _let_go(order: Order, but: Optional[Environment]) -> None:
        for environment in order.stopped:
            if environment is not but:
                signalled(environment, signal.SIGCONT)

    def take(self, event: Event) -> None:
        """From the watch, event by event."""
        if isinstance(event, Begun):
            if order := self._popped(event.invocation.function):
                self._begun(order, event)
        elif isinstance(event, Ended) and event.invocation.delivered is None:
            if order := self._popped(event.invocation.function):
                self._let_go(order, None)
                order.end(order.kind == INIT, event.invocation.identifier, "its Init has failed")
        elif isinstance(event, Throttled):
            if order := self._popped(event.function):
                self._let_go(order, None)
                order.end(False, why=f"it was throttled, {event.reason}")

    def _popped(self, function: str) -> Optional[Order]:
        return self.orders.pop(function, None)

    def _begun(self, order: Order, event: Begun) -> None:
        order.progress(None)
        here = next((one for one in self.environments[order.function] if one.number == event.environment.number), None)
        self._let_go(order, here)
        request = event.invocation.identifier
        if here is None or order.kind in (COLD, INIT):
            is_new = order.kind == COLD and event.environment.generation.deliveries == 1
            return order.end(is_new, request, "an environment that worked was idle first")
        if order.is_gentle and here not in order.stopped:
            return order.end(False, request, "an environment that worked was idle first")
        if order.kind == CRASH:
            signalled(here, signal.SIGKILL)
            return order.end(True, request)
        time_out = self._time_out_gently if order.is_gentle else self._time_out
        task = begin_task(time_out(order, here, event.invocation, event.moment), f"the timeout of {here.name}",
                          self._tell)
        self.timeouts.add(task)
        task.add_done_callback(self.timeouts.discard)

    def look(self) -> None:
        """Gives up what no invocation has come for."""
        now = time.monotonic()
        late = [order for order in self.orders.values() if order.until < now and not (
            order.kind in (COLD, INIT) and self._is_bound(order.function))]
        for order in late:
            if self.withdraw(order):
                seconds = STORM_SECONDS if order.is_gentle else WAIT_SECONDS
                self.log("up", f"trouble: {order.function} was not invoked within {seconds:g} s: its runtimes go on",
                         level="warning", kind="trouble")
                order.end(False, why="it did not come")

    # ---- a timeout ---------------------------------------------------------------------------------------------------

    async def _move(self, milliseconds: int, name: str) -> bool:
        """Moves the clock; whether it was moved."""
        try:
            status, _, body = await ask(self.watch.service.port, *advance(milliseconds))
            why = "" if status == 200 else f"{status} {body[:200].decode(errors='replace')}"
        except OSError as fault:
            why = told(fault)
        if why:
            self._tell(f"{name} does not time out: {why}")
        await self.watch.clock.ask_later()
        return not why

    def _tell(self, text: str) -> None:
        self.log("up", f"trouble: {text}", level="error", kind="trouble")

    def _timeout_of(self, function: str) -> int:
        """In milliseconds."""
        return 1000 * int(self.functions[function].part.get("timeout", 3))

    async def _time_out(self, order: Order, here: Environment, invocation: Invocation, begun: int) -> None:
        has_moved = await self._move(self._timeout_of(order.function), here.name)
        order.end(has_moved, invocation.identifier, "the clock is not moved")

    async def _time_out_gently(self, order: Order, here: Environment, invocation: Invocation, begun: int) -> None:
        """The clock moves to the deadline once no other invocation loses more than half of its time by it and no Init
        goes on; till then it comes nearer by itself."""
        deadline, end = begun + self._timeout_of(order.function), time.monotonic() + STORM_SECONDS
        while not invocation.is_over and not self.stopping.is_set():
            if time.monotonic() > end and not await self.watch.clock.reached_later(deadline - INIT_MS):
                signalled(here, signal.SIGCONT)
                return order.end(False, invocation.identifier, "others would have run out of time too")
            if self._spares(deadline, invocation):
                with self.still(), self._moving():
                    await self.watch.refreshed()
                    left = deadline - self.watch.clock.now()
                    if left > 0 and self._spares(deadline, invocation) and not await self._move(left, here.name):
                        signalled(here, signal.SIGCONT)
                        return order.end(False, invocation.identifier, "the clock is not moved")
                await self.watch.refreshed()
            await asyncio.sleep(4 * REST)
        order.end(not self.stopping.is_set(), invocation.identifier, "the run has ended")

    @contextlib.contextmanager
    def _moving(self) -> Iterator[None]:
        """While this lasts no Init begins."""
        self.moving += 1
        try:
            yield
        finally:
            self.moving -= 1

    def _spares(self, deadline: int, but: Invocation) -> bool:
        invocations = self.watch.life.invocations.values()
        others = [one for one in invocations if one is not but]
        if self.sent() > len(invocations):
            return False  # (one is on its way)
        for one in others:
            timeout = self._timeout_of(one.function)
            if one.delivered is None or one.delivered + timeout - deadline < timeout / 2:
                return False
        return not self._beginning()

    def _beginning(self) -> Set[str]:
        """The functions of which an environment is in its Init."""
        self.beginning = {one for one in self.beginning if one.is_started and not self.watch.environment(
            one.number).generation.is_ready}
        return {one.function.name for one in self.beginning}

    # ---- a new environment -------------------------------------------------------------------------------------------

    async def holds(self, environment: Environment) -> bool:
        """Before a generation begins: waits while one that is to be new, or to fail, waits for its invocation; whether
        it is bound to this environment, and is to find an Init that fails."""
        fails = False
        while not environment.stopping.is_set():
            order = self.orders.get(environment.function.name)
            is_held = order is not None and order.kind in (COLD, INIT)
            is_bound = self.watch.environment(environment.number).is_bound
            self.beginning.discard(environment)  # (that was the generation before)
            if not self.moving and (is_bound or not is_held):
                fails = order is not None and order.kind == INIT and is_bound
                self.beginning.add(environment)
                break
            await asyncio.sleep(REST)
        return fails
