"""A storm in front of the functions: each invocation that the front sends passes here, is counted, and may be one that
is to meet trouble. Then no other one of its function is sent until it has, so the n-th is the n-th."""
import asyncio
import contextlib
import json
import re
import threading
from collections import OrderedDict
from typing import AsyncIterator, Dict, Iterator, Optional, Sequence, Tuple

from ..exchange.client import Client
from ..exchange.connection import Answer
from ..outgoing import Log
from ..storm import THROTTLE, WORDS, Course, Maker, NotMade, Order, Outcome, Storm, Tally
from .events import TRACE, TYPE, function_of, target_of
from .http import first

MAKE_SECONDS = 10.0  # as long others of a function wait for one that is to meet trouble
LOOK_SECONDS = 0.005  # between two looks
MOST_ROOTS = 10_000  # that are remembered
ROOT = re.compile(r"(?:^|;)\s*Root=([^;]+)")
RESERVATION = re.compile(r"/2017-10-31/functions/([^/?]+)/concurrency")
CONCURRENCY = "/{}/functions/{}/concurrency"
Fields = Sequence[Tuple[str, str]]


def root_of(headers: Fields) -> Optional[str]:
    """That of an invocation's trace, by which what it invokes itself is known too."""
    found = ROOT.search(first(list(headers), TRACE.lower()) or "")
    return found[1] if found else None


class Lane:
    """The invocations of one function."""

    def __init__(self, course: Course) -> None:
        self.course, self.sent = course, 0  # and not answered
        self.lock = asyncio.Lock()  # of whoever sends, or makes trouble


class Trouble:
    """What one invocation is to meet."""

    def __init__(self, function: str, number: int, kind: str, lane: Lane) -> None:
        self.function, self.number, self.kind, self.lane = function, number, kind, lane
        self.is_over = self.is_released = self.is_reserved = False
        self.reserved: Optional[int] = None  # what the reservation was, if it has to be put back
        self.order: Optional[Order] = None
        self.identifier = ""  # the invocation's, once its answer has come
        self.outcome: Optional[Outcome] = None  # that waits for it

    def release(self) -> None:
        """Others of the function may be sent."""
        if not self.is_released:
            self.is_released = True
            self.lane.lock.release()


class Gate:
    """What passes on its way to the service at this port."""

    def __init__(self, storm: Storm, maker: Maker, port: int, log: Log) -> None:
        self.storm, self.maker, self.log, self.tally = storm, maker, log, Tally(storm)
        self.beside = Client(port)  # whose requests do not pass
        self.lanes: Dict[str, Lane] = {}
        self.roots: "OrderedDict[str, None]" = OrderedDict()  # of those that had trouble
        self.sent = 0  # invocations that were not answered yet
        self.opened: Optional[asyncio.Event] = None  # not set while none may be sent
        self.stills = 0  # that last

    def unanswered(self) -> int:
        """How many invocations were sent and not answered yet."""
        return self.sent

    # ---- what passes -------------------------------------------------------------------------------------------------

    @contextlib.asynccontextmanager
    async def passing(self, method: str, target: str, headers: Fields,
                      is_again: bool) -> AsyncIterator[Optional[Trouble]]:
        """While a request is sent and answered."""
        is_invocation = method == "POST" and first(list(headers), TYPE.lower()) in (None, "RequestResponse")
        lane = self.lane_of(function_of(target)) if is_invocation else None
        if lane is None:
            async with self.one_by_one(target):
                yield None
            return
        function, root = lane.course.function, root_of(headers)
        number, kind = (0, None) if is_again or root in self.roots else lane.course.next()
        self.tally.invocations += number > 0
        if kind is not None:
            self.note(root)
            async with self.troubled(Trouble(function, number, kind, lane)) as trouble:
                yield trouble
            return
        async with lane.lock:
            await self.may_be_sent()
            lane.sent, self.sent = lane.sent + 1, self.sent + 1
        try:
            yield None
        finally:
            lane.sent, self.sent = lane.sent - 1, self.sent - 1

    def lane_of(self, function: Optional[str]) -> Optional[Lane]:
        """None if there is no such function."""
        if function is not None and function not in self.lanes and (kinds := self.maker.kinds_of(function)):
            self.lanes[function] = Lane(Course(self.storm, function, kinds))
        return self.lanes.get(function or "")

    @contextlib.asynccontextmanager
    async def one_by_one(self, target: str) -> AsyncIterator[None]:
        """A reservation that a caller sets waits until that of a throttle has been put back."""
        found = RESERVATION.fullmatch(target)
        lane = self.lane_of(function_of(target_of(found[1]))) if found else None
        if lane is None:
            yield
        else:
            async with lane.lock:
                yield

    def note(self, root: Optional[str]) -> None:
        if root is not None:
            self.roots[root] = None
            if len(self.roots) > MOST_ROOTS:
                self.roots.popitem(last=False)

    async def may_be_sent(self) -> None:
        if self.opened is not None:
            await self.opened.wait()

    # ---- trouble -----------------------------------------------------------------------------------------------------

    @contextlib.asynccontextmanager
    async def troubled(self, trouble: Trouble) -> AsyncIterator[Trouble]:
        lane = trouble.lane
        await lane.lock.acquire()
        lane.sent, self.sent = lane.sent + 1, self.sent + 1
        try:
            try:
                await self.make(trouble)
            except NotMade as why:
                self.over(trouble, Outcome(False, why=str(why)))
            await self.may_be_sent()
            yield trouble
        finally:
            lane.sent, self.sent = lane.sent - 1, self.sent - 1
            await asyncio.shield(asyncio.ensure_future(self.end(trouble, Outcome(False, why="it has no answer"))))

    async def make(self, trouble: Trouble) -> None:
        """Once all that was sent before it has reached a runtime."""
        loop = asyncio.get_running_loop()
        end = loop.time() + MAKE_SECONDS
        while trouble.lane.sent - 1 > await self.maker.working(trouble.function):
            if loop.time() > end:
                raise NotMade("earlier invocations still wait for a runtime")
            await asyncio.sleep(LOOK_SECONDS)
        if trouble.kind == THROTTLE:
            return await self.throttle(trouble)

        def progress(outcome: Optional[Outcome]) -> None:
            with contextlib.suppress(RuntimeError):  # (the loop has ended)
                loop.call_soon_threadsafe(self.progress, trouble, outcome)
        trouble.order = await self.maker.arrange(trouble.function, trouble.kind, progress)

    async def throttle(self, trouble: Trouble) -> None:
        status, _, body = await self.beside.ask("GET", CONCURRENCY.format("2019-09-30", trouble.function))
        if status == 200:
            trouble.reserved = json.loads(body).get("ReservedConcurrentExecutions")
            trouble.is_reserved = True
            status = await self.reserve(trouble.function, 0)
        if status != 200:
            raise NotMade(f"the service answers {status} to its reservation")

    async def reserve(self, function: str, count: Optional[int]) -> int:
        path = CONCURRENCY.format("2017-10-31", function)
        body = b"" if count is None else json.dumps({"ReservedConcurrentExecutions": count}).encode()
        return (await self.beside.ask("DELETE" if count is None else "PUT", path, (), body))[0]

    async def answered(self, trouble: Trouble, answer: Answer) -> None:
        """The head of the answer has come."""
        trouble.identifier = identifier = first(answer.headers, "x-amzn-requestid") or ""
        said = f"it was answered {answer.status}"
        if trouble.kind == THROTTLE or answer.status != 200:
            has_come = trouble.kind == THROTTLE and trouble.is_reserved and answer.status == 429
            await self.end(trouble, Outcome(has_come, identifier, said))
        elif trouble.outcome:
            self.over(trouble, trouble.outcome)

    async def end(self, trouble: Trouble, outcome: Outcome) -> None:
        """Nothing of it is left after this."""
        try:
            if trouble.is_reserved:
                trouble.is_reserved = False
                await self.reserve(trouble.function, trouble.reserved)
            if trouble.order and not trouble.is_over:
                await trouble.order.call_off(outcome.why)
                await asyncio.sleep(0)  # (what has become of it is told in a turn of its own, which comes first)
        finally:
            self.over(trouble, trouble.outcome or outcome)

    def progress(self, trouble: Trouble, outcome: Optional[Outcome]) -> None:
        if outcome is None or outcome.has_come and not (outcome.request or trouble.identifier):
            trouble.outcome = outcome
            trouble.release()
        else:
            self.over(trouble, outcome)

    def over(self, trouble: Trouble, outcome: Outcome) -> None:
        """It has come about, or not: that is told once."""
        trouble.release()
        if trouble.is_over:
            return
        trouble.is_over = True
        if outcome.has_come:
            self.tally.made[trouble.kind] += 1
        else:
            self.tally.passed_over += 1
        request = outcome.request or trouble.identifier
        which = f"{self.storm.name}: {trouble.function} #{trouble.number}{', ' if request else ''}{request}"
        why = "" if outcome.has_come else f" could not be made: {outcome.why}"
        self.log("up", f"{which}: {WORDS[trouble.kind]}{why}", level="warning", kind="storm", function=trouble.function,
                 number=trouble.number, trouble=trouble.kind, seed=self.storm.seed, rate=self.storm.rate,
                 request=request or None, made=outcome.has_come)

    # ---- for what moves the clock ------------------------------------------------------------------------------------

    @contextlib.contextmanager
    def still(self) -> Iterator[None]:
        """While this lasts no invocation is sent. For the loop."""
        self.close()
        try:
            yield
        finally:
            self.open_again()

    def close(self) -> None:
        self.stills += 1
        self.opened = self.opened or asyncio.Event()

    def open_again(self) -> None:
        self.stills -= 1
        if self.opened and not self.stills:
            self.opened.set()
            self.opened = None

    @contextlib.contextmanager
    def still_for(self, loop: asyncio.AbstractEventLoop) -> Iterator[None]:
        """The same for a thread."""
        is_closed = threading.Event()
        loop.call_soon_threadsafe(self.close)
        loop.call_soon_threadsafe(is_closed.set)
        try:
            is_closed.wait(MAKE_SECONDS)
            yield
        finally:
            with contextlib.suppress(RuntimeError):  # (the loop has ended)
                loop.call_soon_threadsafe(self.open_again)


class StormyClient(Client):
    """A client whose invocations go through a storm."""

    def __init__(self, port: int, gate: Gate) -> None:
        super().__init__(port)
        self.gate = gate

    @contextlib.asynccontextmanager
    async def exchange(self, method: str, target: str, headers: Fields = (), length: int = 0, body: bytes = b"",
                       is_again: bool = False) -> AsyncIterator[Answer]:
        async with self.gate.passing(method, target, headers, is_again) as trouble:
            async with super().exchange(method, target, headers, length, body) as answer:
                if trouble is not None:
                    await self.gate.answered(trouble, answer)
                yield answer

    def close(self) -> None:
        super().close()
        self.gate.beside.close()
