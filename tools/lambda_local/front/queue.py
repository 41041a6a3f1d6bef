"""The events that wait for their function, and what becomes of them (Developer Guide, "How Lambda handles errors and
retries with asynchronous invocation")."""
import asyncio
import contextlib
from collections import deque
from typing import Callable, Deque, Dict, List, Mapping, Optional, Set, Union

from ..clock.followed import Clock, Timer
from ..configuration import Members
from ..exchange.client import Client, Unreachable
from ..exchange.connection import Unanswered
from ..outgoing import Log
from .asynchronous import Asynchronous, Receiver, Remote
from .errors import is_stop
from .events import Event, Identifiers, message_in, target_of
from .http import Headers, first
from .outbox import Outbox, attributes_of

MOST_EVENTS, MOST_BYTES = 1000, 64 << 20  # that wait or run: payloads, and the results that records will have
FIRST_PAUSE, LONGEST_PAUSE = 0.05, 5.0  # seconds, after a throttle; each further one in a row doubles it
MOST_DEPTH = 16  # records that lead to one another, as a loop of functions does
MOST_OF_TOPIC = 256 << 10  # bytes of a record that a topic gets
SUCCESS = "Success"  # the condition of the record of an event that succeeded
LAST_SECONDS = 1  # for the answers of a service that has ended
GROWS_AFTER = 8  # successes in a row, until one more event of a function is tried at once


class Full(Exception):
    """The queue takes no event now."""


class Lane:
    """The events of one function. At most `limit` of them run at once: as many as there are environments, until a
    throttle shows that fewer can."""

    def __init__(self, environments: int) -> None:
        self.ready: Deque[Event] = deque()
        self.running = 0
        self.environments = self.limit = environments
        self.throttles = self.successes = 0
        self.pause: Union[Timer, asyncio.TimerHandle, None] = None

    def note_throttle(self) -> float:
        """Returns the seconds until the next attempt."""
        self.limit, self.successes = max(1, self.running), 0
        self.throttles += 1
        return min(LONGEST_PAUSE, FIRST_PAUSE * (1 << min(self.throttles - 1, 10)))

    def note_success(self) -> None:
        self.throttles, self.successes = 0, self.successes + 1
        if self.successes >= GROWS_AFTER and self.limit < self.environments:
            self.limit, self.successes = self.limit + 1, 0


class Queue:
    def __init__(self, client: Client, settings: Asynchronous, configuration: Members, identifiers: Identifiers,
                 log: Log, clock: Clock, of_functions: Mapping[str, Asynchronous] = {},
                 outbox: Optional[Outbox] = None) -> None:
        """Without an outbox nothing is sent to queues and topics."""
        self.client, self.settings, self.identifiers, self.log = client, settings, identifiers, log
        self.outbox = outbox
        self.clock = clock  # by which retries, pauses after throttles and the age of events are counted
        self.of_functions = of_functions  # those with settings of their own
        self.arn = f"arn:aws:lambda:{configuration['region']}:{configuration['account']}:function:"
        self.lanes = {function["name"]: Lane(len(function["ports"])) for function in configuration["functions"]}
        self.events: Dict[str, Event] = {}
        self.size = 0
        self.tasks: "Set[asyncio.Task[None]]" = set()
        self.is_closed = False

    @property
    def count(self) -> int:
        return len(self.events)

    @property
    def waiting(self) -> int:
        """How many events wait for an attempt to be due."""
        held = [len(lane.ready) for lane in self.lanes.values() if isinstance(lane.pause, Timer)]
        return sum(held) + sum(event.waits for event in list(self.events.values()))

    def age(self, event: Event) -> float:
        """Seconds since it was taken."""
        return (self.clock.now() - event.since) / 1000

    def later(self, seconds: float, call: Callable[[], None]) -> Timer:
        """Has this called by the loop after so long."""
        loop = asyncio.get_running_loop()

        def run() -> None:
            if not timer.is_cancelled:
                call()

        def due() -> None:
            with contextlib.suppress(RuntimeError):  # (the loop has ended)
                loop.call_soon_threadsafe(run)
        timer = self.clock.after(seconds, due)
        return timer

    def settings_of(self, event: Event) -> Asynchronous:
        return self.of_functions.get(event.function, self.settings)

    def put(self, event: Event) -> None:
        """Raises Full if there is no room."""
        if self.count >= MOST_EVENTS or self.size + event.size > MOST_BYTES:
            raise Full
        self.events[event.identifier] = event
        self.size += event.size
        self.enqueue(event)

    def keep_result(self, event: Event, result: bytes, has_failed: bool) -> None:
        """Keeps what a function returned or reported for the record, if there will be one, and room for it."""
        self.drop_result(event)
        event.has_failed, event.has_returned = has_failed, not has_failed
        if not self.takers(event, "" if has_failed else SUCCESS):
            return
        if self.size + len(result) > MOST_BYTES:
            return self.say(event, f"has a result of {len(result)} bytes, which its record will not have: "
                                   f"{self.size} bytes are held", "warning", "result")
        event.result = result
        self.size += len(result)

    def drop_result(self, event: Event) -> None:
        self.size -= len(event.result or b"")
        event.result, event.has_failed, event.has_returned = None, False, False

    def takers(self, event: Event, condition: str) -> List[Receiver]:
        """Who gets its record. (A function that is a destination gets none of its own.)"""
        settings = self.settings_of(event)
        found = settings.on_success if condition == SUCCESS else settings.on_failure
        is_elsewhere = isinstance(found, Remote)
        is_there = self.outbox is not None if is_elsewhere else found and found != event.function
        return [found] if found and is_there else []

    def dead_letter_of(self, event: Event, condition: str) -> Optional[Remote]:
        return self.settings_of(event).dead_letter if self.outbox and condition != SUCCESS else None

    def enqueue(self, event: Event, at_the_front: bool = False) -> None:
        lane = self.lanes[event.function]
        (lane.ready.appendleft if at_the_front else lane.ready.append)(event)
        self.go_on(lane)

    def go_on(self, lane: Lane) -> None:
        """Begins as many attempts as can be."""
        while lane.ready and lane.running < lane.limit and lane.pause is None and not self.is_closed:
            lane.running += 1
            task = asyncio.get_running_loop().create_task(self.attempt(lane, lane.ready.popleft()))
            self.tasks.add(task)
            task.add_done_callback(self.tasks.discard)

    def hold(self, lane: Lane, seconds: float, by_service: bool) -> None:
        """No attempt is begun for so long, by the service's clock or by the machine's, or until one that runs has
        ended."""
        if lane.pause:
            lane.pause.cancel()
        lane.pause = self.later(seconds, lambda: self.release(lane)) if by_service else (
            asyncio.get_running_loop().call_later(seconds, self.release, lane))

    def release(self, lane: Lane) -> None:
        if lane.pause:
            lane.pause.cancel()
        lane.pause = None
        self.go_on(lane)

    # ---- an attempt --------------------------------------------------------------------------------------------------

    async def attempt(self, lane: Lane, event: Event) -> None:
        if self.age(event) > (oldest := self.settings_of(event).oldest):
            lane.running -= 1
            self.give_up(event, "EventAgeExceeded", f"is older than {oldest:g} s")
            return self.go_on(lane)
        event.is_running = True
        try:
            status, headers, body = await self.client.ask("POST", event.target, event.headers, event.payload,
                                                          event.attempts + event.throttles > 0)
        except Unreachable:
            lane.running, event.is_running = lane.running - 1, False
            return self.postpone(lane, event, "cannot be sent, since the service takes no connection")
        except Unanswered:
            status, headers, body = None, [], b""
        except Exception as fault:  # (of the front's own)
            self.say(event, f"could not be sent: {fault!r}", "error", "fault")
            status, headers, body = None, [], b""
        lane.running, event.is_running = lane.running - 1, False
        if status == 500 and is_stop(body):
            return  # (what is left is reported at the end)
        if status == 429:
            return self.postpone(lane, event)
        if status is not None and status >= 500:  # (which may come after the function has run)
            return self.postpone(lane, event, "has no outcome, since the service answers "
                                              f"{status} {body[:200].decode(errors='replace')}")
        lane.note_success()
        self.settle(event, status, headers, body)
        self.release(lane)

    def postpone(self, lane: Lane, event: Event, why: Optional[str] = None) -> None:
        """After a throttle or a fault of the service, which is reported: the attempt does not count."""
        pause = lane.note_throttle()
        if why:
            self.say(event, f"{why}: again after {pause:g} s", "warning", "fault")
        event.throttles += 1
        lane.ready.appendleft(event)
        self.hold(lane, pause, by_service=why is None)

    def settle(self, event: Event, status: Optional[int], headers: Headers, body: bytes) -> None:
        event.attempts += 1
        invocation = first(headers, "x-amzn-requestid")
        if status is None:
            self.drop_result(event)
            event.error = 500, "The connection to the service broke off."
            self.retry(event, "has no outcome, since the service broke its connection off")
        elif status != 200:
            self.say(event, f"is refused: {status} {body.decode(errors='replace')[:200]}", "error", "refused",
                     invocation)
            self.forget(event)
        elif first(headers, "x-amz-function-error") is None:
            self.keep_result(event, body, has_failed=False)
            self.say(event, f"ok after {1000 * self.age(event):.0f} ms"
                     + (f", attempt {event.attempts}" if event.attempts > 1 else "") + self.leads_to(event, SUCCESS),
                     "ok", "ok", invocation)
            self.pass_on(event, SUCCESS)
        else:
            self.keep_result(event, body, has_failed=True)
            event.error = 200, message_in(body)
            self.retry(event, "failed", invocation)

    def retry(self, event: Event, what: str, invocation: Optional[str] = None) -> None:
        settings = self.settings_of(event)
        if event.attempts > settings.retries:
            return self.give_up(event, "RetriesExhausted", f"{what}, attempt {event.attempts} of {event.attempts}",
                                invocation)
        delay = settings.delay(event.attempts)
        self.say(event, f"{what}, attempt {event.attempts} of {settings.retries + 1}: again after {delay:g} s",
                 "warning", "retry", invocation)
        event.waits = True
        self.later(delay, lambda: self.try_again(event))

    def try_again(self, event: Event) -> None:
        event.waits = False
        self.enqueue(event)

    def give_up(self, event: Event, condition: str, why: str, invocation: Optional[str] = None) -> None:
        self.say(event, why + (self.leads_to(event, condition) or ": it is dropped"), "error", condition, invocation)
        self.pass_on(event, condition)

    def leads_to(self, event: Event, condition: str) -> str:
        """Where it goes now that it has ended, in words."""
        dead = self.dead_letter_of(event, condition)
        found = [f"its record goes to {one.name if isinstance(one, Remote) else one}"
                 for one in self.takers(event, condition)] + ([f"its payload goes to {dead.name}"] if dead else [])
        return ": " + " and ".join(found) if found else ""

    def pass_on(self, event: Event, condition: str) -> None:
        """What has ended goes to its destinations: to a function as an event that takes its place, to a queue or a
        topic from the place that it holds until it has been sent."""
        takers, dead = self.takers(event, condition), self.dead_letter_of(event, condition)
        remotes = [one for one in takers if isinstance(one, Remote)]
        if not dead and not remotes:
            self.forget(event)
        for function in takers:
            if isinstance(function, str):
                self.put_record(event, condition, function)
        if dead or remotes:
            task = asyncio.get_running_loop().create_task(self.send(event, condition, remotes, dead))
            self.tasks.add(task)
            task.add_done_callback(self.tasks.discard)

    def put_record(self, event: Event, condition: str, destination: str) -> None:
        if event.depth >= MOST_DEPTH:
            return self.say(event, f"has no record for {destination}: {MOST_DEPTH} records led to it, each the event "
                                   "of the next", "error", "lost")
        try:
            record = self.record_of(event, condition)
            self.put(Event(self.identifiers.next(destination), destination, target_of(destination), [], record,
                           self.clock.now(), event.depth + 1))
        except Full:
            self.say(event, f"has no record, for which there is no room: {self.size} bytes are held", "error", "lost")

    def record_of(self, event: Event, condition: str, most: Optional[int] = None) -> bytes:
        """Its record; without the result, if there is no room for both."""
        arn = f"{self.arn}{event.function}:$LATEST"
        record = event.record(condition, arn, self.clock.now())
        if event.result is not None and (self.size + len(record) > MOST_BYTES or len(record) > (most or len(record))):
            self.size -= len(event.result) if event.identifier in self.events else 0
            event.result = None
            record = event.record(condition, arn, self.clock.now())
        return record

    async def send(self, event: Event, condition: str, remotes: List[Remote], dead: Optional[Remote]) -> None:
        """Sends its record, and its payload as a dead letter."""
        assert self.outbox is not None
        event.is_sent = True
        records = [self.record_of(event, condition, MOST_OF_TOPIC if remote.service == "sns" else None)
                   for remote in remotes]
        held = sum(map(len, records))
        self.size += held
        try:
            for remote, record in zip(remotes, records):
                why = await self.outbox.send(remote, record.decode(errors="replace"), {})
                self.tell_of(event, "record", remote, why)
            if dead:
                payload, attributes = event.payload.decode(errors="replace"), attributes_of(event.attributes())
                self.tell_of(event, "payload", dead, await self.outbox.send(dead, payload, attributes))
        finally:
            self.size -= held
        self.forget(event)

    def tell_of(self, event: Event, what: str, remote: Remote, why: Optional[str]) -> None:
        """What could not be sent."""
        if why is not None:
            self.say(event, f"could not send its {what} to {remote.name}: {why}: it is lost", "error", "lost")

    def forget(self, event: Event) -> None:
        if self.events.pop(event.identifier, None):
            self.size -= event.size

    def say(self, event: Event, text: str, level: str, status: str, invocation: Optional[str] = None) -> None:
        self.log(event.function, f"event {event.identifier} {text}", level=level, kind="event", function=event.function,
                 request=event.identifier, status=status, attempts=event.attempts, age_ms=round(1000 * self.age(event)),
                 invocation=invocation)

    # ---- the end -----------------------------------------------------------------------------------------------------

    async def drain(self, seconds: float) -> None:
        """Waits until no event is left, at most so long."""
        with contextlib.suppress(asyncio.TimeoutError):
            await asyncio.wait_for(self._until_empty(), seconds)

    async def _until_empty(self) -> None:
        while self.events:
            await asyncio.sleep(0.01)

    async def close(self) -> None:
        """Once the service has ended: takes the outcomes of attempts that still come, and reports what is lost."""
        self.is_closed = True
        if self.tasks:
            await asyncio.wait(self.tasks, timeout=LAST_SECONDS)
        for task in self.tasks:
            task.cancel()
        await asyncio.gather(*self.tasks, return_exceptions=True)
        for event in self.events.values():
            running = f", while attempt {event.attempts + 1} runs" if event.is_running else (
                ", before it was sent on" if event.is_sent else "")
            self.say(event, f"is lost by the stop, after {event.attempts} attempts{running}", "error", "lost")
