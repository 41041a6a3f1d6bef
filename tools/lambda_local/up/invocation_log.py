"""The log of an invocation as Lambda writes it: its lines between START, END and REPORT (Developer Guide, "Sending
Lambda function logs to CloudWatch Logs"), and the last 4 KB of that, which Invoke answers with the log type Tail (API
reference, "Invoke")."""
import base64
import json
import math
from collections import OrderedDict
from datetime import datetime, timezone
from typing import Any, Callable, Dict, Iterator, List, Mapping, NamedTuple, Optional, Protocol, Sequence

from ..history.words import Word
from ..life import Ended, Event
from ..json_reader import members_of
from ..reports import text_of
from .invocation_lines import Line, Printed, Settled

MOST_TAIL = 4096  # bytes
MOST_REMEMBERED = 1024  # invocations that have ended
LONGEST_SECONDS = 30.0  # until the end of one is here that was answered
OF_PROCESSES = ("Runtime.ExitError", "Extension.Crash")  # errors that no handler has raised
MB = 1 << 20
OF_ENDINGS = {Word.INIT_TIMEOUT: "Init.Timeout", Word.TOO_LARGE_OUTPUT: "Function.ResponseSizeTooLarge"}  # errors
STATUSES = {Word.OUTPUT: "success", Word.TIMEOUT: "timeout", Word.INIT_TIMEOUT: "timeout"}  # of a report


class Function(Protocol):
    """What is asked of a function of UP.json."""
    name: str
    memory: int
    part: Dict[str, Any]


class Figures(NamedTuple):
    """What a REPORT line says, in milliseconds and MB."""
    identifier: str
    duration: float
    memory: int
    peak: Optional[int]  # none if its processes are not of lambda_local up, or none was there to be measured
    init: Optional[float]  # of the first invocation of an environment, if lambda_local up has started it
    status: str  # "success", "error" or "timeout"
    error: str  # the type of an error that no handler has raised

    @property
    def billed(self) -> int:
        """Each millisecond that has begun, since August 2025 with those of the Init."""
        return max(1, math.ceil(self.duration + (self.init or 0)))

    @property
    def members(self) -> Dict[str, object]:
        """For a line in JSON."""
        found = {"request": self.identifier, "duration_ms": self.duration, "billed_ms": self.billed,
                 "memory_mb": self.memory, "max_memory_mb": self.peak, "init_ms": self.init, "status": self.status,
                 "errorType": self.error or None}
        return {name: value for name, value in found.items() if value is not None}


def start_line(identifier: str) -> str:
    return f"START RequestId: {identifier} Version: $LATEST"


def end_line(identifier: str) -> str:
    return f"END RequestId: {identifier}"


def report_line(figures: Figures) -> str:
    parts = [f"REPORT RequestId: {figures.identifier}", f"Duration: {figures.duration:.2f} ms",
             f"Billed Duration: {figures.billed} ms", f"Memory Size: {figures.memory} MB"]
    if figures.peak is not None:
        parts.append(f"Max Memory Used: {figures.peak} MB")
    if figures.init is not None:
        parts.append(f"Init Duration: {figures.init:.2f} ms")
    if figures.status == "timeout" or figures.error:
        parts.append(f"Status: {figures.status}")
    if figures.error:
        parts.append(f"Error Type: {figures.error}")
    return "\t".join(parts) + "\t"


def moment_of(milliseconds: float) -> str:
    found = datetime.fromtimestamp(milliseconds / 1000, timezone.utc)
    return found.isoformat(timespec="milliseconds").replace("+00:00", "Z")


class Invocations:
    """What a watch has seen of the invocations, and what their environments' processes print, by the number of the
    environment."""

    def __init__(self, functions: Mapping[str, Function], printed: Mapping[int, Printed],
                 numbers: Mapping[str, Sequence[int]]):
        self.functions, self.printed = functions, printed
        self.numbers = numbers  # of the environments of each function
        self.ended: "OrderedDict[str, Ended]" = OrderedDict()  # (without outputs and reports: see `remembered`)

    def take(self, event: Event) -> None:
        """From a watch, event by event."""
        if isinstance(event, Ended):
            self.ended[event.invocation.identifier] = event if event.body is None else remembered(event)
            if len(self.ended) > MOST_REMEMBERED:
                self.ended.popitem(last=False)

    def measure(self, number: int, is_ready: bool) -> None:
        """Notes the memory of an environment whose Init goes on, or was over just now: so that of one that exits in its
        first invocation is known."""
        start = self.printed[number].starts[-1] if self.printed[number].starts else None
        if start and not start.is_measured:
            self.printed[number].measure()
            start.is_measured = is_ready

    def settle(self, function: str) -> Dict[int, Settled]:
        """Takes all that the processes of a function have written by now, by environment."""
        return {number: self.printed[number].settle() for number in self.numbers.get(function, ())}

    def of_environment(self, event: Ended) -> Optional[Printed]:
        return self.printed.get(event.environment.number) if event.environment else None

    def lines_of(self, event: Ended, until: Mapping[int, Settled]) -> List[Line]:
        """The lines of an invocation that has ended, of those that were taken until then."""
        printed = self.of_environment(event)
        if printed is None or event.environment is None:
            return []
        return printed.of_invocation(event.invocation.identifier, until.get(event.environment.number))

    def figures_of(self, event: Ended) -> Figures:
        invocation, printed = event.invocation, self.of_environment(event)
        begin = invocation.moment if invocation.delivered is None else invocation.delivered
        start = printed.start_before(event.moment) if printed else None
        init = None
        if invocation.asked is not None and start:
            init = max(0.0, invocation.asked - start.moment)
        status = STATUSES.get(event.kind, "error")
        return Figures(invocation.identifier, float(event.moment - begin),
                       self.functions[invocation.function].memory,
                       math.ceil(start.peak / MB) if start and start.peak else None, init, status, error_of(event))

    def failure_of(self, event: Ended) -> List[str]:
        """What Lambda itself says of an invocation that its function did not answer."""
        identifier = event.invocation.identifier
        if event.kind is Word.TIMEOUT:
            seconds = self.functions[event.invocation.function].part.get("timeout", 3)
            return [f"{moment_of(event.moment)} {identifier} Task timed out after {seconds:.2f} seconds"]
        if event.kind is Word.ERROR and (kind := error_of(event)):
            message = text_of((members_of(event.body or b"") or {}).get("errorMessage"))
            return [f"RequestId: {identifier} Error: {message or kind}", kind]
        return []


def error_of(event: Ended) -> str:
    """The type of an error that no handler has raised, as the caller gets it; empty if there is none."""
    if event.kind is not Word.ERROR:
        return OF_ENDINGS.get(event.kind, "")
    kind = text_of((members_of(event.body or b"") or {}).get("errorType"))
    return kind if event.invocation.delivered is None or kind in OF_PROCESSES else ""


def remembered(event: Ended) -> Ended:
    """An event with no more of its body than the end of its log may have: of an error that no handler has raised, the
    ends of its type and its message."""
    kind = error_of(event)
    if event.kind is not Word.ERROR or not kind:
        return event._replace(body=None)
    message = text_of((members_of(event.body or b"") or {}).get("errorMessage"))
    said = {"errorType": kind[-MOST_TAIL:], "errorMessage": message[-MOST_TAIL:]}
    return event._replace(body=json.dumps(said).encode())


class Watching(Protocol):
    async def comes(self, holds: Callable[[], bool], seconds: float) -> None:
        """Waits until this holds, at most so long, and not while the service does not answer. It is asked after each
        entry."""


class Dividing(Protocol):
    """Has what a function's environments print divided."""

    def is_divided(self, function: str) -> bool:
        """Whether it is."""

    async def prepare(self, function: str) -> None:
        """Waits until it is."""


class Tails:
    """What Invoke answers with the log type Tail."""

    def __init__(self, invocations: Invocations, watch: Watching, dividing: Dividing):
        self.invocations, self.watch = invocations, watch
        self.is_prepared, self.prepare = dividing.is_divided, dividing.prepare

    async def result_of(self, function: str, identifier: str) -> Optional[str]:
        """The log result of an invocation that was answered just now; none if nothing is known of it."""
        invocations = self.invocations
        until = invocations.settle(function)
        await self.watch.comes(lambda: identifier in invocations.ended, LONGEST_SECONDS)
        event = invocations.ended.get(identifier)
        if event is None:
            return None
        printed = invocations.of_environment(event)
        if printed:
            printed.measure()
        return encoded(self.whole(event, [line.text for line in invocations.lines_of(event, until)]))

    def whole(self, event: Ended, lines: List[str]) -> Iterator[str]:
        identifier = event.invocation.identifier
        yield start_line(identifier)
        yield from lines
        yield from self.invocations.failure_of(event)
        yield end_line(identifier)
        yield report_line(self.invocations.figures_of(event))


def encoded(lines: Iterator[str]) -> str:
    """The last 4 KB of these lines in Base64, from a whole character on."""
    text = "".join(f"{line}\n" for line in lines).encode(errors="backslashreplace")
    return base64.b64encode(text[-MOST_TAIL:].decode(errors="ignore").encode()).decode()
