"""What happens in one environment, as events of the Telemetry API. What it is told comes from requests and answers that
pass, and from what lambda_local up does with the processes; their meaning and order are those of docs/semantics.md."""
import math
import time
from typing import Any, Callable, Dict, List, NamedTuple, Optional, Tuple

from .schema import Event, Record, milliseconds, timestamp

ON_DEMAND = "on-demand"
SUCCESS, ERROR, FAILURE, TIMEOUT = "success", "error", "failure", "timeout"
TRACE = "X-Amzn-Trace-Id"
TOO_LARGE = "Function.ResponseSizeTooLarge"


class Moment(NamedTuple):
    time: float  # seconds since 1970
    at: float  # by the monotonic clock


def now() -> Moment:
    return Moment(time.time(), time.monotonic())


class About(NamedTuple):
    """What the events say of a function."""
    name: str
    memory: int  # MB
    instance: str
    has_json_lines: bool = False
    expected: Tuple[str, ...] = ()  # the extensions whose registration its Init waits for


class Extension:
    def __init__(self, name: str, events: List[str]):
        self.name, self.events, self.state = name, events, "Registered"
        self.error: Optional[str] = None
        self.polls = 0  # that wait


class Invocation:
    def __init__(self, identifier: str, trace: Optional[str], begun: Moment):
        self.identifier, self.trace, self.begun = identifier, trace, begun
        self.responds: Optional[Moment] = None  # its first byte
        self.responded: Optional[Moment] = None
        self.size = 0  # bytes of its response
        self.status: Optional[str] = None  # once it is answered
        self.error: Optional[str] = None
        self.done: Optional[Moment] = None  # when its runtime asked again

    @property
    def tracing(self) -> Record:
        if self.trace is None:
            return {}
        parts = dict(part.split("=", 1) for part in self.trace.split(";") if "=" in part)
        span = {"spanId": parts["Parent"]} if "Parent" in parts else {}
        return {"tracing": {**span, "type": TRACE, "value": self.trace}}


def span(name: str, begun: Moment, ended: Moment) -> Record:
    return {"name": name, "start": timestamp(begun.time), "durationMs": milliseconds(ended.at - begun.at)}


class Story:
    """One generation of an environment. `tell` takes its events in order; `memory` gives the most that its
    processes have used, in bytes, if it is known."""

    def __init__(self, about: About, tell: Callable[[Event], None], memory: Callable[[], Optional[int]] = lambda: None,
                 clock: Callable[[], Moment] = now):
        self.about, self.tell, self.memory, self.clock = about, tell, memory, clock
        self.extensions: Dict[str, Extension] = {}  # by identifier
        self.begun = clock()
        self.runtime_polls = 0  # that wait
        self.is_runtime_ready = self.is_ready = self.is_over = False  # its runtime's Init, the Init, all of it
        self.init_seconds: Optional[float] = None  # until the first report says it
        self.invocation: Optional[Invocation] = None
        self.failure: Optional[str] = None  # the type of what ends it
        self.last = self.begun.time
        self._say("platform.initStart", {
            "initializationType": ON_DEMAND, "phase": "init", "functionName": about.name,
            "functionVersion": "$LATEST", "instanceId": about.instance, "instanceMaxMemory": about.memory})

    def _say(self, kind: str, record: Any, moment: Optional[Moment] = None) -> None:
        """The times of events never go back, whatever the machine's clock does."""
        self.last = max(self.last, (moment or self.clock()).time)
        self.tell(Event(self.last, kind, record))

    def line(self, kind: str, text: str) -> None:
        """One that the function or an extension has printed."""
        self._say(kind, text)

    # ---- extensions --------------------------------------------------------------------------------------------------

    def registers(self, identifier: str, name: str, events: List[str]) -> None:
        self.extensions[identifier] = Extension(name, events)

    def subscribes(self, identifier: str, types: List[str], is_of_logs: bool) -> None:
        self._say("platform.telemetrySubscription",
                  {"name": self.extensions[identifier].name, "state": "Subscribed", "types": types})

    def extension_asks(self, identifier: str) -> None:
        if identifier in self.extensions:
            self.extensions[identifier].polls += 1
            self._settle()

    def extension_answered(self, identifier: str) -> None:
        """Its poll waits no more."""
        if identifier in self.extensions:
            self.extensions[identifier].polls -= 1

    def extension_fails(self, identifier: str, state: str, kind: str) -> None:
        """By its own report, of a failed init or of its exit."""
        if identifier in self.extensions:
            self.extensions[identifier].state, self.extensions[identifier].error = state, kind
        self.fails(kind)

    # ---- the runtime -------------------------------------------------------------------------------------------------

    def runtime_asks(self) -> None:
        self.runtime_polls += 1
        if not self.is_runtime_ready:
            self._runtime_ready(SUCCESS)
        invocation = self.invocation
        if invocation and invocation.status and not invocation.done:
            self._runtime_done(invocation, invocation.status)
        self._settle()

    def runtime_answered(self) -> None:
        """Its poll waits no more."""
        self.runtime_polls -= 1

    def delivered(self, identifier: str, trace: Optional[str]) -> None:
        """Its poll is answered with an invocation. (Whatever was not seen to end has ended before.)"""
        if not self.is_runtime_ready:
            self._runtime_ready(SUCCESS)
        self._end_init(SUCCESS)
        self._finish(SUCCESS)
        self.invocation = Invocation(identifier, trace, self.clock())
        self._say("platform.start", {"requestId": identifier, "version": "$LATEST", **self.invocation.tracing},
                  self.invocation.begun)

    def open(self, identifier: str) -> Optional[Invocation]:
        """The invocation of this name if it has no answer."""
        invocation = self.invocation
        return invocation if invocation and invocation.identifier == identifier and not invocation.status else None

    def responds(self, identifier: str) -> None:
        """The first byte of its response has come."""
        invocation = self.open(identifier)
        if invocation:
            invocation.responds = invocation.responds or self.clock()

    def answered(self, identifier: str, status: str, kind: Optional[str], size: int) -> None:
        """The service has taken its response, or its error."""
        invocation = self.open(identifier)
        if invocation:
            invocation.responds = invocation.responds or self.clock()
            invocation.responded, invocation.status = self.clock(), status
            invocation.error, invocation.size = kind, size

    def init_fails(self, kind: str) -> None:
        """By the runtime's own report."""
        if not self.is_ready:
            self.failure = self.failure or kind
            if not self.is_runtime_ready:
                self._runtime_ready(ERROR, kind)

    # ---- the end -----------------------------------------------------------------------------------------------------

    def fails(self, kind: str) -> None:
        """A process has ended, or an extension has failed: all closes."""
        self.failure = self.failure or kind

    def closes(self, reason: str) -> None:
        """`reason` is SPINDOWN, TIMEOUT or FAILURE."""
        if self.is_over:
            return
        self.is_over = True
        status = TIMEOUT if reason == "TIMEOUT" else FAILURE
        if not self.is_ready:
            if not self.is_runtime_ready:
                self._runtime_ready(status, self.failure)
            self._end_init(ERROR if status == FAILURE and self.failure else status)
        self._finish(status)

    def _finish(self, status: str) -> None:
        """What of an invocation has not been told; its status if it has none of its own."""
        invocation = self.invocation
        if invocation is None:
            return
        if not invocation.done:
            if status == FAILURE and not invocation.status:
                invocation.error = self.failure
                self._say("platform.fault", {"text": f"RequestId: {invocation.identifier} Process exited before "
                                                     "completing request"})
            is_cut = status == TIMEOUT or not invocation.status
            self._runtime_done(invocation, status if is_cut else str(invocation.status))
        elif status == TIMEOUT:  # (of its extensions)
            invocation.status = TIMEOUT
        self._report(invocation)

    # ---- what is said ------------------------------------------------------------------------------------------------

    def _settle(self) -> None:
        """If all have asked for work, the Init or the invocation is over."""
        names = {extension.name for extension in self.extensions.values()}
        if (self.is_over or self.runtime_polls <= 0 or any(each.polls <= 0 for each in self.extensions.values())
                or not names.issuperset(self.about.expected)):
            return
        self._end_init(SUCCESS)
        if self.invocation and self.invocation.done:
            self._report(self.invocation)

    def _runtime_ready(self, status: str, kind: Optional[str] = None) -> None:
        self.is_runtime_ready = True
        self._say("platform.initRuntimeDone", {"initializationType": ON_DEMAND, "phase": "init", "status": status,
                                               **({"errorType": kind} if kind else {})})

    def _end_init(self, status: str) -> None:
        if self.is_ready:
            return
        self.is_ready = True
        moment = self.clock()
        self.init_seconds = moment.at - self.begun.at
        for extension in self.extensions.values():
            state = "Ready" if extension.polls > 0 and extension.error is None else extension.state
            self._say("platform.extension", {"name": extension.name, "state": state, "events": extension.events,
                                             **({"errorType": extension.error} if extension.error else {})}, moment)
        self._say("platform.initReport", {
            "initializationType": ON_DEMAND, "phase": "init", "status": status,
            "metrics": {"durationMs": milliseconds(self.init_seconds)},
            **({"errorType": self.failure} if self.failure and status != SUCCESS else {})}, moment)

    def _runtime_done(self, invocation: Invocation, status: str) -> None:
        invocation.done, invocation.status = self.clock(), status
        spans = []
        if invocation.responds:
            spans.append(span("responseLatency", invocation.begun, invocation.responds))
        if invocation.responds and invocation.responded:
            spans.append(span("responseDuration", invocation.responds, invocation.responded))
            spans.append(span("runtimeOverhead", invocation.responded, invocation.done))
        self._say("platform.runtimeDone", {
            "requestId": invocation.identifier, "status": status, **self._error_of(invocation), **invocation.tracing,
            "spans": spans, "metrics": {"durationMs": milliseconds(invocation.done.at - invocation.begun.at),
                                        "producedBytes": invocation.size}}, invocation.done)
        self._say("platform.end", {"requestId": invocation.identifier}, invocation.done)

    @staticmethod
    def _error_of(invocation: Invocation) -> Record:
        return {"errorType": invocation.error} if invocation.error else {}

    def _report(self, invocation: Invocation) -> None:
        """Once its extensions have asked again as well."""
        self.invocation = None
        moment, done = self.clock(), invocation.done or invocation.begun
        duration = milliseconds(moment.at - invocation.begun.at)
        billed = math.ceil(duration + milliseconds(self.init_seconds or 0.0))  # (since August 2025 with the Init)
        metrics: Record = {"durationMs": duration, "billedDurationMs": billed, "memorySizeMB": self.about.memory}
        used = self.memory()
        if used is not None:
            metrics["maxMemoryUsedMB"] = math.ceil(used / (1 << 20))
        if self.init_seconds is not None:
            metrics["initDurationMs"] = milliseconds(self.init_seconds)
            self.init_seconds = None
        spans = [span("extensionOverhead", done, moment)] if self.extensions else []
        self._say("platform.report", {
            "requestId": invocation.identifier, "status": invocation.status, **self._error_of(invocation),
            **invocation.tracing, "spans": spans, "metrics": metrics}, moment)
