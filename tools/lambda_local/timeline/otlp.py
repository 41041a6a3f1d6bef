"""The traces of OpenTelemetry, as OTLP/JSON: a span for each invocation, each Init and each shutdown
(https://opentelemetry.io/docs/specs/otlp/#json-protobuf-encoding)."""
import hashlib
import json
import re
from typing import Callable, Dict, List, Mapping, NamedTuple, Optional, Union

from ..history.opening import Configuration
from ..history.words import INVOKE
from .call import FAILED, Call, outcome
from .sink import Lasting, Sink
from .world import World

Json = Dict[str, object]
Value = Union[str, int, bool, None]
INTERNAL, SERVER = 1, 2  # the kinds of spans (enumerations are numbers)
FAILED_STATUS = 2
AT_ONCE = 1000  # spans of a function in one list: no more are in memory
# The header of a caller: its parts in any order (X-Ray, "Tracing header").
ROOT = re.compile(r"(?:^|;)\s*Root=1-([0-9a-fA-F]{8})-([0-9a-fA-F]{24})(?=\s*(?:;|$))")
PARENT = re.compile(r"(?:^|;)\s*Parent=([0-9a-fA-F]{16})(?=\s*(?:;|$))")


class Place(NamedTuple):
    """Where a span is: both identifiers are hexadecimal and not only zeros."""
    trace: str
    span: str
    parent: Optional[str] = None


def not_zero(identifier: str) -> Optional[str]:
    return identifier.lower() if identifier.strip("0") else None


def place_of(call: Call) -> Place:
    """The place of an invocation's span: in the caller's trace, if it sent one; else in one of its own."""
    own = (call.request or "").replace("-", "")
    header = call.trace or ""
    root, parent = ROOT.search(header), PARENT.search(header)
    trace = not_zero(root[1] + root[2]) if root else None
    return Place(trace or own, own[16:], not_zero(parent[1]) if trace and parent else None)


def identifier_of(size: int, *parts: object) -> str:
    """An identifier of this many bytes that is the same whenever the same history is drawn."""
    return hashlib.blake2b("/".join(map(str, parts)).encode(), digest_size=size).hexdigest()


def attributes(members: Mapping[str, Value]) -> List[Json]:
    """Attributes; one without a value is left out."""
    return [{"key": key, "value": value_of(value)} for key, value in members.items() if value is not None]


def value_of(value: Value) -> Json:
    """A value by its type: whole numbers have 64 bits, and so are decimal strings."""
    if isinstance(value, bool):
        return {"boolValue": value}
    return {"intValue": str(value)} if isinstance(value, int) else {"stringValue": value}


def span(place: Place, name: str, kind: int, begin: int, end: int, members: Mapping[str, Value],
         failure: Optional[str]) -> Json:
    """A span between two moments in milliseconds, with what failed."""
    made: Json = {"traceId": place.trace, "spanId": place.span, "name": name, "kind": kind,
                  "startTimeUnixNano": str(begin * 1_000_000), "endTimeUnixNano": str(end * 1_000_000),
                  "attributes": attributes(members)}
    if place.parent:
        made["parentSpanId"] = place.parent
    if failure is not None:
        made["status"] = {"code": FAILED_STATUS, "message": failure}
    return made


class Otlp(Sink):
    """Writes one export request. Several of its lists may be of one function."""

    def __init__(self, configuration: Configuration, write: Callable[[str], object]) -> None:
        self.configuration, self.write = configuration, write
        self.spans: Dict[int, List[Json]] = {}  # by function
        self.places: Dict[int, Place] = {}  # of the invocations that are not answered, by ticket
        self.over: List[int] = []  # the tickets of those that the present entry answers
        self.between = '{"resourceSpans":[\n'

    def taken(self, call: Call, own: object) -> None:
        """(An Init may end before the invocation that waits for it.)"""
        if call.kind == INVOKE and own is None:
            self.places[call.ticket] = place_of(call)

    def add(self, function: Optional[int], made: Json) -> None:
        if function is None:
            return
        spans = self.spans.setdefault(function, [])
        spans.append(made)
        if len(spans) >= AT_ONCE:
            self.flush(function)

    def flush(self, function: int) -> None:
        name = self.configuration.names[function]
        resource = {"attributes": attributes({"service.name": name, "faas.name": name})}
        scope = {"scope": {"name": "lambda_local"}, "spans": self.spans.pop(function)}
        self.write(self.between + json.dumps({"resource": resource, "scopeSpans": [scope]}, separators=(",", ":")))
        self.between = ",\n"

    def invocation(self, call: Call, end: int) -> None:
        if call.kind == INVOKE:
            self.over.append(call.ticket)
            word = None if call.answer is None else str(call.answer.word)
            failure = (call.said or word) if outcome(call) in FAILED else None
            members: Dict[str, Value] = {"faas.invocation_id": call.request, "lambda_local.ticket": call.ticket,
                                         "lambda_local.environment": call.place, "lambda_local.answer": word}
            name = "invoke" if call.function is None else self.configuration.names[call.function]
            self.add(call.function, span(place_of(call), name, SERVER, call.moment, end, members, failure))

    def answered(self, call: Call) -> None:
        self.invocation(call, call.end)

    def still_open(self, call: Call, moment: int, entry: int) -> None:
        self.invocation(call, moment)

    def lasted(self, lasting: Lasting) -> None:
        function = self.configuration.owners[lasting.environment - 1]
        name = (self.configuration.salt, lasting.environment, lasting.generation, lasting.name)
        served = self.places.get(-1 if lasting.invocation is None else lasting.invocation)
        place = Place(served.trace if served else identifier_of(16, *name), identifier_of(8, *name),
                      served.span if served else None)
        members: Dict[str, Value] = {"lambda_local.environment": lasting.environment,
                                     "lambda_local.generation": lasting.generation,
                                     "lambda_local.reason": lasting.reason}
        failure = lasting.reason if lasting.failed else None
        self.add(function, span(place, lasting.name, INTERNAL, lasting.begin, lasting.end, members, failure))

    def entered(self, entry: int, moment: int) -> None:
        for ticket in self.over:
            self.places.pop(ticket, None)
        self.over = []

    def end(self, world: World) -> None:
        for function in sorted(self.spans):
            self.flush(function)
        self.write((self.between if self.between.startswith("{") else "\n") + "]}\n")
