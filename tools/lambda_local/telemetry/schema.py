"""Events in the words of AWS's schemas (Lambda Developer Guide, "Lambda Telemetry API Event schema reference", and
"Lambda Logs API", which has an older one)."""
import json
from datetime import datetime, timezone
from typing import Any, Dict, List, NamedTuple, Optional, Tuple

from ..json_reader import NotJson, read_json

Record = Dict[str, Any]
FIRST = "2022-07-01"  # of the Telemetry API
WITH_RUNTIME_DONE = "2021-03-18"  # the Logs API's second
LOGS_SCHEMAS = ("2020-08-15", WITH_RUNTIME_DONE)
# What came to the members of these events after the first schema.
LATER: Dict[str, Tuple[str, ...]] = {
    "platform.initStart": ("functionName", "functionVersion", "instanceId", "instanceMaxMemory"),
    "platform.initRuntimeDone": ("phase",)}
# What each event is called in the Logs API, and the members that it has there.
OF_LOGS: Dict[str, Tuple[str, Tuple[str, ...]]] = {
    "platform.start": ("platform.start", ("requestId", "version")),
    "platform.report": ("platform.report", ("requestId", "metrics")),
    "platform.extension": ("platform.extension", ("name", "state", "events", "errorType")),
    "platform.telemetrySubscription": ("platform.logsSubscription", ("name", "state", "types")),
    "platform.logsDropped": ("platform.logsDropped", ("reason", "droppedRecords", "droppedBytes")),
    "platform.end": ("platform.end", ("requestId",))}
OF_LOGS_ALONE = ("platform.end", "platform.fault")
OF_REPORT = ("durationMs", "billedDurationMs", "memorySizeMB", "maxMemoryUsedMB", "initDurationMs")


class Event(NamedTuple):
    """`record` is that of the newest schema; the text of a line."""
    time: float  # seconds since 1970
    type: str
    record: Any

    @property
    def category(self) -> str:
        """platform, function or extension."""
        return self.type.partition(".")[0]


def timestamp(seconds: float) -> str:
    """For example 2022-10-12T00:00:15.064Z."""
    moment = datetime.fromtimestamp(seconds, timezone.utc).isoformat(timespec="milliseconds")
    return moment.replace("+00:00", "Z")


def milliseconds(seconds: float) -> float:
    return round(1000 * max(0.0, seconds), 3)


def rendered(event: Event, schema: str, has_json_lines: bool = False) -> Optional[bytes]:
    """An event in one of the schemas, in JSON; none if that schema does not have it. `has_json_lines` says that the
    function logs JSON."""
    kind, record = event.type, event.record
    if event.category == "platform":
        fitting = of_logs(kind, record, schema) if schema in LOGS_SCHEMAS else of_telemetry(kind, record, schema)
        if fitting is None:
            return None
        kind, record = fitting
    elif has_json_lines and kind == "function" and schema not in (FIRST, *LOGS_SCHEMAS):
        record = object_in(record)
    told = {"time": timestamp(event.time), "type": kind, "record": record}
    return json.dumps(told, separators=(",", ":")).encode()


def object_in(line: str) -> Any:
    """A line of a log in JSON, as the object that it is; any other line is a text."""
    if not line.startswith("{"):
        return line
    try:
        value = read_json(line)
    except NotJson:
        return line
    return value if isinstance(value, dict) else line


def of_telemetry(kind: str, record: Record, schema: str) -> Optional[Tuple[str, Record]]:
    if kind in OF_LOGS_ALONE:
        return None
    later = LATER.get(kind, ()) if schema == FIRST else ()
    return kind, {name: value for name, value in record.items() if name not in later}


def of_logs(kind: str, record: Record, schema: str) -> Optional[Tuple[str, Any]]:
    if kind == "platform.fault":
        return kind, record["text"]
    if kind == "platform.runtimeDone" and schema == WITH_RUNTIME_DONE:
        return kind, {"requestId": record["requestId"], "status": of_status(record["status"])}
    if kind not in OF_LOGS:
        return None
    name, members = OF_LOGS[kind]
    kept = {member: record[member] for member in members if member in record}
    if kind == "platform.report":
        kept["metrics"] = {member: record["metrics"][member] for member in OF_REPORT if member in record["metrics"]}
    return name, kept


def of_status(status: str) -> str:
    """The Logs API knows success, failure and timeout."""
    return "failure" if status == "error" else status


def array_of(events: List[bytes]) -> bytes:
    """A batch over HTTP."""
    return b"[" + b",".join(events) + b"]"


def lines_of(events: List[bytes]) -> bytes:
    """A batch over TCP: a line for each event (NDJSON)."""
    return b"".join(event + b"\n" for event in events)
