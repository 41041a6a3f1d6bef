"""Batches of telemetry of each kind that Lambda sends, and one that it leaves open, to an extension that takes a plain
one."""
from typing import Any, Dict, List

from .. import pages
from ..kit import Scenario, scenarios_of
from .delivery import AT, goes_on, listening
from .stage import ExtensionStage

SCENARIOS: List[Scenario] = []
scenario = scenarios_of(SCENARIOS)

REQUEST = "6f7f0961-f834-4118-a7ed-80fe088b72a1"
ARN_OF_TRACE = {"type": "X-Amzn-Trace-Id", "value": "Root=1-621eadbc-7a9c91d57b6f0172bd60bdaf;Sampled=1"}
USED = {"durationMs": 101.51, "billedDurationMs": 102, "memorySizeMB": 512, "maxMemoryUsedMB": 33}
DROPPED = {"reason": "Consumer seems to have fallen behind as it has not acknowledged receipt of logs.",
           "droppedRecords": 123, "droppedBytes": 12_345}


def of(kind: str, record: Any) -> Dict[str, Any]:
    return {"time": AT, "type": kind, "record": record}


START = of("platform.start", {"requestId": REQUEST, "version": "$LATEST", "tracing": ARN_OF_TRACE})
DONE = of("platform.runtimeDone", {
    "requestId": REQUEST, "status": "success", "tracing": ARN_OF_TRACE,
    "spans": [{"name": "responseLatency", "start": AT, "durationMs": 23.02}],
    "metrics": {"durationMs": 100.5, "producedBytes": 42}})
REPORT = of("platform.report", {"requestId": REQUEST, "status": "success", "metrics": USED, "tracing": ARN_OF_TRACE})
START_OF_LOGS = of("platform.start", {"requestId": REQUEST, "version": "$LATEST"})
END_OF_LOGS = of("platform.end", {"requestId": REQUEST})
REPORT_OF_LOGS = of("platform.report", {"requestId": REQUEST, "metrics": USED})
LINE = of("function", f"[INFO] {REQUEST} a line\n")
# An invocation in three batches, in its order, by the schema of each of the two APIs.
INVOCATION = [[START, LINE], [DONE], [REPORT]]
INVOCATION_OF_LOGS = [[START_OF_LOGS, LINE], [END_OF_LOGS], [REPORT_OF_LOGS]]
OF_LOGS = {
    "the subscription and an extension": [
        of("platform.logsSubscription", {"name": "an.extension", "state": "Subscribed", "types": ["platform"]}),
        of("platform.extension", {"name": "an.extension", "state": "Ready", "events": ["INVOKE", "SHUTDOWN"]})],
    "an invocation with its end and its report": [START_OF_LOGS, LINE, END_OF_LOGS, REPORT_OF_LOGS],
    "a fault, whose record is a string": [of(
        "platform.fault", f"RequestId: {REQUEST} Process exited before completing request")],
    "an extension's line": [of("extension", "[an.extension] a line\n")],
}


@scenario(
    ("takes_again", pages.TELEMETRY,
     "it takes an invocation's batches in their order, and takes each again if it comes a second time, as after an "
     "answer that was lost, and goes on"))
def batches_again(stage: ExtensionStage) -> None:
    found = listening(stage)
    if not found:
        return None
    batches = INVOCATION_OF_LOGS if found.is_of_logs else INVOCATION
    numbers = range(len(batches))
    # (each again at once, and then all of them)
    for number, by in [*((number, by) for number in numbers for by in ("as it comes first", "which comes again")),
                       *((number, "which comes a third time") for number in numbers)]:
        fault = found.fault_later(batches[number])
        if fault:
            return stage.check("takes_again", False, f"batch {number + 1} of {len(batches)}, {by}, {fault}")
    return stage.check("takes_again", goes_on(stage), "it has ended after that", f"{3 * len(batches)} batches")


@scenario(
    ("takes_empty_batch", pages.TELEMETRY,
     "a batch without an event, which the page leaves open, does not end it, and is answered with 200: otherwise a "
     "NOTE"))
def empty_batch(stage: ExtensionStage) -> None:
    found = listening(stage)
    if not found:
        return None
    if found.is_over_tcp:
        return stage.note("takes_empty_batch", "over TCP a batch without an event is nothing")
    fault = found.fault_later([])
    if fault:
        return stage.note("takes_empty_batch", f"it {fault}")
    return stage.check("takes_empty_batch", goes_on(stage), "it has ended after that")


@scenario(
    ("takes_dropped", pages.TELEMETRY,
     "it takes platform.logsDropped, which has no request: alone, and between other events, and goes on"))
def dropped_events(stage: ExtensionStage) -> None:
    found = listening(stage)
    if not found:
        return None
    dropped, start = of("platform.logsDropped", DROPPED), START_OF_LOGS if found.is_of_logs else START
    for name, batch in (("alone", [dropped]), ("between other events", [start, dropped, LINE])):
        fault = found.fault_later(batch)
        if fault:
            return stage.check("takes_dropped", False, f"{name} it {fault}")
    return stage.check("takes_dropped", goes_on(stage), "it has ended after that", "2 batches")


@scenario(
    ("takes_logs", pages.LOGS,
     "if it subscribes to the Logs API, it takes each event of its older schema, and goes on; one that does not is a "
     "NOTE"))
def older_schema(stage: ExtensionStage) -> None:
    found = listening(stage)
    if not found:
        return None
    if not found.is_of_logs:
        return stage.note("takes_logs", "it subscribes to the Telemetry API")
    for name, batch in OF_LOGS.items():
        fault = found.fault_later(batch)
        if fault:
            return stage.check("takes_logs", False, f"a batch with {name}, {fault}")
    return stage.check("takes_logs", goes_on(stage), "it has ended after that", f"{len(OF_LOGS)} batches")
