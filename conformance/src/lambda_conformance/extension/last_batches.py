"""Telemetry at the end of an extension: until it is told to shut down, and from then on to its deadline."""
import itertools
import time
from typing import Any, Dict, Iterator, List, Optional

from .. import pages
from ..exchanges import Exchange
from ..kit import Scenario, scenarios_of
from .delivery import AT, Receiver, listening
from .scenarios import without_shutdown
from .stage import SHUTDOWN_SECONDS, ExtensionStage

SCENARIOS: List[Scenario] = []
scenario = scenarios_of(SCENARIOS)

PAUSE = 0.2  # seconds between two batches
ENDS = 0.3  # seconds in which one that has closed its receiver has ended
SPARED = 0.5  # seconds before its deadline in which none comes any more


def lines(words: str) -> Iterator[List[Dict[str, Any]]]:
    """Batches of a line each, no two of them the same."""
    return ([{"time": AT, "type": "function", "record": f"{words}, line {number}"}] for number in itertools.count(1))


@scenario(
    ("takes_until_shutdown", pages.TELEMETRY,
     "it takes what comes, also after an invocation, until it is told of its SHUTDOWN"),
    ("takes_in_shutdown", pages.EXTENSION_SHUTDOWN,
     "as long as it runs after its SHUTDOWN it takes what comes before its deadline: the telemetry of its last "
     "invocation; one that closes its receiver and runs on is a SHOULD, and one that has ended a NOTE"), lasts=3)
def batches_at_the_end(stage: ExtensionStage) -> None:
    found = listening(stage)
    if not found or without_shutdown(stage):
        return None
    if stage.registered_for("INVOKE"):
        stage.invoke(b"1")
        stage.idle()
    fault = found.fault_later(next(lines("before its SHUTDOWN")))
    stage.check("takes_until_shutdown", not fault, f"a batch before its SHUTDOWN {fault}")
    if fault:
        return stage.note("takes_in_shutdown", "not judged: it takes none before")
    stage.spin_down()
    return in_shutdown(stage, found, stage.event("SHUTDOWN"))


def in_shutdown(stage: ExtensionStage, found: Receiver, told: Exchange) -> None:
    process, end, taken = stage.environment.process, told.end + SHUTDOWN_SECONDS - SPARED, 0
    fault: Optional[str] = None
    for batch in lines("after its SHUTDOWN"):
        if process.ended or time.monotonic() > end:
            break
        fault = found.fault_later(batch)
        if fault:
            break
        taken += 1
        process.wait(PAUSE)
    if fault and not process.wait(ENDS):
        return stage.should("takes_in_shutdown", f"a batch after its SHUTDOWN {fault}, while it still runs")
    if not taken:
        return stage.note("takes_in_shutdown", "it had ended before one came")
    return stage.check("takes_in_shutdown", True, "", f"{taken} batches")
