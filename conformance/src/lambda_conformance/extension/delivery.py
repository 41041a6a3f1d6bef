"""What an extension makes of the telemetry that it has asked for: the kit sends it batches as Lambda does."""
import http.client
import json
import socket
import urllib.parse
from typing import TYPE_CHECKING, Any, Dict, List, NamedTuple, Optional

from .. import pages
from ..kit import NOTE, Scenario, scenarios_of

if TYPE_CHECKING:
    from .stage import ExtensionStage

SCENARIOS: List[Scenario] = []
scenario = scenarios_of(SCENARIOS)

HERE = "127.0.0.1"
ANSWERED_SECONDS = 5.0
AT = "2022-10-12T00:00:15.064Z"
START = {"time": AT, "type": "platform.start", "record": {"requestId": "1", "version": "$LATEST"}}
BATCHES: Dict[str, List[Dict[str, Any]]] = {
    "a batch": [START, {"time": AT, "type": "function", "record": "a line"},
                {"time": AT, "type": "extension", "record": "\u00e9\u4e2d\U0001f600"}],
    "a batch with an event that it does not know": [{"time": AT, "type": "platform.unheardOf", "record": {"a": [1]}}],
    "a thousand events": [START] * 1000,
}


def end_of(request: str, status: str, is_of_logs: bool) -> List[Dict[str, Any]]:
    """What Lambda sends once the function is done with an invocation: `success`, `error` or `timeout`. The first schema
    of the Logs API has `platform.end` for it."""
    start = {"requestId": request, "version": "$LATEST"}
    kinds = ("platform.end", "platform.runtimeDone") if is_of_logs else ("platform.runtimeDone",)
    return [{"time": AT, "type": "platform.start", "record": start},
            *({"time": AT, "type": kind, "record": {"requestId": request, "status": status}} for kind in kinds)]


def written(value: Any) -> bytes:
    """As JSON in UTF-8, with the letters beyond ASCII as they are."""
    return json.dumps(value, ensure_ascii=False).encode()


class NothingListens(Exception):
    """There is no receiver where it says."""


def fault_over_http(address: str, batch: List[Dict[str, Any]], seconds: float) -> Optional[str]:
    """What is wrong with the answer to a batch, in words; none if it is taken."""
    to = urllib.parse.urlsplit(address)
    connection = http.client.HTTPConnection(HERE, to.port, timeout=seconds)
    try:
        connection.connect()
    except OSError:
        raise NothingListens(str(to.port)) from None
    try:
        connection.request("POST", (to.path or "/") + (f"?{to.query}" if to.query else ""), written(batch),
                           {"Host": to.netloc, "Content-Type": "application/json"})
        answer = connection.getresponse()
        answer.read()  # (which has an end)
        return None if 200 <= answer.status < 300 else f"is answered {answer.status}, and comes again and again"
    except socket.timeout:
        return f"is not answered within {seconds:g} s"
    except (OSError, http.client.HTTPException) as fault:
        return f"is answered by no HTTP ({type(fault).__name__})"
    finally:
        connection.close()


def fault_over_tcp(port: int, batch: List[Dict[str, Any]]) -> Optional[str]:
    try:
        connection = socket.create_connection((HERE, port), ANSWERED_SECONDS)
    except OSError:
        raise NothingListens(str(port)) from None
    with connection:
        try:
            connection.sendall(b"".join(written(event) + b"\n" for event in batch))
        except OSError as fault:
            return f"is not read ({type(fault).__name__})"
    return None


class Receiver(NamedTuple):
    """Where an extension says that it takes telemetry."""
    destination: Dict[str, Any]
    is_of_logs: bool  # subscribed at the Logs API, whose schema is an older one

    takes_platform: bool = True  # whether it has asked for the platform's events

    @property
    def is_over_tcp(self) -> bool:
        return bool(self.destination["protocol"] == "TCP")

    def fault_first(self, batch: List[Dict[str, Any]], seconds: float = ANSWERED_SECONDS) -> Optional[str]:
        """What is wrong with the answer to a batch, in words; NothingListens if nobody takes it."""
        return (fault_over_tcp(self.destination["port"], batch) if self.is_over_tcp
                else fault_over_http(self.destination["URI"], batch, seconds))

    def fault_later(self, batch: List[Dict[str, Any]]) -> Optional[str]:
        """So, of one that has listened before."""
        try:
            return self.fault_first(batch)
        except NothingListens as port:
            return f"is not taken: nothing listens at 127.0.0.1:{port} any more"


def subscribed(stage: "ExtensionStage") -> Optional[Receiver]:
    """Where the extension, which has begun, says that it takes telemetry; None if it asks for none."""
    asked = [one for one in stage.environment.proxy.of("telemetry") if one.status == 200]
    if not asked:
        return None
    told = asked[-1].json()
    return Receiver(told["destination"], asked[-1].path == "/2020-08-15/logs", "platform" in told["types"])


def listening(stage: "ExtensionStage") -> Optional[Receiver]:
    """Begins, and sends a batch of one line: where that is taken. If it is not, which `takes_telemetry` is about, the
    scenario's checks are a NOTE, and it is None."""
    stage.begin()
    stage.idle()
    found = subscribed(stage)
    if not found:
        stage.jury.rest(NOTE, "it asks for none")
        return None
    try:
        fault = found.fault_first([{"time": AT, "type": "function", "record": "the first line"}])
    except NothingListens as port:
        stage.jury.rest(NOTE, f"nothing listens at 127.0.0.1:{port}, where it says")
        return None
    if fault:
        stage.jury.rest(NOTE, f"not judged: a batch of one line {fault}")
        return None
    return found


def goes_on(stage: "ExtensionStage") -> bool:
    """Whether it still runs, and takes an event."""
    if not stage.environment.process.ended and stage.registered_for("INVOKE"):
        stage.invoke(b"1")
        stage.idle()
    return not stage.environment.process.ended


@scenario(
    ("takes_telemetry", pages.TELEMETRY,
     "if it subscribes to telemetry, it takes what comes: over HTTP it answers each batch with 200, or another 2xx, "
     "also one with events that it does not know, and goes on; one that listens nowhere on this machine is a NOTE"))
def batches(stage: "ExtensionStage") -> None:
    stage.begin()
    stage.idle()
    found = subscribed(stage)
    if not found:
        return stage.note("takes_telemetry", "it asks for none")
    try:
        for name, batch in BATCHES.items():
            fault = found.fault_first(batch)
            if fault:
                return stage.check("takes_telemetry", False, f"{name} {fault}")
    except NothingListens as port:
        return stage.note("takes_telemetry", f"nothing listens at 127.0.0.1:{port}, where it says")
    return stage.check("takes_telemetry", goes_on(stage), "it has ended after that", f"{len(BATCHES)} batches")
