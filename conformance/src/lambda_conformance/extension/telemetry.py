"""The Telemetry API that the kit offers: it judges each subscription by the page, and answers as Lambda does."""
import json
import urllib.parse
from typing import TYPE_CHECKING, Any, Dict, List, Optional, Tuple

from .. import pages
from ..exchanges import Exchange
from ..kit import Missing, Scenario, scenarios_of
from ..stage import shown

if TYPE_CHECKING:
    from .stage import ExtensionStage

SCENARIOS: List[Scenario] = []
scenario = scenarios_of(SCENARIOS)

VERSIONS = {"/2022-07-01/telemetry": ("2022-07-01", "2022-12-13", "2025-01-29"),
            "/2020-08-15/logs": ("2020-08-15", "2021-03-18")}
TYPES = ("platform", "function", "extension")
BUFFERING = {"maxItems": (1000, 10_000), "maxBytes": (262_144, 1_048_576), "timeoutMs": (25, 30_000)}
HOSTS = ("sandbox.localdomain", "sandbox")
LAMBDAS_PORT = 9001
LATE = 1.0  # seconds after its first event, in which it is seen to subscribe too late
ACCEPTED = b'"OK"'


def fault_of(exchange: Exchange, identifier: Optional[str], is_late: bool) -> Optional[str]:
    """What is wrong with a subscription, in words; none if it is right."""
    if identifier is None:
        return "it subscribes before it has registered"
    if exchange.request.headers.get("lambda-extension-identifier") != identifier:
        return "its Lambda-Extension-Identifier is not the one that its registration was answered with"
    if is_late:
        return "it subscribes after its first Next, when its Init is over"
    asked = exchange.json()
    if not isinstance(asked, dict):
        return f"its body is not a JSON object: {shown(exchange.request.body)}"
    return next(filter(None, (fault_in_version(exchange, asked), fault_in_types(asked.get("types")),
                              fault_in_destination(asked.get("destination")),
                              fault_in_buffering(asked.get("buffering")))), None)


def fault_in_version(exchange: Exchange, asked: Dict[str, Any]) -> Optional[str]:
    versions, version = VERSIONS[exchange.path], asked.get("schemaVersion")
    is_optional = exchange.path == "/2020-08-15/logs"
    if version not in versions and not (version is None and is_optional):
        return f"\"schemaVersion\" is {shown(version)}, and not one of {', '.join(versions)}"
    return None


def fault_in_types(types: Any) -> Optional[str]:
    if not isinstance(types, list) or not types or not set(map(str, types)) <= set(TYPES):
        return f"\"types\" is {shown(types)}, and not a list of some of {', '.join(TYPES)}"
    return None


def fault_in_destination(destination: Any) -> Optional[str]:
    if not isinstance(destination, dict):
        return f"\"destination\" is {shown(destination)}, and not an object"
    protocol = destination.get("protocol")
    if protocol == "TCP":
        port = destination.get("port")
        return None if is_port(port) else f"the port of its destination is {shown(port)}"
    if protocol != "HTTP":
        return f"the protocol of its destination is {shown(protocol)}, and not HTTP or TCP"
    address = destination.get("URI")
    try:
        found = urllib.parse.urlsplit(address if isinstance(address, str) else "")
        right = found.scheme == "http" and found.hostname in HOSTS and is_port(found.port)
    except ValueError:
        right = False
    return None if right else (
        f"the URI of its destination is {shown(address)}, and not http://{HOSTS[0]}:PORT with a port other than "
        f"{LAMBDAS_PORT}")


def is_port(port: Any) -> bool:
    return isinstance(port, int) and 0 < port < 65536 and port != LAMBDAS_PORT


def fault_in_buffering(buffering: Any) -> Optional[str]:
    if buffering is None:
        return None
    if not isinstance(buffering, dict):
        return f"\"buffering\" is {shown(buffering)}, and not an object"
    for name, (least, most) in BUFFERING.items():
        value = buffering.get(name, least)
        if isinstance(value, bool) or not isinstance(value, int) or not least <= value <= most:
            return f"\"{name}\" of its buffering is {shown(value)}, and not a number from {least:,} to {most:,}"
    return None


class Telemetry:
    """Answers subscriptions, and keeps what is wrong with each."""

    def __init__(self, stage: "ExtensionStage") -> None:
        self._stage, self.asked = stage, 0
        self.faults: List[str] = []

    def decide(self, exchange: Exchange) -> Tuple[int, bytes]:
        proxy = self._stage.environment.proxy
        registered = [one for one in proxy.of("register") if one.status == 200]
        identifier = registered[-1].told.get("lambda-extension-identifier") if registered else None
        is_late = bool(registered) and any(one.begun > registered[-1].begun for one in proxy.of("event"))
        fault = fault_of(exchange, identifier, is_late)
        self.asked += 1
        if fault:
            self.faults.append(fault)
            return 400, json.dumps({"errorType": "ValidationError", "errorMessage": fault}).encode()
        return 200, ACCEPTED


@scenario(
    ("telemetry", pages.TELEMETRY,
     "if it subscribes to telemetry, it does so between its registration and its first Next, with its identifier, "
     "\"schemaVersion\", \"types\" and a \"destination\" that Lambda takes"))
def subscription(stage: "ExtensionStage") -> None:
    stage.start()
    environment = stage.environment
    if not environment.asked(kind="event") and not stage.telemetry.faults:
        raise Missing(stage.lacks("it did not ask for an event"))
    if stage.registered_for("INVOKE") and environment.proxy.of("event"):  # (it may subscribe late)
        stage.play()
        stage.idle()
        stage.invoke(b"1")
        stage.idle()
    environment.proxy.wait(lambda: stage.telemetry.asked > 0, LATE)
    if not stage.telemetry.asked:
        return stage.note("telemetry", "it asks for none")
    faults = stage.telemetry.faults
    return stage.check("telemetry", not faults, faults[0] if faults else None, f"{stage.telemetry.asked} right")


@scenario(
    ("without_telemetry", pages.TELEMETRY, "if there is no Telemetry API (404) it goes on without it"), telemetry=False)
def no_telemetry(stage: "ExtensionStage") -> None:
    stage.begin()
    stage.idle()
    answer = stage.invoke(b"1")
    asked = stage.environment.proxy.of("telemetry")
    stage.idle()  # (it waits for no telemetry that cannot come)
    stage.check("without_telemetry", answer.body == b"1", answer.came(),
                f"refused {len(asked)} times" if asked else "it asks for none")
