"""What an extension asks for: the body of `PUT /2022-07-01/telemetry` (Lambda Developer Guide, "Lambda Telemetry API
reference") and of `PUT /2020-08-15/logs` ("Lambda Logs API"), with the ranges and defaults of these pages."""
import json
import re
from typing import Dict, FrozenSet, List, NamedTuple, Tuple
from urllib.parse import urlsplit

from ..json_reader import NotJson, read_json

TELEMETRY, LOGS = "/2022-07-01/telemetry", "/2020-08-15/logs"
SCHEMAS = {TELEMETRY: ("2022-07-01", "2022-12-13", "2025-01-29"), LOGS: ("2020-08-15", "2021-03-18")}
TYPES = ("platform", "function", "extension")
# least, most, default
RANGES: Dict[str, Tuple[int, int, int]] = {
    "maxItems": (1000, 10_000, 10_000), "maxBytes": (262_144, 1_048_576, 262_144), "timeoutMs": (25, 30_000, 1000)}
HOSTS = ("sandbox.localdomain", "sandbox", "localhost", "127.0.0.1")  # all of them are this machine's loopback
TAKEN_PORT = 9001  # Lambda's own
METHODS = ("POST", "PUT")
LONGEST_BODY, LONGEST_SHOWN = 64 << 10, 60
PATH = re.compile("[!-~]*")


class Refused(Exception):
    """Why a subscription is not taken: all that is wrong with it."""


class Destination(NamedTuple):
    protocol: str  # HTTP or TCP
    port: int
    host: str = "sandbox.localdomain"  # as the extension names it
    target: str = "/"
    method: str = "POST"


class Buffering(NamedTuple):
    items: int
    size: int  # bytes
    seconds: float


class Subscription(NamedTuple):
    schema: str
    types: FrozenSet[str]
    order: Tuple[str, ...]  # of the types, as they were given
    buffering: Buffering
    destination: Destination

    @property
    def is_of_logs(self) -> bool:
        return self.schema in SCHEMAS[LOGS]


def shown(value: object) -> str:
    text = json.dumps(value)
    return text if len(text) <= LONGEST_SHOWN else text[:LONGEST_SHOWN] + ".."


def subscription_of(path: str, body: bytes) -> Subscription:
    """Raises Refused, with each fault that it finds: the page's own example of a refusal names two."""
    try:
        given = read_json(body, longest=LONGEST_BODY)
    except NotJson as fault:
        raise Refused(f"the body is not JSON: {fault}") from None
    if not isinstance(given, dict):
        raise Refused("the body is not a JSON object")
    faults: List[str] = []
    schema = schema_in(path, given, faults)
    types = types_in(given.get("types"), faults)
    buffering = buffering_in(given.get("buffering"), faults)
    destination = destination_in(given.get("destination"), faults)
    if faults:
        raise Refused("; ".join(faults))
    return Subscription(schema, frozenset(types), tuple(types), buffering, destination)


def schema_in(path: str, given: Dict[str, object], faults: List[str]) -> str:
    """The Logs API has its first one if none is given."""
    known = SCHEMAS[path]
    schema = given.get("schemaVersion")
    if schema is None and path == LOGS:
        return known[0]
    if not isinstance(schema, str) or schema not in known:
        faults.append(f"schemaVersion must be one of {', '.join(known)}, not {shown(schema)}")
        return known[0]
    return schema


def types_in(given: object, faults: List[str]) -> List[str]:
    if given is None or given == []:
        faults.append("types should not be empty")
        return []
    if not isinstance(given, list) or not all(isinstance(kind, str) and kind in TYPES for kind in given):
        faults.append(f"types must be a list of some of {', '.join(TYPES)}, not {shown(given)}")
        return []
    return list(dict.fromkeys(given))


def buffering_in(given: object, faults: List[str]) -> Buffering:
    buffering = {name: default for name, (_, _, default) in RANGES.items()}
    if given is not None and not isinstance(given, dict):
        faults.append(f"buffering must be an object, not {shown(given)}")
    members: Dict[str, object] = given if isinstance(given, dict) else {}
    for name, (least, most, _) in RANGES.items():
        value = members.get(name)
        if value is None:
            continue
        if isinstance(value, bool) or not isinstance(value, int) or not least <= value <= most:
            faults.append(f"{name} must be a number from {least} to {most}, not {shown(value)}")
        else:
            buffering[name] = value
    return Buffering(buffering["maxItems"], buffering["maxBytes"], buffering["timeoutMs"] / 1000)


# ---- destinations ----------------------------------------------------------------------------------------------------


def destination_in(given: object, faults: List[str]) -> Destination:
    nothing = Destination("HTTP", 0)
    if not isinstance(given, dict):
        faults.append(f"destination must be an object, not {shown(given)}")
        return nothing
    protocol = given.get("protocol")
    if protocol == "TCP":
        return Destination("TCP", port_in(given.get("port"), faults))
    if protocol != "HTTP":
        faults.append(f"protocol must be HTTP or TCP, not {shown(protocol)}")
        return nothing
    method = given.get("method", "POST")
    if method not in METHODS:
        faults.append(f"method must be POST or PUT, not {shown(method)}")
    if given.get("encoding", "JSON") != "JSON":
        faults.append(f"encoding must be JSON, not {shown(given['encoding'])}")
    return address_in(given.get("URI"), str(method), faults)


def port_in(port: object, faults: List[str]) -> int:
    if isinstance(port, bool) or not isinstance(port, int) or not 0 < port < 65536:
        faults.append(f"port must be a number from 1 to 65535, not {shown(port)}")
        return 0
    if port == TAKEN_PORT:
        faults.append(f"port {TAKEN_PORT} is Lambda's own")
    return port


def address_in(address: object, method: str, faults: List[str]) -> Destination:
    nothing = Destination("HTTP", 0)
    if not isinstance(address, str) or not PATH.fullmatch(address):
        faults.append(f"URI must be http://{HOSTS[0]}:PORT/.., not {shown(address)}")
        return nothing
    try:
        address_parts = urlsplit(address)
        port = address_parts.port
    except ValueError:
        faults.append(f"URI is malformed: {shown(address)}")
        return nothing
    if address_parts.scheme != "http" or address_parts.hostname not in HOSTS or "@" in address_parts.netloc:
        faults.append(f"URI must be http://{HOSTS[0]}:PORT/.., not {shown(address)}")
    if port is None:
        faults.append("URI port is not provided")
        return nothing
    target = (address_parts.path or "/") + (f"?{address_parts.query}" if address_parts.query else "")
    return Destination("HTTP", port_in(port, faults), str(address_parts.hostname), target, method)
