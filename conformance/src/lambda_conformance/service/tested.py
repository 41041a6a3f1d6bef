"""The tested service: how a call becomes a request to it."""
import json
import urllib.parse
from typing import List, NamedTuple, Optional, Tuple

from lambda_local.service import EXTENSION, RUNTIME, Fault

from .calls import NEVER_GIVEN, Call, Ids
Request = Tuple[Tuple[str, int], str, str, List[Tuple[str, str]], Optional[bytes]]

TOO_LARGE = 6_291_557  # bytes: one more than Lambda takes, which is 100 more than the quota
NEVER = "00000000-0000-4000-8000-00000000dead"  # an identifier that no service gave
EVENTS = {"i": ["INVOKE"], "s": ["SHUTDOWN"], "is": ["INVOKE", "SHUTDOWN"], "-": []}
ERROR_TYPE = "Function.Unknown"  # of each report's header; the report itself has its own


class Tested(NamedTuple):
    """Where the service listens: for callers, and for the runtime and the extensions of its one environment."""
    invoke: Tuple[str, int]
    path: str  # of an Invoke
    runtime: Tuple[str, int]
    second: Optional[Tuple[str, int]] = None  # of its second environment, if it has two

    @property
    def environments(self) -> int:
        return 2 if self.second else 1

    def request(self, call: Call, ids: Ids) -> Request:
        """The address, method, path, headers and body of a call. `ids` has the identifier of each label."""
        if call.kind == "invoke":
            headers = [("Content-Type", "application/json"), *([("X-Amzn-Trace-Id", call.trace)] if call.trace else [])]
            path = self.path + ("?Qualifier=$LATEST" if call.qualified else "")
            return self.invoke, "POST", path, headers, call.body
        return (self.second if self.second and call.environment == 2 else self.runtime, *from_environment(call, ids))


def from_environment(call: Call, ids: Ids) -> Tuple[str, str, List[Tuple[str, str]], Optional[bytes]]:
    request = ids.get((False, call.label), NEVER) if call.label != NEVER_GIVEN else NEVER
    extension = [("Lambda-Extension-Identifier",
                  ids.get((True, call.label), NEVER) if call.label != NEVER_GIVEN else NEVER)]
    if call.kind == "next":
        return "GET", RUNTIME + "invocation/next", [], None
    if call.kind == "response":
        return "POST", f"{RUNTIME}invocation/{request}/response", [], call.body
    if call.kind == "response-too-large":
        return "POST", f"{RUNTIME}invocation/{request}/response", [], b'"' + b"x" * (TOO_LARGE - 2) + b'"'
    if call.kind == "failure":
        return ("POST", f"{RUNTIME}invocation/{request}/error", [("Lambda-Runtime-Function-Error-Type", ERROR_TYPE)],
                call.body)
    if call.kind == "init-failure":
        return "POST", RUNTIME + "init/error", [("Lambda-Runtime-Function-Error-Type", ERROR_TYPE)], call.body
    if call.kind == "register":
        asks = [("Lambda-Extension-Accept-Feature", "accountId")] if call.fields[-1] == "a" else []
        body = json.dumps({"events": EVENTS[call.fields[1]]}).encode()
        return "POST", EXTENSION + "register", [("Lambda-Extension-Name", call.body.decode()), *asks], body
    if call.kind == "ext-next":
        return "GET", EXTENSION + "event/next", extension, None
    route = {"ext-init-failure": "init/error", "ext-exit-failure": "exit/error"}[call.kind]
    return "POST", EXTENSION + route, [*extension, ("Lambda-Extension-Function-Error-Type", ERROR_TYPE)], call.body


def address_of(option: str, text: str) -> Tuple[str, int]:
    host, _, number = text.rpartition(":")
    if not host or not number.isdigit() or not 0 < int(number) < 65536:
        raise Fault(2, f"{option} {text}: write HOST:PORT, for example 127.0.0.1:9001")
    return host, int(number)


def tested_by(invoke: str, runtime: str, function: str, second: Optional[str] = None) -> Tested:
    """What --invoke, --runtime, --function and --second name."""
    try:
        found = urllib.parse.urlsplit(invoke)
        host, port = found.hostname if found.scheme == "http" else None, 80 if found.port is None else found.port
    except ValueError:
        host, port = None, 0
    if not host or not port:
        raise Fault(2, f"--invoke {invoke}: write the URL of the port for callers, for example http://127.0.0.1:8080")
    path = found.path if found.path.endswith("/invocations") else (
        f"{found.path.rstrip('/')}/2015-03-31/functions/{function}/invocations")
    return Tested((host, port), path, address_of("--runtime", runtime),
                  address_of("--second", second) if second else None)
