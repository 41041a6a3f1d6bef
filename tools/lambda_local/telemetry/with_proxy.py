"""A proxy within lambda_local up in front of an environment: its function's extensions may subscribe to telemetry, or
its responses are streamed."""
import json
import uuid
from typing import Any, Callable, Optional

from ..front import origins
from ..http1 import Request
from ..service import free_listener
from .beside import Beside, Line, Printed
from .conversation import Answer
from .desk import Desk
from .ears import EnvironmentEars, OfStreams
from .proxy import A_PROXY, Proxy
from .refusals import Refusals
from .story import About

WITH_TELEMETRY = 32  # descriptors of a proxy with connections to receivers
KINDS = {400: "InvalidHost", 403: "AccessDenied", 501: "NotImplemented"}  # the service's, at an environment's port
REASONS = {400: "Bad Request", 403: "Forbidden", 501: "Not Implemented"}


class WithProxy(Beside):
    """The lines of an invocation are divided from those before it when it passes."""
    divides = True

    def __init__(self, proxy: Proxy):
        super().__init__(proxy.address[1])
        self.proxy = proxy


class WithTelemetry(WithProxy):
    """`printed` has the lines of the processes; those of its runtime are under the environment's own name."""

    def __init__(self, desk: Desk, proxy: Proxy, name: str, printed: Printed):
        super().__init__(proxy)
        self.desk, self.name = desk, name
        desk.memory = lambda: printed.peak() or None
        printed.follow(self.take)

    def take(self, line: Line) -> None:
        self.desk.line("function" if line.source == self.name else "extension", line.text)

    def begins(self) -> None:
        self.desk.begins()

    def fails(self, kind: str) -> None:
        self.desk.fails(kind)

    def closes(self, reason: str) -> None:
        self.desk.closes(reason)

    def ends(self) -> None:
        self.desk.ends()


def refusal_of(head: Request) -> Optional[Answer]:
    """The service's own answer to a web page, or to a foreign host."""
    refused = origins.refusal_of(head, origins.further_hosts())
    if refused is None:
        return None
    body = json.dumps({"errorMessage": refused.message, "errorType": KINDS[refused.status]}, separators=(",", ":"))
    return Answer(refused.status, REASONS[refused.status], body.encode())


def about(function: Any) -> About:
    """What telemetry says of a function of UP.json."""
    form = str(function.variables.get("AWS_LAMBDA_LOG_FORMAT", "")).upper()
    return About(function.name, function.memory, str(uuid.uuid4()), form == "JSON", tuple(function.extensions))


def made(function: Any, name: str, port: int, path: str, printed: Printed, streams: OfStreams,
         log: Callable[..., None]) -> WithProxy:
    """That of the environment with this name and port, whose processes print this; what they have printed before a
    delivery is read first."""
    def tell(text: str) -> None:
        log(name, f"-- {text}", level="warning", kind="telemetry", function=function.name)

    def deliver(identifier: str) -> None:
        try:
            printed.deliver(identifier)
        except Exception as fault:
            tell(f"what it has printed before {identifier} could not be read: {fault!r}")
    desk = Desk(about(function), tell)
    refusals = Refusals(lambda text: log(name, f"-- {text}", level="warning", kind="refused", function=function.name))
    ears = EnvironmentEars(desk, refusal_of, streams, function.has_telemetry, deliver, refusals)

    def ends() -> None:
        refusals.end()
        desk.ends()
    proxy = Proxy(free_listener(f"proxy of {name}", path), port, ears, tell, ends,
                  descriptors=WITH_TELEMETRY if function.has_telemetry else A_PROXY)
    return WithTelemetry(desk, proxy, name, printed) if function.has_telemetry else WithProxy(proxy)
