"""What the requests of an environment's runtime and extensions say, as they pass (Lambda Developer Guide, "Using the
Lambda runtime API for custom runtimes" and "Using the Lambda Extensions API")."""
import re
import uuid
from typing import Callable, List, Optional

from ..http1 import Headers, Malformed, Request, Response, first
from ..json_reader import members_of
from ..service import EXTENSION, RUNTIME
from ..streaming.streams import ERROR_TYPE, Stream, Streams
from .conversation import Answer, Ears, Exchange
from .desk import Desk
from .refusals import Refusals
from .story import ERROR, SUCCESS, TOO_LARGE
from .subscription import LOGS, TELEMETRY

EXTENSION_ERROR_TYPE = "lambda-extension-function-error-type"
IDENTIFIER, NAME = "lambda-extension-identifier", "lambda-extension-name"
REQUEST = "lambda-runtime-aws-request-id"
POSTED = re.compile(re.escape(RUNTIME) + "invocation/([^/]+)/(response|error)")
SHORT = 64 << 10  # bytes of a body that is looked at
UNKNOWN_ERROR = "Runtime.Unknown"
# What is done before an invocation is passed on: it is, once that is done.
Deliver = Callable[[str], None]


def identifier_of(headers: Headers, name: str = IDENTIFIER) -> str:
    """In the one form in which it is compared: the service takes each that is a UUID."""
    text = first(headers, name) or ""
    return plain(text)


def plain(text: str) -> str:
    try:
        return str(uuid.UUID(text))
    except ValueError:
        return text


class OfStreams:
    """The streams of the responses of one environment, if any are streamed."""

    def __init__(self, streams: Optional[Streams] = None, environment: int = 0):
        self.streams, self.environment = streams, environment

    def passed(self, identifier: str) -> None:
        if self.streams is not None:
            self.streams.passed(self.environment, identifier)

    def begins(self, identifier: str, headers: Headers) -> Optional[Stream]:
        return None if self.streams is None else self.streams.begins(self.environment, identifier, headers)


class Short(Exchange):
    """One whose body, or whose answer's, is looked at if it is short."""

    def __init__(self, head: Request, desk: Desk):
        super().__init__(head)
        self.desk, self.body, self.content = desk, bytearray(), bytearray()
        self.reply: Optional[Response] = None

    def sent(self, data: bytes) -> None:
        if len(self.body) <= SHORT:
            self.body += data

    def answered(self, head: Response) -> None:
        self.reply = head

    def came(self, data: bytes) -> None:
        if len(self.content) <= SHORT:
            self.content += data

    def is_done(self, *statuses: int) -> bool:
        return self.reply is not None and self.reply.status in statuses


class Registration(Short):
    def all_came(self) -> None:
        if self.reply is None or self.reply.status != 200:
            return
        events = (members_of(bytes(self.body), SHORT) or {}).get("events")
        names = [event for event in events if isinstance(event, str)] if isinstance(events, list) else []
        self.desk.registers(identifier_of(self.reply.headers), first(self.head.headers, NAME) or "", names)


class ExtensionPoll(Short):
    """Its answer is held until it is whole: a SHUTDOWN goes on once the extension has got what it subscribed to."""

    def __init__(self, head: Request, desk: Desk, deliver: Deliver):
        super().__init__(head, desk)
        self.identifier, self.polls, self.deliver = identifier_of(head.headers), False, deliver

    def all_sent(self, trailers: Headers) -> None:
        self.polls = True
        self.desk.extension_asks(self.identifier)

    def answered(self, head: Response) -> None:
        super().answered(head)
        self.holds = head.length is not None and 0 <= head.length <= SHORT

    def all_came(self) -> None:
        self.lost()
        if not self.is_done(200):
            return
        event = members_of(bytes(self.content), SHORT) or {}
        if event.get("eventType") == "INVOKE":
            self.deliver(str(event.get("requestId")))
        elif event.get("eventType") == "SHUTDOWN":
            self.desk.closes(str(event.get("shutdownReason")))
            self.waits = self.desk.flushed(self.identifier)

    def lost(self) -> None:
        if self.polls:
            self.polls = False
            self.desk.extension_answered(self.identifier)


class ExtensionReport(Short):
    """Of a failed init, or of an exit."""

    def __init__(self, head: Request, desk: Desk, state: str):
        super().__init__(head, desk)
        self.state = state

    def all_sent(self, trailers: Headers) -> None:
        """(What it closes may be told before its own answer is seen.)"""
        kind = first(self.head.headers, EXTENSION_ERROR_TYPE)
        if kind is not None:
            self.desk.extension_fails(identifier_of(self.head.headers), self.state, kind)


class RuntimePoll(Exchange):
    def __init__(self, head: Request, desk: Desk, streams: OfStreams, deliver: Deliver):
        super().__init__(head)
        self.desk, self.streams, self.deliver, self.polls = desk, streams, deliver, False

    def all_sent(self, trailers: Headers) -> None:
        self.polls = True
        self.desk.runtime_asks()

    def answered(self, head: Response) -> None:
        self.lost()
        identifier = first(head.headers, REQUEST)
        if head.status == 200 and identifier is not None:
            self.deliver(plain(identifier))
            trace = first(head.headers, "lambda-runtime-trace-id")
            self.streams.passed(plain(identifier))
            self.desk.delivered(plain(identifier), trace)

    def lost(self) -> None:
        if self.polls:
            self.polls = False
            self.desk.runtime_answered()


class InitReport(Exchange):
    def __init__(self, head: Request, desk: Desk):
        super().__init__(head)
        self.desk = desk

    def all_sent(self, trailers: Headers) -> None:
        self.desk.init_fails(first(self.head.headers, ERROR_TYPE) or UNKNOWN_ERROR)


class Result(Exchange):
    """A response, or an error. A response that is streamed goes to its caller as well as to the service."""

    def __init__(self, head: Request, desk: Desk, streams: OfStreams, identifier: str, kind: str):
        super().__init__(head)
        self.desk, self.identifier, self.kind, self.size = desk, plain(identifier), kind, 0
        self.status = 0
        self.trailers: Headers = []
        self.stream = streams.begins(self.identifier, head.headers if kind == "response" else [])
        desk.responds(self.identifier)

    @property
    def is_full(self) -> bool:
        return self.stream is not None and self.stream.is_full

    def when_room(self, resume: Callable[[], None]) -> None:
        if self.stream is not None:
            self.stream.on_room = resume

    def sent(self, data: bytes) -> None:
        self.size += len(data)
        if self.stream is not None:
            self.stream.feed(data)

    def all_sent(self, trailers: Headers) -> None:
        self.trailers = trailers
        if self.stream is not None:
            self.stream.trailed(trailers)

    def answered(self, head: Response) -> None:
        self.status = head.status

    def all_came(self) -> None:
        if self.status == 413:
            self.desk.answered(self.identifier, ERROR, TOO_LARGE, 0)
        elif self.status == 202 and self.kind == "response":
            broken = first(self.trailers, ERROR_TYPE)
            self.desk.answered(self.identifier, ERROR if broken else SUCCESS, broken, self.size)
        elif self.status == 202:
            self.desk.answered(self.identifier, ERROR, first(self.head.headers, ERROR_TYPE) or UNKNOWN_ERROR, self.size)


Refusal = Callable[[Request], Optional[Answer]]


class EnvironmentEars(Ears):
    """`refusal` is the service's own answer to a request of a web page, or one for a foreign host. Without telemetry
    the routes of subscriptions are the service's. `deliver` is done before an invocation is passed on."""

    def __init__(self, desk: Desk, refusal: Refusal, streams: OfStreams, has_telemetry: bool = True,
                 deliver: Deliver = lambda _: None, refusals: Optional[Refusals] = None):
        self.desk, self.refusal, self.streams, self.has_telemetry = desk, refusal, streams, has_telemetry
        self.deliver, self.refusals = deliver, refusals

    def exchange(self, head: Request) -> Exchange:
        path, desk = head.parts.path, self.desk
        if head.method == "GET" and path == RUNTIME + "invocation/next":
            return RuntimePoll(head, desk, self.streams, self.deliver)
        if head.method == "GET" and path == EXTENSION + "event/next":
            return ExtensionPoll(head, desk, self.deliver)
        return self.of_post(head, path) if head.method == "POST" else Exchange(head)

    def of_post(self, head: Request, path: str) -> Exchange:
        desk = self.desk
        found = POSTED.fullmatch(path)
        if found:
            return Result(head, desk, self.streams, found[1], found[2])
        if path == RUNTIME + "init/error":
            return InitReport(head, desk)
        if path == EXTENSION + "register":
            return Registration(head, desk)
        states: List[str] = {EXTENSION + "init/error": ["InitError"], EXTENSION + "exit/error": ["ExitError"]}.get(
            path, [])
        return ExtensionReport(head, desk, states[0]) if states else Exchange(head)

    def refused(self, head: Request, answer: Response, body: bytes) -> None:
        if self.refusals:
            self.refusals.refused(head, answer, body)

    def unreadable(self, fault: Malformed, head: Optional[Request], begun: bytes) -> None:
        if self.refusals:
            self.refusals.unreadable(fault, head, begun)

    def is_own(self, head: Request) -> bool:
        return self.has_telemetry and head.method == "PUT" and head.parts.path in (TELEMETRY, LOGS)

    def answer(self, head: Request, body: Optional[bytes]) -> Answer:
        refused = self.refusal(head)
        if refused is not None:
            return refused
        return self.desk.subscribe(identifier_of(head.headers), head.parts.path, body)
