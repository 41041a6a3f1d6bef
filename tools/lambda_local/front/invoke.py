"""Invocations that the service hands over: asynchronous ones are taken here, and those whose caller wants their log, or
names an alias, are asked of the service as plain ones."""
import json
from typing import Awaitable, Callable, Optional, Set, Tuple
from urllib.parse import parse_qs

from ..clock.asked import SETTLED
from ..clock.followed import Clock
from ..configuration import Members
from ..exchange.client import Client
from ..exchange.connection import TooLong
from ..outgoing import Log
from ..service import AGAIN
from .errors import NO_ROUTE, NOT_FOUND, WRONG_TYPE, of_json, of_user, stop_reply, throttle_reply
from .events import TYPE, Event, Identifiers, function_of, refuse, trace_of
from .http import LONGEST_BODY, Reply, Request, first
from .names import unknown
from .outbox import Outbox
from .queue import Full, Queue
from .settings import Settings
from .tail import LOG_TYPE, Tails, with_tail

MOST_PAYLOAD = 1 << 20  # bytes of an event (Developer Guide, "Lambda quotas")
MOST_TARGETS = 1000  # that are remembered
SYNCHRONOUS = (None, "RequestResponse")
TROUBLE = "/_local/trouble"
Trouble = Callable[[str, str], Awaitable[Tuple[int, str]]]  # for a function and a kind, a status and a sentence
OF_ANSWER = ("content-type", "x-amz-executed-version", "x-amz-function-error", "x-amzn-errortype", "x-amzn-requestid")


class InvokePort:
    """Without settings of asynchronous invocations, these are refused as by the service."""

    def __init__(self, client: Client, settings: Settings, configuration: Members, log: Log, clock: Clock,
                 tails: Optional[Tails] = None, outbox: Optional[Outbox] = None) -> None:
        self.client, self.clock, self.tails, self.log = client, clock, tails, log
        self.identifiers = Identifiers(configuration)
        self.known: Set[str] = set()
        self.trouble: Optional[Trouble] = None  # if somebody can make it
        self.queue = Queue(client, settings.asynchronous, configuration, self.identifiers, log, clock,
                           settings.of_functions, outbox) if settings.asynchronous else None

    async def handle(self, request: Request, names_alias: bool = False) -> Reply:
        """The answer to a request that is no other operation of the Lambda API."""
        if request.method == "POST" and request.path == TROUBLE and self.trouble is not None:
            return await self.order(request, self.trouble)
        if (request.method, request.target) == SETTLED:
            return await self.settled()
        function, kind = function_of(request.target), first(request.headers, TYPE.lower())
        if function is None or request.method != "POST":
            return NO_ROUTE
        wants_log = first(request.headers, LOG_TYPE) == "Tail"
        if kind in SYNCHRONOUS and not names_alias and not wants_log:
            return NOT_FOUND  # (the service answers any other itself)
        return await self.unknown(request.target) or await self.invoked(request, function, kind, wants_log)

    async def invoked(self, request: Request, function: str, kind: Optional[str], wants_log: bool) -> Reply:
        if kind in SYNCHRONOUS:
            if wants_log and self.tails:
                return await with_tail(self.tails, function, lambda: self.ask(request), self.tell)
            return await self.ask(request)
        if self.queue is None or kind not in ("Event", "DryRun"):
            return WRONG_TYPE
        identifier = self.identifiers.next(function)
        if kind == "DryRun":
            return Reply(204, [("x-amzn-requestid", identifier)])
        return await self.take(self.queue, request, function, identifier)

    async def ask(self, request: Request) -> Reply:
        """What the service answers to a synchronous invocation."""
        is_again = first(request.headers, AGAIN.lower()) is not None
        payload = request.body(LONGEST_BODY)
        status, headers, body = await self.client.ask("POST", request.target, trace_of(request.headers), payload,
                                                      is_again)
        return Reply(status, [(name, value) for name, value in headers if name.lower() in OF_ANSWER], body)

    async def order(self, request: Request, trouble: Trouble) -> Reply:
        """What `lambda_local up` itself does wrong on request."""
        query = parse_qs(request.query, keep_blank_values=True)
        given = [query.get(name, []) for name in ("function", "kind")]
        if sorted(query) != ["function", "kind"] or [len(values) for values in given] != [1, 1]:
            status, text = 400, "function and kind are there once each"
        else:
            status, text = await trouble(given[0][0], given[1][0])
        body = {"message": text} if status == 202 else {"errorMessage": text, "errorType": "InvalidTrouble"}
        return Reply(status, [("content-type", "application/json")], of_json(body))

    async def settled(self) -> Reply:
        """Once all that is due by the service's clock has begun here."""
        await self.clock.caught_up()
        return Reply(204)

    def tell(self, text: str) -> None:
        self.log("up", text, level="error", kind="http")

    async def unknown(self, target: str) -> Optional[Reply]:
        """What the service answers to this name and qualifier; none if it knows the function."""
        if target in self.known:
            return None
        reply = await unknown(self.client, target)
        if reply is None and len(self.known) < MOST_TARGETS:
            self.known.add(target)
        return reply

    async def take(self, queue: Queue, request: Request, function: str, identifier: str) -> Reply:
        try:
            payload = request.body(MOST_PAYLOAD)
        except TooLong:
            return of_user(413, "RequestTooLargeException", f"Payload exceeds {MOST_PAYLOAD} bytes", identifier)
        if payload and not is_json(payload):
            return of_user(400, "InvalidRequestContentException", "Payload is not JSON", identifier)
        if queue.is_closed:
            return stop_reply(identifier)
        try:
            queue.put(Event(identifier, function, request.target, trace_of(request.headers), payload or b"{}",
                            self.clock.now()))
        except Full:
            return throttle_reply("CallerRateLimitExceeded", identifier)
        return Reply(202, [("x-amzn-requestid", identifier)])


def is_json(payload: bytes) -> bool:
    try:
        json.loads(payload, parse_constant=refuse)
    except RecursionError:
        return True  # (the service decides about nesting)
    except ValueError:
        return False
    return True
