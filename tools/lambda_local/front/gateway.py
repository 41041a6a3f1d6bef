"""Ports at which HTTP requests invoke functions: a Function URL, and the routes of an HTTP API or a REST API. The
service has these ports, refuses what is no request to this machine, and hands over the others; what a web page sends is
judged here, by `cors`."""
from typing import Any, Callable, Dict, List, Mapping, NamedTuple, Optional, Tuple

from ..clock.followed import Clock
from ..configuration import Members
from ..exchange.client import Client
from ..exchange.connection import TooLong, Unanswered
from ..outgoing import Log
from ..streaming.streams import Streams
from . import cors, response_stream
from .alb import OfBalancer
from .authorize import Asked, Authorizers, Refused
from .events import Identifiers, target_of, trace_of
from .formats import OfHttpApi, OfUrl, format_of, message
from .http import LONGEST_BODY, NO_STAGE, Headers, Reply, Request, first
from .payload import Unmappable
from .rest_payload import Tell
from .routes import Routes
from .settings import BALANCER, Address, Integration, Target


class Backend(NamedTuple):
    """The function that takes a request, and in which format."""
    function: str
    context: Dict[str, Any]  # the members of requestContext that do not depend on the request
    parameters: Optional[Dict[str, str]]
    format: OfUrl
    below: Optional[str] = None  # the request's path below the stage that it begins with


def made_of(integration: Integration, region: str) -> OfHttpApi:
    """The format of a route."""
    return OfBalancer(integration, region) if integration.version == BALANCER else format_of(integration)


class Gateway:
    """`find` gives what takes a request; None if no route does, and then `no_route_reply` is the answer."""
    preflight_status = 200

    def __init__(self, client: Client, clock: Clock, address: Address, identifiers: Identifiers, log: Log) -> None:
        self.client, self.cors, self.identifiers, self.log = client, address.cors, identifiers, log
        self.clock = clock

    def find(self, request: Request) -> Optional[Backend]:
        raise NotImplementedError

    def no_route_reply(self, request: Request) -> Reply:
        raise NotImplementedError

    async def handle(self, request: Request) -> Reply:
        if self.cors and cors.is_preflight(request):
            return cors.preflight(self.cors, request, self.preflight_status)
        backend = self.find(request)
        reply = self.no_route_reply(request) if backend is None else await self.invoke(request, backend)
        if self.cors and (backend is None or backend.format.replaces_cors):
            return cors.with_cors(self.cors, request, reply)
        return reply

    async def invoke(self, request: Request, backend: Backend) -> Reply:
        def tell(text: str) -> None:
            self.say(backend, request, text, level="warning")

        try:
            body = request.body(backend.format.longest)
        except TooLong:
            return self.too_large(backend, request, "its body", backend.format.longest)
        context = {**backend.context, "requestId": self.identifiers.next(backend.function),
                   "timeEpoch": self.clock.now()}
        request = request._replace(below=backend.below)
        try:
            context.update(await self.authorizer_of(request, backend, context, tell))
        except Refused as fault:
            self.say(backend, request, f"{fault.reply.status}, {fault}", level="warning")
            return fault.reply
        except Unanswered:
            self.say(backend, request, "500, the service broke its connection off")
            return message(500, "Internal Server Error")
        event = backend.format.event(request, body, context, backend.parameters, tell)
        if len(event) > LONGEST_BODY:
            return self.too_large(backend, request, "the event made of it", LONGEST_BODY)
        try:
            return await self.answer(request, backend, trace_of(request.headers), event, tell)
        except Unanswered:
            self.say(backend, request, "502, the service broke its connection off")
            return backend.format.failure_reply()

    async def authorizer_of(self, request: Request, backend: Backend, context: Members, tell: Tell) -> Members:
        """What an authorizer adds to the event's context; Refused if the caller may not."""
        return {}

    async def answer(self, request: Request, backend: Backend, trace: Headers, event: bytes, tell: Tell) -> Reply:
        status, headers, result = await self.client.ask("POST", target_of(backend.function), trace, event)
        return self.map_result(request, backend, status, headers, result, backend.format.reply, tell)

    def map_result(self, request: Request, backend: Backend, status: int, headers: Headers, result: bytes,
                   mapping: Callable[[bytes, Request, Tell], Reply], tell: Tell) -> Reply:
        """The answer to a result that is whole."""
        if status != 200:
            return self.reply_to_refusal(backend, request, status, result)
        if first(headers, "x-amz-function-error") is not None:
            return backend.format.failure_reply()  # (the invocation's own line says why)
        try:
            return mapping(result, request, tell)
        except Unmappable as reason:
            self.say(backend, request, f"502, its result cannot be mapped: {reason}")
            return backend.format.failure_reply()

    def too_large(self, backend: Backend, request: Request, what: str, most: int) -> Reply:
        self.say(backend, request, f"413, {what} has more than {most} bytes")
        return message(413, "Request Entity Too Large")

    def reply_to_refusal(self, backend: Backend, request: Request, status: int, result: bytes) -> Reply:
        self.say(backend, request, f"the invocation is answered {status} {result[:200].decode(errors='replace')}")
        if status == 429:
            return backend.format.throttle_reply(result)
        return message(413, "Request Entity Too Large") if status == 413 else backend.format.failure_reply()

    def say(self, backend: Backend, request: Request, text: str, level: str = "error") -> None:
        self.log(backend.function, f"{request.method} {request.path[:200]}: {text}", level=level, kind="http",
                 function=backend.function)


class Url(Gateway):
    def __init__(self, client: Client, clock: Clock, address: Address, identifiers: Identifiers, log: Log,
                 function: str, configuration: Members, streams: Streams) -> None:
        super().__init__(client, clock, address, identifiers, log)
        self.streams = streams if address.streams else None
        name = f"{function.lower()}.lambda-url.{configuration['region']}.on.aws"
        context = {"accountId": "anonymous", "apiId": function.lower(), "domainName": name,
                   "domainPrefix": function.lower(), "routeKey": "$default", "stage": "$default"}
        self.backend = Backend(function, context, None, OfUrl())

    async def answer(self, request: Request, backend: Backend, trace: Headers, event: bytes, tell: Tell) -> Reply:
        if self.streams is None:
            return await super().answer(request, backend, trace, event, tell)
        invocation = response_stream.Invocation(self.client, self.streams, target_of(backend.function), trace, event)
        start = await invocation.first()
        if not isinstance(start, response_stream.Start):
            await invocation.aclose()
            return self.map_result(request, backend, *start, response_stream.plain_reply, tell)
        try:
            return await response_stream.url_reply(invocation, start.stream)
        except Unmappable as reason:
            self.say(backend, request, f"502, {reason}")
            return backend.format.failure_reply()

    def find(self, request: Request) -> Optional[Backend]:
        return self.backend


class Api(Gateway):
    """The routes of a port, each with a format of its own."""
    preflight_status = 204

    def __init__(self, client: Client, clock: Clock, address: Address, identifiers: Identifiers, log: Log,
                 routes: Mapping[str, Target], configuration: Members) -> None:
        super().__init__(client, clock, address, identifiers, log)
        self.context = {
            "accountId": configuration["account"], "apiId": "local",
            "domainName": f"local.execute-api.{configuration['region']}.amazonaws.com", "domainPrefix": "local"}
        by_stage: Dict[str, Dict[str, Target]] = {}  # all are of none if paths have no stages
        for key, target in routes.items():
            by_stage.setdefault(target.integration.stage if address.stage_in_path else NO_STAGE, {})[key] = target
        self.routes = {stage: Routes(own) for stage, own in by_stage.items()}
        self.authorizers, self.region = Authorizers(client, clock), str(configuration["region"])
        self.formats = {key: made_of(target.integration, self.region) for key, target in routes.items()}
        # (what no route takes is answered as by the kind that all routes have)
        formats = list(self.formats.values())
        self.common = formats[0] if len(set(map(type, formats))) == 1 else OfHttpApi(Integration())

    def no_route_reply(self, request: Request) -> Reply:
        return self.common.no_route_reply() if self.stages(request.path) else self.common.no_stage_reply()

    def stages(self, path: str) -> List[Tuple[Routes, Optional[str]]]:
        """The routes of the stage that a path begins with, and the path below it; then those that are of none."""
        stage, _, rest = path[1:].partition("/")
        named = [(self.routes[stage], f"/{rest}")] if stage in self.routes and stage != NO_STAGE else []
        return [*named, *([(self.routes[NO_STAGE], None)] if NO_STAGE in self.routes else [])]

    def find(self, request: Request) -> Optional[Backend]:
        for routes, below in self.stages(request.path):
            match = routes.find(request.method, request.path if below is None else below)
            if match is not None:
                route, parameters = match
                assert route.target is not None
                context = {**self.context, "routeKey": route.key, "stage": route.target.integration.stage}
                return Backend(route.target.function, context, parameters, self.formats[route.key], below)
        return None

    async def authorizer_of(self, request: Request, backend: Backend, context: Members, tell: Tell) -> Members:
        form = self.formats[str(context["routeKey"])]
        if form.integration.authorizer is None:
            return {}
        asked = Asked(request, context, backend.parameters, form.integration, form, self.region,
                      trace_of(request.headers))
        return {"authorizer": await self.authorizers.members(form.integration.authorizer, asked)}
