"""What an authorizer makes of a request: what `requestContext.authorizer` has of its caller, or an answer in place of
the function's. A function that authorizes gets an event of its own, and its answer counts for as long as it is kept, by
the caller's identity."""
import json
import re
import time
from collections import OrderedDict
from typing import Any, Dict, List, NamedTuple, Optional, Protocol, Tuple, Union

from ..clock.followed import Clock
from ..configuration import Members
from ..exchange.client import Client
from ..json_reader import NotJson, read_json
from .authorizers import Authorizer, Source
from .events import target_of
from .http import LONGEST_BODY, Headers, Reply, Request, every, first
from .payload import parameters_in
from .policies import Verdict, WrongPolicy, verdict_of
from .settings import Integration
from .tokens import WrongToken, as_texts, claims_of, scopes_of

MOST_RESULT = 8 << 10  # bytes of what a function answers (API Gateway's quota)
MOST_KEPT = 1000  # answers, of all authorizers of an API


class Refused(Exception):
    """The caller may not: why, in words, and the answer."""

    def __init__(self, why: str, reply: Reply) -> None:
        super().__init__(why)
        self.reply = reply


class Format(Protocol):
    """How a kind of API asks and answers."""
    is_rest: bool

    def authorizer_event(self, request: Request, context: Members, parameters: Optional[Dict[str, str]],
                         authorizer: Authorizer, arn: str, identity: List[str]) -> Members:
        """What the authorizer's function gets."""

    def unauthorized_reply(self) -> Reply:
        """For one of whom nothing is known."""

    def forbidden_reply(self, is_explicit: bool) -> Reply:
        """For one who may not."""

    def authorizer_failure_reply(self) -> Reply:
        """For an authorizer that fails."""

    def jwt(self, claims: Members, scopes: Optional[List[str]]) -> Members:
        """`requestContext.authorizer` by the claims of a token."""

    def by_lambda(self, context: Members, principal: Optional[str]) -> Members:
        """The same by the answer of a function."""


class Asked(NamedTuple):
    """A request, as its route has it."""
    request: Request
    context: Members  # of the event
    parameters: Optional[Dict[str, str]]
    integration: Integration
    format: Format
    region: str
    trace: Headers

    @property
    def arn(self) -> str:
        """Of the method: what a policy speaks of."""
        api = f"{self.region}:{self.context['accountId']}:{self.context['apiId']}/{self.integration.stage}"
        return f"arn:aws:execute-api:{api}/{self.request.method}/{self.request.path.lstrip('/')}"


class Kept(NamedTuple):
    until: int  # a moment of the service
    result: Members


def part_of(source: Source, asked: Asked) -> str:
    """The part of an identity that is in a request; empty if it has none."""
    if source.place == "header":
        return ",".join(every(asked.request.headers, source.name.lower()))
    if source.place == "querystring":
        return ",".join(parameters_in(asked.request.query).get(source.name, []))
    if source.place == "stageVariables":
        return (asked.integration.variables or {}).get(source.name, "")
    given: object = {**asked.context, "httpMethod": asked.request.method, "path": asked.request.path,
                     "stage": asked.integration.stage, "identity": {"sourceIp": "127.0.0.1", "userAgent": first(
                         asked.request.headers, "user-agent")}}
    for name in source.name.split("."):
        given = given.get(name) if isinstance(given, dict) else None
    return given if isinstance(given, str) else ""


class Authorizers:
    """Those of the routes of one API, which share what is kept."""

    def __init__(self, client: Client, clock: Clock) -> None:
        self.client, self.clock = client, clock
        self.kept: "OrderedDict[Tuple[str, Tuple[str, ...]], Kept]" = OrderedDict()

    async def members(self, authorizer: Authorizer, asked: Asked) -> Members:
        """What `requestContext.authorizer` has; Refused if the caller may not."""
        form = asked.format
        if authorizer.kind == "claims":
            return form.jwt(authorizer.values, None if authorizer.scopes is None else list(authorizer.scopes))
        if authorizer.kind == "lambda":
            values = {name: value for name, value in authorizer.values.items() if name != "principalId"}
            return form.by_lambda(values, authorizer.values.get("principalId"))
        if authorizer.kind == "jwt":
            return self.by_token(authorizer, asked)
        return await self.by_function(authorizer, asked)

    # ---- a token -----------------------------------------------------------------------------------------------------

    @staticmethod
    def by_token(authorizer: Authorizer, asked: Asked) -> Members:
        given = part_of(authorizer.identity[0], asked)
        token = given[len("Bearer "):] if given[:7].lower() == "bearer " else given
        if not token:
            raise Refused("it has no token", asked.format.unauthorized_reply())
        try:
            claims = claims_of(token.strip(), authorizer.values)
        except WrongToken as fault:
            raise Refused(f"its token: {fault}", asked.format.unauthorized_reply()) from None
        scopes = scopes_of(claims)
        if authorizer.scopes and not set(scopes) & set(authorizer.scopes):
            raise Refused(f"its token has none of the scopes {', '.join(authorizer.scopes)}",
                          asked.format.forbidden_reply(False))
        return asked.format.jwt(as_texts(claims), scopes if authorizer.scopes else None)

    # ---- a function --------------------------------------------------------------------------------------------------

    async def by_function(self, authorizer: Authorizer, asked: Asked) -> Members:
        identity = [part_of(source, asked) for source in authorizer.identity]
        if not all(identity):
            missing = ", ".join(f"{source.place} {source.name}" for source, part in zip(authorizer.identity, identity)
                                if not part)
            raise Refused(f"it has no {missing}, by which {authorizer.function} is asked",
                          asked.format.unauthorized_reply())
        if authorizer.validation is not None and not re.fullmatch(authorizer.validation, identity[0]):
            raise Refused(f"its token is not as {authorizer.validation} has it", asked.format.unauthorized_reply())
        key, now = (repr(authorizer), tuple(identity)), self.clock.now()
        kept = self.kept.get(key) if authorizer.ttl else None
        if kept is not None and kept.until > now:
            return self.judged(authorizer, asked, kept.result, 0)
        result, took = await self.ask(authorizer, asked, identity)
        members = self.judged(authorizer, asked, result, took, lambda: self.keep(key, authorizer, result))
        return members

    def keep(self, key: Tuple[str, Tuple[str, ...]], authorizer: Authorizer, result: Members) -> None:
        if authorizer.ttl:
            self.kept.pop(key, None)
            self.kept[key] = Kept(self.clock.now() + 1000 * authorizer.ttl, result)
            if len(self.kept) > MOST_KEPT:
                self.kept.popitem(last=False)

    async def ask(self, authorizer: Authorizer, asked: Asked, identity: List[str]) -> Tuple[Members, int]:
        """What the function answers, and in how many milliseconds."""
        form, begun = asked.format, time.monotonic()
        event = form.authorizer_event(asked.request, asked.context, asked.parameters, authorizer, asked.arn, identity)
        status, headers, result = await self.client.ask(
            "POST", target_of(authorizer.function), asked.trace,
            json.dumps(event, ensure_ascii=False).encode(errors="replace"))
        name = authorizer.function
        if status != 200:
            raise Refused(f"its authorizer {name} is answered {status} {result[:200].decode(errors='replace')}",
                          form.authorizer_failure_reply())
        has_failed = first(headers, "x-amz-function-error") is not None
        try:
            value = read_json(result, longest=LONGEST_BODY if has_failed else MOST_RESULT)
        except NotJson as fault:
            raise Refused(f"the answer of its authorizer {name}: {fault}", form.authorizer_failure_reply()) from None
        if has_failed and isinstance(value, dict) and value.get("errorMessage") == "Unauthorized":
            raise Refused(f"its authorizer {name} says Unauthorized", form.unauthorized_reply())
        if has_failed or not isinstance(value, dict):
            raise Refused(f"its authorizer {name} has failed" if has_failed else
                          f"the answer of its authorizer {name} is not an object", form.authorizer_failure_reply())
        return value, round(1000 * (time.monotonic() - begun))

    @staticmethod
    def judged(authorizer: Authorizer, asked: Asked, result: Members, took: int, keep: Any = lambda: None) -> Members:
        """What an answer says of this request. One that can be read is kept, also if it denies."""
        form, name = asked.format, authorizer.function
        try:
            context, principal = context_in(result, form.is_rest, authorizer.is_simple)
            verdict: Union[Verdict, bool] = (result["isAuthorized"] if authorizer.is_simple
                                             else verdict_of(result.get("policyDocument"), asked.arn))
        except WrongPolicy as fault:
            raise Refused(f"the answer of its authorizer {name}: {fault}", form.authorizer_failure_reply()) from None
        keep()
        if verdict in (False, Verdict.DENIED, Verdict.NOT_ALLOWED):
            why = "denies it" if verdict is not Verdict.NOT_ALLOWED else f"allows nothing for {asked.arn}"
            raise Refused(f"its authorizer {name} {why}", form.forbidden_reply(verdict is Verdict.DENIED))
        members = form.by_lambda(context, principal)
        return {**members, "integrationLatency": took} if form.is_rest else members


def context_in(result: Members, is_rest: bool, is_simple: bool) -> Tuple[Members, Optional[str]]:
    """The context of an answer, and its principal; WrongPolicy if it is none."""
    if is_simple and not isinstance(result.get("isAuthorized"), bool):
        raise WrongPolicy("isAuthorized must be true or false: \"simple\" is true")
    principal, context = result.get("principalId"), result.get("context")
    if not is_simple and (principal is None and is_rest or not isinstance(principal, (str, type(None)))):
        raise WrongPolicy("principalId must be a string")
    if not isinstance(context, (dict, type(None))):
        raise WrongPolicy("context must be an object")
    if is_rest and any(isinstance(value, (dict, list)) for value in (context or {}).values()):
        raise WrongPolicy("a REST API takes no object and no list in context")
    return context or {}, principal
