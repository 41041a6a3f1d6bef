"""Compares a reply with the definitions' answer, up to identifiers, times and texts that are a service's own."""
import json
from typing import Any, Dict, Iterator, List, NamedTuple, Optional, Tuple

from lambda_local.history.entries import count_in
from lambda_local.history.words import Word

from ..clock import CLOCK
from ..pages import (EXTENSION_EXIT_ERROR, EXTENSION_INIT_ERROR, EXTENSION_NEXT, INIT_ERROR, INIT_PHASE, INVOKE_ERROR,
                     NEXT, REGISTER, RESPONSE, Page)
from .calls import NEVER_GIVEN, Call, Ids
from .known import AFTER_ANSWER
from .oracle import Given, Plan
from .wire import Exchange

Pair = Tuple[str, Any, Any]  # a name, what came, and what is expected

INVOKE = Page("AWS Lambda API Reference, Invoke", "Response Elements",
              "https://docs.aws.amazon.com/lambda/latest/api/API_Invoke.html")
INVOKE_ERRORS = INVOKE._replace(part="Errors")
PAGES = {"invoke": INVOKE, "next": NEXT, "response": RESPONSE, "response-too-large": RESPONSE, "failure": INVOKE_ERROR,
         "init-failure": INIT_ERROR, "register": REGISTER, "ext-next": EXTENSION_NEXT,
         "ext-init-failure": EXTENSION_INIT_ERROR, "ext-exit-failure": EXTENSION_EXIT_ERROR}
TOLERANCE, MOST_TOLERANCE = 400, 1500  # milliseconds that a deadline may differ by, on a calm and on a busy machine
MOST_END = 2000  # milliseconds of the Shutdown phase
SLOW_ANSWER = 300  # more that the answer may take on its way
JSON = "application/json"
STATUSES = {"deliver": 200, "tell": 200, "shutdown": 200, "registered": 200, "accepted": 202, "output": 200,
            "error": 200, "timeout": 200, "init-timeout": 200, "too-large-output": 200, "throttled": 429, "State": 403,
            "Replaced": 403, "BadId": 400, "Unknown": 403, "TooLarge": 413, "Container": 500, "NameInUse": 403,
            "TooMany": 403}
AT_END = ("Container", "State-at-end")  # refusals of an environment that is ending
TEXT = "a text of the service's own"
ERROR_MEMBERS = ("errorType", "errorMessage")
VERSION = "$LATEST"
NOT_ASKED, QUALIFIED = "no accountId, which was not asked for", ":" + VERSION


class Aspect(NamedTuple):
    """One respect in which a reply is not what the definitions say."""
    name: str
    theirs: str
    ours: str
    parts: bool = False  # whether the two are apart from here on, so that nothing later can be compared


class Missing(str):
    """What a reply does not have."""


def label_of(given: Given, answered_before: bool, asked_before: bool) -> str:
    """Returns the word for an answer: its kind, or why it is refused, as `docs/differences.md` distinguishes them.
    `answered_before` is whether the open invocation has its answer, `asked_before` whether a Next of the one that makes
    the call waits."""
    answer = given.answer
    if given.at_end and (answer.reason == "State" or answer.word is Word.ACCEPTED):
        return f"{answer.reason or answer.word}-at-end"
    if answer.word is Word.REFUSED:
        return answer.reason or ""
    if answer.word is Word.ERROR and given.cause.startswith("ext-"):
        return "error-of-extension"
    if answer.word is Word.ERROR and given.cause == "init-failure":
        return "error-of-init"
    if answer.word is Word.THROTTLED and answered_before:
        return AFTER_ANSWER
    if answer.word is Word.ACCEPTED and given.cause.endswith("init-failure") and asked_before:
        return "accepted-after-next"
    return str(answer.word)


def status_of(label: str) -> int:
    return STATUSES[label] if label in STATUSES else STATUSES[label.split("-")[0]]


class Judge:
    """Knows the identifiers that the service gave in a sequence."""

    def __init__(self, plan: Plan, is_strict: bool = False) -> None:
        self.plan, self.is_strict = plan, is_strict  # whether a timeout may be no later on a busy machine
        self.is_late = False  # whether one was later than on a calm one
        self.ids: Ids = {}
        self.deadlines: Dict[str, int] = {}  # by the labels of invocations, what Lambda-Runtime-Deadline-Ms said
        self.arns: Dict[str, str] = {}  # and Lambda-Runtime-Invoked-Function-Arn
        self.since: Optional[float] = None  # when the call was sent that gave the answers of this step

    def aspects(self, given: Given, label: str, exchange: Exchange) -> List[Aspect]:
        """The respects in which a reply is another than the answer that is given."""
        wanted = status_of(label)
        if exchange.status != wanted:
            both_refuse = wanted >= 400 and 400 <= exchange.status < (600 if label in AT_END else 500)
            name = "refusal" if both_refuse else "status" if exchange.status else "connection"
            return [Aspect(name, exchange.ended or shown(exchange), f"{wanted} {label}", not both_refuse)]
        found = []
        content = exchange.headers.get("content-type", "")
        if wanted < 400 and exchange.body and content.split(";")[0].strip().lower() != JSON:
            found.append(Aspect("content-type", repr(content) if content else "no content-type", JSON))
        judged = getattr(self, "_" + str(given.answer.word).replace("-", "_"), None)
        for name, theirs, ours in judged(given, exchange) if judged else ():
            if theirs != ours:
                found.append(Aspect(name, theirs if isinstance(theirs, Missing) else repr(theirs), str(ours)))
        return found

    # ---- each gives what is compared: a name, what came, and what is expected; the same if all is well ----

    def _deliver(self, given: Given, exchange: Exchange) -> Iterator[Pair]:
        label, invoke = self._invocation_of(given)
        identifier = header(exchange, "lambda-runtime-aws-request-id")
        yield "request-id", identifier, a_text(identifier)
        if not isinstance(identifier, Missing):
            yield "request-id", identifier, "one of its own" if identifier in self.ids.values() else identifier
            self.ids[False, label] = identifier
        deadline = header(exchange, "lambda-runtime-deadline-ms")
        yield self._deadline(deadline, given, exchange)
        if str(deadline).isdigit():
            self.deadlines[label] = int(deadline)
        arn = header(exchange, "lambda-runtime-invoked-function-arn")
        yield "function-arn", arn, a_text(arn)
        if not isinstance(arn, Missing):
            self.arns[label] = arn
            unqualified = arn[:-len(QUALIFIED)] if arn.endswith(QUALIFIED) else arn
            yield "qualifier", arn, unqualified + (QUALIFIED if invoke.qualified else "")
        trace = header(exchange, "lambda-runtime-trace-id")
        yield "trace-id", trace, invoke.trace or trace
        yield "payload", exchange.body, invoke.body or b"{}"

    def _invocation_of(self, given: Given) -> Tuple[str, Call]:
        """The one that is delivered or told, and its label."""
        label = self.plan.label_of(count_in(given.answer.request or "0")) or NEVER_GIVEN
        return label, next(call for call in self.plan.sequence.calls if (call.kind, call.label) == ("invoke", label))

    def _tell(self, given: Given, exchange: Exchange) -> Iterator[Pair]:
        identifier = header(exchange, "lambda-extension-event-identifier")
        yield "event-id", identifier, a_text(identifier)
        event = members(exchange)
        yield "event-type", event.get("eventType", Missing("no eventType")), "INVOKE"
        label, invoke = self._invocation_of(given)
        known = self.ids.get((False, label))
        request = event.get("requestId", Missing("no requestId"))
        yield "request-id", request, known or a_text(request)
        yield self._deadline_of_event(event.get("deadlineMs", Missing("no deadlineMs")), given, exchange)
        arn = event.get("invokedFunctionArn", Missing("no invokedFunctionArn"))
        yield "function-arn", arn, self.arns.get(label) or a_text(arn)
        if invoke.trace:
            yield "tracing", event.get("tracing"), {"type": "X-Amzn-Trace-Id", "value": invoke.trace}

    def _shutdown(self, given: Given, exchange: Exchange) -> Iterator[Pair]:
        event = members(exchange)
        yield "event-type", event.get("eventType", Missing("no eventType")), "SHUTDOWN"
        reason = event.get("shutdownReason", Missing("no shutdownReason"))
        ours = given.answer.reason or ""
        yield "reason", reason, reason if str(reason).upper() == ours else ours  # (its case: docs/differences.md)
        deadline = event.get("deadlineMs", Missing("no deadlineMs"))
        fits = isinstance(deadline, int) and -self._late(exchange) <= deadline - exchange.wall <= MOST_END + TOLERANCE
        yield "deadline", deadline, deadline if fits else f"Unix milliseconds, {exchange.wall:.0f} and up to 2 s more"

    def _registered(self, given: Given, exchange: Exchange) -> Iterator[Pair]:
        identifier = header(exchange, "lambda-extension-identifier")
        yield "extension-id", identifier, a_text(identifier)
        if not isinstance(identifier, Missing):
            yield "extension-id", identifier, "one of its own" if identifier in self.ids.values() else identifier
            self.ids[True, self.plan.sequence.calls[given.call].label] = identifier
        told = members(exchange)
        asks = self.plan.sequence.calls[given.call].fields[-1] == "a"
        for name in ("functionName", "functionVersion", "handler", *(["accountId"] if asks else [])):
            value = told.get(name, Missing(f"no {name}"))
            yield "member-" + name, value, VERSION if name == "functionVersion" else a_text(value)
        if not asks:
            yield "member-accountId", told.get("accountId", NOT_ASKED), NOT_ASKED

    def _of_invoke(self, given: Given, exchange: Exchange) -> Iterator[Pair]:
        """What each answer to an Invoke has that a function gave, or that stands in its place."""
        version = header(exchange, "x-amz-executed-version")
        yield "executed-version", version, VERSION
        known = self.ids.get((False, self.plan.sequence.calls[given.call].label))
        told = exchange.headers.get("x-amzn-requestid")
        if known and told:
            yield "request-id", told, known

    def _output(self, given: Given, exchange: Exchange) -> Iterator[Pair]:
        yield from self._of_invoke(given, exchange)
        flag = header(exchange, "x-amz-function-error")
        yield "function-error", flag, Missing("no x-amz-function-error") if not isinstance(flag, Missing) else flag
        yield "output", exchange.body, given.answer.body

    def _error(self, given: Given, exchange: Exchange) -> Iterator[Pair]:
        yield self._flag(exchange)
        yield from self._of_invoke(given, exchange)
        if given.cause.startswith("ext-"):  # (docs/differences.md)
            yield from self._named(exchange)
        elif given.cause == "init-failure":  # (no page says that the caller gets it as it is)
            told, ours = members(exchange), members_of(given.answer.body or b"")
            for name in ERROR_MEMBERS:
                value = told.get(name, Missing(f"no {name}"))
                yield "report", value, ours.get(name, value)
        else:
            yield "report", exchange.body, given.answer.body

    def _timeout(self, given: Given, exchange: Exchange) -> Iterator[Pair]:
        yield self._flag(exchange)
        deadline = self.deadlines.get(self.plan.sequence.calls[given.call].label)
        if given.answer.word is Word.TIMEOUT and deadline:
            late = exchange.wall - deadline
            most = TOLERANCE if self.is_strict else tolerance()  # (a busy machine makes it late, and not early)
            fits = -TOLERANCE <= late <= most + SLOW_ANSWER
            self.is_late = self.is_late or late > TOLERANCE + SLOW_ANSWER
            words = f"{abs(late) / 1000:.1f} s {'after' if late > 0 else 'before'} its Lambda-Runtime-Deadline-Ms"
            yield "moment", "" if fits else words, "" if fits else "then"
        yield from self._named(exchange)

    @staticmethod
    def _named(exchange: Exchange) -> Iterator[Pair]:
        """An error with a type and a message, whose texts are the service's own (docs/differences.md)."""
        told = members(exchange)
        for name in ERROR_MEMBERS:
            value = told.get(name, Missing(f"no {name}"))
            yield "member-" + name, value, a_text(value)

    _init_timeout = _too_large_output = _timeout

    def _throttled(self, given: Given, exchange: Exchange) -> Iterator[Pair]:
        kind = header(exchange, "x-amzn-errortype")
        name = kind if isinstance(kind, Missing) else kind.split(":")[0]
        yield "error-type", name, "TooManyRequestsException"

    def _refused(self, given: Given, exchange: Exchange) -> Iterator[Pair]:
        yield from self._named(exchange)

    @staticmethod
    def _flag(exchange: Exchange) -> Pair:
        flag = header(exchange, "x-amz-function-error")
        return "function-error", flag, "Unhandled"

    def _deadline(self, value: Any, given: Given, exchange: Exchange) -> Pair:
        """A deadline in Unix milliseconds, by the service's clock, which is this one's up to a little. It was told
        between the call that led to it and its arrival here, which is late on a busy machine."""
        number = int(value) if str(value).isdigit() else None
        ours = exchange.wall + given.remaining
        fits = number is not None and -self._late(exchange) <= number - ours <= TOLERANCE
        return "deadline", value, value if fits else f"about {ours:.0f}"

    def _late(self, exchange: Exchange) -> float:
        """By how many milliseconds its arrival here may be late."""
        if self.since is None or exchange.answered is None:
            return tolerance()
        return TOLERANCE + 1000 * (exchange.answered - self.since)

    def _deadline_of_event(self, value: Any, given: Given, exchange: Exchange) -> Pair:
        """That of the invocation, to within a little."""
        known = self.deadlines.get(self.plan.label_of(count_in(given.answer.request or "0")) or NEVER_GIVEN)
        if known is None or not str(value).isdigit():
            return self._deadline(value, given, exchange)
        fits = abs(int(value) - known) <= TOLERANCE
        return "deadline", value, value if fits else f"{known}, as Lambda-Runtime-Deadline-Ms of that invocation"


def tolerance() -> float:
    """Milliseconds by which a moment may differ."""
    return min(MOST_TOLERANCE, TOLERANCE * CLOCK.slowness() ** 2)


def header(exchange: Exchange, name: str) -> str:
    return exchange.headers.get(name) or Missing(f"no {name}")


def a_text(value: Any) -> str:
    return value if isinstance(value, str) and value and not isinstance(value, Missing) else TEXT


def members(exchange: Exchange) -> Dict[str, Any]:
    return members_of(exchange.body)


def members_of(body: bytes) -> Dict[str, Any]:
    try:
        found = json.loads(body)
    except ValueError:
        found = None
    return found if isinstance(found, dict) else {}


def shown(exchange: Exchange, most: int = 100) -> str:
    """A reply as a few words."""
    if not exchange.over:
        return "no answer: it waits"
    if exchange.ended:
        return exchange.ended
    body = exchange.body.decode(errors="replace")
    return f"{exchange.status} {body if len(body) <= most else body[:most] + '..'}".strip()


def page_of(call: Call, label: str) -> Page:
    return INIT_PHASE if label == "error-of-init" else PAGES[call.kind]
