"""Another Lambda: the same answers in other bytes, as HTTP/1.1 and the pages allow them, one way after the other."""
from typing import List, NamedTuple, Optional, Sequence, Tuple

from .. import pages
from ..again import OF_IDENTIFIERS, fault_after, usable
from ..kit import FAIL, PASS, SHOULD, Finding, Missing, Scenario, deed, scenarios_of
from ..manners import Manner
from ..exchanges import Exchange, Rule
from ..stage import Stage, shown
from .payloads import delivered

SCENARIOS: List[Scenario] = []
scenario = scenarios_of(SCENARIOS)

TRACE = "Root=1-5759e98d-bd862e3fe1be46a994272793;Parent=53995c3f42cd8ad8;Sampled=1"
OLDER_TRACE = "Root=1-5759e98c-bd862e3fe1be46a994272793;Parent=53995c3f42cd8ad8;Sampled=1"
CLIENT_CONTEXT = ('{"client":{"installation_id":"i-1","app_title":"kit","app_version_name":"1.0",'
                  '"app_version_code":"1","app_package_name":"kit"},"custom":{"a":"b","n":"1"},'
                  '"env":{"locale":"en_US","make":"none"}}')
IDENTITY = ('{"cognitoIdentityId":"us-east-1:00000000-0000-4000-8000-000000000001",'
            '"cognitoIdentityPoolId":"us-east-1:00000000-0000-4000-8000-000000000002"}')
MANY = (("Connection", "keep-alive"), ("Keep-Alive", "timeout=60"), ("Date", "Sat, 28 Nov 2026 12:00:00 GMT"),
        ("X-Amzn-Trace-Id", "Root=1-0-0"), ("X-Request-Id", "another"), ("Server", "another"),
        ("X-Long", "x" * 3000), ("X-Empty", ""))
CUT_BODY = b'{"do":"echo","value":"this event is cut short"}'
CUT = Rule("next", reply=(200, CUT_BODY), manner=Manner(cut=len(CUT_BODY) - 12),
           headers=delivered("00000000-0000-4000-8000-00000000c001"))
TIMEOUT = 6  # seconds
HALF = 4  # of the ways, which are played beside the others
WAITS = 0.3  # seconds after which a poll's connection ends
ASKS = 5  # seconds in which it asks again, or ends


class Way(NamedTuple):
    """A way of answering, and the check of it."""
    name: str
    page: pages.Page
    expected: str
    manners: Tuple[Manner, ...]
    judged: str = FAIL  # what it is if it cannot read these


def titled(name: str) -> str:
    return "-".join(word.capitalize() for word in name.split("-"))


WAYS = (
    Way("header_names", pages.FIELD_NAMES,
        "names of headers are read in any case, as on the page, in upper case, and in any order",
        (Manner(named=titled), Manner(named=str.upper, backwards=True))),
    Way("chunked_answers", pages.CHUNKED, "an event that comes in chunks is read as one that does not, and so is each "
                                          "other answer", (Manner(kinds=("next",), chunk=7), Manner(chunk=27))),
    Way("header_spaces", pages.FIELD_LINES,
        "there may be no space, or several, between a header's colon and its value; Lambda writes one: a SHOULD",
        (Manner(spaces=""), Manner(spaces="  \t")), SHOULD),
    Way("reason_phrase", pages.STATUS_LINE, "the words behind the status of an answer may be others, or none: a SHOULD",
        (Manner(reason=""), Manner(reason="As You Like")), SHOULD),
    Way("empty_answers", pages.RESPONSE, "the body of the answer to a response, which no page describes, may be empty",
        (Manner(kinds=("response", "error"), body=b""),)),
    Way("more_headers", pages.NEXT, "headers that it does not know do no harm", (Manner(more=MANY),)),
    Way("continue_first", pages.INTERIM, "an answer 100 may come before the final one; Lambda sends none: a SHOULD",
        (Manner(interim=b"HTTP/1.1 100 Continue\r\n\r\n"),), SHOULD),
    Way("client_context", pages.NEXT,
        "Lambda-Runtime-Client-Context and Lambda-Runtime-Cognito-Identity may be there, in JSON",
        (Manner(kinds=("next",), more=(("Lambda-Runtime-Client-Context", CLIENT_CONTEXT),
                                       ("Lambda-Runtime-Cognito-Identity", IDENTITY))),)),
    Way("without_trace", pages.NEXT, "an invocation without Lambda-Runtime-Trace-Id, as without tracing, is served",
        (Manner(kinds=("next",), without=("lambda-runtime-trace-id",)),)),
    Way("slow_answers", pages.FRAMING,
        "an answer that comes in parts, with pauses between them, is read to its end, and so is one of single bytes",
        (Manner(part=120, pause=0.03), Manner(part=1, most=900))),
    Way("closing_answers", pages.CLOSING, "if each answer ends its connection, as it says, each request has a new one",
        (Manner(close=True),)),
)


def play(stage: Stage, ways: Sequence[Way]) -> None:
    stage.idle()
    if fault := fault_in(stage, "as usual", Manner()):
        raise Missing(fault)
    for way in ways:
        fault = next(filter(None, (fault_in(stage, way.name, manner) for manner in way.manners)), None)
        stage.jury.judge(way.name, way.judged if fault else PASS, fault or "")
        stage.environment.proxy.manner = None
        if fault:  # (a new process, for the ways that are still to come)
            stage.environment.revive()
            stage.idle()


@scenario(*[way[:3] for way in WAYS[:HALF]], timeout=TIMEOUT, lasts=6)
def another_lambda(stage: Stage) -> None:
    play(stage, WAYS[:HALF])


@scenario(*[way[:3] for way in WAYS[HALF:]], timeout=TIMEOUT, lasts=6)
def yet_another_lambda(stage: Stage) -> None:
    play(stage, WAYS[HALF:])


def fault_in(stage: Stage, name: str, manner: Manner) -> Optional[Finding]:
    """What is wrong with invocations that are answered in this manner."""
    try:
        usable(stage)
        if name == "without_trace":
            trace_before(stage)
        stage.environment.proxy.manner = manner
        answer = stage.invoke({"do": "context", "value": 0}, trace=TRACE)
        if answer.failed or not isinstance(answer.value, dict):
            return answer.came()
        if answer.value.get("requestId") != answer.headers.get("x-amzn-requestid"):
            return deed(f"the handler sees the request identifier {shown(answer.value.get('requestId'))}",
                        *OF_IDENTIFIERS)
        if name == "without_trace" and answer.value.get("traceId") == OLDER_TRACE:
            stage.should(name, f"the handler sees the trace of an earlier invocation, {OLDER_TRACE}")
    except Missing as missing:
        return missing.finding
    return fault_after(stage, name)


def trace_before(stage: Stage) -> None:
    """An invocation with a trace, before one without."""
    stage.invoke({"do": "echo", "value": 1}, trace=OLDER_TRACE)
    usable(stage)


@scenario(
    ("cut_event", pages.INCOMPLETE,
     "an event whose connection ends before it is whole is not taken for one (a SHOULD): it asks again, or ends"))
def cut_event(stage: Stage) -> None:
    proxy = stage.environment.proxy
    stage.idle()
    proxy.rule = CUT
    stage.output({"do": "echo", "value": 1})
    proxy.wait(lambda: any(one.by_rule for one in proxy.exchanges), ASKS)
    cut = next((one for one in proxy.of("next") if one.by_rule), None)
    if cut is None:
        raise Missing("it did not ask for a second invocation")
    goes_on(stage, "cut_event", cut, "its event was cut short")


def goes_on(stage: Stage, name: str, exchange: Exchange, since: str) -> None:
    """Judges whether it asks again or ends after an exchange that brought it nothing."""
    environment = stage.environment
    environment.proxy.wait(lambda: exchange.ended, ASKS)
    if not environment.asked_after(exchange, ASKS) and not environment.process.ended:
        return stage.check(name, False, f"{ASKS} s after {since} it has neither asked again nor ended")
    if any(one.begun >= exchange.end for one in environment.proxy.of("response")):
        stage.should(name, f"{since}, and it sent a response to what had come")
    fault = fault_after(stage, "after a lost event")
    return stage.check(name, not fault, fault)


@scenario(
    ("lost_poll", pages.RETRYING,
     "if the connection ends while Next waits, by its end or by a reset, it asks again, on a new one; one that ends "
     "itself is a SHOULD, and one that waits for an answer that cannot come is wrong"))
def lost_poll(stage: Stage) -> None:
    for number, rule in enumerate((Rule("next", ends_after=WAITS), Rule("next", ends_after=WAITS, resets=True)), 1):
        proxy = stage.environment.proxy
        stage.idle()
        proxy.rule = rule
        stage.output({"do": "echo", "value": number})
        proxy.wait(lambda: sum(bool(one.by_rule) for one in proxy.exchanges) >= number, ASKS)
        lost = [one for one in proxy.of("next") if one.by_rule][number - 1:]
        if not lost:
            raise Missing("it did not ask for a further invocation")
        since = f"the connection of its Next {'was reset' if rule.resets else 'ended'}"
        process = stage.environment.process
        goes_on(stage, "lost_poll", lost[0], since)
        if process.ended:
            stage.should("lost_poll", f"{since}, and {process.how_it_ended()}")
