"""Requests and connections: how many, one after the other, and what becomes of them."""
import math
from typing import List, Optional

from .. import pages
from ..again import MESSAGE, TYPE, fault_after, usable
from ..clock import CLOCK
from ..kit import Missing, Scenario, deed, scenarios_of
from ..exchanges import Exchange, Rule
from ..stage import Stage, shown
from .payloads import received

SCENARIOS: List[Scenario] = []
scenario = scenarios_of(SCENARIOS)

ROUNDS = 5
SETTLES = 1  # seconds in which a poll too many is seen
ASKS = 5  # seconds in which it has asked again
LOOKS_UP = 0.2  # seconds in which a connection's end is known to both sides
LONG_TIMEOUT = 60  # seconds that a function has whose handler works for long
LONGEST_WORK = 10  # seconds of it, at most
WORKS = 300  # milliseconds that a handler works, in which its connection ends


@scenario(
    ("one_next", pages.NEXT, "there is one Next at a time: no second one while one waits"),
    ("next_after_response", pages.PROCESSING_TASKS,
     "Next is asked for after the response was sent, and not while the handler works"),
    ("responds_once", pages.RESPONSE, "each invocation gets one response, or one error"),
    ("identifier_as_given", pages.RESPONSE,
     "the path of a response has the request identifier letter by letter, as Lambda-Runtime-Aws-Request-Id has it"),
    ("known_routes", pages.NEXT, "it makes no request of another route than the Runtime API has"))
def one_after_the_other(stage: Stage) -> None:
    for number in range(ROUNDS):
        stage.output({"do": "sleep", "value": 20 * (number % 2)})
    stage.invoke({"do": "fail", "type": TYPE, "message": MESSAGE})
    usable(stage)
    stage.output({"do": "echo", "value": "after an error"})
    stage.idle()
    CLOCK.sleep(SETTLES)
    proxy = stage.environment.proxy
    polls = proxy.of("next")
    overlap = next(((one, other) for one, other in zip(polls, polls[1:])
                    if other.begun < one.end), None)
    stage.check("one_next", overlap is None,
                deed("a second Next while one waited"))
    judge_responses(stage, polls, proxy.of("response", "error"))
    stray = [one for one in proxy.of("other") if one.refused]
    stage.check("known_routes", not stray, deed(str(stray and stray[0])))


def judge_responses(stage: Stage, polls: List[Exchange], sent: List[Exchange]) -> None:
    early, counts = 0, []
    otherwise: Optional[Exchange] = None
    for poll in polls:
        if poll.delivered:
            own = [one for one in sent if simple(one.request_id or "") == simple(poll.delivered)]
            counts.append(len(own))
            otherwise = otherwise or next((one for one in own if one.request_id != poll.delivered), None)
            # (the proxy notes an answer before it forwards it: what comes by it is later)
            early += any(poll.end <= other.begun and (not own or other.begun < (own[0].asked or math.inf))
                         for other in polls)
    stage.check("next_after_response", early == 0,
                deed(f"in {early} of {len(counts)} invocations Next came before the response"))
    stage.check("responds_once", all(count == 1 for count in counts),
                deed(f"responses to each of {len(counts)} invocations: {counts}"))
    stage.check("identifier_as_given", otherwise is None, deed(f"{otherwise}: the identifier was given otherwise"))


def simple(identifier: str) -> str:
    """An identifier without what a lenient service looks over."""
    return identifier.lower().replace("-", "").strip("{}")


@scenario(
    ("keep_alive", pages.PERSISTENCE,
     "requests share connections, which HTTP/1.1 recommends; a connection for each one is a NOTE"))
def kept_alive(stage: Stage) -> None:
    for number in range(ROUNDS):
        stage.output({"do": "echo", "value": number})
    requests, used = len(stage.environment.proxy.exchanges), stage.environment.proxy.connections
    if used >= requests:
        return stage.note("keep_alive", f"{requests} requests on {used} connections")
    return stage.check("keep_alive", True, "", f"{requests} requests on {used} connections")


@scenario(
    ("connection_end", pages.RETRYING,
     "if its peer ends the connection, while the handler works or after a response, it goes on with a new one; one "
     "that ends itself as it asks for its next invocation is a SHOULD"))
def connection_ends(stage: Stage) -> None:
    environment = stage.environment
    stage.idle()
    environment.proxy.of("next")[-1].by_rule = Rule("next", close=True)
    works = round(WORKS * CLOCK.slowness())  # (so that the end is surely there when the handler returns)
    output = stage.output({"do": "sleep", "value": works})
    if output != works:
        return stage.check("connection_end", False, deed(f"the caller received {shown(output)}"))
    if fault := fault_after(stage, "after the connection's end", environment.process):
        return stage.check("connection_end", False, fault)
    return ends_after_response(stage)


def ends_after_response(stage: Stage) -> None:
    """(A Next that is on its way when the connection ends may be lost, and RFC 9112 asks no client to repeat it: one
    that ends for that is replaced.)"""
    environment = stage.environment
    process = environment.process
    environment.proxy.rule = Rule("response", close=True)
    stage.output({"do": "echo", "value": 1})
    response = environment.saw("response", 5, len(environment.proxy.of("response")))
    if response is None or not (environment.asked_after(response, ASKS) or process.ended):
        raise Missing(stage.lacks(f"no Next within {ASKS} s after the connection's end"))
    ended = process.wait(LOOKS_UP)
    fault = fault_after(stage, "after the connection's end")
    if ended and not fault:
        return stage.should("connection_end", f"{process.how_it_ended()} when the connection ended as it asked for its "
                                              "next invocation")
    return stage.check("connection_end", not fault, fault)


@scenario(
    ("next_without_timeout", pages.NEXT,
     "Next has no timeout: it waits as long as there is no invocation (--idle-seconds, 5 by default)"),
    lasts=5)
def idle_for_long(stage: Stage) -> None:
    environment, seconds = stage.environment, stage.tools.options.idle_seconds
    stage.output({"do": "echo", "value": "at first"})  # (what it leaves may end what comes after it)
    stage.idle()
    if poll := environment.given_up("next", seconds):
        return stage.check("next_without_timeout", False,
                           f"it gave its Next up after {poll.end - poll.begun:.1f} s; "
                           f"{environment.process.how_it_ended()}")
    output = stage.output({"do": "echo", "value": "at last"})
    return stage.check("next_without_timeout", output == "at last",
                       f"after {seconds:g} s the invocation had the output {shown(output)}")


@scenario(
    ("long_handler", pages.INVOKE_PHASE,
     "a handler may work until the function's timeout: here for as long as a Next waits (--idle-seconds, 5 by "
     "default), of a timeout of 60 s"), timeout=LONG_TIMEOUT, lasts=5)
def works_for_long(stage: Stage) -> None:
    stage.idle()
    value = round(1000 * min(stage.tools.options.idle_seconds, LONGEST_WORK))
    received(stage, "long_handler", {"do": "sleep", "value": value}, value)
    received(stage, "long_handler", {"do": "echo", "value": "after it"}, "after it")
