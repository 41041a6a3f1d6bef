"""Answers that are refused: what the runtime does then, and that it is of use afterwards."""
from typing import List, Optional

from .. import pages
from ..again import fault_after
from ..exchanges import Exchange
from ..kit import Finding, Missing, Scenario, deed, scenarios_of
from ..manners import Manner
from ..stage import Stage, shown
from .payloads import LIMIT

SCENARIOS: List[Scenario] = []
scenario = scenarios_of(SCENARIOS)

ASKS = 5  # seconds in which it has asked again, or ended
LONG = b'{"errorMessage":"' + b"the refusal is explained at length, " * 600 + b'","errorType":"Refused"}'


def goes_on(stage: Stage, name: str, exchange: Exchange) -> None:
    """After a refusal a runtime asks for its next invocation, and is of use. That it ends instead, no document
    forbids: then a new process is."""
    environment, refused = stage.environment, exchange.status
    process, responses = environment.process, len(environment.proxy.of("response"))
    asked = environment.asked_after(exchange, ASKS)
    if not asked and not process.ended:
        again = len(environment.proxy.of("response")) - responses
        return stage.check(name, False, f"after {refused} it did not ask for its next invocation within {ASKS} s"
                                        + (f", and sent {again} more responses" if again > 0 else ""))
    if asked:  # (on a connection of which it has not read the refusal to its end it does not come further)
        process.wait(0.1)
    fault = fault_after(stage, f"after {refused}", process if asked else None)
    fault = fault or sent_again(stage, exchange)
    if fault or asked:
        return stage.check(name, not fault, fault)
    return stage.note(name, f"after {refused} {process.how_it_ended()}, which no document forbids")


def sent_again(stage: Stage, exchange: Exchange) -> Optional[Finding]:
    """A response that is sent once more after it was refused, or another one in its place, in words. (If the connection
    was reset as the refusal came, that may be lost: then the same one may come again.)"""
    sent = [one.length for one in stage.environment.proxy.of("response") if one.request_id == exchange.request_id]
    others = sum(length != exchange.length for length in sent)
    if others:
        return deed(f"after {exchange.status} it sends another response in its place: of {sent[-1]:,} bytes")
    if len(sent) < 2 or exchange.is_reset:
        return None
    return deed(f"after {exchange.status} it sends the same response again: {len(sent)} times in all")


@scenario(
    ("too_large", pages.RESPONSE,
     "after a response that is too large (413) it asks for the next invocation, and the next ones are right; an end "
     "instead is a NOTE"),
    lasts=3)
def response_too_large(stage: Stage) -> None:
    answer = stage.later(stage.invoke, {"do": "large", "value": LIMIT - 1})
    exchange = stage.environment.saw("response", 15)
    if exchange is None:
        raise Missing(f"no response of {LIMIT + 1:,} bytes was sent within 15 s")
    answer.result()
    if exchange.status != 413:
        raise Missing(deed(f"its response had {len(exchange.request.body):,} bytes in place of {LIMIT + 1:,}"))
    goes_on(stage, "too_large", exchange)


def judge_late(stage: Stage, name: str) -> None:
    stage.idle()
    answer = stage.invoke({"do": "sleep", "value": 1000 * stage.timeout + 300})
    if not answer.failed:
        raise Missing(
            f"a handler that sleeps beyond its timeout of {stage.timeout} s was answered: {shown(answer.body)}")
    exchange = stage.environment.saw("response", ASKS) or stage.environment.saw("error", 0)
    if exchange is None:
        raise Missing(f"it sent no response, not even a late one ({stage.environment.process.how_it_ended()})")
    goes_on(stage, name, exchange)


@scenario(
    ("late_response", pages.INVOKE_FAILURES,
     "after a response that is too late (403) it asks for the next invocation, and the next ones are right; an end "
     "instead is a NOTE"),
    timeout=1, lasts=3)
def response_too_late(stage: Stage) -> None:
    judge_late(stage, "late_response")


@scenario(
    ("long_refusal", pages.INVOKE_FAILURES,
     "a refusal with a long body, in chunks, is read to its end before the next answer on that connection"),
    timeout=1, lasts=3)
def response_refused_at_length(stage: Stage) -> None:
    stage.environment.proxy.manner = Manner(kinds=("response", "error"), refusals=True, body=LONG, chunk=1000)
    judge_late(stage, "long_refusal")
