"""Whether a runtime is of use again: after a failure, as Lambda uses it again."""
import time
from typing import Any, Optional, Set

from .kit import Finding, Missing, deed
from .process import Process
from .stage import Stage, shown

TYPE, MESSAGE = "OutOfCheese", "no cheese left, says M\u00fcller"
OF_IDENTIFIERS, OF_TRACES = ("request_id",), ("trace_id", "trace_renewed")  # the checks that are about these
ACCEPTED = 202
SLACK = 100  # milliseconds between a look at a clock here and one in the handler, beyond what the exchanges show


def usable(stage: Stage) -> None:
    """Starts a process that has ended anew, as Lambda does; Missing if none comes to wait for an invocation."""
    for is_last in (False, True):
        for environment in stage.environments:
            if environment.process.ended:
                environment.revive()
        try:
            return stage.idle()
        except Missing:  # (it may have ended only now)
            if is_last or not any(environment.process.ended for environment in stage.environments):
                raise
    return None


def fault_after(stage: Stage, word: str = "again", process: Optional[Process] = None) -> Optional[Finding]:
    """What is wrong with an output, an error and an output after one another; none if they are right. If a process is
    given, the first output is to be its own."""
    try:
        if process and process.ended:
            return Finding(f"it asked for its next invocation, and then {process.how_it_ended()}")
        usable(stage)
        for place in (1, 2):
            text = f"{word} {place}"
            output = stage.output({"do": "echo", "value": text})
            if output != text:
                return deed(f"a later caller received {shown(output)} in place of {shown(text)}")
            if place == 1:
                answer = stage.invoke({"do": "fail", "type": TYPE, "message": word})
                if not answer.failed or answer.report.get("errorMessage") != word:
                    came = answer.came(f"a later caller received {shown(answer.body)} in place of the error {word}")
                    return came._replace(about=("error_reported", "error_message", "error_texts"))
                usable(stage)
    except Missing as missing:
        return later(missing)
    return answered_twice(stage) or asked_early(stage)


def later(missing: Missing) -> Finding:
    """What did not come, of an invocation that followed what a check is about."""
    return missing.finding.within(f"a later invocation: {missing}")._replace(is_later=True)


def answered_twice(stage: Stage) -> Optional[Finding]:
    """An invocation that was answered again once its answer had been accepted."""
    accepted: Set[Optional[str]] = set()
    for exchange in stage.environment.proxy.of("response", "error"):
        if exchange.request_id in accepted:
            return deed(f"an invocation is answered twice: {exchange}", "responds_once")
        if exchange.status == ACCEPTED and not exchange.by_rule:
            accepted.add(exchange.request_id)
    return None


def asked_early(stage: Stage) -> Optional[Finding]:
    """A Next that was asked for after a delivery and before the response to it."""
    proxy = stage.environment.proxy
    polls, sent = proxy.of("next"), proxy.of("response", "error")
    for poll in polls:
        own = next((one.begun for one in sent if one.request_id == poll.delivered), None)
        if poll.delivered and own and not poll.by_rule and any(poll.end <= other.begun < own for other in polls):
            return deed(f"it asks for the next invocation before it responds to {poll.delivered}",
                        "next_after_response", "one_next")
    return None


def context_fault(stage: Stage, trace: Optional[str]) -> Optional[Finding]:
    """What is wrong with what the handler sees of its invocation; none if all is right."""
    answer = stage.invoke({"do": "context", "value": 0}, trace=trace)
    seen = answer.value if not answer.failed and isinstance(answer.value, dict) else {}
    pairs = (("request identifier", seen.get("requestId"), answer.headers.get("x-amzn-requestid"), OF_IDENTIFIERS),
             ("trace", seen.get("traceId"), trace, OF_TRACES))
    for name, came, wanted, about in pairs:
        if came != wanted:
            return deed(f"the handler sees the {name} {shown(came)} in place of {wanted}", *about)
    return remaining_fault(stage, seen.get("remaining"), answer.headers.get("x-amzn-requestid"))


def context_fault_after(stage: Stage, trace: Optional[str]) -> Optional[Finding]:
    """The same, of the invocation that follows a failure."""
    try:
        usable(stage)
        return context_fault(stage, trace)
    except Missing as missing:
        return later(missing)


def remaining_fault(stage: Stage, remaining: Any, request: Optional[str]) -> Optional[Finding]:
    """What is wrong with the remaining time that the handler saw first: it is the deadline less the moment of that
    look, which is between the delivery and the response."""
    polls = [one for one in stage.environment.proxy.of("next") if one.delivered == request]
    sent = [one for one in stage.environment.proxy.of("response") if (one.request_id or "").lower() == request]
    if not polls or not sent:
        return None
    deadline = int(polls[-1].told["lambda-runtime-deadline-ms"])
    offset = time.time() - time.monotonic()
    most, least = (deadline - 1000 * (moment + offset) for moment in (polls[-1].end, sent[0].begun))
    first = remaining[0] if isinstance(remaining, list) and remaining else None
    if not isinstance(first, (int, float)) or isinstance(first, bool) or not least - SLACK <= first <= most + SLACK:
        return Finding(f"the remaining milliseconds are {shown(first)}: until {deadline} they were between "
                       f"{least:.0f} and {most:.0f}", about=("deadline",))
    return None
