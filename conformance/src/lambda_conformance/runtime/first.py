"""The first echo, without which nothing else can be judged."""
import concurrent.futures
from typing import Any, Dict, List, Tuple, cast

from lambda_local.service import Fault

from .. import pages
from ..kit import Missing, Scenario, scenarios_of
from ..stage import Answer, Event, Stage, compact, shown
from ..watch import OwnTime
from .payloads import is_json

SCENARIOS: List[Scenario] = []
scenario = scenarios_of(SCENARIOS)

ACCEPTED = 202
SECONDS = 10  # for the first answer
HANDLER = "docs/conformance.md has the handler that is expected, and examples/conformance has it for some languages"
NOTHING = (b"", b"null", b"{}", b"undefined")  # what stands for no result
# Events that the handler answers otherwise than any other handler would, with what it gives.
PROBES: Tuple[Tuple[Dict[str, Any], Any], ...] = (
    ({"do": "echo", "value": 17}, 17), ({"do": "large", "value": 3}, "xxx"), ({"do": "bytes", "value": "a"}, [97]))
# What comes next, without which most other checks would fail for the same cause.
BASICS: Tuple[Dict[str, Any], ...] = (
    {"do": "echo", "value": "a text"}, {"do": "echo", "value": {"name": ["b", 2]}}, {"do": "echo", "value": [18]})


@scenario(
    ("first_echo", pages.RESPONSE,
     "what the handler returns reaches the caller: a number, a text, an object and a list, in invocations after one "
     "another; if it does not, nothing else can be judged"),
    timeout=SECONDS, first=True)
def first_echo(stage: Stage) -> None:
    stage.refuse_if_it_ended()
    answers = []
    for event, expected in PROBES:
        answer = first_answer(stage, event)
        if not answer.failed and is_json(answer.body, expected):
            break
        answers.append(answer)
    else:
        refuse_another_handler(answers)
    if answers:
        return is_wrong(stage, PROBES[0][0], answers[0])
    for event in BASICS:
        answer = first_answer(stage, event)
        if answer.failed or not is_json(answer.body, event["value"]):
            return is_wrong(stage, event, answer)
    return stage.check("first_echo", True, "")


def is_wrong(stage: Stage, event: Event, answer: Answer) -> None:
    """The one FAIL of a runtime of which nothing else can be judged."""
    stage.jury.stops = True
    why = f": is what the handler returns awaited, and passed on? Else {HANDLER}" if gives_nothing([answer]) else ""
    words = f"for {shown(compact(event))} the caller received {shown(answer.body)}{why}"
    stage.check("first_echo", False, answer.came(words))


def first_answer(stage: Stage, event: Event) -> Answer:
    """What the caller receives; Missing as soon as it is clear that nothing right comes."""
    environment = stage.environment
    waiting, own = stage.later(stage.invoke, event), OwnTime(environment.process.number)
    while not waiting.done():
        concurrent.futures.wait([waiting], 0.02)
        sent = environment.proxy.of("response", "error", "other")
        accepted = [one.request_id for one in sent if one.status == ACCEPTED]  # (the caller may not have it yet)
        refused = next((one for one in sent if one.refused and one.request_id not in accepted), None)
        if refused and not waiting.done():
            raise Missing(refused.finding("its answer is refused"))
        if stage.waits():
            own = OwnTime(environment.process.number)
        if own.look() > SECONDS and not waiting.done():
            raise Missing(stage.lacks(f"the caller has no answer after {SECONDS} s"))
    return cast(Answer, waiting.result())


def refuse_another_handler(answers: List[Answer]) -> None:
    """A handler that gives the same for different events, or each event back, is not the kit's. (If it gives nothing,
    its runtime may have lost that.)"""
    bodies = [answer.body for answer in answers]
    if gives_nothing(answers):
        return
    came = f"for {shown(compact(PROBES[0][0]))} the caller received {shown(bodies[0])}"
    if len({(answer.failed, reported(answer)) for answer in answers}) == 1:
        raise Fault(2, f"{came}, and the same for other events: {HANDLER}")
    if not any(answer.failed for answer in answers) and all(
            "".join(compact(event).decode().split()) in "".join(body.decode(errors="replace").replace("\\", "").split())
            for (event, _), body in zip(PROBES, bodies)):
        raise Fault(2, f"{came}, which has the event in it: {HANDLER}")


def gives_nothing(answers: List[Answer]) -> bool:
    return not any(answer.failed or answer.body.strip() not in NOTHING for answer in answers)


def reported(answer: Answer) -> Any:
    """The output; of an error the type and the message."""
    return (answer.body if not answer.failed else
            (answer.report.get("errorType"), answer.report.get("errorMessage")))
