"""Another Lambda: the same answers in other bytes, to a new process each."""
from typing import List, Optional

from .. import pages
from ..kit import Finding, Missing, Scenario, scenarios_of
from ..manners import Manner
from ..exchanges import Rule
from ..runtime.another import MANY, Way, titled
from .stage import ExtensionStage

SCENARIOS: List[Scenario] = []
scenario = scenarios_of(SCENARIOS)

EVENTS = 2  # that it takes in each way
ASKS = 5  # seconds in which it has asked again
WAITS = 0.3  # seconds after which a poll's connection ends
WAYS = (
    Way("header_names", pages.FIELD_NAMES,
        "names of headers are read in any case, as on the page, in upper case, and in any order",
        (Manner(named=titled), Manner(named=str.upper, backwards=True))),
    Way("chunked_answers", pages.CHUNKED, "an answer that comes in chunks is read as one that does not",
        (Manner(chunk=5), Manner(chunk=27))),
    Way("more_headers", pages.EXTENSION_NEXT, "headers that it does not know do no harm", (Manner(more=MANY),)),
    Way("slow_answers", pages.FRAMING,
        "an answer that comes in parts, with pauses between them, is read to its end, and so is one of single bytes",
        (Manner(part=120, pause=0.03), Manner(part=1, most=900))),
    Way("closing_answers", pages.CLOSING, "if each answer ends its connection, as it says, each request has a new one",
        (Manner(close=True),)),
)


@scenario(*[way[:3] for way in WAYS], timeout=6, lasts=4)
def another_lambda(stage: ExtensionStage) -> None:
    if fault := fault_in(stage, Manner()):
        raise Missing(fault)
    for way in WAYS:
        fault = next(filter(None, (fault_in(stage, manner) for manner in way.manners)), None)
        stage.check(way.name, not fault, fault)


def fault_in(stage: ExtensionStage, manner: Manner) -> Optional[Finding]:
    """What is wrong with a process that is answered in this manner."""
    stage.environment.proxy.manner = manner
    try:
        stage.begin()
        stage.idle()
        for number in range(EVENTS if stage.registered_for("INVOKE") else 0):
            answer = stage.invoke(str(number).encode())
            if answer.failed:
                return answer.came()
            stage.idle()
    except Missing as missing:
        return missing.finding
    finally:
        stage.environment.proxy.manner = None
        stage.forget()
    return None


@scenario(
    ("connection_end", pages.RETRYING,
     "if its peer ends the connection after an event, it asks for the next one on a new connection"))
def connection_ends(stage: ExtensionStage) -> None:
    environment = stage.environment
    stage.begin()
    stage.idle()
    if not stage.registered_for("INVOKE"):
        return stage.note("connection_end", "it does not register for INVOKE")
    environment.proxy.of("event")[-1].by_rule = Rule("event", close=True)
    stage.invoke(b"1")
    event = stage.event("INVOKE")
    return stage.check("connection_end", environment.asked_after(event, ASKS, "event"),
                       f"no Next within {ASKS} s: {stage.ended()}")


@scenario(
    ("lost_poll", pages.RETRYING,
     "if the connection ends while Next waits, it asks again, or ends: it waits for no answer that cannot come"))
def lost_poll(stage: ExtensionStage) -> None:
    environment = stage.environment
    environment.proxy.rule = Rule("event", ends_after=WAITS)
    stage.register()
    if not environment.asked(kind="event"):
        raise Missing(stage.lacks("it did not ask for an event"))
    lost = environment.proxy.of("event")[0]
    environment.proxy.wait(lambda: lost.ended, ASKS)
    goes_on = environment.asked_after(lost, ASKS, "event") or environment.process.ended
    stage.check("lost_poll", goes_on, f"{ASKS} s after the connection of its Next ended it has done neither")
