"""Many events, one after the other."""
from math import inf
from typing import List

from .. import leaks, pages
from ..files import Files
from ..kit import NOTE, Missing, Scenario, deed, scenarios_of
from .stage import ExtensionStage

SCENARIOS: List[Scenario] = []
scenario = scenarios_of(SCENARIOS)

EVENTS = 2000  # unless --invocations says how many
SECONDS = 8  # that they may take, unless it does
MOST, PATIENCE = 10_000, 30  # events, and seconds more for them, for as long as memory grows
EVERY = 4  # events: what an extension does at each of them, or as often, other checks are about
CHECKS = {"memory": "memory", "descriptors": "descriptors", "threads": "threads", "processes": "children",
          "zombies": "zombies"}


@scenario(
    ("many_events", pages.EXTENSION_INVOKE,
     f"it takes {EVENTS} events, one after the other, or as many as there are in {SECONDS} s"),
    ("memory", pages.REUSE, "many events leave nothing in memory: what it takes stops growing"),
    ("descriptors", pages.REUSE, "many events leave no descriptors open"),
    ("threads", pages.REUSE, "many events leave no threads behind"),
    ("children", pages.REUSE, "many events leave no processes running"),
    ("zombies", pages.REUSE, "many events leave no ended processes that are not waited for"),
    ("files", pages.REUSE, "many events leave no large files; a small one for each is a SHOULD"),
    lasts=10, drawn=False, collects_early=True)
def many_events(stage: ExtensionStage) -> None:
    stage.begin()
    stage.idle()
    if not stage.registered_for("INVOKE"):
        return stage.jury.rest(NOTE, "it does not register for INVOKE")
    process, given = stage.environment.process, stage.tools.options.invocations
    course = (leaks.Course(given, inf, given, 0, leaks.SUSPECT_OF_EVENTS) if given
              else leaks.Course(EVENTS, SECONDS, MOST, PATIENCE, leaks.SUSPECT_OF_EVENTS))

    def once(number: int) -> None:
        if stage.invoke(str(number).encode()).failed or process.ended:
            raise Missing(stage.lacks(f"it did not take event {number + 1}"))
    def marks() -> List[bytes]:
        told = [event["requestId"].encode() for event in map(stage.body_of, stage.events("INVOKE")[-200:])]
        return [stage.identifier.encode(), *told]
    files, requests = Files(stage, marks), stage.environment.proxy.exchanges
    before = len(requests)
    try:
        looks = leaks.repeat(process, once, course, files)
        stage.event("INVOKE", looks.done)
    except Missing as missing:
        stage.check("many_events", False, missing.finding)
        return stage.jury.rest(NOTE, "not judged: it does not take as many")
    stage.check("many_events", not process.ended, stage.ended(), f"{looks.done} events")
    refused = [one for one in requests[before:] if one.refused and one.kind != "event"]
    if 0 < len(refused) < looks.done // EVERY:
        stage.check("many_events", False,
                    deed(f"of its requests at {looks.done} events {len(refused)} are refused: {refused[0]}"))
    leaks.judge(stage, looks, CHECKS, course.wanted)
    return files.judge("files")
