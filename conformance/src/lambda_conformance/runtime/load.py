"""Many invocations, one after the other and at once."""
import uuid
from math import inf
from typing import List, Optional

from .. import leaks, pages
from ..again import MESSAGE, TYPE, usable
from ..clock import CLOCK
from ..files import Files
from ..kit import NOTE, Missing, Scenario, deed, scenarios_of
from ..stage import Stage, compact, shown

SCENARIOS: List[Scenario] = []
scenario = scenarios_of(SCENARIOS)

ENVIRONMENTS = 3
INVOCATIONS = 1000  # with a payload, unless --invocations says how many
LITTLE = 3000  # after these, with hardly any, unless it does
SECONDS, SECONDS_WITH = 6, 3.5  # that they may take, unless it does; and that those with a payload may
MOST, PATIENCE = 4000, 60  # invocations, and seconds more for them, for as long as memory grows
MOST_LITTLE, PATIENCE_LITTLE = 6000, 12  # so, of those with hardly any
PAYLOAD = 65_536  # bytes of each, and some more
EVERY = 4  # invocations of which the last one fails, unless an error ends the process
NOT_SO_MANY = "not judged: it does not take as many"
FAILURE = {"do": "fail", "type": TYPE, "message": MESSAGE}
CHECKS = {"memory": "memory", "descriptors": "descriptors", "threads": "threads", "processes": "children",
          "zombies": "zombies"}


@scenario(
    ("many_invocations", pages.REUSE,
     f"it takes {INVOCATIONS + LITTLE:,} invocations, one after the other, or as many as there are in {SECONDS} s"),
    ("memory", pages.REUSE,
     f"{INVOCATIONS:,} invocations with {PAYLOAD:,} bytes each or an error, and {LITTLE:,} with hardly any, leave "
     f"nothing in memory: what it takes stops growing, at the latest after {MOST:,}"),
    ("descriptors", pages.REUSE, "many invocations leave no descriptors open"),
    ("threads", pages.REUSE, "many invocations leave no threads behind"),
    ("children", pages.REUSE, "many invocations leave no processes running"),
    ("zombies", pages.REUSE, "many invocations leave no ended processes that are not waited for"),
    ("files", pages.REUSE, "many invocations leave no payloads in files; a small file for each is a SHOULD"),
    lasts=20, drawn=False, collects_early=True)
def thousands(stage: Stage) -> None:
    given, mark = stage.tools.options.invocations, uuid.uuid4().hex
    stage.idle()
    with_errors, begun, requests = goes_on_after_errors(stage), CLOCK.now(), stage.environment.proxy.exchanges
    before = len(requests)

    def ask(number: int, filling: str) -> None:
        fails, text = with_errors and number % EVERY == EVERY - 1, f"{mark}{number:07}{filling}"
        answer = stage.invoke(FAILURE if fails else compact({"do": "echo", "value": text}))
        if answer.failed != fails or (not fails and answer.value != text):
            raise Missing(f"invocation {number + 1} gave its caller {shown(answer.body)}")

    def asked(filling: str, course: leaks.Course, files: Optional[Files] = None) -> leaks.Looks:
        if given:
            course = leaks.Course(given, inf, given, 0, course.suspects)
        return leaks.repeat(stage.environment.process, lambda number: ask(number, filling), course, files)

    def marks() -> List[bytes]:
        delivered = [one.delivered for one in stage.environment.proxy.of("next")[-200:] if one.delivered]
        return [mark.encode(), *map(str.encode, delivered)]
    files = Files(stage, marks, PAYLOAD // 5)
    try:
        looks = asked("x" * PAYLOAD, leaks.Course(INVOCATIONS, SECONDS_WITH, MOST, PATIENCE, leaks.SUSPECT), files)
        left = max(SECONDS - SECONDS_WITH, begun + SECONDS - CLOCK.now())
        after = asked("", leaks.Course(LITTLE, left, MOST_LITTLE, PATIENCE_LITTLE, leaks.SUSPECT_OF_LITTLE))
        stage.idle_or_ended()  # (what it sends once its caller has the last answer counts too)
    except Missing as missing:
        stage.check("many_invocations", False, missing.finding)
        return stage.jury.rest(NOTE, NOT_SO_MANY)
    refused, done = [one for one in requests[before:] if one.refused and one.kind != "next"], looks.done + after.done
    # (what it does in each of them, or at each error, other checks are about)
    stage.check("many_invocations", not 0 < len(refused) < looks.done // EVERY + after.done // EVERY,
                deed(f"of the requests in {done} invocations {len(refused)} are refused: {refused and refused[0]}"),
                f"{done} invocations")
    leaks.judge(stage, looks, CHECKS, given or INVOCATIONS, after)
    return files.judge("files")


def goes_on_after_errors(stage: Stage) -> bool:
    """Whether its process is still there after an error: if not, a new one is, and fails no more."""
    stage.invoke(FAILURE)
    stage.idle_or_ended()
    ended = stage.environment.process.ended
    usable(stage)
    return not ended


@scenario(
    ("environments_apart", pages.REUSE,
     "several environments of a function, each a process, do not meet: each caller has its own output; Lambda keeps "
     "their ports and files apart, and a machine of one's own does not: a NOTE"),
    environments=ENVIRONMENTS, judged=NOTE)
def several_at_once(stage: Stage) -> None:
    stage.idle()
    waiting = [stage.later(stage.output, {"do": "sleep", "value": 300 + number}) for number in range(ENVIRONMENTS)]
    came = [each.result() for each in waiting]
    if came != [300 + number for number in range(ENVIRONMENTS)]:
        return stage.note("environments_apart", shown(came))
    return stage.check("environments_apart", True, "")
