"""Makes the calls of a difference fewer: delta debugging over the sequence, each candidate played on the service."""
import time
from typing import List, Optional, Tuple

from .calls import Call
from .course import ANSWER_SECONDS, Course, Difference
from .oracle import WARM, Given, Oracle, Plan
from .sequences import plans_of

SLOW, SLOWEST = 0.03, 0.2  # seconds for which a call waits that is not answered, so that the order is sure
PATIENCE = 0.5  # seconds for an answer, once it is known which one is missing
TRIES = 3  # of a sequence in which a deadline came too early
BUDGET = 60.0  # seconds for a difference; what was found until then is reported


class Undecided(Exception):
    """Deadlines came between the calls each time: this machine is too slow, or the function's timeout too short."""


def confirmed(course: Course, oracle: Oracle, plan: Plan) -> Optional[Difference]:
    """The difference of a plan if the same answer differs each time when each call has much time to be taken, or none.
    (What comes in its place may change with the time that it has.)"""
    first = determined(course, oracle, plan, SLOW)
    again = first and determined(course, oracle, plan, SLOWEST, 2 * ANSWER_SECONDS)
    return again if first and again and again.words[:2] == first.words[:2] else None


def determined(course: Course, oracle: Oracle, plan: Plan, settle: float,
               patience: float = ANSWER_SECONDS) -> Optional[Difference]:
    """The difference that a plan shows, if the definitions give the same answers for the moments at which the calls
    were made, and no deadline came before the answer that differs. On a machine that is too slow for that, it is tried
    again."""
    for _ in range(TRIES):
        difference = course.play(plan, settle, patience).difference
        if not difference or difference.aspect.name == "moment" or by_its_moments(oracle, difference):
            return difference
    raise Undecided


def by_its_moments(oracle: Oracle, difference: Difference) -> bool:
    plan, length = difference.plan, difference.step + 1
    made, moments = plan.sequence.calls[:length], difference.moments
    if difference.ended is not None:
        made, moments = (*made, Call("wait")), (*moments, max(difference.ended, moments[-1]))
    steps = oracle.plan(plan.sequence._replace(calls=made), moments).steps
    return ([kinds(step) for step in steps[:length]] == [kinds(step) for step in plan.steps[:length]]
            and not any(steps[length:]))


def kinds(step: Tuple[Given, ...]) -> List[Tuple[int, str]]:
    return [(given.call, given.answer.word) for given in step]


def minimised(course: Course, oracle: Oracle, difference: Difference, seconds: float) -> Difference:
    """A difference of the same words with as few calls as were found in this time."""
    end = time.monotonic() + seconds
    best, size = difference, len(calls_before(difference)) // 2
    while size and time.monotonic() < end:
        first = 1 if best.plan.sequence.start == WARM else 0  # (the Next that waits stays)
        for found, place in iter(lambda: smaller(course, oracle, best, size, first, end), None):
            best, first = found, place
        size //= 2
    return best


def smaller(course: Course, oracle: Oracle, difference: Difference, size: int, first: int,
            end: float) -> Optional[Tuple[Difference, int]]:
    """Returns the same difference without this many neighbouring calls, and the place of those, searching from a place
    on; or nothing."""
    calls, sequence = calls_before(difference), difference.plan.sequence
    places = {calls[:place] + calls[place + size:]: place for place in range(first, len(calls), size)}
    candidates = [sequence._replace(name=str(places[one]), calls=one) for one in places if one]
    for plan in plans_of(candidates, oracle):
        if time.monotonic() > end:
            return None
        try:
            found = determined(course, oracle, plan, SLOW, PATIENCE)
        except Undecided:
            continue
        if found and found.words == difference.words and len(calls_before(found)) < len(calls):
            return found, int(plan.sequence.name)
    return None


def calls_before(difference: Difference) -> Tuple[Call, ...]:
    """The calls up to the one at which the difference shows."""
    return difference.plan.sequence.calls[:difference.step + 1]
