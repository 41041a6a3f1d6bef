"""A recording, run again against a service."""
import contextlib
import time
from collections import deque
from typing import Callable, Deque, Dict, List, Optional, Sequence, Set, Tuple

from ..outgoing import several
from ..service import Fault, Service
from .compare import Pointer
from .play import Sent, play
from .record import Identified, Invocation, Recording, parsed
from .report import Result, judged, of_made, of_new

Key = Tuple[str, Optional[bytes], Optional[int]]  # a function, an event, and the ticket of a maker or one of these:
ANY, UNKNOWN = -1, -2
SETTLES = 5.0  # seconds for what functions have made and did not wait for
PAUSE = 0.05


def rerun(service: Service, recording: Recording, pointers: Sequence[Pointer] = (), one_by_one: bool = False,
          is_over: Callable[[], bool] = lambda: False, exact: bool = False) -> Tuple[List[Result], str, List[str]]:
    """Sends what callers sent to a service that is ready, and waits for what its functions make of it. Gives the
    results, the service's history, and what is to be said beside them."""
    served = [each for each in recording.invocations if each.was_served]
    names = {function["name"] for function in service.configuration["functions"]}
    if missing := sorted({each.function for each in served} - names):
        raise Fault(2, f"there is no function {missing[0]}, which the history invokes")
    of_callers, of_functions = [each for each in served if not each.made], [each for each in served if each.made]
    try:
        before = service.stats()
        sent = play(service.port, of_callers, recording.timeouts, one_by_one, is_over)
        if of_functions:
            settle(service, before["admitted"] + len(served))
        history = service.history()
    except (OSError, ValueError) as fault:
        raise Fault(2, f"the service ended before its history could be read: {fault}") from None
    now = parsed(history, "the new history", service.program).invocations
    identified = Identified(now)
    answers = [identified.find(then.function, made.identifier) for then, made in zip(of_callers, sent)]
    results = [of_caller(then, made, answer, pointers, exact)
               for then, made, answer in zip(of_callers, sent, answers)]
    own = {answer.ticket for answer in answers if answer}
    others = [each for each in now if each.ticket >= before["entries"] and each.was_served and each.ticket not in own]
    makers = {then.ticket: answer.ticket for then, answer in zip(of_callers, answers) if answer}
    for then, match in matched(of_functions, others, makers):
        results.append(of_made(then, match, pointers, exact))
    results.sort(key=lambda result: result.invocation.ticket)
    unknown = [each for each in others if not each.made]
    return results + [of_new(each) for each in others if each.made], history, notes_of(unknown)


def settle(service: Service, admitted: int) -> None:
    """Until as many are admitted as then and none is in flight, or a while is over."""
    end = time.monotonic() + SETTLES
    with contextlib.suppress(KeyError):
        while time.monotonic() < end:
            counts = service.stats()
            if counts["admitted"] >= admitted and counts["inFlight"] == 0:
                return
            time.sleep(PAUSE)


def of_caller(then: Invocation, made: Sent, answer: Optional[Invocation], pointers: Sequence[Pointer],
              exact: bool) -> Result:
    kind = answer.kind if answer else f"status {made.status}"
    body = answer.body if answer else made.body
    if kind == "stopped":
        raise Fault(2, f"the service ended while call {then.ticket} of {then.function} was being sent again: it was "
                       "stopped")
    return judged(then, kind, body, made.seconds, pointers, exact)


def matched(then: Sequence[Invocation], now: List[Invocation],
            makers: Dict[int, int]) -> List[Tuple[Invocation, Optional[Invocation]]]:
    """Each invocation that a function made with the one that it is now, in order: of the same function, made by the
    same invocation, with the same event; else with another event; else made by one that is not known. What is taken
    leaves `now`."""
    found: Dict[int, Invocation] = {}
    for knows_maker, has_event in ((True, True), (True, False), (False, True), (False, False)):
        lanes: Dict[Key, Deque[Invocation]] = {}
        for one in now:
            for key in keys_of(one, knows_maker, has_event):
                lanes.setdefault(key, deque()).append(one)
        taken: Set[int] = set()
        for each in then:
            lane = None if each.ticket in found else lanes.get(key_wanted(each, makers, knows_maker, has_event))
            while lane and lane[0].ticket in taken:
                lane.popleft()
            if lane:
                found[each.ticket] = one = lane.popleft()
                taken.add(one.ticket)
        now[:] = [one for one in now if one.ticket not in taken]
    return [(each, found.get(each.ticket)) for each in then]


def maker_of(one: Invocation) -> Optional[int]:
    return None if one.made is None else one.made.by


def keys_of(one: Invocation, knows_maker: bool, has_event: bool) -> List[Key]:
    """By what an invocation of now may be found: its maker, or that it is one, and that its maker is not known."""
    function, event, maker = one.function, one.payload if has_event else None, maker_of(one)
    if knows_maker:
        return [] if maker is None else [(function, event, maker)]
    return [(function, event, ANY), *([(function, event, UNKNOWN)] if maker is None else [])]


def key_wanted(each: Invocation, makers: Dict[int, int], knows_maker: bool, has_event: bool) -> Key:
    """By what a recorded one is looked for: the same maker; or any if its own is not known, else one not known."""
    maker = maker_of(each)
    by = makers.get(-1 if maker is None else maker) if knows_maker else ANY if maker is None else UNKNOWN
    return each.function, each.payload if has_event else None, by


def notes_of(unknown: Sequence[Invocation]) -> List[str]:
    """On invocations that were not sent, and whose trace does not say that a function has made them."""
    if not unknown:
        return []
    names = ", ".join(sorted({each.function for each in unknown}))
    return [f"{several(len(unknown), 'invocation')} of {names} {'was' if len(unknown) == 1 else 'were'} made by "
            "functions that did not pass their trace on: if the history has them, they were sent as well"]
