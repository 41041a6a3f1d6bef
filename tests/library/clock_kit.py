"""The clock of a service that `lambda_local up` or a test runs, and what a history says apart from its moments."""
import json
import urllib.error
import urllib.request
from typing import Dict, List, Tuple

from tests.library.up_kit import until

CLOCK = "/_local/clock"
INVOKE = "/2015-03-31/functions/{}/invocations"
EVENT = {"X-Amz-Invocation-Type": "Event"}


def posted(address, path, body=b"", headers={}):
    """The status and the body of an answer."""
    request = urllib.request.Request(address + path, body, headers, method="POST")
    try:
        with urllib.request.urlopen(request, timeout=60) as answer:
            return answer.status, answer.read()
    except urllib.error.HTTPError as fault:
        return fault.code, fault.read()


def pause(address):
    return is_set(address, "pause")


def resume(address):
    return is_set(address, "resume")


def advance(address, seconds):
    return is_set(address, f"advance?ms={round(1000 * seconds)}")


def is_set(address, how):
    """Sets it, as `lambda_local clock` does: `lambda_local up` has taken what came before, and begun what is due."""
    settle(address)
    moment = moment_in(posted(address, f"{CLOCK}/{how}"))
    settle(address)
    return moment


def settle(address):
    with urllib.request.urlopen(f"{address}{CLOCK}/settled", timeout=60) as answer:
        assert answer.status == 204, answer.status


def moment_in(answer):
    assert answer[0] == 200, answer
    return json.loads(answer[1])["now"]


def is_at_rest(up, admitted):
    """Whether so many invocations were admitted and are over, and each environment is idle, or not started."""
    stats = json.loads(up.get("/_local/stats"))
    if (stats["admitted"], stats["inFlight"]) != (admitted, 0):
        return False
    environments = json.loads(up.get("/_local/environments"))["environments"]
    return all(one["phase"] == "idle" for one in environments)


def rests(up, admitted, seconds=60):
    return until(lambda: is_at_rest(up, admitted), seconds)


def place_in(entries):
    """The places of entries, in which those of a run of polls that wait are one."""
    places, place = {}, 0
    for before, entry in zip([None, *entries], entries):
        both = [one is not None and one.call.kind in ("next", "ext-next") and not one.answers
                for one in (before, entry)]
        place += not all(both)
        places[entry.ticket] = (place, entry.call.kind, entry.call.environment or 0)
    return lambda entry: places[entry.ticket]


def course_of(entries, begun):
    """What entries say, with moments seen from this one, and without what each run has of its own. Polls that wait, of
    actors that begin at once, are in one order."""
    entries = sorted(entries, key=place_in(entries))
    course: List[Tuple[object, ...]] = []
    names: Dict[int, int] = {}
    for entry in entries:
        names[entry.ticket] = len(names)
        call, answers = entry.call, [
            (answer.word.value, names.get(answer.ticket), answer.deadline and answer.deadline - begun, answer.reason)
            for answer in entry.answers]
        course.append((entry.moment - begun, call.kind, call.environment, call.function, answers))
    return course
