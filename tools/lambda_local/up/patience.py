"""`--patient N`: on a slow machine, what ends by time has N times as long."""
import math
import os
from typing import Dict, List

from ..configuration import Members, is_whole
from ..outgoing import several

MOST = 100
LONGEST_TIMEOUT = LONGEST_INIT = 900  # seconds
TIMEOUT, INIT = 3, 10  # seconds, of a function that says nothing
OF_SERVICE, MOST_OF_SERVICE = "LAMBDA_LOCAL_PATIENCE_MS", 2000  # with an environment that has not asked again
DEFAULT_OF_SERVICE = 100


def times_of(text: str) -> float:
    number = float(text)
    if not 1 <= number <= MOST:
        raise ValueError
    return number


times_of.__name__ = f"number from 1 to {MOST}"


def longer(seconds: object, times: float, most: int) -> object:
    """So many seconds so many times, up to the most; what is none, or too much already, as it is."""
    if not is_whole(seconds, most + 1) or not isinstance(seconds, int) or seconds == 0:
        return seconds
    return min(most, math.ceil(seconds * times))


def with_patience(member: Members, times: float) -> Members:
    """A function of UP.json with its limits so many times as long. (One whose runtime somebody starts by hand begins
    its Init when they like.)"""
    if times == 1:
        return member
    made = {**member, "timeout": longer(member.get("timeout", TIMEOUT), times, LONGEST_TIMEOUT)}
    if "command" in member or "runtime" in member:
        made["init"] = longer(member.get("init", INIT), times, LONGEST_INIT)
    return made


def of_service(times: float) -> Dict[str, str]:
    """The service's variable, unless somebody has set it."""
    if times == 1 or OF_SERVICE in os.environ:
        return {}
    return {OF_SERVICE: str(min(MOST_OF_SERVICE, math.ceil(DEFAULT_OF_SERVICE * times)))}


def told(functions: List[Members], times: float) -> str:
    """What it does, in a sentence."""
    cut = [member["name"] for member in functions if is_whole(given := member.get("timeout", TIMEOUT), 901)
           and given * times > LONGEST_TIMEOUT]
    but = f"; but {LONGEST_TIMEOUT} s are the most, for {', '.join(cut[:8])}" if cut else ""
    return (f"patient: timeouts of {several(len(functions), 'function')}, Inits and the waits of up are {times:g} "
            f"times as long, so no time here is Lambda's{but}")
