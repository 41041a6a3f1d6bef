"""What is asked of a service's clock, and what it answers (docs/formats.md)."""
import datetime
import json
from typing import Dict, List, NamedTuple, Optional, Tuple

SHOW = ("GET", "/_local/clock")
PAUSE, RESUME = ("POST", "/_local/clock/pause"), ("POST", "/_local/clock/resume")
SETTLED = ("GET", "/_local/clock/settled")  # answered by `lambda_local up`, and nobody else


def advance(milliseconds: int) -> Tuple[str, str]:
    return "POST", f"/_local/clock/advance?ms={milliseconds}"


BEGIN = datetime.datetime(1970, 1, 1)


def time_of(moment: int) -> str:
    """A moment as a time in UTC; `-` after the year 9999, of which Python knows none."""
    try:
        return (BEGIN + datetime.timedelta(milliseconds=moment)).isoformat(timespec="milliseconds") + "Z"
    except OverflowError:
        return "-"


class Reading(NamedTuple):
    now: int  # milliseconds since 1970
    is_running: bool


class NotClock(Exception):
    """An answer that has no reading: why, as the service says it."""

    def __init__(self, status: int, said: str) -> None:
        super().__init__(f"{status} {said}".strip())
        self.status, self.said = status, said


def reading_of(status: int, body: bytes) -> Reading:
    """The reading in an answer."""
    try:
        members = json.loads(body)
    except (ValueError, RecursionError):
        members = None
    if not isinstance(members, dict):
        raise NotClock(status, "the answer is not JSON")
    now, is_running = members.get("now"), members.get("running")
    if status != 200 or type(now) is not int or type(is_running) is not bool:
        raise NotClock(status, _said(members))
    return Reading(now, is_running)


def _said(members: Dict[str, object]) -> str:
    texts: List[Optional[object]] = [members.get(name) for name in ("errorMessage", "message", "Message")]
    return next((text for text in texts if isinstance(text, str)), "the answer has no reading")
