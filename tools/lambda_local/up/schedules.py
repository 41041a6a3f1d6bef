"""The schedules of functions: each sends its event when it is due (EventBridge User Guide, "Creating a rule that runs
on a schedule"), as an asynchronous invocation."""
import json
import threading
import uuid
from datetime import datetime, timezone
from typing import Any, Dict, List, NamedTuple, Optional
from urllib.parse import urlsplit

from ..clock.followed import Clock
from ..exchange.of_tasks import ask
from .log import Log
from .sources import Schedule, schedules_of

LAST = datetime(9999, 12, 31, tzinfo=timezone.utc)  # after which nothing is due


def identifier_of(name: str, schedule: Schedule, configuration: Dict[str, Any], moment: datetime) -> str:
    """That of an event: the same one in a run with the same salt, at the same moment."""
    words = configuration.get("salt", 0), name, schedule.text, moment.isoformat()
    return str(uuid.uuid5(uuid.NAMESPACE_URL, " ".join(map(str, words))))


def event_of(name: str, schedule: Schedule, configuration: Dict[str, Any], moment: datetime) -> bytes:
    """What the function gets: the rule's input, or EventBridge's own event."""
    if schedule.input is not None:
        return json.dumps(schedule.input).encode()
    account, region = configuration["account"], configuration["region"]
    return json.dumps({
        "version": "0", "id": identifier_of(name, schedule, configuration, moment),
        "detail-type": "Scheduled Event", "source": "aws.events",
        "account": account, "time": moment.strftime("%Y-%m-%dT%H:%M:%SZ"), "region": region,
        "resources": [f"arn:aws:events:{region}:{account}:rule/{name}"], "detail": {}}).encode()


def moment_of(milliseconds: int) -> datetime:
    """A moment of the service's clock as a time."""
    try:
        return datetime.fromtimestamp(milliseconds / 1000, timezone.utc)
    except (OverflowError, ValueError, OSError):
        return LAST


class Due(NamedTuple):
    moment: datetime
    function: str
    schedule: Schedule


class Schedules:
    """All schedules of a run, from its `begin` on. They are due by the service's clock."""

    def __init__(self, functions: List[Dict[str, Any]], service: Any, clock: Clock, stopping: threading.Event,
                 log: Log):
        self.functions, self.service, self.clock, self.stopping, self.log = functions, service, clock, stopping, log

    def begin(self) -> None:
        begun = moment_of(self.clock.now())
        for member in self.functions:
            for schedule in schedules_of(member):
                self.note(member["name"], schedule, begun)

    def note(self, function: str, schedule: Schedule, after: datetime) -> None:
        moment = schedule.expression.next_after(after)
        if moment is not None:
            due = Due(moment, function, schedule)
            self.clock.at(round(1000 * moment.timestamp()), lambda: self.come(due))

    async def come(self, due: Due) -> None:
        """It is due, or has been: what was due again meanwhile, as while the machine slept or in an advance, is sent
        once."""
        if self.stopping.is_set():
            return
        await self.fire(due)
        following, now = due.schedule.expression.next_after(due.moment), moment_of(self.clock.now())
        is_late = following is not None and following <= now
        self.note(due.function, due.schedule, max(due.moment, now) if is_late else due.moment)

    async def fire(self, due: Due) -> None:
        payload = event_of(due.function, due.schedule, self.service.configuration, due.moment)
        path = f"/2015-03-31/functions/{due.function}/invocations"
        status: Optional[int] = None
        try:
            status, headers, body = await ask(int(urlsplit(self.service.endpoint_url).port or 0), "POST", path, payload,
                                              {"X-Amz-Invocation-Type": "Event"})
        except OSError as fault:
            why = str(fault)
        if status == 202:
            self.log(due.function, f"schedule {due.schedule.text}: event {headers.get('x-amzn-requestid')}",
                     kind="schedule", function=due.function, request=headers.get("x-amzn-requestid"))
        elif not self.stopping.is_set():
            why = why if status is None else f"{status} {body.decode(errors='replace')[:200]}"
            self.log(due.function, f"schedule {due.schedule.text}: its event was refused: {why}", level="error",
                     kind="schedule", function=due.function)
