"""The schedules of functions as UP.json has them, of SAM's and Serverless' events (`rules` has those that are
resources)."""
import json
from typing import Any, Callable, Dict, Iterator, List, Optional

from ..expressions import WrongExpression, expression_of
from .messages import excerpt
from .objects import Object, events_of_sam
from .values import NO_VALUE, Scope

OF_SAM = ("Schedule", "ScheduleV2")
# A schedule's own name and role; and retries, which `asynchronous` has
WITHOUT_MEANING = ("Name", "Description", "GroupName", "RoleArn", "PermissionsBoundary", "OmitName")
Tell = Callable[[str], object]


def input_of(given: Any) -> Any:
    """What the function gets; a text is JSON, as AWS has it."""
    if not isinstance(given, str):
        return given
    try:
        return json.loads(given)
    except (ValueError, RecursionError):
        return given


def schedule_of(where: str, expression: Any, given: Any, scope: Scope, tell: Tell,
                zone: Optional[str] = None) -> Optional[object]:
    """A schedule of UP.json; none, and a message, if it is unknown here."""
    both, placeholders = scope.evaluate_or_reason([expression, given if given is not None else {"Ref": "AWS::NoValue"}])
    if placeholders:
        tell(f"ignores {where}: it needs {' and '.join(placeholders)}")
        return None
    both = both if isinstance(both, list) else []
    text = both[0] if both else None
    if not isinstance(text, str):
        tell(f"ignores {where}: its expression must be a string, not {excerpt(text)}")
        return None
    try:
        expression_of(text, zone)
    except WrongExpression as fault:
        tell(f"ignores {where}, {excerpt(text)}: {fault}")
        return None
    made: Dict[str, object] = {"expression": text}
    made.update({} if len(both) == 1 or both[1] is NO_VALUE else {"input": input_of(both[1])})
    made.update({} if zone is None else {"timezone": zone})
    return made if len(made) > 1 else text


def of_events(properties: Dict[str, Any], scope: Scope, tell: Tell) -> List[object]:
    """Those of a function's own events."""
    schedules = [*of_sam(properties.get("Events"), scope, tell), *of_serverless(properties.get("events"), scope, tell)]
    return [schedule for schedule in schedules if schedule is not None]


def is_off(given: Object, tell: Tell) -> bool:
    if any(state is False or state == "DISABLED" or state == "false"
           for state in map(given.raw, ("State", "Enabled", "enabled"))):
        tell(f"ignores {given.where}, which is not enabled")
        return True
    return False


def of_sam(events: Any, scope: Scope, tell: Tell) -> Iterator[Optional[object]]:
    for _kind, given in events_of_sam(events, OF_SAM, scope, tell):
        given.without_meaning(WITHOUT_MEANING)
        if not is_off(given, tell):
            expression = given.raw("Schedule") or given.raw("ScheduleExpression")
            yield schedule_of(given.where, expression, given.raw("Input"), scope, tell,
                              given.text("ScheduleExpressionTimezone"))
            given.close()


def of_serverless(events: Any, scope: Scope, tell: Tell) -> Iterator[Optional[object]]:
    chosen = scope.chosen(events)
    for event in chosen if isinstance(chosen, list) else ():
        if isinstance(event, dict) and list(event) == ["schedule"]:
            whole = event["schedule"]
            given = Object(whole if isinstance(whole, dict) else {"rate": whole}, "its schedule", scope, tell)
            given.without_meaning(["name", "description", "method"])
            if not is_off(given, tell):
                rates, zone = given.raw("rate"), given.text("timezone")
                for rate in rates if isinstance(rates, list) else [rates]:
                    yield schedule_of("its schedule", rate, given.raw("input"), scope, tell, zone)
                given.close()


def put(made: Dict[str, Any], schedules: List[object]) -> None:
    """Adds schedules to a function of UP.json."""
    if schedules:
        before = made.get("schedule", [])
        every = [*(before if isinstance(before, list) else [before]), *schedules]
        made["schedule"] = every[0] if len(every) == 1 else every
