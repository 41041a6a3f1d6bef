"""The schedules that a template has as resources of their own: rules of EventBridge, which CDK writes, and schedules of
its scheduler."""
from typing import Any, Dict, List

from .cloudformation import is_wanted
from .named import function_of
from .schedules import WITHOUT_MEANING, is_off, put, schedule_of
from .messages import LineGroups, excerpt
from .objects import Object
from .values import Scope, members_of, type_of

OF_RESOURCES = ("AWS::Events::Rule", "AWS::Scheduler::Schedule")


def add_schedules(functions: List[Dict[str, Any]], scope: Scope) -> None:
    """Gives functions the schedules that are resources."""
    group = LineGroups()
    for key, resource in scope.resources.items():
        if type_of(resource) in OF_RESOURCES and is_wanted(key, resource, scope):
            add_rule(str(key), str(resource["Type"]), members_of(resource, "Properties"), functions, scope, group)
    group.say()


def add_rule(key: str, kind: str, members: Dict[str, Any], functions: List[Dict[str, Any]], scope: Scope,
             group: LineGroups) -> None:
    def tell(line: str) -> None:
        group.add(key, line)

    given = Object(members, f"this {kind}", scope, tell)
    given.without_meaning([*WITHOUT_MEANING, "EventBusName", "Targets", "Target", "Tags"])
    if given.raw("ScheduleExpression") is None:
        tell(f"ignores this {kind}, which has no ScheduleExpression: lambda_local invoke --sample eventbridge sends "
             "an event like it")
        return
    if is_off(given, tell):
        return
    targets = given.raw("Targets") or ([given.raw("Target")] if given.raw("Target") else [])
    zone = given.text("ScheduleExpressionTimezone")
    for target in targets if isinstance(targets, list) else []:
        one = Object(target, f"a target of this {kind}", scope, tell)
        one.without_meaning(["Id", "RoleArn", "RetryPolicy", "DeadLetterConfig"])
        arn = scope.evaluate_or_reason(one.raw("Arn")).value
        made = function_of(arn, functions, scope)
        if made is None:
            tell(f"ignores a target of this {kind}: there is no function {excerpt(arn)}")
            continue
        schedule = schedule_of(f"this {kind}", given.raw("ScheduleExpression"), one.raw("Input"), scope, tell, zone)
        put(made, [schedule] if schedule is not None else [])
        one.close()
    if given.raw("FlexibleTimeWindow") in ({"Mode": "OFF"}, None):
        given.without_meaning(["FlexibleTimeWindow"])
    given.close()
