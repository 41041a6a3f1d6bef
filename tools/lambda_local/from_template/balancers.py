"""The rules of Application Load Balancers that lead to functions, as routes of UP.json: the resources of
CloudFormation, and events `alb` of Serverless."""
from typing import Any, Dict, Iterator, List, Optional, Tuple

from ..configuration import Members
from ..front import settings
from ..front.routes import DEFAULT, WrongRoute
from .authorizers import referenced_in
from .messages import excerpt, tell
from .named import function_of, resources_of
from .objects import Object, Tell
from .routes import MULTIPLE, FunctionRoute, Of, key_of
from .values import Scope, members_of

KIND = "AWS::ElasticLoadBalancingV2::"
MULTIPLE_ATTRIBUTE = "lambda.multi_value_headers.enabled"
LISTENER = "a load balancer"


def of_balancer(key: str, is_multiple: bool) -> Of:
    return Of(key, payload=MULTIPLE if is_multiple else settings.BALANCER)


def path_of(pattern: str) -> Optional[str]:
    """A pattern of paths as a route has it; none if no route is the same. A * at the end takes all below it."""
    if pattern in ("*", "/*"):
        return f"/{DEFAULT}"
    start = pattern[:-1] + "{proxy+}" if pattern.endswith("/*") else pattern
    return None if "*" in start or "?" in start or not start.startswith("/") else start


def routes_of(paths: List[str], methods: List[str], of: Of, where: str, tell_: Tell) -> Iterator[FunctionRoute]:
    for pattern in paths or ["*"]:
        path = path_of(pattern)
        if path is None:
            tell_(f"ignores {where}, {excerpt(pattern)}: a path has a * at its end alone, behind a /")
            continue
        if path == f"/{DEFAULT}" and methods:
            path = "/{proxy+}"
        for method in methods or ["ANY"]:
            try:
                yield FunctionRoute(key_of(method, path), of)
            except WrongRoute as fault:
                tell_(f"ignores {where}: {fault}")


def texts_in(given: object) -> List[str]:
    listed = given if isinstance(given, list) else [] if given is None else [given]
    return [str(one) for one in listed if isinstance(one, (str, int))]


# ---- Serverless ------------------------------------------------------------------------------------------------------


def of_serverless(given: object, scope: Scope, tell_: Tell) -> Iterator[FunctionRoute]:
    event = Object(given, "its event alb", scope, tell_)
    conditions = Object(event.raw("conditions") or {}, "conditions of its event alb", scope, tell_)
    event.without_meaning(["listenerArn", "priority", "healthCheck", "targetGroupName"])
    of = of_balancer(LISTENER, event.value("multiValueHeaders") is True)
    yield from routes_of(texts_in(conditions.value("path")), texts_in(conditions.value("method")), of, "its event alb",
                         tell_)
    conditions.close()
    event.close()


# ---- CloudFormation --------------------------------------------------------------------------------------------------


class Groups:
    """The target groups of a template: the function that each leads to, and whether it has several values."""

    def __init__(self, functions: List[Members], scope: Scope) -> None:
        self.found: Dict[str, Tuple[Optional[Members], bool]] = {}
        for key, properties in resources_of(f"{KIND}TargetGroup", scope):
            value = scope.evaluate_or_reason(properties.get("TargetType")).value
            if value != "lambda":
                continue
            targets = scope.evaluate_or_reason(properties.get("Targets")).value
            first = targets[0] if isinstance(targets, list) and targets else None
            made = function_of(first.get("Id") if isinstance(first, dict) else None, functions, scope)
            attributes = scope.evaluate_or_reason(properties.get("TargetGroupAttributes")).value
            is_multiple = any(isinstance(one, dict) and one.get("Key") == MULTIPLE_ATTRIBUTE
                              and str(one.get("Value")).lower() == "true"
                              for one in (attributes if isinstance(attributes, list) else ()))
            if made is None:
                tell(f"ignores {key}, {KIND}TargetGroup: its function is not here")
            self.found[key] = made, is_multiple

    def of_actions(self, actions: object, scope: Scope) -> Optional[str]:
        """The group that actions forward to; none if none does to one of these."""
        chosen = scope.chosen(actions)
        for action in chosen if isinstance(chosen, list) else ():
            key = referenced_in(action.get("TargetGroupArn")) if isinstance(action, dict) else None
            if key in self.found:
                return key
        return None


def add_routes(functions: List[Members], scope: Scope) -> None:
    """Gives functions the routes of rules, and of what listeners do by default."""
    groups = Groups(functions, scope)
    for kind, name in (("ListenerRule", "Actions"), ("Listener", "DefaultActions")):
        for key, properties in resources_of(f"{KIND}{kind}", scope):
            group = groups.of_actions(properties.get(name), scope)
            if group is None:
                continue
            made, is_multiple = groups.found[group]
            if made is not None:
                paths, methods = conditions_of(properties.get("Conditions"), key, scope)
                listener = referenced_in(properties.get("ListenerArn")) if kind == "ListenerRule" else key
                of = of_balancer(scope.prefix + (listener or LISTENER), is_multiple)
                made["routes"] = [*made.get("routes", ()), *routes_of(paths, methods, of, f"{key} of {made['name']}",
                                                                      tell)]


def conditions_of(given: Any, key: str, scope: Scope) -> Tuple[List[str], List[str]]:
    """The patterns of paths and the methods of a rule; other conditions are told."""
    paths: List[str] = []
    methods: List[str] = []
    value = scope.evaluate_or_reason(given).value if given is not None else []
    for condition in value if isinstance(value, list) else ():
        whole = condition if isinstance(condition, dict) else {}
        field = whole.get("Field")
        if field == "path-pattern":
            paths += texts_in(whole.get("Values")) + texts_in(members_of(whole, "PathPatternConfig").get("Values"))
        elif field == "http-request-method":
            methods += texts_in(members_of(whole, "HttpRequestMethodConfig").get("Values"))
        else:
            tell(f"ignores the condition {excerpt(field)} of {key}, whose rule takes all requests here")
    return paths, methods
