"""What a template says of a function's asynchronous invocations, as UP.json has it: retries, age and destinations
(SAM's EventInvokeConfig, AWS::Lambda::EventInvokeConfig, and the members that Serverless has)."""
from typing import List, Optional

from ..configuration import Members
from ..front.asynchronous import OF_RECORDS
from ..front.events import NAMED
from ..other_server import ARN, endpoint_of, is_endpoint
from .cloudformation import is_wanted
from .messages import VALUES, excerpt, tell
from .objects import Object, Tell
from .services import PAGE
from .values import Scope, is_scalar, members_of, text_of

READ = {"EventInvokeConfig", "DeadLetterQueue", "DeadLetterConfig", "maximumRetryAttempts", "maximumEventAge",
        "destinations", "onError"}
CONFIG = "AWS::Lambda::EventInvokeConfig"
# The members of UP.json, by those of a template.
MEMBERS = {"OnFailure": "onFailure", "OnSuccess": "onSuccess", "onFailure": "onFailure", "onSuccess": "onSuccess",
           "DeadLetterQueue": "deadLetter", "DeadLetterConfig": "deadLetter", "onError": "deadLetter"}
WHAT = {"onFailure": "the record of each event that failed", "onSuccess": "the record of each event that succeeded",
        "deadLetter": "each event that failed"}


def function_in(given: object, scope: Scope) -> Optional[str]:
    """The name of the function that a destination is; none if it is another service's."""
    value = scope.evaluate_or_reason(given).value
    if not is_scalar(value):
        return None
    text = text_of(value)
    if text.startswith("arn:") and ":function:" not in text:
        return None
    match = NAMED.fullmatch(text)
    name = (match[1] or match[2]) if match else None
    return scope.functions.get(str(name), name) if name in {*scope.functions, *scope.functions.values()} else None


def remote_in(given: object, scope: Scope) -> Optional[str]:
    """The ARN of the queue or the topic that a destination is; none if it is none that Lambda sends to."""
    value = scope.evaluate_or_reason(given).value
    is_one = isinstance(value, str) and ARN.fullmatch(value) is not None and not value.endswith(".fifo")
    return str(value) if is_one else None


def destination(given: object, what: str, scope: Scope, tell_: Tell) -> Members:
    """The member for a destination. A queue or a topic is at the server that AWS_ENDPOINT_URL_SQS or its like names;
    without one it is a value to supply, which is said."""
    member = MEMBERS[what]
    name = function_in(given, scope) if member in OF_RECORDS else None
    if given is None or name is not None:
        return {} if name is None else {member: name}
    arn, said = remote_in(given, scope), excerpt(scope.evaluate_or_reason(given).value)
    if arn is None:
        kinds = "a function here, a queue or a topic" if member in OF_RECORDS else "a queue or a topic"
        tell_(f"ignores {what}, {said}, which would get {WHAT[member]}: it is not {kinds}: set \"asynchronous\": "
              f"{{\"{member}\": ..}} of it in {VALUES}")
        return {}
    service = arn.split(":")[2]
    endpoint = endpoint_of(service)
    if endpoint is None or not is_endpoint(endpoint):
        tell_(f"ignores {what}, {said}, which would get {WHAT[member]}: set AWS_ENDPOINT_URL_{service.upper()} "
              f"({PAGE}), or \"asynchronous\": {{\"{member}\": {{\"arn\": .., \"url\": ..}}}} of it in {VALUES}")
        return {}
    return {member: {"arn": arn, "url": endpoint}}


def configured(given: Object, scope: Scope, tell_: Tell) -> Members:
    """By the members that SAM and CloudFormation have in common."""
    destinations = Object(given.raw("DestinationConfig"), "DestinationConfig", scope, tell_)
    made = {"retries": given.whole("MaximumRetryAttempts", 0, 2),
            "maximumAge": given.whole("MaximumEventAgeInSeconds", 60, 21600)}
    found = {name: value for name, value in made.items() if value is not None}
    for name in ("OnFailure", "OnSuccess"):
        one = Object(destinations.raw(name), name, scope, tell_)
        one.without_meaning(["Type"])
        found.update(destination(one.raw("Destination"), name, scope, tell_))
        one.close()
    for rest in (destinations, given):
        rest.close()
    return found


def of_function(properties: Members, scope: Scope, tell_: Tell) -> Optional[Members]:
    """The member `asynchronous` of a function; none if all is as for the others."""
    made = configured(Object(properties.get("EventInvokeConfig"), "EventInvokeConfig", scope, tell_), scope, tell_)
    own = Object({name: properties[name] for name in READ if name in properties}, "the function", scope, tell_)
    retries, age = own.whole("maximumRetryAttempts", 0, 2), own.whole("maximumEventAge", 60, 21600)
    made.update({} if retries is None else {"retries": retries})
    made.update({} if age is None else {"maximumAge": age})
    destinations = Object(own.raw("destinations"), "destinations", scope, tell_)
    for name in ("onFailure", "onSuccess"):
        target = destinations.raw(name)
        made.update(destination(target["arn"] if isinstance(target, dict) and "arn" in target else target, name, scope,
                                tell_))
    destinations.close()
    for name in ("DeadLetterQueue", "DeadLetterConfig", "onError"):
        given = scope.chosen(properties.get(name))
        target = given if name == "onError" else members_of({name: given}, name).get("TargetArn")
        made.update(destination(target, name, scope, tell_))
    return made or None


def add_configs(functions: List[Members], scope: Scope) -> None:
    """Those that are resources of their own."""
    for key, resource in scope.resources.items():
        if not isinstance(resource, dict) or resource.get("Type") != CONFIG or not is_wanted(key, resource, scope):
            continue
        given = Object(resource.get("Properties"), str(key), scope, tell)
        given.without_meaning(["Qualifier"])
        name = function_in(given.raw("FunctionName"), scope)
        made = next((made for made in functions if made["name"] == name), None)
        if made is None:
            tell(f"ignores {key}, {CONFIG}: its function is not here")
            continue
        made["asynchronous"] = {**made.get("asynchronous", {}), **configured(given, scope, tell)}
