"""The topics whose notifications invoke functions, as UP.json has them: events of SAM and Serverless,
AWS::SNS::Subscription, and the subscriptions of AWS::SNS::Topic."""
import re
from typing import Iterator, List, Optional

from ..configuration import Members
from .messages import VALUES, excerpt, tell
from .named import function_of, resources_of
from .objects import Object, Tell, events_of_sam
from .services import PAGE, endpoint_of, ref
from .streams import put
from .values import Scope

SUBSCRIPTION, TOPIC = "AWS::SNS::Subscription", "AWS::SNS::Topic"
ARN = re.compile(r"arn:[^:]*:sns:[^:]*:\d*:([A-Za-z0-9_-]+)")
NAME = re.compile(r"[A-Za-z0-9_-]{1,256}")


def topic_of(topic: object, given: Object, scope: Scope, tell_: Tell) -> Optional[Members]:
    """The member `topic`. Its server is at the local address that AWS_ENDPOINT_URL_SNS or AWS_ENDPOINT_URL has; without
    one it is a value to supply, which is said."""
    value = scope.evaluate_or_reason(topic).value
    found = ARN.fullmatch(value) if isinstance(value, str) else None
    name = found[1] if found else value if isinstance(value, str) and NAME.fullmatch(value) else None
    if name is None:
        tell_(f"ignores {given.where}, SNS: " + ("its topic is not known here" if value is None else
                                                 f"{excerpt(value)} is not the ARN of a topic"))
        return None
    endpoint = endpoint_of("sns")
    if endpoint is None:
        tell_(f"{given.where}, SNS, is not subscribed to: set \"topic\": {{\"url\": \"http://HOST:PORT\"}} in "
              f"{VALUES}, or AWS_ENDPOINT_URL_SNS ({PAGE})")
    made: Members = {"url": endpoint} if endpoint else {}
    made["name"] = name
    policy = given.value("FilterPolicy")
    if policy is not None and not isinstance(policy, dict):
        tell_(f"ignores FilterPolicy of {given.where}: it must be an object, not {excerpt(policy)}")
    elif policy is not None:
        made["filterPolicy"] = policy
    scope_of_policy = given.text("FilterPolicyScope")
    if "filterPolicy" in made and scope_of_policy in ("MessageAttributes", "MessageBody"):
        made["filterPolicyScope"] = scope_of_policy
    return made


def of_events(properties: Members, scope: Scope, tell_: Tell) -> List[Members]:
    found = [*of_sam(properties.get("Events"), scope, tell_), *of_serverless(properties.get("events"), scope, tell_)]
    return [topic for topic in found if topic is not None]


def of_sam(events: object, scope: Scope, tell_: Tell) -> Iterator[Optional[Members]]:
    for _kind, given in events_of_sam(events, ("SNS",), scope, tell_):
        given.without_meaning(["Region", "RedrivePolicy"])
        if given.raw("SqsSubscription") not in (None, False, "false"):
            tell_(f"ignores {given.where}, SNS: it comes by a queue (SqsSubscription): set \"queue\" in {VALUES}")
            continue
        yield topic_of(given.raw("Topic"), given, scope, tell_)
        given.close()


def of_serverless(events: object, scope: Scope, tell_: Tell) -> Iterator[Optional[Members]]:
    chosen = scope.chosen(events)
    for event in chosen if isinstance(chosen, list) else ():
        if isinstance(event, dict) and list(event) == ["sns"]:
            whole = event["sns"]
            is_whole = isinstance(whole, dict) and not {"arn", "topicName"}.isdisjoint(whole)
            members = {"FilterPolicy" if name == "filterPolicy" else "FilterPolicyScope" if name == "filterPolicyScope"
                       else name: value for name, value in whole.items()} if is_whole else {"arn": whole}
            given = Object(members, "its event sns", scope, tell_)
            given.without_meaning(["displayName", "redrivePolicy", "kmsMasterKeyId"])
            topic, name = given.raw("arn"), given.raw("topicName")
            yield topic_of(topic if topic is not None else name, given, scope, tell_)
            given.close()


def add_subscriptions(functions: List[Members], scope: Scope) -> None:
    """Those that are resources of their own, or members of a topic."""
    for key, properties in resources_of(SUBSCRIPTION, scope):
        given = Object(properties, key, scope, tell)
        given.without_meaning(["Region", "RedrivePolicy", "DeliveryPolicy", "RawMessageDelivery", "SubscriptionRoleArn",
                               "ReplayPolicy"])
        subscribe(functions, given, given.raw("TopicArn"), scope)
        given.close()
    for key, properties in resources_of(TOPIC, scope):
        inner = scope.chosen(properties.get("Subscription"))
        for one in inner if isinstance(inner, list) else ():
            given = Object(one, f"a subscription of {key}", scope, tell)
            subscribe(functions, given, ref(key, scope.resources[key], scope), scope)


def subscribe(functions: List[Members], given: Object, topic: object, scope: Scope) -> None:
    """Gives the function of a subscription its topic; another protocol's is no function's."""
    protocol, endpoint = given.raw("Protocol"), given.raw("Endpoint")
    if protocol != "lambda":
        return given.without_meaning(["FilterPolicy", "FilterPolicyScope"])
    made = function_of(scope.evaluate_or_reason(endpoint).value, functions, scope)
    if made is None:
        given.without_meaning(["FilterPolicy", "FilterPolicyScope"])
        tell(f"ignores {given.where}, {SUBSCRIPTION}: its function is not here")
        return None
    given.where = f"{given.where} of {made['name']}"
    found = topic_of(topic, given, scope, tell)
    put(made, "topic", [] if found is None else [found])
    return None
