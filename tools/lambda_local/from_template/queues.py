"""The queues whose messages invoke functions, as UP.json has them: events of SAM and Serverless; `mappings` has the
resources."""
import re
from typing import Iterator, List, Optional

from ..configuration import Members
from ..other_server import endpoint_of
from .messages import VALUES, excerpt
from .objects import Object, Tell, events_of_sam
from .services import PAGE
from .values import Scope

ARN = re.compile(r"arn:[^:]*:sqs:[^:]*:([^:]*):(.+)")
MOST_WITHOUT_WINDOW = 10  # messages of a batch


def queue_of(arn: object, batch: Optional[int], window: Optional[int], where: str, scope: Scope,
             tell_: Tell) -> Optional[Members]:
    """The member `queue`. Its address is that of the queue's name at the local address that AWS_ENDPOINT_URL_SQS or
    AWS_ENDPOINT_URL has; without one it is a value to supply, which is said."""
    value = scope.evaluate_or_reason(arn).value
    match = ARN.fullmatch(value) if isinstance(value, str) else None
    account, name = (match[1], match[2]) if match else (str(scope.pseudo["AWS::AccountId"]), "NAME")
    endpoint = endpoint_of("sqs")
    if endpoint is None:
        tell_(f"{where}, SQS, is not polled: set \"queue\": {{\"url\": \"http://HOST:PORT/{account}/{name}\"}} in "
              f"{VALUES}, or AWS_ENDPOINT_URL_SQS ({PAGE})")
    elif match is None:
        tell_(f"ignores {where}, SQS: {excerpt(value)} is not the ARN of a queue")
        return None
    if batch is not None and batch > MOST_WITHOUT_WINDOW and not window:
        batch = MOST_WITHOUT_WINDOW
    made: Members = {"url": f"{endpoint}/{account}/{name}"} if endpoint else {}
    made.update({} if batch is None else {"batchSize": batch})
    made.update({} if window is None else {"window": window})
    return made


def is_off(given: Object, where: str, name: str, tell_: Tell) -> bool:
    if given.value(name) in (False, "false"):
        tell_(f"ignores {where}, which is not enabled")
        return True
    return False


def of_events(properties: Members, scope: Scope, tell_: Tell) -> List[Members]:
    found = [*of_sam(properties.get("Events"), scope, tell_), *of_serverless(properties.get("events"), scope, tell_)]
    return [queue for queue in found if queue is not None]


def mapped(given: Object, source: str, where: str, scope: Scope, tell_: Tell) -> Optional[Members]:
    """By the members that SAM's event and the resource have in common."""
    if is_off(given, where, "Enabled", tell_):
        return None
    given.without_meaning(["FunctionResponseTypes", "ScalingConfig", "KmsKeyArn", "Tags", "MetricsConfig"])
    made = queue_of(given.raw(source), given.whole("BatchSize", 1, 10_000),
                    given.whole("MaximumBatchingWindowInSeconds", 0, 300), where, scope, tell_)
    given.close()
    return made


def of_sam(events: object, scope: Scope, tell_: Tell) -> Iterator[Optional[Members]]:
    for _kind, given in events_of_sam(events, ("SQS",), scope, tell_):
        yield mapped(given, "Queue", given.where, scope, tell_)


def of_serverless(events: object, scope: Scope, tell_: Tell) -> Iterator[Optional[Members]]:
    chosen = scope.chosen(events)
    for event in chosen if isinstance(chosen, list) else ():
        if isinstance(event, dict) and list(event) == ["sqs"]:
            whole = event["sqs"] if isinstance(event["sqs"], dict) and "arn" in event["sqs"] else {"arn": event["sqs"]}
            given, where = Object(whole, "its event sqs", scope, tell_), "its event sqs"
            given.without_meaning(["functionResponseType", "maximumConcurrency"])
            if not is_off(given, where, "enabled", tell_):
                yield queue_of(given.raw("arn"), given.whole("batchSize", 1, 10_000),
                               given.whole("maximumBatchingWindow", 0, 300), where, scope, tell_)
            given.close()


def put(made: Members, queues: List[Members], tell_: Tell) -> None:
    """Gives a function its queue. It has one at most here."""
    for queue in queues:
        if "queue" in made:
            tell_(f"ignores a further queue{' ' * ('url' in queue)}{queue.get('url', '')}: a function has one here")
        else:
            made["queue"] = queue
