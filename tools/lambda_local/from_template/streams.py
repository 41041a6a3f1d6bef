"""The streams whose records invoke functions, as UP.json has them: events of SAM and Serverless; `mappings` has the
resources."""
import re
from typing import Dict, Iterator, List, Optional, Tuple

from ..configuration import Members
from ..event_sources.filters import MOST_FILTERS, filters_in
from ..json_reader import NotJson
from ..other_server import ARN as DESTINATION
from .messages import VALUES, excerpt
from .objects import Object, Tell, events_of_sam
from .queues import is_off
from .services import PAGE, endpoint_of
from .values import Scope

OF_SAM = {"Kinesis": "kinesis", "DynamoDB": "dynamodb"}
ARN = re.compile(r"arn:[^:]*:(?:(kinesis):[^:]*:\d*:stream/([^/]+)|(dynamodb):[^:]*:\d*:table/([^/]+)(?:/stream/.+)?)")
ENDPOINTS = {"kinesis": ("kinesis",), "dynamodb": ("dynamodb_streams", "dynamodb")}
NAMES = {"kinesis": "Kinesis", "dynamodb": "DynamoDB"}
SERVERLESS_BATCH = 10  # records, the Serverless Framework's own default
# Serverless' members by the names of CloudFormation
OF_SERVERLESS = {"batchSize": "BatchSize", "batchWindow": "MaximumBatchingWindowInSeconds",
                 "startingPosition": "StartingPosition", "enabled": "Enabled",
                 "functionResponseType": "FunctionResponseTypes",
                 "bisectBatchOnFunctionError": "BisectBatchOnFunctionError",
                 "maximumRetryAttempts": "MaximumRetryAttempts",
                 "maximumRecordAgeInSeconds": "MaximumRecordAgeInSeconds",
                 "parallelizationFactor": "ParallelizationFactor", "tumblingWindowInSeconds": "TumblingWindowInSeconds",
                 "filterPatterns": "FilterCriteria", "destinations": "DestinationConfig"}


def kind_of(arn: object) -> Optional[Tuple[str, str]]:
    """The service and the name of the stream that an ARN is of; none if it is of none."""
    found = ARN.fullmatch(arn) if isinstance(arn, str) else None
    return None if found is None else (found[1] or found[3], found[2] or found[4])


def stream_of(service: str, name: str, given: Object, scope: Scope, tell: Tell) -> Members:
    """The member `stream`. Its server is at the local address that the environment has for the service; without one it
    is a value to supply, which is said."""
    endpoint = next(filter(None, map(endpoint_of, ENDPOINTS[service])), None)
    if endpoint is None:
        tell(f"{given.where}, {NAMES[service]}, is not read: set \"stream\": {{\"url\": \"http://HOST:PORT\"}} in "
             f"{VALUES}, or AWS_ENDPOINT_URL_{ENDPOINTS[service][0].upper()} ({PAGE})")
    made: Members = {"url": endpoint} if endpoint else {}
    made[service] = name
    made.update(rules_of(given, scope, tell))
    return made


def rules_of(given: Object, scope: Scope, tell: Tell) -> Members:
    """What a mapping says of batches and failures."""
    position = given.text("StartingPosition")
    if position == "AT_TIMESTAMP":
        tell(f"{given.where} begins at TRIM_HORIZON here, not at a time")
    failing = given.value("FunctionResponseTypes")
    reads = failing == "ReportBatchItemFailures" or isinstance(failing, list) and "ReportBatchItemFailures" in failing
    made = {"position": "LATEST" if position == "LATEST" else None,
            "batchSize": given.whole("BatchSize", 1, 10_000),
            "window": given.whole("MaximumBatchingWindowInSeconds", 0, 300) or None,
            "retries": number_of(given, "MaximumRetryAttempts", 0, 10_000),
            "maximumAge": number_of(given, "MaximumRecordAgeInSeconds", 60, 604_800),
            "bisect": given.value("BisectBatchOnFunctionError") in (True, "true") or None,
            "partial": None if reads else False,
            "filters": filters_of(given.value("FilterCriteria"), given.where, tell),
            "onFailure": destination_of(given.raw("DestinationConfig"), given.where, scope, tell)}
    factor = given.whole("ParallelizationFactor", 1, 10)
    if factor is not None and factor > 1:
        tell(f"{given.where}: one batch of a shard runs at a time here, not {factor}")
    given.without_meaning(["StartingPositionTimestamp", "KmsKeyArn", "KMSKeyArn", "Tags", "MetricsConfig",
                           "LoggingConfig"])
    return {name: value for name, value in made.items() if value is not None}


def filters_of(given: object, where: str, tell: Tell) -> Optional[List[Dict[str, object]]]:
    """The patterns of a mapping, by CloudFormation's members or Serverless' list."""
    patterns = given.get("Filters") if isinstance(given, dict) else given
    if not patterns:
        return None
    try:
        if not isinstance(patterns, list) or len(patterns) > MOST_FILTERS:
            raise NotJson(f"it must be a list of up to {MOST_FILTERS} patterns")
        return filters_in([one.get("Pattern", one) if isinstance(one, dict) else one for one in patterns])
    except NotJson as fault:
        tell(f"ignores FilterCriteria of {where}, so all records come: {fault}")
        return None


def number_of(given: Object, name: str, least: int, most: int) -> Optional[int]:
    """A bound; -1 is none, as if it is not there."""
    value = given.raw(name)
    return None if value in (-1, "-1") else given.whole(name, least, most)


def destination_of(given: object, where: str, scope: Scope, tell: Tell) -> Optional[str]:
    """The ARN of what gets word of dropped records, by SAM's members or by Serverless'."""
    config = Object(given, f"DestinationConfig of {where}", scope, tell)
    failure = config.raw("OnFailure") if "OnFailure" in config.members else config.raw("onFailure")
    config.close()
    if isinstance(failure, dict) and not {"Destination", "arn", "Type", "type"}.isdisjoint(failure):
        failure = failure.get("Destination", failure.get("arn"))
        if failure is None:
            tell(f"ignores OnFailure of {where}: a queue or topic without a Destination is not known here")
    if failure is None:
        return None
    value = scope.evaluate_or_reason(failure).value
    if isinstance(value, str) and DESTINATION.fullmatch(value):
        return value
    tell(f"ignores OnFailure of {where}: {excerpt(value)} is not the ARN of a queue or a topic")
    return None


def mapped(given: Object, service: str, name: str, scope: Scope, tell: Tell) -> Optional[Members]:
    """By the members that SAM's events and the resource have in common."""
    if is_off(given, given.where, "Enabled", tell):
        return None
    made = stream_of(service, name, given, scope, tell)
    given.close()
    return made


def of_events(properties: Members, scope: Scope, tell: Tell) -> List[Members]:
    found = [*of_sam(properties.get("Events"), scope, tell), *of_serverless(properties.get("events"), scope, tell)]
    return [stream for stream in found if stream is not None]


def of_sam(events: object, scope: Scope, tell: Tell) -> Iterator[Optional[Members]]:
    for kind, given in events_of_sam(events, OF_SAM, scope, tell):
        yield by_arn(given.raw("Stream"), given, OF_SAM[kind], scope, tell)


def by_arn(arn: object, given: Object, otherwise: str, scope: Scope, tell: Tell) -> Optional[Members]:
    value = scope.evaluate_or_reason(arn).value
    found = kind_of(value)
    if found is None:
        tell(f"ignores {given.where}, {NAMES[otherwise]}: " + (
            "its stream is not known here" if value is None else f"{excerpt(value)} is not the ARN of a stream"))
        return None
    return mapped(given, found[0], found[1], scope, tell)


def of_serverless(events: object, scope: Scope, tell: Tell) -> Iterator[Optional[Members]]:
    chosen = scope.chosen(events)
    for event in chosen if isinstance(chosen, list) else ():
        if isinstance(event, dict) and list(event) == ["stream"]:
            whole = event["stream"] if isinstance(event["stream"], dict) and "arn" in event["stream"] else {
                "arn": event["stream"]}
            renamed: Dict[str, object] = {OF_SERVERLESS.get(name, name): value for name, value in whole.items()}
            raw: Dict[str, object] = {"BatchSize": SERVERLESS_BATCH, **renamed}
            given = Object(raw, "its event stream", scope, tell)
            given.without_meaning(["type", "batchWindow"])
            yield by_arn(given.raw("arn"), given, "kinesis", scope, tell)


def put(made: Members, name: str, sources: List[Members]) -> None:
    """Gives a function its streams or topics: one as it is, several as a list."""
    before = made.get(name, [])
    every = [*(before if isinstance(before, list) else [before]), *sources]
    if every:
        made[name] = every[0] if len(every) == 1 else every


def drop_incomplete(made: Members) -> None:
    """Those whose address was to be supplied, which has been told, and was not."""
    for name in ("stream", "topic"):
        given = made.get(name)
        if isinstance(given, dict) and "url" not in given:
            del made[name]
        elif isinstance(given, list):
            left = [one for one in given if not isinstance(one, dict) or "url" in one]
            made.update({name: left} if left else {})
            if not left and given:
                del made[name]
