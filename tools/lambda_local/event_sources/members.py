"""The members `stream` and `topic` of a function in UP.json."""
import re
from typing import Any, Dict, Iterator, List, NamedTuple, Optional, Tuple

from ..configuration import Kind, is_text, is_whole, mistakes_within, shown
from ..other_server import ARN, is_endpoint
from ..other_server import EXAMPLE as QUEUE
from . import filters

MOST_SOURCES = 10  # streams of a function, and topics
POSITIONS = ("TRIM_HORIZON", "LATEST")
FOREVER = -1
KINESIS, DYNAMODB = "kinesis", "dynamodb"
NAMES = {KINESIS: re.compile(r"(?:arn:[a-z-]{1,32}:kinesis:([a-z0-9-]{1,64}):\d{12}:stream/)?([A-Za-z0-9_.-]{1,128})"),
         DYNAMODB: re.compile(r"(?:arn:[a-z-]{1,32}:dynamodb:([a-z0-9-]{1,64}):\d{12}:table/)?([A-Za-z0-9_.-]{3,255})"
                              r"(/stream/[0-9T:.-]{1,64})?")}
OF_TOPIC_NAME = re.compile(r"(?:arn:[a-z-]{1,32}:sns:([a-z0-9-]{1,64}):\d{12}:)?([A-Za-z0-9_-]{1,256})(\.fifo)?")
URL = Kind(is_text, "a string: the address of a server of AWS's APIs, such as \"http://127.0.0.1:5000\"")
YES = Kind(lambda value: isinstance(value, bool), "true or false")


def is_number(least: int, below: int) -> "Any":
    return lambda value: value == FOREVER and not isinstance(value, float) or is_whole(value, below) and value >= least


OF_STREAM = {
    "url": URL,
    KINESIS: Kind(is_text, "a string: the name or the ARN of a data stream"),
    DYNAMODB: Kind(is_text, "a string: the name of a table, or the ARN of its stream"),
    "position": Kind(lambda value: value in POSITIONS, '"TRIM_HORIZON" or "LATEST"'),
    "batchSize": Kind(lambda value: is_whole(value, 10_001) and value != 0, "a whole number from 1 to 10000"),
    "window": Kind(lambda value: is_whole(value, 301), "a whole number of seconds, from 0 to 300"),
    "retries": Kind(is_number(0, 10_001), "a whole number from 0 to 10000, or -1"),
    "maximumAge": Kind(is_number(1, 604_801), "a whole number of seconds, from 1 to 604800, or -1"),
    "bisect": YES,
    "filters": Kind(lambda value: isinstance(value, list) and 0 < len(value) <= filters.MOST_FILTERS
                    and all(isinstance(one, dict) for one in value),
                    f"a list of up to {filters.MOST_FILTERS} patterns, which are objects"),
    "partial": YES,
    "onFailure": Kind(lambda value: isinstance(value, str) and ARN.fullmatch(value) is not None,
                      f"a string: the ARN of an SQS queue or an SNS topic, such as \"{QUEUE}\""),
    "checkpoint": Kind(lambda value: isinstance(value, str) and is_text(value) and value != "" and "\0" not in value,
                       "a string: a file in which positions are kept"),
}
OF_TOPIC = {
    "url": URL,
    "name": Kind(is_text, "a string: the name or the ARN of a topic"),
    "filterPolicy": Kind(lambda value: isinstance(value, dict), "an object: a filter policy of SNS"),
    "filterPolicyScope": Kind(lambda value: value in ("MessageAttributes", "MessageBody"),
                              '"MessageAttributes" or "MessageBody"'),
}


def is_sources(value: object) -> bool:
    """One of them, or a list."""
    return isinstance(value, dict) or (isinstance(value, list) and 0 < len(value) <= MOST_SOURCES
                                       and all(isinstance(one, dict) for one in value))


OF_FUNCTION = {
    "stream": Kind(is_sources, "an object with \"url\" and \"kinesis\" or \"dynamodb\", or a list of up to "
                               f"{MOST_SOURCES}"),
    "topic": Kind(is_sources, f"an object with \"url\" and \"name\", or a list of up to {MOST_SOURCES}"),
}


class Stream(NamedTuple):
    """A stream whose records invoke a function in batches, in the order of each shard."""
    function: str
    url: str
    service: str  # KINESIS or DYNAMODB
    named: str  # its name or its ARN; the table's of DynamoDB
    position: str = "TRIM_HORIZON"
    batch: int = 100
    window: int = 0  # seconds for which a batch is collected
    retries: int = FOREVER
    oldest: int = FOREVER  # seconds
    bisects: bool = False
    reads_failures: bool = True  # `batchItemFailures` of a result
    on_failure: Optional[str] = None  # an ARN
    checkpoint: Optional[str] = None  # a file
    filters: Tuple[Dict[str, Any], ...] = ()  # patterns, one of which takes each record that comes

    @property
    def name(self) -> str:
        return parts_of(self.service, self.named)[1]

    @property
    def region(self) -> Optional[str]:
        """The one in its ARN."""
        return parts_of(self.service, self.named)[0]


class Topic(NamedTuple):
    """A topic whose notifications invoke a function, one by one."""
    function: str
    url: str
    named: str  # its name or its ARN
    policy: Optional[Dict[str, Any]] = None
    scope: Optional[str] = None

    @property
    def name(self) -> str:
        return self.named.rpartition(":")[2]

    @property
    def region(self) -> Optional[str]:
        found = OF_TOPIC_NAME.fullmatch(self.named)
        return found[1] if found else None


def parts_of(service: str, named: str) -> Tuple[Optional[str], str]:
    """The region, if there is one, and the name in a name or an ARN."""
    found = NAMES[service].fullmatch(named)
    return (found[1], found[2]) if found else (None, named)


def listed(given: object) -> List[Dict[str, Any]]:
    """The sources of a member in any of its forms."""
    return given if isinstance(given, list) else [] if given is None else [given]  # type: ignore[list-item]


def mistakes(whole: Dict[str, Any]) -> Iterator[str]:
    """What is wrong inside these members, whose own types have been looked at."""
    kept: Dict[str, str] = {}
    for member in whole["functions"]:
        for name, look in (("stream", mistakes_of_stream), ("topic", mistakes_of_topic)):
            for number, given in enumerate(listed(member.get(name)), 1):
                place = f"number {number}: " if isinstance(member[name], list) else ""
                yield from look(given, f"function {member['name']}: {name}: {place}")
                path = given.get("checkpoint")
                if is_text(path) and path in kept:
                    yield (f"function {member['name']}: {name}: {place}checkpoint: {shown(path)} is that of "
                           f"{kept[path]}: each stream has a file of its own")
                kept.update({path: f"function {member['name']}"} if isinstance(path, str) else {})
        if "topic" in member and whole.get("asynchronous") is False:
            yield (f'function {member["name"]}: topic: it sends events, which "asynchronous": false refuses: leave one '
                   "of the two out")


def mistakes_of_url(given: Dict[str, Any], where: str) -> Iterator[str]:
    if not is_endpoint(given["url"]):
        yield f"{where}url: {shown(given['url'])} must be the address of a server, http://HOST:PORT"


def mistakes_of_stream(given: Dict[str, Any], where: str) -> Iterator[str]:
    yield from mistakes_within(given, OF_STREAM, where, ["url"], mistakes_in_stream)


def mistakes_in_stream(given: Dict[str, Any], where: str) -> Iterator[str]:
    services = [service for service in (KINESIS, DYNAMODB) if service in given]
    if len(services) != 1:
        yield (f"{where}there is no kinesis or dynamodb, one of which names the stream" if not services
               else f"{where}it has kinesis and dynamodb: leave one of the two out")
        return
    service = services[0]
    if NAMES[service].fullmatch(given[service]) is None:
        yield f"{where}{service}: {shown(given[service])} must be {OF_STREAM[service].expected[10:]}"
    yield from mistakes_of_url(given, where)
    for number, pattern in enumerate(given.get("filters", ()), 1):
        yield from filters.mistakes(pattern, f"{where}filters: number {number}: ")


def mistakes_of_topic(given: Dict[str, Any], where: str) -> Iterator[str]:
    yield from mistakes_within(given, OF_TOPIC, where, ["url", "name"], mistakes_in_topic)


def mistakes_in_topic(given: Dict[str, Any], where: str) -> Iterator[str]:
    found = OF_TOPIC_NAME.fullmatch(given["name"])
    if found is None:
        yield f"{where}name: {shown(given['name'])} must be the name or the ARN of a topic"
    elif found[3]:
        yield f"{where}name: {shown(given['name'])} is a FIFO topic, to which no function can be subscribed"
    if "filterPolicyScope" in given and "filterPolicy" not in given:
        yield f"{where}filterPolicyScope: there is no filterPolicy: leave it out"
    yield from mistakes_of_url(given, where)


def stream_of(function: str, given: Dict[str, Any]) -> Stream:
    service = KINESIS if KINESIS in given else DYNAMODB
    return Stream(function, given["url"].rstrip("/"), service, given[service], given.get("position", "TRIM_HORIZON"),
                  given.get("batchSize", 100), given.get("window", 0), given.get("retries", FOREVER),
                  given.get("maximumAge", FOREVER), given.get("bisect", False), given.get("partial", True),
                  given.get("onFailure"), given.get("checkpoint"), tuple(given.get("filters", ())))


def streams_of(functions: "List[Dict[str, Any]] | Tuple[Dict[str, Any], ...]") -> List[Stream]:
    return [stream_of(member["name"], given) for member in functions for given in listed(member.get("stream"))]


def topics_of(functions: "List[Dict[str, Any]] | Tuple[Dict[str, Any], ...]") -> List[Topic]:
    return [Topic(member["name"], given["url"].rstrip("/"), given["name"], given.get("filterPolicy"),
                  given.get("filterPolicyScope")) for member in functions for given in listed(member.get("topic"))]
