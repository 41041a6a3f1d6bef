"""The members of UP.json by which a function is invoked without a caller: a queue, and schedules; `event_sources` has
streams and topics."""
import re
from typing import Any, Dict, Iterator, List, NamedTuple, Optional
from urllib.parse import SplitResult, urlsplit

from ..aws_hosts import is_of_aws
from ..configuration import Kind, is_text, is_whole, mistakes_within, shown
from ..event_sources import members
from ..expressions import EXAMPLES, Cron, Rate, WrongExpression, expression_of
from ..service import Fault

MOST_OF_FIFO, MOST_AT_ONCE = 10, 10  # messages: in a batch of a FIFO queue, and in one answer of a queue
MOST_SCHEDULES = 100  # of a function (the quota of a rule bus is 300 in all)
OF_QUEUE = {
    "url": Kind(is_text,
                "a string: the address of an SQS queue, such as \"http://127.0.0.1:9324/000000000000/orders\""),
    "batchSize": Kind(lambda value: is_whole(value, 10_001) and value != 0, "a whole number from 1 to 10000"),
    "window": Kind(lambda value: is_whole(value, 301), "a whole number of seconds, from 0 to 300"),
}
OF_SCHEDULE = {"expression": Kind(is_text, f"a string, such as {EXAMPLES}"),
               "input": Kind(lambda value: True, "JSON"),
               "timezone": Kind(is_text, "a string: a time zone, such as \"Europe/Berlin\"")}


def is_schedule(value: object) -> bool:
    return isinstance(value, (str, dict))


OF_FUNCTION = {
    "queue": Kind(lambda value: isinstance(value, dict), "an object with the \"url\" of a queue"),
    "schedule": Kind(lambda value: is_schedule(value) or isinstance(value, list) and value != []
                     and len(value) <= MOST_SCHEDULES and all(map(is_schedule, value)),
                     f"a string such as {EXAMPLES}, an object with \"expression\" and \"input\", or a list of these"),
    **members.OF_FUNCTION,
}


class Queue(NamedTuple):
    """A queue whose messages invoke a function in batches."""
    url: str
    batch: int = 10
    window: int = 0  # seconds for which a batch is collected

    @property
    def name(self) -> str:
        return urlsplit(self.url).path.rstrip("/").rpartition("/")[2]

    @property
    def endpoint(self) -> str:
        parts = urlsplit(self.url)
        return f"{parts.scheme}://{parts.netloc}"

    @property
    def is_fifo(self) -> bool:
        return self.name.endswith(".fifo")


class Schedule(NamedTuple):
    text: str
    expression: "Rate | Cron"
    input: Optional[Any] = None  # in place of EventBridge's own event


def parts_of(url: str) -> Optional[SplitResult]:
    """The parts of the address of a queue; none if it is none."""
    try:
        parts = urlsplit(url)
        is_right = (parts.scheme in ("http", "https") and parts.hostname and parts.path.strip("/")
                    and not (parts.query or parts.fragment or parts.username or parts.password)
                    and re.fullmatch("[!-~]{1,1024}", url) and (parts.port is None or parts.port > 0))
    except ValueError:
        return None
    return parts if is_right else None


def schedules_in(given: object) -> List[Dict[str, Any]]:
    """The schedules of a member in any of its forms, as objects."""
    listed = given if isinstance(given, list) else [] if given is None else [given]
    return [{"expression": one} if isinstance(one, str) else one for one in listed]


def mistakes(whole: Dict[str, Any]) -> Iterator[str]:
    """What is wrong inside these members, whose own types have been looked at."""
    for member in whole["functions"]:
        where = f"function {member['name']}: "
        if "queue" in member:
            yield from mistakes_of_queue(member["queue"], f"{where}queue: ")
        for number, given in enumerate(schedules_in(member.get("schedule")), 1):
            place = f"{where}schedule: " + (f"number {number}: " if isinstance(member["schedule"], list) else "")
            yield from mistakes_of_schedule(given, place)
        if "schedule" in member and whole.get("asynchronous") is False:
            yield f'{where}schedule: it sends events, which "asynchronous": false refuses: leave one of the two out'
    yield from members.mistakes(whole)


def mistakes_of_queue(given: Dict[str, Any], where: str) -> Iterator[str]:
    yield from mistakes_within(given, OF_QUEUE, where, ["url"], mistakes_in_queue)


def mistakes_in_queue(given: Dict[str, Any], where: str) -> Iterator[str]:
    if parts_of(given["url"]) is None:
        yield f"{where}url: {shown(given['url'])} must be the address of a queue, http://HOST:PORT/ACCOUNT/NAME"
        return
    queue = queue_of(given)
    if queue.is_fifo and queue.batch > MOST_OF_FIFO:
        yield f"{where}batchSize: a FIFO queue gives {MOST_OF_FIFO} messages at most, not {queue.batch}"
    elif queue.batch > MOST_AT_ONCE and queue.window == 0:
        yield f"{where}batchSize: more than {MOST_AT_ONCE} messages need a window of at least 1 s"


def mistakes_of_schedule(given: Dict[str, Any], where: str) -> Iterator[str]:
    yield from mistakes_within(given, OF_SCHEDULE, where, ["expression"], mistakes_in_schedule)


def mistakes_in_schedule(given: Dict[str, Any], where: str) -> Iterator[str]:
    try:
        expression_of(given["expression"], given.get("timezone"))
    except WrongExpression as fault:
        yield f"{where}{shown(given['expression'])}: {fault}"


def queue_of(given: Dict[str, Any]) -> Queue:
    return Queue(given["url"], given.get("batchSize", 10), given.get("window", 0))


def queues_of(functions: "List[Dict[str, Any]] | tuple[Dict[str, Any], ...]") -> Dict[str, Queue]:
    """The queue of each function that has one."""
    return {member["name"]: queue_of(member["queue"]) for member in functions if "queue" in member}


def schedules_of(member: Dict[str, Any]) -> List[Schedule]:
    return [Schedule(given["expression"], expression_of(given["expression"], given.get("timezone")), given.get("input"))
            for given in schedules_in(member.get("schedule"))]


def refuse_aws(path: str, queues: Dict[str, Queue], keeps_credentials: bool) -> None:
    """No queue of AWS itself is read, and so emptied, by mistake."""
    for name, queue in queues.items():
        host = urlsplit(queue.url).hostname or ""
        if not keeps_credentials and is_of_aws(host):
            raise Fault(2, f"{path}: function {name}: queue: url: {host} is AWS itself, whose messages would be taken "
                           "and deleted: name a local queue, or start lambda_local up with --keep-credentials")
