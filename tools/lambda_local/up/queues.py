"""A queue as an event source (Developer Guide, "Using Lambda with Amazon SQS"): its messages invoke the function in
batches, and are deleted if it succeeds; what it reports in `batchItemFailures` stays. The queue is another server of
SQS's API, which boto3 asks; how long messages are invisible, and where they go in the end, is its own business."""
import base64
import json
import sys
import threading
from typing import Any, Dict, Iterator, List, NamedTuple, Optional
from urllib.parse import urlsplit

from ..clock.followed import Clock
from ..json_reader import members_of
from ..other_server import ANSWER_SECONDS, POLL_SECONDS, Asking, NoClient, client_of, one_line
from ..outgoing import several
from ..service import AGAIN, ask
from .log import Log
from .sources import MOST_AT_ONCE, Queue

MOST_POLLERS = 5  # of a function (Lambda begins with as many)
MOST_BYTES = 4 << 20  # of a batch's messages; an event has at most 6 MiB
FIRST_PAUSE, LONGEST_PAUSE = 1.0, 30.0  # seconds, after a fault of the queue; each further one doubles it
FIRST_RETRY, LONGEST_RETRY, MOST_THROTTLES = 0.05, 2.0, 30  # seconds; after that many throttles a batch is given back
RECEIVED = "ApproximateReceiveCount"  # how often a message has come
INVOKE_SECONDS = 1000  # longer than any invocation and its Init


# ---- events ----------------------------------------------------------------------------------------------------------


def attribute_of(given: Dict[str, Any]) -> Dict[str, Any]:
    """A message's own attribute."""
    attribute: Dict[str, Any] = {"stringListValues": [], "binaryListValues": [],
                                 "dataType": str(given.get("DataType", ""))}
    if "StringValue" in given:
        attribute["stringValue"] = str(given["StringValue"])
    if isinstance(given.get("BinaryValue"), bytes):
        attribute["binaryValue"] = base64.b64encode(given["BinaryValue"]).decode()
    return attribute


def is_message(given: object) -> bool:
    """Whether a server has given a message as SQS does: another client and another server make other values of it."""
    return (isinstance(given, dict)
            and all(isinstance(given.get(name), str) for name in ("MessageId", "ReceiptHandle"))
            and all(isinstance(given.get(name, ""), str) for name in ("Body", "MD5OfBody"))
            and isinstance(given.get("Attributes") or {}, dict)
            and isinstance(attributes := given.get("MessageAttributes") or {}, dict)
            and all(isinstance(one, dict) for one in attributes.values()))


def record_of(message: Dict[str, Any], arn: str, region: str) -> Dict[str, Any]:
    return {
        "messageId": message["MessageId"], "receiptHandle": message["ReceiptHandle"], "body": message.get("Body", ""),
        "attributes": {str(name): str(value) for name, value in (message.get("Attributes") or {}).items()},
        "messageAttributes": {str(name): attribute_of(value)
                              for name, value in (message.get("MessageAttributes") or {}).items()},
        "md5OfBody": message.get("MD5OfBody", ""), "eventSource": "aws:sqs", "eventSourceARN": arn, "awsRegion": region}


def failures_in(result: bytes, identifiers: List[str]) -> Optional[List[str]]:
    """The messages that a result says have failed; none if it says so in a form that fails the whole batch (Developer
    Guide, "Implementing partial batch responses"). A result that says nothing of it is a success."""
    given = (members_of(result) or {}).get("batchItemFailures")
    if not given:
        return []
    if not isinstance(given, list):
        return None
    failed = [str(one.get("itemIdentifier")) if isinstance(one, dict) else "" for one in given]
    return failed if all(one in identifiers for one in failed) else None


# ---- a poller --------------------------------------------------------------------------------------------------------


class Invoked(NamedTuple):
    """What became of a batch."""
    failed: Optional[List[str]]  # identifiers; none if all did
    why: str = ""


class Poller(Asking):
    """Takes batches from a queue, one after the other. A function has several of them, as it has environments; a FIFO
    queue has one, so that its order is kept."""

    def __init__(self, function: str, queue: Queue, service: Any, clock: Clock, keeps_credentials: bool,
                 stopping: threading.Event, log: Log):
        super().__init__(f"queue of {function}")
        self.function, self.queue, self.service, self.stopping, self.log = function, queue, service, stopping, log
        self.clock = clock  # by which windows and the pauses after throttles are counted; the server's time is real
        self.keeps_credentials, self.region = keeps_credentials, service.configuration["region"]
        self.pause, self.arn = 0.0, ""
        self.has_odd = False  # the last poll had a message that is none, which was told

    def say(self, text: str, level: str = "info", **members: Any) -> None:
        self.log(self.function, f"queue {self.queue.name}: {text}", level=level, kind="queue", function=self.function,
                 **members)

    def run(self) -> None:
        try:
            self.client = client_of("sqs", self.queue.endpoint, self.region, self.keeps_credentials,
                                    POLL_SECONDS + ANSWER_SECONDS)
        except NoClient:
            return self.say(f"not polled: {sys.executable} has no boto3: pip install boto3", "error")
        except Exception as fault:
            return self.say(f"not polled: {one_line(fault)}", "error")
        while not self.stopping.is_set():
            try:
                batch = self.collected()
                self.works_again()
            except Exception as fault:  # (whatever a server answers, and whatever the client makes of it)
                self.wait_after(fault)
                continue
            try:
                if batch:
                    self.handle(batch)
            except Exception as fault:  # (whatever is in a batch, it ends no other)
                self.say(f"a batch of {len(batch)} is not handled: {one_line(fault)}: its messages stay in the queue",
                         "error", messages=len(batch))
                self.stopping.wait(FIRST_PAUSE)

    def works_again(self) -> None:
        if self.pause:
            self.say("polled again")
        self.pause = 0.0

    def wait_after(self, fault: Exception) -> None:
        if not self.pause:
            self.say(f"cannot be polled: {one_line(fault)}", "error")
        self.pause = min(LONGEST_PAUSE, 2 * self.pause or FIRST_PAUSE)
        self.stopping.wait(self.pause)

    # ---- a batch -----------------------------------------------------------------------------------------------------

    def collected(self) -> List[Dict[str, Any]]:
        """Messages, until a batch is full or its window is over."""
        messages: List[Dict[str, Any]] = []
        end = None
        while not self.stopping.is_set():
            taken = self.received(min(MOST_AT_ONCE, self.queue.batch - len(messages)))
            messages += taken
            if messages and end is None:
                end = self.clock.now() + 1000 * self.queue.window
            size = sum(len(str(message.get("Body", ""))) for message in messages)
            if (end is None or len(messages) >= self.queue.batch or size >= MOST_BYTES or self.clock.reached(end)):
                break
        return messages

    def received(self, count: int) -> List[Dict[str, Any]]:
        answer = self.asked(self.client.receive_message, QueueUrl=self.queue.url, AttributeNames=["All"],
                            MessageAttributeNames=["All"], MaxNumberOfMessages=count, WaitTimeSeconds=POLL_SECONDS)
        given = answer.get("Messages") or []
        messages = [one for one in given if is_message(one)]
        if len(messages) < len(given):
            self.leave_odd(len(given) - len(messages), not messages)
        else:
            self.has_odd = False
        if not self.arn:
            self.arn = self.known_arn()
        return messages

    def leave_odd(self, count: int, are_all: bool) -> None:
        """Messages of which no event can be made: they are told once, and those beside them go on."""
        if not self.has_odd:
            self.say(f"{several(count, 'message')} of its server {'is' if count == 1 else 'are'} left in the queue: "
                     "a message has texts as MessageId, ReceiptHandle and Body, and objects as its attributes", "error")
        self.has_odd = True
        if are_all:
            self.stopping.wait(FIRST_PAUSE)

    def known_arn(self) -> str:
        """The queue's ARN, by its server or by its address."""
        account, region = self.service.configuration["account"], self.region
        parts = [part for part in urlsplit(self.queue.url).path.split("/") if part]
        by_address = f"arn:aws:sqs:{region}:{parts[-2] if len(parts) > 1 else account}:{self.queue.name}"
        try:
            answer = self.asked(self.client.get_queue_attributes, QueueUrl=self.queue.url, AttributeNames=["QueueArn"])
            return str(answer["Attributes"]["QueueArn"])
        except Exception:  # (some servers have no such attribute)
            return by_address

    def handle(self, batch: List[Dict[str, Any]]) -> None:
        identifiers = [str(message["MessageId"]) for message in batch]
        event = {"Records": [record_of(message, self.arn, self.region) for message in batch]}
        is_again = any((message.get("Attributes") or {}).get(RECEIVED) not in (None, "1") for message in batch)
        invoked = self.invoke(json.dumps(event, ensure_ascii=False).encode(errors="replace"), identifiers, is_again)
        what = f"a batch of {len(batch)}"
        if invoked.failed is None:
            if not self.stopping.is_set():
                self.say(f"{what} {invoked.why}: its messages stay in the queue", "error", messages=len(batch))
            return
        done = [message for message in batch if str(message["MessageId"]) not in invoked.failed]
        left = self.delete(done)
        if invoked.failed:
            count = len(invoked.failed)
            self.say(f"{what}: {count} failed and {'stays' if count == 1 else 'stay'} in the queue", "warning",
                     messages=len(batch), failed=count)
        elif not left:
            self.say(f"{what} ok", "ok", messages=len(batch))

    def invoke(self, event: bytes, identifiers: List[str], is_again: bool) -> Invoked:
        pause = FIRST_RETRY
        for _ in range(MOST_THROTTLES):
            try:
                path = f"/2015-03-31/functions/{self.function}/invocations"
                status, headers, body = ask(self.service.through, "POST", path, event,
                                            {AGAIN: "1"} if is_again else {}, timeout=INVOKE_SECONDS)
            except OSError as fault:
                return Invoked(None, f"has no outcome: {one_line(fault)}")
            if status != 429:
                break
            is_again = True
            if self.clock.wait(self.stopping, pause):
                return Invoked(None, "is not invoked, since all stops")
            pause = min(LONGEST_RETRY, 2 * pause)
        if status != 200:
            return Invoked(None, f"is answered {status} {body.decode(errors='replace')[:200]}")
        if "x-amz-function-error" in headers:
            return Invoked(None, "failed")
        failed = failures_in(body, identifiers)
        return Invoked(failed, "failed, since its batchItemFailures name no message of it" if failed is None else "")

    def delete(self, messages: List[Dict[str, Any]]) -> int:
        """Takes messages out of the queue; how many are left, which is reported."""
        left, why = 0, ""
        for part in parts_of(messages):
            entries = [{"Id": str(number), "ReceiptHandle": message["ReceiptHandle"]}
                       for number, message in enumerate(part)]
            try:
                answer = self.client.delete_message_batch(QueueUrl=self.queue.url, Entries=entries)
                failed = answer.get("Failed") or []
                left, why = left + len(failed), str(failed[0].get("Message", ""))[:200] if failed else why
            except Exception as fault:
                left, why = left + len(part), one_line(fault)
        if left:
            self.say(f"{several(left, 'handled message')} could not be deleted, and will come again: {why}", "error")
        return left


def parts_of(messages: List[Dict[str, Any]]) -> Iterator[List[Dict[str, Any]]]:
    """As many as a queue deletes at once."""
    for begin in range(0, len(messages), MOST_AT_ONCE):
        yield messages[begin:begin + MOST_AT_ONCE]


def pollers_of(queues: Dict[str, Queue], service: Any, clock: Clock, keeps_credentials: bool,
               stopping: threading.Event, log: Log) -> List[Poller]:
    pollers = []
    environments = {part["name"]: len(part["ports"]) for part in service.configuration["functions"]}
    for name, queue in queues.items():
        count = 1 if queue.is_fifo else min(MOST_POLLERS, environments[name])
        pollers += [Poller(name, queue, service, clock, keeps_credentials, stopping, log) for _ in range(count)]
    return pollers
