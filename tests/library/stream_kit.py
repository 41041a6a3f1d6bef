"""Streams and topics in memory: servers, a reader whose function is a call of Python, positions that are not kept."""
import json
import threading
from typing import Any, Dict, List, Optional

from lambda_local.event_sources import members
from lambda_local.event_sources.batches import Batch
from lambda_local.event_sources.checkpoints import Checkpoints, Position
from lambda_local.event_sources.servers import Read, Record, Seen, SeenShard, lost_at
from lambda_local.event_sources.streams import Reader

URL = "http://127.0.0.1:5000"


def stream(**given: Any) -> members.Stream:
    return members.stream_of("f", {"url": URL, "kinesis": "clicks", **given})


def record(number: int, size: int = 10, arrived: float = 0.0) -> Record:
    return Record(str(number), arrived, {"n": number}, size)


def batch(*numbers: int, tries: int = 0) -> Batch:
    return Batch(tuple(map(record, numbers)), tries)


def numbers(records: Any) -> List[int]:
    return [one.number for one in records]


class Clock:
    def __init__(self) -> None:
        self.moment = 1_000_000

    def now(self) -> int:
        return self.moment

    def reached(self, moment: int) -> bool:
        return self.moment >= moment


class AwsFault(Exception):
    def __init__(self, code: str) -> None:
        super().__init__(code)
        self.response = {"Error": {"Code": code}}


class FakeServer:
    """Shards in memory, with iterators that end as those of Kinesis do: at the end of a closed shard there is none."""
    most, wait = 10, 0.0

    def __init__(self, **shards: List[int]) -> None:
        self.shards = dict(shards)
        self.parents: Dict[str, List[str]] = {}
        self.closed: set[str] = set()
        self.identity = "one"
        self.faults: List[Exception] = []
        self.odd: List[object] = []

    def look(self) -> Seen:
        return Seen(self.identity, "arn", [SeenShard(name, tuple(self.parents.get(name, ())), name in self.closed)
                                           for name in self.shards])

    def iterator(self, shard: str, kind: str, sequence: Optional[str]) -> str:
        place = {"TRIM_HORIZON": 0, "LATEST": len(self.shards[shard])}.get(kind)
        if place is None:
            place = sum(1 for one in self.shards[shard] if one <= int(str(sequence)))
        return f"{shard} {place}"

    def read(self, iterator: str, limit: int) -> Read:
        if self.faults:
            raise self.faults.pop(0)
        name, _, place = iterator.partition(" ")
        begin = int(place)
        given: List[object] = list(self.shards[name][begin:begin + limit])
        end = begin + len(given)
        is_over = name in self.closed and end == len(self.shards[name])
        odd, self.odd = self.odd, []
        return Read([*odd, *given], None if is_over else f"{name} {end}", not given)

    def record_of(self, given: object, shard: str) -> Optional[Record]:
        return record(given) if isinstance(given, int) else None

    def lost(self, given: object) -> Optional[Record]:
        return lost_at(given, 5.0) if isinstance(given, str) else None


class Service:
    configuration: Dict[str, Any] = {"account": "123456789012", "region": "eu-west-1", "functions": []}


class Driven(Reader):
    """A reader whose function is a call of Python, and which one thread drives."""

    def __init__(self, server: FakeServer, function: Any = lambda numbers: None, checkpoints: Any = None,
                 **given: Any) -> None:
        self.lines: List[str] = []
        super().__init__(stream(**given), Service(), Clock(), False, threading.Event(),  # type: ignore[arg-type]
                         lambda who, text, *rest, **more: self.lines.append(text.partition(": ")[2]), checkpoints)
        self.server, self.function = server, function
        self.came: List[Any] = []

    def invoke(self, batch: Batch) -> Any:
        found = numbers(batch.records)
        self.came.append(found)
        answer = self.function(found)
        if isinstance(answer, int):
            return answer, {}, b""
        failed = {"x-amz-function-error": "Unhandled"} if answer == "failed" else {}
        return 200, failed, json.dumps(answer).encode()

    def drive(self, steps: int = 60) -> "Driven":
        for _ in range(steps):
            for each in self.tasks():
                each.due -= 3600.0
            task = self.take()
            if task is not None:
                self.step(task)
            self.clock.moment += 60_000  # type: ignore[attr-defined]
        return self


class FakeAws:
    """SNS and SQS in memory."""

    def __init__(self) -> None:
        self.topics: List[str] = []
        self.messages: List[str] = []
        self.subscribed: List[Any] = []
        self.queues: List[str] = []
        self.removed: List[str] = []
        self.deleted: List[str] = []
        self.confirmed: List[str] = []
        self.faults: List[Exception] = []
        self.unsubscribed, self.queue_host = 0, URL

    def list_topics(self, **given: Any) -> Dict[str, Any]:
        return {"Topics": [{"TopicArn": arn} for arn in self.topics]}

    def create_queue(self, QueueName: str, Attributes: Any) -> Dict[str, Any]:
        self.queues.append(f"{self.queue_host}/1/{QueueName}")
        return {"QueueUrl": self.queues[-1]}

    def get_queue_attributes(self, **given: Any) -> Dict[str, Any]:
        return {"Attributes": {"QueueArn": "arn:aws:sqs:eu-west-1:1:q"}}

    def set_queue_attributes(self, **given: Any) -> Dict[str, Any]:
        return {}

    def subscribe(self, TopicArn: str, Attributes: Dict[str, str], **given: Any) -> Dict[str, Any]:
        self.subscribed.append((TopicArn, Attributes.get("FilterPolicy")))
        return {"SubscriptionArn": f"{TopicArn}:{len(self.subscribed)}"}

    def get_subscription_attributes(self, **given: Any) -> Dict[str, Any]:
        if self.faults:
            raise self.faults.pop(0)
        return {}

    def receive_message(self, **given: Any) -> Dict[str, Any]:
        if self.faults:
            raise self.faults.pop(0)
        messages, self.messages = self.messages, []
        return {"Messages": [{"ReceiptHandle": str(number), "Body": text} for number, text in enumerate(messages)]}

    def confirm_subscription(self, Token: str, **given: Any) -> Dict[str, Any]:
        self.confirmed.append(Token)
        return {}

    def delete_message(self, ReceiptHandle: str, **given: Any) -> Dict[str, Any]:
        self.deleted.append(ReceiptHandle)
        return {}

    def delete_queue(self, QueueUrl: str) -> Dict[str, Any]:
        self.removed.append(QueueUrl)
        return {}

    def unsubscribe(self, **given: Any) -> Dict[str, Any]:
        self.unsubscribed += 1
        return {}


class Kept(Checkpoints):
    """Positions in memory."""

    def __init__(self, **positions: Position) -> None:
        self.path, self.where, self.identity, self.positions = "here", "w", "one", dict(positions)
        self.is_changed, self.written_at = False, 0.0

    def write(self, now: bool = False) -> None:
        pass
