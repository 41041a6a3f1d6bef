"""Kinesis Data Streams and DynamoDB Streams as boto3 asks them, and their records as Lambda gives them to a function
(Developer Guide, "Using Lambda to process records from Amazon Kinesis Data Streams" and "Using AWS Lambda with Amazon
DynamoDB"). What a server answers is looked at: any client and any server may make other values of it."""
import base64
import json
import re
from datetime import datetime
from typing import Any, Dict, Iterator, List, NamedTuple, Optional, Protocol, Tuple

from .members import KINESIS, Stream
from .unparsed import Bodies, Unparsed, of_dynamo_db, of_kinesis

UNREADABLE = "UnreadableRecord"  # (AWS has none, and no word for it)
MOST_SHARDS = 1000  # of a stream
MOST_PAGES = 100  # of a list of shards
SEQUENCE = re.compile(r"\d{1,129}")  # (Kinesis: 0, or up to 129 digits)
OF_RECORD = ("Keys", "NewImage", "OldImage")  # what a record of a table has as attributes
DEEPEST = 40  # levels of an attribute (DynamoDB has 32)


class NotThere(Exception):
    """There is no such stream, or not yet."""


class WrongAnswer(Exception):
    """A server has answered what is not of its API."""


class SeenShard(NamedTuple):
    identifier: str
    parents: Tuple[str, ...]
    is_closed: bool


class CannotParse(WrongAnswer):
    """The client makes nothing of an answer, which says this as JSON."""

    def __init__(self, why: str, read: "Read") -> None:
        super().__init__(f"boto3 cannot parse what its server answers: {why}")
        self.read = read


class Seen(NamedTuple):
    """What a server says of a stream. No other stream has the identity, not one of the same name either."""
    identity: str
    arn: str
    shards: List[SeenShard]


class Record(NamedTuple):
    sequence: str
    arrived: float  # milliseconds, by the server
    event: Dict[str, Any]  # as the function gets it
    size: int  # of that as JSON
    fault: str = ""  # why it is given up before its function is invoked with it

    @property
    def number(self) -> int:
        return int(self.sequence)


class Read(NamedTuple):
    records: List[object]
    following: Optional[str]  # the next iterator; none at the end of a closed shard
    is_at_end: bool  # there are no further records now


class Server(Protocol):
    """A stream of a server."""
    most: int  # records in one answer
    wait: float  # seconds between two polls of a shard that has no records

    def look(self) -> Seen:
        ...

    def iterator(self, shard: str, kind: str, sequence: Optional[str]) -> str:
        ...

    def read(self, iterator: str, limit: int) -> Read:
        """Raises CannotParse if there is an answer of which the client makes nothing."""
        ...

    def lost(self, given: object) -> Optional[Record]:
        """What is known of a record of which `record_of` makes none; None without a sequence number."""
        ...

    def record_of(self, given: object, shard: str) -> Optional[Record]:
        """None of what is no record."""
        ...


def text_in(given: object, name: str) -> str:
    value = given.get(name) if isinstance(given, dict) else None
    if not isinstance(value, str) or not value:
        raise WrongAnswer(f"the server's answer has no text as {name}")
    return value


def listed_in(given: object, name: str) -> List[Any]:
    value = given.get(name) if isinstance(given, dict) else None
    if not isinstance(value, list):
        raise WrongAnswer(f"the server's answer has no list as {name}")
    return value


def shard_of(given: Any) -> SeenShard:
    identifier = text_in(given, "ShardId")
    parents = [given.get(name) for name in ("ParentShardId", "AdjacentParentShardId")]
    numbers = given.get("SequenceNumberRange")
    return SeenShard(identifier, tuple(parent for parent in parents if isinstance(parent, str)),
                     isinstance(numbers, dict) and numbers.get("EndingSequenceNumber") is not None)


def read_of(answer: object, says_how_far: bool) -> Read:
    records = listed_in(answer, "Records")
    assert isinstance(answer, dict)
    following = answer.get("NextShardIterator")
    behind = answer.get("MillisBehindLatest")
    return Read(records, following if isinstance(following, str) and following else None,
                not records and says_how_far and behind == 0)


def lost_at(sequence: object, moment: object) -> Optional[Record]:
    """What is known of a record that is none, by its sequence number and its time."""
    if not isinstance(sequence, str) or SEQUENCE.fullmatch(sequence) is None:
        return None
    return Record(sequence, 1000 * (seconds_of(moment) or 0.0), {}, 0, UNREADABLE)


def seconds_of(moment: object) -> Optional[float]:
    """The time of a record since 1970, as a client has it."""
    if isinstance(moment, datetime):
        try:
            return moment.timestamp()
        except (OverflowError, ValueError, OSError):
            return None
    is_time = isinstance(moment, (int, float)) and not isinstance(moment, bool) and 0 <= moment < 1e11
    return float(moment) if is_time else None  # type: ignore[arg-type]


def made(sequence: object, arrived: Optional[float], event: Dict[str, Any]) -> Optional[Record]:
    if not isinstance(sequence, str) or SEQUENCE.fullmatch(sequence) is None or arrived is None:
        return None
    try:
        size = len(json.dumps(event, ensure_ascii=False).encode())
    except (TypeError, ValueError, RecursionError):
        return None
    return Record(sequence, 1000 * arrived, event, size)


class Kinesis:
    most, wait = 10_000, 0.25

    def __init__(self, client: Any, stream: Stream, region: str, account: str) -> None:
        self.client, self.region, self.account = client, stream.region or region, account
        self.named = {"StreamARN" if stream.named.startswith("arn:") else "StreamName": stream.named}
        self.arn = ""
        self.bodies = Bodies(client, "GetRecords")

    def look(self) -> Seen:
        found = self.client.describe_stream_summary(**self.named).get("StreamDescriptionSummary")
        self.arn = text_in(found, "StreamARN")
        begun = seconds_of(found.get("StreamCreationTimestamp"))
        return Seen(f"{self.arn} of {begun}", self.arn, [shard_of(one) for one in self._shards()])

    def _shards(self) -> Iterator[object]:
        answer = self.client.list_shards(**self.named)
        for _ in range(MOST_PAGES):
            yield from listed_in(answer, "Shards")
            token = answer.get("NextToken")
            if not isinstance(token, str) or not token:
                return
            answer = self.client.list_shards(NextToken=token)

    def iterator(self, shard: str, kind: str, sequence: Optional[str]) -> str:
        return text_in(self.client.get_shard_iterator(
            **self.named, ShardId=shard, ShardIteratorType=kind,
            **({} if sequence is None else {"StartingSequenceNumber": sequence})), "ShardIterator")

    def read(self, iterator: str, limit: int) -> Read:
        try:
            return read_of(self.bodies.asked(self.client.get_records, ShardIterator=iterator, Limit=limit), True)
        except Unparsed as fault:
            read = read_of(fault.answer, True)
            raise CannotParse(str(fault), read._replace(records=list(map(of_kinesis, read.records)))) from fault

    def lost(self, given: object) -> Optional[Record]:
        if not isinstance(given, dict):
            return None
        return lost_at(given.get("SequenceNumber"), given.get("ApproximateArrivalTimestamp"))

    def record_of(self, given: object, shard: str) -> Optional[Record]:
        if not isinstance(given, dict):
            return None
        data, sequence, arrived = given.get("Data"), given.get("SequenceNumber"), given.get(
            "ApproximateArrivalTimestamp")
        moment = seconds_of(arrived)
        if not isinstance(data, bytes) or not isinstance(given.get("PartitionKey"), str) or moment is None:
            return None
        whole = {"kinesisSchemaVersion": "1.0", "partitionKey": given["PartitionKey"], "sequenceNumber": sequence,
                 "data": base64.b64encode(data).decode(), "approximateArrivalTimestamp": round(moment, 3)}
        if given.get("EncryptionType") == "KMS":
            whole["encryptionType"] = "KMS"
        return made(sequence, moment, {
            "kinesis": whole, "eventSource": "aws:kinesis", "eventVersion": "1.0", "eventID": f"{shard}:{sequence}",
            "eventName": "aws:kinesis:record",
            "invokeIdentityArn": f"arn:aws:iam::{self.account}:role/lambda_local", "awsRegion": self.region,
            "eventSourceARN": self.arn})


def plain(value: object, level: int = 0) -> object:
    """A value of DynamoDB's as JSON has it: bytes are in base64. ValueError for what it has not."""
    if isinstance(value, (bytes, bytearray)):
        return base64.b64encode(value).decode()
    if isinstance(value, dict) and level < DEEPEST:
        return {str(name): plain(member, level + 1) for name, member in value.items()}
    if isinstance(value, (list, tuple)) and level < DEEPEST:
        return [plain(member, level + 1) for member in value]
    if value is None or isinstance(value, (str, bool, int)):
        return value
    raise ValueError(f"{type(value).__name__} is no value of an attribute")


class DynamoDb:
    most, wait = 1000, 0.25  # (Lambda polls a shard four times a second)

    def __init__(self, client: Any, stream: Stream, region: str) -> None:
        self.client, self.region, self.table = client, stream.region or region, stream.name
        self.given = stream.named if "/stream/" in stream.named and stream.named.startswith("arn:") else None
        self.arn = ""
        self.bodies = Bodies(client, "GetRecords")

    def look(self) -> Seen:
        self.arn = self.given or self._latest()
        return Seen(self.arn, self.arn, [shard_of(one) for one in self._shards()])

    def _latest(self) -> str:
        """The table's newest stream."""
        streams = listed_in(self.client.list_streams(TableName=self.table), "Streams")
        labelled = [(str(one.get("StreamLabel", "")), text_in(one, "StreamArn")) for one in streams
                    if isinstance(one, dict)]
        if not labelled:
            raise NotThere(f"there is no table {self.table} with a stream: create it with a StreamSpecification")
        return max(labelled)[1]

    def _shards(self) -> Iterator[object]:
        more: Dict[str, str] = {}
        for _ in range(MOST_PAGES):
            answer = self.client.describe_stream(StreamArn=self.arn, **more).get("StreamDescription")
            yield from listed_in(answer, "Shards")
            last = answer.get("LastEvaluatedShardId")
            if not isinstance(last, str) or not last:
                return
            more = {"ExclusiveStartShardId": last}

    def iterator(self, shard: str, kind: str, sequence: Optional[str]) -> str:
        return text_in(self.client.get_shard_iterator(
            StreamArn=self.arn, ShardId=shard, ShardIteratorType=kind,
            **({} if sequence is None else {"SequenceNumber": sequence})), "ShardIterator")

    def read(self, iterator: str, limit: int) -> Read:
        try:
            return read_of(self.bodies.asked(self.client.get_records, ShardIterator=iterator, Limit=limit), False)
        except Unparsed as fault:
            read = read_of(fault.answer, False)
            records: List[object] = [of_dynamo_db(one, list(OF_RECORD)) for one in read.records]
            raise CannotParse(str(fault), read._replace(records=records)) from fault

    def lost(self, given: object) -> Optional[Record]:
        change = given.get("dynamodb") if isinstance(given, dict) else None
        if not isinstance(change, dict):
            return None
        return lost_at(change.get("SequenceNumber"), change.get("ApproximateCreationDateTime"))

    def record_of(self, given: object, shard: str) -> Optional[Record]:
        if not isinstance(given, dict) or not isinstance(change := given.get("dynamodb"), dict):
            return None
        moment = seconds_of(change.get("ApproximateCreationDateTime"))
        has_texts = all(isinstance(given.get(name), str) for name in ("eventID", "eventName"))
        if moment is None or not has_texts or not all(isinstance(change.get(name, {}), dict) for name in OF_RECORD):
            return None
        try:
            whole = {name: plain(value) for name, value in change.items() if name != "ApproximateCreationDateTime"}
        except ValueError:
            return None
        event = {"eventID": given["eventID"], "eventName": given["eventName"],
                 "eventVersion": str(given.get("eventVersion", "1.1")), "eventSource": "aws:dynamodb",
                 "awsRegion": str(given.get("awsRegion") or self.region),
                 "dynamodb": {"ApproximateCreationDateTime": int(moment), **whole}, "eventSourceARN": self.arn}
        who = given.get("userIdentity")
        if isinstance(who, dict) and who:  # (what time to live has deleted)
            event["userIdentity"] = {"type": str(who.get("Type", "")), "principalId": str(who.get("PrincipalId", ""))}
        return made(change.get("SequenceNumber"), moment, event)


def server_of(client: Any, stream: Stream, region: str, account: str) -> Server:
    if stream.service == KINESIS:
        return Kinesis(client, stream, region, account)
    return DynamoDb(client, stream, region)
