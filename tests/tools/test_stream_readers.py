"""Checks how streams and topics are read, with servers in memory and with ones that answer anything: shards that split,
merge, close and expire, positions that are kept, servers that lie or hold, and subscriptions that go."""
import http.server
import importlib.util
import json
import os
import socket
import tempfile
import threading
import time
import unittest
from typing import Any, Dict, List, Optional

from lambda_local.configuration import Members
from lambda_local.event_sources import members, streams
from lambda_local.event_sources.checkpoints import Checkpoints, Position
from lambda_local.event_sources.servers import CannotParse, DynamoDb, Kinesis, Read, SeenShard
from lambda_local.event_sources.shards import Shard
from lambda_local.event_sources.sources import Sources
from lambda_local.event_sources.streams import Reader
from lambda_local.event_sources.topics import Subscriber
from lambda_local.other_server import client_of
from lambda_local.program import Fault
from tests.library.cases import Case
from tests.library.stream_kit import URL, AwsFault, Clock, Driven, FakeAws, FakeServer, Kept, Service, record, stream

WITH_BOTOCORE = unittest.skipUnless(importlib.util.find_spec("botocore"), "botocore is not here")


def of_kinesis(number: int, **wrong: object) -> Members:
    return {"SequenceNumber": str(number), "PartitionKey": "k", "ApproximateArrivalTimestamp": 1.5e9 + number,
            "Data": "b25l", **wrong}


def of_table(number: int, **wrong: object) -> Members:
    image = {"id": {"S": "a"}, "n": {"N": "5"}, "b": {"B": "/wA="}, "bs": {"BS": ["YQ=="]},
             "l": {"L": [{"BOOL": True}, {"NULL": True}, {"M": {"b": {"B": "YQ=="}}}]}}
    return {"eventID": str(number), "eventName": "INSERT", "eventVersion": "1.1", "dynamodb": {
        "SequenceNumber": str(number), "ApproximateCreationDateTime": 1.5e9, "NewImage": image, **wrong}}


SHARD = "shardId-00000000000000000001"
# As a server may send them; of those with a member that is none, boto3 parses nothing of the answer.
OF_KINESIS = [of_kinesis(1), of_kinesis(2, Data="x"), of_kinesis(3, ApproximateArrivalTimestamp="2026-01-01T00:00:00Z"),
              of_kinesis(4, ApproximateArrivalTimestamp="yesterday"), of_kinesis(5, Data="y"), of_kinesis(6)]
OF_TABLE = [of_table(1), of_table(2, NewImage={"l": {"L": [{"B": "x"}]}}),
            of_table(3, ApproximateCreationDateTime="yesterday"), of_table(4)]


class StreamReaders(Case):
    def test_parents_are_read_first(self) -> None:
        """A shard that is split, and two that are merged: what came of them is read after them."""
        server = FakeServer(a=[1, 2, 3], b=[1, 2], c=[4, 5], d=[4], e=[6])
        server.parents, server.closed = {"c": ["a"], "d": ["a", "b"], "e": ["c", "d"]}, {"a", "b", "c", "d"}
        order: List[str] = []
        reader = Driven(server, batchSize=2)
        handle = reader.handle
        reader.handle = lambda shard: (order.append(shard.identifier), handle(shard))[1]  # type: ignore
        reader.drive()
        self.check("all is handled", sorted(sum(reader.came, [])), [1, 1, 2, 2, 3, 4, 4, 5, 6])
        for parent, child in (("a", "c"), ("a", "d"), ("b", "d"), ("c", "e"), ("d", "e")):
            self.check(f"{parent} before {child}", order.index(child) > len(order) - 1 - order[::-1].index(parent))
        server.shards["f"], server.parents["f"] = [7], ["e"]
        server.closed.add("e")
        reader.drive()
        self.check("one that comes later", reader.came[-1], [7])

    def test_a_shard_waits_for_its_batch_alone(self) -> None:
        failing = [True]
        reader = Driven(FakeServer(a=[1, 2, 3, 4], b=[9]),
                        lambda found: "failed" if failing[0] and 1 in found else None, batchSize=2)
        reader.drive(20)
        self.check("a batch that fails stops its shard alone", ([3, 4] in reader.came, [9] in reader.came),
                   (False, True))
        self.check("a line says so", any("its shard waits" in line for line in reader.lines))
        failing[0] = False
        reader.drive(20)
        self.check("and then it goes on", reader.came[-1], [3, 4])

    def test_throttles_are_no_attempts(self) -> None:
        """They are no attempts."""
        answers = [429] * 5 + [500, 429]
        reader = Driven(FakeServer(a=[1]), lambda found: answers.pop(0) if answers else None, retries=0).drive(40)
        self.check("it is invoked until it is", (reader.came, reader.handled, reader.given_up), ([[1]] * 8, 1, 0))

    def test_the_newest_position_leaves_out_what_was_there(self) -> None:
        server = FakeServer(a=[1, 2], b=[3])
        server.closed = {"b"}
        reader = Driven(server, position="LATEST").drive(5)
        self.check("what was there is left out", reader.came, [])
        server.shards["a"] += [4]
        server.shards["c"], server.parents["c"] = [5, 6], ["b"]
        reader.look.due = 0.0
        reader.drive(20)
        self.check("what comes is read, and a new shard from its beginning", sorted(sum(reader.came, [])), [4, 5, 6])

    def test_an_iterator_that_has_expired_loses_nothing(self) -> None:
        server = FakeServer(a=[1, 2, 3])
        server.faults = [AwsFault("ExpiredIteratorException"), AwsFault("ProvisionedThroughputExceededException"),
                         ValueError("what is this?")]
        reader = Driven(server, batchSize=1).drive()
        self.check("an iterator that has expired, and other faults, lose nothing", reader.came, [[1], [2], [3]])
        self.check("one line for faults, and one for their end", [line for line in reader.lines if "it " in line], [
            "it cannot be read: AwsFault: ProvisionedThroughputExceededException: it is asked again after pauses of "
            "up to 30 s", "it is read again"], shown=reader.lines)

    def test_what_is_not_kept_any_more_is_told(self) -> None:
        trimmed = FakeServer(a=[5, 6])
        ask = trimmed.iterator

        def iterator(shard: str, kind: str, sequence: Optional[str]) -> str:
            if sequence is not None:
                raise AwsFault("TrimmedDataAccessException")
            return ask(shard, kind, sequence)
        trimmed.iterator = iterator  # type: ignore
        reader = Driven(trimmed, checkpoints=Kept(a=Position("2"))).drive(20)
        self.check("what is not kept any more is told, and the oldest is next", (reader.came, any(
            "are not kept any more" in line for line in reader.lines)), ([[5, 6]], True))

    def test_odd_and_repeated_records_end_only_themselves(self) -> None:
        server = FakeServer(a=[1, 2, 2, 1, 3])
        server.odd = ["no record", None, {}]
        reader = Driven(server).drive(20)
        self.check("odd and repeated records end only themselves", reader.came, [[1, 2, 3]])
        self.check("they are told", [line for line in reader.lines if "left out" in line], [
            "3 records of a are left out: a record has a sequence number, a time and its data"])
        server.shards = {}
        reader.look.due = 0.0
        reader.drive(10)
        server.shards = {"a": [1, 2, 3, 4]}
        reader.drive(10)
        self.check("a shard that is gone and comes again goes on where it was", reader.came[1:], [[4]])
        server.identity, server.shards = "two", {"a": [1]}
        reader.drive(20)
        self.check("a new stream of the same name is read from its beginning", reader.came[2:], [[1]])
        self.check("which is told", any("another stream of this name" in line for line in reader.lines))

    def test_a_record_that_is_none_is_dropped_alone_and_in_its_order(self) -> None:
        """It goes to onFailure, which hears where it is; two in a row are one message. What comes before it is handled
        first, and a position is never beyond what is not handled."""
        server = FakeServer(a=[1])
        sent: List[Any] = []
        server.odd = ["5", 6, "7", "8", 9, "no number"]

        class Sent:
            name = "failed"

            def send(self, text: str) -> None:
                batch = json.loads(text)["KinesisBatchInfo"]
                sent.append((batch["startSequenceNumber"], batch["batchSize"], list(reader.came)))
        reader = Driven(server, checkpoints=Kept(), onFailure="arn:aws:sqs:us-east-1:123456789012:failed")
        reader.destination = Sent()  # type: ignore[assignment]
        reader.drive(20)
        self.check("the others are handled", reader.came, [[6], [9]])
        self.check("where they are is sent, in their order", sent, [("5", 1, []), ("7", 2, [[6]])])
        self.check("a line tells each", [line for line in reader.lines if "dropped" in line], [
            "1 record of a, 5, is dropped: UnreadableRecord after 0 invocations; failed is sent where they are",
            "2 records of a, 7 to 8, are dropped: UnreadableRecord after 0 invocations; failed is sent where they are"])
        self.check("one without a number is left out", any("1 record of a is left out" in line
                                                           for line in reader.lines))
        self.check("its position is behind them", reader.shards["a"].handled, "9")

    def test_what_a_client_cannot_parse_is_read_as_JSON_at_the_third_time(self) -> None:
        server = FakeServer(a=[1, 2, 3, 4])
        server.faults = [CannotParse("why", Read([1, "2", 3], "a 3", False)) for _ in range(3)]
        reader = Driven(server).drive(20)
        self.check("what can be read is", (reader.came, reader.given_up), ([[1], [3, 4]], 1))
        self.check("the line of the first time", [line for line in reader.lines if "it is asked again" in line], [
            "it cannot be read: boto3 cannot parse what its server answers: why: it is asked again after pauses of up "
            "to 30 s"])
        server.shards["a"] += [5]
        server.faults = [CannotParse("why", Read([], None, False)) for _ in range(2)]
        reader.drive(20)
        self.check("an answer that is whole again loses nothing", reader.came[2:], [[5]])

    @WITH_BOTOCORE
    def test_a_record_that_boto3_cannot_parse_ends_only_itself(self) -> None:
        """One with data, a time or an attribute that is none, of a server over HTTP."""
        class Poisoned(http.server.BaseHTTPRequestHandler):
            def do_POST(self) -> None:
                asked = json.loads(self.rfile.read(int(self.headers.get("Content-Length", 0))))
                kind, _, operation = self.headers["X-Amz-Target"].partition(".")
                records = OF_KINESIS if kind.startswith("Kinesis") else OF_TABLE
                seen = asked.get("ShardIterator", "")
                answers: Dict[str, Dict[str, Any]] = {
                    "DescribeStreamSummary": {"StreamDescriptionSummary": {"StreamARN": "arn", "StreamName": "s",
                                                                           "StreamCreationTimestamp": 1.0}},
                    "ListShards": {"Shards": [{"ShardId": SHARD, "SequenceNumberRange": {
                        "StartingSequenceNumber": "0"}}]},
                    "ListStreams": {"Streams": [{"StreamArn": "arn:" + 40 * "a", "TableName": "Orders",
                                                 "StreamLabel": "1"}]},
                    "DescribeStream": {"StreamDescription": {"Shards": [{"ShardId": SHARD}]}},
                    "GetShardIterator": {"ShardIterator": f"after {asked.get('SequenceNumber') or '0'}"},
                    "GetRecords": {"Records": {"end": [], "first": records[:1]}.get(seen, records),
                                   "NextShardIterator": "end"},
                }
                body = json.dumps(answers[operation]).encode()
                self.send_response(200)
                self.send_header("Content-Length", str(len(body)))
                self.end_headers()
                self.wfile.write(body)

            def log_message(self, *words: Any) -> None:
                pass
        with http.server.ThreadingHTTPServer(("127.0.0.1", 0), Poisoned) as serving:
            threading.Thread(target=serving.serve_forever, daemon=True).start()
            url = f"http://127.0.0.1:{serving.server_port}"
            of_table = members.stream_of("f", {"url": url, "dynamodb": "Orders"})
            kinesis = Kinesis(client_of("kinesis", url, "us-east-1", False), stream(url=url), "us-east-1", "1" * 12)
            table = DynamoDb(client_of("dynamodbstreams", url, "us-east-1", False), of_table, "us-east-1")
            server: Any
            for name, server, wanted, lost in (("Kinesis", kinesis, [1, 3, 6], ["2", "4 to 5"]),
                                               ("DynamoDB", table, [1, 4], ["2 to 3"])):
                reader = Driven(server).drive(20)
                self.check(f"{name}: all others are handled", sum(reader.came, []), wanted, shown=reader.lines)
                self.check(f"{name}: those are told", [line.split(", ")[1] for line in reader.lines
                                                       if "UnreadableRecord" in line], lost, shown=reader.lines)
                with self.assertRaises(CannotParse) as raised:
                    server.read("all", 10)
                made = [server.record_of(read.records[0], "s") for read in (
                    server.read("first", 10), raised.exception.read)]
                self.check(f"{name}: the others are as the client has them", made[0] is not None and made[1], made[0])
            serving.shutdown()

    def test_a_record_without_room_in_an_event_is_dropped_alone(self) -> None:
        large = FakeServer(a=[1, 2])
        large.record_of = lambda given, shard: record(given, 7_000_000 if given == 1 else 5)  # type: ignore
        reader = Driven(large).drive(20)
        self.check("a record without room in an event is dropped alone", (reader.came, reader.given_up), ([[2]], 1))

    # ---- positions ---------------------------------------------------------------------------------------------------

    def test_positions_are_kept_from_run_to_run(self) -> None:
        with tempfile.TemporaryDirectory() as folder:
            path = os.path.join(folder, "positions.json")
            server = FakeServer(a=[1, 2, 3], b=[4])
            server.parents, server.closed = {"b": ["a"]}, {"a"}
            stops = [False]

            def function(found: List[int]) -> object:
                return "failed" if stops[0] else None
            first = Driven(server, function, Checkpoints(path, "w"), batchSize=2).drive(20)
            self.check("all of it", first.came, [[1, 2], [3], [4]])
            first.end()
            with open(path) as file:
                self.check("what is kept", json.load(file), {"stream": "one", "shards": {
                    "a": {"after": "3", "over": True}, "b": {"after": "4"}}})
            server.shards["b"] += [5, 6]
            stops[0] = True
            second = Driven(server, function, Checkpoints(path, "w"), batchSize=1).drive(10)
            self.check("the next run goes on there", second.came[0], [5])
            self.check("says so", any("it goes on after what" in line for line in second.lines))
            stops[0] = False
            second.end()
            third = Driven(server, function, Checkpoints(path, "w"), batchSize=1).drive(20)
            self.check("what was not answered comes again", third.came, [[5], [6]])
            server.identity = "two"
            third.end()
            fourth = Driven(server, function, Checkpoints(path, "w")).drive(20)
            self.check("positions of another stream are left aside", (fourth.came, any(
                "is of another stream" in line for line in fourth.lines)), ([[1, 2, 3], [4, 5, 6]], True))

    def test_wrong_positions_are_refused(self) -> None:
        with tempfile.TemporaryDirectory() as folder:
            path = os.path.join(folder, "positions.json")
            for text in ("", "[]", '{"stream":"x"}', '{"stream":"x","shards":{"a":5}}',
                         '{"stream":"x","shards":{"a":{"after":"x"}}}', '{"stream":"x","shards":{"a":{"after":5}}}'):
                with open(path, "w") as file:
                    file.write(text)
                try:
                    Checkpoints(path, "w")
                    self.check(f"positions: {text} are refused", False)
                except Fault as fault:
                    self.check(f"positions: {text}", (fault.status, "remove it to begin anew" in str(fault)), (2, True))

    @WITH_BOTOCORE
    def test_a_server_that_holds_holds_up_neither_start_nor_end(self) -> None:
        """A server that answers nothing holds up neither the start nor the end."""
        with socket.socket() as silent:
            silent.bind(("127.0.0.1", 0))
            silent.listen(64)
            url = f"http://127.0.0.1:{silent.getsockname()[1]}"
            stopping = threading.Event()
            lines: List[str] = []
            made: Members = {"name": "f", "stream": [{"url": url, "kinesis": "a"}, {"url": url, "dynamodb": "Table"}],
                             "topic": {"url": url, "name": "news"}}

            class OfOne(Service):
                configuration = {**Service.configuration, "functions": [{"name": "f", "ports": [1, 2]}]}
            clock: Any = Clock()
            all_sources = Sources([None, None], [made], OfOne(), clock, False, stopping,
                                  lambda who, text, *rest, **more: lines.append(text))
            for thread in all_sources.threads:
                thread.start()
            connection, _ = silent.accept()
            time.sleep(2)
            begun = time.monotonic()
            stopping.set()
            for thread in all_sources.threads:
                thread.join(max(0.0, begun + 20 - time.monotonic()))
            seconds = time.monotonic() - begun
            self.check("the end waits for no answer", seconds < 8, shown=seconds)
            self.check("those that are left are held by the server", [
                thread.name for thread in all_sources.threads if thread.is_alive()
                and not thread.is_held], [])  # type: ignore[attr-defined]
            connection.close()

    @WITH_BOTOCORE
    def test_servers_that_lie_cost_a_line_and_pauses(self) -> None:
        """Whatever a server answers costs a line and pauses."""
        answers = [b"", b"{}", b"[]", b"null", b"<a/>", b"\0\xff", b'{"Shards": 5}', b'{"Topics": 7}', b"{" * 5000,
                   b'{"StreamDescriptionSummary": []}']

        class Lying(http.server.BaseHTTPRequestHandler):
            asked = 0

            def do_POST(self) -> None:
                self.rfile.read(int(self.headers.get("Content-Length", 0)))
                body = answers[Lying.asked % len(answers)]
                Lying.asked += 1
                self.send_response(200 if Lying.asked % 3 else 500)
                self.send_header("Content-Length", str(len(body)))
                self.end_headers()
                self.wfile.write(body)

            def log_message(self, *words: Any) -> None:
                pass
        server = http.server.ThreadingHTTPServer(("127.0.0.1", 0), Lying)
        threading.Thread(target=server.serve_forever, daemon=True).start()
        url, stopping, lines = f"http://127.0.0.1:{server.server_port}", threading.Event(), []
        reader = Reader(stream(url=url), Service(), Clock(), False, stopping,  # type: ignore[arg-type]
                        lambda who, text, *rest, **more: lines.append(text))
        self.check("it has a client", reader.connect())
        for _ in range(3 * len(answers)):
            reader.look.due = 0.0
            task = reader.take()
            if task is not None:
                reader.step(task)
        self.check("one line", len([line for line in lines if "it cannot be read" in line]), 1, shown=lines)
        self.check("pauses that grow", reader.look.pause, 30.0)
        topic = Subscriber(members.topics_of([{"name": "f", "topic": {"url": url, "name": "news"}}])[0], Service(),
                           Clock(), False, stopping,  # type: ignore[arg-type]
                           lambda who, text, *rest, **more: lines.append(text))
        stopping.set()
        topic.run()
        topic.sns, topic.sqs = (client_of(name, url, "us-east-1", False) for name in ("sns", "sqs"))
        stopping.clear()
        stopping.wait = lambda seconds=None: False  # type: ignore[method-assign, assignment]
        for _ in range(3 * len(answers)):
            topic.step()
        self.check("one line of the topic", len([line for line in lines if "no notifications come" in line]), 1,
                   shown=lines)
        server.shutdown()
        server.server_close()

    def test_beyond_a_bound_no_further_shard_is_read(self) -> None:
        """Beyond a bound no further shard is read."""
        server = FakeServer(a=[1], b=[2], c=[3])
        server.record_of = lambda given, shard: record(given, 5_000_000)  # type: ignore
        before, streams.MOST_HELD = streams.MOST_HELD, 5_000_000
        try:
            reader = Driven(server, lambda found: "failed").drive(30)
            self.check("one shard waits, and no other is read", {tuple(found) for found in reader.came}, {(1,)})
            reader.function = lambda found: None
            reader.drive(60)
            self.check("then the others are", sorted(map(tuple, reader.came[-2:])), [(2,), (3,)])
        finally:
            streams.MOST_HELD = before

    def test_a_topic_is_subscribed_again_when_its_subscription_or_queue_goes(self) -> None:
        """What a topic's server may do: the subscription goes, the queue goes, a message is none."""
        def notification(text: str) -> str:
            return json.dumps({"Type": "Notification", "MessageId": text, "TopicArn": "t", "Message": text,
                               "Timestamp": "x"})
        aws = FakeAws()
        lines: List[str] = []
        sent: List[str] = []
        clock: Any = Clock()
        topic: Any = Subscriber(members.topics_of([{"name": "f", "topic": {
            "url": URL, "name": "news", "filterPolicy": {"a": ["b"]}}}])[0], Service(), clock, False,
            threading.Event(), lambda who, text, *rest, **more: lines.append(text))
        topic.sns = topic.sqs = aws
        topic.send = lambda one: sent.append(one.message) or True  # type: ignore[func-returns-value]
        topic.stopping.wait = lambda seconds=None: False
        topic.step()
        self.check("without a topic", (aws.subscribed, topic.pause), ([], 0.5))
        aws.topics = ["arn:aws:sns:eu-west-1:1:older:news", "arn:aws:sns:eu-west-1:000000000000:news"]
        aws.messages = [notification("one"), "no JSON", "{}", '{"Type": "SubscriptionConfirmation", "Token": "k"}',
                        notification("two")]
        topic.step()
        self.check("it is subscribed by the ARN that its server lists", aws.subscribed, [
            ("arn:aws:sns:eu-west-1:000000000000:news", '{"a": ["b"]}')])
        self.check("what comes", (sent, aws.confirmed, len(aws.deleted)), (["one", "two"], ["k"], 5))
        self.check("what is none is told", len([line for line in lines if "is no notification of SNS" in line]), 2)
        topic.looked_at, aws.faults = 0.0, [AwsFault("NotFound")]
        topic.step()
        topic.step()
        self.check("a subscription that is gone is made again, with a queue of its own",
                   (len(aws.subscribed), len(aws.queues), len(aws.removed)), (2, 2, 1))
        aws.faults = [AwsFault("AWS.SimpleQueueService.NonExistentQueue")]
        topic.step()
        topic.step()
        self.check("so is one whose queue is gone", (len(aws.subscribed), len(aws.queues)), (3, 3))
        topic.leave()
        self.check("at the end nothing of it is left", (aws.unsubscribed, aws.removed[-1] == aws.queues[-1]), (1, True))
        aws.topics, aws.queue_host = ["arn:aws:sns:eu-west-1:123456789012:news"], "https://sqs.us-east-1.amazonaws.com"
        topic.queue = topic.subscription = ""
        topic.step()
        self.check("no queue of AWS itself is used", (topic.queue, topic.pause), ("", 0.5))

    def test_a_shard_of_which_nothing_was_read_is_not_over(self) -> None:
        shard = Shard(SeenShard("a", (), True), "TRIM_HORIZON", stream())
        self.check("a shard that nothing was read of is not over", shard.is_over, False)
