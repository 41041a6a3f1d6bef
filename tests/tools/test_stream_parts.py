"""Checks the parts of streams and topics as event sources, without processes: what UP.json may say, the events by
botocore's model of each service, what follows a batch, and what is sent about records that are dropped."""
import importlib.util
import json
import random
import unittest
from datetime import datetime, timezone
from typing import Any, Dict, List

from lambda_local.configuration import Members
from lambda_local.event_sources import batches, failures, members, notifications
from lambda_local.event_sources.batches import Batch, after, failing_in
from lambda_local.event_sources.servers import DynamoDb, Kinesis
from lambda_local.other_server import is_endpoint
from lambda_local.up import sources
from tests.library.cases import Case
from tests.library.stream_kit import URL, batch, numbers, record, stream

TABLE = "arn:aws:dynamodb:eu-west-1:123456789012:table/Orders"
WITH_BOTOCORE = unittest.skipUnless(importlib.util.find_spec("botocore"), "botocore is not here")
MOMENT = datetime(2026, 11, 29, 12, 0, 0, 123456, tzinfo=timezone.utc)


class StreamParts(Case):
    def test_mistakes_of_streams_and_topics_are_told(self) -> None:
        good: Members = {"url": URL, "kinesis": "clicks"}
        for given, wanted in (
                ({"stream": 5}, None), ({"stream": {}}, "stream: there is no url, which must be a string: the"),
                ({"stream": {"url": URL}}, "stream: there is no kinesis or dynamodb, one of which names the stream"),
                ({"stream": {**good, "dynamodb": "t"}}, "stream: it has kinesis and dynamodb: leave one of the two"),
                ({"stream": {**good, "kinesis": "a b"}}, 'stream: kinesis: "a b" must be the name or the ARN of a'),
                ({"stream": {"url": URL, "dynamodb": "x"}}, 'stream: dynamodb: "x" must be the name of a table'),
                ({"stream": {**good, "url": URL + "/x"}}, "must be the address of a server, http://HOST:PORT"),
                ({"stream": {**good, "batch": 5}}, "stream: unknown member batch, did you mean batchSize?"),
                ({"stream": {**good, "batchSize": 0}}, "batchSize must be a whole number from 1 to 10000, not 0"),
                ({"stream": {**good, "retries": -2}}, "retries must be a whole number from 0 to 10000, or -1, not -2"),
                ({"stream": {**good, "maximumAge": 0}}, "maximumAge must be"),
                ({"stream": {**good, "position": "AT_TIMESTAMP"}}, 'position must be "TRIM_HORIZON" or "LATEST"'),
                ({"stream": {**good, "onFailure": "g"}}, "onFailure must be a string: the ARN of an SQS queue or an"),
                ({"stream": [good, {**good, "window": 301}]}, "stream: number 2: window must be"),
                ({"stream": [{**good, "checkpoint": "p"}, {**good, "checkpoint": "p"}]},
                 'number 2: checkpoint: "p" is that of function f: each stream has a file of its own'),
                ({"topic": {"url": URL, "name": "a b"}}, 'topic: name: "a b" must be the name or the ARN of'),
                ({"topic": {"url": URL, "name": "a.fifo"}}, "is a FIFO topic, to which no function can be"),
                ({"topic": {"url": URL, "name": "a", "filterPolicyScope": "MessageBody"}}, "there is no filter")):
            assert isinstance(given, dict)
            if wanted is None:
                self.check("a stream of another type is none", sources.OF_FUNCTION["stream"].accepts(given["stream"]),
                           False)
                continue
            seen = next(sources.mistakes({"functions": [{"name": "f", **given}]}), "")
            self.check(f"a mistake: {wanted[:60]}", wanted in seen, shown=seen)
        right: Members = {"name": "f", "stream": [
            {**good, "retries": -1, "maximumAge": 60}, {"url": URL, "dynamodb": "Orders"},
            {"url": URL, "kinesis": "arn:aws:kinesis:eu-west-1:123456789012:stream/x"},
            {"url": URL, "dynamodb": f"{TABLE}/stream/2026-11-29T00:00:00.0"}],
            "topic": {"url": URL, "name": "arn:aws:sns:eu-west-1:123456789012:news"}}
        self.check("what is right", list(sources.mistakes({"functions": [right]})), [])
        self.check("names", [(one.name, one.region) for one in members.streams_of([right])],
                   [("clicks", None), ("Orders", None), ("x", "eu-west-1"), ("Orders", "eu-west-1")])
        self.check("a topic sends events", [one for one in sources.mistakes(
            {"functions": [right], "asynchronous": False}) if "topic" in one] != [])
        for url in ("ftp://a", "http://", "http://a/b", "http://a?b", "http://u@a", "http://a b", "http://a:0", "x"):
            self.check(f"no address: {url}", is_endpoint(url), False)

    def test_failures_in_a_result_are_read(self) -> None:
        for result, wanted in (
                ('{"batchItemFailures":[{"itemIdentifier":"2"}]}', 1), ('{"batchItemFailures":[]}', None),
                ('{"batchItemFailures":null}', None), ("{}", None), ("null", None), ('"x"', None), ("x", None),
                ('{"batchItemFailures":[{"itemIdentifier":"3"},{"itemIdentifier":"2"}]}', 1),
                ('{"batchItemFailures":[{"itemIdentifier":""}]}', 0), ('{"batchItemFailures":[{"id":"2"}]}', 0),
                ('{"batchItemFailures":[{"itemIdentifier":null}]}', 0), ('{"batchItemFailures":"2"}', 0),
                ('{"batchItemFailures":["2"]}', 0), ('{"batchItemFailures":[{"itemIdentifier":"9"}]}', 0),
                ("[" * 100_000, None)):
            self.check(f"a result: {result[:60]}", failing_in(result.encode(), ["1", "2", "3"]), wanted)

    def test_what_follows_a_failed_batch_is_by_its_rules(self) -> None:
        def shown(then: batches.After) -> object:
            return (numbers(then.done), numbers(then.given_up), [(numbers(one.records), one.tries)
                                                                 for one in then.left], then.is_split)
        rules: Any
        for name, given, failing, rules, wanted in (
                ("all is done", batch(1, 2), None, {}, ([1, 2], [], [], False)),
                ("all of it again", batch(1, 2), 0, {}, ([], [], [([1, 2], 1)], False)),
                ("from a record on", batch(1, 2, 3), 1, {}, ([1], [], [([2, 3], 1)], False)),
                ("the last retry", batch(1, 2, tries=1), 0, {"retries": 2}, ([], [], [([1, 2], 2)], False)),
                ("no further retry", batch(1, 2, tries=2), 0, {"retries": 2}, ([], [1, 2], [], False)),
                ("no retry at all", batch(1, 2), 1, {"retries": 0}, ([1], [2], [], False)),
                ("a split", batch(1, 2, 3), 0, {"bisect": True, "retries": 0}, ([], [], [([1], 0), ([2, 3], 0)], True)),
                ("a split where it says", batch(1, 2, 3), 2, {"bisect": True, "retries": 0},
                 ([1, 2], [], [([3], 0)], True)),
                ("one record is not split", batch(1), 0, {"bisect": True, "retries": 0}, ([], [1], [], False))):
            self.check(name, shown(after(given, failing, stream(**rules))), wanted)
        self.check("old ones", [numbers(one if isinstance(one, tuple) and not isinstance(one, Batch) else one.records)
                                for one in batches.without_old(Batch((record(1, arrived=0), record(2, arrived=9000))),
                                                               70_000, stream(maximumAge=65))], [[1], [2]])

    def test_an_event_has_room_for_6_MiB_of_records(self) -> None:
        many = [record(number, 2_000_000) for number in range(5)]
        self.check("an event has room for three of these", batches.cut(many, 100), 3)
        self.check("and for none of this", batches.cut([record(1, 7_000_000)], 100), 0)
        self.check("as many as are asked for", batches.cut([record(n) for n in range(9)], 4), 4)

    def test_each_record_of_a_batch_ends_once_and_in_order(self) -> None:
        """Whatever a function answers, each record is done or given up in the end, in order, and none is in more than
        its attempts allow."""
        chosen = random.Random(11)
        for _ in range(3000):
            count, retries, bisect = chosen.randint(1, 12), chosen.randint(0, 3), chosen.random() < 0.5
            rules = stream(retries=retries, bisect=bisect)
            left, ended, counted = [batch(*range(count))], [], dict.fromkeys(range(count), 0)
            while left:
                first = left.pop(0)
                failing = chosen.choice([None, 0, chosen.randrange(len(first.records))])
                then = after(first, failing, rules)
                for one in first.records[failing:] if failing is not None and not then.is_split else ():
                    counted[one.number] += 1
                ended += numbers(then.done) + numbers(then.given_up)
                left = [*then.left, *left]
            if ended != list(range(count)) or max(counted.values()) > retries + 1:
                self.check("each record once, in order", (ended, counted, retries), None)
        self.check("each record is over once, in its order", True)

    def test_what_is_sent_of_a_failed_batch_is_as_the_guide_has_it(self) -> None:
        """As the Developer Guide's examples have it, member by member."""
        last = failures.Invoked("c9b8fa9f-5a7f-xmpl-af9c-0c604cde93a5", 200, "Unhandled")
        moment = 1573691886021
        rows = (record(10, arrived=1573691884835), record(11, arrived=1573691885580))
        arn = "arn:aws:kinesis:us-east-2:123456789012:stream/mystream"
        function = "arn:aws:lambda:us-east-2:1:function:f"
        made = json.loads(failures.record_of("kinesis", function, arn, "shardId-1", rows, "RetryAttemptsExhausted", 1,
                                             last, moment, "x"))
        self.check("Kinesis", made, {
            "requestContext": {"requestId": last.request, "functionArn": function,
                               "condition": "RetryAttemptsExhausted", "approximateInvokeCount": 1},
            "responseContext": {"statusCode": 200, "executedVersion": "$LATEST", "functionError": "Unhandled"},
            "version": "1.0", "timestamp": "2019-11-14T00:38:06.021Z",
            "KinesisBatchInfo": {
                "shardId": "shardId-1", "startSequenceNumber": "10", "endSequenceNumber": "11",
                "approximateArrivalOfFirstRecord": "2019-11-14T00:38:04.835Z",
                "approximateArrivalOfLastRecord": "2019-11-14T00:38:05.580Z", "batchSize": 2, "streamArn": arn}})
        made = json.loads(failures.record_of("dynamodb", function, arn, "s", rows[:1], "RecordAgeExceeded", 0, None,
                                             moment, "own"))
        self.check("DynamoDB, and nothing was invoked", (
            made["requestContext"]["requestId"], "responseContext" in made,
            made["DDBStreamBatchInfo"]["approximateArrivalOfFirstRecord"]), ("own", False, "2019-11-14T00:38:04Z"))

    # ---- events ------------------------------------------------------------------------------------------------------

    def test_records_of_Kinesis_are_as_the_guide_has_them(self) -> None:
        server = Kinesis(None, stream(), "us-east-2", "123456789012")
        server.arn = "arn:aws:kinesis:us-east-2:123456789012:stream/lambda-stream"
        given: Dict[str, Any] = {
            "Data": b"Hello, this is a test.", "PartitionKey": "1",
            "SequenceNumber": "49590338271490256608559692538361571095921575989136588898",
            "ApproximateArrivalTimestamp": datetime.fromtimestamp(1545084650.987, timezone.utc)}
        made = server.record_of(given, "shardId-000000000006")
        assert made is not None
        self.check("the Developer Guide's example", made.event, {
            "kinesis": {"kinesisSchemaVersion": "1.0", "partitionKey": "1",
                        "sequenceNumber": "49590338271490256608559692538361571095921575989136588898",
                        "data": "SGVsbG8sIHRoaXMgaXMgYSB0ZXN0Lg==", "approximateArrivalTimestamp": 1545084650.987},
            "eventSource": "aws:kinesis", "eventVersion": "1.0",
            "eventID": "shardId-000000000006:49590338271490256608559692538361571095921575989136588898",
            "eventName": "aws:kinesis:record", "invokeIdentityArn": "arn:aws:iam::123456789012:role/lambda_local",
            "awsRegion": "us-east-2", "eventSourceARN": server.arn})
        for name, wrong in (("Data", "text"), ("Data", None), ("PartitionKey", 5), ("SequenceNumber", "x"),
                            ("SequenceNumber", "9" * 5000), ("SequenceNumber", 5), ("ApproximateArrivalTimestamp", "x"),
                            ("ApproximateArrivalTimestamp", None)):
            self.check(f"no record: {name} is {str(wrong)[:9]}", server.record_of({**given, name: wrong}, "s"), None)
        others: List[object] = [None, 5, [], "x", {}]
        self.check("nor is this", [server.record_of(one, "s") for one in others], [None] * 5)

    def test_records_of_tables_are_as_the_guide_has_them(self) -> None:
        server = DynamoDb(None, stream(), "us-east-1")
        server.arn = "arn:aws:dynamodb:us-east-1:123456789012:table/T/stream/2026-11-29T00:00:00.000"
        given: Dict[str, Any] = {
            "eventID": "1", "eventName": "REMOVE", "eventVersion": "1.1", "eventSource": "aws:dynamodb",
            "awsRegion": "us-east-1", "userIdentity": {"PrincipalId": "dynamodb.amazonaws.com", "Type": "Service"},
            "dynamodb": {"Keys": {"Id": {"N": "101"}}, "OldImage": {"b": {"B": b"\xff"}, "s": {"BS": [b"a", b"b"]}},
                         "StreamViewType": "NEW_AND_OLD_IMAGES", "SequenceNumber": "111", "SizeBytes": 26,
                         "ApproximateCreationDateTime": MOMENT}}
        made = server.record_of(given, "s")
        assert made is not None
        self.check("what time to live has deleted", made.event, {
            "eventID": "1", "eventName": "REMOVE", "eventVersion": "1.1", "eventSource": "aws:dynamodb",
            "awsRegion": "us-east-1", "eventSourceARN": server.arn,
            "userIdentity": {"type": "Service", "principalId": "dynamodb.amazonaws.com"},
            "dynamodb": {"Keys": {"Id": {"N": "101"}}, "OldImage": {"b": {"B": "/w=="}, "s": {"BS": ["YQ==", "Yg=="]}},
                         "StreamViewType": "NEW_AND_OLD_IMAGES", "SequenceNumber": "111", "SizeBytes": 26,
                         "ApproximateCreationDateTime": int(MOMENT.timestamp())}})
        deep: Dict[str, Any] = {}
        for _ in range(200):
            deep = {"M": deep}
        change: Any
        for change in ({"Keys": {"a": object()}}, {"Keys": 5}, {"SequenceNumber": ""}, {"OldImage": {"a": deep}},
                       {"ApproximateCreationDateTime": None}):
            self.check(f"no record: {list(change)}", server.record_of({**given, "dynamodb": {
                **given["dynamodb"], **change}}, "s"), None)

    @WITH_BOTOCORE
    def test_records_of_tables_have_all_that_the_model_has(self) -> None:
        """What a record of DynamoDB Streams may have is what the event has, as botocore's model of the service says."""
        import botocore.session  # type: ignore
        shape = botocore.session.Session().get_service_model("dynamodbstreams").shape_for("Record")
        server = DynamoDb(None, stream(), "us-east-1")
        whole = {"Keys": {}, "NewImage": {}, "OldImage": {}, "SequenceNumber": "1", "SizeBytes": 1,
                 "StreamViewType": "KEYS_ONLY", "ApproximateCreationDateTime": MOMENT}
        self.check("all members of a change are in this test", set(whole), set(shape.members["dynamodb"].members))
        made = server.record_of({"eventID": "1", "eventName": "MODIFY", "eventVersion": "1.1", "dynamodb": whole,
                                 "userIdentity": {"PrincipalId": "p", "Type": "t"}}, "s")
        assert made is not None
        self.check("all members of a record", set(made.event), {*shape.members, "eventSourceARN"})
        self.check("all of a change", set(made.event["dynamodb"]), set(whole))

    def test_notifications_are_as_the_guide_has_them(self) -> None:
        given = {"Type": "Notification", "MessageId": "m", "TopicArn": "t", "Subject": "s", "Message": "text",
                 "Timestamp": "2019-01-02T12:45:07.000Z", "SignatureVersion": "1", "Signature": "x",
                 "SigningCertURL": "https://c", "UnsubscribeURL": "https://u",
                 "MessageAttributes": {"Test": {"Type": "String", "Value": "TestString"}}}
        made = notifications.read(json.dumps(given), "arn")
        assert isinstance(made, notifications.Notification)
        self.check("the Developer Guide's example", made.event, {"Records": [{
            "EventVersion": "1.0", "EventSubscriptionArn": "arn", "EventSource": "aws:sns", "Sns": {
                "SignatureVersion": "1", "Timestamp": "2019-01-02T12:45:07.000Z", "Signature": "x",
                "SigningCertUrl": "https://c", "MessageId": "m", "Message": "text",
                "MessageAttributes": {"Test": {"Type": "String", "Value": "TestString"}}, "Type": "Notification",
                "UnsubscribeUrl": "https://u", "TopicArn": "t", "Subject": "s"}}]})
        self.check("a confirmation", notifications.read('{"Type": "SubscriptionConfirmation", "Token": "k"}', "a"),
                   notifications.Confirmation("k"))
        change: Any
        for change in ({"Type": "Other"}, {"MessageId": 5}, {"Message": None}, {"Subject": 5}, {"MessageAttributes": 5},
                       {"MessageAttributes": {"a": 5}}, {"MessageAttributes": {"a": {"Type": "String"}}}):
            self.check(f"no notification: {change}", notifications.read(json.dumps({**given, **change}), "a"), None)
        self.check("nor is this", [notifications.read(one, "a") for one in (None, 5, "", "[]", "[" * 200, "x")],
                   [None] * 6)
