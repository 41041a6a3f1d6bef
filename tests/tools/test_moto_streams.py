"""Checks streams and topics of moto's server as event sources: a DynamoDB stream, a Kinesis stream and an SNS topic to
functions in Python and Node, a record that always fails, a restart in the middle, a server that begins anew, and 10,000
records in the order of each shard. It needs a Python on PATH that has moto's server and boto3, and says so if none
has."""
import base64
import json
import os
import shutil
import signal
import time
import unittest

from lambda_local.service import free_ports
from tests.library.cases import Case
from tests.library.clock_kit import advance, pause
from tests.library.events_kit import READY, READY_SECONDS, json_lines
from tests.library.moto_server import WITH_MOTO, environ, moto
from tests.library.up_kit import Up, until

PATIENCE = 400  # seconds: a busy machine takes its time
APP = '''import base64, json
def run(event, context):
    with open("seen", "a") as file: file.write(json.dumps(event) + "\\n")
    for record in event["Records"]:
        text = base64.b64decode(record["kinesis"]["data"]) if "kinesis" in record else b""
        if text == b"poison": raise ValueError("a record fails")
        if text == b"part":
            return {"batchItemFailures": [{"itemIdentifier": record["kinesis"]["sequenceNumber"]}]}
'''
NODE = '''import { appendFileSync } from "node:fs";
export const handler = async (event) => { appendFileSync("seen_by_node", JSON.stringify(event) + "\\n"); };
'''
MAKE = '''
for name in given.get("streams", ()):
    client("kinesis").create_stream(StreamName=name, ShardCount=given.get("shards", 2))
for name in given.get("tables", ()):
    client("dynamodb").create_table(
        TableName=name, KeySchema=[{"AttributeName": "id", "KeyType": "HASH"}], BillingMode="PAY_PER_REQUEST",
        AttributeDefinitions=[{"AttributeName": "id", "AttributeType": "S"}],
        StreamSpecification={"StreamEnabled": True, "StreamViewType": "NEW_AND_OLD_IMAGES"})
topics = [client("sns").create_topic(Name=name)["TopicArn"] for name in given.get("topics", ())]
queues = [client("sqs").create_queue(QueueName=name)["QueueUrl"] for name in given.get("queues", ())]
answer = topics + queues
'''
# Records of a stream, in parts of 500: each is [key, text]
PUT = '''
all = given["records"]
for begin in range(0, len(all), 500):
    client("kinesis").put_records(StreamName=given["stream"], Records=[
        {"PartitionKey": key, "Data": text.encode()} for key, text in all[begin:begin + 500]])
'''
ITEMS = '''
table = client("dynamodb")
table.put_item(TableName="Orders", Item={"id": {"S": "a"}, "n": {"N": "5"}, "b": {"B": b"\\xff\\x00"},
                                         "bs": {"BS": [b"a"]}, "l": {"L": [{"BOOL": True}, {"NULL": True}]}})
table.put_item(TableName="Orders", Item={"id": {"S": "a"}, "n": {"N": "6"}})
table.delete_item(TableName="Orders", Key={"id": {"S": "a"}})
'''
PUBLISH = '''
for subject, text, kind in given:
    client("sns").publish(TopicArn="arn:aws:sns:us-east-1:123456789012:news", Message=text,
                          **({"Subject": subject} if subject else {}),
                          MessageAttributes={"kind": {"DataType": "String", "StringValue": kind}})
'''
LEFT = '''
answer = [len(client("sns").list_subscriptions()["Subscriptions"]), client("sqs").list_queues().get("QueueUrls", [])]
'''
SENT = '''
found = client("sqs").receive_message(QueueUrl=given, MaxNumberOfMessages=10, WaitTimeSeconds=1)
answer = [one["Body"] for one in found.get("Messages", ())]
'''


def function(name="f", **members):
    return {"name": name, "runtime": "python", "handler": "app.run", "timeout": 60, "init": 200, **members}


def texts_in(events):
    """The shard and the text of each record of Kinesis, in the order in which they came."""
    return [(record["eventID"].partition(":")[0], base64.b64decode(record["kinesis"]["data"]).decode())
            for event in events for record in event["Records"] if "kinesis" in record]


@WITH_MOTO
class MotoStreams(Case):
    def running(self, *functions, options=(), files={}):
        up = Up(*READY, *options, functions=list(functions), app=APP, files=files, environ=environ())
        self.check("it is ready", up.until("[up] ready", READY_SECONDS))
        return up

    def seen(self, up, name="seen"):
        return json_lines(os.path.join(up.at, name))

    @unittest.skipUnless(shutil.which("node"), "Node is not here")
    def test_a_stream_of_each_kind_and_a_topic_come_to_Python_and_Node(self):
        """A stream of Kinesis, one of DynamoDB and a topic, each to a function in Python and to one in Node."""
        with moto(self) as server:
            server.asked(MAKE, {"streams": ["clicks"], "tables": ["Orders"], "topics": ["news"]})
            url = server.endpoint
            sources = {"stream": [{"url": url, "kinesis": "clicks"}, {"url": url, "dynamodb": "Orders"}],
                       "topic": {"url": url, "name": "news"}}
            up = self.running(function(**sources), function("n", runtime="node", handler="index.handler", **sources),
                              files={"index.mjs": NODE})
            self.check("both are subscribed", until(lambda: up.count("topic news: it is subscribed to") == 2, PATIENCE))
            server.asked(PUT, {"stream": "clicks", "records": [[str(n), f"text {n}"] for n in range(10)]})
            server.asked(ITEMS)
            server.asked(PUBLISH, [["Subject", "one", "a"], [None, "two <&> \u00e9", "b"]])
            for name in ("seen", "seen_by_node"):
                def records(kind):
                    return [record for event in self.seen(up, name) for record in event["Records"]
                            if record.get("eventSource", record.get("EventSource")) == kind]
                self.check(f"{name}: all have come", until(
                    lambda: [len(records(kind)) for kind in ("aws:kinesis", "aws:dynamodb", "aws:sns")] == [10, 3, 2],
                    120), shown=[len(records(kind)) for kind in ("aws:kinesis", "aws:dynamodb", "aws:sns")])
                self.check(f"{name}: changes in their order",
                           [one["eventName"] for one in records("aws:dynamodb")], ["INSERT", "MODIFY", "REMOVE"])
                image = records("aws:dynamodb")[0]["dynamodb"]["NewImage"]
                self.check(f"{name}: attributes, as Lambda has them", image, {
                    "id": {"S": "a"}, "n": {"N": "5"}, "b": {"B": "/wA="}, "bs": {"BS": ["YQ=="]},
                    "l": {"L": [{"BOOL": True}, {"NULL": True}]}})
                notes = sorted((one["Sns"]["Message"], one["Sns"]["Subject"], one["Sns"]["MessageAttributes"])
                               for one in records("aws:sns"))
                self.check(f"{name}: notifications", notes, [
                    ("one", "Subject", {"kind": {"Type": "String", "Value": "a"}}),
                    ("two <&> \u00e9", None, {"kind": {"Type": "String", "Value": "b"}})])
                self.check(f"{name}: one record an event of a topic",
                           {len(event["Records"]) for event in self.seen(up, name) if "Sns" in event["Records"][0]},
                           {1})
            self.check("it ends in order, and leaves nothing", up.end(), (0, []))
            self.check("nor a subscription or a queue", server.asked(LEFT), [0, []])
            self.check("the end says what comes again", up.has("10 records handled; the next run handles them again"))

    def test_a_record_that_always_fails_ends_only_itself(self):
        """A record that always fails ends only itself; where it is, and not what it is, goes to onFailure."""
        with moto(self) as server:
            queue, = server.asked(MAKE, {"streams": ["clicks"], "shards": 1, "queues": ["failed"]})
            records = [["k", f"text {n}"] for n in range(5)] + [["k", "poison"]] + [["k", f"text {n}"] for n in (5, 6)]
            server.asked(PUT, {"stream": "clicks", "records": records})
            arn = "arn:aws:sqs:us-east-1:123456789012:failed"
            up = self.running(function(stream={"url": server.endpoint, "kinesis": "clicks", "retries": 1,
                                               "bisect": True, "onFailure": arn}))
            self.check("it is dropped", up.until("failed is sent where they are", PATIENCE))
            self.check("all others are handled, in their order", until(
                lambda: texts_in(self.seen(up))[-1:] == [("shardId-000000000000", "text 6")], PATIENCE))
            texts = [text for _, text in texts_in(self.seen(up))]
            firsts = list(dict.fromkeys(texts))
            self.check("in order", firsts, [text for _, text in records])
            alone = [event for event in self.seen(up) if len(event["Records"]) == 1
                     and texts_in([event])[0][1] == "poison"]
            self.check("alone it has come twice: once, and one retry", len(alone), 2)
            body = json.loads(server.asked(SENT, queue)[0])
            self.check("what is sent", (body["requestContext"]["condition"], body["requestContext"]["functionArn"],
                                        body["responseContext"]["functionError"], body["version"],
                                        {name: value for name, value in body["KinesisBatchInfo"].items()
                                         if not name.startswith("approximate")}),
                       ("RetryAttemptsExhausted", "arn:aws:lambda:us-east-1:123456789012:function:f", "Unhandled",
                        "1.0", {"shardId": "shardId-000000000000", "startSequenceNumber": "6", "endSequenceNumber": "6",
                         "batchSize": 1, "streamArn": "arn:aws:kinesis:us-east-1:123456789012:stream/clicks"}))
            self.check("it ends", up.end(), (0, []))

    def test_what_comes_before_the_reported_record_is_done(self):
        """What comes before the reported record is done, and the rest is invoked again."""
        with moto(self) as server:
            server.asked(MAKE, {"streams": ["clicks"], "shards": 1})
            server.asked(PUT, {"stream": "clicks", "records": [["k", "one"], ["k", "part"], ["k", "three"]]})
            up = self.running(function(stream={"url": server.endpoint, "kinesis": "clicks", "retries": 1}))
            self.check("it is dropped in the end", up.until("RetryAttemptsExhausted after 2 invocations", PATIENCE))
            self.check("in its order", [[text for _, text in texts_in([event])] for event in self.seen(up)],
                       [["one", "part", "three"], ["part", "three"]])
            self.check("it ends", up.end(), (0, []))

    def test_windows_pauses_and_ages_are_by_the_services_clock(self):
        """A window, the pause after a failure and a record's age are by the service's clock."""
        with moto(self) as server:
            server.asked(MAKE, {"streams": ["clicks", "bad"], "shards": 1})
            up = self.running(function(stream={"url": server.endpoint, "kinesis": "clicks", "window": 300}),
                              function("g", stream={"url": server.endpoint, "kinesis": "bad", "maximumAge": 3600}))
            pause(up.endpoint)
            server.asked(PUT, {"stream": "clicks", "records": [["k", "one"]]})
            server.asked(PUT, {"stream": "bad", "records": [["k", "poison"]]})
            self.check("the function has failed", up.until(
                "[g] stream bad: a batch of 1 of shardId-000000000000 failed, attempt 1: again after 0.5 s", PATIENCE))
            time.sleep(4)
            self.check("in a pause nothing is due", (up.has("stream clicks: a batch"), up.has("attempt 2")),
                       (False, False))
            advance(up.endpoint, 1)
            self.check("the next attempt is after its pause", up.until("attempt 2", PATIENCE))
            self.check("a window is not over", up.has("stream clicks: a batch"), False)
            advance(up.endpoint, 301)
            self.check("and then it is", up.until("stream clicks: a batch of 1 of shardId-000000000000 ok", PATIENCE))
            advance(up.endpoint, 3600)
            self.check("a record is too old at last", up.until("RecordAgeExceeded", PATIENCE))
            self.check("it ends", up.end(), (0, []))

    def test_a_server_that_begins_anew_is_read_from_its_beginning(self):
        """A server that ends costs a line; what it has when it is back is read from its beginning."""
        port, = free_ports(1, ())
        with moto(self, port) as server:
            server.asked(MAKE, {"streams": ["clicks"], "topics": ["news"]})
            server.asked(PUT, {"stream": "clicks", "records": [[str(n), f"old {n}"] for n in range(5)]})
            up = self.running(function(stream={"url": server.endpoint, "kinesis": "clicks"},
                                       topic={"url": server.endpoint, "name": "news"}))
            self.check("its records come", until(lambda: len(texts_in(self.seen(up))) == 5, PATIENCE))
        self.check("its end is told", up.until("stream clicks: it cannot be read: ", PATIENCE)
                   and up.until("topic news: no notifications come: ", PATIENCE))
        with moto(self, port) as server:
            server.asked(MAKE, {"streams": ["clicks"], "topics": ["news"]})
            server.asked(PUT, {"stream": "clicks", "records": [[str(n), f"new {n}"] for n in range(7)]})
            self.check("what is new comes", until(
                lambda: sorted(text for _, text in texts_in(self.seen(up)) if "new" in text)
                == [f"new {n}" for n in range(7)], PATIENCE))
            self.check("that is told", up.has("its server has another stream of this name now"))
            self.check("the topic is subscribed to again", until(
                lambda: up.count("topic news: it is subscribed to") == 2, PATIENCE))
            server.asked(PUBLISH, [[None, "after all", "a"]])
            self.check("a notification comes", until(
                lambda: any("Sns" in event["Records"][0] for event in self.seen(up)), PATIENCE))
            self.check("it ends", up.end(), (0, []))

    def test_a_filter_of_a_topic_lets_through_what_it_takes(self):
        with moto(self) as server:
            server.asked(MAKE, {"topics": ["news"]})
            up = self.running(function(topic={"url": server.endpoint, "name": "news",
                                              "filterPolicy": {"kind": ["good"]}}))
            self.check("it is subscribed", up.until("topic news: it is subscribed to", PATIENCE))
            server.asked(PUBLISH, [[None, "one", "bad"], [None, "two", "good"]])
            self.check("one comes", until(lambda: len(self.seen(up)) == 1, PATIENCE))
            time.sleep(2)
            self.check("and no other", [event["Records"][0]["Sns"]["Message"] for event in self.seen(up)], ["two"])
            self.check("it ends", up.end(), (0, []))

    def test_of_ten_thousand_records_nothing_is_lost_by_a_kill(self):
        """10,000 records of four shards, and a kill in the middle: nothing is lost, each shard is in its order, and
        what came twice is less than the positions that are kept say."""
        count = 10_000
        with moto(self) as server:
            server.asked(MAKE, {"streams": ["clicks"], "shards": 4})
            records = [[f"key {n % 97}", f"{n:06}"] for n in range(count)]
            server.asked(PUT, {"stream": "clicks", "records": records[:count // 2]})
            source = {"url": server.endpoint, "kinesis": "clicks", "batchSize": 50, "checkpoint": "positions.json"}
            up = self.running(function(environments=4, stream=source))
            self.check("a part is handled", until(lambda: len(texts_in(self.seen(up))) > count // 8, PATIENCE))
            up.process.send_signal(signal.SIGKILL)
            up.process.wait(30)
            before = texts_in(self.seen(up))
            self.check("not all of it", len(before) < count // 2, shown=len(before))
            again = Up(*READY, functions=[function(environments=4, stream=source)], app=APP, environ=environ(),
                       prepare=lambda at: shutil.copy(os.path.join(up.at, "positions.json"), at))
            self.check("the next run is ready", again.until("[up] ready", READY_SECONDS))
            server.asked(PUT, {"stream": "clicks", "records": records[count // 2:]})
            self.check("it says where it goes on", again.until(
                "positions.json says; a batch that was not answered comes again", PATIENCE))

            def all_texts():
                return before + texts_in(self.seen(again))
            self.check("all come", until(lambda: len(set(all_texts())) == count, PATIENCE), shown=len(set(all_texts())))
            after = texts_in(self.seen(again))
            self.check("it ends", again.end(), (0, []))
            twice = len(before) + len(after) - len({*before, *after})
            print(f"note 10,000 records: {len(before):,} before the kill, {len(after):,} after it, {twice:,} of which "
                  "were handled before")
            self.check("there are four shards", len({shard for shard, _ in after}), 4)
            for shard in sorted({shard for shard, _ in before + after}):
                for run in (before, after):
                    texts = [text for one, text in run if one == shard]
                    self.check(f"{shard}: in its order, once each in a run", texts, sorted(set(texts)))
            self.check("what came twice are the batches that were not answered, and those of the last moments",
                       twice <= 4 * 50 * 20, shown=twice)
