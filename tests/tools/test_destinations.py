"""Checks where asynchronous invocations go that have ended: records to functions, and to queues and topics of moto's
server, and dead letters, with the members and attributes that the Developer Guide gives them; what cannot be sent, and
what UP.json may say. Those over moto's server need a Python on PATH that has it and boto3."""
import contextlib
import json
import os
import socket
import threading
from typing import Any

from lambda_local.configuration import Members
from lambda_local.front import outbox
from lambda_local.front.asynchronous import asynchronous_of, mistakes, refused
from lambda_local.front.events import message_in
from lambda_local.other_server import NoClient
from tests.library.cases import Case
from tests.library.events_kit import READY, caller_of, json_lines
from tests.library.moto_server import WITH_MOTO, environ, moto
from tests.library.up_kit import Up, until

APP = '''import json
def run(event, context):
    if event.get("do") == "fail": raise KeyError("missing")
    return event.get("gives", event)
def sink(event, context):
    with open("records", "a") as file: file.write(json.dumps(event) + "\\n")
    if "again" in json.dumps(event): return event["requestPayload"]
'''
# Three queues, and a topic that the third one hears; then the messages of a queue.
MAKE = '''
for name in ("failed", "dead", "heard"):
    client("sqs").create_queue(QueueName=name)
topic = client("sns").create_topic(Name="done")["TopicArn"]
client("sns").subscribe(TopicArn=topic, Protocol="sqs", Endpoint="arn:aws:sqs:us-east-1:123456789012:heard",
                        Attributes={"RawMessageDelivery": "true"})
'''
MESSAGES = '''
name, count = given
url, answer = client("sqs").get_queue_url(QueueName=name)["QueueUrl"], []
while len(answer) < count:
    found = client("sqs").receive_message(QueueUrl=url, MaxNumberOfMessages=10, WaitTimeSeconds=1,
                                          MessageAttributeNames=["All"]).get("Messages", [])
    answer += [[one["Body"], one.get("MessageAttributes", {})] for one in found]
    if not found:
        break
'''
COUNTS = '''
def count(name):
    url = client("sqs").get_queue_url(QueueName=name)["QueueUrl"]
    found = client("sqs").get_queue_attributes(QueueUrl=url, AttributeNames=["ApproximateNumberOfMessages"])
    return int(found["Attributes"]["ApproximateNumberOfMessages"])
answer = [count(name) for name in given]
'''
NAMES = ["failed", "dead", "heard"]
SQS, SNS = "arn:aws:sqs:us-east-1:123456789012:", "arn:aws:sns:us-east-1:123456789012:"
ARN = "arn:aws:lambda:us-east-1:123456789012:function:"


def functions(asynchronous):
    return [{"name": "f", "runtime": "python", "handler": "app.run", "asynchronous": asynchronous},
            {"name": "sink", "runtime": "python", "handler": "app.sink"}]


def records(up):
    return json_lines(os.path.join(up.at, "records"))


def without(record, *names):
    return {name: value for name, value in record.items() if name not in names}


@contextlib.contextmanager
def silent():
    """A server that takes connections and never answers."""
    with socket.create_server(("127.0.0.1", 0)) as listener:
        kept = []

        def accept():
            with contextlib.suppress(OSError):
                while True:
                    kept.append(listener.accept()[0])
        threading.Thread(target=accept, daemon=True).start()
        yield f"http://127.0.0.1:{listener.getsockname()[1]}"
        listener.shutdown(socket.SHUT_RDWR)
        for peer in kept:
            peer.close()


class Destinations(Case):
    @contextlib.contextmanager
    def running(self, asynchronous, *options, whole=None, **variables):
        own = {name: value for name, value in environ().items() if not name.startswith("AWS_ENDPOINT_URL")}
        up = Up(*READY, *options, app=APP, functions=functions(asynchronous), environ={**own, **variables},
                whole=whole or {})
        with caller_of(self, up) as caller:
            yield up, caller

    @WITH_MOTO
    def test_a_record_goes_to_a_queue_another_to_a_topic_and_a_dead_letter_is_the_payload(self):
        """A record to a queue, one to a topic, and a dead letter, of one function."""
        with moto(self) as server:
            endpoint = server.endpoint
            server.asked(MAKE)
            given = {"retries": 1, "delays": [0.05], "onFailure": {"arn": f"{SQS}failed", "url": endpoint},
                     "onSuccess": f"{SNS}done", "deadLetter": f"{SQS}dead"}
            with self.running(given, AWS_ENDPOINT_URL=endpoint) as (up, caller):
                failed = caller.event("f", {"do": "fail", "n": 1})[1]["x-amzn-requestid"]
                done = caller.event("f", {"n": 2, "gives": ["\u00e9"]})[1]["x-amzn-requestid"]
                self.check("both are sent on", up.until(": its record goes to failed and its payload goes to dead")
                           and up.until(": its record goes to done"), shown=up.lines)
                self.check("they come", until(lambda: server.asked(COUNTS, NAMES) == [1, 1, 1], 120))
                self.check("nothing is lost", [line for line in up.lines if "lost" in line], [])
            (text, attributes), = server.asked(MESSAGES, ["failed", 1])
            self.check("the record of a failure", (without(json.loads(text), "timestamp", "responsePayload"),
                                                   attributes), ({
                "version": "1.0", "requestContext": {"requestId": failed, "functionArn": f"{ARN}f:$LATEST",
                                                     "condition": "RetriesExhausted", "approximateInvokeCount": 2},
                "requestPayload": {"do": "fail", "n": 1},
                "responseContext": {"statusCode": 200, "executedVersion": "$LATEST",
                                    "functionError": "Unhandled"}}, {}))
            self.check("its members in the guide's order", list(json.loads(text)), [
                "version", "timestamp", "requestContext", "requestPayload", "responseContext", "responsePayload"])
            (text, attributes), = server.asked(MESSAGES, ["dead", 1])
            self.check("a dead letter is the payload", json.loads(text), {"do": "fail", "n": 1})
            self.check("its attributes", {name: (one["DataType"], one["StringValue"])
                                          for name, one in attributes.items()},
                       {"RequestID": ("String", failed), "ErrorCode": ("Number", "200"),
                        "ErrorMessage": ("String", "'missing'")})
            (text, _), = server.asked(MESSAGES, ["heard", 1])
            self.check("the record of a success", without(json.loads(text), "timestamp"), {
                "version": "1.0", "requestContext": {"requestId": done, "functionArn": f"{ARN}f:$LATEST",
                                                     "condition": "Success", "approximateInvokeCount": 1},
                "requestPayload": {"n": 2, "gives": ["\u00e9"]},
                "responseContext": {"statusCode": 200, "executedVersion": "$LATEST"},
                "responsePayload": ["\u00e9"]})

    @WITH_MOTO
    def test_a_record_that_is_too_long_for_a_topic_goes_without_its_result(self):
        """Beyond 256 KB a topic gets the record without the result."""
        with moto(self) as server:
            server.asked(MAKE)
            given = {"onSuccess": {"arn": f"{SNS}done", "url": server.endpoint}}
            with self.running(given) as (up, caller):
                caller.event("f", {"gives": 1, "long": "x" * 150_000})
                caller.event("f", {"long": "y" * 150_000})
                self.check("both are sent on", until(lambda: up.count(": its record goes to done") == 2, 60))
                self.check("they come", until(lambda: server.asked(COUNTS, NAMES) == [0, 0, 2], 120))
            found = [json.loads(text) for text, _ in server.asked(MESSAGES, ["heard", 2])]
            self.check("one with its result, one without", sorted(
                (one["requestPayload"]["long"][0], one.get("responsePayload"), one["responseContext"]["statusCode"])
                for one in found), [("x", 1, 200), ("y", None, 200)])

    def test_a_function_gets_records_and_a_loop_of_functions_ends(self):
        """A function gets records of successes, and a loop of functions ends."""
        with self.running({"onSuccess": "sink"}, whole={"asynchronous": {"onSuccess": "f"}}) as (up, caller):
            identifier = caller.event("f", {"n": 1})[1]["x-amzn-requestid"]
            self.check("its record comes", until(lambda: len(records(up)) > 0, 20))
            first = records(up)[0]
            self.check("as the guide has it", (first["requestContext"], first["requestPayload"],
                                               first["responseContext"], first["responsePayload"]), (
                {"requestId": identifier, "functionArn": f"{ARN}f:$LATEST", "condition": "Success",
                 "approximateInvokeCount": 1}, {"n": 1}, {"statusCode": 200, "executedVersion": "$LATEST"}, {"n": 1}))
            self.check("f and sink invoke one another, and that ends", up.until(
                "16 records led to it, each the event of the next", 60), shown=up.lines[-5:])
            self.check("each had eight records", len(records(up)), 8)

    def test_what_cannot_be_sent_is_tried_three_times_and_told(self):
        """It is tried three times, and its loss is told; a server that does not answer holds no stop."""
        closed = socket.create_server(("127.0.0.1", 0))
        url = f"http://127.0.0.1:{closed.getsockname()[1]}"
        closed.close()
        with self.running({"retries": 0, "onFailure": {"arn": f"{SQS}failed", "url": url}}) as (up, caller):
            caller.event("f", {"do": "fail"})
            told = "could not send its record to failed: "
            self.check("its loss is told", up.until(told, 60), shown=up.lines[-3:])
            lines = [line for line in up.lines if told in line]
            self.check("with the reason", (len(lines), lines[0].endswith(": it is lost"),
                                           "boto3" in lines[0] or url in lines[0]), (1, True, True), shown=lines)
        if not outbox.has_client():
            return
        with silent() as url, self.running({"onSuccess": {"arn": f"{SQS}ok", "url": url}}, "--drain", "1") as (
                up, caller):
            caller.event("f", {})
            self.check("the function was invoked", up.until(": its record goes to ok"))
            self.check("it ends in order", up.end(), (0, []))
            lost = "is lost by the stop, after 1 attempts, before it was sent on"
            self.check("what was not sent is told", up.count(lost), 1, shown=up.lines[-5:])

    def test_without_boto3_it_is_told_what_to_install(self):
        class NoServer:
            def send(self, text, attributes):
                raise NoClient
        made: Any = asynchronous_of({"deadLetter": f"{SQS}dead"})
        sender: Any = outbox.Sender(made.dead_letter, False)
        sender.destination = NoServer()
        said = sender.sent(outbox.Text("{}", {}, lambda why: None))
        self.check("it is told what to install", said.endswith(" has no boto3: pip install boto3"), shown=said)

    def test_attributes_are_what_a_queue_takes(self):
        for report, wanted in ((b'{"errorMessage":"no","errorType":"E"}', "no"), (b"[1]", "[1]"), (b"\xff", "\ufffd"),
                               (b'{"errorMessage":7}', '{"errorMessage":7}'),
                               (json.dumps({"errorMessage": "\u00e9" * 600}).encode(), "\u00e9" * 512)):
            self.check(f"the message of {report[:20]!r}", message_in(report), wanted)
        self.check("what a queue does not take", outbox.attributes_of({"A": "a\0b\ufffe", "B": "", "C": 200}), {
            "A": ("String", "a\ufffdb\ufffd"), "C": ("Number", "200")})

    def test_mistakes_of_destinations_are_told(self):
        url: Members = {"arn": f"{SQS}q", "url": "http://127.0.0.1:1"}
        given: Any
        for given, wanted in (
                ({"onSuccess": "g"}, 'onSuccess: there is no function "g"'),
                ({"onFailure": 1}, 'onFailure must be the name of a function, the ARN of an SQS queue or an SNS topic, '
                                   'or an object with "arn" and "url", not 1'),
                ({"deadLetter": "f"}, 'deadLetter: "f" must be the ARN of an SQS queue or an SNS topic, such as '
                                      'arn:aws:sqs:us-east-1:123456789012:failed'),
                ({"onFailure": f"{ARN}f"}, f'onFailure: "{ARN}f" must be the ARN of an SQS queue or an SNS topic, such '
                                           'as arn:aws:sqs:us-east-1:123456789012:failed'),
                ({"onFailure": {**url, "uri": 1}}, "onFailure: unknown member uri, did you mean url?"),
                ({"onFailure": {"url": "http://a:1"}},
                 "onFailure: there is no arn, which must be a string: the ARN of an SQS queue or an SNS topic, such as "
                 "arn:aws:sqs:us-east-1:123456789012:failed"),
                ({"deadLetter": f"{SQS}q.fifo"}, f'deadLetter: "{SQS}q.fifo" is first-in-first-out, which Lambda does '
                                                 'not send to: name another one'),
                ({"deadLetter": {**url, "url": "127.0.0.1"}}, 'deadLetter: url: "127.0.0.1" must be the address of a '
                                                              'server, such as http://127.0.0.1:5000')):
            self.check(f"a mistake: {given}", list(mistakes(given, ["f"], "")), [wanted])
        self.check("no mistake", list(mistakes({"onFailure": url, "onSuccess": f"{SNS}t", "deadLetter": url}, ["f"],
                                               "")), [])

    def test_nothing_is_sent_to_AWS_itself(self):
        """Nothing is sent to AWS unless the user's credentials are kept."""
        of_aws: Any = asynchronous_of({"deadLetter": {"arn": f"{SQS}q", "url": "https://sqs.us-east-1.amazonaws.com"}})
        here: Any = asynchronous_of({"deadLetter": {"arn": f"{SQS}q", "url": "http://127.0.0.1:1"}})
        self.check("an address of AWS", len(list(refused(of_aws, {}, False))), 1)
        self.check("with the user's credentials", list(refused(of_aws, {"f": of_aws}, True)), [])
        self.check("a server here", list(refused(here, {"f": here}, False)), [])
        own = {name: value for name, value in environ().items() if not name.startswith("AWS_ENDPOINT_URL")}
        up = Up(functions=functions({"deadLetter": f"{SQS}q"}), environ=own)
        self.check("without a server nothing starts", (up.end(None), up.lines), ((2, []), [
            f"up: up.json: function f: asynchronous: deadLetter: {SQS}q is at AWS itself: set AWS_ENDPOINT_URL_SQS, "
            "write {\"arn\": .., \"url\": \"http://127.0.0.1:5000\"}, or start lambda_local up with "
            "--keep-credentials"]))
