"""Checks queues and schedules as sources of invocations: expressions (EventBridge User Guide, "Schedule expressions"),
the events of both, batches, messages that fail, and what a wrong queue does. Queues need boto3. The program is
LAMBDA_LOCAL_PROGRAM, else ./lambda_local."""
import contextlib
import importlib.util
import json
import os
import random
import re
import signal
import socket
import time
import unittest
from datetime import datetime, timedelta, timezone
from typing import Any, List, Tuple

from lambda_local.aws_hosts import is_of_aws
from lambda_local.configuration import Members
from lambda_local.up import sources
from lambda_local.expressions import WrongExpression, cron_of, expression_of, rate_of
from lambda_local.up.queues import failures_in, is_message, record_of
from tests.library.cases import Case
from tests.library.events_kit import READY, READY_SECONDS, json_lines
from tests.library.sqs_server import Server
from tests.library.up_kit import Up, until

WITH_BOTO3 = unittest.skipUnless(importlib.util.find_spec("boto3"), "boto3 is not here: queues")
APP = '''import json, time
def run(event, context):
    with open("seen", "a") as file: file.write(json.dumps(event) + "\\n")
    bodies = [record["body"] for record in event.get("Records", ())]
    if "fail" in bodies: raise ValueError("a message fails")
    if "slow" in bodies: time.sleep(60)
    if "part" in bodies:
        return {"batchItemFailures": [{"itemIdentifier": record["messageId"]} for record in event["Records"]
                                      if record["body"] == "part"]}
    if "unknown" in bodies: return {"batchItemFailures": [{"itemIdentifier": "x"}]}
    return "done"
'''


def utc(year, month, day, hour=0, minute=0):
    return datetime(year, month, day, hour, minute, tzinfo=timezone.utc)


# What the guide says of each expression of its, as moments: the first ones after a moment.
FIRES = (
    ("0 10 * * ? *", utc(2026, 1, 1, 10, 0), [utc(2026, 1, 2, 10), utc(2026, 1, 3, 10)]),
    ("15 12 * * ? *", utc(2026, 1, 1), [utc(2026, 1, 1, 12, 15)]),
    ("0 18 ? * MON-FRI *", utc(2026, 1, 2, 19), [utc(2026, 1, 5, 18)]),  # (2 January 2026 is a Friday)
    ("0 8 1 * ? *", utc(2026, 1, 1, 8), [utc(2026, 2, 1, 8)]),
    ("0/15 * * * ? *", utc(2026, 1, 1, 0, 1), [utc(2026, 1, 1, 0, 15), utc(2026, 1, 1, 0, 30)]),
    ("0/10 * ? * MON-FRI *", utc(2026, 1, 2, 23, 55), [utc(2026, 1, 5, 0, 0)]),
    ("0/5 8-17 ? * MON-FRI *", utc(2026, 1, 2, 17, 50), [utc(2026, 1, 2, 17, 55), utc(2026, 1, 5, 8, 0)]),
    ("0/30 20-23 ? * mon-fri *", utc(2026, 1, 2, 23, 30), [utc(2026, 1, 5, 20, 0)]),
    ("0 9 ? * 2#1 *", utc(2026, 1, 1), [utc(2026, 1, 5, 9), utc(2026, 2, 2, 9)]),
    ("15 10 ? * 6L 2022-2023", utc(2021, 12, 31), [utc(2022, 1, 28, 10, 15), utc(2022, 2, 25, 10, 15)]),
    ("0 0 L * ? *", utc(2024, 2, 1), [utc(2024, 2, 29), utc(2024, 3, 31)]),
    ("0 0 ? * L *", utc(2026, 1, 1), [utc(2026, 1, 3)]),
    ("0 0 3W * ? *", utc(2026, 1, 1), [utc(2026, 1, 2), utc(2026, 2, 3)]),  # (3 January 2026 is a Saturday)
    ("0 0 1W * ? *", utc(2026, 7, 31, 1), [utc(2026, 8, 3)]),  # (1 August 2026 is a Saturday)
    ("0 0 31W * ? *", utc(2026, 5, 1), [utc(2026, 5, 29), utc(2026, 7, 31)]),  # (31 May 2026 is a Sunday)
    ("0 0 29 2 ? *", utc(2026, 1, 1), [utc(2028, 2, 29), utc(2032, 2, 29)]),
    ("1/10 0 1 1 ? *", utc(2026, 12, 31), [utc(2027, 1, 1, 0, 1), utc(2027, 1, 1, 0, 11)]),
    ("59 23 31 DEC ? 2199", utc(2026, 1, 1), [utc(2199, 12, 31, 23, 59), None]),
    ("0 0 ? * MON#5 *", utc(2026, 1, 1), [utc(2026, 3, 30)]),
    ("10,20 1,2 ? 1-3/2 SUN,SAT *", utc(2026, 1, 31, 2, 15), [utc(2026, 1, 31, 2, 20), utc(2026, 3, 1, 1, 10)]),
)
WRONG = ("cron(* * * * * *)", "cron(* * ? * ? *)", "cron(0 12 * * ?)", "cron()", "cron(0 12 * * ? * *)",
         "cron(60 * * * ? *)", "cron(* 24 * * ? *)", "cron(* * 0 * ? *)", "cron(* * 32 * ? *)", "cron(* * * 13 ? *)",
         "cron(* * ? * 8 *)", "cron(* * ? * 0 *)", "cron(* * * * ? 1969)", "cron(* * * * ? 2200)",
         "cron(*/0 * * * ? *)", "cron(5-1 * * * ? *)", "cron(a * * * ? *)", "cron(, * * * ? *)", "cron(* * LW * ? *)",
         "cron(* * 3w * ? *)", "cron(* * ? * 3#6 *)", "cron(* * ? * 3#1,6#3 *)", "cron(* * ? * MON- *)",
         "cron(0 0 31 2 ? *)", "cron(0 0 1 1 ? 1999)", "cron(? * * * ? *)", "cron(* * * JANUARY ? *)",
         "cron(\u0661 * * * ? *)", "cron(1/\u0661 * * * ? *)", "rate(1 minutes)", "rate(5 minute)", "rate(0 minutes)",
         "rate(-1 minutes)", "rate(1.5 hours)", "rate(5 seconds)", "rate(5  minutes)", "rate(5 minutes) ",
         "Rate(5 minutes)", "rate(9999999999 days)", "rate(999999999 days)", "rate()", "at(2026-01-01T00:00:00)", "",
         "5 minutes", "cron" + "(" * 100, "cron(" + "1," * 200 + "1 * * * ? *)")


def seen_by(up):
    return json_lines(os.path.join(up.at, "seen"))


class Sources(Case):
    def test_cron_expressions_fire_when_EventBridge_says(self):
        for text, after, wanted in FIRES:
            expression, moments = cron_of(text), [after]
            for _ in wanted:
                moments.append(expression.next_after(moments[-1]))
            self.check(f"cron({text})", moments[1:], wanted)

    def test_rates_are_read_as_seconds(self):
        for text, period in (("rate(1 minute)", 60), ("rate(5 minutes)", 300), ("rate(1 hour)", 3600),
                             ("rate(12 hours)", 43200), ("rate(1 day)", 86400), ("rate(7 days)", 604800)):
            self.check(text, rate_of(text).next_after(utc(2026, 1, 1)), utc(2026, 1, 1) + timedelta(seconds=period))

    def test_wrong_expressions_are_refused_at_once(self):
        for text in WRONG:
            begun = time.process_time()
            try:
                expression_of(text)
                seen = "taken"
            except WrongExpression as fault:
                seen = "refused" if str(fault) else "without a word"
            self.check(f"wrong: {text[:40]}", (seen, time.process_time() - begun < 5), ("refused", True))

    def test_mistakes_of_schedules_and_queues_are_told(self):
        url = "http://127.0.0.1:9324/0/q"
        mistakes: Tuple[Tuple[Members, str], ...] = (
            ({"queue": {}}, "queue: there is no url, which must be"),
            ({"queue": {"url": 5}}, "queue: url must be a string"),
            ({"queue": {"url": url, "batch": 5}}, "queue: unknown member batch, did you mean batchSize?"),
            ({"queue": {"url": url, "batchSize": 0}},
             "queue: batchSize must be a whole number from 1 to 10000, not 0"),
            ({"queue": {"url": url, "window": 301}}, "queue: window must be"),
            ({"queue": {"url": url, "batchSize": 11}}, "queue: batchSize: more than 10 messages need a window"),
            ({"queue": {"url": url + ".fifo", "batchSize": 11, "window": 1}},
             "queue: batchSize: a FIFO queue gives 10"),
            ({"schedule": "cron(* * * * * *)"}, 'schedule: "cron(* * * * * *)": one of day-of-month and'),
            ({"schedule": ["rate(1 minute)", "x"]}, 'schedule: number 2: "x": write "rate(5 minutes)" or'),
            ({"schedule": {"expresion": "x"}}, "schedule: unknown member expresion, did you mean expression?"),
            ({"schedule": {"expression": 5}}, "schedule: expression must be a string"))
        for members, wanted in mistakes:
            seen = next(sources.mistakes({"functions": [{"name": "f", **members}]}), "")
            self.check(f"a mistake: {members}", seen[:len("function f: " + wanted)], "function f: " + wanted)

    def test_what_is_no_address_of_a_queue_is_told(self):
        for wrong in ("", "x", "file:///etc/passwd", "http://", "http://h", "http://h/", "ftp://h/q", "http://a b/q",
                      "http://user:word@h/q", "http://h:0/q", "http://h:99999/q", "http://h/q?x", "http://h/q#x",
                      "http://[/q", "http://h/q\r\nX: y", "http://h/" + "q" * 2000, "http://h/\u00e9"):
            seen = next(sources.mistakes({"functions": [{"name": "f", "queue": {"url": wrong}}]}), "")
            self.check(f"no address: {wrong[:30]!r}", "must be the address of a queue" in seen)

    def test_right_schedules_and_queues_are_taken(self):
        url = "http://127.0.0.1:9324/0/q"
        right: Tuple[Members, ...] = (
            {"schedule": "rate(1 minute)"},
            {"schedule": ["rate(1 minute)", {"expression": "rate(1 day)", "input": 1}]},
            {"queue": {"url": url, "batchSize": 100, "window": 1}})
        for given in right:
            self.check(f"what is right: {given}", list(sources.mistakes({"functions": [{"name": "f", **given}]})), [])

    def test_a_schedule_needs_events_to_be_taken(self):
        off = {"asynchronous": False, "functions": [{"name": "f", "schedule": "rate(1 minute)"}]}
        self.check("a schedule without events", "leave one of the two out" in next(sources.mistakes(off)))

    def test_values_of_other_types_are_refused(self):
        kinds = sources.OF_FUNCTION["schedule"]
        others: Tuple[object, ...] = ([], 5, None, True, [5], ["rate(1 day)"] * 101)
        self.check("other types", [kinds.accepts(value) for value in others], [False] * 6)

    def test_hosts_of_AWS_are_those_of_botocore(self):
        """Those of AWS, with botocore as the oracle."""
        others = ("localhost", "aws", "moto.aws", "amazonaws.com.localhost", "notamazonaws.com", "api.aws.example", "")
        self.check("hosts of others", [host for host in others if is_of_aws(host)], [])
        try:
            import botocore
        except ImportError:
            print("note botocore is not here")
            return
        with open(os.path.join(os.path.dirname(botocore.__file__), "data", "partitions.json"), "rb") as file:
            partitions = [one["outputs"] for one in json.load(file)["partitions"]]
        names = {one[suffix] for one in partitions for suffix in ("dnsSuffix", "dualStackDnsSuffix")}
        self.check("hosts of each partition", sorted(name for name in names if not is_of_aws(f"SQS.x-1.{name}.")), [])

    def test_no_queue_of_AWS_is_read(self):
        """No queue of AWS is read with a user's own messages in it, unless they say so."""
        for host in ("sqs.eu-west-1.amazonaws.com", "SQS.US-EAST-1.AMAZONAWS.COM", "eu-west-1.queue.amazonaws.com",
                     "sqs.cn-north-1.amazonaws.com.cn", "sqs.eu-west-1.api.aws", "sqs.eu-west-1.amazonaws.com.",
                     "sqs-fips.us-east-1.amazonaws.com", "vpce-1.sqs.us-east-1.vpce.amazonaws.com"):
            queue = {"url": f"https://{host}/123456789012/orders"}
            up = Up(functions=[{"name": "f", "runtime": "python", "handler": "app.run", "queue": queue}], app=APP)
            self.check(f"{host} is refused", (up.end(None), "is AWS itself" in up.lines[-1]), ((2, []), True))

    def test_a_result_is_a_success_or_names_what_fails(self):
        """Developer Guide, "Implementing partial batch responses": which results are successes, and which fail all."""
        for result, wanted in (
                ('{"batchItemFailures":[{"itemIdentifier":"a"}]}', ["a"]), ('{"batchItemFailures":[]}', []),
                ('{"batchItemFailures":null}', []), ("{}", []), ("null", []), ('"done"', []), ("[1]", []), ("x", []),
                ('{"statusCode":200}', []), ('{"batchItemFailures":[{"itemIdentifier":""}]}', None),
                ('{"batchItemFailures":[{"itemIdentifier":null}]}', None), ('{"batchItemFailures":[{"id":"a"}]}', None),
                ('{"batchItemFailures":[{"itemIdentifier":"c"}]}', None), ('{"batchItemFailures":["a"]}', None),
                ('{"batchItemFailures":"a"}', None), ("[" * 100_000, [])):
            self.check(f"a result: {result[:60]}", failures_in(result.encode(), ["a", "b"]), wanted)

    @contextlib.contextmanager
    def running(self, server, options=(), environ=None, **members):
        function = {"name": "f", "runtime": "python", "handler": "app.run", "timeout": 70, **members}
        function["queue"] = {"url": server.url, **members.get("queue", {})}
        up = Up(*READY, *options, functions=[function], app=APP, environ=environ, whole={"region": "eu-west-1"})
        try:
            self.check("it is ready", up.until("[up] ready", READY_SECONDS))
            yield up
        finally:
            if up.process.poll() is None:
                begun = time.monotonic()
                self.check("it ends in order, and leaves nothing", up.end(), (0, []))
                self.check("in time", time.monotonic() - begun < 30)

    @WITH_BOTO3
    def test_messages_come_in_batches_with_their_attributes(self):
        attributes = {"Kind": {"StringValue": "a<b", "DataType": "String"}}
        with Server() as server:
            first = server.queue.send("one <&> \u00e9", attributes)
            for number in range(24):
                server.queue.send(f"message {number:02}")
            environ = {**os.environ, "AWS_ACCESS_KEY_ID": "AKIAREAL", "AWS_SECRET_ACCESS_KEY": "real",
                       "AWS_PROFILE": "no-such-profile", "HTTP_PROXY": "http://127.0.0.1:9",
                       "http_proxy": "http://127.0.0.1:9"}
            with self.running(server, environ=environ) as up:
                self.check("all are taken", until(lambda: not server.queue.bodies(), 60))
                events = seen_by(up)
                self.check("ten at once", [len(event["Records"]) for event in events], [10, 10, 5])
                record = events[0]["Records"][0]
                own = {name: value for name, value in record.items() if name not in ("receiptHandle", "attributes")}
                self.check("a record", own, {
                    "messageId": first, "body": "one <&> \u00e9", "md5OfBody": record["md5OfBody"],
                    "eventSource": "aws:sqs",
                    "eventSourceARN": "arn:aws:sqs:eu-west-1:123456789012:orders", "awsRegion": "eu-west-1",
                    "messageAttributes": {"Kind": {"stringValue": "a<b", "stringListValues": [], "binaryListValues": [],
                                                   "dataType": "String"}}})
                self.check("its attributes", (record["attributes"]["ApproximateReceiveCount"],
                                              record["attributes"]["SenderId"]),
                           ("1", "AIDAEXAMPLE"))
                self.check("a line for each batch",
                           until(lambda: up.count(r"\[f\] queue orders: a batch of \d+ ok") == 3, 5))
                self.check("the user's own credentials are not used", server.is_signed_with("local"))

    @WITH_BOTO3
    def test_a_window_collects_more_than_a_queue_gives_at_once(self):
        with Server() as server:
            with self.running(server, queue={"batchSize": 25, "window": 3}) as up:
                for number in range(25):
                    server.queue.send(f"message {number:02}")
                self.check("a window", until(lambda: not server.queue.bodies(), 60))
                self.check("collects more than a queue gives at once",
                           max(len(event["Records"]) for event in seen_by(up)) > 10)

    @WITH_BOTO3
    def test_a_message_that_fails_stays_and_comes_again(self):
        with Server(visibility=3) as server:
            with self.running(server, queue={"batchSize": 2}) as up:
                server.queue.send("part")
                server.queue.send("whole")
                self.check("a message that failed stays, and the others go",
                           until(lambda: server.queue.bodies() == ["part"], 60))
                self.check("a line says so", up.until("1 failed and stays in the queue", 5))
                self.check("it comes again", until(lambda: len(seen_by(up)) >= 2, 30))
                self.check("by its count",
                           seen_by(up)[-1]["Records"][0]["attributes"]["ApproximateReceiveCount"] != "1")

    @WITH_BOTO3
    def test_a_batch_that_fails_stays_whole_and_a_line_says_so(self):
        for body, why in (("fail", "failed: its messages stay"),
                          ("unknown", "its batchItemFailures name no message of it")):
            with Server() as server:
                server.queue.send(body)
                with self.running(server) as up:
                    self.check(f"{body}: a line says so", up.until(why, 60))
                    self.check("the message stays", server.queue.bodies(), [body])

    def test_whatever_a_server_gives_is_no_message_or_makes_an_event(self):
        """Whatever a server gives is no message, or an event can be made of it."""
        chosen = random.Random(7)
        values: List[Any] = [
            None, 5, 1.5, True, "", "text", "\ud800", b"\xff", [], ["x"], {}, {"StringValue": 5}, {"x": None},
            {"x": {"DataType": None, "BinaryValue": b"\xff"}}, {"x": {"StringValue": "\0"}}, {5: {}}]
        names = ("MessageId", "ReceiptHandle", "Body", "Attributes", "MessageAttributes", "MD5OfBody")
        taken = 0
        for _ in range(20_000):
            whole = {"MessageId": "m", "ReceiptHandle": "r", "Body": "b"}
            message = {**whole, **{name: chosen.choice(values) for name in names if chosen.random() < 0.3}}
            if is_message(message):
                taken += 1
                json.dumps(record_of(message, "arn", "region"), ensure_ascii=False).encode(errors="replace")
        self.check("some are taken, some are not", 2_000 < taken < 18_000, shown=taken)
        self.check("what is no object is none", [is_message(value) for value in values], [False] * len(values))

    @WITH_BOTO3
    def test_a_server_that_holds_a_poll_does_not_hold_up_the_end(self):
        """A server that does not answer a poll does not hold up the end."""
        with socket.socket() as silent:
            silent.bind(("127.0.0.1", 0))
            silent.listen()
            where = type("Silent", (), {"url": f"http://127.0.0.1:{silent.getsockname()[1]}/0/q"})
            up = self.running(where)
            with up as running:
                connection, _ = silent.accept()
                time.sleep(2)
                begun = time.monotonic()
                running.process.send_signal(signal.SIGTERM)
                running.process.wait(30)
                seconds = time.monotonic() - begun
                connection.close()
            self.check("it ends within seconds", seconds < 7, shown=seconds)

    @WITH_BOTO3
    def test_a_wrong_answer_of_a_server_is_told_and_stops_nothing(self):
        with Server() as server:
            with self.running(server) as up:
                self.check("it is polled", until(lambda: server.queue.asked != [], 60))
                whole = {"MessageId": "m", "ReceiptHandle": "r", "Body": "beside"}
                server.queue.wrong = (200, json.dumps({"Messages": [
                    {**whole, "MessageAttributes": {"x": None}}, {**whole, "Body": 5}, None, whole]}).encode())
                self.check("an odd message is told", up.until("queue orders: 3 messages of its server are left in the "
                                                              "queue", 20))
                self.check("one beside it is handled",
                           until(lambda: any(event["Records"][0]["body"] == "beside" for event in seen_by(up)), 20))
                for wrong in (
                        (500, b"no"), (200, b"<"), (200, b"<a/>"), (200, b"\0\xff" * 100), (403, b"<ErrorResponse/>"),
                        (200, b"<ReceiveMessageResponse><ReceiveMessageResult><Message><Body>x</Body></Message>"
                              b"</ReceiveMessageResult></ReceiveMessageResponse>")):
                    server.queue.wrong = wrong
                    time.sleep(2.5)
                server.queue.wrong = None
                server.queue.send("after all")
                self.check("a wrong answer is told, and stops nothing",
                           up.count("queue orders: cannot be polled: ") >= 1)
                self.check("the queue is polled again", until(lambda: not server.queue.bodies(), 60))

    @WITH_BOTO3
    def test_a_server_that_is_not_there_is_told(self):
        with self.running(type("Gone", (), {"url": "http://127.0.0.1:9/0/q"})) as up:
            self.check("no server", up.until("queue q: cannot be polled: EndpointConnectionError", 30))

    @WITH_BOTO3
    def test_a_stop_leaves_a_message_that_is_in_work(self):
        with Server() as server:
            server.queue.send("slow")
            with self.running(server) as up:
                self.check("a slow message is taken", until(lambda: len(seen_by(up)) == 1, 60))
            self.check("a stop leaves it in the queue", server.queue.bodies(), ["slow"])

    def test_a_schedule_fires_each_minute_with_its_event(self):
        """A schedule of each minute: its event is Lambda's example of one."""
        function = {"name": "f", "runtime": "python", "handler": "app.run",
                    "schedule": ["cron(* * * * ? *)", {"expression": "cron(0/1 * * * ? *)", "input": {"own": 1}}]}
        up = Up(*READY, functions=[function], app=APP)
        self.check("it is ready", up.until("[up] ready", READY_SECONDS))
        self.check("both fire", until(lambda: len(seen_by(up)) >= 2, 90))
        event = next(event for event in seen_by(up) if "own" not in event)
        self.check("its members", sorted(event),
                   ["account", "detail", "detail-type", "id", "region", "resources", "source", "time", "version"])
        self.check("its values", [event[name] for name in ("version", "detail-type", "source", "account", "region",
                                                           "resources",
                                                           "detail")],
                   ["0", "Scheduled Event", "aws.events", "123456789012", "us-east-1",
                    ["arn:aws:events:us-east-1:123456789012:rule/f"], {}])
        self.check("its moment", re.fullmatch(r"\d{4}-\d\d-\d\dT\d\d:\d\d:00Z", event["time"]) is not None)
        self.check("an input of its own", any(event == {"own": 1} for event in seen_by(up)))
        self.check("a line for each", until(lambda: up.count(r"\[f\] schedule cron\(.*: event ") >= 2, 5))
        self.check("it ends in order, and leaves nothing", up.end(), (0, []))
