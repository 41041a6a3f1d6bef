"""Checks the sample events: each is as botocore's models and SAM's translator say where they say anything, as what this
tool itself makes of a request where it makes one, and by the rules of its encoding; and `--set`, which changes values
that are there."""
import base64
import gzip
import importlib.util
import json
import os
import random
import re
import unittest
from typing import Any, Dict

from lambda_local.event_sources import members
from lambda_local.front import payload
from lambda_local.front.alb import OfBalancer
from lambda_local.front.authorizers import authorizer_of
from lambda_local.front.formats import OfHttpApi, OfRestApi
from lambda_local.front.http import Request
from lambda_local.front.settings import Integration
from lambda_local.from_template.addresses import READ_ELSEWHERE, READ_OF_SERVERLESS, SAMPLES
from lambda_local.http1 import RequestReader
from lambda_local.program import Fault
from lambda_local.samples import sample, samples, steps_of, with_values
from lambda_local.up.queues import is_message, record_of
from tests import ROOT
from tests.library.cases import Case

WITH_BOTOCORE = unittest.skipUnless(importlib.util.find_spec("botocore"), "botocore is not here")
WITH_SAM = unittest.skipUnless(importlib.util.find_spec("samtranslator"), "aws-sam-translator is not here")
ROUTED = {"Api", "HttpApi"}  # of SAM, which become routes
# Triggers of a user pool that have no sample, and what is no trigger
NO_SAMPLE = {"InboundFederation", "KMSKeyID", "PreTokenGenerationConfig"}
# The events of Serverless, by its documents' menu "Events"
OF_SERVERLESS = ("activemq", "alb", "alexaSkill", "alexaSmartHome", "cloudFront", "cloudwatchEvent", "cloudwatchLog",
                 "cognitoUserPool", "eventBridge", "http", "httpApi", "iot", "kafka", "msk", "rabbitmq", "s3",
                 "schedule", "sns", "sqs", "stream", "websocket")


def event(kind):
    return json.loads(sample(kind))


def lower(name):
    return name[:1].lower() + name[1:]


def in_words(name):
    """PreSignUp as pre_sign_up."""
    return re.sub(r"(?<=[a-z])(?=[A-Z])|(?<=[A-Z])(?=[A-Z][a-z])", "_", name).lower()


class Samples(Case):
    def test_all_samples_are_on_their_page(self):
        kinds = samples()
        self.check("there are as many as the pages say", len(kinds), 48)
        with open(os.path.join(ROOT, "docs", "samples.md")) as file:
            page = file.read()
        named = set(re.findall(r"`([a-z0-9_.]+)`", page.partition("| Sample |")[2]))
        self.check("the page names each", sorted(set(kinds) - named), [])
        for kind in kinds:
            self.check(f"{kind} is an object", isinstance(event(kind), dict))
        for kind, name in SAMPLES.items():
            self.check(f"what is said of {kind} is there", name in kinds)

    @WITH_SAM
    def test_each_type_of_SAM_is_taken_or_has_a_sample(self):
        """Each type of events that SAM's translator knows is taken, or has a sample."""
        from samtranslator.model.eventsources import cloudwatchlogs, pull, push, scheduler  # type: ignore
        named = [getattr(each, "resource_type", None) for module in (pull, push, scheduler, cloudwatchlogs)
                 for each in vars(module).values() if isinstance(each, type)]
        found = {name for name in named if isinstance(name, str) and not name.startswith("AWS::")}
        known = {"SQS", "Kinesis", "DynamoDB", "S3", "SNS", "MSK", "MQ", "DocumentDB", "SelfManagedKafka", "Cognito",
                 "CloudWatchLogs", "EventBridgeRule", "CloudWatchEvent", "IoTRule", "AlexaSkill", "Schedule",
                 "ScheduleV2", *ROUTED}
        self.check("the translator's types", sorted(known - found - {"EventBridgeRule", "ScheduleV2"}), [],
                   shown=sorted(found))
        for kind in sorted(found | known):
            self.check(f"{kind} is taken or has a sample", kind in READ_ELSEWHERE | ROUTED | set(SAMPLES))

    def test_each_type_of_Serverless_is_taken_or_has_a_sample(self):
        for kind in OF_SERVERLESS:
            self.check(f"{kind} is taken or has a sample",
                       kind in READ_OF_SERVERLESS | {"http", "httpApi", "alb"} | set(SAMPLES))

    @WITH_BOTOCORE
    def test_members_of_samples_are_those_of_the_services_models(self):
        """The members of records are those of the services' models."""
        import botocore.session  # type: ignore
        session = botocore.session.Session()

        def shape(service, name):
            return set(session.get_service_model(service).shape_for(name).members)
        for record in event("dynamodb")["Records"]:
            self.check(f"{record['eventName']} of a table", (
                set(record) - {"eventSourceARN"} - shape("dynamodbstreams", "Record"),
                set(record["dynamodb"]) - shape("dynamodbstreams", "StreamRecord")), (set(), set()))
        record = event("kinesis")["Records"][0]["kinesis"]
        own = {"partitionKey", "sequenceNumber", "data", "approximateArrivalTimestamp"}
        self.check("a record of Kinesis", own - {lower(name) for name in shape("kinesis", "Record")}, set())
        self.check("and one more member of Lambda's", set(record) - own, {"kinesisSchemaVersion"})
        record = event("sqs")["Records"][0]
        self.check("a message", {"messageId", "receiptHandle", "body", "attributes", "messageAttributes"}
                   - {lower(name) for name in shape("sqs", "Message")}, set())
        triggers = set(session.get_service_model("cognito-idp").shape_for("LambdaConfigType").members) - NO_SAMPLE
        self.check("each trigger of a user pool has a sample", sorted(
            name for name in triggers if f"cognito_{in_words(name)}" not in samples()), [])
        job = event("codepipeline")["CodePipeline.job"]
        self.check("a job of CodePipeline", (set(job) - shape("codepipeline", "JobDetails"),
                                             set(job["data"]) - shape("codepipeline", "JobData")), (set(), set()))

    def test_members_of_samples_are_those_that_the_sources_make(self):
        """What this tool makes of a message, of a record and of a notification has the members of the sample."""
        made: Any
        message = {"MessageId": "m", "ReceiptHandle": "r", "Body": "b", "MD5OfBody": "x"}
        self.check("a message is one", is_message(message))
        self.check("sqs", set(record_of(message, "arn", "region")), set(event("sqs")["Records"][0]))
        from tests.tools.test_stream_parts import MOMENT, DynamoDb, Kinesis, notifications
        stream = members.stream_of("f", {"url": "http://a", "kinesis": "s"})
        made = Kinesis(None, stream, "us-east-1", "123456789012").record_of(
            {"Data": b"", "PartitionKey": "k", "SequenceNumber": "1", "ApproximateArrivalTimestamp": MOMENT}, "s")
        given = event("kinesis")["Records"][0]
        self.check("kinesis", (set(made.event), set(made.event["kinesis"])), (set(given), set(given["kinesis"])))
        made = DynamoDb(None, stream, "us-east-1").record_of(
            {"eventID": "1", "eventName": "MODIFY", "dynamodb": {
                "Keys": {}, "NewImage": {}, "OldImage": {}, "SequenceNumber": "1", "SizeBytes": 1,
                "StreamViewType": "x", "ApproximateCreationDateTime": MOMENT}}, "s")
        given = event("dynamodb")["Records"][1]
        self.check("dynamodb", (set(made.event), set(made.event["dynamodb"])), (set(given), set(given["dynamodb"])))
        made = notifications.read(json.dumps({"Type": "Notification", "MessageId": "m", "TopicArn": "t", "Message": "x",
                                              "Timestamp": "y"}), "arn")
        made, given = made.event["Records"][0], event("sns")["Records"][0]
        self.check("sns", (set(made), set(made["Sns"])), (set(given), set(given["Sns"])))

    def test_members_of_samples_are_those_that_the_front_makes(self):
        """What the front makes of a request has the members of the sample, but for those of headers."""
        reader = RequestReader()
        reader.receive(b"POST /orders/7?full=yes HTTP/1.1\r\nHost: a\r\nCookie: session=1\r\nUser-Agent: curl/8.0.0\r\n"
                       b"Content-Type: application/json\r\nContent-Length: 15\r\n\r\n")
        head: Any = reader.next_event()
        request, body = Request(head, b""), b'{"name": "Ada"}'
        context: Dict[str, Any] = {
            "accountId": "1", "apiId": "a", "domainName": "a", "domainPrefix": "a", "requestId": "r",
            "routeKey": "POST /orders/{id}", "stage": "$default", "timeEpoch": 1}
        made = json.loads(payload.event_of(request, body, context, {"id": "7"}))
        given = event("apigateway_2.0")
        self.check("an HTTP API", (set(made), set(made["requestContext"]), set(made["requestContext"]["http"])),
                   (set(given), set(given["requestContext"]), set(given["requestContext"]["http"])))
        given, made = event("function_url"), json.loads(payload.event_of(request, body, context))
        self.check("a Function URL", (set(made), set(made["requestContext"]), made["body"]),
                   (set(given), set(given["requestContext"]), given["body"]))
        for kind, is_multiple in (("alb", False), ("alb_multi_value", True)):
            form: Any = OfBalancer(Integration("alb", is_multiple=is_multiple), "us-east-1")
            made, given = json.loads(form.event(request, body, {"accountId": "1"}, None, print)), event(kind)
            self.check(kind, (set(made), made["path"], made["body"]), (set(given), given["path"], given["body"]))
        for kind, is_rest, version in (("authorizer_2.0", False, "2.0"), ("authorizer_request", True, "1.0")):
            authorizer = authorizer_of({"function": "a", "type": "REQUEST", "payload": version}, is_rest)
            form = (OfRestApi if is_rest else OfHttpApi)(Integration(version, is_rest, "prod", {"a": "b"}))
            made = form.authorizer_event(request, {**context, "resourcePath": "/orders/{id}"}, {"id": "7"}, authorizer,
                                         "arn", ["x"])
            self.check(kind, set(event(kind)) - set(made), set())

    @unittest.skipUnless(importlib.util.find_spec("moto"), "moto is not here")
    def test_what_moto_sends_of_S3_is_in_the_sample(self):
        from types import SimpleNamespace
        from moto.s3.notifications import _get_s3_event  # type: ignore
        bucket = SimpleNamespace(region_name="r", name="b", arn="a")
        key = SimpleNamespace(name="a b", etag='"e"', size=1)
        made = _get_s3_event("s3:ObjectCreated:Put", bucket, key, "id")["Records"][0]
        given = event("s3")["Records"][0]
        self.check("what moto sends is in the sample", (
            set(made) - set(given), set(made["s3"]) - set(given["s3"]), set(made["s3"]["object"]) - set(
                given["s3"]["object"]), made["eventVersion"]), (set(), set(), set(), given["eventVersion"]))

    def test_encoded_data_of_samples_can_be_read(self):
        data = gzip.decompress(base64.b64decode(event("cloudwatch_logs")["awslogs"]["data"], validate=True))
        self.check("compressed logs", json.loads(data)["messageType"], "DATA_MESSAGE")
        for kind, path in (("kinesis", ["Records", 0, "kinesis", "data"]), ("firehose", ["records", 0, "data"]),
                           ("msk", ["records", "orders-0", 0, "value"]), ("activemq", ["messages", 0, "data"]),
                           ("self_managed_kafka", ["records", "orders-0", 0, "value"]),
                           ("rabbitmq", ["rmqMessagesByQueue", "orders::/", 0, "data"])):
            value = event(kind)
            for step in path:
                value = value[step]
            self.check(f"{kind} has data in Base64", json.loads(base64.b64decode(value, validate=True)), {"order": 7})
        self.check("a rule of Config has its event as JSON", "messageType" in json.loads(
            event("config_rule")["invokingEvent"]))
        self.check("nothing is sent to AWS", event("cloudformation")["ResponseURL"].startswith("http://127.0.0.1:9/"))

    def test_values_of_a_sample_can_be_set(self):
        payload = b'{"a": {"b": [1, {"c": null}], "x.y": "t", "q\\"": 1}, "e": {}}'
        for options, wanted in (
                (["a.b[0]=7"], {"b": [7, {"c": None}], "x.y": "t", 'q"': 1}),
                (["a.b[1].c={\"d\": [true]}"], {"b": [1, {"c": {"d": [True]}}], "x.y": "t", 'q"': 1}),
                (['a["x.y"]="="', "a.b=null"], {"b": None, "x.y": "=", 'q"': 1}),
                (['a["q\\""]="\u00e9"'], {"b": [1, {"c": None}], "x.y": "t", 'q"': "\u00e9"}),
                (["a.b=[]", "a={\"b\": 5}", "a.b=6"], {"b": 6})):
            self.check(f"--set {options}", json.loads(with_values(payload, options)), {"a": wanted, "e": {}})
        for option, wanted in (
                ("a.c=1", "--set a.c: a has no c: there are b, x.y, q\""),
                ("z=1", "--set z: the event has no z: there are a, e"),
                ("a.b[2]=1", "--set a.b[2]: a.b has no [2]: it has 2 items, from [0] on"),
                ("a.b.0=1", "a.b has no 0: it has 2 items"),
                ("a.b[0].c=1", "a.b[0] has no c: it has no members, since it is a number"),
                ("a.b[1].c.d=1", "since it is null"), ("e.f=1", "e has no f: it has no members"),
                ("a=x", "--set a: the value is not JSON: "), ("a=", "the value is not JSON"), ("a=NaN", "is not JSON"),
                ("a", "--set a: write it as PATH=VALUE"), ("=1", "write the path as NAME.NAME[0].NAME"),
                ("a..b=1", "write the path as"), ("a[x]=1", "write the path as"), ("a[0]b=1", "write the path as"),
                ("a[-1]=1", "write the path as")):
            try:
                with_values(payload, [option])
                self.check(f"--set {option} is refused", False)
            except Fault as fault:
                self.check(f"--set {option}", (fault.status, wanted in str(fault)), (2, True), shown=str(fault))
        self.check("without an option the bytes are the same", with_values(b" x ", []), b" x ")

    def test_any_path_sets_a_value_or_is_a_fault(self):
        """Whatever the option is, it is a Fault or sets a value."""
        chosen = random.Random(3)
        for _ in range(20_000):
            text = "".join(chosen.choice('ab.[]"\\01=x{}') for _ in range(chosen.randint(0, 12)))
            try:
                with_values(b'{"a": {"b": [1]}}', [text])
                steps_of(text.partition("=")[0], "x")
            except Fault:
                pass
        self.check("each ends in one of these ways", True)
