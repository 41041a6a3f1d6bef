"""Checks what of a template becomes streams and topics: events of SAM and Serverless, mappings, subscriptions, and what
is said of what is not taken."""
import contextlib
import os
import unittest

from tests.library.cases import Case
from tests.library.project_kit import folder_of, made_by, sam
from tests.library.template_kit import HAS_YAML

ENDPOINT = "http://127.0.0.1:5000"
DEAD = "arn:aws:sqs:us-east-1:123456789012:Dead"


@contextlib.contextmanager
def variable(name, value=ENDPOINT):
    os.environ[name] = value
    try:
        yield
    finally:
        del os.environ[name]


def arn(key, attribute="Arn"):
    return {"Fn::GetAtt": [key, attribute]}


RESOURCES = {"Clicks": {"Type": "AWS::Kinesis::Stream"}, "Orders": {"Type": "AWS::DynamoDB::Table"},
             "News": {"Type": "AWS::SNS::Topic"}, "Dead": {"Type": "AWS::SQS::Queue"}}


def template(**more):
    return {"Resources": {**RESOURCES, **more}}


class TemplateStreams(Case):
    def made(self, whole, *variables, name="template.json"):
        with folder_of(**{name.replace(".", "_0_"): whole}) as folder, contextlib.ExitStack() as stack:
            for one in variables:
                stack.enter_context(variable(one))
            functions, _, said = made_by(os.path.join(folder, name))
            return functions, said

    def test_streams_and_topics_of_SAM_are_taken(self):
        whole = template(F=sam(Events={
            "A": {"Type": "Kinesis", "Properties": {
                "Stream": arn("Clicks"), "StartingPosition": "LATEST", "BatchSize": 7, "ParallelizationFactor": 3,
                "MaximumBatchingWindowInSeconds": 5, "TumblingWindowInSeconds": 5, "BisectBatchOnFunctionError": True,
                "DestinationConfig": {"OnFailure": {"Type": "SQS", "Destination": arn("Dead")}}}},
            "B": {"Type": "DynamoDB", "Properties": {
                "Stream": arn("Orders", "StreamArn"), "StartingPosition": "TRIM_HORIZON", "MaximumRetryAttempts": 3,
                "MaximumRecordAgeInSeconds": -1, "FunctionResponseTypes": ["ReportBatchItemFailures"],
                "FilterCriteria": {"Filters": [{"Pattern": '{"eventName": ["INSERT"]}'}]}}},
            "C": {"Type": "SNS", "Properties": {"Topic": {"Ref": "News"}, "FilterPolicy": {"kind": ["a"]},
                                                "FilterPolicyScope": "MessageBody"}},
            "D": {"Type": "Kinesis", "Properties": {"Stream": arn("Clicks"), "Enabled": False}},
            "E": {"Type": "DynamoDB", "Properties": {"Stream": "arn:aws:s3:::x", "StartingPosition": "LATEST"}},
            "G": {"Type": "SNS", "Properties": {"Topic": {"Ref": "News"}, "SqsSubscription": True}}}))
        made, said = self.made(whole, "AWS_ENDPOINT_URL")
        self.check("streams", made["F"]["stream"], [
            {"url": ENDPOINT, "kinesis": "Clicks", "position": "LATEST", "batchSize": 7, "window": 5, "bisect": True,
             "partial": False, "onFailure": DEAD},
            {"url": ENDPOINT, "dynamodb": "Orders", "retries": 3, "filters": [{"eventName": ["INSERT"]}]}])
        self.check("a topic", made["F"]["topic"], {"url": ENDPOINT, "name": "News", "filterPolicy": {"kind": ["a"]},
                                                   "filterPolicyScope": "MessageBody"})
        for words in ("its event A: one batch of a shard runs at a time here, not 3",
                      "ignores TumblingWindowInSeconds of its event A", "ignores its event D, which is not enabled",
                      'ignores its event E, DynamoDB: arn:aws:s3:::x is not the ARN of a stream',
                      "ignores its event G, SNS: it comes by a queue (SqsSubscription)"):
            self.check(f"said: {words}", words in said, shown=said)
        made, said = self.made(whole)
        self.check("without an address there are none", sorted({"stream", "topic"} & set(made["F"])), [])
        for words in ('its event A, Kinesis, is not read: set "stream": {"url": "http://HOST:PORT"} in '
                      "lambda_local.json, or AWS_ENDPOINT_URL_KINESIS (docs/services.md)",
                      'its event C, SNS, is not subscribed to: set "topic": {"url": "http://HOST:PORT"} in '
                      "lambda_local.json, or AWS_ENDPOINT_URL_SNS (docs/services.md)"):
            self.check(f"said: {words[:60]}", words in said, shown=said)
        made, _ = self.made(whole, "AWS_ENDPOINT_URL_DYNAMODB")
        self.check("an address of one service", [one["dynamodb"] for one in made["F"]["stream"]], ["Orders"])

    def test_an_address_of_ones_own_is_taken(self):
        whole = template(F=sam(Events={"C": {"Type": "SNS", "Properties": {"Topic": {"Ref": "News"}}}}))
        with folder_of(template_0_json=whole, lambda_local_0_json={"functions": {
                "F": {"topic": {"url": ENDPOINT}}}}) as folder:
            made, _, _ = made_by(os.path.join(folder, "template.json"))
            self.check("as the sentence says", made["F"]["topic"], {"url": ENDPOINT, "name": "News"})

    def test_streams_and_topics_of_CloudFormation_are_taken(self):
        whole = template(
            G=sam(), M={"Type": "AWS::Lambda::EventSourceMapping", "Properties": {
                "FunctionName": {"Ref": "G"}, "EventSourceArn": arn("Orders", "StreamArn"),
                "StartingPosition": "AT_TIMESTAMP", "StartingPositionTimestamp": 5, "MaximumRetryAttempts": -1}},
            N={"Type": "AWS::Lambda::EventSourceMapping", "Properties": {
                "FunctionName": {"Ref": "G"}, "EventSourceArn": "arn:aws:kafka:us-east-1:1:cluster/x"}},
            S={"Type": "AWS::SNS::Subscription", "Properties": {"TopicArn": {"Ref": "News"}, "Protocol": "lambda",
                                                               "Endpoint": arn("G")}},
            T={"Type": "AWS::SNS::Subscription", "Properties": {"TopicArn": {"Ref": "News"}, "Protocol": "sqs",
                                                               "Endpoint": arn("Dead")}},
            U={"Type": "AWS::SNS::Subscription", "Properties": {"TopicArn": {"Ref": "News"}, "Protocol": "lambda",
                                                               "Endpoint": "arn:aws:lambda:us-east-1:1:function:x"}},
            Other={"Type": "AWS::SNS::Topic", "Properties": {"TopicName": "other", "Subscription": [
                {"Protocol": "lambda", "Endpoint": arn("G")}, {"Protocol": "email", "Endpoint": "a@b"}]}})
        made, said = self.made(whole, "AWS_ENDPOINT_URL")
        self.check("a mapping", made["G"]["stream"], {"url": ENDPOINT, "dynamodb": "Orders", "partial": False})
        self.check("subscriptions", made["G"]["topic"], [{"url": ENDPOINT, "name": "News"},
                                                         {"url": ENDPOINT, "name": "other"}])
        for words in ("M of G begins at TRIM_HORIZON here, not at a time",
                      "is not the ARN of an SQS queue, nor of a stream of Kinesis or DynamoDB",
                      "ignores U, AWS::SNS::Subscription: its function is not here"):
            self.check(f"said: {words}", words in said, shown=said)
        self.check("nothing is said of other protocols", "ignores T" in said or "a subscription of Other" in said,
                   False, shown=said)

    @unittest.skipUnless(HAS_YAML, "PyYAML is not here")
    def test_streams_and_topics_of_Serverless_are_taken(self):
        text = ("service: s\nprovider: {name: aws, runtime: python3.12}\nfunctions:\n  f:\n    handler: a.b\n"
                "    events:\n"
                "      - stream: arn:aws:kinesis:us-east-1:123456789012:stream/clicks\n"
                "      - stream: {type: dynamodb, arn: !GetAtt Orders.StreamArn, batchSize: 5,"
                " startingPosition: LATEST,"
                " batchWindow: 2, maximumRetryAttempts: 1, functionResponseType: ReportBatchItemFailures,"
                f" destinations: {{onFailure: '{DEAD}'}}, filterPatterns: [{{}}]}}\n"
                "      - sns: news\n"
                "      - sns: {topicName: other, displayName: x, filterPolicy: {kind: [a]}}\n"
                "      - sns: {arn: 'arn:aws:sns:us-east-1:123456789012:third'}\n"
                "resources: {Resources: {Orders: {Type: 'AWS::DynamoDB::Table', Properties: {TableName: orders}}}}\n")
        made, said = self.made(text, "AWS_ENDPOINT_URL", name="serverless.yml")
        self.check("streams", made["s-dev-f"]["stream"], [
            {"url": ENDPOINT, "kinesis": "clicks", "batchSize": 10, "partial": False},
            {"url": ENDPOINT, "dynamodb": "orders", "position": "LATEST", "batchSize": 5, "window": 2, "retries": 1,
             "onFailure": DEAD}])
        self.check("topics", made["s-dev-f"]["topic"], [
            {"url": ENDPOINT, "name": "news"}, {"url": ENDPOINT, "name": "other", "filterPolicy": {"kind": ["a"]}},
            {"url": ENDPOINT, "name": "third"}])
        self.check("a pattern that is none is said", "ignores FilterCriteria of its event stream, so all records come: "
                   "{} must be an object with at least one member" in said, shown=said)
