"""Checks the payload form of an Application Load Balancer: its events, the results that are answers, and the rules of
templates. What is expected is what the User Guide for Application Load Balancers has on its page "Use Lambda functions
as targets". The program is LAMBDA_LOCAL_PROGRAM, else ./lambda_local."""
import contextlib
import json
import re
import urllib.parse
from typing import Any

from lambda_local.front import settings
from tests.library.cases import Case
from tests.library.events_kit import READY, caller_of
from tests.library.template_kit import up_and_said
from tests.library.up_kit import Up

APP = '''import json, urllib.parse
def run(event, context):
    query = event.get("queryStringParameters") or {}
    given = query.get("gives") or event.get("multiValueQueryStringParameters", {}).get("gives", [None])[-1]
    if given == "long": return {"statusCode": 200, "body": "x" * (1 << 20)}
    if given: return json.loads(urllib.parse.unquote_plus(given))
    if event["path"] == "/fails": raise KeyError("x")
    return {"statusCode": 200, "headers": {"a": "b"}, "multiValueHeaders": {"a": ["b", "c"]}, "body": json.dumps(event)}
'''


class AlbEvents(Case):
    @contextlib.contextmanager
    def running(self, **api):
        function = {"name": "f", "runtime": "python", "handler": "app.run", "timeout": 20}
        up = Up(*READY, functions=[function], app=APP, whole={
            "routes": {"ANY /in/{proxy+}": "f", "GET /fails": "f"}, "api": {"payload": "alb", **api}})
        with caller_of(self, up, lambda: up.told(r"routes: (\S+)")) as caller:
            yield up, caller

    def test_a_request_becomes_an_event_of_a_load_balancer(self):
        with self.running() as (up, caller):
            _, headers, body = caller.ask("POST", "/in/a%20b?q=1&q=a%2Bb&none", b'{"a":"\xc3\xa9"}', {
                "Content-Type": "application/json", "X-Two": "1", "Cookie": "k=v"})
            event = json.loads(body)
            self.check("its members", sorted(event), sorted([
                "requestContext", "httpMethod", "path", "queryStringParameters", "headers", "body", "isBase64Encoded"]))
            self.check("its context", list(event["requestContext"]), ["elb"])
            self.check("its target group", re.fullmatch(
                r"arn:aws:elasticloadbalancing:us-east-1:123456789012:targetgroup/local/[0-9a-f]{16}",
                event["requestContext"]["elb"]["targetGroupArn"]) is not None)
            self.check("method, path and query, as they come", (
                event["httpMethod"], event["path"], event["queryStringParameters"]), (
                "POST", "/in/a%20b", {"q": "a%2Bb", "none": ""}))
            self.check("headers in lower case", [event["headers"].get(name) for name in (
                "x-two", "cookie", "x-forwarded-for", "x-forwarded-proto", "x-forwarded-port")], [
                "1", "k=v", "127.0.0.1", "http", str(caller.connection.port)])
            self.check("its body", (event["body"], event["isBase64Encoded"]), ('{"a":"é"}', False))
            self.check("its answer", (headers["a"], headers["content-type"]), ("b", "application/octet-stream"))
            event = json.loads(caller.ask("POST", "/in/x", b"\xff", {"Content-Type": "image/png"})[2])
            self.check("another body", (event["body"], event["isBase64Encoded"]), ("/w==", True))
            event = json.loads(caller.ask("POST", "/in/x", b"a", {"Content-Type": "text/plain",
                                                                  "Content-Encoding": "gzip"})[2])
            self.check("an encoded one", (event["body"], event["isBase64Encoded"]), ("YQ==", True))
            event = json.loads(caller.ask("GET", "/in/x")[2])
            self.check("none", (event["body"], event["isBase64Encoded"]), ("", False))
            self.check("what does not count is told", up.until("its result has multiValueHeaders, which does not"))
            self.answers(up, caller)

    def answers(self, up, caller):
        def giving(value):
            path = "/in/x?gives=" + urllib.parse.quote(value if isinstance(value, str) else json.dumps(value))
            caller.connection.request("GET", path)
            answer = caller.connection.getresponse()
            return answer.status, answer.reason, answer.read()
        self.check("status and its own words", giving({"statusCode": 404, "statusDescription": "404 Not There",
                                                       "body": "no"}), (404, "Not Found", b"no"))
        self.check("in Base64", giving({"statusCode": 200, "isBase64Encoded": True, "body": "YQ=="})[2], b"a")
        self.check("words that are none", giving({"statusCode": 200, "statusDescription": "200 a\r\nb: c"})[:2],
                   (200, "OK"))
        for name, value in (("no status", {"body": "x"}), ("a text", json.dumps("x")), ("a long one", "long")):
            status, _, body = giving(value)
            self.check(f"502: {name}", (status, b"<h1>502 Bad Gateway</h1>" in body), (502, True))
        self.check("a failure", caller.ask("GET", "/fails")[0], 502)
        self.check("no rule", caller.ask("GET", "/other")[0], 404)
        self.check("a long body", caller.ask("POST", "/in/x", b"x" * ((1 << 20) + 1))[0], 413)
        self.check("which is told", up.until("413, its body has more than 1048576 bytes"))

    def test_several_values_of_headers_and_queries_are_lists(self):
        with self.running(multiValueHeaders=True) as (_, caller):
            caller.connection.putrequest("GET", "/in/x?q=1&q=2", skip_accept_encoding=True)
            caller.connection.putheader("X-A", "1")
            caller.connection.putheader("x-a", "2")
            caller.connection.endheaders()
            answer = caller.connection.getresponse()
            event = json.loads(answer.read())
            self.check("lists", (event["multiValueQueryStringParameters"], event["multiValueHeaders"]["x-a"],
                                 "headers" in event, "queryStringParameters" in event),
                       ({"q": ["1", "2"]}, ["1", "2"], False, False))
            self.check("its answer", [value for name, value in answer.getheaders() if name == "a"], ["b", "c"])

    def test_mistakes_of_load_balancers_are_told(self):
        def said(**api):
            return next(settings.mistakes({"functions": [{"name": "f"}], "routes": {"GET /": "f"}, "api": api}), None)
        api: Any
        for api, wanted in (
                ({"payload": "alb", "stage": "x"}, 'stage is of an API, and not of "payload": "alb": leave it out'),
                ({"payload": "alb", "authorizer": {"claims": {}}},
                 'authorizer is of an API, and not of "payload": "alb": leave it out'),
                ({"multiValueHeaders": True}, 'multiValueHeaders is of "payload": "alb": leave it out'),
                ({"payload": "3.0"}, 'payload must be "1.0", "2.0" or "alb", not "3.0"')):
            self.check(f"a mistake: {api}", said(**api), f"api: {wanted}")
        self.check("none", said(payload="alb", multiValueHeaders=True), None)

    def test_rules_of_a_template_lead_to_functions(self):
        def of_type(kind, **properties):
            return {"Type": f"AWS::{kind}", "Properties": properties}

        def rule(*conditions, group="G"):
            return of_type("ElasticLoadBalancingV2::ListenerRule", ListenerArn={"Ref": "L"}, Priority=1, Actions=[
                {"Type": "forward", "TargetGroupArn": {"Ref": group}}], Conditions=list(conditions))
        made, said = up_and_said({"Resources": {
            "F": of_type("Lambda::Function", Runtime="provided", Handler="x"),
            "G": of_type("ElasticLoadBalancingV2::TargetGroup", TargetType="lambda", TargetGroupAttributes=[
                {"Key": "lambda.multi_value_headers.enabled", "Value": "true"}],
                Targets=[{"Id": {"Fn::GetAtt": ["F", "Arn"]}}]),
            "L": of_type("ElasticLoadBalancingV2::Listener", Port=80, DefaultActions=[
                {"Type": "fixed-response"}]),
            "R1": rule({"Field": "path-pattern", "PathPatternConfig": {"Values": ["/api/*", "/one"]}},
                       {"Field": "http-request-method", "HttpRequestMethodConfig": {"Values": ["GET"]}}),
            "R2": rule({"Field": "path-pattern", "Values": ["/a*b"]}), "R3": rule({"Field": "host-header"})}})
        self.check("of CloudFormation", (made["routes"], made["api"]), (
            {"GET /api/{proxy+}": "F", "GET /one": "F", "$default": "F"},
            {"payload": "alb", "multiValueHeaders": True}))
        for words in ("ignores R2 of F, /a*b: a path has a * at its end alone, behind a /",
                      "ignores the condition host-header of R3, whose rule takes all requests here"):
            self.check(words, words in said.replace('"', ""))

    def test_rules_of_Serverless_lead_to_functions(self):
        made, said = up_and_said({"service": "s", "provider": {"runtime": "provided"}, "functions": {
            "f": {"handler": "x", "events": [
                {"alb": {"listenerArn": "x", "priority": 1, "conditions": {
                    "path": "/hello/*", "method": ["GET", "POST"]}}},
                {"alb": {"listenerArn": "x", "priority": 2, "conditions": {"path": ["/b"], "host": "h"}}}]}}})
        self.check("of Serverless", (made["routes"], made["api"]), (
            {f"{method} /{path}": "s-dev-f" for method, path in (
                ("GET", "hello/{proxy+}"), ("POST", "hello/{proxy+}"), ("ANY", "b"))}, {"payload": "alb"}))
        self.check("no resource is left out", "ElasticLoadBalancing" in said, False)
        self.check("a host", "ignores host of conditions of its event alb" in said)
