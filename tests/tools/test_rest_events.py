"""Checks payload format 1.0: the events of a REST API and of an HTTP API, the results that are answers, and what is
answered if there is none. What is expected is what the API Gateway Developer Guide has on its pages "Set up Lambda
proxy integrations", "Create AWS Lambda proxy integrations for HTTP APIs", "Content type conversions" and "Gateway
response types". The program is LAMBDA_LOCAL_PROGRAM, else ./lambda_local."""
import base64
import contextlib
import json
import re
import urllib.parse
from typing import Tuple

from lambda_local.front import settings
from tests.library.cases import Case
from tests.library.events_kit import READY, caller_of
from tests.library.up_kit import Up, until

# What it returns is in the query; without it, it is the event.
APP = '''import json
def run(event, context):
    given = (event.get("queryStringParameters") or {}).get("gives")
    if given: return json.loads(given)
    if event.get("path") == "/fails": raise KeyError("x")
    return {"statusCode": 200, "body": json.dumps(event)}
'''
# The members that both pages show, and those of one alone.
COMMON = {"resource", "path", "httpMethod", "headers", "multiValueHeaders", "queryStringParameters",
          "multiValueQueryStringParameters", "pathParameters", "stageVariables", "requestContext", "body",
          "isBase64Encoded"}
IDENTITY = {"accessKey", "accountId", "caller", "cognitoAuthenticationProvider", "cognitoAuthenticationType",
            "cognitoIdentityId", "cognitoIdentityPoolId", "principalOrgId", "sourceIp", "user", "userAgent", "userArn"}
OF_CONTEXT = {"accountId", "apiId", "domainName", "domainPrefix", "extendedRequestId", "httpMethod", "identity", "path",
              "protocol", "requestId", "requestTime", "requestTimeEpoch", "resourceId", "resourcePath", "stage"}
BROKEN = (502, b'{"message": "Internal server error"}')


def event_by(caller, method, path, body=None, headers=()):
    """The event of a request whose headers are pairs, of which a name may come twice."""
    caller.connection.putrequest(method, path, skip_accept_encoding=True)
    for name, value in headers:
        caller.connection.putheader(name, value)
    if body is not None:
        caller.connection.putheader("Content-Length", str(len(body)))
    caller.connection.endheaders(body)
    answer = caller.connection.getresponse()
    return json.loads(answer.read())


def giving(caller, result, headers={}):
    return caller.ask("GET", "/orders/7?" + urllib.parse.urlencode({"gives": json.dumps(result)}), None, headers)


class RestEvents(Case):
    @contextlib.contextmanager
    def running(self, routes, api, **members):
        """A caller of a port with these routes of the function `f`."""
        function = {"name": "f", "runtime": "python", "handler": "app.run", "timeout": 10, **members}
        up = Up(*READY, functions=[function], app=APP, whole={"routes": routes, "api": api})
        with caller_of(self, up, lambda: next(
                found[1] for line in up.lines for found in [re.search(r"routes: (\S+)$", line)] if found)) as caller:
            yield up, caller

    def test_a_request_becomes_an_event_of_a_REST_API(self):
        api = {"payload": "1.0", "stage": "Prod", "stageVariables": {"table": "orders"}}
        with self.running({"ANY /orders/{id}": "f", "POST /{proxy+}": "f"}, api) as (_, caller):
            event = event_by(
                caller, "POST", "/hello/world?name=me&multivalueName=you&multivalueName=m%20e&none=",
                b'{"a":"\xc3\xa9"}',
                [("Content-Type", "application/json"), ("header-Name", "one"), ("header-name", "two"),
                 ("User-Agent", "check"), ("Cookie", "k=v"), ("Connection", "keep-alive"),
                 ("X-Forwarded-For", "10.0.0.1")])
            self.check("a REST event has these members, and no version", set(event), COMMON)
            self.check("its resource, path and method", (event["resource"], event["path"], event["httpMethod"]),
                       ("/{proxy+}", "/hello/world", "POST"))
            self.check("its query: the last value of each, and all",
                       (event["queryStringParameters"], event["multiValueQueryStringParameters"]),
                       ({"name": "me", "multivalueName": "m e", "none": ""},
                        {"name": ["me"], "multivalueName": ["you", "m e"], "none": [""]}))
            self.check("its headers' names are in capitals, with the last value of each",
                       [event["headers"].get(name) for name in ("Content-Type", "Header-Name", "header-name", "Cookie",
                                                                "Connection", "X-Forwarded-For", "X-Forwarded-Proto")],
                       ["application/json", "two", None, "k=v", None, "10.0.0.1, 127.0.0.1", "http"])
            self.check("all values of a header", event["multiValueHeaders"]["Header-Name"], ["one", "two"])
            self.check("its port", event["multiValueHeaders"]["X-Forwarded-Port"], [str(caller.connection.port)])
            self.check("its parameters and variables", (event["pathParameters"], event["stageVariables"]),
                       ({"proxy": "hello/world"}, {"table": "orders"}))
            self.check("its body", (event["body"], event["isBase64Encoded"]), ('{"a":"é"}', False))
            context = event["requestContext"]
            self.check("its context", set(context), OF_CONTEXT)
            self.check("the stage in it", (context["stage"], context["path"], context["resourcePath"],
                                           context["httpMethod"]),
                       ("Prod", "/Prod/hello/world", "/{proxy+}", "POST"))
            is_time = re.fullmatch(r"\d\d/[A-Z][a-z]{2}/\d{4}:\d\d:\d\d:\d\d \+0000",
                                   context["requestTime"]) is not None
            self.check("its times", (is_time, type(context["requestTimeEpoch"])), (True, int))
            self.check("its identity", set(context["identity"]), IDENTITY | {"apiKey"})
            known = {name: value for name, value in context["identity"].items() if value is not None}
            self.check("what is known of it", known,
                       {"sourceIp": "127.0.0.1", "userAgent": "check"})
            event = event_by(caller, "GET", "/orders/a%2Fb", None, [("x-api-key", "k")])
            names = ("body", "queryStringParameters", "multiValueQueryStringParameters")
            self.check("a request with nothing", [event[name] for name in names], [None] * 3)
            self.check("its parameter is decoded", (event["pathParameters"], event["resource"]),
                       ({"id": "a/b"}, "/orders/{id}"))
            self.check("its API key", event["requestContext"]["identity"]["apiKey"], "k")
            self.check("no route", caller.ask("GET", "/nowhere")[::2],
                       (403, b'{"message": "Missing Authentication Token"}'))

    def test_an_HTTP_API_with_format_1_has_its_own_members(self):
        """An HTTP API with format 1.0: what its page has otherwise than that of a REST API."""
        with self.running({"GET /orders/{id}": "f", "$default": "f"}, {"payload": "1.0", "type": "HTTP"}) as (_,
                                                                                                              caller):
            event = event_by(caller, "GET", "/orders/7?a=1", None, [("Header1", "a"), ("HEADER1", "b")])
            self.check("an HTTP API's event has a version", (set(event), event["version"]), (COMMON | {"version"},
                                                                                             "1.0"))
            self.check("its headers are in lower case", (event["headers"]["header1"],
                                                         event["multiValueHeaders"]["header1"]),
                       ("b", ["a", "b"]))
            context = event["requestContext"]
            self.check("its context", (set(context), context["authorizer"], context["resourceId"]),
                       (OF_CONTEXT | {"authorizer"}, {"claims": None, "scopes": None}, None))
            self.check("its stage is not in its path", (context["stage"], context["path"]), ("$default", "/orders/7"))
            self.check("its identity", set(context["identity"]), IDENTITY | {"clientCert"})
            event = event_by(caller, "PUT", "/x/y", b"\0\xff", [("Content-Type", "image/png")])
            self.check("the route of all else", (event["resource"], event["pathParameters"]), ("$default", None))
            self.check("a body of bytes is in base64", (event["body"], event["isBase64Encoded"]), ("AP8=", True))
            in_base64 = {"statusCode": 200, "body": "AP8=", "isBase64Encoded": True}
            self.check("a result in base64", giving(caller, in_base64)[2], b"\0\xff")
            self.check("what is no answer", giving(caller, "x")[::2], (502, b'{"message": "Internal Server Error"}'))

    def test_a_result_of_a_REST_API_becomes_an_answer(self):
        with self.running({"ANY /orders/{id}": "f", "GET /fails": "f"}, {"payload": "1.0"}) as (up, caller):
            status, headers, body = giving(caller, {"statusCode": 201, "headers": {"X-A": "b", "X-N": 1}, "body": "x"})
            self.check("status, headers and body", (status, headers["x-a"], headers["x-n"], body),
                       (201, "b", "1", b"x"))
            self.check("by default it is JSON", headers["content-type"], "application/json")
            path = "/orders/7?" + urllib.parse.urlencode({"gives": json.dumps({
                "statusCode": 200, "headers": {"X-One": "1", "X-Both": "same", "X-Other": "1"},
                "multiValueHeaders": {"X-Many": ["1", "2"], "x-both": ["same"], "X-Other": ["2"],
                                      "Set-Cookie": ["a=1", "b=2"]}})})
            caller.connection.request("GET", path)
            answer = caller.connection.getresponse()
            answer.read()
            self.check("both members of headers are one list, in which a pair of both comes once",
                       {name: answer.headers.get_all(name) for name in ("x-one", "x-many", "x-both", "x-other",
                                                                        "set-cookie")},
                       {"x-one": ["1"], "x-many": ["1", "2"], "x-both": ["same"], "x-other": ["1", "2"],
                        "set-cookie": ["a=1", "b=2"]})
            answers: Tuple[object, ...] = (
                "x", None, {}, {"body": "x"}, {"statusCode": "x"}, {"statusCode": 200, "body": {"a": 1}},
                {"statusCode": 200, "cookies": ["a=1"]}, {"statusCode": 200, "multiValueHeaders": {"a": "b"}},
                {"statusCode": 200, "multiValueHeaders": {"a b": ["c"]}}, {"statusCode": 200, "multiValueHeaders": [1]},
                {"statusCode": 200, "multiValueHeaders": {"a": ["b\r\nc: d"]}}, {"statusCode": 200, "headers": 1})
            for number, wrong in enumerate(answers, 1):
                self.check(f"what is no answer: {wrong}", giving(caller, wrong)[::2], BROKEN)
                self.check("a line says why", until(lambda: up.count("its result cannot be mapped") == number, 5))
            self.check("a function that fails", caller.ask("GET", "/fails")[::2], BROKEN)

    def test_a_throttle_is_an_error_of_the_API(self):
        with self.running({"GET /orders/{id}": "f"}, {"payload": "1.0"}, reserved=0) as (up, caller):
            self.check("a throttle is an error of the API's", caller.ask("GET", "/orders/7")[::2],
                       (500, b'{"message": "Internal server error"}'))

    def test_binary_media_types_decide_what_is_bytes(self):
        """A REST API takes those types as bytes that its binary media types name."""
        api = {"payload": "1.0", "binaryMediaTypes": ["image/PNG"]}
        data = bytes(range(256))
        in_base64 = base64.b64encode(data).decode()
        answer = {"statusCode": 200, "body": in_base64, "isBase64Encoded": True}
        with self.running({"ANY /orders/{id}": "f"}, api) as (up, caller):
            for kind in ("image/png", "image/png; x=y"):
                event = event_by(caller, "POST", "/orders/7", data, [("Content-Type", kind)])
                self.check(f"a body of {kind}", (event["body"], event["isBase64Encoded"]), (in_base64, True))
            event = event_by(caller, "POST", "/orders/7", data, [("Content-Type", "image/gif")])
            self.check("a body of another type", (event["body"][:128], event["isBase64Encoded"]),
                       (data[:128].decode(), False))
            self.check("a line says what is lost",
                       until(lambda: up.has("its body is not UTF-8, and image/gif is not in"), 5))
            self.check("a result in base64 for one who would have it", giving(caller, answer,
                                                                              {"Accept": "image/png, */*"})[2],
                       data)
            self.check("and for one who would have another type first",
                       giving(caller, answer, {"Accept": "text/html, image/png"})[2], in_base64.encode())
            self.check("a line says so", until(lambda: up.has("is sent as the base64 that it is"), 5))

    def test_with_all_types_each_body_is_bytes(self):
        data = bytes(range(256))
        answer = {"statusCode": 200, "body": base64.b64encode(data).decode(), "isBase64Encoded": True}
        with self.running({"ANY /orders/{id}": "f"}, {"payload": "1.0", "binaryMediaTypes": ["*/*"]}) as (_, caller):
            event = event_by(caller, "POST", "/orders/7", b"{}")
            self.check("with */* each body is in base64", (event["body"], event["isBase64Encoded"]), ("e30=", True))
            self.check("with */* a result is its bytes", giving(caller, answer)[2], data)

    def test_routes_of_both_kinds_share_a_port(self):
        """Routes of both kinds at one port, and requests of other sites."""
        routes = {"GET /rest/{id}": {"function": "f", "payload": "1.0", "stage": "dev"}, "GET /http/{id}": "f"}
        api = {"cors": {"allowOrigins": ["http://a"]}, "stageVariables": {"a": "b"}}
        with self.running(routes, api) as (_, caller):
            event = json.loads(caller.ask("GET", "/rest/1")[2])
            self.check("a route with format 1.0",
                       (event["httpMethod"], event["requestContext"]["stage"], event["stageVariables"]),
                       ("GET", "dev", {"a": "b"}))
            event = json.loads(caller.ask("GET", "/http/1")[2])
            self.check("one with 2.0 beside it", (event["version"], event["routeKey"], event["stageVariables"]),
                       ("2.0", "GET /http/{id}", {"a": "b"}))
            self.check("no route", caller.ask("GET", "/nowhere")[::2], (404, b'{"message": "Not Found"}'))
            own = urllib.parse.urlencode({"gives": json.dumps(
                {"statusCode": 200, "headers": {"Access-Control-Allow-Origin": "http://own"}})})
            for path, wanted in (("/rest/1", "http://own"), ("/http/1", "http://a")):
                _, headers, _ = caller.ask("GET", f"{path}?{own}", None, {"Origin": "http://a"})
                self.check(f"the header of {path} for another site", headers["access-control-allow-origin"], wanted)
                asked = {"Origin": "http://a", "Access-Control-Request-Method": "GET"}
                status, headers, _ = caller.ask("OPTIONS", path, None, asked)
                self.check("and its preflight", (status, headers["access-control-allow-origin"]), (204, "http://a"))

    def test_mistakes_of_REST_APIs_are_told(self):
        self.check("a route that is a number", settings.AT_THE_TOP["routes"].accepts({"GET /a": 5}), False)
        functions = [{"name": "f"}]
        for routes, api, wanted in (
                ({"GET /a": {"functions": "f"}}, {},
                 'routes: "GET /a": unknown member functions, did you mean function?'),
                ({"GET /a": {}}, {},
                 'routes: "GET /a": there is no function, which must be a string: the name of a function'),
                ({"GET /a": {"function": "g"}}, {}, 'routes: "GET /a": there is no function "g"'),
                ({"GET /a": {"function": 5}}, {},
                 'routes: "GET /a": function must be a string: the name of a function, not 5'),
                ({"GET /a": "f"}, {"payload": "3.0"}, 'api: payload must be "1.0", "2.0" or "alb", not "3.0"'),
                ({"GET /a": "f"}, {"payload": 1.0}, 'api: payload must be "1.0", "2.0" or "alb", not 1.0'),
                ({"GET /a": "f"}, {"type": "rest"}, 'api: type must be "REST" or "HTTP", not "rest"'),
                ({"GET /a": "f"}, {"type": "REST", "payload": "2.0"},
                 'api: the events of a REST API have "payload": "1.0": write that, or "type": "HTTP"'),
                ({"GET /a": {"function": "f", "payload": "2.0"}}, {"type": "REST"},
                 'routes: "GET /a": the events of a REST API have "payload": "1.0": write that, or "type": "HTTP"'),
                ({"GET /a": "f"}, {"payload": "1.0", "stage": "$default"},
                 'api: the stage $default is of an HTTP API: write another one, or "type": "HTTP"'),
                ({"GET /a": "f"}, {"payload": "1.0", "stage": "a/b"},
                 'api: stage must be a string of 1 to 128 letters, digits, - and _, or $default, not "a/b"'),
                ({"GET /a": {"function": "f", "binaryMediaTypes": ["a"]}}, {},
                 'routes: "GET /a": binaryMediaTypes is of a REST API: leave it out, or write "type": "REST"'),
                ({"GET /a": "f"}, {"stageVariables": {"a": 1}},
                 'api: stageVariables must be an object of strings, not {"a": 1}'),
                ({"GET /a": {"function": "f", "type": "HTTP"}, "GET /b": "f"}, {"payload": "1.0"}, None)):
            whole = {"functions": functions, "routes": routes, "api": api}
            self.check(f"a mistake: {routes} {api}", next(settings.mistakes(whole), None), wanted)
