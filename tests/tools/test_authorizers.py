"""Checks authorizers of `api` and of routes: fixed identities, tokens, and functions that authorize, each against each
payload form. What is expected is what the API Gateway Developer Guide has on its pages "Input to an API Gateway Lambda
authorizer", "Output from an API Gateway Lambda authorizer" and "Control access to HTTP APIs with AWS Lambda
authorizers". The program is LAMBDA_LOCAL_PROGRAM, else ./lambda_local."""
import base64
import contextlib
import json
import re
import time
from types import SimpleNamespace
from typing import Any, List

from lambda_local.configuration import Members
from lambda_local.front import authorize as deciders
from lambda_local.front import settings
from lambda_local.front.authorizers import Authorizer
from lambda_local.front.policies import Verdict, WrongPolicy, matches, verdict_of
from lambda_local.front.tokens import WrongToken, as_texts, claims_of, scopes_of
from lambda_local.service import Fault
from lambda_local.up.only import limited
from tests.library.cases import Case
from tests.library.events_kit import READY, caller_of
from tests.library.up_kit import Up

# Each route answers with its event's authorizer; `auth` counts, and answers as its token says.
APP = '''import json
count, last = 0, None
def run(event, context):
    return {"statusCode": 200, "body": json.dumps({"is": event["requestContext"].get("authorizer"),
                                                   "path": event.get("path") or event.get("rawPath")})}
def auth(event, context):
    global count, last
    if event.get("ask"): return [count, last]
    count, last = count + 1, event
    headers = {name.lower(): value for name, value in (event.get("headers") or {}).items()}
    token = event.get("authorizationToken") or headers.get("authorization") or headers.get("token")
    arn = event.get("methodArn") or event.get("routeArn")
    if token == "fail": raise KeyError("x")
    if token == "who": raise Exception("Unauthorized")
    if token == "text": return "no"
    if token == "long": return {"principalId": "x" * 9000}
    effect = "Deny" if token == "deny" else "Allow"
    resource = "arn:aws:execute-api:*:*:local/*/GET/other" if token == "other" else arn
    context = {"number": 7, "yes": True, "text": "t", **({"list": [1]} if token == "list" else {})}
    if event.get("version") == "2.0" and headers.get("simple"):
        return {"isAuthorized": token == "yes", "context": {**context, "deep": {"list": [1]}}}
    return {"principalId": "ada", "context": context, "policyDocument": {"Version": "2012-10-17", "Statement": [
        {"Action": "execute-api:Invoke", "Effect": effect, "Resource": resource}]}}
'''
PYTHON: Members = {"runtime": "python", "timeout": 20, "environments": 1}
FUNCTIONS = [{"name": "f", "handler": "app.run", **PYTHON}, {"name": "auth", "handler": "app.auth", **PYTHON}]
REST: Members = {"payload": "1.0"}
HTTP1: Members = {"payload": "1.0", "type": "HTTP"}
HEADER = ["$request.header.Token"]
BY_FUNCTION: Members = {"function": "auth", "identity": HEADER}
API: Members = {  # further APIs by their names, each with one route or more
    "fixed_rest": {**REST, "authorizer": {"claims": {"sub": "ada"}}, "routes": {
        "GET /in": "f", "GET /out": {"function": "f", "authorizer": None},
        "GET /lambda": {"function": "f", "authorizer": {"lambda": {"principalId": "ada", "tier": 3}}}}},
    "fixed_http": {"authorizer": {"claims": {"sub": "ada"}, "scopes": ["read"]}, "routes": {
        "GET /in": "f", "GET /out": {"function": "f", "authorizer": None},
        "GET /one": {"function": "f", **HTTP1},
        "GET /lambda": {"function": "f", "authorizer": {"lambda": {"tier": 3}}},
        "GET /lambda1": {"function": "f", **HTTP1, "authorizer": {"lambda": {"tier": 3}}}}},
    "jwt": {"authorizer": {"jwt": {"issuer": "https://me", "audience": ["app"]}}, "routes": {
        "GET /in": "f", "GET /read": {"function": "f", "authorizer": {"jwt": {}, "scopes": ["read", "all"]}},
        "GET /rest": {"function": "f", **REST, "authorizer": {"jwt": {}}}}},
    "token": {**REST, "authorizer": {"function": "auth", "type": "TOKEN", "validation": "[a-z]+", "ttl": 2}, "routes": {
        "GET /in": "f", "GET /other": "f", "POST /in": "f"}},
    "request": {**REST, "stage": "Prod", "stageVariables": {"a": "b"}, "authorizer": {
        **BY_FUNCTION, "identity": ["method.request.header.Token", "method.request.querystring.q"], "ttl": 0},
        "routes": {"GET /in/{id}": "f"}},
    "http": {"authorizer": {**BY_FUNCTION, "simple": True}, "routes": {
        "GET /in/{id}": "f", "GET /policy": {"function": "f", "authorizer": {**BY_FUNCTION, "ttl": 60}},
        "GET /one": {"function": "f", "authorizer": {**BY_FUNCTION, "payload": "1.0"}},
        "GET /old": {"function": "f", **HTTP1, "authorizer": {**BY_FUNCTION, "payload": "2.0"}},
        "GET /free": {"function": "f", "authorizer": {"function": "auth"}}}},
}


def token_of(claims, head={"alg": "RS256"}):
    return ".".join(base64.urlsafe_b64encode(json.dumps(part).encode()).decode().rstrip("=")
                    for part in (head, claims)) + ".c2ln"


class Authorizers(Case):
    @contextlib.contextmanager
    def running(self):
        up = Up(*READY, functions=FUNCTIONS, app=APP, whole={"apis": API})
        with caller_of(self, up) as caller:
            ports = {found[1]: found[2] for line in up.lines
                     for found in [re.search(r"routes of (\w+): http://(\S+)$", line)] if found}

            def ask(api, path, method="GET", **headers):
                """The status of a route, and its authorizer as its function sees it, or the body."""
                caller.connection.close()
                caller.connection.host, port = ports[api].split(":")
                caller.connection.port = int(port)
                status, _, body = caller.ask(method, path, None, headers)
                value = json.loads(body)
                return status, value["is"] if status == 200 else value

            def asked():
                """How often `auth` was asked, and its last event."""
                return up.invoke("auth", ask=True)[0]
            yield up, ask, asked

    def test_each_kind_of_authorizer_decides_as_on_AWS(self):
        with self.running() as (up, ask, asked):
            self.fixed(ask)
            self.tokens(up, ask)
            self.by_token(up, ask, asked)
            self.by_request(ask, asked)
            self.of_http_apis(up, ask, asked)

    def fixed(self, ask):
        for name, seen, wanted in (
                ("claims of a REST API", ask("fixed_rest", "/in"), {"claims": {"sub": "ada"}}),
                ("none", ask("fixed_rest", "/out"), None),
                ("what a Lambda authorizer gives", ask("fixed_rest", "/lambda"), {"principalId": "ada", "tier": "3"}),
                ("claims of an HTTP API", ask("fixed_http", "/in"),
                 {"jwt": {"claims": {"sub": "ada"}, "scopes": ["read"]}}),
                ("of none", ask("fixed_http", "/out"), None),
                ("in format 1.0", ask("fixed_http", "/one"), {"claims": {"sub": "ada"}, "scopes": ["read"]}),
                ("of a function", ask("fixed_http", "/lambda"), {"lambda": {"tier": 3}}),
                ("of a function in format 1.0", ask("fixed_http", "/lambda1"), {"tier": 3})):
            self.check(f"fixed: {name}", seen, (200, wanted))

    def tokens(self, up, ask):
        later = time.time() + 600
        good = token_of({"sub": "ada", "iss": "https://me", "aud": "app", "exp": later, "n": 1, "in": ["a", "b"]})
        self.check("a token's claims are texts", ask("jwt", "/in", Authorization=f"Bearer {good}"), (200, {"jwt": {
            "claims": {"sub": "ada", "iss": "https://me", "aud": "app", "exp": json.dumps(later), "n": "1",
                       "in": "[a b]"}, "scopes": None}}))
        for name, given in (
                ("none", {}), ("one of no token", {"Authorization": "Bearer x"}),
                ("another issuer", {"Authorization": token_of({"iss": "x", "aud": "app"})}),
                ("another audience", {"Authorization": token_of({"iss": "https://me", "aud": ["x"]})}),
                ("an old one", {"Authorization": token_of({"iss": "https://me", "aud": "app", "exp": 1})})):
            self.check(f"a token: {name}", ask("jwt", "/in", **given), (401, {"message": "Unauthorized"}))
        self.check("a line says why", up.until("[f] GET /in: 401, its token: it has expired"))
        self.check("its scopes", ask("jwt", "/read", Authorization=token_of({"scope": "write read"})), (200, {"jwt": {
            "claims": {"scope": "write read"}, "scopes": ["write", "read"]}}))
        self.check("none of them", ask("jwt", "/read", Authorization=token_of({"scope": "write"})),
                   (403, {"message": "Forbidden"}))
        self.check("of a REST API", ask("jwt", "/rest", Authorization=token_of({"sub": "ada"})),
                   (200, {"claims": {"sub": "ada"}}))

    def by_token(self, up, ask, asked):
        status, given = ask("token", "/in", Authorization="yes")
        latency = given.pop("integrationLatency", None)
        self.check("TOKEN: the context as texts", (status, given, type(latency)),
                   (200, {"principalId": "ada", "number": "7", "yes": "true", "text": "t"}, int))
        self.check("its event", asked(), [1, {
            "type": "TOKEN", "authorizationToken": "yes",
            "methodArn": "arn:aws:execute-api:us-east-1:123456789012:local/local/GET/in"}])
        self.check("kept by the token, for other methods too", [ask("token", "/in", Authorization="yes")[0],
                                                               ask("token", "/in", "POST", Authorization="yes"),
                                                               asked()[0]],
                   [200, (403, {"Message": "User is not authorized to access this resource"}), 1])
        self.check("another token", [ask("token", "/other", Authorization="other")[0], asked()[0]], [200, 2])
        denied = {"Message": "User is not authorized to access this resource with an explicit deny"}
        for name, headers, wanted in (
                ("none", {}, (401, {"message": "Unauthorized"})),
                ("another form", {"Authorization": "7"}, (401, {"message": "Unauthorized"})),
                ("Unauthorized", {"Authorization": "who"}, (401, {"message": "Unauthorized"})),
                ("a denial", {"Authorization": "deny"}, (403, denied)),
                ("a failure", {"Authorization": "fail"}, (500, {"message": None})),
                ("no policy", {"Authorization": "text"}, (500, {"message": None})),
                ("a list in context", {"Authorization": "list"}, (500, {"message": None})),
                ("a long answer", {"Authorization": "long"}, (500, {"message": None}))):
            self.check(f"TOKEN: {name}", ask("token", "/in", **headers), wanted)
        self.check("lines say why", [up.until(text) for text in (
            "401, it has no header Authorization, by which auth is asked", "its authorizer auth denies it",
            "500, its authorizer auth has failed", "a REST API takes no object and no list in context",
            "500, the answer of its authorizer auth: it is longer than 8,192 bytes")], 5 * [True])
        before = asked()[0]
        time.sleep(2.1)
        ask("token", "/in", Authorization="yes")
        self.check("after its time it is asked again", asked()[0], before + 1)

    def by_request(self, ask, asked):
        before = asked()[0]
        self.check("REQUEST: a part of the identity is missing", ask("request", "/in/7", Token="yes"),
                   (401, {"message": "Unauthorized"}))
        self.check("both", [ask("request", "/in/7?q=1", Token="yes")[0] for _ in range(2)], [200, 200])
        count, event = asked()
        self.check("without a time it is asked each time", count - before, 2)
        self.check("its event", (sorted(event), event["type"], event["methodArn"], event["resource"],
                                 event["pathParameters"], event["stageVariables"], event["headers"]["Token"],
                                 event["queryStringParameters"], event["requestContext"]["path"]), (
            sorted(["type", "methodArn", "resource", "path", "httpMethod", "headers", "multiValueHeaders",
                    "queryStringParameters", "multiValueQueryStringParameters", "pathParameters", "stageVariables",
                    "requestContext"]), "REQUEST", "arn:aws:execute-api:us-east-1:123456789012:local/Prod/GET/in/7",
            "/in/{id}", {"id": "7"}, {"a": "b"}, "yes", {"q": "1"}, "/Prod/in/7"))

    def of_http_apis(self, up, ask, asked):
        context: Members = {"number": 7, "yes": True, "text": "t"}
        self.check("a simple response", ask("http", "/in/7?a=1", Token="yes", Simple="1"),
                   (200, {"lambda": {**context, "deep": {"list": [1]}}}))
        event = asked()[1]
        self.check("its event", (sorted(event), event["version"], event["type"], event["routeArn"],
                                 event["identitySource"], event["routeKey"], event["rawPath"], event["rawQueryString"],
                                 event["requestContext"]["http"]["method"]), (
            sorted(["version", "type", "routeArn", "identitySource", "routeKey", "rawPath", "rawQueryString", "headers",
                    "queryStringParameters", "requestContext", "pathParameters"]), "2.0", "REQUEST",
            "arn:aws:execute-api:us-east-1:123456789012:local/$default/GET/in/7", ["yes"], "GET /in/{id}", "/in/7",
            "a=1", "GET"))
        self.check("denied", ask("http", "/in/7", Token="no", Simple="1"), (403, {"message": "Forbidden"}))
        self.check("a policy in place of it", ask("http", "/in/7", Token="yes"),
                   (500, {"message": "Internal Server Error"}))
        self.check("which is told", up.until('isAuthorized must be true or false: "simple" is true'))
        self.check("without an identity", ask("http", "/in/7"), (401, {"message": "Unauthorized"}))
        before = asked()[0]
        self.check("a policy", [ask("http", "/policy", Token="yes") for _ in range(2)],
                   2 * [(200, {"lambda": context})])
        self.check("is kept", asked()[0] - before, 1)
        self.check("a denial", ask("http", "/policy", Token="deny"), (403, {"message": "Forbidden"}))
        self.check("a failure", ask("http", "/policy", Token="fail"), (500, {"message": "Internal Server Error"}))
        self.check("format 1.0", ask("http", "/one", Token="yes"), (200, {"lambda": context}))
        event = asked()[1]
        self.check("its event", [event.get(name) for name in ("version", "type", "methodArn", "identitySource",
                                                              "authorizationToken", "httpMethod", "resource")],
                   ["1.0", "REQUEST", "arn:aws:execute-api:us-east-1:123456789012:local/$default/GET/one", "yes", "yes",
                    "GET", "/one"])
        self.check("of an event in format 1.0", ask("http", "/old", Token="yes"),
                   (200, {"principalId": "ada", **context}))
        before = asked()[0]
        self.check("without a source each request asks", [ask("http", "/free")[0] for _ in range(2)] + [
            asked()[0] - before], [200, 200, 2])

    def test_patterns_match_as_in_policies(self):
        for pattern, text, wanted in (("*", "", True), ("a*c", "abbc", True), ("a*c", "abcd", False),
                                      ("a?c", "abc", True), ("a?c", "ac", False), ("*a*b*", "xxaxxbxx", True),
                                      ("", "", True), ("", "a", False), ("arn:*/GET/*", "arn:x/GET/y/z", True),
                                      ("*" * 500 + "b", "a" * 5000, False)):
            self.check(f"{pattern[:20]} for {text[:20]}", matches(pattern, text), wanted)

    def test_a_policy_allows_or_denies_as_IAM_does(self):
        arn = "arn:aws:execute-api:r:a:api/s/GET/x"

        def said(*statements):
            try:
                return verdict_of({"Statement": list(statements)}, arn)
            except WrongPolicy as fault:
                return str(fault)
        allow = {"Effect": "Allow", "Action": "execute-api:Invoke", "Resource": arn}
        for name, seen, wanted in (
                ("allowed", said(allow), Verdict.ALLOWED),
                ("a denial counts first", said(allow, {**allow, "Effect": "Deny"}), Verdict.DENIED),
                ("lists, and * for the action", said({**allow, "Action": ["x", "*"], "Resource": ["x", "*"]}),
                 Verdict.ALLOWED),
                ("actions without case", said({**allow, "Action": "EXECUTE-API:invoke"}), Verdict.ALLOWED),
                ("another method", said({**allow, "Resource": arn + "y"}), Verdict.NOT_ALLOWED),
                ("all but another", said({"Effect": "Allow", "NotAction": "x", "NotResource": "y"}), Verdict.ALLOWED),
                ("a condition does not allow", said({**allow, "Condition": {}}), Verdict.NOT_ALLOWED),
                ("and denies", said(allow, {**allow, "Effect": "Deny", "Condition": {}}), Verdict.DENIED),
                ("no statement", said(), "a policy has 1 to 1000 statements"),
                ("no effect", said({}), "policyDocument must have a Statement, each with the Effect Allow or Deny"),
                ("no action", said({"Effect": "Allow", "Resource": arn}), "a statement must have Action"),
                ("a number", said({**allow, "Resource": 1}),
                 "Resource of a statement must be a string, or a list of strings")):
            self.check(f"a policy: {name}", seen, wanted)

    def test_patterns_of_anyone_take_no_time(self):
        """A policy of 8 KiB about a path of 60 KB: a function that authorizes holds up nobody."""
        arn = "arn:aws:execute-api:r:a:api/s/GET/" + "a" * 60_000
        for pattern, count in (("*" + "a" * 20 + "b", 250), ("*" + "a" * 20 + "b*", 250), ("*" + "a" * 20 + "?b*", 250),
                               ("*a" * 2000 + "b", 2), ("*" + "a" * 4000 + "?b*", 2)):
            begun = time.process_time()
            statement = {"Effect": "Allow", "Action": "*", "Resource": [pattern] * count}
            verdict = verdict_of({"Statement": [statement]}, arn)
            self.check(f"{pattern[:30]}: it allows nothing", verdict, Verdict.NOT_ALLOWED)
            took = time.process_time() - begun
            self.check("and takes no time", took < 5, shown=f"({took:.2f} s)")

    def test_what_is_kept_of_answers_is_bounded(self):
        """What is kept of answers."""
        clock: Any = SimpleNamespace(now=lambda: 0)
        kept = deciders.Authorizers(None, clock)  # type: ignore[arg-type]
        for number in range(deciders.MOST_KEPT + 2):
            kept.keep(("x", (str(number),)), Authorizer("function", ttl=60), {"n": number})
        self.check("so many, without the oldest", (len(kept.kept), [("x", (text,)) in kept.kept for text in "12"]),
                   (deciders.MOST_KEPT, [False, True]))
        kept.keep(("x", ("2",)), Authorizer("function", ttl=60), {"n": "again"})
        kept.keep(("x", ("new",)), Authorizer("function", ttl=60), {})
        self.check("one that comes again is the newest", (kept.kept[("x", ("2",))].result, ("x", ("3",)) in kept.kept),
                   ({"n": "again"}, False))
        kept.keep(("x", ("none",)), Authorizer("function", ttl=0), {})
        self.check("without a time nothing", ("x", ("none",)) in kept.kept, False)

    def test_a_token_is_checked_by_issuer_audience_scopes_and_times(self):
        def said(token, wanted={}):
            try:
                return claims_of(token, wanted, 1000)
            except WrongToken as fault:
                return str(fault)
        for name, token, wanted in (
                ("no parts", "a.b", "it is not three parts of Base64 with dots between them"),
                ("other letters", "a.b.c d", "it is not three parts of Base64 with dots between them"),
                ("a long one", "a." + "b" * 20_000 + ".c", "it is not three parts of Base64 with dots between them"),
                ("no JSON", "e30.YQ.c2ln", "its payload is not JSON in Base64"),
                ("a list", "W10.e30.c2ln", "its header is not an object"),
                ("NaN", "e30.eyJleHAiOk5hTn0.c2ln",
                 "its payload is not JSON in Base64"),
                ("its end", token_of({"exp": 1000}), "it has expired"),
                ("a moment later", token_of({"exp": 1001}), {"exp": 1001}),
                ("its begin", token_of({"nbf": 1001}), "it does not count yet"),
                ("a text", token_of({"exp": "2000"}), "its exp is not a number")):
            self.check(f"a token: {name}", said(token), wanted)
        self.check("a client's identifier is an audience", said(token_of({"client_id": "a"}), {"audience": ["a"]}),
                   {"client_id": "a"})
        several: List[Members] = [{}, {"scope": "a b"}, {"scp": ["a"]}, {"scope": 1}]
        self.check("scopes", [scopes_of(claims) for claims in several], [[], ["a", "b"], ["a"], []])
        self.check("texts", as_texts({"a": [1, "b"], "b": True, "c": {"d": 1}, "e": None}),
                   {"a": "[1 b]", "b": "true", "c": '{"d": 1}', "e": "null"})

    def test_functions_alone_come_with_their_authorizers(self):
        """Functions alone with what leads to them: an authorizer is not left out in silence."""
        by = {"authorizer": {"function": "auth"}}
        free = {"function": "f", "authorizer": None}
        whole = {"functions": [{"name": name} for name in ("f", "g", "auth")], "api": by,
                 "routes": {"GET /f": free, "GET /g": "g"},
                 "apis": {"more": {"routes": {"GET /f": "f", "GET /g": "g"}}}}
        made = limited(whole, ["f"], "up.json")
        self.check("routes of both", (made["routes"], made["apis"]), (
            {"GET /f": free}, {"more": {"routes": {"GET /f": "f"}}}))
        try:
            self.check("one whose authorizer is not there", limited(whole, ["g"], "up.json"), "refused")
        except Fault as fault:
            self.check("one whose authorizer is not there", str(fault),
                       "--only g: the authorizer of GET /g is auth: name it too")
        self.check("both", list(limited(whole, ["g", "auth"], "up.json")["routes"]), ["GET /g"])

    def test_mistakes_of_authorizers_are_told(self):
        def said(authorizer, **api):
            whole = {"functions": [{"name": "f"}, {"name": "auth"}], "routes": {"GET /": "f"},
                     "api": {"authorizer": authorizer, **api}}
            return next(settings.mistakes(whole), None)
        api: Any
        for name, authorizer, api, wanted in (
                ("nothing", {}, {}, 'it has none of them: write one of "claims", "lambda", "jwt" and "function"'),
                ("two", {"claims": {}, "jwt": {}}, {},
                 'it has claims and jwt: write one of "claims", "lambda", "jwt" and "function"'),
                ("another member", {"claim": {}}, {}, "unknown member claim, did you mean claims?"),
                ("a function that is not here", {"function": "x"}, {}, 'there is no function "x"'),
                ("scopes", {"lambda": {}, "scopes": []}, {},
                 "scopes goes with claims or jwt, and not with lambda: leave it out"),
                ("TOKEN", {"function": "auth", "type": "TOKEN"}, {},
                 'type: TOKEN is of a REST API: an HTTP API has "REQUEST" alone'),
                ("simple", {"function": "auth", "simple": True}, REST,
                 "a REST API asks in format 1.0 and is answered with a policy: leave payload and simple out"),
                ("simple in 1.0", {"function": "auth", "simple": True, "payload": "1.0"}, {},
                 'simple: a simple response goes with "payload": "2.0"'),
                ("two headers", {"function": "auth", "type": "TOKEN", "identity": 2 * HEADER}, REST,
                 'identity: TOKEN has one header, such as ["$request.header.Authorization"]'),
                ("a source", {"function": "auth", "identity": ["Token"]}, {},
                 'identity must be a list of sources, such as "$request.header.Authorization" or '
                 '"$request.querystring.token", not ["Token"]'),
                ("a validation", {"function": "auth", "validation": "x"}, REST,
                 'validation goes with "type": "TOKEN": leave it out'),
                ("an expression", {"function": "auth", "validation": "("}, REST,
                 'validation must be a string: a regular expression, not "("'),
                ("a time", {"function": "auth", "ttl": 3601}, {},
                 "ttl must be a whole number of seconds, from 0 to 3600, not 3601"),
                ("a time without an identity", {"function": "auth", "ttl": 3}, {},
                 'ttl: an answer is kept by its "identity": write that, or leave ttl out'),
                ("of a token", {"jwt": {"audience": "x"}}, {},
                 'jwt: audience must be a list of strings, not "x"')):
            self.check(f"a mistake: {name}", said(authorizer, **api), f"api: authorizer: {wanted}")
        self.check("no object", said(7),
                   'api: authorizer must be an object with "claims", "lambda", "jwt" or "function", or null, not 7')
        self.check("none", said(None), None)
        whole = {"functions": [{"name": "f"}], "api": {"authorizer": {"function": "f", "type": "TOKEN"}, **REST},
                 "routes": {"GET /": {"function": "f", "type": "HTTP", "payload": "2.0"}}}
        self.check("of a route that is of another kind", list(settings.mistakes(whole)), [
            'routes: "GET /": authorizer: type: TOKEN is of a REST API: an HTTP API has "REQUEST" alone'])
