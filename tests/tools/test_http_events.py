"""Checks Function URLs and HTTP routes: the events that requests become, the answers that results become, cross-origin
requests, limits and malformed requests. Needs curl, and Chromium for one of them. The program is LAMBDA_LOCAL_PROGRAM,
else ./lambda_local."""
import base64
import contextlib
import json
import os
import re
import shutil
import socket
import subprocess
import tempfile
import time
import urllib.parse
from typing import Tuple

from lambda_local.configuration import Members
from tests import ROOT
from tests.library.cases import Case
from tests.library.events_kit import READY, READY_SECONDS, Caller, caller_of
from tests.library.up_kit import Up, until

# What it returns is in the query; without a query it is the event.
APP = '''import json
def run(event, context):
    if "queryStringParameters" in event and "gives" in event["queryStringParameters"]:
        return json.loads(event["queryStringParameters"]["gives"])
    if event["rawPath"] == "/fails": raise KeyError("x")
    if event["rawPath"] == "/echo":
        return {"statusCode": 200, "headers": {"content-type": "application/octet-stream"},
                "body": event["body"], "isBase64Encoded": event["isBase64Encoded"]}
    return event
'''
BINARY = bytes(range(256)) * 40
CORS = {"allowOrigins": ["http://shop.example"], "allowMethods": ["GET", "POST"], "allowHeaders": ["x-one"],
        "exposeHeaders": ["x-two"], "allowCredentials": True, "maxAge": 60}


def address(up, pattern):
    return next(found[1] for line in up.lines for found in [re.search(pattern, line)] if found)


def giving(caller, result, method="GET"):
    return caller.ask(method, "/?" + urllib.parse.urlencode({"gives": json.dumps(result)}))


OF_API = {"CorsConfiguration": {
    "AllowOrigins": ["https://shop.example"], "AllowMethods": ["GET", "POST"],
    "AllowHeaders": ["x-one", "content-type"], "ExposeHeaders": ["x-two"], "AllowCredentials": True, "MaxAge": 60}}
TEMPLATE = {"Globals": {"HttpApi": OF_API}, "Resources": {
    "f": {"Type": "AWS::Serverless::Function", "Properties": {
        "CodeUri": ".", "Handler": "app.run", "Runtime": "python3.12",
        "Events": {"Get": {"Type": "HttpApi", "Properties": {"Path": "/orders", "Method": "GET"}}}}},
    "Url": {"Type": "AWS::Lambda::Url", "Properties": {
        "TargetFunctionArn": {"Fn::GetAtt": ["f", "Arn"]}, "AuthType": "NONE",
        "Cors": {"AllowOrigins": ["*"], "AllowMethods": ["*"]}}}}}


def cors_in(headers):
    return {name[len("access-control-"):]: value for name, value in headers.items()
            if name.startswith("access-control-")}


PAGE = '''def run(event, context):
    url = event.get("queryStringParameters", {}).get("to")
    return {"statusCode": 200, "headers": {"content-type": "text/html"}, "body": """<p id=x>waits</p><script>
fetch("%s/there", {method: "POST", headers: {"content-type": "application/json", "x-one": "1"}, body: "{}"})
 .then(answer => answer.json()).then(event => "got " + event.rawPath, fault => fault)
 .then(text => { document.getElementById("x").textContent = text })
</script>""" % url}
'''


def raw(url, data):
    """All that is answered to these bytes until the connection ends."""
    parts = urllib.parse.urlsplit(url)
    with socket.create_connection((parts.hostname, parts.port), timeout=40) as peer:
        peer.sendall(data)
        found = b""
        while part := peer.recv(65536):
            found += part
    return found


class HttpEvents(Case):
    @contextlib.contextmanager
    def running(self, url=True, **whole):
        up = Up(*READY, functions=[{"name": "f", "runtime": "python", "handler": "app.run", "environments": 2,
                                    "url": url,
                                    "timeout": 10},
                           {"name": "g", "runtime": "python", "handler": "app.run"}], app=APP, whole=whole)
        with caller_of(self, up, lambda: address(up, r"its URL is (\S+)/$")) as caller:
            yield up, caller

    def test_a_request_becomes_an_event(self):
        with self.running() as (_, caller):
            status, headers, body = caller.ask(
                "POST", "/a%20b/c?one=1&one=2&two=x%20y&none=", b'{"a":"\xc3\xa9"}',
                {"Content-Type": "application/json", "Cookie": "k=v; l=w", "X-Thing": "t", "User-Agent": "check"})
            event = json.loads(body)
            self.check("an event is answered as JSON", (status, headers["content-type"]), (200, "application/json"))
            self.check("its version and route", (event["version"], event["routeKey"]), ("2.0", "$default"))
            self.check("its path and query", (event["rawPath"], event["rawQueryString"],
                                              event["queryStringParameters"]),
                       ("/a%20b/c", "one=1&one=2&two=x%20y&none=", {"one": "1,2", "two": "x y", "none": ""}))
            self.check("its cookies", (event["cookies"], "cookie" in event["headers"]), (["k=v", "l=w"], False))
            self.check("its headers", (event["headers"]["x-thing"], event["headers"]["content-type"]),
                       ("t", "application/json"))
            self.check("its body", (event["body"], event["isBase64Encoded"]), ('{"a":"é"}', False))
            context = event["requestContext"]
            self.check("its request", context["http"],
                       {"method": "POST", "path": "/a%20b/c", "protocol": "HTTP/1.1", "sourceIp": "127.0.0.1",
                                                        "userAgent": "check"})
            self.check("its context", sorted(context),
                       ["accountId", "apiId", "domainName", "domainPrefix", "http", "requestId", "routeKey", "stage",
                                                        "time", "timeEpoch"])
            is_time = re.fullmatch(r"\d\d/[A-Z][a-z]{2}/\d{4}:\d\d:\d\d:\d\d \+0000", context["time"]) is not None
            self.check("its times", (is_time, isinstance(context["timeEpoch"], int)), (True, True))
            event = json.loads(caller.ask("GET", "/")[2])
            self.check("a request with nothing",
                       [name in event for name in ("body", "cookies", "queryStringParameters", "pathParameters")],
                       [False] * 4)
            self.check("and an empty query", event["rawQueryString"], "")
            for kind, is_text in (("text/plain; charset=utf-8", True), ("application/problem+json", True),
                                  ("image/png", False), ("application/x-www-form-urlencoded", False)):
                event = json.loads(caller.ask("POST", "/", b"a=b", {"Content-Type": kind})[2])
                self.check(f"a body of {kind}", (event["isBase64Encoded"], event["body"]),
                           (not is_text, "a=b" if is_text else "YT1i"))

    def test_a_result_becomes_an_answer(self):
        with self.running() as (up, caller):
            for result, wanted in (("hello", '"hello"'), ({"a": 1}, '{"a": 1}'), (None, "null"), ([1], "[1]"),
                                   (7, "7")):
                status, headers, body = giving(caller, result)
                self.check(f"a plain value: {result!r}", (status, headers["content-type"], json.loads(body)),
                           (200, "application/json", json.loads(wanted)))
            given = {"statusCode": 201, "headers": {"X-A": "b", "X-N": 1, "Content-Type": "text/html"}, "body": "<p>"}
            status, headers, body = giving(caller, given)
            self.check("status, headers and body", (status, headers["x-a"], headers["x-n"], headers["content-type"],
                                                    body),
                       (201, "b", "1", "text/html", b"<p>"))
            in_base64 = base64.b64encode(BINARY[:300]).decode()
            self.check("a body in base64", giving(caller, {"statusCode": 200, "body": in_base64,
                                                           "isBase64Encoded": True})[2],
                       BINARY[:300])
            self.check("no body", giving(caller, {"statusCode": 204})[::2], (204, b""))
            self.check("a redirect", giving(caller, {"statusCode": 302, "headers": {"location": "/x"}})[1]["location"],
                       "/x")
            cookies = json.dumps({"statusCode": 200, "cookies": ["a=1; Path=/", "b=2"]})
            caller.connection.request("GET", "/?" + urllib.parse.urlencode({"gives": cookies}))
            answer = caller.connection.getresponse()
            answer.read()
            self.check("cookies", answer.headers.get_all("set-cookie"), ["a=1; Path=/", "b=2"])
            self.check("a HEAD has no body", giving(caller, {"statusCode": 200, "body": "x"}, "HEAD")[::2], (200, b""))
            for number, wrong in enumerate((
                    {"statusCode": "x"}, {"statusCode": 99}, {"statusCode": 200, "body": {"a": 1}},
                    {"statusCode": 200, "headers": 1},
                    {"statusCode": 200, "headers": {"a b": "c"}}, {"statusCode": 200, "headers": {"a": "b\r\nc: d"}},
                    {"statusCode": 200, "cookies": "a"}, {"statusCode": 200, "body": "!", "isBase64Encoded": True}), 1):
                self.check(f"what is no answer: {wrong}", giving(caller, wrong)[::2], (502, b"Internal Server Error"))
                self.check("a line says why", until(lambda: up.count("its result cannot be mapped") == number, 5))
            self.check("a function that fails", caller.ask("GET", "/fails")[::2], (502, b"Internal Server Error"))

    def test_curl_sends_and_gets_bytes_up_to_the_limits(self):
        with self.running() as (up, caller):
            url = address(up, r"its URL is (\S+)/$")
            path = os.path.join(up.at, "binary")
            with open(path, "wb") as file:
                file.write(BINARY)
            done = subprocess.run(["curl", "-sS", "--data-binary", f"@{path}", "-H", "Content-Type: image/png",
                                   url + "/echo"],
                                  capture_output=True)
            self.check("curl: binary in both directions", done.stdout, BINARY)
            with open(path, "wb") as file:
                file.write(BINARY * 300)
            done = subprocess.run(["curl", "-sS", "-T", path, "-H", "Expect: 100-continue", "-H",
                                   "Transfer-Encoding: chunked", url + "/echo"],
                                  capture_output=True)
            self.check("curl: 3 MB in chunks, of which it asks first", done.stdout == BINARY * 300)
            self.check("6 MiB of text",
                       caller.ask("POST", "/echo", b"x" * ((6 << 20) - 2000),
                                  {"Content-Type": "text/plain"})[0] in (200, 502))
            self.check("one byte more than a body may have", caller.ask("POST", "/", b"x" * ((6 << 20) + 1))[0], 413)
            self.check("an event that becomes too large", caller.ask("POST", "/", b"\0" * (5 << 20))[0], 413)
            self.check("the port is still there", caller.ask("GET", "/")[0], 200)

    def test_cross_origin_requests_are_answered_as_configured(self):
        with self.running(url={"cors": CORS}) as (_, caller):
            asked = {"Origin": "http://shop.example", "Access-Control-Request-Method": "POST",
                     "Access-Control-Request-Headers": "x-one"}
            status, headers, body = caller.ask("OPTIONS", "/", None, asked)
            of_cors = {name: value for name, value in headers.items() if name.startswith("access")}
            self.check("a preflight", (status, body, of_cors), (200, b"", {
                "access-control-allow-origin": "http://shop.example", "access-control-allow-methods": "GET,POST",
                "access-control-allow-headers": "x-one", "access-control-allow-credentials": "true",
                "access-control-max-age": "60", "access-control-expose-headers": "x-two"}))
            _, headers, _ = caller.ask("OPTIONS", "/", None, {**asked, "Origin": "http://other.example"})
            self.check("one of another site", [name for name in headers if name.startswith("access")], [])
            for origin, wanted in (("http://shop.example", "http://shop.example"), ("http://other.example", None)):
                headers = caller.ask("GET", "/", None, {"Origin": origin})[1]
                self.check(f"an answer for {origin}", (headers.get("access-control-allow-origin"), headers["vary"]),
                           (wanted, "Origin"))

    def test_without_a_configuration_the_function_answers_preflights(self):
        with self.running() as (_, caller):
            event = json.loads(
                caller.ask("OPTIONS", "/", None, {"Origin": "http://a", "Access-Control-Request-Method": "GET"})[2])
            self.check("without a configuration the function answers", event["requestContext"]["http"]["method"],
                       "OPTIONS")

    def test_a_template_says_what_browsers_are_answered(self):
        """What a template says of cross-origin requests is what browsers are answered (API Gateway Developer Guide,
        "Configure CORS for HTTP APIs"; Lambda Developer Guide, "Cross-origin resource sharing")."""
        with tempfile.TemporaryDirectory() as folder:
            template, output = (os.path.join(folder, name) for name in ("template.json", "up.json"))
            with open(template, "w") as file:
                json.dump(TEMPLATE, file)
            subprocess.run([os.path.join(ROOT, "lambda_local"), "from_template", template, "-o", output],
                           stderr=subprocess.DEVNULL, check=True)
            with open(output) as file:
                made = json.load(file)
        up = Up(*READY, functions=[{**function, "runtime": "python"} for function in made.pop("functions")], app=APP,
                whole=made)
        up.until("[up] ready", READY_SECONDS)
        simple = {"allow-origin": "https://shop.example", "allow-credentials": "true", "expose-headers": "x-two"}
        with Caller(address(up, r"routes: (\S+)$")) as caller:
            asked = {"Origin": "https://shop.example", "Access-Control-Request-Method": "POST",
                     "Access-Control-Request-Headers": "x-one"}
            status, headers, body = caller.ask("OPTIONS", "/orders", None, asked)
            self.check("an API's preflight", (status, body, cors_in(headers)), (204, b"", {
                **simple, "allow-methods": "GET,POST", "allow-headers": "x-one,content-type", "max-age": "60"}))
            status, headers, _ = caller.ask("OPTIONS", "/nowhere", None, asked)
            self.check("one for what no route takes", (status, headers.get("access-control-allow-origin")),
                       (204, "https://shop.example"))
            status, headers, _ = caller.ask("OPTIONS", "/orders", None, {**asked, "Origin": "https://other.example"})
            self.check("one of another site", (status, cors_in(headers)), (204, {}))
            own = json.dumps(
                {"statusCode": 200, "headers": {"Access-Control-Allow-Origin": "*", "x-two": "2"}, "body": "x"})
            path = "/orders?" + urllib.parse.urlencode({"gives": own})
            for origin, wanted in (("https://shop.example", simple), ("https://other.example", {}), (None, {})):
                _, headers, body = caller.ask("GET", path, None, {"Origin": origin} if origin else {})
                self.check(f"an API's answer for {origin}: the function's own headers do not count",
                           (cors_in(headers), headers["x-two"], body), (wanted, "2", b"x"))
            self.check("an OPTIONS that is no preflight has no route", caller.ask("OPTIONS", "/orders", None, {})[0],
                       404)
        with Caller(address(up, r"its URL is (\S+)/$")) as caller:
            asked = {"Origin": "http://any", "Access-Control-Request-Method": "PUT"}
            status, headers, _ = caller.ask("OPTIONS", "/", None, asked)
            self.check("a URL's preflight", (status, cors_in(headers)),
                       (200, {"allow-origin": "*", "allow-methods": "PUT"}))
            self.check("a URL's answer", cors_in(caller.ask("GET", "/", None, {"Origin": "http://any"})[1]),
                       {"allow-origin": "*"})
        self.check("it ends in order, and leaves nothing", up.end(), (0, []))

    def test_a_page_in_Chromium_reads_a_URL_that_answers_its_preflight(self):
        """A page of one Function URL reads another one, which answers its preflight."""
        browser = shutil.which("chromium") or shutil.which("google-chrome")
        if not browser:
            self.skipTest("there is no Chromium")
        cors = {"allowOrigins": ["http://127.0.0.1:*"], "allowMethods": ["POST"], "allowHeaders": ["content-type",
                                                                                                   "x-one"]}
        for given, wanted in (({"cors": cors}, "got /there"), (True, "TypeError: Failed to fetch")):
            functions = [{"name": "f", "runtime": "python", "handler": "app.run", "url": given},
                         {"name": "page", "runtime": "python", "handler": "page.run", "url": True}]
            up = Up(*READY, functions=functions, app=APP, files={"page.py": PAGE})
            up.until("[up] ready", READY_SECONDS)
            to, page = (address(up, name + r": its URL is (\S+)/$") for name in (r"\bf", r"\bpage"))
            done = subprocess.run([browser, "--headless", "--no-sandbox", "--disable-gpu",
                                   f"--user-data-dir={up.at}/profile",
                                   "--virtual-time-budget=5000", "--dump-dom", f"{page}/?to={to}"],
                                  stdout=subprocess.PIPE, stderr=subprocess.DEVNULL, text=True, timeout=READY_SECONDS)
            shown = re.search('<p id="x">(.*?)</p>', done.stdout)
            self.check(f"Chromium reads a URL with {given}", shown and shown[1], wanted)
            self.check("it ends in order, and leaves nothing", up.end(), (0, []))

    def test_routes_are_matched_as_API_Gateway_does(self):
        table = {"GET /orders/{id}": "f", "GET /orders/new": "g", "ANY /files/{path+}": "g", "POST /orders": "f",
                 "ANY /orders/{id}": "g"}
        with self.running(routes=table,
                          api={"cors": {"allowOrigins": ["*"]}}) as (up, _), Caller(address(up,
                              r"routes: (\S+)$")) as caller:
            for method, path, key, parameters in (
                    ("GET", "/orders/7", "GET /orders/{id}", {"id": "7"}),
                    ("GET", "/orders/a%2Fb", "GET /orders/{id}", {"id": "a/b"}),
                    ("GET", "/orders/new", "GET /orders/new", None), ("PUT", "/orders/7", "ANY /orders/{id}",
                                                                      {"id": "7"}),
                    ("DELETE", "/files/a/b.txt", "ANY /files/{path+}", {"path": "a/b.txt"}),
                    ("POST", "/orders", "POST /orders", None)):
                status, headers, body = caller.ask(method, path, None, {"Origin": "http://a"})
                event = json.loads(body)
                self.check(f"{method} {path}",
                           (status, event["routeKey"], event["requestContext"]["routeKey"],
                            event.get("pathParameters")),
                           (200, key, key, parameters))
                self.check("any site may read it", headers["access-control-allow-origin"], "*")
            self.check("no route", caller.ask("GET", "/orders")[::2], (404, b'{"message": "Not Found"}'))
            self.check("no rest", caller.ask("GET", "/files")[0], 404)
            preflight = {"Origin": "http://a", "Access-Control-Request-Method": "GET"}
            self.check("a preflight", caller.ask("OPTIONS", "/orders", None, preflight)[0], 204)
            self.check("what is no answer", caller.ask("GET", "/orders/7?gives="
                                                       + urllib.parse.quote('{"statusCode":1}'))[::2],
                       (502, b'{"message": "Internal Server Error"}'))

    def test_malformed_requests_are_answered_and_told(self):
        with self.running() as (up, caller):
            url = address(up, r"its URL is (\S+)/$")
            for name, data, wanted in (
                    ("no request line", b"x\r\n\r\n", b"400"), ("a bare line feed", b"GET / HTTP/1.1\nHost: a\n\n",
                                                                b"400"),
                    ("no Host", b"GET / HTTP/1.1\r\n\r\n", b"400"),
                    ("two Hosts", b"GET / HTTP/1.1\r\nHost: a\r\nHost: b\r\n\r\n", b"400"),
                    ("a space before the colon", b"GET / HTTP/1.1\r\nHost : a\r\n\r\n", b"400"),
                    ("a folded line", b"GET / HTTP/1.1\r\nHost: a\r\nX: a\r\n b\r\n\r\n", b"400"),
                    ("a length that is no number", b"POST / HTTP/1.1\r\nHost: a\r\nContent-Length: +1\r\n\r\n", b"400"),
                    ("two lengths", b"POST / HTTP/1.1\r\nHost: a\r\nContent-Length: 1\r\nContent-Length: 2\r\n\r\n",
                     b"400"),
                    ("a length and chunks",
                     b"POST / HTTP/1.1\r\nHost: a\r\nContent-Length: 1\r\nTransfer-Encoding: chunked\r\n\r\n", b"400"),
                    ("another coding", b"POST / HTTP/1.1\r\nHost: a\r\nTransfer-Encoding: gzip, chunked\r\n\r\n",
                     b"501"),
                    ("a wrong chunk", b"POST / HTTP/1.1\r\nHost: a\r\nTransfer-Encoding: chunked\r\n\r\nxy\r\n",
                     b"400"),
                    ("a host that is not local",
                     b"GET / HTTP/1.1\r\nHost: evil.example\r\nConnection: close\r\n\r\n", b"403"),
                    ("another version", b"GET / HTTP/2.0\r\nHost: a\r\n\r\n", b"400"),
                    ("a head that is too long", b"GET / HTTP/1.1\r\nHost: a\r\nX: " + b"x" * 70000, b"431"),
                    ("HTTP/1.0", b"GET / HTTP/1.0\r\n\r\n", b"200")):
                self.check(name, raw(url, data).split(b" ")[1:2], [wanted])
            for told in ("what came is refused: 400, these bytes are not a request of HTTP/1.1",
                         "GET /: 403, the host is neither local nor listed",
                         "POST /: 501, the transfer coding is not supported"):
                self.check(f"a line says why: {told}", until(lambda: up.count(f"url of function f: {told}") == 1, 5))
            late = raw(url, b"POST / HTTP/1.1\r\nHost: evil.example\r\nContent-Length: 2\r\n\r\n{}"
                            b"GET /behind HTTP/1.1\r\nHost: a\r\n\r\n")
            self.check("what is refused by its head ends its connection", (
                late.count(b"HTTP/1.1 "), b"\r\nconnection: close\r\n" in late.lower()), (1, True))
            two = raw(url, b"GET /one HTTP/1.1\r\nHost: a\r\n\r\n"
                           b"GET /two HTTP/1.1\r\nHost: a\r\nConnection: close\r\n\r\n")
            self.check("two requests at once are answered in turn", re.findall(rb'"rawPath": "([^"]*)"', two),
                       [b"/one", b"/two"])
            self.check("the port is still there", caller.ask("GET", "/")[0], 200)
            begun = time.monotonic()
            self.check("half a head is closed", raw(url, b"GET / HTTP/1.1\r\nHost: a"), b"")
            self.check("after 20 seconds", 18 < time.monotonic() - begun < 35)

    def test_mistakes_of_URLs_and_routes_are_told(self):
        function: Members = {"name": "f", "runtime": "python", "handler": "app.run"}
        mistakes: Tuple[Tuple[Members, Members, str], ...] = (
            ({"routes": {"GET orders": "f"}}, {},
             'routes: "GET orders": write it as METHOD /path, such as "GET /orders/{id}", or $default'),
            ({"routes": {"GET /a": "g"}}, {}, 'routes: "GET /a": there is no function "g"'),
            ({"routes": {"GET /{a}": "f", "GET /{b}": "f"}}, {},
             'routes: "GET /{b}": it takes the same requests as "GET /{a}": leave one of the two out'),
            ({"api": {}}, {}, 'api: there are no routes: write "routes", or leave it out'),
            ({}, {"url": "yes"}, 'function f: url must be true, or an object, not "yes"'),
            ({}, {"url": {"prt": 1}}, "function f: url: unknown member prt, did you mean port?"),
            ({}, {"url": {"cors": {"allowOrigin": []}}},
             "function f: url: cors: unknown member allowOrigin, did you mean allowOrigins?"))
        for whole, members, wanted in mistakes:
            up = Up(functions=[{**function, **members}], app=APP, whole=whole)
            self.check(f"a mistake: {whole or members}", (up.end(None), up.lines),
                       ((2, []), [f"up: up.json: {wanted}"]))

    def test_a_taken_port_is_told(self):
        function: Members = {"name": "f", "runtime": "python", "handler": "app.run"}
        with socket.socket() as listener:
            listener.bind(("127.0.0.1", 0))
            listener.listen()
            port = listener.getsockname()[1]
            up = Up(functions=[{**function, "url": {"port": port}}], app=APP)
            self.check("a taken port", (up.end(None), up.lines), ((4, []), [
                f"up: up.json: port {port} (url of function f): another program listens there: leave the port out, and "
                f"a free one is used"]))
            mistakes: Tuple[Tuple[Members, str], ...] = (
                ({"invokePort": port}, f"port {port} is that of invokePort and of url of function f: each must have "
                                       "its own"),
                ({"routes": {"GET /": "f"}, "api": {"port": port}},
                 f"port {port} is that of url of function f and of api: each must have its own"),
                ({"apis": {f"a{number}": {"routes": {"GET /": "f"}} for number in range(64)}},
                 "65 ports are wanted for Function URLs and APIs: there may be 64: leave some out"))
            for whole, wanted in mistakes:
                up = Up(functions=[{**function, "url": {"port": port}}], app=APP, whole=whole)
                self.check(wanted, (up.end(None), up.lines), ((2, []), [f"up: up.json: {wanted}"]))
