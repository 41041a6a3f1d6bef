"""Checks asynchronous invocations: what callers are answered, retries, destinations, the queue's bounds and its end,
and that all else passes through lambda_local up unchanged. Needs boto3. The program is LAMBDA_LOCAL_PROGRAM, else
./lambda_local."""
import contextlib
import json
import os
import re
import socket
import struct
import subprocess
import sys
import time
import urllib.parse
from collections import Counter

from lambda_local.service import Service
from tests import ROOT
from tests.library.cases import Case
from tests.library.events_kit import READY, READY_SECONDS, Caller, behind, caller_of, invoke_path, json_lines
from tests.library.up_kit import Up, until

APP = '''import json, os, time
def run(event, context):
    do = event.get("do")
    if do == "fail": raise KeyError("missing")
    if do == "sleep": time.sleep(event["seconds"])
    if do == "crash": os._exit(7)
    return event
def sink(event, context):
    with open("records", "a") as file: file.write(json.dumps(event) + "\\n")
    if "requestPayload" in event and event["requestPayload"].get("sink") == "fails": raise ValueError("sink")
'''
BOTO3 = '''import boto3, json, os
client = boto3.client("lambda", endpoint_url=os.environ["AWS_ENDPOINT_URL_LAMBDA"])  # (for those before 1.28)
for kind in ("Event", "DryRun"):
    answer = client.invoke(FunctionName="f", InvocationType=kind, Payload="{}")
    print(answer["StatusCode"], len(answer["ResponseMetadata"]["RequestId"]), answer["Payload"].read())
'''


def functions(**members):
    return [{"name": "f", "runtime": "python", "handler": "app.run", **members},
            {"name": "sink", "runtime": "python", "handler": "app.sink"}]


def records(up):
    return json_lines(os.path.join(up.at, "records"))


SEEN = "/2019-09-30/functions/f/concurrency"  # of which the answer stays the same
INVOKE = f"POST {invoke_path('f')} HTTP/1.1\r\n"
HEADS = (  # of requests that are refused by their heads alone, and of others
    *(f"GET {SEEN} HTTP/1.1\r\nHost: {host}\r\n" for host in (
        "a.example.com", "a.example.com:80", "a b", "user@a", "", ":80", "a:b", "[::1]:9000", "[::1", "[]", "[g]",
        "localhost",
        "LOCALHOST.", "a.localhost:1", "host.docker.internal", "service", "x.local", "x.localdomain", "127.0.0.1",
        "1.2.3", "listed.example", "a..", "a.b.", "x%41~!", "caf\xe9", "a:99999999", "a/b")),
    *(f"GET {SEEN} HTTP/1.1\r\nHost: a\r\n{header}\r\n" for header in (
        "Origin: http://127.0.0.1", "Origin: null", "Origin:", "Sec-Fetch-Site: cross-site", "Sec-Fetch-Site: none",
        "Sec-Fetch-Site: None", "Sec-Fetch-Site: same-origin", "Sec-Fetch-Site: same-site",
        "Sec-Fetch-Site: none\r\nSec-Fetch-Site: x", "Host: b", "Connection: close\r\nOrigin: x")),
    *(f"{line}\r\n" for line in (
        f"GET {SEEN} HTTP/1.1", f"GET {SEEN} HTTP/1.0", f"GET {SEEN} HTTP/1.0\r\nHost: a.b",
        f"GET {SEEN} HTTP/1.0\r\nOrigin: x",
        f"HEAD {SEEN} HTTP/1.1\r\nHost: a.b", "GET /nowhere HTTP/1.1\r\nHost: a.b",
        f"GET {SEEN} HTTP/1.1\r\nHost: a b\r\nOrigin: x",
        f"GET http://a.example{SEEN} HTTP/1.1\r\nHost: a", f"GET http://localhost{SEEN} HTTP/1.1\r\nHost: a.example",
        f"GET {SEEN} HTTP/1.1\r\nHost: a.b\r\nOrigin: x")),
    INVOKE + "Host: a.b\r\nContent-Length: 2\r\n\r\n{}",
    INVOKE + "Host: a.b\r\nContent-Length: 2\r\nExpect: 100-continue\r\n",
    INVOKE + "Host: a\r\nOrigin: x\r\nContent-Length: 2\r\n\r\n{}")


def raw_answer(address, request):
    """Returns the bytes of the answer to a request with these bytes, and whether the connection stays open after it."""
    parts = urllib.parse.urlsplit(address)
    data = request.encode("latin-1") if "\r\n\r\n" in request else request.encode("latin-1") + b"\r\n"
    with socket.create_connection((parts.hostname, parts.port), timeout=30) as peer, peer.makefile("rb") as stream:
        peer.sendall(data)
        head = b""
        while not head.endswith(b"\r\n\r\n") and (line := stream.readline()):
            head += line
        length = re.search(rb"(?i)content-length: (\d+)", head)
        body = stream.read(int(length[1])) if length and not request.startswith("HEAD") else b""
        if b"connection: close" in head.lower():
            return head + body, stream.read() != b""
        peer.sendall(b"GET /nowhere HTTP/1.1\r\nHost: a\r\n\r\n")
        return head + body, stream.readline().startswith(b"HTTP/1.1 404")


def refused_page(address, request):
    """The answer to these bytes. Of a web page's that is refused, without what becomes of its connection, and by its
    status alone if its host is foreign too, which a further port judges first."""
    head, stays = raw_answer(address, request)
    if "Host: a.b" in request and "Origin" in request:
        return head[9:12], None
    return (head.replace(b"connection: close\r\n", b""), None) if b"Web pages may not" in head else (head, stays)


def as_event(head):
    """The same head of an event; none if it is one of an invocation already."""
    line, _, rest = head.partition("\r\n")
    _, target, version = line.split(" ")
    target = target.replace(SEEN, invoke_path("f")) if SEEN in target else invoke_path("f")
    rest = rest.partition("\r\n\r\n")[0] if "\r\n\r\n" in rest else rest.rstrip("\r\n")
    rest = re.sub(r"(?mi)^(content-length|expect):.*\n?", "", rest).rstrip("\r\n")
    fields = f"{rest}\r\n" if rest else ""
    return f"POST {target} {version}\r\n{fields}X-Amz-Invocation-Type: Event\r\nContent-Length: 2\r\n\r\n{{}}"


STORM = ("--storm", "11:0.001")  # in which the first invocations meet no trouble
HIDDEN = b'{"do":"sleep","seconds":0.5,"whose":"hidden"}'
HIDDEN_REQUEST = f"{INVOKE}Host: a\r\nContent-Length: {len(HIDDEN)}\r\n\r\n".encode() + HIDDEN


def in_one_chunk(data):
    return b"%x\r\n%b\r\n0\r\n\r\n" % (len(data), data)


def raw_answers(address, data, seconds=2):
    """All that is answered to these bytes until nothing comes for so long."""
    parts = urllib.parse.urlsplit(address)
    with socket.create_connection((parts.hostname, parts.port), timeout=seconds) as peer:
        peer.sendall(data)
        found = b""
        with contextlib.suppress(TimeoutError, socket.timeout):
            while part := peer.recv(65536):
                found += part
    return found


def alike(answer):
    """An answer without what differs from call to call."""
    status, headers, body = answer
    headers = {name: value for name, value in headers.items()
               if name not in ("x-amzn-requestid", "connection", "content-length")}
    return status, headers, re.sub(rb"[0-9a-f]{8}-[0-9a-f-]{27}", b"ID", body)


class Events(Case):
    @contextlib.contextmanager
    def running(self, asynchronous=True, options=(), **members):
        up = Up(*READY, *options, functions=functions(**members), app=APP, whole={"asynchronous": asynchronous})
        with caller_of(self, up) as caller:
            yield up, caller

    def test_boto3_gets_202_for_an_event_and_204_for_a_dry_run(self):
        up = Up(*READY, command=["--", sys.executable, "calls.py"], functions=functions(), app=APP,
                files={"calls.py": BOTO3}, whole={"asynchronous": True})
        self.check("boto3: the command and all else end in order", up.end(None), (0, []))
        self.check("boto3: Event and DryRun", up.output.splitlines(), ["202 36 b''", "204 36 b''"])
        self.check("an event that waits at the stop is still invoked", up.count(r"\[f\] event \S+ ok after"), 1)

    def test_wrong_events_are_refused_as_lambda_does(self):
        with self.running() as (up, caller):
            for name, path, kind, body, wanted in (
                    ("an unknown function", invoke_path("g"), "Event", b"{}", (404, "ResourceNotFoundException")),
                    ("a malformed name", invoke_path("f%2F"), "Event", b"{}", (400, "InvalidParameterValueException")),
                    ("a version", invoke_path("f") + "?Qualifier=7", "Event", b"{}",
                     (404, "ResourceNotFoundException")),
                    ("what is no JSON", invoke_path("f"), "Event", b"{", (400, "InvalidRequestContentException")),
                    ("NaN", invoke_path("f"), "Event", b"NaN", (400, "InvalidRequestContentException")),
                    ("more than 1 MiB", invoke_path("f"), "Event", b'"' + b"x" * (1 << 20) + b'"',
                     (413, "RequestTooLargeException")),
                    ("another type", invoke_path("f"), "Events", b"{}", (400, "InvalidParameterValueException"))):
                status, answered, _ = caller.ask("POST", path, body, {"X-Amz-Invocation-Type": kind})
                self.check(f"an event: {name}", (status, answered.get("x-amzn-errortype")), wanted)
            self.check("an unknown function, tried out",
                       caller.ask("POST", invoke_path("g"), b"{}", {"X-Amz-Invocation-Type": "DryRun"})[0], 404)

    def test_an_event_is_taken_by_each_form_of_a_name_and_up_to_1_MiB(self):
        with self.running() as (up, caller):
            for name in ("f", "123456789012:function:f", "arn:aws:lambda:us-east-1:123456789012:function:f:$LATEST"):
                self.check(f"an event for {name}", caller.event(name, {})[0], 202)
            self.check("each is invoked", until(lambda: up.count(r"\[f\] event \S+ ok") == 3, 10))
            self.check("1 MiB is taken", caller.ask("POST", invoke_path("f"), b'"' + b"x" * ((1 << 20) - 2) + b'"',
                                                    {"X-Amz-Invocation-Type": "Event"})[0], 202)

    def test_200_events_at_once_are_each_invoked_once(self):
        with self.running(environments=4, reserved=2, timeout=30) as (up, caller):
            self.check("200 events are taken", {caller.event("f", {"number": number})[0] for number in range(200)},
                       {202})
            self.check("each of them succeeds", until(lambda: up.count(r"\[f\] event \S+ ok") >= 200, 60))
            self.check("none more", up.count(r"\[f\] event \S+ ok"), 200)
            until(lambda: up.count(r"\[f/\d\] \S+ ok") >= 200, 5)
            self.check("its function is invoked 200 times", up.count(r"\[f/\d\] \S+ ok"), 200)

    def test_an_event_that_fails_is_retried_and_its_record_goes_to_the_destination(self):
        with self.running({"delays": [0.2, 0.4], "onFailure": "sink"}) as (up, caller):
            status, headers, body = caller.event("f", {"do": "fail", "order": 7})
            self.check("an event gets 202 and an empty body", (status, body), (202, b""))
            self.check("its record comes", until(lambda: records(up), 10))
            record, = records(up)
            self.check("its members", sorted(record),
                       ["requestContext", "requestPayload", "responseContext", "responsePayload", "timestamp",
                        "version"])
            context = record["requestContext"]
            self.check("its context", (record["version"], context), ("1.0", {
                "requestId": headers["x-amzn-requestid"],
                "functionArn": "arn:aws:lambda:us-east-1:123456789012:function:f:$LATEST",
                "condition": "RetriesExhausted", "approximateInvokeCount": 3}))
            self.check("its payload", record["requestPayload"], {"do": "fail", "order": 7})
            self.check("its response", (record["responseContext"], record["responsePayload"]["errorType"]),
                       ({"statusCode": 200, "executedVersion": "$LATEST", "functionError": "Unhandled"}, "KeyError"))
            self.check("its time", re.fullmatch(r"\d{4}-\d\d-\d\dT\d\d:\d\d:\d\d\.\d{3}Z",
                                                record["timestamp"]) is not None)
            self.check("both retries are told",
                       [up.count(text) for text in ("again after 0.2 s", "again after 0.4 s",
                                                    "its record goes to sink")],
                       [1, 1, 1])
            caller.event("f", {"do": "fail", "sink": "fails"})
            self.check("a destination that fails is retried, and ends there",
                       until(lambda: up.has("attempt 3 of 3: it is dropped"), 10))
            self.check("and gets no record of its own", len(records(up)), 4)
            caller.event("f", {"do": "crash"})
            self.check("a crash is retried as well", until(lambda: len(records(up)) == 5, 30))

    def test_an_event_that_is_too_old_gets_a_record_that_says_so(self):
        with self.running({"retries": 0, "maximumAge": 1, "onFailure": "sink"}, timeout=10) as (up, caller):
            caller.event("f", {"do": "sleep", "seconds": 2})
            caller.event("f", {"number": 2})
            self.check("an event that is too old gets its record", until(lambda: records(up), 10))
            record, = records(up)
            self.check("which says why",
                       (record["requestContext"]["condition"], record["requestContext"]["approximateInvokeCount"],
                                          "responsePayload" in record), ("EventAgeExceeded", 0, False))

    def test_1000_events_are_held_and_one_more_gets_429(self):
        with self.running(options=["--drain", "0"], timeout=60) as (up, caller):
            seen = [caller.event("f", {"do": "sleep", "seconds": 60})[0] for _ in range(1000)]
            status, headers, body = caller.event("f", {})
            self.check("1,000 events are held", set(seen), {202})
            self.check("one more gets 429", (status, headers.get("x-amzn-errortype"), json.loads(body)),
                       (429, "TooManyRequestsException", {
                     "Reason": "CallerRateLimitExceeded", "Type": "User", "message": "Rate Exceeded."}))
            up.end()
            self.check("what is lost by a stop is told", up.count("is lost by the stop"), 1000)

    def test_64_MiB_of_events_are_held(self):
        with self.running(timeout=60, options=["--drain", "0"]) as (up, caller):
            large = b'{"do":"sleep","seconds":60,"fill":"' + b"x" * 1_000_000 + b'"}'
            seen = [caller.ask("POST", invoke_path("f"), large, {"X-Amz-Invocation-Type": "Event"})[0]
                    for _ in range(70)]
            self.check("64 MiB are held", (seen.count(202), set(seen)), ((64 << 20) // len(large), {202, 429}))

    def test_a_stop_waits_for_the_events(self):
        with self.running(timeout=10) as (up, caller):
            for number in range(4):
                caller.event("f", {"do": "sleep", "seconds": 0.4, "number": number})
            self.check("a stop waits for the events", (up.end(), up.count(r"\[f\] event \S+ ok"),
                                                       up.has("waiting up to ")),
                       ((0, []), 4, True))

    def test_a_stop_by_request_loses_the_events_that_are_left(self):
        with self.running(timeout=10) as (up, caller):
            for number in range(3):
                caller.event("f", {"do": "sleep", "seconds": 2, "number": number})
            self.check("POST /_local/stop is the service's", caller.ask("POST", "/_local/stop", b"")[0], 202)
            self.check("all ends", up.end(None), (0, []))
            ends = up.count(r"\[f\] event \S+ ok"), up.count("is lost by the stop")
            self.check("each event that is lost is told", (sum(ends), ends[1] > 0), (3, True), shown=ends)

    def test_a_stop_waits_no_longer_than_drain_says(self):
        with self.running(options=["--drain", "0.5"], timeout=30) as (up, caller):
            caller.event("f", {"do": "sleep", "seconds": 20})
            begun = time.monotonic()
            up.end()
            self.check("it waits no longer than --drain says", (time.monotonic() - begun < 8,
                                                                up.count("is lost by the stop")),
                       (True, 1))

    def test_all_else_passes_through_a_storm_unchanged(self):
        with self.running(options=STORM, timeout=2) as (up, caller), Caller(behind(up)) as direct:
            large = json.dumps({"x": "y" * 3_000_000}).encode()
            for name, method, path, body in (
                    ("an output", "POST", invoke_path("f"), b'{"a":"\xc3\xa9"}'),
                    ("an error", "POST", invoke_path("f"), b'{"do":"fail"}'),
                    ("a large payload", "POST", invoke_path("f"), large),
                    ("one that is too large", "POST", invoke_path("f"), b"1" * 7_000_000),
                    ("what is no JSON", "POST", invoke_path("f"), b"{"),
                    ("an unknown function", "POST", invoke_path("g"), b"{}"),
                    ("an unknown path", "GET", "/x", None), ("another method", "DELETE", invoke_path("f"), None),
                    ("a reservation", "PUT", "/2017-10-31/functions/f/concurrency",
                     b'{"ReservedConcurrentExecutions":1}'),
                    ("its removal", "DELETE", "/2017-10-31/functions/f/concurrency", None)):
                seen, wanted = (alike(one.ask(method, path, body)) for one in (caller, direct))
                self.check(f"passed on: {name}", seen, wanted)
            self.check("passed on in chunks", caller.ask("POST", invoke_path("f"), iter([b'{"a', b'":1}']))[2],
                       b'{"a": 1}')
            history = caller.ask("GET", "/_local/history")[2]
            self.check("passed on as it comes: the history",
                       (len(history) > 3_000_000, direct.ask("GET", "/_local/history")[2][:len(history)] == history),
                       (True, True))

    def test_heads_that_the_service_refuses_are_refused_alike(self):
        """What the service refuses by a request's head, the port of a storm refuses alike, byte for byte, and events as
        well: what is not refused is asked of the service, or taken. (Of a page's request that is refused the body has
        come: its connection may stay.)"""
        hosts = {"LAMBDA_LOCAL_HOSTS": "listed.example,x.y"}
        up = Up(*READY, *STORM, functions=functions(), app=APP, whole={"asynchronous": True},
                environ={**os.environ, **hosts})
        up.until("[up] ready", READY_SECONDS)
        statuses: Counter[bytes] = Counter()
        bare = Service({"account": "123456789012", "region": "us-east-1", "functions": [{"name": "f", "ports": [0]}]},
                       variables=hosts)
        self.addCleanup(bare.kill)
        service, taken = bare.endpoint_url, 0
        for head in HEADS:
            wanted = refused_page(service, head)
            self.check(f"the front answers {head!r} as the service", refused_page(up.endpoint, head), wanted)
            statuses[wanted[0][9:12] or wanted[0]] += 1
            event = as_event(head)
            wanted, seen = (refused_page(address, event) for address in (service, up.endpoint))
            if b"Invocation type is not RequestResponse" in wanted[0]:
                taken += 1
                wanted, seen = (b"202", wanted[1]), (seen[0][9:12], seen[1])
            self.check(f"an event: {event!r}", seen, wanted)
        self.check("each kind of answer is among them", sorted(statuses), [b"200", b"400", b"403"])
        self.check("some events are taken, and others not", 10 < taken < len(HEADS) - 10)
        until(lambda: up.count(r"\[f\] event \S+ ok") >= taken, 30)
        self.check("it ends in order, and leaves nothing", (up.end(), up.count(r"\[f\] event \S+ ok")),
                   ((0, []), taken))

    def test_no_request_hides_in_a_body_whose_length_Connection_names(self):
        """What a head's `Connection` names takes nothing away: neither where its body ends, so that a second request
        hides in it whose answer another caller gets, nor why it is refused (RFC 9110, section 7.6.1)."""
        long = f"Content-Length: {len(HIDDEN_REQUEST)}\r\n"
        for name, head, body in (
                ("a body whose length is of the connection", f"Connection: content-length\r\n{long}", HIDDEN_REQUEST),
                ("in capitals, in a list", f"Connection: keep-alive, CONTENT-LENGTH\r\n{long}", HIDDEN_REQUEST),
                ("in two headers", f"Connection: te\r\nConnection: Content-Length,\r\n{long}", HIDDEN_REQUEST),
                ("a body in chunks", "Connection: transfer-encoding\r\nTransfer-Encoding: chunked\r\n",
                 in_one_chunk(HIDDEN_REQUEST)),
                ("chunks and a length", f"Connection: content-length\r\n{long}Transfer-Encoding: chunked\r\n",
                 in_one_chunk(b"{}") + HIDDEN_REQUEST)):
            with self.running(environments=2, timeout=10) as (up, caller):
                caller.invoke("f", {"warm": True})
                raw_answers(up.endpoint, f"GET /_local/stats HTTP/1.1\r\nHost: a\r\n{head}\r\n".encode() + body, 0.2)
                seen = [json.loads(caller.invoke("f", {"whose": number})[2]) for number in range(3)]
                self.check(f"{name}: each caller gets its own answer", seen, [{"whose": number} for number in range(3)])
                until(lambda: up.count(r"\[f/\d\] \S+ ok") >= 4, 30)
                time.sleep(1)
                self.check(f"{name}: what it hides is not invoked", up.count(r"\[f/\d\] \S+ ok"), 4)

    def test_a_head_whose_fields_Connection_names_is_refused_all_the_same(self):
        with self.running() as (up, caller):
            before = len(caller.ask("GET", "/_local/history")[2].splitlines())
            old, length = INVOKE.replace("1.1", "1.0"), "Content-Length: 2\r\n\r\n{}"
            for head, wanted in (
                    (f"{INVOKE}Host: a\r\nOrigin: https://evil\r\nConnection: close, origin\r\n{length}", b"403"),
                    (f"{INVOKE}Host: a\r\nSec-Fetch-Site: cross-site\r\nConnection: sec-fetch-site\r\n{length}",
                     b"403"),
                    (f"{INVOKE}Host: evil.example\r\nConnection: close, host\r\n{length}", b"403"),
                    (f"{old}Host: evil.example\r\nConnection: host\r\n{length}", b"403"),
                    (f"{old}Connection: host\r\nHost: evil.example\r\nHost: a\r\n{length}", b"400"),
                    ("GET /_local/history HTTP/1.0\r\nHost: evil.example\r\nConnection: host\r\n\r\n", b"403"),
                    (f"{INVOKE}Host: a\r\nX-Amz-Invocation-Type: Nonsense\r\n"
                     f"Connection: x-amz-invocation-type\r\n{length}", b"400")):
                self.check(f"{head!r} is refused", raw_answers(up.endpoint, head.encode())[9:12], wanted)
            self.check("nothing is invoked", len(caller.ask("GET", "/_local/history")[2].splitlines()), before)

    def test_peers_that_go(self):
        """A connection whose caller has gone is closed on both sides; one whose caller has ended its own side is
        answered."""
        def sockets():
            folder = f"/proc/{up.process.pid}/fd"
            return sum(os.readlink(os.path.join(folder, name)).startswith("socket:") for name in os.listdir(folder))

        with self.running(environments=2, timeout=20) as (up, caller):
            caller.invoke("f", {})
            parts = urllib.parse.urlsplit(up.endpoint)
            body = json.dumps({"do": "sleep", "seconds": 4}).encode()
            head = f"POST {invoke_path('f')} HTTP/1.1\r\nHost: a\r\nContent-Length: {len(body)}\r\n\r\n".encode()
            time.sleep(0.5)
            before = sockets()
            peer = socket.create_connection((parts.hostname, parts.port))
            peer.sendall(head + body)
            until(lambda: sockets() > before, 3)
            peer.setsockopt(socket.SOL_SOCKET, socket.SO_LINGER, struct.pack("ii", 1, 0))  # (it is reset)
            peer.close()
            self.check("a caller that has gone is forgotten on both sides", until(lambda: sockets() <= before, 3))
            with socket.create_connection((parts.hostname, parts.port)) as peer:
                peer.sendall(head + body)
                peer.shutdown(socket.SHUT_WR)
                peer.settimeout(20)
                self.check("one that has ended its own side is answered", peer.recv(65536).startswith(b"HTTP/1.1 200"))

    def test_each_sample_event_comes_to_the_function(self):
        """Each sample is JSON with the member by which its kind is known, and examples/invoke.sh takes it by name."""
        known = {"s3": ("Records", 0, "s3", "bucket", "name"), "sqs": ("Records", 0, "body"),
                 "sns": ("Records", 0, "Sns", "Message"),
                 "schedule": ("detail-type",), "eventbridge": ("detail",), "apigateway_1.0": ("requestContext",
                                                                                              "identity"),
                 "apigateway_2.0": ("requestContext", "http")}
        folder = os.path.join(ROOT, "examples", "events")
        self.check("the samples are there", {f"{name}.json" for name in known} - {*os.listdir(folder)}, set())
        with self.running() as (up, _):
            for name, path in known.items():
                done = subprocess.run([os.path.join(ROOT, "examples", "invoke.sh"), "f", name,
                                       up.endpoint.partition("//")[2]],
                                      stdout=subprocess.PIPE, timeout=30)
                value = json.loads(done.stdout.partition(b"\r\n\r\n")[2])
                with open(os.path.join(folder, f"{name}.json")) as file:
                    self.check(f"the sample {name} comes to the function", value, json.load(file))
                for step in path:
                    value = value[step]
                self.check(f"the sample {name} is of its kind", bool(value) or value == {})

    def test_mistakes_in_asynchronous_are_told(self):
        for whole, wanted in (
                ({"asynchronous": 1}, "asynchronous must be true, or an object, not 1"),
                ({"asynchronous": {"retry": 1}}, "asynchronous: unknown member retry, did you mean retries?"),
                ({"asynchronous": {"retries": 3}}, "asynchronous: retries must be a whole number from 0 to 2, not 3"),
                ({"asynchronous": {"onFailure": "g"}}, 'asynchronous: onFailure: there is no function "g"'),
                ({"asynchronus": True}, "unknown member asynchronus, did you mean asynchronous?")):
            up = Up(whole=whole)
            self.check(f"a mistake: {whole}", (up.end(None), up.lines), ((2, []), [f"up: up.json: {wanted}"]))
