"""Checks streamed responses of lambda_local up: by Function URLs with "invoke": "RESPONSE_STREAM" and by
InvokeWithResponseStream, of a custom runtime and of Node's streaming handlers. The program is LAMBDA_LOCAL_PROGRAM,
else ./lambda_local."""
import functools
import http.client
import json
import re
import shutil
import socket
import struct
import sys
import time
import zlib

from lambda_local.streaming import frames
from lambda_local.up.following import LONG_RESTS, REST
from tests.library.cases import Case
from tests.library.paces import longest_rests
from tests.library.telemetry_kit import PROBE, events, function, probe
from tests.library.threads import together
from tests.library.up_kit import Up, until

# A runtime that streams: its event says the parts, the seconds before each, and how it ends.
STREAMING = f'''#!{sys.executable}
import base64, http.client, json, os, socket, sys, time
host, port = os.environ["AWS_LAMBDA_RUNTIME_API"].split(":")
base = "/2018-06-01/runtime/invocation/"
while True:
    api = http.client.HTTPConnection(host, int(port))
    api.request("GET", base + "next")
    answer = api.getresponse()
    event = json.loads(answer.read())
    if answer.status != 200: sys.exit(0)
    name, trace = answer.headers["Lambda-Runtime-Aws-Request-Id"], answer.headers["Lambda-Runtime-Trace-Id"]
    event = json.loads(event["queryStringParameters"]["event"]) if "queryStringParameters" in event else event
    if event.get("buffered"):
        api.request("POST", base + name + "/response", json.dumps(event["buffered"]))
        api.getresponse().read()
        continue
    if event.get("error"):
        api.request("POST", base + name + "/error", '{{"errorType":"Bad","errorMessage":"early"}}',
                    {{"Lambda-Runtime-Function-Error-Type": "Runtime.Bad"}})
        api.getresponse().read()
        continue
    peer = socket.create_connection((host, int(port)))
    kind = event.get("type")
    kind = f"Content-Type: {{kind}}\\r\\n" if kind else ""
    peer.sendall(("POST " + base + name + "/response HTTP/1.1\\r\\nHost: x\\r\\nTransfer-Encoding: chunked\\r\\n"
                  "Lambda-Runtime-Function-Response-Mode: streaming\\r\\n" + kind + "Trailer: "
                  "Lambda-Runtime-Function-Error-Type, Lambda-Runtime-Function-Error-Body\\r\\n\\r\\n").encode())
    for part in event.get("parts", []):
        data = trace.encode() if part == "trace" else bytes.fromhex(part[1:]) if part.startswith("=") else part.encode()
        data *= event.get("times", 1)
        peer.sendall(b"%x\\r\\n%b\\r\\n" % (len(data), data))
        time.sleep(event.get("pause", 0))
    if event.get("ends") == "exit": os._exit(5)
    if event.get("ends") == "hang": time.sleep(60)
    trailers = ""
    if event.get("ends") == "fail":
        body = base64.b64encode(b'{{"errorType":"Late"}}').decode()
        trailers = ("Lambda-Runtime-Function-Error-Type: Runtime.Late\\r\\n"
                    f"Lambda-Runtime-Function-Error-Body: {{body}}\\r\\n")
    try:
        peer.sendall(b"0\\r\\n" + trailers.encode() + b"\\r\\n")
        peer.recv(65536)
    except OSError:
        pass
    peer.close()
'''


class WithUrl(Up):
    """lambda_local up of a function with a URL, whose port it has once it is ready."""

    @property
    def url(self):
        return int(self.told(r"its URL is http://127\.0\.0\.1:(\d+)/"))


class Got:
    """What a Function URL answers, and when its parts came."""

    def __init__(self, up, headers={}, **event):
        connection = http.client.HTTPConnection("127.0.0.1", up.url, timeout=30)
        begun = time.monotonic()
        connection.request("GET", "/?event=" + quoted(event), headers=headers)
        answer = connection.getresponse()
        self.status, self.headers, self.body, self.moments, self.is_whole = answer.status, answer.headers, b"", [], True
        try:
            while part := answer.read1(1 << 16):
                self.body += part
                self.moments.append(time.monotonic() - begun)
        except http.client.IncompleteRead:
            self.is_whole = False
        connection.close()

    @property
    def seen(self):
        return self.status, self.body, self.is_whole


def quoted(event):
    return "".join(f"%{byte:02x}" for byte in json.dumps(event).encode())


def outputs(up):
    """The bodies of the responses in the history."""
    return re.findall(r"^# [\d ]+ output =(.*)$", up.history(), re.M)


def in_flight(up):
    return json.loads(up.get("/_local/stats"))["inFlight"]


def messages(data):
    """The messages of an event stream, by a reader of their own (AWS SDKs' encoding)."""
    found = []
    while data:
        whole, of_headers, checksum = struct.unpack("!III", data[:12])
        assert zlib.crc32(data[:8]) == checksum and zlib.crc32(data[:whole - 4]) == struct.unpack(
            "!I", data[whole - 4:whole])[0]
        rest, headers = data[12:12 + of_headers], {}
        while rest:
            name, kind, size = rest[1:1 + rest[0]].decode(), rest[1 + rest[0]], struct.unpack(
                "!H", rest[2 + rest[0]:4 + rest[0]])[0]
            at = 4 + rest[0]
            assert kind == 7
            headers[name], rest = rest[at:at + size].decode(), rest[at + size:]
        found.append((headers[":event-type"], data[12 + of_headers:whole - 4]))
        data = data[whole:]
    return found


def ask(up, event, path="/2021-11-15/functions/f/response-streaming-invocations", headers={}):
    host = up.endpoint.partition("//")[2]
    connection = http.client.HTTPConnection(host, timeout=30)
    connection.request("POST", path, event if isinstance(event, bytes) else json.dumps(event), headers)
    answer = connection.getresponse()
    return answer.status, answer.headers, answer.read()


NODE = '''const wait = (ms) => new Promise((resolve) => setTimeout(resolve, ms));
export const run = awslambda.streamifyResponse(async (event, stream, context) => {
  const asked = event.queryStringParameters ? JSON.parse(event.queryStringParameters.event) : event;
  if (asked.do === "early") throw new Error("early");
  if (asked.do === "http") {
    stream = awslambda.HttpResponseStream.from(stream, { statusCode: 201, headers: { "X-A": "b" }, cookies: ["c=d"] });
  } else stream.setContentType("text/plain");
  if (asked.do === "large") for (let n = 0; n < 40; n += 1) {
    if (!stream.write("x".repeat(100000))) await new Promise((resolve) => { stream.once("drain", resolve); });
  }
  stream.write("one,");
  await wait(400);
  if (asked.do === "late") throw new TypeError("late");
  stream.write(context.functionName);
  stream.end();
});
'''


class Streaming(Case):
    def started(self, url={"invoke": "RESPONSE_STREAM"}, **members):
        up = WithUrl(functions=[{"name": "f", "command": ["./streaming"], "timeout": 5, "url": url, **members}],
                     files={"streaming": STREAMING})
        self.check("it is ready", up.until("[up] ready"), True)
        return up

    def test_a_streamed_response_comes_by_a_URL_as_it_is_sent(self):
        up = self.started()
        got = Got(up, parts=["one", "two", "three"], pause=0.5, type="text/plain")
        self.check("a streamed response", got.seen, (200, b"onetwothree", True))
        self.check("its type", got.headers["Content-Type"], "text/plain")
        self.check("its parts come as they are sent", got.moments[-1] - got.moments[0] > 0.6, True)
        self.check("the history has the whole of it", outputs(up), ["onetwothree"])
        self.check("a response without a type", Got(up, parts=["x"]).headers["Content-Type"],
                   "application/octet-stream")
        prelude = json.dumps({"statusCode": 202, "headers": {"X-A": "b", "Content-Type": "text/css"},
                              "cookies": ["c=d"]})
        kind = "application/vnd.awslambda.http-integration-response"
        for parts in ([prelude, "=" + "00" * 8, "body"], [prelude + "\0" * 8 + "body"],
                      [*(f"={ord(letter):02x}" for letter in prelude), "=00000000", "=00000000", "bo", "dy"]):
            got = Got(up, parts=parts, type=kind)
            self.check(f"a prelude in {len(parts)} parts", (got.seen, got.headers["X-A"], got.headers["Content-Type"],
                                                            got.headers["Set-Cookie"]),
                       ((202, b"body", True), "b", "text/css", "c=d"))
        for name, parts in {"no JSON": ["x", "=" + "00" * 8], "no end": ["{}"], "a list": ["[]", "=" + "00" * 8],
                            "a wrong status": ['{"statusCode":99}', "=" + "00" * 8],
                            "a wrong header": ['{"headers":{"a":"b\\nc: d"}}', "=" + "00" * 8]}.items():
            self.check(f"a prelude with {name}", Got(up, parts=parts, type=kind).seen, (502, b"Internal Server Error",
                                                                                        True))
        self.check("a prelude of more than 64 KiB", Got(up, parts=["a" * 1000], times=70, type=kind).status, 502)
        self.check("an empty response", Got(up, parts=[]).seen, (200, b"", True))
        self.check("one that is not streamed stays as it is", Got(up, buffered={"statusCode": 201, "body": "x"}).seen,
                   (200, b'{"statusCode": 201, "body": "x"}', True))
        self.check("an error before its first byte", Got(up, error=1).seen, (502, b"Internal Server Error", True))
        self.check("an error after it breaks off", Got(up, parts=["some"], ends="fail").seen, (200, b"some", False))
        self.check("a timeout breaks off", Got(up, parts=["some"], ends="hang").seen, (200, b"some", False))
        self.check("an exit breaks off", Got(up, parts=["some"], ends="exit").seen, (200, b"some", False))
        trace = Got(up, {"X-Amzn-Trace-Id": "Root=1-2;Parent=3"}, parts=["trace"]).body.decode()
        self.check("the caller's trace", re.fullmatch("Root=1-2;Parent=3;Lineage=1:[0-9a-f]{16}:0", trace) is not None,
                   True)
        trace = Got(up, parts=["trace"]).body.decode()
        self.check("a trace of its own",
                   re.fullmatch("Root=1-[0-9a-f]{8}-[0-9a-f]{24};Sampled=0;Lineage=1:[0-9a-f]{16}:0",
                                                      trace) is not None, True)
        self.check("one after all that", Got(up, parts=["a", "b"]).seen, (200, b"ab", True))
        self.check("it ends", up.end(), (0, []))

    def test_a_large_response_breaks_off_beyond_6_MiB_and_waits_for_no_reader_that_goes(self):
        up = self.started(timeout=20)
        peer = socket.socket()
        peer.setsockopt(socket.SOL_SOCKET, socket.SO_RCVBUF, 4096)
        peer.connect(("127.0.0.1", up.url))
        event = quoted({"parts": ["x"] * 60, "times": 100_000})
        peer.sendall(f"GET /?event={event} HTTP/1.1\r\nHost: a\r\n\r\n".encode())
        self.check("a caller that does not read gets the head", peer.recv(12), b"HTTP/1.1 200")
        time.sleep(1)  # (the system may take all of it, or the function waits)
        peer.close()
        self.check("the function goes on", until(lambda: in_flight(up) == 0, 20), True)
        self.check("and the service has all of it", len(outputs(up)[-1]), 6_000_000)
        got = Got(up, parts=["x"] * 60, times=100_000)
        self.check("six million bytes", (got.status, len(got.body), got.is_whole), (200, 6_000_000, True))
        got = Got(up, parts=["x"] * 70, times=100_000)
        self.check("what is longer than Lambda's 6 MiB breaks off", (got.status, got.is_whole), (200, False))
        self.check("an invocation after that", Got(up, parts=["b"]).seen, (200, b"b", True))
        self.check("it ends", up.end(), (0, []))

    def test_a_caller_that_goes_in_a_prelude_holds_up_no_function(self):
        """A caller that goes while a prelude comes holds up no function."""
        up = self.started(timeout=30)
        peer = socket.create_connection(("127.0.0.1", up.url))
        event = quoted({"parts": ["x"] * 6, "times": 60_000, "pause": 1,
                        "type": "application/vnd.awslambda.http-integration-response"})
        peer.sendall(f"GET /?event={event} HTTP/1.1\r\nHost: a\r\n\r\n".encode())
        until(lambda: in_flight(up) == 1, 20)
        time.sleep(0.5)
        peer.setsockopt(socket.SOL_SOCKET, socket.SO_LINGER, struct.pack("ii", 1, 0))  # (by a reset)
        peer.close()
        self.check("all of its response is taken", until(lambda: outputs(up) == ["x" * 360_000], 20))
        self.check("it ends", up.end(), (0, []))

    def test_several_callers_get_each_their_own(self):
        """Callers at the same time get each their own."""
        up = self.started(environments=4)
        got = together(*(functools.partial(Got, up, parts=[letter] * 5, pause=0.1) for letter in "abcd"))
        self.check("four callers", [each.seen for each in got],
                   [(200, letter.encode() * 5, True) for letter in "abcd"])
        self.check("it ends", up.end(), (0, []))

    def test_callers_of_a_stream_wait_for_no_long_rest(self):
        """They wait until an entry is taken, also while many come. No one else does."""
        self.check("functions that stream", longest_rests(url={"invoke": "RESPONSE_STREAM"}), [REST])
        self.check("others", longest_rests(url=True), [LONG_RESTS[0][1]])

    def test_messages_are_framed_as_AWS_does(self):
        self.check("a checksum of AWS's test suite", f"{zlib.crc32(bytes.fromhex('0000001000000000')):08x}", "05c248eb")
        self.check("messages", messages(frames.payload_chunk(b"\0a") + frames.invoke_complete("E", "why")),
                   [("PayloadChunk", b"\0a"), ("InvokeComplete", b'{"ErrorCode": "E", "ErrorDetails": "why"}')])

    def test_botocore_reads_the_messages(self):
        try:
            from botocore.eventstream import EventStreamBuffer
        except ImportError:
            print("note botocore is not here")
            return
        buffer = EventStreamBuffer()
        buffer.add_data(frames.payload_chunk(b"data") + frames.invoke_complete())
        self.check("botocore reads them", [(event.headers[":event-type"], event.headers[":content-type"], event.payload)
                                           for event in buffer],
                   [("PayloadChunk", "application/octet-stream", b"data"), ("InvokeComplete", "application/json",
                                                                            b"{}")])

    def test_the_operation_answers_by_messages(self):
        up = self.started(timeout=1)
        status, headers, body = ask(up, {"parts": ["one", "two"], "pause": 0.2})
        self.check("its answer", (status, headers["Content-Type"], headers["X-Amz-Executed-Version"]),
                   (200, "application/vnd.amazon.eventstream", "$LATEST"))
        found = messages(body)
        self.check("its messages", (b"".join(data for kind, data in found if kind == "PayloadChunk"), found[-1]),
                   (b"onetwo", ("InvokeComplete", b"{}")))
        self.check("its identifier is the history's", f"deliver {headers['x-amzn-requestid']}" in up.history(), True)
        self.check("a result that is not streamed", messages(ask(up, {"buffered": [1]})[2]),
                   [("PayloadChunk", b"[1]"), ("InvokeComplete", b"{}")])

        def complete(event):
            kind, data = messages(ask(up, event)[2])[-1]
            return kind, json.loads(data).get("ErrorCode"), json.loads(data).get("ErrorDetails")
        self.check("an error before its first byte", complete({"error": 1}),
                   ("InvokeComplete", "Bad", '{"errorType":"Bad","errorMessage":"early"}'))
        self.check("an error after it", complete({"parts": ["x"], "ends": "fail"}),
                   ("InvokeComplete", "Runtime.Late", '{"errorType":"Late"}'))
        self.check("a timeout", complete({"parts": ["x"], "ends": "hang"})[:2], ("InvokeComplete", "Function.Timeout"))
        self.check("an exit", complete({"parts": ["x"], "ends": "exit"})[:2], ("InvokeComplete", "Runtime.ExitError"))
        self.check("an unknown function", ask(up, {}, "/2021-11-15/functions/g/response-streaming-invocations")[0], 404)
        self.check("a qualifier",
                   ask(up, {}, "/2021-11-15/functions/f/response-streaming-invocations?Qualifier=prod")[0], 404)
        self.check("a payload that is not JSON", ask(up, b"{")[0], 400)
        self.check("a payload that is too long", ask(up, b"1" * ((6 << 20) + 1))[0], 413)
        self.check("a dry run", ask(up, {}, headers={"X-Amz-Invocation-Type": "DryRun"})[0], 204)
        self.check("another type", ask(up, {}, headers={"X-Amz-Invocation-Type": "Event"})[0], 400)
        status, _, body = ask(up, b"", "/2015-03-31/functions/f/invocations", {"X-Amz-Log-Type": "None"})
        self.check("an Invoke of such a function has the whole", (status, body), (200, b""))
        got = json.loads(up.get("/2021-10-31/functions/f/url"))
        self.check("its URL's configuration", got["InvokeMode"], "RESPONSE_STREAM")
        self.check("it ends", up.end(), (0, []))

    def test_without_a_proxy_the_answer_is_one_piece(self):
        """A function without a streaming URL gives one piece."""
        up = Up(functions=[{"name": "f", "command": ["./streaming"], "timeout": 5}], files={"streaming": STREAMING})
        self.check("it is ready", up.until("[up] ready"), True)
        self.check("its messages", messages(ask(up, {"parts": ["one", "two"], "pause": 0.1})[2]),
                   [("PayloadChunk", b"onetwo"), ("InvokeComplete", b"{}")])
        self.check("it ends", up.end(), (0, []))

    def test_boto3_reads_the_stream_in_pieces(self):
        try:
            import boto3
            from botocore.config import Config
        except ImportError:
            print("note boto3 is not here")
            return
        up = self.started()
        client = boto3.client("lambda", endpoint_url=up.endpoint, region_name="us-east-1", aws_access_key_id="x",
                              aws_secret_access_key="x", config=Config(retries={"max_attempts": 0}, proxies={}))
        if not hasattr(client, "invoke_with_response_stream"):
            print("note this boto3 has no invoke_with_response_stream")
        else:
            stream = client.invoke_with_response_stream(FunctionName="f", Payload=json.dumps(
                {"parts": ["one", "two"], "pause": 2}))["EventStream"]
            found = list(stream)
            self.check("boto3 reads the stream", (b"".join(each["PayloadChunk"]["Payload"] for each in found[:-1]),
                                                  found[-1]),
                       (b"onetwo", {"InvokeComplete": {}}))
            self.check("in pieces", len(found), 3)
        self.check("it ends", up.end(), (0, []))

    def test_telemetry_has_the_bytes_status_and_time_of_a_stream(self):
        settings = {**function({"x": probe()}), "url": {"invoke": "RESPONSE_STREAM"}}
        del settings["runtime"], settings["handler"]
        up = Up(functions=[{**settings, "command": ["./streaming"]}], files={"probe": PROBE, "streaming": STREAMING})
        self.check("it is ready", up.until("[up] ready"), True)
        ask(up, {"parts": ["12345"] * 2, "pause": 0.2})
        ask(up, {"parts": ["1"], "ends": "fail"})
        until(lambda: sum(event["type"] == "platform.report" for event in events(up)) == 2, 10)
        done = [event["record"] for event in events(up) if event["type"] == "platform.runtimeDone"]
        self.check("telemetry has its bytes, status and type", [(each["metrics"]["producedBytes"], each["status"],
                                                                 each.get("errorType")) for each in done],
                   [(10, "success", None), (1, "error", "Runtime.Late")])
        spans = {span["name"]: span["durationMs"] for span in done[0]["spans"]}
        self.check("and how long it took", spans["responseDuration"] > 300 > spans["responseLatency"], True)
        self.check("it ends", up.end(), (0, []))

    def test_a_streaming_handler_of_Node_is_streamed(self):
        if not shutil.which("node"):
            print("note node is not here")
            return
        up = WithUrl(functions=[{"name": "f", "runtime": "node", "handler": "app.run", "timeout": 10,
                                 "url": {"invoke": "RESPONSE_STREAM"}}], files={"app.mjs": NODE})
        self.check("it is ready", up.until("[up] ready"), True)
        got = Got(up)
        self.check("a streaming handler", (got.seen, got.headers["Content-Type"]), ((200, b"one,f", True),
                                                                                    "text/plain"))
        self.check("its parts come as they are written", got.moments[-1] - got.moments[0] > 0.2, True)
        got = Got(up, do="http")
        self.check("with a prelude", (got.seen, got.headers["X-A"], got.headers["Set-Cookie"]),
                   ((201, b"one,f", True), "b", "c=d"))
        got = Got(up, do="large")
        self.check("with backpressure", (len(got.body), got.is_whole), (4_000_005, True))
        self.check("an error before its first byte", Got(up, do="early").status, 502)
        self.check("one after it", Got(up, do="late").seen, (200, b"one,", False))
        kind, data = messages(ask(up, {"do": "late"})[2])[-1]
        self.check("by its operation", (kind, json.loads(data)["ErrorCode"],
                                        json.loads(json.loads(data)["ErrorDetails"])[
            "errorMessage"]), ("InvokeComplete", "Runtime.TypeError", "late"))
        self.check("it ends", up.end(), (0, []))

    def test_another_mode_is_refused(self):
        up = Up(functions=[{"name": "f", "command": "true", "url": {"invoke": "STREAM"}}])
        status, _ = up.end(None)
        self.check("another mode is refused", (status, up.lines),
                   (2, ['up: up.json: function f: url: invoke must be "BUFFERED" or "RESPONSE_STREAM", not "STREAM"']))
