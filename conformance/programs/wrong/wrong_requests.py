"""Runtimes with one mistake each in the requests that they make, or in how they read the answers. A class is named
after its mistake, `check` is the check that catches it, and `also` are others that cannot but catch it too."""
import os
import signal
import sys
import time

from connection import Connection
from shared_mistakes import is_scenario
from sound_runtime import Runtime

LARGE = {"payload_limit", "output_limit", "many_invocations", "long_text", "slow_answers", "cut_event", "more_headers",
         "chunked_answers"}


# ---- requests that are refused, or never answered --------------------------------------------------------------------

class Changed:
    """A socket; what is sent on it is changed first."""

    def __init__(self, sock, change):
        self.sock, self.change = sock, change

    def __getattr__(self, name):
        return getattr(self.sock, name)

    def sendall(self, data):
        self.sock.sendall(self.change(data))


class Sends(Connection):
    change = staticmethod(lambda data: data)

    def connect(self):
        is_new = self.sock is None
        super().connect()
        if is_new:
            self.sock = Changed(self.sock, self.change)


def sending(change):
    return type("Changing", (Sends,), {"change": staticmethod(change)})


class HasNoHost(Runtime):
    check, connected = "first_echo", sending(lambda data: data.replace(b"Host: ", b"X-Host: ", 1))


class MisspellsNext(Runtime):
    check = "first_echo"

    def next(self):
        return self.ask("GET", "invocations/next")


class AsksByPost(Runtime):
    check = "first_echo"

    def next(self):
        return self.ask("POST", "invocation/next")


class UsesAnotherVersion(Runtime):
    check = "first_echo"
    connected = sending(lambda data: data.replace(b"/2018-06-01/", b"/2018-06-02/", 1))


class DoublesTheSlash(Runtime):
    check, connected = "first_echo", sending(lambda data: data.replace(b" /2018", b" //2018", 1))


class MisspellsTheResponse(Runtime):
    check = "first_echo"

    def ask(self, method, path, body=None, headers=None):
        return super().ask(method, path.replace("/response", "/responses"), body, headers)


class SaysNoLength(Runtime):
    check, connected = "first_echo", sending(lambda data: data.replace(b"Content-Length: ", b"X-Length: ", 1))


class CountsTheLineEnd(Runtime):
    """That it does not send."""
    check = "first_echo"

    class Counting(Connection):
        def request(self, method, path, body=None, headers=None):
            if not body or not isinstance(body, bytes):
                return super().request(method, path, body, headers)
            self.connect()
            head = f"{method} {path} HTTP/1.1\r\nHost: {self.address}\r\nContent-Length: {len(body) + 1}\r\n\r\n"
            return self.sock.sendall(head.encode() + body)

    connected = Counting


class SendsALineEndMore(Runtime):
    """Behind its body; a service may skip it, and need not."""
    check, connected = "first_echo", sending(lambda data: data + b"\r\nx" if data.startswith(b"POST") else data)


class SaysTwoLengths(Runtime):
    check = "first_echo"

    def ask(self, method, path, body=None, headers=None):
        return super().ask(method, path, body, {**(headers or {}), **({"Content-Length": "3"} if body else {})})


class KeepsItsFirstIdentifier(Runtime):
    check, first = "first_echo", None

    def respond(self, request, output):
        self.first = self.first or request
        return super().respond(self.first, output)


class EndsAfterEachInvocation(Runtime):
    check = "first_echo"

    def respond(self, request, output):
        super().respond(request, output)
        sys.exit(0)


class ReadsUntilTheEnd(Runtime):
    """Of the connection, as a client of HTTP/1.0 does."""
    check = "first_echo"

    class ToTheEnd(Connection):
        def body(self, status, headers):
            body = super().body(status, headers)
            while self.sock.recv(1):
                pass
            return body

    connected = ToTheEnd


class CompressesItsOutputs(Runtime):
    check = "first_echo"

    def dump(self, output):
        import gzip
        return gzip.compress(super().dump(output))


# ---- streams ---------------------------------------------------------------------------------------------------------

class Streams(Connection):
    """The chunks of a body by `chunked`."""

    @staticmethod
    def given(parts):
        return [part for part in parts if part]

    def request(self, method, path, body=None, headers=None):
        if body is None or isinstance(body, bytes):
            return super().request(method, path, body, headers)
        self.connect()
        lines = [f"{method} {path} HTTP/1.1", f"Host: {self.address}", "Transfer-Encoding: chunked",
                 *(f"{name}: {value}" for name, value in (headers or {}).items())]
        return self.sock.sendall("\r\n".join(lines).encode() + b"\r\n\r\n" + self.chunked(self.given(body)))


def streaming(chunked):
    return type("Streaming", (Streams,), {"chunked": staticmethod(chunked)})


class SendsNoLastChunk(Runtime):
    check = "stream"
    connected = streaming(lambda parts: b"".join(b"%x\r\n%b\r\n" % (len(part), part) for part in parts))


class WritesSizesInDecimal(Runtime):
    check = "stream"
    connected = streaming(lambda parts: b"".join(b"%d\r\n%b\r\n" % (len(part), part) for part in (*parts, b"")))


class ForgetsTheEndsOfItsChunks(Runtime):
    check = "stream"
    connected = streaming(lambda parts: b"".join(b"%x\r\n%b" % (len(part), part) for part in parts) + b"0\r\n\r\n")


class EndsItsStreamAtAnEmptyPart(Runtime):
    check = "stream"

    class connected(Streams):
        given = staticmethod(list)

        @staticmethod
        def chunked(parts):
            return b"".join(b"%x\r\n%b\r\n" % (len(part), part) for part in (*parts, b""))


class CountsTheCharactersOfItsChunks(Runtime):
    check = "stream"
    connected = streaming(lambda parts: b"".join(
        b"%x\r\n%b\r\n" % (len(part.decode()), part) for part in (*parts, b"")))


class StreamsForEver(Runtime):
    """Once it has streamed, all that it sends says that it is a stream."""
    check, has_streamed = "stream", False

    def stream(self, request, parts):
        self.has_streamed = True
        super().stream(request, parts)

    def ask(self, method, path, body=None, headers=None):
        if self.has_streamed and isinstance(body, bytes):
            headers = {"Transfer-Encoding": "chunked", **(headers or {})}
        return super().ask(method, path, body, headers)


class EndsAfterALargeOutput(Runtime):
    check, also = "output_limit", {"payload_limit", "too_large", "many_invocations"}

    def respond(self, request, output):
        super().respond(request, output)
        if isinstance(output, str) and len(output) > 1_000_000:
            sys.exit(1)


class StreamsTheFirstPart(Runtime):
    check = "stream"

    def stream(self, request, parts):
        super().stream(request, parts[:1])


class StreamsTheLastPartTwice(Runtime):
    check = "stream"

    def stream(self, request, parts):
        super().stream(request, [*parts, parts[-1]])


class MisspellsTheMode(Runtime):
    check = "stream"

    def ask(self, method, path, body=None, headers=None):
        headers = {name: "stream" if name.endswith("Mode") else value for name, value in (headers or {}).items()}
        return super().ask(method, path, body, headers)


class StreamsQuotedParts(Runtime):
    check = "stream"

    def stream(self, request, parts):
        super().stream(request, [f'"{part}"' for part in parts])


# ---- answers ---------------------------------------------------------------------------------------------------------

class ReadsOnce(Runtime):
    """Takes what one read of the connection gives for the whole answer."""
    check, also = "long_text", LARGE

    class Once(Connection):
        def _take(self, count):
            if not self.received and count:
                self._receive()
            taken = bytes(self.received[:count])
            del self.received[:count]
            return taken

    connected = Once


class SplitsHeadersAtASpace(Runtime):
    check, outcome = "header_spaces", "SHOULD"

    class AtASpace(Connection):
        def _until(self, end):
            data = super()._until(end)
            if end == b"\r\n\r\n":
                lines = [line for line in data.split(b"\r\n")[1:-2] if not line.lower().startswith((b"content", b"tr"))]
                if any(len(line.split(b": ", 1)) != 2 or line.split(b": ", 1)[1][:1] in (b" ", b"\t")
                       for line in lines if not line.endswith(b":") and line[-2:] != b": "):
                    sys.exit("a header without a space")
            return data

    connected = AtASpace


class FindsHeadersByAPart(Runtime):
    """Of their names: the last header that ends so is taken."""
    check = "more_headers"

    def one_invocation(self):
        answer = self.next()
        found = [value for name, value in answer.headers.items() if name.endswith("request-id")]
        if answer.status == 200:
            answer.headers["Lambda-Runtime-Aws-Request-Id"] = found[-1]
        self.next = lambda: answer
        try:
            super().one_invocation()
        finally:
            del self.next


class TakesAnyAnswerForAnEvent(Runtime):
    """Does not look at the status of Next."""
    check = "ends_at_500"

    def next_refused(self, answer):
        try:
            self.respond("none", self.call(self.read(answer.body), {}))
        except Exception:
            time.sleep(0.01)


class EndsLateAtSigterm(Runtime):
    check = "ends_at_sigterm"

    def begin(self):
        signal.signal(signal.SIGTERM, lambda *_: (time.sleep(6), os._exit(0)))


class GivesAHandlerThreeSeconds(Runtime):
    """Whatever the deadline is."""
    check, also, settings = "long_handler", {"late_response", "long_refusal"}, {"idle-seconds": 4}

    def call(self, event, headers):
        if isinstance(event, dict) and event.get("do") == "sleep" and event["value"] > 3000:
            time.sleep(3)
            raise TimeoutError("the handler takes too long")
        return super().call(event, headers)


class LosesItsConnectionDuringLongWork(Runtime):
    check = "long_handler"

    def respond(self, request, output):
        if is_scenario("works_for_long") and isinstance(output, int):
            return None  # (as a client does whose connection has been idle for too long)
        return super().respond(request, output)
