#!/usr/bin/env python3
"""Further runtimes in the shapes of clients, as their public sources have them: what they send is what those send, and
in the same order. A class is named after its client, or after what it does otherwise than most.

usage: clients.py SHAPE   (in a folder with the kit's handlers, as the kit starts a runtime)"""
import contextlib
import json
import os
import select
import subprocess
import sys
import threading
import time

sys.path.insert(0, os.path.join(os.path.dirname(os.path.dirname(os.path.realpath(__file__))), "wrong"))
from connection import Connection  # noqa: E402
from sound_runtime import Parts, Runtime  # noqa: E402

CAUSE = json.dumps({"working_directory": "/var/task", "exceptions": [{"message": "x" * 2000, "stack": []}]})


# ---- the clients of languages ----------------------------------------------------------------------------------------

class GoClient(Runtime):
    """aws-lambda-go: each response in chunks, with the names of trailers that it then does not need."""

    class Trailers(Connection):
        def request(self, method, path, body=None, headers=None):
            if method == "POST" and path.endswith("/response"):
                headers = {**(headers or {}), "Content-Type": "application/json",
                           "Trailer": "Lambda-Runtime-Function-Error-Type, Lambda-Runtime-Function-Error-Body"}
                body = [body] if isinstance(body, bytes) else body
            return super().request(method, path, body, headers)

    connected = Trailers

    def error_headers(self, fault):
        return {"Content-Type": "application/vnd.aws.lambda.error+json",
                "Lambda-Runtime-Function-XRay-Error-Cause": "{}"}

    def report(self, fault):
        return {"errorMessage": str(fault), "errorType": type(fault).__name__}


class CppClient(Runtime):
    """aws-lambda-cpp: asks three times if Next is refused, and ends if an answer of its own is. Its handler is compiled
    in."""
    refused = 0

    def load(self):
        os.environ["_HANDLER"] = "conformance.handler"
        super().load()

    def next_refused(self, answer):
        self.refused += 1
        if self.refused == 3:
            sys.exit("Exhausted all retries. This is probably a bug")

    def sent(self, answer, request, output):
        if answer.status >= 400:
            sys.exit("the outcome could not be posted")

    def report(self, fault):
        return {"errorMessage": str(fault), "errorType": type(fault).__name__, "stackTrace": []}


class JavaNative(Runtime):
    """The Java client: names with their packages and outer classes, causes, a connection of its own for each Init's
    error."""

    def report(self, fault):
        kind = f"com.example.Handler${type(fault).__name__}"
        return {"errorMessage": str(fault), "errorType": kind, "stackTrace": ["com.example.Handler.run(H.java:1)"],
                "cause": {"errorMessage": str(fault), "errorType": kind, "stackTrace": []}}

    def error_headers(self, fault):
        return {"Lambda-Runtime-Function-Error-Type": f"com.example.Handler${type(fault).__name__}",
                "Lambda-Runtime-Function-XRay-Error-Cause": CAUSE}


class DotNetStreams(Runtime):
    """RuntimeSupport: the body of each response is a stream, and so in chunks."""

    def respond(self, request, output):
        if isinstance(output, Parts):
            return super().respond(request, output)
        return self.sent(self.ask("POST", f"invocation/{request}/response", [self.dump(output)],
                                  {"Content-Type": "application/json"}), request, output)

    def report(self, fault):
        return {**super().report(fault), "cause": {"errorType": "AggregateException", "errorMessage": str(fault)}}


class NodeTrailers(Runtime):
    """The Node client: streams announce trailers; a report has `trace`."""

    def stream(self, request, parts):
        answer = self.ask("POST", f"invocation/{request}/response", [part.encode() for part in parts], {
            "Lambda-Runtime-Function-Response-Mode": "streaming", "Content-Type": "application/octet-stream",
            "Trailer": "Lambda-Runtime-Function-Error-Type, Lambda-Runtime-Function-Error-Body"})
        self.sent(answer, request, parts)

    def report(self, fault):
        return {"errorType": type(fault).__name__, "errorMessage": str(fault), "trace": [str(fault), "at handler"]}

    def error_headers(self, fault):
        return {"lambda-runtime-function-error-type": type(fault).__name__,
                "lambda-runtime-function-xray-error-cause": CAUSE}


class RubyNet(Runtime):
    """The Ruby client: a connection for each request, which says so."""

    def headers(self):
        return {"Connection": "close", "Accept": "*/*", "Accept-Encoding": "gzip;q=1.0,deflate;q=0.6,identity;q=0.3"}

    def ask(self, *arguments, **named):
        self.connection.close()
        return super().ask(*arguments, **named)

    def report(self, fault):
        return {**super().report(fault), "errorType": f"Function<{type(fault).__name__}>"}

    def error_headers(self, fault):
        return {"Lambda-Runtime-Function-Error-Type": "Function<UserException>"}


class PythonClient(Runtime):
    """awslambdaric: JSON in ASCII, a report with its request identifier."""

    def dump(self, output):
        return json.dumps(output, ensure_ascii=True).encode()

    def report(self, fault):
        return {"errorMessage": str(fault), "errorType": type(fault).__name__, "requestId": "", "stackTrace": []}

    def error_headers(self, fault):
        return {"Lambda-Runtime-Function-XRay-Error-Cause": CAUSE}


class Swift(Runtime):
    """swift-aws-lambda-runtime: a type and a message, no more."""

    def report(self, fault):
        return {"errorType": type(fault).__name__, "errorMessage": str(fault)}

    def error_headers(self, fault):
        return {"lambda-runtime-function-error-type": "Unhandled"}


class Deno(Runtime):
    """A client by `fetch`: names in lower case, and headers that fetch adds. Its stack is a text of another name."""

    def headers(self):
        return {"accept": "*/*", "accept-encoding": "gzip,br", "user-agent": "Deno/1.0", "accept-language": "*"}

    def report(self, fault):
        return {"errorType": type(fault).__name__, "errorMessage": str(fault), "stack": f"Error\n  at {fault}"}


class Php(Runtime):
    """A language with one type for lists and objects: of an object without members it makes an empty list. Its numbers
    have 14 digits by default."""

    def read(self, payload):
        return json.loads(payload, object_hook=lambda value: value or [],
                          parse_float=lambda text: float(f"{float(text):.14g}"))


class CompiledIn(Runtime):
    """lambda_runtime for Rust: nothing is loaded by _HANDLER, and so no Init fails."""

    def load(self):
        os.environ["_HANDLER"] = "conformance.handler"
        super().load()

    def report(self, fault):
        return {"errorType": f"&{type(fault).__name__}", "errorMessage": str(fault)}

    def error_headers(self, fault):
        return {"lambda-runtime-function-error-type": "unhandled"}


# ---- what HTTP/1.1 allows --------------------------------------------------------------------------------------------

class Written(Connection):
    """How requests are written: `send` sends their bytes."""

    def connect(self):
        is_new = self.sock is None
        super().connect()
        if is_new:
            self.sock = Socket(self.sock, self.send)

    def send(self, sock, data):
        sock.sendall(data)


class Socket:
    def __init__(self, sock, send):
        self.sock, self.send = sock, send

    def __getattr__(self, name):
        return getattr(self.sock, name)

    def sendall(self, data):
        self.send(self.sock, data)


def writing(send):
    return type("Writing", (Written,), {"send": lambda self, sock, data: send(self, sock, data)})


def changed(change):
    return writing(lambda self, sock, data: sock.sendall(change(data)))


def byte_by_byte(self, sock, data):
    """The first bytes; the rest of what is long as a whole."""
    for place in range(min(300, len(data))):
        sock.sendall(data[place:place + 1])
    sock.sendall(data[300:])


def head_apart(self, sock, data):
    head, end, body = data.partition(b"\r\n\r\n")
    sock.sendall(head + end)
    if body:
        time.sleep(0.005)
        sock.sendall(body)


def expecting(self, sock, data):
    """As curl does before a long body."""
    head, end, body = data.partition(b"\r\n\r\n")
    if len(body) < 1_000_000:
        return sock.sendall(data)
    sock.sendall(head + b"\r\nExpect: 100-continue" + end)
    select.select([sock], [], [], 1)
    return sock.sendall(body)


class ByteByByte(Runtime):
    connected = writing(byte_by_byte)


class HeadApart(Runtime):
    connected = writing(head_apart)


class ExpectsContinue(Runtime):
    connected = writing(expecting)


class EmptyLineFirst(Runtime):
    """As old clients send behind a body."""
    connected = changed(lambda data: b"\r\n" + data)


class NoSpaces(Runtime):
    """Between a header's colon and its value."""
    connected = changed(lambda data: data.replace(b": ", b":", 1))


class UpperCaseHex(Runtime):
    """Sizes of chunks in capitals, with zeros before them."""

    class Upper(Connection):
        def request(self, method, path, body=None, headers=None):
            if body is None or isinstance(body, bytes):
                return super().request(method, path, body, headers)
            self.connect()
            lines = [f"{method} {path} HTTP/1.1", f"Host: {self.address}", "Transfer-Encoding: Chunked",
                     *(f"{name}: {value}" for name, value in (headers or {}).items())]
            data = b"".join(b"00%X\r\n%b\r\n" % (len(part), part) for part in (*filter(None, body), b""))
            return self.sock.sendall("\r\n".join(lines).encode() + b"\r\n\r\n" + data)

    connected = Upper

    def respond(self, request, output):
        if isinstance(output, Parts):
            return super().respond(request, output)
        return self.sent(self.ask("POST", f"invocation/{request}/response", [self.dump(output)]), request, output)


class AbsoluteForm(Runtime):
    """As a client writes it that has a proxy in its variables (RFC 9112, section 3.2.2)."""

    class Absolute(Connection):
        def request(self, method, path, body=None, headers=None):
            super().request(method, f"http://{self.address}{path}", body, headers)

    connected = Absolute


class Http10(Runtime):
    """A connection for each request, in HTTP/1.0."""

    class Old(Connection):
        def request(self, method, path, body=None, headers=None):
            self.close()
            self.connect()
            lines = [f"{method} {path} HTTP/1.0", f"Host: {self.address}",
                     *(f"{name}: {value}" for name, value in (headers or {}).items())]
            body = body if body is None or isinstance(body, bytes) else b"".join(body)
            lines += [f"Content-Length: {len(body or b'')}"] if method != "GET" else []
            self.sock.sendall("\r\n".join(lines).encode() + b"\r\n\r\n" + (body or b""))

    connected = Old

    def respond(self, request, output):
        return super().respond(request, "".join(output) if isinstance(output, Parts) else output)


# ---- processes, threads and connections ------------------------------------------------------------------------------

class TwoConnections(Runtime):
    """One for Next, one for all else."""

    def __init__(self):
        super().__init__()
        self.polling = self.connected(self.address)

    def next(self):
        other, self.connection = self.connection, self.polling
        try:
            return super().next()
        finally:
            self.connection = other


class EnablesSigterm(Runtime):
    """As aws-lambda-go and lambda_runtime do: an internal extension without events, whose one Next waits for ever."""

    def begin(self):
        threading.Thread(target=self.wait_for_ever, daemon=True).start()

    def wait_for_ever(self):
        extension = Connection(self.address)
        with contextlib.suppress(ConnectionError):
            extension.request("POST", "/2020-01-01/extension/register", b'{"events":[]}',
                              {"Lambda-Extension-Name": "GoLangEnableSIGTERM"})
            identifier = extension.answer().headers["Lambda-Extension-Identifier"]
            extension.request("GET", "/2020-01-01/extension/event/next", None,
                              {"Lambda-Extension-Identifier": identifier})
            extension.answer()


class ThreadForEach(Runtime):
    """Each invocation has a thread of its own, which responds too."""

    def one_invocation(self):
        answer = self.next()
        self.next = lambda: answer
        thread = threading.Thread(target=self.serve_one)
        thread.start()
        thread.join()
        del self.next
        if self.ends:
            sys.exit(1)

    ends = False

    def serve_one(self):
        try:
            super().one_invocation()
        except SystemExit:
            self.ends = True


class Supervised(Runtime):
    """A process that starts the one that works, waits for it, and ends as it has ended."""

    def run(self):
        if len(sys.argv) > 2:
            return super().run()
        return sys.exit(subprocess.run([sys.executable, "-S", *sys.argv, "works"]).returncode)


class SlowToStart(Runtime):
    """Two seconds of Init, as a framework takes."""

    def begin(self):
        time.sleep(2)


class AsksLate(Runtime):
    """Cleans up for a while after each response."""

    def sent(self, answer, request, output):
        super().sent(answer, request, output)
        time.sleep(0.02)


CLIENTS = {name: shape for name, shape in list(globals().items())
           if isinstance(shape, type) and issubclass(shape, Runtime) and shape is not Runtime}

if __name__ == "__main__":
    CLIENTS[sys.argv[1]]().run()
