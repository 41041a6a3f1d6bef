"""Checks what the bundled runtimes make of HTTP/1.1 (RFC 9112) in all its forms, and of what is none: a Runtime API
that is written here answers byte by byte as it is told. Also how they name an exception, and the trace that they
make."""
import concurrent.futures
import contextlib
import json
import os
import shutil
import socket
import subprocess
import sys
import tempfile
import threading
import time
import unittest
from typing import Dict, Iterator, List, Optional, Tuple

from tests.library.cases import Case
from tests.library.runtimes_kit import BARE, EXAMPLES

PYTHON = [sys.executable, os.path.join(EXAMPLES, "runtime.py")]
NODE = [shutil.which("node") or "", os.path.join(EXAMPLES, "runtime.mjs")]
APPS = {
    "app.py": '''import os
def handler(event, context):
    do = event.get("do") if isinstance(event, dict) else None
    if do == "trace": return os.environ.get("_X_AMZN_TRACE_ID")
    if do == "named": raise type(event["name"], (Exception,), {})("m")
    if do == "unprintable":
        class Odd(Exception):
            def __str__(self): raise ValueError
        raise Odd
    return len(event) if isinstance(event, str) else event
''',
    "app.mjs": '''export const handler = async (event) => {
  if (event?.do === "trace") return process.env._X_AMZN_TRACE_ID ?? null;
  if (event?.do === "named") throw Object.assign(new Error("m"), { name: event.name });
  if (event?.do === "unprintable") {
    throw Object.defineProperty(new Error(), "message", { get() { throw new Error("x"); } });
  }
  return typeof event === "string" ? event.length : event;
};
''',
    "streams.mjs": '''import { once } from "node:events";
export const handler = awslambda.streamifyResponse(async (event, stream) => {
  for (let n = 0; n < event.parts; n += 1) if (!stream.write(Buffer.alloc(65536))) await once(stream, "drain");
  stream.end();
});
'''}
IDENTIFIER = "01a227f0-4e4d-8000-8001-00000000000a"
INVOCATION = (f"Lambda-Runtime-Aws-Request-Id: {IDENTIFIER}\r\nLambda-Runtime-Deadline-Ms: 4102444800000\r\n"
              "Lambda-Runtime-Invoked-Function-Arn: arn:aws:lambda:us-east-2:123456789012:function:f\r\n").encode()
ENDS = b"HTTP/1.1 500 Internal Server Error\r\nContent-Length: 2\r\n\r\n{}"
ACCEPTED = b"HTTP/1.1 202 Accepted\r\nContent-Length: 0\r\n\r\n"
LONG = 6 * 1024 * 1024 - 2  # letters of the longest event


TOO_LARGE = b"HTTP/1.1 413 Payload Too Large\r\nContent-Length: 2\r\n\r\n{}"
TAKEN = 8 << 20  # bytes of a response that is streamed, after which it is answered


def whole(body: bytes, more: bytes = b"", first: bytes = b"HTTP/1.1 200 OK") -> bytes:
    return b"%s\r\n%sContent-Length: %d\r\n%s\r\n%s" % (first, INVOCATION, len(body), more, body)


def chunked(*chunks: bytes, trailers: bytes = b"") -> bytes:
    body = b"".join(b"%x;a=b\r\n%s\r\n" % (len(chunk), chunk) for chunk in chunks)
    return b"HTTP/1.1 200 OK\r\n%sTransfer-Encoding: Chunked\r\n\r\n%s0\r\n%s\r\n" % (INVOCATION, body, trailers)


# Answers that are HTTP/1.1: a name, the event, its answer, how many bytes of it come at once, and whether the
# connection then ends.
GOOD: Tuple[Tuple[str, bytes, bytes, Optional[int], bool], ...] = (
    ("with a length", b'"a"', whole(b'"a"'), None, False),
    ("in single bytes", b'"ab"', whole(b'"ab"'), 1, False),
    ("in parts of 7 bytes", b'"abc"', chunked(b'"a', b"bc", b'"'), 7, False),
    ("in chunks, with trailers", b'"abcd"', chunked(b'"', b"abcd", b'"', trailers=b"X-Sum: 1\r\nX-More:\r\n"), None,
     False),
    ("without a reason", b'"abcde"', whole(b'"abcde"', first=b"HTTP/1.1 200"), None, False),
    ("with other reasons and headers", b'"abcdef"',
     whole(b'"abcdef"', b"X-Empty:\r\nX-Tab:\t\t x\ty \r\nServer: \xe9\r\n", b"HTTP/1.1 200 As \xe9 you like"), None,
     False),
    ("in upper case", b'"abcdefg"', whole(b'"abcdefg"').replace(b"Lambda-Runtime-", b"LAMBDA-RUNTIME-"), None, False),
    ("after others", b'"12345678"', b"HTTP/1.1 100 Continue\r\n\r\nHTTP/1.1 103 Hints\r\nLink: x\r\n\r\n"
     + whole(b'"12345678"'), None, False),
    ("that says it closes", b'"123456789"', whole(b'"123456789"', b"Connection: close\r\n"), None, True),
    ("that closes without a word", b'"1234567890"', whole(b'"1234567890"'), None, True),
    ("of HTTP/1.0", b'"12345678901"', whole(b'"12345678901"', first=b"HTTP/1.0 200 OK"), None, True),
    ("up to the end of the connection", b'"123456789012"', b"HTTP/1.1 200 OK\r\n" + INVOCATION + b'\r\n"123456789012"',
     None, True),
    ("of 6 MiB", b'"%s"' % (b"x" * LONG), whole(b'"%s"' % (b"x" * LONG)), None, False),
    ("of 6 MiB in chunks", b"\"%s\"" % (b"x" * LONG), chunked(b"\"", *[b"x" * 65_535] * 96, b"\""), None, False),
)
WRONG = {
    "no HTTP": b"hello\r\n\r\n",
    "another version": whole(b"1", first=b"HTTP/2 200 OK"),
    "no status": whole(b"1", first=b"HTTP/1.1 abc OK"),
    "a status of two digits": whole(b"1", first=b"HTTP/1.1 20 OK"),
    "a line that is folded": whole(b"1", b"X-A: b\r\n c\r\n"),
    "a space before a colon": whole(b"1", b"X-A : b\r\n"),
    "a control character": whole(b"1", b"X-A: b\0\r\n"),
    "two lengths": whole(b"1", b"Content-Length: 1\r\n"),
    "a length and chunks": whole(b"1", b"Transfer-Encoding: chunked\r\n"),
    "another coding": chunked(b"1").replace(b"Chunked", b"gzip, chunked"),
    "a length of letters": whole(b"1").replace(b"Length: 1", b"Length: 0x1"),
    "a negative length": whole(b"1").replace(b"Length: 1", b"Length: -1"),
    "a length beyond all": whole(b"1").replace(b"Length: 1", b"Length: 999999999999999999999"),
    "a length that is too great": whole(b"1").replace(b"Length: 1", b"Length: 99999999"),
    "a chunk without a length": chunked(b"1").replace(b"1;a=b", b";a=b"),
    "a chunk that is longer": chunked(b"1").replace(b"1;a=b", b"2;a=b"),
    "a chunk that is too great": chunked(b"1").replace(b"1;a=b", b"ffffffff"),
    "a head without an end": b"HTTP/1.1 200 OK\r\n" + b"X-A: b\r\n" * 30_000,
    "answers 100 without an end": b"HTTP/1.1 100 Continue\r\n\r\n" * 1000,
    "trailers without an end": chunked(b"1")[:-2] + b"X-A: b\r\n" * 1000,
    "chunks without an end": chunked(*[b"x" * 65_536] * 300)[:-5],
    "no identifier": whole(b"1").replace(b"Aws-Request-Id", b"Another-Id"),
    "an identifier with a space": whole(b"1").replace(IDENTIFIER.encode(), b"a b"),
}


class Api:
    """Answers each Next with the next of some bytes, and the rest with 202; after the last Next it says the end."""

    def __init__(self, answers: List[Tuple[bytes, Optional[int], bool]]) -> None:
        self.answers = iter(answers)
        self.posted: List[Tuple[str, bytes]] = []  # heads and bodies
        self.connections = 0
        self.listening = socket.create_server(("127.0.0.1", 0))
        self.port = self.listening.getsockname()[1]
        threading.Thread(target=self.accept, daemon=True).start()

    def accept(self) -> None:
        while True:
            try:
                connection, _ = self.listening.accept()
            except OSError:
                return
            self.connections += 1
            threading.Thread(target=self.serve, args=(connection,), daemon=True).start()

    def serve(self, connection: socket.socket) -> None:
        connection.setsockopt(socket.IPPROTO_TCP, socket.TCP_NODELAY, 1)
        try:
            with connection, connection.makefile("rb") as file:
                for head, body in self.requests(file):
                    answer, part, ends = next(self.answers, (ENDS, None, False)) if head.startswith("GET ") else (
                        ACCEPTED, None, False)
                    if not head.startswith("GET "):
                        self.posted.append((head, body))
                    for begin in range(0, len(answer), part or len(answer)):
                        connection.sendall(answer[begin:begin + (part or len(answer))])
                    if ends:
                        return
        except OSError:  # (it has seen enough of a wrong answer)
            pass

    @staticmethod
    def requests(file) -> Iterator[Tuple[str, bytes]]:
        while lines := [line.decode().rstrip("\r\n") for line in iter(file.readline, b"\r\n") if line]:
            named = {name.lower(): value.strip() for name, _, value in (line.partition(":") for line in lines[1:])}
            yield "\n".join(lines), file.read(int(named.get("content-length", 0)))

    def end(self) -> None:
        self.listening.close()


class Early(Api):
    """Answers a response that is streamed before its end, and takes the rest of it after that."""

    def serve(self, connection: socket.socket) -> None:
        if connection.recv(4, socket.MSG_PEEK) != b"POST":
            return super().serve(connection)
        with connection, contextlib.suppress(OSError):
            left = TAKEN
            while left > 0:  # (slowly, so that the runtime waits for room)
                left -= len(connection.recv(1 << 16))
                time.sleep(0.001)
            connection.sendall(TOO_LARGE)
            while connection.recv(1 << 16):
                pass


def run(command, answers, folder, handler="app.handler", kind=Api) -> Tuple[Api, int, str]:
    """The API when a runtime has ended, its status, and what it printed."""
    api = kind(answers)
    try:
        done = subprocess.run([*command, handler, f"127.0.0.1:{api.port}"], cwd=folder, env=BARE,
                              stdin=subprocess.DEVNULL, capture_output=True, text=True, timeout=120)
    finally:
        api.end()
    return api, done.returncode, done.stderr


class RuntimesHttp(Case):
    @unittest.skipUnless(NODE[0], "Node is not here")
    def test_an_answer_within_a_streamed_response_is_told(self):
        """An answer before the end of a response is told, and is no fault of the handler."""
        with tempfile.TemporaryDirectory() as folder:
            with open(os.path.join(folder, "streams.mjs"), "w", encoding="utf-8") as app:
                app.write(APPS["streams.mjs"])
            _, status, said = run(NODE, [(whole(b'{"parts": 1024}'), None, False)], folder, "streams.handler", Early)
        self.check("Node: an answer within a streamed response", (status, said),
                   (0, f"runtime.mjs: the response to {IDENTIFIER} is refused: 413 {{}}\n"))

    def of_each(self) -> Iterator[Tuple[str, List[str], str]]:
        """Each runtime: its name, its command, and a folder with its handler."""
        for name, command, file in (("Python", PYTHON, "app.py"), ("Node", NODE, "app.mjs")):
            if command[0]:
                with tempfile.TemporaryDirectory() as folder:
                    with open(os.path.join(folder, file), "w", encoding="utf-8") as app:
                        app.write(APPS[file])
                    yield name, command, folder

    def test_answers_of_each_framing_are_read(self):
        for name, command, folder in self.of_each():
            api, status, said = run(command, [row[2:] for row in GOOD], folder)
            self.check(f"{name}: it serves to the end", (status, said), (0, ""))
            seen = [(head.split("\n")[0], body) for head, body in api.posted]
            for (what, event, *_), got in zip(GOOD, [*seen, *[("nothing", b"")] * len(GOOD)]):
                length = len(event) - 2 if "chunks" not in what or len(event) < 100 else 65_535 * 96
                self.check(f"{name}: an answer {what}", got,
                           (f"POST /2018-06-01/runtime/invocation/{IDENTIFIER}/response HTTP/1.1", b"%d" % length))
            self.check(f"{name}: connections", api.connections, 1 + sum(row[4] for row in GOOD))

    def test_what_is_not_of_the_Runtime_API_ends_it_with_a_line(self):
        for name, command, folder in self.of_each():
            with concurrent.futures.ThreadPoolExecutor(4) as pool:
                ends = pool.map(lambda answer: run(command, [(answer, None, True)], folder), WRONG.values())
            for what, (api, status, said) in zip(WRONG, ends):
                begins = (f"{os.path.basename(command[1])}: what 127.0.0.1:{api.port} answers is not of the Runtime "
                          "API: ")
                self.check(f"{name}: {what} ends it with a line",
                           (status, said.startswith(begins), said.count("\n"), len(said) < 400, api.posted),
                           (1, True, 1, True, []), shown=said[:1000])

    def test_an_exceptions_name_is_sent_as_a_header_can_have_it(self):
        """What a header can have of an exception's name, else Unhandled; its report is sent in any case."""
        names = (("Shop.NoOrder", "Shop.NoOrder"), ("KeyError", "Runtime.KeyError"), ("a\nb", "Runtime.Unhandled"),
                 ("a\r\nX-Forged: 1", "Runtime.Unhandled"), ("\u0416", "Runtime.Unhandled"),
                 ("x" * 1000, "Runtime." + "x" * 1000), ("x" * 1001, "Runtime.Unhandled"),
                 ("x" * 100_000, "Runtime.Unhandled"))
        for name, command, folder in self.of_each():
            events = [json_of({"do": "named", "name": each}) for each, _ in names]
            api, status, said = run(command, [(whole(event), None, False) for event in
                                              [*events, b'{"do": "unprintable"}', b'"x"']], folder)
            self.check(f"{name}: it goes on", (status, api.posted[-1][1]), (0, b"1"), shown=said[-1000:])
            seen = [type_in(head) for head, _ in api.posted]
            for (each, wanted), got in zip(names, seen):
                self.check(f"{name}: an exception of the name {each[:20]!r} of {len(each)}", got, wanted)
            self.check(f"{name}: one whose message cannot be had is reported", seen[len(names)] is not None)

    def test_each_invocation_has_its_trace(self):
        """The caller's; else one of the invocation's own, by which its calls are known."""
        own = "Root=1-01a227f0-4e4d8000800100000000000a;Sampled=0"
        for name, command, folder in self.of_each():
            event, given = b'{"do": "trace"}', "Root=1-5759e988-bd862e3fe1be46a994272793;Sampled=1"
            answers = (whole(event), whole(event, f"Lambda-Runtime-Trace-Id: {given}\r\n".encode()),
                       whole(event, b"Lambda-Runtime-Trace-Id: Root=1-00000000-000000000000000000000000;Sampled=0\r\n"),
                       whole(event).replace(IDENTIFIER.encode(), b"another"))
            api, _, said = run(command, [(answer, None, False) for answer in answers], folder)
            self.check(f"{name}: traces", [body for _, body in api.posted],
                       [f'"{own}"'.encode(), f'"{given}"'.encode(), f'"{own}"'.encode(), b"null"], shown=said)


def json_of(members: Dict[str, str]) -> bytes:
    return json.dumps(members).encode()


def type_in(head: str) -> Optional[str]:
    found = [line.partition(": ")[2] for line in head.split("\n")
             if line.lower().startswith("lambda-runtime-function-error-type:")]
    return found[0] if len(found) == 1 else None
