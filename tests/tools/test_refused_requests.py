"""Checks what lambda_local up tells of requests that the service refuses, and of programs that cannot be started. The
program is LAMBDA_LOCAL_PROGRAM, else ./lambda_local."""
import errno
import json
import os
import struct
import sys
import tempfile
from typing import Any, List, NamedTuple

from lambda_local.executables import why_not_found, why_not_started
from lambda_local.history.entries import request_identifier
from lambda_local.service import ask
from lambda_local.telemetry.conversation import Conversation, Ears
from lambda_local.telemetry.refusals import MOST_KINDS, Refusals
from lambda_local.up.rejected import Rejected
from tests.library.cases import Case
from tests.library.clock_kit import posted
from tests.library.events_kit import READY, READY_SECONDS
from tests.library.up_kit import RUNTIME, Up, until

API = "/2018-06-01/runtime/"
HEAD = " HTTP/1.1\r\nHost: a\r\n"
STATE = '{"errorMessage":"Not allowed in the current phase","errorType":"InvalidStateTransition"}'
# What a process sends and is answered, with the line that is told of it.
TOLD = (
    (f"GET {API}next{HEAD}\r\n", 404, "", '{"errorType":"NotFound"}',
     f"GET {API}next: 404, there is no such route: did you mean GET {API}invocation/next?"),
    (f"POST {API}invocation/7/reponse{HEAD}\r\n", 404, "", "{}",
     f"POST {API}invocation/7/reponse: 404, there is no such route: did you mean POST {API}invocation/ID/response?"),
    (f"GET /favicon.ico{HEAD}\r\n", 404, "", "", "GET /favicon.ico: 404, there is no such route"),
    (f"PUT /2022-07-01/telemetry{HEAD}Content-Length: 2\r\n\r\n{{}}", 404, "", "{}",
     'PUT /2022-07-01/telemetry: 404, there is no Telemetry API here: write "telemetry": true at the function'),
    (f"POST {API}invocation/next{HEAD}\r\n", 405, "Allow: GET\r\n", "{}",
     f"POST {API}invocation/next: 405, this route has the method GET"),
    (f"POST {API}invocation/9/response{HEAD}\r\n", 400, "", '{"errorType":"InvalidRequestID"}',
     f"POST {API}invocation/9/response: 400, no invocation that was delivered here has this identifier: write that of "
     "Lambda-Runtime-Aws-Request-Id, letter by letter"),
    (f"POST {API}invocation/8/response{HEAD}\r\n", 403, "", STATE,
     f"POST {API}invocation/8/response: 403, its invocation is over, by an answer or by its timeout"),
    (f"POST {API}init/error{HEAD}\r\n", 403, "", STATE,
     f"POST {API}init/error: 403, the Init is over: from the first Next on, report invocation/ID/error"),
    (f"POST {API}invocation/7/response{HEAD}\r\n", 413, "", '{"errorType":"RequestEntityTooLarge"}',
     f"POST {API}invocation/7/response: 413, its body has more than 6,291,456 bytes: send an error in its place"),
    (f"POST /2020-01-01/extension/register{HEAD}\r\n", 400, "", '{"errorType":"MissingHeader"}',
     "POST /2020-01-01/extension/register: 400, it needs the header Lambda-Extension-Name"),
    (f"POST /2020-01-01/extension/exit/error{HEAD}\r\n", 400, "", '{"errorType":"MissingHeader"}',
     "POST /2020-01-01/extension/exit/error: 400, it needs the header Lambda-Extension-Function-Error-Type"),
    (f"POST /2020-01-01/extension/register{HEAD}\r\n", 400, "", '{"errorType":"InvalidRequestFormat"}',
     'POST /2020-01-01/extension/register: 400, its body must be {"events": [..]}, in JSON'),
    (f"GET /2020-01-01/extension/event/next{HEAD}\r\n", 403, "", '{"errorType":"Extension.UnknownIdentifier"}',
     "GET /2020-01-01/extension/event/next: 403, Lambda-Extension-Identifier must be the one that the answer to its "
     "registration had"),
    (f"GET {API}invocation/next{HEAD}\r\n", 418, "", '{"errorType":"Teapot"}',
     f"GET {API}invocation/next: 418, it is refused (Teapot)"),
)
ASKS = '''#!{python}
import http.client, os, socket
at = os.environ["AWS_LAMBDA_RUNTIME_API"]
def ask(method, path, body=None):
    api = http.client.HTTPConnection(at)
    api.request(method, path, body)
    return api.getresponse().read()
for _ in range(12): ask("GET", "/2018-06-01/runtime/next")
ask("POST", "/2018-06-01/runtime/invocation/7/response", b"x" * 6291457)
half = b"POST /2018-06-01/runtime/init/error HTTP/1.1\\r\\nHost: a\\r\\nContent-Length: 9\\r\\n\\r\\nx"
for sent in (b"hello\\r\\n\\r\\n", half):
    with socket.create_connection((at.split(":")[0], int(at.split(":")[1]))) as raw:
        raw.sendall(sent)
        raw.shutdown(socket.SHUT_WR)
        raw.recv(1000)
os.execv({runtime[0]!r}, {runtime!r})
'''


class Heard(Ears):
    def __init__(self):
        self.lines: List[str] = []
        self.refusals = Refusals(self.lines.append)

    def refused(self, *given):
        self.refusals.refused(*given)

    def unreadable(self, *given):
        self.refusals.unreadable(*given)


def answer(status, headers, body):
    return f"HTTP/1.1 {status} Some Reason\r\n{headers}Content-Length: {len(body)}\r\n\r\n{body}".encode()


def told(requests, answers):
    """What is told of a connection whose client sends these, then ends its side, and is answered so."""
    ears = Heard()
    talk = Conversation(ears)
    for request in requests:
        talk.client_sent(request)
    for one in answers:
        talk.service_sent(one)
    talk.client_sent(b"")
    return ears


class RefusedRequests(Case):
    def test_a_refusal_is_told_in_a_sentence(self):
        for request, status, headers, body, wanted in TOLD:
            lines = told([request.encode()], [answer(status, headers, body)]).lines
            self.check(f"{wanted[:60]} ..", lines, [wanted])

    def test_other_statuses_are_no_refusal(self):
        for status in (200, 202, 500, 503):
            self.check(f"{status} is no refusal of what was asked",
                       told([TOLD[0][0].encode()], [answer(status, "", "{}")]).lines, [])

    def test_what_is_no_request_is_told_in_a_line(self):
        half = f"POST {API}init/error{HEAD}Content-Length: 9\r\n\r\nx".encode()
        for name, sent, wanted in (
                ("other bytes", b"hello\r\n\r\n", "what came is not an HTTP/1.1 request: "),
                ("a body that is cut", half,
                 f"POST {API}init/error: its body is cut short: the connection ended within it"),
                ("broken chunks", f"POST {API}init/error{HEAD}Transfer-Encoding: chunked\r\n\r\nxyz\r\n".encode(),
                 f"POST {API}init/error: its body is malformed: ")):
            lines = told([sent], []).lines
            self.check(f"{name}: one line", (len(lines), lines[:1] and lines[0].startswith(wanted)), (1, True))
        self.check("a connection without a request is none", told([b""], []).lines, [])

    def test_refusals_of_one_kind_are_counted(self):
        request, refused = TOLD[0][0].encode(), answer(404, "", "{}")
        ears = told([request] * 57, [refused] * 57)
        ears.refusals.end()
        self.check("the first is told in full, then how many there are", ears.lines[1:],
                   [f"GET {API}next: 404, 10 times so far", f"GET {API}next: 404, 57 times so far"])
        paths = [f"POST {API}invocation/{number}/response{HEAD}\r\n".encode() for number in range(5)]
        lines = told(paths, [answer(400, "", '{"errorType":"InvalidRequestID"}')] * 5).lines
        self.check("requests that differ by the identifier alone are of one kind", len(lines), 1)
        others = [f"GET /{'x' * number}{HEAD}\r\n".encode() for number in range(60)]
        lines = told(others, [refused] * 60).lines
        self.check("there is an end to what is told", (len(lines), lines[-1]),
                   (MOST_KINDS + 1, f"{MOST_KINDS} kinds of refused requests are reported; further kinds are not"))
        (long,) = told([f"GET /{'x' * 5000}{HEAD}\r\n".encode()], [refused]).lines
        self.check("and to a line", len(long) < 250)

    def test_up_tells_refused_requests_by_a_line(self):
        # (an Init that is ended after 10 s, on a machine that does much else, would ask again)
        asking = {"name": "f", "command": ["./asks"], "handler": "app.run", "logs": "exact", "init": 200}
        up = Up(*READY, functions=[asking],
                files={"asks": ASKS.format(python=sys.executable, runtime=RUNTIME)}, command=("--", "true"))
        self.check("up ends", up.process.wait(READY_SECONDS), 0)
        up.reader.join(10)
        for line in (f"[f/1] -- GET {API}next: 404, there is no such route: did you mean GET {API}invocation/next?",
                     f"[f/1] -- GET {API}next: 404, 10 times so far", f"[f/1] -- GET {API}next: 404, 12 times so far",
                     f"[f/1] -- POST {API}invocation/7/response: 4", "[f/1] -- what came is not an HTTP/1.1 request: ",
                     f"[f/1] -- POST {API}init/error: its body is cut short"):
            self.check(f"a line has {line[10:70]} ..", len([one for one in up.lines if line in one]), 1, shown=up.lines)

    def test_up_tells_refused_requests_that_no_proxy_hears(self):
        """Those of a command that has its environment's own port, and of a runtime that is started by hand."""
        functions = [{"name": "f", "command": ["./asks"], "handler": "app.run"}, {"name": "by_hand", "ports": [0]}]
        up = Up(*READY, "--allow-unready", functions=functions,
                files={"asks": ASKS.format(python=sys.executable, runtime=RUNTIME)})
        self.check("a runtime is asked for", up.until("by_hand/1: 127.0.0.1:", READY_SECONDS))
        self.check("it answers after what was refused", until(lambda: '"idle"' in up.get("/_local/environments"),
                                                              READY_SECONDS))
        port = int(up.told(r"by_hand/1: 127\.0\.0\.1:(\d+)"))
        ask(port, "GET", "/2018-06-01/runtime/invocation/next%0a?a=b", "x")
        salt = json.loads(up.history().splitlines()[1])["salt"]
        no_such = f"{API}invocation/{request_identifier(salt, 2, 7)}/response"
        self.check("an answer before an invocation", ask(port, "POST", no_such, "x")[0], 403)
        self.check("a request of a caller", outcome_of(up, "/2015-03-31/functions/g/invocations"), 404)
        self.check("it ends", up.end()[0], 0)
        for line, count in (
                (f"[f/1] -- GET {API}next: 404, there is no such route: did you mean GET {API}invocation/next?", 1),
                (f"[f/1] -- POST {API}invocation/7/response: 4", 1),
                ("[f/1] -- what came is refused: 400, these bytes are not a request of HTTP/1.1; send HTTP, ", 1),
                (f"[f/1] -- POST {API}init/error: 400, the body ended early, or is not chunked", 1),
                (f"[by_hand/1] -- POST {no_such}: 403, its invocation is over, by an answer or by its timeout", 1),
                ("[service] -- requests at environments' ports: 404, 12 more; no such route of the Runtime API", 1),
                (" -- ", 6)):
            self.check(f"a line has {line[:70]} ..", len([one for one in up.lines if line in one]), count,
                       shown=up.lines)

    def test_a_line_of_the_services_log_is_told_of_its_environment(self):
        class Here(NamedTuple):
            name: str
            function: str

        class Heard:
            def is_heard(self, number):
                return number == 2

        class Started:
            configuration = {"functions": [{"ports": [9001, 9002]}, {"ports": [9003]}]}
            handled = {"url of function f": 9100}
            lines = ["[INFO  lambda_local] listening"]
        told: List[Any] = []
        started: Any = Started
        heard: Any = Heard()
        here = {1: Here("f/1", "f"), 2: Here("f/2", "f"), 3: Here("g/1", "g")}
        rejected = Rejected(started, heard, here, lambda who, text, **more: told.append((who, text, more)))
        begun = "[INFO  lambda_local::rejected] "
        for line, wanted in (
                ("404 GET /a at port 9003: no such route", ("g/1", "-- GET /a: 404, there is no such route")),
                ("404 GET /a at port 9002: no such route", None), ("404 GET /a at port 9000: no such route", None),
                ("404 at a callers' port: 5 more since; no such route", None), ("404", None),
                ("405 POST /2018-06-01/runtime/invocation/next?a at port 9001: this route does not have this method",
                 ("f/1", "-- POST /2018-06-01/runtime/invocation/next: 405, this route has the method GET")),
                ('400 POST /2020-01-01/extension/register at port 9001, {"errorMessage":"a: b",'
                 '"errorType":"MissingHeader"}: x', ("f/1", "-- POST /2020-01-01/extension/register: 400, it needs the "
                                                     "header Lambda-Extension-Name")),
                ("501 POST /a at port 9001: the coding; send it", ("f/1", "-- POST /a: 501, the coding; send it")),
                ("403 GET /a?b at port 9100: the host is foreign",
                 ("up", "url of function f: GET /a: 403, the host is foreign")),
                ("400 port 9100: these bytes", ("up", "url of function f: what came is refused: 400, these bytes")),
                ("400 port 9001: these bytes", ("f/1", "-- what came is refused: 400, these bytes")),
                ("413 at an environment's port: 5000 more since; the body is too long",
                 ("service", "-- requests at environments' ports: 413, 5,000 more; the body is too long"))):
            Started.lines.append(begun + line)
            rejected.look()
            self.check(f"told of {line[:50]}", [one[:2] for one in told], [] if wanted is None else [wanted])
            told.clear()
        rejected.look()
        self.check("each line is read once", told, [])


def outcome_of(up, path):
    """The status of an invocation."""
    return posted(up.endpoint, path, b"{}")[0]


def elf(machine, loader=b""):
    """The head of an ELF file of 64 bits for this machine, with this loader (System V ABI)."""
    head = b"\x7fELF" + bytes([2, 1, 1]) + bytes(9) + struct.pack("<HHIQQQIHHHHHH", 2, machine, 1, 0, 64, 0, 0, 64, 56,
                                                                1 if loader else 0, 0, 0, 0)
    return head + (struct.pack("<IIQQQQQQ", 3, 4, 120, 0, 0, len(loader), len(loader), 1) + loader if loader else b"")


class Executables(Case):
    def test_why_a_program_was_not_started_is_told(self):
        own = {"x86_64": 62, "aarch64": 183}[os.uname().machine]
        cases = (("a script without #!", b"echo\n", errno.ENOEXEC, "has no #! line"),
                 ("no interpreter", b"#!/no/such\necho\n", errno.ENOENT, "needs the interpreter /no/such"),
                 ("line ends of Windows", b"#!/bin/sh\r\necho\r\n", errno.ENOENT, "has the line ends of Windows"),
                 ("nothing", b"", errno.ENOEXEC, "is empty"),
                 ("another machine", elf(22), errno.ENOEXEC, "is built for s390x, and this machine is "),
                 ("another loader", elf(own, b"/lib/ld-none.so.1\0"), errno.ENOENT,
                  "needs the loader /lib/ld-none.so.1"),
                 ("half a head", elf(own)[:12], errno.ENOEXEC, "is cut short"),
                 ("what does not show", elf(own), errno.ENOMEM, os.strerror(errno.ENOMEM)))
        with tempfile.TemporaryDirectory() as folder:
            path = os.path.join(folder, "program")
            self.check("what is not there has no reason", why_not_found(path), None)
            self.check("a folder is none", why_not_found(folder), "is a folder")
            for name, content, number, wanted in cases:
                with open(path, "wb") as file:
                    file.write(content)
                os.chmod(path, 0o755)
                why = why_not_started(path, OSError(number, os.strerror(number)))
                self.check(f"{name}: {why}", why.startswith(wanted))
            os.chmod(path, 0o644)
            self.check("one without the x bit is told how to get it", why_not_found(path),
                       f"is not executable: chmod +x {path}")

    def test_up_tells_how_a_command_is_made_to_start(self):
        up = Up(functions=[{"name": "f", "command": ["./app.py"]}])
        self.check("a command without the x bit ends up with status 4", up.process.wait(60), 4)
        up.reader.join(10)
        self.check("and the remedy", up.count(r"function f: ./app.py is not executable: chmod \+x "), 1)
        up = Up("--ready", "1", functions=[{"name": "f", "command": ["./script"]}], command=("--", "true"),
                files={"script": "#!/no/such\n"})
        up.process.wait(60)
        up.reader.join(10)
        self.check("a missing interpreter is named",
                   up.count("could not be started: ./script needs the interpreter /no/such") > 0)
