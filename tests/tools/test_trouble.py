"""Checks `lambda_local trouble` on functions of lambda_local up: what callers get of a throttle, a cold start, a crash
and a timeout of 15 minutes, and that all goes on after it. The program is LAMBDA_LOCAL_PROGRAM, else ./lambda_local."""
import http.server
import json
import os
import subprocess
import sys
import threading
import time
from typing import Any
from unittest import mock

from lambda_local import endpoint
from lambda_local.exchange import connection, of_threads
from lambda_local.in_process import LambdaLocal
from lambda_local.program import Fault
from lambda_local.trouble import Trouble as Asking, parser
from tests import ROOT
from tests.library.cases import Case
from tests.library.clock_kit import INVOKE, posted, rests
from tests.library.events_kit import READY, READY_SECONDS
from tests.library.up_kit import Up, until

TROUBLE = [sys.executable, os.path.join(ROOT, "tools"), "trouble"]
CLEAN = {name: value for name, value in os.environ.items() if name != "AWS_ENDPOINT_URL_LAMBDA"}
APP = """import os
def run(event):
    with open("seen", "a") as file:
        file.write("x")
    return os.getpid()
"""


def trouble(*words, endpoint):
    """The status, and what is printed on both streams."""
    done = subprocess.run([*TROUBLE, *words], capture_output=True, text=True, timeout=60, stdin=subprocess.DEVNULL,
                          env={**CLEAN, "AWS_ENDPOINT_URL_LAMBDA": endpoint})
    return done.returncode, done.stdout, done.stderr


ODD = ("f: the service answers something else than lambda_local does: name the address that `lambda_local up` prints "
       "by --endpoint")


class Answers(http.server.BaseHTTPRequestHandler):
    """Answers what its server says."""

    server: Any

    def do_GET(self):
        self.rfile.read(int(self.headers.get("Content-Length") or 0))
        status, body = self.server.answer
        self.send_response(status)
        self.send_header("Content-Length", str(len(body)))
        self.end_headers()
        self.wfile.write(body[:len(body) - self.server.cut])

    do_POST = do_PUT = do_DELETE = do_GET

    def log_message(self, *words):
        pass


def fault_of(kind, server):
    """The status and the text of what is said of this server's answers."""
    made = Asking(parser().parse_args(["f", kind, "--endpoint", f"http://127.0.0.1:{server.server_port}"]))
    try:
        return {"cold": made.cold, "throttle": made.throttle, "crash": made.one_invocation}[kind]()
    except Fault as fault:
        return fault.status, str(fault)


class Trouble(Case):
    def test_each_kind_of_trouble_comes_about_once_and_all_rest_after_it(self):
        function = {"name": "f", "runtime": "python", "handler": "app.run", "timeout": 900, "environments": 2}
        up = Up(*READY, functions=[function], app=APP)
        self.check("it is ready", up.until("[up] ready", READY_SECONDS) and rests(up, 0))
        first = up.invoke()[0]
        self.check("all rest", rests(up, 1))
        begun = time.monotonic()
        status, output, said = trouble("f", "timeout", '{"order": 7}', endpoint=up.endpoint)
        report = json.loads(output)
        self.check("a timeout: its caller gets Lambda's report", (status, report["errorType"], report[
            "errorMessage"].endswith(" Task timed out after 900 seconds"), said), (0, "Function.Timeout", True, ""))
        self.check("in seconds", time.monotonic() - begun < 60)
        self.check("the log has Lambda's line", up.until("timeout after 900 s"))
        self.check("all rest again", rests(up, 2))
        status, output, said = trouble("f", "crash", endpoint=up.endpoint)
        self.check("a crash", (status, json.loads(output), said), (0, {
            "errorMessage": "Runtime exited with error: signal: killed", "errorType": "Runtime.ExitError"}, ""))
        self.check("all rest after it", rests(up, 3))
        with open(os.path.join(up.at, "seen")) as file:
            self.check("the handler has seen neither", file.read(), "x")
        status, output, said = trouble("f", "init", endpoint=up.endpoint)
        self.check("an Init that fails", (status, json.loads(output), said), (0, {
            "errorMessage": "Runtime exited with error: exit status 1", "errorType": "Runtime.ExitError"}, ""))
        self.check("of which the log has Lambda's line", up.until(
            "-- Init failed: Runtime exited with error: exit status 1"))
        self.check("all rest after that", rests(up, 4))
        self.check("cold starts", trouble("f", "cold", endpoint=up.endpoint), (0, "2 of 2 environments ended\n", ""))
        self.check("and new ones", rests(up, 4))
        second = up.invoke()[0]
        self.check("are other processes", isinstance(second, int) and second != first)
        child: Any = subprocess.Popen([*TROUBLE, "f", "throttle", "--endpoint", up.endpoint], stderr=subprocess.PIPE,
                                      text=True, env=CLEAN)
        self.check("a throttle is said", child.stderr.readline(), "trouble: f is throttled until Ctrl-C\n")
        status, body = posted(up.endpoint, INVOKE.format("f"))
        self.check("its callers get 429", (status, json.loads(body)["Reason"]),
                   (429, "ReservedFunctionConcurrentInvocationLimitExceeded"))
        child.terminate()
        self.check("until it ends", (child.wait(20), isinstance(up.invoke()[0], int)), (0, True))
        child.stderr.close()
        child = subprocess.Popen([*TROUBLE, "f", "throttle", "--endpoint", up.endpoint], stderr=subprocess.PIPE,
                                 text=True, env=CLEAN)
        self.check("once more", child.stderr.readline(), "trouble: f is throttled until Ctrl-C\n")
        child.kill()
        self.check("also if it is killed", (child.wait(20), until(lambda: isinstance(up.invoke()[0], int), 20),
                                            child.stderr.read()), (-9, True, ""))
        child.stderr.close()
        self.check("or for some time", (trouble("f", "throttle", "--seconds", "0.2", endpoint=up.endpoint)[0],
                                        isinstance(up.invoke()[0], int)), (0, True))
        self.check("it ends", up.end(), (0, []))

    def test_what_is_no_trouble_is_refused(self):
        up = Up(*READY, functions=[{"name": "f", "runtime": "python", "handler": "app.run", "timeout": 9},
                                   {"name": "g", "runtime": "python", "handler": "app.run",
                                    "environments": {"min": 0, "max": 2}}], app=APP)
        self.check("it is ready", up.until("[up] ready", READY_SECONDS) and until(
            lambda: "idle" in up.get("/_local/environments"), 30))
        for words, wanted in (
                (["g", "crash"], "g: 409: it has no idle environment: wait until one is ready"),
                (["h", "timeout"], "h: 404: there is no such function whose runtime lambda_local up has started"),
                (["h", "throttle"], "h: 404 ResourceNotFoundException: Function not found"),
                (["h", "cold"], "h: there is no such function")):
            self.check(f"refused: {words}", trouble(*words, endpoint=up.endpoint), (3, "", f"trouble: {wanted}\n"))
        for query, status in (("function=f&kind=fire", 400), ("function=f", 400), ("kind=crash", 400),
                              ("function=f&function=f&kind=crash", 400), ("function=f&kind=crash&more=1", 400),
                              ("function=f&kind=crash", 202), ("function=f&kind=crash", 409)):
            answer = posted(up.endpoint, f"/_local/trouble?{query}")
            self.check(f"a request for {query}", (answer[0], "errorType" in json.loads(answer[1])),
                       (status, status != 202))
        self.check("a web page may not", posted(up.endpoint, "/_local/trouble?function=f&kind=crash",
                                                headers={"Origin": "http://site.example"})[0], 403)
        self.check("what is not used is given up",
                   up.until("f was not invoked within 30 s: its runtimes go on", 60))
        self.check("and the function answers", isinstance(up.invoke()[0], int))
        self.check("it ends", up.end(), (0, []))

    def test_a_server_that_answers_otherwise_is_told_in_a_line(self):
        """A server that is none of lambda_local, or lies: one line."""
        server: Any = http.server.ThreadingHTTPServer(("127.0.0.1", 0), Answers)
        server.cut = 0
        thread = threading.Thread(target=server.serve_forever)
        thread.start()
        environment = b'{"environments":[{"function":"f","phase":"idle","environment":%b}]}'
        try:
            for body in (b"hello", b"", b"[]", b"null", b"{}", b"\xff", b"[" * 100_000, b'{"environments":7}',
                         b'{"environments":[7]}', b'{"environments":[{"function":"f"}]}', environment % b'"1"',
                         environment % b"true", environment % (b"9" * 5000)):
                server.answer = 200, body
                self.check(f"cold: {body[:40]!r}", fault_of("cold", server), (4, ODD))
            for body in (b"hello", b"[]", b'{"ReservedConcurrentExecutions":"1"}',
                         b'{"ReservedConcurrentExecutions":1e999}', b'{"ReservedConcurrentExecutions":-1}'):
                server.answer = 200, body
                self.check(f"throttle: {body[:40]!r}", fault_of("throttle", server), (4, ODD))
            server.answer = 200, b" " * 20
            with mock.patch.object(endpoint, "MOST_ANSWER", 19):
                self.check("an answer that is too long", fault_of("cold", server), (
                    4, f"http://127.0.0.1:{server.server_port}: its answer has more than 19 bytes, so it is none of "
                       "lambda_local"))
            with mock.patch.object(connection, "MOST_WHOLE", 19), self.assertRaisesRegex(OSError, "more than 19 bytes"):
                of_threads.ask(server.server_port, "GET", "/")
            server.cut = 3
            self.check("one that is cut short", fault_of("cold", server)[1].partition(": start")[0],
                       f"http://127.0.0.1:{server.server_port}: the connection ends within a message")
            server.cut = 0
            server.answer = 202, b"["
            self.check("crash", fault_of("crash", server)[0], 3)
            server.answer = 200, b"["
            self.check("it is one line", trouble("f", "cold", endpoint=f"http://127.0.0.1:{server.server_port}")[::2],
                       (4, f"trouble: {ODD}\n"))
        finally:
            server.shutdown()
            thread.join()
            server.server_close()

    def test_faults_of_the_command_are_told(self):
        for words, wanted in (
                (["f", "fire"], "fire: write throttle, cold, crash, timeout or init"),
                (["f", "cold", "{}"], "cold {}: only crash, timeout and init have a payload"),
                (["f", "crash", "{a"], "{a is not JSON: write for example"),
                (["f", "cold", "--seconds", "1"], "--seconds 1: only throttle has a time")):
            status, output, said = trouble(*words, endpoint="http://127.0.0.1:1")
            self.check(f"a fault: {wanted}", (status, output, said.count("\n"), said.startswith(f"trouble: {wanted}")),
                       (2, "", 1, True), shown=said)
        status, output, said = trouble("f", "cold", endpoint="http://127.0.0.1:1")
        self.check("a service that is not there", (status, said.startswith("trouble: http://127.0.0.1:1: ")), (4, True))

    def test_a_service_without_up_has_cold_starts_alone(self):
        with LambdaLocal(f=lambda event: event) as service:
            self.check("one without lambda_local up", trouble("f", "crash", endpoint=service.endpoint_url),
                       (3, "", "trouble: crash needs a function of `lambda_local up`: the service is without it\n"))
            service.invoke("f")
            self.check("has cold starts", trouble("f", "cold", endpoint=service.endpoint_url)[0] in (0, 1))
