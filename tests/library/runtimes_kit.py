"""What the tests of the runtimes of examples/ have in common: a service with a runtime of its own."""
import contextlib
import json
import os
import re
import shutil
import signal
import subprocess
import tempfile
import threading
import time

from lambda_local.service import Service, ask
from tests import ROOT
from tests.library.cases import Case

EXAMPLES = os.path.join(ROOT, "examples")
TRACE = "Root=1-5759e988-bd862e3fe1be46a994272793;Sampled=1"
OWN_NAMES = ("_HANDLER", "LAMBDA_TASK_ROOT", "_X_AMZN_TRACE_ID", "AWS_EXECUTION_ENV", "PYTHONPATH", "NODE_OPTIONS")
BARE = {name: value for name, value in os.environ.items()
        if name not in OWN_NAMES and not name.startswith("AWS_LAMBDA_")}


class Running:
    """A service of one function with one environment, and a runtime over files of its own."""

    def __init__(self, command, files=(), timeout=60, run_from=None, **variables):
        self.command, self.files, self.timeout = command, dict(files), timeout
        self.run_from, self.variables = run_from, variables

    def __enter__(self):
        self.folder = tempfile.mkdtemp()
        for name, text in self.files.items():
            path = os.path.join(self.folder, name)
            os.makedirs(os.path.dirname(path), exist_ok=True)
            with open(path, "w") as file:
                file.write(text)
        self.service = Service({"account": "123456789012", "region": "us-east-2",
                                "functions": [{"name": "f", "ports": [0], "timeout": self.timeout}]})
        self.port = self.service.configuration["functions"][0]["ports"][0]
        self.runtimes = []
        self.start()
        return self

    def start(self):
        self.printed = tempfile.TemporaryFile("w+")
        variables = {**BARE, "AWS_LAMBDA_RUNTIME_API": f"127.0.0.1:{self.port}", **self.variables}
        self.runtime = subprocess.Popen(self.command, cwd=self.run_from or self.folder, env=variables,
                                        stdin=subprocess.DEVNULL, stdout=self.printed, stderr=subprocess.STDOUT,
                                        start_new_session=True)
        self.runtimes.append(self.runtime)

    def __exit__(self, *_):
        for runtime in self.runtimes:
            with contextlib.suppress(ProcessLookupError):
                os.killpg(runtime.pid, signal.SIGKILL)
            runtime.wait()
        self.service.kill()
        shutil.rmtree(self.folder)

    def invoke(self, event=None, **headers):
        """Whether the function failed, and its parsed output or report. A runtime that has answered and not asked again
        is busy: a throttle is tried again."""
        end = time.monotonic() + 10
        while True:
            status, replied, body = ask(self.service.port, "POST", "/2015-03-31/functions/f/invocations",
                                        json.dumps(event), headers)
            if status != 429 or time.monotonic() > end:
                return "x-amz-function-error" in replied if status == 200 else status, json.loads(body)
            time.sleep(0.02)

    def output(self):
        self.printed.seek(0)
        return self.printed.read()

    def until(self, holds, seconds=10):
        """What `holds` gives, as soon as that is something."""
        end = time.monotonic() + seconds
        while not (seen := holds()) and time.monotonic() < end:
            time.sleep(0.02)
        return seen

    def init_report(self):
        """What is reported of an Init, the runtime's status, and what it printed."""
        status = self.runtime.wait(20)
        found = re.search(r"^\d+ init-failure 1 =(\S*)$", self.service.history(), re.M)
        return json.loads(unescaped(found[1])) if found else None, status, self.output()


def unescaped(text):
    return re.sub("%([0-9A-Fa-f]{2})", lambda found: chr(int(found[1], 16)), text).encode("latin-1").decode()


def report(told, *names):
    return tuple(told.get(name) for name in names)


TIME = r"\d{4}-\d\d-\d\dT\d\d:\d\d:\d\d"


class ClosesIdle(threading.Thread):
    """A Runtime API that closes the connection over which it gave an invocation, as the service does after minutes."""

    def __init__(self):
        super().__init__(daemon=True)
        import http.server
        requests = self.requests = []

        class Handler(http.server.BaseHTTPRequestHandler):
            protocol_version = "HTTP/1.1"

            def do_GET(self):
                requests.append(("GET", self.client_address))
                if len(requests) > 3:
                    return self.reply(500, b"{}")
                self.reply(200, b"{}")
                self.close_connection = len(requests) == 1

            def do_POST(self):
                self.rfile.read(int(self.headers["Content-Length"]))
                requests.append(("POST", self.client_address))
                self.reply(202, b"{}")

            def reply(self, status, body):
                self.send_response(status)
                self.send_header("Content-Length", str(len(body)))
                self.send_header("Lambda-Runtime-Aws-Request-Id", "x")
                self.send_header("Lambda-Runtime-Deadline-Ms", "1")
                self.send_header("Lambda-Runtime-Invoked-Function-Arn",
                                 "arn:aws:lambda:us-east-2:123456789012:function:f")
                self.end_headers()
                self.wfile.write(body)

            def log_message(self, *_):
                pass

        self.server = http.server.ThreadingHTTPServer(("127.0.0.1", 0), Handler)
        self.port = self.server.server_address[1]
        self.start()

    def run(self):
        self.server.serve_forever(0.05)

    def end(self):
        self.server.shutdown()
        self.server.server_close()


class RuntimeCase(Case):
    """What each runtime is held to."""

    def late(self, name, command, files):
        """A response that comes after the timeout is refused with 403; the same process serves on."""
        with Running(command, files, timeout=1) as running:
            pid = running.invoke({})[1]
            self.check(f"{name}: a handler that takes too long", running.invoke({"do": "late"})[1]["errorType"],
                       "Function.Timeout")
            self.check(f"{name}: its response is refused",
                       bool(running.until(lambda: "is refused: 403 " in running.output(), 5)))
            self.check(f"{name}: and the next one is served", running.invoke({}), (False, pid))

    def too_large(self, name, running):
        """A response that is too large is refused and printed, and the same process serves on."""
        first = running.invoke({})[1]
        for _ in range(5):
            self.check(f"{name}: a response too large", running.invoke({"do": "large"})[1]["errorType"],
                       "Function.ResponseSizeTooLarge")
            self.check(f"{name}: and the next one is served", running.invoke({}), (False, first))
        self.check(f"{name}: the refusals are printed",
                   running.until(lambda: running.output().count(": 413 ") == 5))

    def ends(self, name, command, files):
        """The container error ends it, as does the end of the service; without a service it says so."""
        with Running(command, files) as running:
            running.invoke({})
            running.until(lambda: ask(running.service.port, "POST", "/_local/env/1/spindown")[0] == 202)
            self.check(f"{name}: ends at the container error", running.runtime.wait(10), 0)
            self.check(f"{name}: and says nothing", running.output(), "")
            running.start()
            running.invoke({})
            running.service.stop()
            self.check(f"{name}: ends at a stop", running.runtime.wait(10), 0)
        with Running(command, files) as running:
            running.invoke({})
            running.service.process.kill()
            self.check(f"{name}: ends when the service is gone", running.runtime.wait(10), 0)
        unused = running.port
        done = subprocess.run([*command, f"127.0.0.1:{unused}"], env=BARE, cwd=EXAMPLES, capture_output=True, text=True,
                              timeout=20)
        # (examples/ has no such handler; nothing listens either)
        self.check(f"{name}: without a service",
                   (done.returncode, f"no Runtime API at 127.0.0.1:{unused}" in done.stderr),
                   (1, True))
        done = subprocess.run([*command, "one.two", "three.four"], env=BARE, capture_output=True, text=True, timeout=20)
        self.check(f"{name}: too many words", (done.returncode, "usage:" in done.stdout), (2, True))

    def closed_connections(self, name, command):
        api = ClosesIdle()
        try:
            done = subprocess.run([*command, f"127.0.0.1:{api.port}"], env=BARE, capture_output=True, text=True,
                                  timeout=20)
            self.check(f"{name}: a connection that was closed meanwhile is made anew",
                       (done.returncode, [kind for kind, _ in api.requests], done.stderr),
                       (0, ["GET", "POST", "GET", "POST", "GET"], ""))
            self.check(f"{name}: and kept from then on", len({address for _, address in api.requests[1:]}), 1)
        finally:
            api.end()
