"""Callers of a front that keep their connection, and the service behind the front."""
import contextlib
import http.client
import json
import os
import time
import urllib.parse

from tests.library.up_kit import children

READY_SECONDS = 300  # a busy machine takes its time
READY = ("--ready", str(READY_SECONDS))


def invoke_path(name):
    return f"/2015-03-31/functions/{name}/invocations"


def behind(up):
    """The address of the service's own port."""
    for pid in children(up.process.pid):
        try:
            with open(f"/proc/{pid}/cmdline") as file:
                words = file.read().split("\0")
            path = next(word for word in words if word.endswith("configuration.json"))
            with open(path) as file:
                return f"http://127.0.0.1:{json.load(file)['invokePort']}"
        except (OSError, StopIteration):
            continue
    raise LookupError("there is no service")


def json_lines(path):
    """What a function has written into a file, one JSON a line; nothing if the file is not there yet."""
    if not os.path.exists(path):
        return []
    with open(path) as file:
        return [json.loads(line) for line in file]


@contextlib.contextmanager
def caller_of(case, up, address=None):
    """A caller of this `lambda_local up` once it is ready, at its endpoint or the address that this function gives.
    Checks that it ends in order, if it has not ended yet."""
    try:
        case.check("it is ready", up.until("[up] ready", READY_SECONDS))
        with Caller(address() if address else up.endpoint) as caller:
            yield caller
    finally:
        if up.process.poll() is None:
            case.check("it ends in order, and leaves nothing", up.end(), (0, []))


class Caller:
    """One connection, which is opened again if the other side closes it."""

    def __init__(self, address, timeout=60):
        self.connection = http.client.HTTPConnection(urllib.parse.urlsplit(address).netloc, timeout=timeout)

    def __enter__(self):
        return self

    def __exit__(self, *_):
        self.connection.close()

    def ask(self, method, path, body=None, headers={}):
        """Status, headers (names in lower case) and body."""
        self.connection.request(method, path, body, headers)
        answer = self.connection.getresponse()
        return answer.status, {name.lower(): value for name, value in answer.getheaders()}, answer.read()

    def event(self, name, event):
        return self.ask("POST", invoke_path(name), json.dumps(event).encode(), {"X-Amz-Invocation-Type": "Event"})

    def invoke(self, name, event, patience=5.0):
        """A synchronous invocation; a throttle is tried again."""
        end = time.monotonic() + patience
        while (answer := self.ask("POST", invoke_path(name),
                                  json.dumps(event).encode()))[0] == 429 and time.monotonic() < end:
            time.sleep(0.01)
        return answer
