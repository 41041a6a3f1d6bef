"""A service on free ports, and single requests to it."""
import json
import os
import resource
import shutil
import socket
import subprocess
import tempfile
import threading
import time

from lambda_local.service import ask, program_path
from tests import ROOT
from tests.library.ports import free_range

PROGRAM = program_path()
EXAMPLES = os.path.join(ROOT, "examples")
PORT = free_range(64)  # the first of those of each service
NEXT = "/2018-06-01/runtime/invocation/next"
INVOKE = "/2015-03-31/functions/%s/invocations"


def later(work, *words):
    """Runs in a thread; the result is what calling the returned function gives."""
    kept = []
    thread = threading.Thread(target=lambda: kept.append(work(*words)), daemon=True)
    thread.start()

    def join():
        thread.join(120)
        return kept[0] if kept else None
    return join


def until(holds, seconds=5):
    end = time.time() + seconds
    while time.time() < end:
        if holds():
            return True
        time.sleep(0.005)
    return False


class Service:
    """A service on ports from PORT on, whose functions have this many environments each; if given, with a limit on
    descriptors, this patience in milliseconds, these hosts beside the local ones, or these environment variables."""

    def __init__(self, functions, descriptors=None, patience=None, hosts=None, variables={}, **members):
        self.environment = {**os.environ, **({} if patience is None else {"LAMBDA_LOCAL_PATIENCE_MS": str(patience)})}
        self.environment.update({**({} if hosts is None else {"LAMBDA_LOCAL_HOSTS": hosts}), **variables})
        self.limit = descriptors and (lambda: resource.setrlimit(resource.RLIMIT_NOFILE, (descriptors, descriptors)))
        port, listed = PORT, []
        for name, environments, more in functions:
            listed.append({"name": name, "ports": list(range(port + 1, port + 1 + environments)), **more})
            port += environments
        self.config = {"account": "123456789012", "region": "us-east-2", "invokePort": PORT, "functions": listed,
                       **members}

    def __enter__(self):
        self.folder = tempfile.mkdtemp()
        path = os.path.join(self.folder, "config.json")
        with open(path, "w") as file:
            json.dump(self.config, file)
        self.log = open(os.path.join(self.folder, "log"), "w+")
        self.process = subprocess.Popen([PROGRAM, "serve", path], stdout=subprocess.PIPE, stderr=self.log, text=True,
                                        preexec_fn=self.limit, env=self.environment)
        assert until(lambda: "listening" in self.logged()), self.logged()
        return self

    def logged(self):
        with open(self.log.name) as log:
            return log.read()

    def stats(self):
        return json.loads(ask(PORT, "GET", "/_local/stats")[2])

    def entries(self, count):
        return until(lambda: self.stats()["entries"] >= count)

    def history(self):
        return ask(PORT, "GET", "/_local/history")[2].decode()

    def stop(self):
        """Status and standard output of the service after a stop."""
        status = ask(PORT, "POST", "/_local/stop")[0]
        output, _ = self.process.communicate(timeout=30)
        return status, self.process.returncode, output

    def __exit__(self, *_):
        if self.process.poll() is None:
            self.process.kill()
        self.process.communicate()
        self.log.close()
        shutil.rmtree(self.folder)


def replay_of(history):
    """Status and answer lines of a history's replay, and what they should be: its own answer lines."""
    done = subprocess.run([PROGRAM, "replay"], input=history, capture_output=True, text=True)
    return (done.returncode,
            done.stdout.splitlines()), (0, [line[2:] for line in history.splitlines() if line.startswith("# ")])


def runtime_once(port, body=None, path="response"):
    """Asks for one invocation and responds with its payload, or with a body; gives the request identifier."""
    status, headers, payload = ask(port, "GET", NEXT, timeout=60)
    if status != 200:
        return status
    request_id = headers["lambda-runtime-aws-request-id"]
    ask(port, "POST", f"/2018-06-01/runtime/invocation/{request_id}/{path}", payload if body is None else body)
    return request_id


def raw(port, data):
    """A connection that has sent these bytes."""
    connection = socket.create_connection(("127.0.0.1", port))
    connection.settimeout(10)
    connection.sendall(data)
    return connection


def read_all(connection):
    """What comes until the end."""
    seen = b""
    try:
        while piece := connection.recv(65536):
            seen += piece
    except OSError as error:
        return type(error).__name__.encode() if not seen else seen
    return seen
