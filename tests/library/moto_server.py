"""moto's server, and programs that call it by boto3. It needs a Python on PATH that has both
(pip install 'moto[server]' boto3)."""
import contextlib
import json
import os
import subprocess
import sys
import unittest
import urllib.request

from lambda_local.service import free_ports
from tests.library.up_kit import until


def python_with_moto():
    folders = [os.path.dirname(sys.executable), *os.environ.get("PATH", "").split(os.pathsep),
               os.path.expanduser("~/.pyenv/shims")]
    for folder in dict.fromkeys(folders):
        program = os.path.join(folder, "python3")
        if os.access(program, os.X_OK) and subprocess.run(
                [program, "-c", "import boto3, moto.server"], capture_output=True).returncode == 0:
            return program
    return None


PYTHON = python_with_moto()
WITH_MOTO = unittest.skipIf(
    PYTHON is None, "no Python on PATH has moto's server and boto3: pip install 'moto[server]' boto3")
# What runs programs of a test, one a line: each has `client(name)` and `given`, and may set `answer`.
LOOP = '''import boto3, json, sys, time, traceback
clients = {}
def client(name):
    if name not in clients:
        clients[name] = boto3.client(name, endpoint_url=sys.argv[1], region_name="us-east-1", aws_access_key_id="x",
                                     aws_secret_access_key="y")
    return clients[name]
for line in sys.stdin:
    program, given = json.loads(line)
    names = {"client": client, "given": given, "json": json, "time": time, "answer": None}
    try:
        exec(program, names)
        print(json.dumps(names["answer"]), flush=True)
    except Exception:
        print(json.dumps(traceback.format_exc()), flush=True)
'''


class Moto:
    """A server of moto's, and one process that calls it by boto3."""

    def __init__(self, endpoint):
        self.endpoint = endpoint
        self.process = subprocess.Popen([str(PYTHON), "-c", LOOP, endpoint], stdin=subprocess.PIPE,
                                        stdout=subprocess.PIPE, text=True)

    def asked(self, program, given=None):
        """What a program answers, or why it fails."""
        assert self.process.stdin is not None and self.process.stdout is not None
        self.process.stdin.write(json.dumps([program, given]) + "\n")
        self.process.stdin.flush()
        return json.loads(self.process.stdout.readline() or "null")

    def close(self):
        assert self.process.stdin is not None and self.process.stdout is not None
        self.process.stdin.close()
        self.process.wait(60)
        self.process.stdout.close()


def environ():
    """For `lambda_local up`, which runs with the Python that has boto3."""
    return {**os.environ, "PATH": os.path.dirname(str(PYTHON)) + os.pathsep + os.environ["PATH"]}


@contextlib.contextmanager
def moto(case, port=None):
    """A server of moto's, by `endpoint` and `asked`."""
    port = port or free_ports(1, ())[0]
    child = subprocess.Popen([str(PYTHON), "-c", "import sys; from moto.server import main; main(sys.argv[1:])", "-H",
                              "127.0.0.1", "-p", str(port)], stdout=subprocess.DEVNULL, stderr=subprocess.DEVNULL)
    endpoint = f"http://127.0.0.1:{port}"

    def answers():
        with contextlib.suppress(OSError):
            urllib.request.urlopen(endpoint + "/moto-api/", timeout=5).close()
            return True
        return False
    clients = Moto(endpoint)
    try:
        case.check("moto's server answers", until(answers, 120))
        yield clients
    finally:
        clients.close()
        child.kill()  # (it keeps nothing)
        child.wait(60)
