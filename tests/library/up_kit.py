"""lambda_local up over functions in a folder of their own, and its lines as they come."""
import atexit
import json
import os
import re
import signal
import subprocess
import sys
import tempfile
import threading
import time
import urllib.error
import urllib.request
from typing import List, Union

from lambda_local.guard import GUARD

ROOT = os.path.dirname(os.path.dirname(os.path.dirname(os.path.realpath(__file__))))
TOOLS, LAUNCHER = os.path.join(ROOT, "tools"), os.path.join(ROOT, "lambda_local")
RUNTIME = [sys.executable, os.path.join(ROOT, "examples", "runtime.py"), "app:run"]
HANDLER = '''import os, sys, time
def run(event):
    do = event.get("do")
    if do == "hang": time.sleep(600)
    if do == "crash": os._exit(7)
    if do == "later": import threading; threading.Timer(0.3, os._exit, [9]).start()
    if do == "fail": return {}["missing"]
    if do == "name": return [os.environ[name] for name in ("AWS_LAMBDA_FUNCTION_NAME", "_HANDLER", "GREETING")]
    if do == "variables": return dict(os.environ)
    if do == "long": time.sleep(2)
    return os.getpid()
'''
# (what is broken ends at once, also on a machine where Python takes a second to start)
BREAKABLE = ["sh", "-c", 'test ! -e broken || exit 3; exec "$0" "$@"', *RUNTIME]


def children(pid):
    """The processes that this one has started, and those that they have."""
    found = []
    try:
        for task in os.listdir(f"/proc/{pid}/task"):
            with open(f"/proc/{pid}/task/{task}/children") as file:
                for child in file.read().split():
                    found += [int(child), *children(child)]
    except OSError:
        pass  # (it has gone)
    return found


def command_of(pid):
    """The words of a process's command line; nothing if it has gone."""
    try:
        with open(f"/proc/{pid}/cmdline") as file:
            return file.read()
    except OSError:
        return ""


def lives(pid):
    """Whether there is such a process that has not ended."""
    try:
        with open(f"/proc/{pid}/stat") as file:
            return file.read().rpartition(")")[2].split()[0] != "Z"
    except OSError:
        return False


def until(condition, seconds):
    """Whether the condition holds within this many seconds."""
    end = time.monotonic() + seconds
    while not condition():
        if time.monotonic() > end:
            return bool(condition())
        time.sleep(0.02)
    return True


class Up:
    """`members` are those of a function `f`, or `functions` are all; `whole` has those of UP.json, `files` more files,
    and `prepare` is called with the folder."""

    def __init__(self, *options, command=(), files={}, functions=None, whole={}, environ=None, app=HANDLER,
                 prepare=lambda at: None, **members):
        self.folder = tempfile.TemporaryDirectory()
        self.at = os.path.realpath(self.folder.name)
        for name, text in {"app.py": app, **files}.items():
            self.write(name, text)
        prepare(self.at)
        function = {"name": "f", "command": BREAKABLE, "variables": {"GREETING": "hello"}, "timeout": 1, **members}
        # (one environment exactly, so that it is known which process serves)
        functions = [{**({} if {"ports", "environments"} & set(one) else {"environments": 1}), **one}
                     for one in functions or [function]]
        self.write("up.json", json.dumps({"functions": functions, **whole}))
        self.lines: List[str] = []
        self.endpoint = ""  # until a line has it
        self.process = subprocess.Popen([LAUNCHER, "up", *options, "up.json", *command], cwd=self.at,
                                        env=environ, stdin=subprocess.DEVNULL, stderr=subprocess.PIPE,
                                        stdout=subprocess.PIPE, text=True, start_new_session=True)
        GUARD.hold(self.process.pid)  # (if this process is killed; what it has started goes with it)
        atexit.register(self.leave)  # (if a check fails on the way)
        self.reading = threading.Event()  # (cleared, what it writes is not read)
        self.reading.set()
        self.reader = threading.Thread(target=self.read, daemon=True)
        self.reader.start()

    def leave(self):
        self.process.kill()
        GUARD.release(self.process.pid)

    def write(self, name, text):
        path = os.path.join(self.at, name)
        os.makedirs(os.path.dirname(path), exist_ok=True)
        with open(path, "w") as file:
            file.write(text)
        if text.startswith("#!"):
            os.chmod(path, 0o755)

    def read(self):
        assert self.process.stderr is not None
        for line in self.process.stderr:
            self.reading.wait()
            self.lines.append(line.rstrip())
            if found := re.search(r"AWS_ENDPOINT_URL_LAMBDA=(http://[0-9.:]+)", line):
                self.endpoint = found[1]

    def has(self, text):
        """Whether a line has this text."""
        return any(text in line for line in list(self.lines))

    def told(self, pattern):
        """The pattern's group in the first of its lines that has it."""
        return re.findall(pattern, "\n".join(self.lines))[0]

    def count(self, pattern):
        return sum(1 for line in list(self.lines) if re.search(pattern, line))

    def until(self, text, seconds=60):
        """Whether a line with this text comes."""
        until(lambda: self.has(text) or self.process.poll() is not None and not self.reader.is_alive(), seconds)
        return self.has(text)

    def get(self, path, body=None, method=None, timeout=30):
        """The body of an answer of the callers' port."""
        request = urllib.request.Request(self.endpoint + path, body, method=method)
        with urllib.request.urlopen(request, timeout=timeout) as answer:
            return answer.read().decode()

    def invoke(self, function="f", patience=2.0, **event):
        """What the function gives, or the type of its error, and in how many seconds. A throttle is tried again."""
        begun = time.monotonic()
        while True:
            try:
                answer = json.loads(self.get(f"/2015-03-31/functions/{function}/invocations",
                                             json.dumps(event).encode()))
                return (answer["errorType"] if isinstance(answer, dict) and "errorType" in answer else answer,
                        time.monotonic() - begun)
            except urllib.error.HTTPError as fault:
                fault.close()
                if fault.code != 429 or time.monotonic() - begun > patience:
                    return f"status {fault.code}", time.monotonic() - begun
                time.sleep(0.005)

    def history(self):
        return self.get("/_local/history")

    def end(self, number=signal.SIGTERM):
        """Its status after this signal, and the processes that it leaves."""
        if number:
            self.process.send_signal(number)
        GUARD.release(self.process.pid)  # (while its number cannot be another's)
        assert self.process.stdout is not None and self.process.stderr is not None
        status: Union[int, str]
        try:
            status = self.process.wait(40)
        except subprocess.TimeoutExpired:
            self.process.kill()
            status = "hangs"
        self.process.wait()
        self.reader.join(10)
        self.output = self.process.stdout.read()
        self.process.stdout.close()
        self.process.stderr.close()
        left = [pid for pid in filter(str.isdigit, os.listdir("/proc")) if self.is_here(pid)]
        self.folder.cleanup()
        return status, left

    def is_here(self, pid):
        """Whether a process works in its folder."""
        try:
            return os.readlink(f"/proc/{pid}/cwd") == self.at
        except OSError:
            return False
