"""`lambda_local up` of a checkout with one function, the same program without `up`, and what the system counts of their
processes."""
import json
import os
import select
import signal
import socket
import subprocess
import tempfile
import time
import urllib.request

HERE = os.path.dirname(os.path.abspath(__file__))
READY = 120  # seconds until all environments are
ANSWERS = 300  # seconds until the callers have finished; they give up by themselves after 60 without progress
ENDS = 60
LOOK, LITTLE = 0.2, 0.05  # seconds between two looks; the share of them that who has nothing left to do may take
SAY = 'echo "$AWS_ENDPOINT_URL_LAMBDA" "$LAMBDA_LOCAL_URL_F"; read end; true'


class Trouble(Exception):
    """What differs from what is wanted, in words."""


def children(pid):
    """The processes that this one has started."""
    found = []
    for task in os.listdir(f"/proc/{pid}/task"):
        try:
            with open(f"/proc/{pid}/task/{task}/children") as file:
                found += map(int, file.read().split())
        except FileNotFoundError:
            pass  # (the thread has ended)
    return found


def words_of(pid):
    try:
        with open(f"/proc/{pid}/cmdline") as file:
            return file.read().split("\0")
    except OSError:
        return []


def seconds_of(pid):
    """Processor time so far, of all its threads, also of those that ended: the clock of the process."""
    try:
        return time.clock_gettime((~pid << 3) | 2)
    except OSError:
        return 0.0


def below(pid):
    found = []
    for child in children(pid):
        found += [child, *below(child)]
    return found


def free_ports(count):
    held = [socket.create_server(("127.0.0.1", 0)) for _ in range(count)]
    found = [one.getsockname()[1] for one in held]
    for one in held:
        one.close()
    return found


class Measured:
    """What is measured of some processes, whose `ports` are known by the kinds of requests to them."""

    def used(self):
        """Seconds of processor time so far, by group."""
        return {name: sum(map(seconds_of, found)) for name, found in self.processes.items()}

    def used_at_rest(self):
        """The same once `up` has read all of the trace: by then it takes hardly any."""
        end, before, after = time.monotonic() + ANSWERS, None, self.used()
        while after["up"] + after["relay"] and (
                before is None or sum(after[it] - before[it] for it in ("up", "relay")) > LITTLE * LOOK):
            if time.monotonic() > end:
                raise Trouble(f"after {ANSWERS} s `up` still works, with no caller; it said: {self.tail()}")
            time.sleep(LOOK)
            before, after = after, self.used()
        return after

    def measured(self, call, kind, callers, size, seconds):
        """Rate, microseconds of half and of 99% of the invocations, and those of processor time of each."""
        words = [call, str(self.ports[kind]), "f", str(callers), str(size), str(seconds), kind]
        with tempfile.TemporaryFile() as said, subprocess.Popen(words, stdin=subprocess.PIPE, stdout=subprocess.PIPE,
                                                                stderr=said) as caller:
            try:
                self.hear(caller, said)
                before = self.used_at_rest()
                caller.stdin.write(b"\n")
                caller.stdin.flush()
                count, rate, half, most, throttles = map(float, self.hear(caller, said).split())
                after = self.used_at_rest()
            finally:
                caller.kill()
        used = {name: 1e6 * (after[name] - before[name]) / count for name in after}
        return {"rate": rate, "half": half, "most": most, "throttles": throttles, **used,
                "tools": used["up"] + used["relay"], "all": sum(used.values())}

    def hear(self, caller, said):
        ready, _, _ = select.select([caller.stdout], [], [], ANSWERS)
        line = caller.stdout.readline() if ready else b""
        if not line:
            said.seek(0)
            raise Trouble(f"a call failed: {said.read()[-300:].decode(errors='replace')}; it said: {self.tail()}")
        return line

    def tail(self):
        self.said.seek(0)
        return self.said.read()[-400:].decode(errors="replace").strip() or "nothing"


class Bare(Measured):
    """The service alone, with a runtime that these words start for each environment. It runs from here to `end`."""

    def __init__(self, program, folder, words, places):
        port, *ports = free_ports(places + 1)
        self.given = tempfile.NamedTemporaryFile("w", dir=folder, suffix=".json")
        json.dump({"account": "123456789012", "region": "us-east-1", "invokePort": port,
                   "functions": [{"name": "f", "timeout": 900, "ports": ports}]}, self.given)
        self.given.flush()
        self.said, self.ports = tempfile.TemporaryFile(), {"invoke": port}
        self.processes = {"up": [], "relay": [], "service": [], "runtime": []}
        self.started = []
        self.service = self.start([program, "serve", self.given.name], folder, "service")
        self.runtimes = [(words, folder, {**os.environ, "AWS_LAMBDA_RUNTIME_API": f"127.0.0.1:{one}",
                                          "_HANDLER": "echo.handler", "LAMBDA_TASK_ROOT": folder}) for one in ports]

    def start(self, words, folder, group, environ=None):
        """In a session of its own, as `up` starts each: the system shares its processors out among sessions."""
        made = subprocess.Popen(words, cwd=folder, env=environ, stdin=subprocess.DEVNULL, stdout=self.said,
                                stderr=self.said, start_new_session=True)
        self.started.append(made)
        self.processes[group].append(made.pid)
        return made

    def wait_until_ready(self):
        self.until(lambda: "listening" in self.tail(), "it did not listen")
        for words, folder, environ in self.runtimes:
            self.start(words, folder, "runtime", environ)
        self.until(lambda: self.entries() >= len(self.runtimes), "not each runtime asked for an invocation")

    def until(self, is_so, otherwise):
        end = time.monotonic() + READY
        while not is_so():
            if time.monotonic() > end or self.service.poll() is not None:
                raise Trouble(f"the service alone: {otherwise}; it said: {self.tail()}")
            time.sleep(0.05)

    def entries(self):
        with urllib.request.urlopen(f"http://127.0.0.1:{self.ports['invoke']}/_local/stats", timeout=10) as answer:
            return json.load(answer)["entries"]

    def end(self):
        for one in reversed(self.started):
            one.kill()
            one.wait()
        self.said.close()
        self.given.close()


class Up(Measured):
    """It runs from here to `end`, and ends with this process."""

    def __init__(self, checkout, folder, function, options, program):
        self.checkout, self.processes = checkout, {}
        self.given = tempfile.NamedTemporaryFile("w", dir=folder, suffix=".json")
        whole = {"name": "f", "directory": folder, "timeout": 900, "url": True, **function}
        json.dump({"functions": [whole]}, self.given)
        self.given.flush()
        self.said = tempfile.TemporaryFile()
        chosen = ["--program", program] if program else []
        self.process = subprocess.Popen(
            [os.path.join(checkout, "lambda_local"), "up", "--quiet", *chosen, *options, self.given.name, "--",
             "sh", "-c", SAY],
            cwd=folder, stdin=subprocess.PIPE, stdout=subprocess.PIPE, stderr=self.said, start_new_session=True)

    def wait_until_ready(self):
        ready, _, _ = select.select([self.process.stdout], [], [], READY)
        line = self.process.stdout.readline().decode() if ready else ""
        if not line:
            raise Trouble(f"up of {self.checkout} was not ready; it said: {self.tail()}")
        endpoint, url = line.split()
        self.ports = {"invoke": int(endpoint.rsplit(":", 1)[1]), "event": int(endpoint.rsplit(":", 1)[1]),
                      "url": int(url.rstrip("/").rsplit(":", 1)[1])}
        groups = {"up": [self.process.pid], "service": [], "relay": [], "runtime": []}
        for child in children(self.process.pid):
            words = " ".join(words_of(child))
            if " serve " in words:
                groups["service"].append(child)
            elif "relay_process" in words:
                groups["relay"].append(child)
            elif "guard_process" in words:
                groups["runtime"] += below(child)
        self.processes = groups
        if not groups["service"] or not groups["runtime"]:
            raise Trouble(f"the processes of up of {self.checkout} are not known: {groups}")

    def end(self):
        if self.process.poll() is None:
            self.process.stdin.close()
            try:
                self.process.wait(ENDS)
            except subprocess.TimeoutExpired:
                self.process.send_signal(signal.SIGKILL)
                self.process.wait()
        self.process.stdout.close()
        self.said.close()
        self.given.close()
