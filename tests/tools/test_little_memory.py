"""Checks what a service does that may have little memory: how the launcher finds out how much, which limit it sets, and
that a service of 200 MB refuses what it has no room for, 64 connections with bodies of 5 MB notwithstanding: it is not
killed, counts each call once, and stops by itself; its history replays; lambda_local up says when nine tenths are used.
If this user may make control groups of version 1, the service runs in one of 200 MB, else with
LAMBDA_LOCAL_MEMORY=200."""
import contextlib
import functools
import http.client
import json
import os
import resource
import subprocess
import tempfile
import threading
import time
import urllib.request
from typing import Dict, Iterator, List, Optional, Tuple

from tests import ROOT
from tests.library.cases import Case
from tests.library.ports import free_range
from tests.library.threads import together
from tests.library.up_kit import Up

LAUNCHER = os.path.join(ROOT, "lambda_local")
LIMITS = os.path.join(ROOT, "tools", "lambda_local", "limits.sh")
GROUPS = "/sys/fs/cgroup/memory"
MEGABYTE = 1 << 20
ALLOWED, SIZE, SIDES, EACH = 200, 5_000_000, 32, 3
MORE = 64 * MEGABYTE  # for an entry of 5 MB as a text, whatever the connections keep
STACK = resource.getrlimit(resource.RLIMIT_STACK)[0]


def limit_of(megabytes: int) -> int:
    """In kilobytes: seven eighths, less 8 MB, and the stacks of two threads."""
    return megabytes * 896 - 8192 + 2 * (2048 if STACK == resource.RLIM_INFINITY else STACK >> 10)


LIMIT = limit_of(ALLOWED) << 10
OUT_OF_MEMORY = b'{"Message":"Out of memory","Type":"Service"}'

# What /proc/PID/cgroup has, the files below the folder of the groups, and what is found.
FOUND = (
    ("version 2", "0::/a/b\n", {"a/b/memory.max": "300"}, "300"),
    ("the least of a group and those above it", "0::/a/b\n", {"a/b/memory.max": "300", "a/memory.max": "200"}, "200"),
    ("any memory", "0::/a\n", {"a/memory.max": "max"}, ""),
    ("a group above it alone", "0::/a/b\n", {"a/b/memory.max": "max", "a/memory.max": "7"}, "7"),
    ("a container of version 2", "0::/\n", {"memory.max": "500"}, "500"),
    ("version 1", "4:memory:/a\n0::/\n", {"memory/a/memory.limit_in_bytes": "400"}, "400"),
    ("version 1 beside others", "3:cpu,memory:/a\n", {"memory/a/memory.limit_in_bytes": "400"}, "400"),
    ("any memory of version 1", "4:memory:/\n", {"memory/memory.limit_in_bytes": "9223372036854771712"}, ""),
    ("a container of version 1, which sees another path", "4:memory:/docker/1\n",
     {"memory/memory.limit_in_bytes": "600"}, "600"),
    ("both versions", "4:memory:/a\n0::/b\n",
     {"memory/a/memory.limit_in_bytes": "400", "unified/b/memory.max": "300"}, "300"),
    ("no group of memory", "3:cpu:/a\n", {"cpu/a/cpu.shares": "1024"}, ""),
    ("an empty file", "0::/a\n", {"a/memory.max": ""}, ""),
)


def limit_with(words: str, command: str = "serve", **variables: str) -> Tuple[int, str, str]:
    """What the launcher's limit is if LAMBDA_LOCAL_PROGRAM is a shell that prints it: status and both streams."""
    with tempfile.TemporaryDirectory() as folder:
        program = os.path.join(folder, "program")
        with open(program, "w", encoding="ascii") as file:
            file.write("#!/bin/sh\nulimit -d\n")
        os.chmod(program, 0o755)
        rest = [command, "CONFIG"] if command == "serve" else [command]
        done = subprocess.run(["sh", "-c", f'{words} exec "$@"', "sh", LAUNCHER, *rest], capture_output=True, text=True,
                              stdin=subprocess.DEVNULL,
                              env={**os.environ, "LAMBDA_LOCAL_PROGRAM": program, **variables})
        return done.returncode, done.stdout, done.stderr


@contextlib.contextmanager
def group() -> Iterator[Optional[str]]:
    """A control group of version 1 with so much memory; none if this user cannot make one."""
    folder = f"{GROUPS}/lambda_local.{os.getpid()}"
    try:
        os.mkdir(folder)
        with open(f"{folder}/memory.limit_in_bytes", "w", encoding="ascii") as file:
            file.write(str(ALLOWED * MEGABYTE))
    except OSError:
        yield None
        return
    try:
        yield folder
    finally:
        for _ in range(100):
            with contextlib.suppress(OSError):
                os.rmdir(folder)
                break
            time.sleep(0.1)


class Load:
    """Callers and runtimes of a service, each on a connection that it keeps; what they saw is counted."""

    def __init__(self, port: int) -> None:
        self.port, self.ended, self.lock = port, threading.Event(), threading.Lock()
        self.seen: Dict[str, int] = {}

    def note(self, what: str) -> None:
        with self.lock:
            self.seen[what] = self.seen.get(what, 0) + 1

    def ask(self, connection: http.client.HTTPConnection, method: str, path: str,
            body: Optional[bytes] = None) -> Optional[Tuple[int, Optional[str], bytes]]:
        """Status, the invocation's identifier and body; none if the connection ended without them."""
        try:
            connection.request(method, path, body)
            answer = connection.getresponse()
            return answer.status, answer.headers["Lambda-Runtime-Aws-Request-Id"], answer.read()
        except (OSError, http.client.HTTPException):
            connection.close()
            return None

    def run_runtime(self, number: int) -> None:
        connection = http.client.HTTPConnection("127.0.0.1", self.port + 1 + number, timeout=20)
        while not self.ended.is_set():
            given = self.ask(connection, "GET", "/2018-06-01/runtime/invocation/next")
            if not given or given[0] != 200:
                time.sleep(0.1)
                continue
            taken = self.ask(connection, "POST", f"/2018-06-01/runtime/invocation/{given[1]}/response", given[2])
            self.note(f"response {taken[0]}" if taken else "response lost")

    def run_caller(self, number: int, times: int = EACH) -> None:
        payload = b'"' + bytes([97 + number % 26]) * (SIZE - 2) + b'"'
        connection = http.client.HTTPConnection("127.0.0.1", self.port, timeout=20)
        for _ in range(times):
            answer = self.ask(connection, "POST", "/2015-03-31/functions/f/invocations", payload)
            if not answer:
                self.note("closed")
            elif answer[0] == 200:
                is_late = b"Task timed out" in answer[2][:200]
                self.note("right" if answer[2] == payload else "timed out" if is_late else "wrong")
            else:
                self.note("refused" if (answer[0], answer[2]) == (500, OUT_OF_MEMORY) else f"wrong {answer}")

    def run(self) -> None:
        for number in range(SIDES):
            threading.Thread(target=self.run_runtime, args=(number,), daemon=True).start()
        self.run_caller(0, 1)  # (while there is memory)
        together(*(functools.partial(self.run_caller, number) for number in range(SIDES)))


def in_words(port: int, method: str, path: str) -> Tuple[int, bytes]:
    """An answer to a caller that asks five times, should its connection be closed."""
    for _ in range(5):
        connection = http.client.HTTPConnection("127.0.0.1", port, timeout=60)
        try:
            connection.request(method, path)
            answer = connection.getresponse()
            return answer.status, answer.read()
        except (OSError, http.client.HTTPException) as fault:
            last = repr(fault)
        finally:
            connection.close()
        time.sleep(0.2)
    return 0, last.encode()


def most_used(service: "subprocess.Popen[str]") -> int:
    with open(f"/proc/{service.pid}/status", encoding="ascii") as file:
        return next(int(line.split()[1]) << 10 for line in file if line.startswith("VmHWM"))


def started(folder: str, port: int, group_folder: Optional[str]) -> "subprocess.Popen[str]":
    path = os.path.join(folder, "configuration.json")
    with open(path, "w", encoding="ascii") as file:
        json.dump({"account": "123456789012", "region": "us-east-2", "invokePort": port, "functions": [
            {"name": "f", "ports": list(range(port + 1, port + 1 + SIDES)), "timeout": 5}]}, file)
    words: List[str] = [LAUNCHER, "serve", path]
    settings = {**os.environ, "LAMBDA_LOCAL_MEMORY": str(ALLOWED)}
    if group_folder:
        words = ["sh", "-c", 'echo $$ >"$0/cgroup.procs" && exec "$@"', group_folder, *words]
        del settings["LAMBDA_LOCAL_MEMORY"]
    return subprocess.Popen(words, env=settings, stdout=subprocess.PIPE, stderr=subprocess.PIPE, text=True)


class LittleMemory(Case):
    def test_a_limit_of_the_control_group_is_found(self) -> None:
        for name, groups, files, wanted in FOUND:
            with tempfile.TemporaryDirectory() as folder:
                for path, text in {"groups": groups, **files}.items():
                    os.makedirs(os.path.dirname(os.path.join(folder, path)), exist_ok=True)
                    with open(os.path.join(folder, path), "w", encoding="ascii") as file:
                        file.write(text + "\n" if path != "groups" and text else text)
                find = '. "$0"; find_allowed "$1/groups" "$1"; echo "$allowed"'
                done = subprocess.run(["sh", "-uc", find, LIMITS, folder], capture_output=True, text=True)
                self.check(f"found: {name}", (done.stdout, done.stderr), (wanted + "\n", ""))

    def test_LAMBDA_LOCAL_MEMORY_is_the_limit_of_what_serves(self) -> None:
        self.check("LAMBDA_LOCAL_MEMORY", limit_with("", LAMBDA_LOCAL_MEMORY="200"), (0, f"{LIMIT >> 10}\n", ""))
        self.check("a little of it", limit_with("", LAMBDA_LOCAL_MEMORY="16"), (0, f"{limit_of(16)}\n", ""))
        self.check("a lower limit of the shell stays", limit_with("ulimit -d 50000;", LAMBDA_LOCAL_MEMORY="200"),
                   (0, "50000\n", ""))
        self.check("a higher one does not", limit_with("ulimit -S -d 900000;", LAMBDA_LOCAL_MEMORY="200"),
                   (0, f"{LIMIT >> 10}\n", ""))
        before = limit_with("", "replay")[1]
        self.check("unlimited", limit_with("", LAMBDA_LOCAL_MEMORY="unlimited"), (0, before, ""))
        self.check("a replay has no limit", limit_with("", "replay", LAMBDA_LOCAL_MEMORY="200"), (0, before, ""))
        for wrong in ("0", "15", "-1", "1.5", "200M", "x", " 200", "010", "10000000", "99999999999999999999"):
            status, output, said = limit_with("", LAMBDA_LOCAL_MEMORY=wrong)
            self.check(f"LAMBDA_LOCAL_MEMORY={wrong!r} is refused with a line",
                       (status, output, said.count("\n"), f"LAMBDA_LOCAL_MEMORY is '{wrong}'" in said),
                       (2, "", 1, True))

    def test_a_service_of_little_memory_refuses_and_serves_on(self) -> None:
        with tempfile.TemporaryDirectory() as folder, group() as group_folder:
            print("     (in a control group)" if group_folder else "     (with LAMBDA_LOCAL_MEMORY)")
            port = free_range(SIDES + 1)
            service = started(folder, port, group_folder)
            assert service.stderr
            line = service.stderr.readline()
            while line and "listening" not in line:
                line = service.stderr.readline()
            self.check("its limit", resource.prlimit(service.pid, resource.RLIMIT_DATA)[0], LIMIT)
            load = Load(port)
            load.run()
            seen = load.seen
            print("    ", seen, f"{most_used(service) // MEGABYTE} MB")
            self.check("some invocations were served, others refused", (seen.get("right", 0) > 0,
                                                                        seen.get("refused", 0) > 0),
                       (True, True))
            self.check("no answer was wrong", [it for it in seen if it.startswith("wrong")], [])
            self.check("it runs, within its memory", (service.poll(), most_used(service) < ALLOWED * MEGABYTE),
                       (None, True))
            time.sleep(6)  # until what was delivered has timed out
            status, body = in_words(port, "GET", "/_local/stats")
            self.check("the counts are shown", status, 200)
            counts = json.loads(body)
            answered = counts["admitted"] - counts["failed"]
            # (of a response that got no answer, only the service knows whether it was taken)
            told, lost = seen.get("response 202", 0), seen.get("response lost", 0)
            self.check("each call was counted once: answered, or failed", told <= answered <= told + lost)
            self.check("no caller has an output that was not", seen.get("right", 0) <= answered)
            load.ended.set()
            resource.prlimit(service.pid, resource.RLIMIT_DATA, (LIMIT + MORE, -1))
            status, history = in_words(port, "GET", "/_local/history")
            self.check("with a higher limit the history is read", status, 200)
            self.check("it is stopped", in_words(port, "POST", "/_local/stop")[0], 202)
            output, said = service.communicate(timeout=30)
            self.check("and ends with its line", (service.returncode, output),
                       (0, "admitted {admitted} throttled {throttled} failed {failed}\n".format(**counts)))
            done = subprocess.run([LAUNCHER, "replay"], input=history, capture_output=True)
            self.check("its history replays", (done.returncode, done.stderr), (0, b""))
            self.check("with an output for each", done.stdout.count(b" output "), answered)

    def test_up_tells_nine_tenths_of_the_services_memory(self) -> None:
        """What lambda_local up says of a service that has little memory."""
        up = Up(environ={**os.environ, "LAMBDA_LOCAL_MEMORY": "32"})
        up.until("AWS_ENDPOINT_URL_LAMBDA")
        payload = json.dumps({"x": 1_000_000 * "x"}).encode()
        for _ in range(20):
            with contextlib.suppress(OSError, http.client.HTTPException):
                urllib.request.urlopen(f"{up.endpoint}/2015-03-31/functions/f/invocations", payload, timeout=10).close()
        self.check("nine tenths of the service's memory are told",
                   up.until(f"MB of {limit_of(32) >> 10} MB are used of the service's memory (LAMBDA_LOCAL_MEMORY)",
                            20), True)
        self.check("and TERM ends it, with nothing left", up.end()[1], [])
