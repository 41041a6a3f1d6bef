"""The services that bench/serve/{run,instructions,calls} measure, and their client: how they are built, started on free
ports and on which processors, what the system counts of them, and that none outlives the run."""
import argparse
import ctypes
import os
import random
import resource
import select
import shutil
import signal
import socket
import subprocess
import sys
import tempfile
import time
import json

HERE = os.path.dirname(os.path.abspath(__file__))
ROOT = os.path.dirname(os.path.dirname(HERE))
LISTENS = 20    # seconds until a service listens
ANSWERS = 300   # seconds until its client has finished; the client gives up by itself after 60 without progress


class Trouble(Exception):
    """What differs from what is wanted, in words."""


def say(words):
    print("bench:", words, file=sys.stderr, flush=True)


def positive(text):
    """A word of the command line that is a number from 1 on."""
    if not text.isdigit() or int(text) < 1:
        raise argparse.ArgumentTypeError(f"{text!r} is no number from 1 on")
    return int(text)


def program_of_these():
    """The program that the launcher takes for these sources; without one, the script ends as the launcher does."""
    path = subprocess.run([os.path.join(ROOT, "lambda_local"), "path"], stdout=subprocess.PIPE, text=True)
    if path.returncode:
        sys.exit(path.returncode)
    return path.stdout.strip()


def program_at(path):
    """The whole path of a program; without one there, the script ends."""
    if not os.access(path, os.X_OK) or os.path.isdir(path):
        sys.exit(f"bench: no program at {path}: ./lambda_local build makes crates/lambda_local/out/lambda_local")
    return os.path.abspath(path)


def tail(file):
    """The end of what a process wrote on standard error."""
    file.seek(0)
    return file.read()[-400:].decode(errors="replace").strip() or "nothing"


def stays_behind(parent):
    """What a child does before its program: it ends with this process, however that ends, and takes many
    descriptors."""
    libc = ctypes.CDLL(None)

    def prepare():
        libc.prctl(1, signal.SIGKILL)
        if os.getppid() != parent:
            os._exit(1)
        _soft, hard = resource.getrlimit(resource.RLIMIT_NOFILE)
        resource.setrlimit(resource.RLIMIT_NOFILE, (hard, hard))

    return prepare


def start(words, processors, **streams):
    words = ["taskset", "-c", ",".join(map(str, processors)), *words] if processors else words
    return subprocess.Popen(words, preexec_fn=stays_behind(os.getpid()), **streams)


def compile_c(folder, name):
    compiler = shutil.which("cc") or shutil.which("gcc") or shutil.which("clang")
    if not compiler:
        raise Trouble("no C compiler (cc) is here, and the client is written in C")
    program = os.path.join(folder, name)
    done = subprocess.run([compiler, "-O2", "-pthread", "-o", program, os.path.join(HERE, name + ".c")],
                          stderr=subprocess.PIPE, text=True)
    if done.returncode:
        raise Trouble(f"{name}.c does not compile: {done.stderr[-400:]}")
    return program


def compile_go(folder):
    """The service over net/http; without Go, a Trouble that says so."""
    compiler = shutil.which("go")
    if not compiler:
        raise Trouble("no Go is on this machine")
    program = os.path.join(folder, "plain_go")
    settings = {"GOCACHE": os.path.join(folder, "go"), **os.environ, "GO111MODULE": "off", "GOTOOLCHAIN": "local",
                "GOFLAGS": ""}
    try:
        done = subprocess.run([compiler, "build", "-o", program, os.path.join(HERE, "plain.go")], env=settings,
                              stderr=subprocess.PIPE,
                              text=True, timeout=600)
    except subprocess.TimeoutExpired:
        raise Trouble("Go had not built plain.go in ten minutes") from None
    if done.returncode:
        raise Trouble(f"this machine's Go does not build plain.go: {done.stderr[-400:]}")
    return program


def free_ports(count):
    """Returns the first of `count` consecutive free ports, below those that the system gives to clients."""
    for first in random.sample(range(10_000, 32_000 - count, 100), 100):
        taken = []
        try:
            for port in range(first, first + count):
                taken.append(socket.socket())
                taken[-1].setsockopt(socket.SOL_SOCKET, socket.SO_REUSEADDR, 1)
                taken[-1].bind(("127.0.0.1", port))
            return first
        except OSError:
            pass
        finally:
            for it in taken:
                it.close()
    raise Trouble(f"no {count} ports in a row are free between 10000 and 32000")


class Kind:
    """A service that can be started: its name in the tables, its program, and the command that runs it, if any."""

    def __init__(self, name, program, is_ours, under=()):
        self.name, self.program, self.is_ours, self.under = name, program, is_ours, list(under)
        self.listens = ANSWERS if under else LISTENS

    def words(self, folder, port, environments):
        if not self.is_ours:
            return [*self.under, self.program, str(port), str(environments)]
        config = {"account": "123456789012", "region": "us-east-2", "invokePort": port, "maxEntries": 10_000_000,
                  "functions": [{"name": "f", "ports": list(range(port + 1, port + 1 + environments)), "timeout": 900}]}
        path = os.path.join(folder, "config.json")
        with open(path, "w") as file:
            json.dump(config, file)
        return [*self.under, self.program, "serve", path]


class Service:
    """One of a kind that listens, with this many environments, until the end of its block."""

    def __init__(self, kind, environments, processors=None):
        self.kind, self.environments, self.processors = kind, environments, processors

    def __enter__(self):
        self.folder, self.said = tempfile.TemporaryDirectory(), tempfile.TemporaryFile()
        self.process = None
        try:
            self.port = free_ports(self.environments + 1)
            words = self.kind.words(self.folder.name, self.port, self.environments)
            self.process = start(words, self.processors, stdin=subprocess.DEVNULL, stdout=subprocess.DEVNULL,
                                 stderr=self.said)
            end = time.monotonic() + self.kind.listens
            while b"listening" not in os.pread(self.said.fileno(), 65536, 0):
                if self.process.poll() is not None:
                    raise Trouble(f"{self.kind.name} ended with status {self.process.returncode} before it listened; "
                                  f"it said: {tail(self.said)}")
                if time.monotonic() > end:
                    raise Trouble(f"{self.kind.name} does not listen after {self.kind.listens} seconds; it said: "
                                  f"{tail(self.said)}")
                time.sleep(0.01)
        except BaseException:
            self.__exit__()
            raise
        return self

    def __exit__(self, *_):
        if self.process:
            self.process.kill()
            self.process.wait()
        self.said.close()
        self.folder.cleanup()

    def of_status(self, folder, *names):
        with open(f"{folder}/status") as status:
            return sum(int(line.split()[1]) for line in status if line.startswith(names))

    def memory(self):
        """Resident memory in KiB."""
        return self.of_status(f"/proc/{self.process.pid}", "VmRSS:")

    def processor(self):
        """Seconds of processor time so far, of all its threads, also of those that ended: the clock of the process."""
        return time.clock_gettime((~self.process.pid << 3) | 2)

    def switches(self):
        """Context switches so far, of the threads that run."""
        total = 0
        for thread in os.listdir(f"/proc/{self.process.pid}/task"):
            try:
                total += self.of_status(f"/proc/{self.process.pid}/task/{thread}", "voluntary_ctxt_switches:",
                                        "nonvoluntary_ctxt_switches:")
            except (FileNotFoundError, ProcessLookupError):
                pass
        return total

    def descriptors(self):
        return len(os.listdir(f"/proc/{self.process.pid}/fd"))

    def threads(self):
        return len(os.listdir(f"/proc/{self.process.pid}/task"))

    def rest(self):
        """Waits until all its threads sleep, at two looks in a row."""
        sleeping, pause, end = 0, 0.0005, time.monotonic() + ANSWERS
        while sleeping < 2:
            time.sleep(pause)
            pause = min(pause * 1.5, 0.02)
            states = []
            for thread in os.listdir(f"/proc/{self.process.pid}/task"):
                try:
                    with open(f"/proc/{self.process.pid}/task/{thread}/stat", "rb") as file:
                        states.append(file.read().rpartition(b")")[2].split()[0])
                except (FileNotFoundError, ProcessLookupError):
                    pass
            sleeping = sleeping + 1 if set(states) == {b"S"} else 0
            if self.process.poll() is not None:
                raise Trouble(f"{self.kind.name} ended with status {self.process.returncode}; it said: "
                              f"{tail(self.said)}")
            if time.monotonic() > end:
                raise Trouble(f"{self.kind.name} does not come to rest in {ANSWERS} seconds")

    def end(self):
        """Ends it by SIGTERM, at which a tool that it runs under writes what it found."""
        self.process.terminate()
        try:
            self.process.wait(60)
        except subprocess.TimeoutExpired:
            raise Trouble(f"{self.kind.name} does not end in 60 seconds; it said: {tail(self.said)}") from None

    def settle(self):
        """Waits until the memory and the descriptors stay as they are, ten seconds at most."""
        seen, same, end = None, 0, time.monotonic() + 10
        while same < 3 and time.monotonic() < end:
            time.sleep(0.2)
            now = self.memory(), self.descriptors()
            same, seen = same + 1 if now == seen else 0, now


class Client:
    """The client at work on a service, ready and not begun, until the end of its block."""

    def __init__(self, program, service, what, *numbers, processors=None):
        self.service, self.words, self.processors = service, [program, what, str(service.port),
                                                              *map(str, numbers)], processors

    def __enter__(self):
        self.said = tempfile.TemporaryFile()
        self.process = start(self.words, self.processors, stdin=subprocess.PIPE, stdout=subprocess.PIPE,
                             stderr=self.said, bufsize=0)
        try:
            self.hear()
        except BaseException:
            self.__exit__()
            raise
        return self

    def __exit__(self, *_):
        self.process.kill()
        self.process.wait()
        self.process.stdin.close()
        self.process.stdout.close()
        self.said.close()

    def hear(self):
        """The words of its next line."""
        ready, _, _ = select.select([self.process.stdout], [], [], ANSWERS)
        line = self.process.stdout.readline() if ready else b""
        if line:
            return line.split()
        name = self.service.kind.name
        told = f"`{' '.join(['load', *self.words[1:]])}`"
        if self.service.process.poll() is not None:
            raise Trouble(f"{name} ended with status {self.service.process.returncode} under {told}; it said: "
                          f"{tail(self.service.said)}")
        if not ready:
            raise Trouble(f"{name}: {told} had no result after {ANSWERS} seconds; the service said: "
                          f"{tail(self.service.said)}")
        raise Trouble(f"{name}: {told} failed: {tail(self.said)}; the service said: {tail(self.service.said)}")

    def go(self):
        """Lets it go on, and gives the numbers of its next line."""
        try:
            self.process.stdin.write(b"\n")
        except BrokenPipeError:
            pass
        return self.hear()
