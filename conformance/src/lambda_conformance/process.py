"""The command that is tested: its processes, what they write, and how they end."""
import contextlib
import json
import os
import shutil
import signal
import subprocess
import tempfile
import threading
import time
from typing import IO, Any, Callable, Dict, Iterator, List, NamedTuple, Optional, Protocol, Set

from lambda_local.executables import why_not_found, why_not_started
from lambda_local.guard import GUARD
from lambda_local.outgoing import printable
from lambda_local.service import Fault

from .sockets import chosen_ports
from .watch import NO_SESSION, OwnTime, begun_at, open_descriptors, processes_of, resident, threads_of

LONGEST_LINE = 200  # letters of a line that it wrote
LOOK = 0.05  # seconds between two looks at what it does
MEGABYTES = 128  # of a function's memory
# (Node collects all its garbage only after thousands of requests, unless a module has it do so.)
COLLECTS = json.dumps(os.path.join(os.path.dirname(os.path.abspath(__file__)), "collect.cjs"), ensure_ascii=False)
COLLECT_EARLY = {"NODE_OPTIONS": f"--max-semi-space-size=1 --require={COLLECTS}",
                 "JAVA_TOOL_OPTIONS": f"-XX:MaxRAM={MEGABYTES}m"}
LITTLE_HEAPS = {"DOTNET_GCHeapHardLimit": f"{MEGABYTES << 20:x}"}
OPENED = 15  # seconds after which a stage that is being opened is not waited for any more


def program_of(command: List[str]) -> str:
    """The path of the command's program; a fault if there is none."""
    found = shutil.which(command[0])
    if not found:
        why = why_not_found(command[0]) if "/" in command[0] else None
        raise Fault(2, f"{command[0]} {why or 'is not a program: write one after --, as a path or by a name of PATH'}")
    return os.path.abspath(found) if "/" in command[0] else found


def variables_of(configuration: Dict[str, Any], function: Dict[str, Any], port: int, number: int,
                 more: Dict[str, str]) -> Dict[str, str]:
    """Those that Lambda sets (Lambda Developer Guide, "Defined runtime environment variables")."""
    region = configuration["region"]
    return {
        **os.environ, "AWS_ACCESS_KEY_ID": "local", "AWS_SECRET_ACCESS_KEY": "local", "AWS_SESSION_TOKEN": "local",
        "AWS_REGION": region, "AWS_DEFAULT_REGION": region, "TZ": ":UTC",
        "AWS_LAMBDA_RUNTIME_API": f"127.0.0.1:{port}", "_HANDLER": function["handler"], "LAMBDA_TASK_ROOT": os.getcwd(),
        "AWS_LAMBDA_FUNCTION_NAME": function["name"], "AWS_LAMBDA_FUNCTION_VERSION": "$LATEST",
        "AWS_LAMBDA_FUNCTION_MEMORY_SIZE": str(MEGABYTES), "AWS_LAMBDA_INITIALIZATION_TYPE": "on-demand",
        "AWS_LAMBDA_LOG_GROUP_NAME": f"/aws/lambda/{function['name']}",
        "AWS_LAMBDA_LOG_STREAM_NAME": f"local/[$LATEST]{number}", **more}


def collecting_early() -> Dict[str, str]:
    """Variables with which what collects its garbage does so early and often, as where there is little memory: what a
    process then holds is what it keeps. Options of the caller's own come first."""
    options = {name: f"{os.environ.get(name, '')} {words}".strip() for name, words in COLLECT_EARLY.items()}
    return {**LITTLE_HEAPS, **options}


def cut(text: str, most: int, end: str = "\u2026") -> str:
    """A text as a line for a person, of so many letters; what is left out is the end."""
    line = printable(text[:most + 1])
    return line if len(line) <= most else f"{line[:most]}{end}"


class Holds(NamedTuple):
    """What the processes of a command hold at one moment."""
    memory: int
    descriptors: int
    threads: int
    processes: int
    zombies: int


class Processes:
    """The processes that were started and have not ended yet, so that none is left running in any case."""

    def __init__(self) -> None:
        self._lock, self.closed = threading.Condition(), False
        self._running: "Set[Process]" = set()
        self._opening = 0  # stages that are being opened: their services are known to the guard only then
        self.ports: List[int] = []  # that the command listens on, whatever else does

    @contextlib.contextmanager
    def opening(self) -> Iterator[None]:
        """While a stage is opened; none is any more once all is closed."""
        with self._lock:
            if self.closed:
                raise Fault(2, "it is being ended")
            self._opening += 1
        try:
            yield
        finally:
            with self._lock:
                self._opening -= 1
                self._lock.notify_all()

    def start(self, command: List[str], variables: Dict[str, str]) -> "Process":
        with self._lock:
            if self.closed:
                raise Fault(2, "it is being ended")
            process = Process(command, variables, self._gone)
            self._running.add(process)
            return process

    def _gone(self, process: "Process") -> None:
        with self._lock:
            self._running.discard(process)

    def close(self) -> None:
        with self._lock:
            self.closed = True
            running = list(self._running)
        for process in running:
            process.kill()

    def settle(self) -> None:
        """Once closed: waits until no stage is being opened."""
        with self._lock:
            self._lock.wait_for(lambda: not self._opening, OPENED)


class Child(Protocol):
    """A process that was started: its number, and its status once it has ended, below zero by a signal."""
    pid: int

    def wait(self) -> int:
        ...


def begun(command: List[str], variables: Dict[str, str], output: IO[bytes]) -> Child:
    """Starts a command in a session of its own, which the guard knows."""
    words, pipe = GUARD.announcing([program_of(command), *command[1:]])
    return subprocess.Popen(words, env=variables, stdin=pipe, stdout=output, stderr=subprocess.STDOUT,
                            start_new_session=True)


class Process:
    """A command in a session of its own. What it writes goes to a file that is gone with it."""

    def __init__(self, command: List[str], variables: Dict[str, str], gone: Callable[["Process"], None]) -> None:
        self.command, self.begun, self._gone = command, time.monotonic(), gone
        self.output = tempfile.TemporaryFile()
        try:
            self._child = begun(command, variables, self.output)
        except OSError as fault:
            self.output.close()
            raise Fault(2, f"{command[0]} {why_not_started(program_of(command), fault)}") from None
        self._began_at = begun_at(self._child.pid)
        self._mark = f"AWS_LAMBDA_RUNTIME_API={variables['AWS_LAMBDA_RUNTIME_API']}".encode()
        self.status = 0  # once it has ended
        self.own = OwnTime(self._child.pid)  # since it began, or since `wait` has begun
        self._ended = threading.Event()
        threading.Thread(target=self._watch, daemon=True).start()

    def _watch(self) -> None:
        self.status = self._child.wait()
        self._ended.set()

    @property
    def number(self) -> int:
        return self._child.pid

    @property
    def ended(self) -> bool:
        return self._ended.is_set()

    def wait(self, seconds: float, since: Optional[float] = None) -> bool:
        """Whether it ends within this many seconds, from now on or since a moment of `time.monotonic`, by its own time,
        which `own` has then."""
        self.own = OwnTime(self.number, since)
        while not self._ended.wait(max(0.001, min(LOOK, seconds - self.own.seconds))):
            if self.own.look() >= seconds:
                return False
        self.own.look()
        return True

    @property
    def _session(self) -> int:
        """Its number; none that there is once it has ended and another process has the number, as on a machine that
        starts many: what that one has begun is not the command's."""
        now = begun_at(self.number) if self.ended else None
        return self.number if now in (None, self._began_at) else NO_SESSION

    def signal(self, number: int) -> None:
        """Sends it to the whole group."""
        session = self._session
        if session == NO_SESSION:
            return
        try:
            os.killpg(session, number)
        except (ProcessLookupError, PermissionError):
            pass

    def kill(self) -> None:
        """Ends all its processes as Lambda does at last."""
        self.signal(signal.SIGKILL)
        for member in processes_of(self._session, self._mark).running:
            try:
                os.kill(member, signal.SIGKILL)
            except ProcessLookupError:
                pass
        self._ended.wait()
        GUARD.release(self.number)
        self._gone(self)

    def last_lines(self, most: int) -> List[str]:
        """The last lines that it wrote and that are not empty, as they may be printed."""
        try:
            size = os.fstat(self.output.fileno()).st_size
            begin = max(0, size - most * (LONGEST_LINE + 1))
            text = os.pread(self.output.fileno(), size - begin, begin).decode(errors="replace")
        except (OSError, ValueError):
            return []
        lines = text.expandtabs(4).splitlines()[1 if begin else 0:] or text.splitlines()
        return [cut(line.rstrip(), LONGEST_LINE) for line in lines if line.strip()][-most:]

    def how_it_ended(self) -> str:
        if not self.ended:
            return "it runs"
        return f"it ended by signal {-self.status}" if self.status < 0 else f"it ended with status {self.status}"

    def kind_of_end(self) -> str:
        """The same, whatever the number is."""
        return "it runs" if not self.ended else "a signal" if self.status < 0 else "a status"

    def chosen_ports(self) -> List[int]:
        """Those on which its processes listen, and which the system has not chosen."""
        return chosen_ports(processes_of(self._session, self._mark).running)

    def holds(self) -> Holds:
        """What its processes hold: bytes of memory, and how many descriptors, threads, processes and zombies."""
        running, zombies = processes_of(self._session, self._mark)
        return Holds(sum(map(resident, running)), sum(map(open_descriptors, running)),
                     sum(len(threads_of(member)) for member in running), len(running), len(zombies))
