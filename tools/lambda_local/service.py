"""A `lambda_local serve` of one's own, on free ports: what the tools have in common.

The program is the one given, else LAMBDA_LOCAL_PROGRAM, else the one that was installed with the tools, else the one
that the repository's ./lambda_local finds: none is proved or built for a tool. Free ports are the system's or, if
LAMBDA_LOCAL_PORTS=FIRST-LAST is set, of that range."""
import codecs
import contextlib
import json
import os
import random
import select
import shutil
import signal
import socket
import subprocess
import threading
import time
from typing import AnyStr, Callable, Collection, Dict, Iterator, List, Mapping, Optional, TextIO, Tuple

from .configuration import Members, explained, says
from .exchange.connection import Unanswered
from .exchange.of_threads import ask as ask, asked
from .guard import GUARD
from .history.comparison import compared
from .history.script import Script
from .outgoing import ESCAPED
from .paths import LIMITS
from .program import Fault as Fault, place_of_fault, program_path as program_path

RUNTIME = "/2018-06-01/runtime/"
AGAIN = "Lambda-Local-Again"  # a header: this has been sent before, so a storm spares it
EXTENSION = "/2020-01-01/extension/"
PIECE = 1 << 20  # bytes of what it says that are taken at once
TRIES = 5  # for a free port
TAKEN_SECONDS = 5.0  # for the status of a process that has ended
NO_NETWORK = "network: failed"  # the program's line if it cannot listen on a port
HANDLED, MOST_HANDLED = "LAMBDA_LOCAL_HANDLED", 64  # the variable that lists further ports, and how many it may list
TAKEN = "another program listens there: leave the port out, and a free one is used"
# Before the program's words: what a service begins with.
BEGUN = ("/bin/sh", "-c", '. "$0" && begin "$@"', LIMITS)


@contextlib.contextmanager
def undisturbed() -> Iterator[None]:
    """Puts off the signals that end a tool: a process that is started and not known yet could not be ended."""
    if threading.current_thread() is not threading.main_thread():
        yield
        return
    came: List[int] = []
    before = {number: signal.signal(number, lambda number, _: came.append(number))
              for number in (signal.SIGTERM, signal.SIGINT, signal.SIGHUP)}
    try:
        yield
    finally:
        for number, handler in before.items():
            signal.signal(number, handler)
        for one in came:
            signal.raise_signal(one)


def free_ports(count: int, taken: Collection[int]) -> List[int]:
    """Returns this many ports that no one listens on now, none of those taken."""
    first, last = 0, 0
    if words := os.environ.get("LAMBDA_LOCAL_PORTS"):
        try:
            first, last = (int(word) for word in words.split("-"))
            if not 0 < first <= last < 65536:
                raise ValueError
        except ValueError:
            raise Fault(2, f"LAMBDA_LOCAL_PORTS={words}: write it as FIRST-LAST, for example 20000-23999") from None
    candidates = iter(random.sample(range(first, last + 1), last + 1 - first)) if first else None
    held: List[socket.socket] = []
    ports: List[int] = []
    try:
        while len(ports) < count:
            port = next(candidates, None) if candidates else 0
            if port is None:
                raise Fault(4, f"LAMBDA_LOCAL_PORTS={words}: not enough of these ports are free, {count} are needed")
            listener = socket.socket()
            held.append(listener)
            try:
                if candidates:
                    # (a port whose connections have ended a moment ago is free; one that another program looks at at
                    # the same time is not, since it listens there as well)
                    listener.setsockopt(socket.SOL_SOCKET, socket.SO_REUSEADDR, 1)
                listener.bind(("127.0.0.1", port))
                listener.listen(1)
            except OSError:
                if candidates:
                    continue
                raise
            if listener.getsockname()[1] not in taken:
                ports.append(listener.getsockname()[1])
        return ports
    finally:
        for listener in held:
            listener.close()


def is_taken(port: int) -> bool:
    """Whether somebody listens on this port."""
    with socket.socket() as listener:
        listener.setsockopt(socket.SOL_SOCKET, socket.SO_REUSEADDR, 1)
        try:
            listener.bind(("127.0.0.1", port))
        except OSError:
            return True
    return False


def wait_for(child: "subprocess.Popen[AnyStr]", seconds: float) -> int:
    """Waits for the end of a child. `Popen.wait` with a limit looks again and again, up to 50 ms apart; a descriptor of
    the child (Linux 5.3) says at once that it has ended."""
    try:
        descriptor = os.pidfd_open(child.pid)
    except (AttributeError, OSError):  # an older system, or its status was taken already
        return child.wait(seconds)
    try:
        end = select.poll()
        end.register(descriptor, select.POLLIN)
        has_ended = end.poll(seconds * 1000)
    finally:
        os.close(descriptor)
    # (Another thread may wait for it too, and take its status a moment later than this one hears of its end.)
    return child.wait(TAKEN_SECONDS if has_ended else 0)


def free_listener(owner: str, path: str) -> socket.socket:
    """A socket that listens on a free port, which another program can take between looking and listening."""
    for _ in range(TRIES):
        port, made = free_ports(1, ())[0], socket.socket()
        try:
            made.setsockopt(socket.SOL_SOCKET, socket.SO_REUSEADDR, 1)
            made.bind(("127.0.0.1", port))
            made.listen(1024)
            return made
        except OSError:
            made.close()
    raise Fault(4, f"{path}: port {port} ({owner}): {TAKEN}")


class Service:
    """A running service. Of the configuration, ports of 0 (and an absent `invokePort`) are replaced by free ones.
    `path` is the file that the configuration is from, for messages, and `variables` are its own beside ours. `handled`
    are further ports, all of whose requests it hands over, by their owners; those of 0 are replaced likewise."""

    def __init__(self, configuration: Members, program: Optional[str] = None,
                 say: Callable[[str], None] = lambda line: None, path: Optional[str] = None,
                 variables: Mapping[str, str] = {}, follow: "Optional[Callable[[Service], None]]" = None,
                 handled: Mapping[str, int] = {}) -> None:
        """Once it listens, `follow` has what it says taken, by `come` and `close_said`; otherwise a thread does."""
        self.follow, self.wanted = follow, handled
        self.program, self.say, self.variables = program_path(program), say, variables
        self.lines: List[str] = []
        self.given, self.path = configuration, path
        self._refuse_handled()
        self.folder = GUARD.new_folder()
        try:
            for _ in range(TRIES):  # between looking and listening another program can take a port
                picked = self._choose()
                if self._start():
                    return
                self._refuse_taken_ports()
                if not picked or NO_NETWORK not in self.lines:
                    break
            raise Fault(self.process.returncode or 4, self._why_not())
        except BaseException:
            self.kill()
            raise

    def _refuse_taken_ports(self) -> None:
        """If ports that were asked for are taken, another try is in vain."""
        if NO_NETWORK not in self.lines:
            return
        taken = [f"port {port} ({owner})" for owner, port in self._ports() if port and is_taken(port)]
        if taken:
            raise Fault(4, f"{self._place()}{', '.join(taken)}: {TAKEN}")

    def _ports(self) -> Iterator[Tuple[str, int]]:
        """The ports that were asked for, with what each is for."""
        yield "invokePort", self.given.get("invokePort", 0)
        for function in self.given["functions"]:
            yield from ((f"function {function['name']}", port) for port in function["ports"])
        yield from self.wanted.items()

    def _refuse_handled(self) -> None:
        """What the program would refuse of further ports, by their owners."""
        if len(self.wanted) > MOST_HANDLED:
            raise Fault(2, f"{self._place()}{len(self.wanted)} ports are wanted for Function URLs and APIs: there may "
                           f"be {MOST_HANDLED}: leave some out")
        owners: Dict[int, str] = {}
        for owner, port in self._ports():
            if port and owner in self.wanted and port in owners:
                raise Fault(2, f"{self._place()}port {port} is that of {owners[port]} and of {owner}: each must have "
                               "its own")
            owners[port] = owner

    def _place(self) -> str:
        return f"{self.path}: " if self.path else ""

    def _why_not(self) -> str:
        """Why it did not start, in words if it names a fault of the configuration."""
        told = self.lines[-1] if self.lines else f"ended with status {self.process.returncode}"
        of, _, name = told.partition(": ")
        place = place_of_fault(self.program, json.dumps(self.configuration).encode()) if of == "configuration" else ""
        reason = explained(name, self.given, place) if of == "configuration" else ""
        if reason:
            return f"{self._place()}{reason} (the service {says(name, place)})"
        return f"the service did not start: {told}"

    def _choose(self) -> int:
        configuration = json.loads(json.dumps(self.given))
        functions = configuration["functions"]
        given = [port for _, port in self._ports()]
        wanted = given.count(0)
        ports = iter(free_ports(wanted, given))
        if not configuration.get("invokePort"):
            configuration["invokePort"] = next(ports)
        for function in functions:
            function["ports"] = [port or next(ports) for port in function["ports"]]
        self.handled = {owner: port or next(ports) for owner, port in self.wanted.items()}
        self.configuration, self.port = configuration, configuration["invokePort"]
        self.endpoint_url = f"http://127.0.0.1:{self.port}"
        self.through = self.port  # by which queues and streams invoke: in a storm the front's
        return wanted

    def _start(self) -> bool:
        path = os.path.join(self.folder, "configuration.json")
        with open(path, "w") as file:
            json.dump(self.configuration, file)
        self.lines = []
        handled = {HANDLED: ",".join(map(str, self.handled.values()))} if self.handled else {}
        environ = {name: value for name, value in os.environ.items() if name != HANDLED}  # (it has handlers of its own)
        # (in a session of its own, so that a terminal's Ctrl-C does not end it out of order)
        with undisturbed():
            command, pipe = GUARD.announcing([*BEGUN, self.program, "serve", path])
            self.process = subprocess.Popen(command, stdin=pipe, stdout=subprocess.PIPE, stderr=subprocess.PIPE,
                                            text=True, errors="replace", start_new_session=True,
                                            env={**environ, **handled, **self.variables})
            assert self.process.stdout and self.process.stderr
            self.output, self.said = self.process.stdout, self.process.stderr
            self.listening, self.has_said_all, self.rest = threading.Event(), threading.Event(), b""
            reader = threading.Thread(target=self._read, daemon=True)
            reader.start()
        begun = time.monotonic()
        while not self.listening.wait(5):
            self.say(f"waits for the service since {time.monotonic() - begun:.0f} s")
        if self.listening_line:
            if self.follow:
                reader.join()
                self.follow(self)
            return True
        with contextlib.suppress(subprocess.TimeoutExpired):
            wait_for(self.process, 5)
        self._kill_group()  # (if it has closed its standard error, and not ended)
        GUARD.release(self.process.pid)
        self.output.close()
        self.has_said_all.wait(5)
        return False

    listening_line = False

    def _read(self) -> None:
        self.listening_line = False
        try:
            while self.come():
                if self.listening_line and self.follow:
                    return
            self.close_said()
        finally:
            self.listening.set()

    def come(self) -> bool:
        """Takes what it says next on standard error, which is waited for; whether there can be more."""
        data = os.read(self.said.fileno(), PIECE)
        *lines, self.rest = (self.rest + data).split(b"\n")
        if not data and self.rest:
            lines, self.rest = [self.rest], b""
        for line in lines:
            self._take(line.decode(errors="replace"))
        return bool(data)

    def close_said(self) -> None:
        """Once there is no more."""
        self.said.close()
        self.has_said_all.set()

    def _take(self, line: str) -> None:
        self.lines.append(line)
        if line.split(" ")[-1] == "listening":
            self.listening_line = True
            self.listening.set()
        elif not line.startswith("[INFO ") and (  # (what is refused is told with the function's name)
                self.listening_line or not line.startswith((NO_NETWORK, "configuration: "))):
            self.say(line)

    def stats(self) -> Dict[str, int]:
        counts: Dict[str, int] = json.loads(ask(self.port, "GET", "/_local/stats")[2])
        return counts

    def history(self) -> str:
        return ask(self.port, "GET", "/_local/history", timeout=300)[2].decode()

    def save_history(self, file: TextIO) -> None:
        """Writes the history as it comes, a piece at a time. Unanswered if it does not come whole, another OSError if
        it cannot be written."""
        decoder = codecs.getincrementaldecoder("utf-8")(ESCAPED)
        with asked(self.port, "GET", "/_local/history", timeout=300) as answer:
            if answer.status != 200:
                raise Unanswered(f"the service answers {answer.status}")
            for piece in answer.pieces():
                file.write(decoder.decode(piece))
            file.write(decoder.decode(b"", True))

    def stop(self, seconds: float = 20) -> Tuple[int, str]:
        """Stops it in order, or kills it after this many seconds. Returns its status, and the line with its counts."""
        end = time.monotonic() + seconds
        while self.process.poll() is None:
            try:
                if ask(self.port, "POST", "/_local/stop", timeout=seconds)[0] == 202:
                    break
                time.sleep(0.1)  # (no memory for it just now)
            except OSError:
                time.sleep(0.05)
            if time.monotonic() > end:
                break
        try:
            wait_for(self.process, max(0.1, end - time.monotonic()))
        except subprocess.TimeoutExpired:
            self.say(f"the service did not end within {seconds} s and is killed")
            self._kill_group()
        counts = self.output.read().strip()
        self.kill()
        return self.process.returncode, counts

    def _kill_group(self) -> None:
        """(a program that is a script of somebody's cleans up when it is asked to end)"""
        for number in (signal.SIGTERM, signal.SIGKILL):
            if self.process.poll() is None:
                with contextlib.suppress(subprocess.TimeoutExpired, ProcessLookupError):
                    os.killpg(self.process.pid, number)
                    self.process.wait(3 if number == signal.SIGTERM else None)

    def kill(self) -> None:
        """Ends it in any case, and leaves nothing running."""
        if hasattr(self, "output"):
            self._kill_group()
            GUARD.release(self.process.pid)
            self.output.close()
            self.has_said_all.wait(5)
        shutil.rmtree(self.folder, ignore_errors=True)
        GUARD.release(self.folder)

    def replays(self, history: str) -> bool:
        """Whether the history's replay gives its own answers."""
        script = Script("the history", history.encode())
        try:
            return compared(script, self.program).difference is None
        except Fault:
            return False
        finally:
            script.close()
