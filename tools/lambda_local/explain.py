"""Says in a sentence why the program refuses a configuration, a script or a variable (status 2), for the launchers: the
program's own line says it in a word.

  python3 -m lambda_local.explain PROGRAM serve CONFIGURATION
  python3 -m lambda_local.explain PROGRAM replay < SCRIPT        SCRIPT is a file
  .. | python3 -m lambda_local.explain PROGRAM piped [replay]    replays what comes, and explains then

Prints nothing if there is nothing to add."""
import os
import re
import signal
import stat
import subprocess
import sys
import threading
from typing import IO, Iterator, List, Optional

from .outgoing import tell
from .reasons import LineOf, among, sentence

NOT_READ = "usage: "  # the program's line if it does not read its arguments or its variables
PATIENCE, HOSTS, HANDLED = "LAMBDA_LOCAL_PATIENCE_MS", "LAMBDA_LOCAL_HOSTS", "LAMBDA_LOCAL_HANDLED"
LONGEST_PATIENCE = 2000  # milliseconds
HOST_NAMES = re.compile(r"[A-Za-z0-9._-]+(,[A-Za-z0-9._-]+)*")
PORTS = re.compile(r"[1-9][0-9]{0,4}(,[1-9][0-9]{0,4})*", re.ASCII)
MOST_HANDLED = 64
SIGNALS = (signal.SIGHUP, signal.SIGINT, signal.SIGQUIT, signal.SIGTERM)
SHOWN = 80  # characters of a value
AT_ONCE = 64 << 10  # bytes
MOST_KEPT = 4 << 20  # bytes of what goes through a pipe: its beginning, and its end


def said_of(program: str, words: List[str], script: bytes = b"") -> Optional[str]:
    """The last line of the program about its words, or about a script, if it refuses them with status 2."""
    try:
        done = subprocess.run([program, *words], input=script, stdout=subprocess.DEVNULL, stderr=subprocess.PIPE)
    except OSError:
        return None
    lines = done.stderr.decode(errors="replace").strip().split("\n")
    return lines[-1] if done.returncode == 2 else None


def script_of(configuration: bytes) -> bytes:
    """A script that has this configuration and no call. (JSON has no line feed within a text.)"""
    return b"form 2\n" + configuration.replace(b"\r", b" ").replace(b"\n", b" ") + b"\n"


def of_configuration(program: str, path: str) -> Iterator[str]:
    """What is wrong with the variables of `serve`, or with its configuration."""
    said = said_of(program, ["serve", os.devnull])  # (that is no configuration: nothing is served)
    if said is not None and said.startswith(NOT_READ):
        yield from of_variables()
        return
    if not os.path.isfile(path):
        return
    with open(path, "rb") as file:
        script = script_of(file.read())
    said = said_of(program, ["replay"], script)
    told = sentence(said, among(script.split(b"\n")), program) if said is not None else said
    if told is not None and told != said:
        yield f"{path}: {told.partition(', the configuration: ')[2]}"


def are_ports(text: str) -> bool:
    """Whether a text lists ports that `serve` may listen on beside those of its configuration."""
    if not PORTS.fullmatch(text):
        return False
    ports = [int(piece) for piece in text.split(",")]
    return len(ports) == len(set(ports)) <= MOST_HANDLED and max(ports) < 65536


def of_variables() -> Iterator[str]:
    patience, hosts, handled = os.environ.get(PATIENCE), os.environ.get(HOSTS), os.environ.get(HANDLED)
    if patience is not None and not (re.fullmatch("[0-9]+", patience) and int(patience[:20]) <= LONGEST_PATIENCE):
        yield f"{PATIENCE}={patience[:SHOWN]}: write a whole number of milliseconds from 0 to {LONGEST_PATIENCE}"
    if hosts and not HOST_NAMES.fullmatch(hosts):
        yield (f"{HOSTS}={hosts[:SHOWN]}: write names of letters, digits, -, . and _, separated by commas, without "
               "spaces or ports")
    if handled and not are_ports(handled):
        yield (f"{HANDLED}={handled[:SHOWN]}: write up to {MOST_HANDLED} ports from 1 to 65535, each once, separated "
               "by commas, without spaces")


def of_script(program: str, path: str) -> Iterator[str]:
    """What is wrong with a script in a file."""
    with open(path, "rb") as file:
        script = file.read()
    said = said_of(program, ["replay"], script)
    yield from of_said(said, among(script.split(b"\n")), program)


def of_said(said: Optional[str], line_of: LineOf, program: str) -> Iterator[str]:
    told = sentence(said, line_of, program) if said is not None else said
    if told is not None and told != said:
        yield told


class Piped:
    """What a program gets from standard input, and what it says on standard error, as both pass: the beginning and the
    end of the one, and the end of the other, are kept."""

    def __init__(self) -> None:
        self.first, self.last, self.said = bytearray(), bytearray(), b""
        self.gone = 0  # lines before the last ones
        self.is_cut = False  # their first one

    def begin(self, child: "subprocess.Popen[bytes]") -> None:
        assert child.stdin and child.stderr
        threading.Thread(target=self._feed, args=(child.stdin,), daemon=True).start()
        self.hearing = threading.Thread(target=self._hear, args=(child.stderr,), daemon=True)
        self.hearing.start()

    def _feed(self, sink: IO[bytes]) -> None:
        try:
            while data := os.read(0, AT_ONCE):
                self._keep(data)
                left = memoryview(data)
                while left:
                    left = left[sink.write(left):]
        except OSError:  # (the program has ended, or nothing more can be read)
            pass
        sink.close()

    def _keep(self, data: bytes) -> None:
        self.first += data[:MOST_KEPT - len(self.first)]
        self.last += data
        if len(self.last) > 2 * MOST_KEPT:
            cut = len(self.last) - MOST_KEPT
            self.gone += self.last.count(b"\n", 0, cut)
            self.is_cut = self.last[cut - 1:cut] != b"\n"
            del self.last[:cut]

    def _hear(self, source: IO[bytes]) -> None:
        while data := os.read(source.fileno(), AT_ONCE):
            self.said = (self.said + data)[-MOST_KEPT:]
            os.write(2, data)

    def line_of(self, number: int) -> Optional[bytes]:
        """A line that was kept whole."""
        at = number - 1 - self.gone
        if at < 0 or at == 0 and self.is_cut:
            found, at = self.first.split(b"\n")[:-1], number - 1
        else:
            found = self.last.split(b"\n")
        return bytes(found[at]) if at < len(found) else None

    def told(self, program: str) -> Iterator[str]:
        self.hearing.join()
        yield from of_said(self.said.decode(errors="replace").strip().rpartition("\n")[2], self.line_of, program)


def is_pipe(descriptor: int) -> bool:
    try:
        return stat.S_ISFIFO(os.fstat(descriptor).st_mode)
    except OSError:
        return False


def is_file(descriptor: int) -> bool:
    try:
        return stat.S_ISREG(os.fstat(descriptor).st_mode)
    except OSError:
        return False


# ---- the launcher of an installed package (in a checkout it is a shell: tools/library/explained.sh) ----------------

def before_serving(program: str, path: str) -> None:
    """Ends this process with status 2, and a sentence, if the program would refuse to serve this configuration.
    (`serve` itself must be this process, so that signals reach it.)"""
    found = list(of_configuration(program, path))
    if found and subprocess.run([program, "serve", path]).returncode == 2:
        for line in found:
            tell(f"lambda_local: {line}")
        sys.exit(2)


def replayed(program: str, words: List[str]) -> int:
    """The status of a replay of standard input: of a file, or of a pipe. Signals are passed on to it."""
    came: List[int] = []
    child: "Optional[subprocess.Popen[bytes]]" = None
    piped = None if is_file(0) else Piped()

    def pass_on(number: int, _frame: object) -> None:
        came.append(number)
        if child is not None:
            child.terminate()
    for number in SIGNALS:
        signal.signal(number, pass_on)
    through = None if piped is None else subprocess.PIPE
    child = subprocess.Popen([program, *words], stdin=through, stderr=through, bufsize=0)
    if piped is not None:
        piped.begin(child)
    if came:
        child.terminate()
    status = child.wait()
    ended_by = came[0] if came else -status if status < 0 else None
    if ended_by is not None:
        if ended_by != signal.SIGKILL:
            signal.signal(ended_by, signal.SIG_DFL)
        os.kill(os.getpid(), ended_by)
    if status == 2:
        for line in of_script(program, "/proc/self/fd/0") if piped is None else piped.told(program):
            tell(f"lambda_local: {line}")
    if piped is not None:
        piped.hearing.join()
    return status


def main() -> int:
    program, command, *rest = sys.argv[1:]
    if command == "piped":
        return replayed(program, rest)
    try:
        found = of_configuration(program, rest[0]) if command == "serve" else (
            of_script(program, f"/proc/self/fd/{sys.stdin.fileno()}") if is_file(sys.stdin.fileno()) else iter(()))
        for line in found:
            tell(f"lambda_local: {line}")
    except OSError:
        pass  # (the file has gone: the program's own line has to do)
    return 2


if __name__ == "__main__":
    sys.exit(main())
