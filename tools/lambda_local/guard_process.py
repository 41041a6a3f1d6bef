"""The guard of a tool, as a process of its own: it starts processes that the tool asks for, so that they are below it,
and ends them and all else that the tool holds once the tool has gone, however that ended.

It adopts what loses its parent below it (`PR_SET_CHILD_SUBREAPER`, prctl(2)): so a process cannot leave it, not even
by a session of its own. What a process that has ended leaves behind is known by a variable (`PROCESS`). `guard` has
the tool's side. Standard input has a line for each target that is held or released; the socket whose number is the
argument has requests and answers, each a length and JSON."""
import contextlib
import json
import os
import select
import shutil
import signal
import socket
import struct
import subprocess
import sys
import time
from typing import Callable, Dict, List, Mapping, Optional, Tuple, Union, cast

SET_CHILD_SUBREAPER = 36  # <linux/prctl.h>
CHILDREN = "/proc/{}/task/{}/children"  # of a thread of a process
LENGTH = struct.Struct("!I")
PATIENCE = 10.0  # seconds for killed processes to end (one may wait for a device)
FORKER_SECONDS = 10.0  # for a forker to be ready, and for its answer
MOST_FORKERS = 8
PROCESS = "LAMBDA_LOCAL_PROCESS"  # another value for each that is started here, and for what that starts
SWITCH = "LAMBDA_LOCAL_FORK"  # with "0" each runtime is a fresh interpreter
# The variables in which the environments of functions differ: none of them is read before a runtime is.
OF_ENVIRONMENTS = ("AWS_LAMBDA_RUNTIME_API", "AWS_LAMBDA_FUNCTION_NAME", "AWS_LAMBDA_FUNCTION_VERSION",
                   "AWS_LAMBDA_FUNCTION_MEMORY_SIZE", "AWS_LAMBDA_LOG_GROUP_NAME", "AWS_LAMBDA_LOG_STREAM_NAME",
                   "_HANDLER", "LAMBDA_TASK_ROOT", "LAMBDA_LOCAL_MARK", PROCESS)


def adopt_orphans() -> None:
    """From now on, a process below this one whose parent ends gets this one as its parent."""
    with contextlib.suppress(ImportError, OSError, AttributeError):
        import ctypes
        ctypes.CDLL(None).prctl(SET_CHILD_SUBREAPER, 1, 0, 0, 0)


def below(pid: int) -> List[int]:
    """The processes below this one, those of each level before those below them."""
    children_of = listed_children if os.path.exists(CHILDREN.format(os.getpid(), os.getpid())) else scanned_children()
    found: List[int] = []
    level = [pid]
    while level := [child for parent in level for child in children_of(parent)]:
        found += level
    return found


def listed_children(pid: int) -> List[int]:
    """The children of a process, as the system lists them for each of its threads."""
    found: List[int] = []
    with contextlib.suppress(OSError):  # (it has gone)
        for task in os.listdir(f"/proc/{pid}/task"):
            with contextlib.suppress(OSError), open(CHILDREN.format(pid, task)) as file:
                found += map(int, file.read().split())
    return found


def scanned_children() -> Callable[[int], List[int]]:
    """The same on a kernel without these lists: by the parents of all processes."""
    children: Dict[int, List[int]] = {}
    for name in filter(str.isdigit, os.listdir("/proc")):
        with contextlib.suppress(OSError, IndexError), open(f"/proc/{name}/stat", "rb") as file:
            parent = int(file.read().rpartition(b")")[2].split()[1])
            children.setdefault(parent, []).append(int(name))
    return lambda pid: children.get(pid, [])


def processes_with(variable: str, among: Optional[List[int]] = None) -> List[int]:
    """The processes that were started with a variable, NAME=VALUE, among these, or all; but for this one."""
    found = []
    for pid in map(int, filter(str.isdigit, os.listdir("/proc"))) if among is None else among:
        with contextlib.suppress(OSError), open(f"/proc/{pid}/environ", "rb") as file:
            if pid != os.getpid() and os.fsencode(variable) in file.read().split(b"\0"):
                found.append(pid)
    return found


def send(pid: int, number: int) -> None:
    with contextlib.suppress(ProcessLookupError, PermissionError):
        os.kill(pid, number)


def send_group(pid: int, number: int) -> None:
    with contextlib.suppress(ProcessLookupError, PermissionError):
        os.killpg(pid, number)


def begun_at(pid: int) -> str:
    """When a process began, in the system's clock ticks; nothing if there is none of this number."""
    try:
        with open(f"/proc/{pid}/stat", "rb") as file:
            return file.read().rpartition(b")")[2].split()[19].decode()
    except (OSError, IndexError):
        return ""


def kill_tree(pid: int) -> None:
    """Kills a process, its group, and all below it: each is stopped first, so that it starts nothing more."""
    found: List[int] = []
    fresh = [pid]
    while fresh:
        for one in fresh:
            send(one, signal.SIGSTOP)
        found += fresh
        fresh = [one for one in below(pid) if one not in found]
    send_group(pid, signal.SIGKILL)
    for one in found:
        send(one, signal.SIGKILL)


def reap() -> None:
    """Takes the status of each child that has ended."""
    with contextlib.suppress(ChildProcessError):
        while os.waitpid(-1, os.WNOHANG)[0]:
            pass


def end_all_below() -> None:
    """Kills all that is below this process."""
    end = time.monotonic() + PATIENCE
    while (found := below(os.getpid())) and time.monotonic() < end:
        for pid in found:
            send(pid, signal.SIGKILL)
        reap()
        time.sleep(0.005)


def frame(message: object) -> bytes:
    data = json.dumps(message).encode()
    return LENGTH.pack(len(data)) + data


def receive(channel: socket.socket) -> Tuple[Optional[Dict[str, object]], List[int]]:
    """The next message, and the descriptors that came with it; none at the end."""
    data, handles, wanted = b"", [], LENGTH.size
    while len(data) < wanted:
        piece, came, _, _ = socket.recv_fds(channel, wanted - len(data), 1)
        handles += came
        if not piece:
            return None, handles
        data += piece
        if len(data) == LENGTH.size == wanted:
            wanted += LENGTH.unpack(data)[0]
    message: Dict[str, object] = json.loads(data[LENGTH.size:])
    return message, handles


class Forker:
    """A process that forks runtimes (`forker`): it has the imports of one that was started by these words, in this
    folder and with these variables."""

    def __init__(self, words: List[str], cwd: str, env: Mapping[str, str]):
        self.channel, its = socket.socketpair()
        self.channel.settimeout(FORKER_SECONDS)
        path = os.path.join(os.path.dirname(os.path.realpath(__file__)), "forker.py")
        try:
            self.process = subprocess.Popen([*words[:-1], path, words[-1], str(its.fileno())], env=env, cwd=cwd,
                                            stdin=subprocess.DEVNULL, stdout=subprocess.DEVNULL,
                                            stderr=subprocess.DEVNULL, start_new_session=True, pass_fds=[its.fileno()])
        except OSError:
            self.channel.close()
            raise
        finally:
            its.close()
        if not self._answer().get("ready"):
            raise OSError("it cannot fork")

    def _answer(self) -> Dict[str, object]:
        message = receive(self.channel)[0]
        if message is None:
            raise OSError("it has ended")
        return message

    def start(self, cwd: str, env: Mapping[str, str], output: int) -> int:
        """The number of a runtime that it has forked, which is a child of this process."""
        data = frame({"cwd": cwd, "env": dict(env)})
        sent = socket.send_fds(self.channel, [data], [output])
        self.channel.sendall(data[sent:])
        pid = self._answer().get("pid")
        if not isinstance(pid, int):
            raise OSError("it cannot fork")
        with open(f"/proc/{pid}/stat", "rb") as file:
            parent = int(file.read().rpartition(b")")[2].split()[1])
        if parent != os.getpid():  # (nothing is adopted here)
            kill_tree(pid)
            raise OSError("what it forks is not below the guard")
        return pid

    def end(self) -> None:
        self.channel.close()
        with contextlib.suppress(AttributeError):  # (it was never started)
            kill_tree(self.process.pid)
            self.process.wait()


class ForkedChild:
    """A child that another process has forked for this one."""

    def __init__(self, pid: int):
        self.pid = pid

    def wait(self) -> None:
        with contextlib.suppress(ChildProcessError):
            os.waitpid(self.pid, 0)


class Forkers:
    """Those that there are, by what a fresh interpreter would begin with: its program, its folder, and all variables
    but those that name the function and the environment."""

    def __init__(self) -> None:
        self.forkers: Dict[str, Optional[Forker]] = {}  # none for one that has failed
        self.seen: Dict[str, bool] = {}

    def start(self, words: List[str], cwd: str, env: Mapping[str, str], output: int) -> Optional[ForkedChild]:
        """A runtime that was forked; none if it is to be started afresh. The first of its kind is."""
        kept = {name: value for name, value in env.items() if name not in OF_ENVIRONMENTS}
        key = json.dumps([words, cwd, sorted(kept.items())])
        if env.get(SWITCH) == "0" or not self.seen.get(key):
            self.seen[key] = True
            return None
        try:
            forker = self.forkers[key] if key in self.forkers else self._make(key, words, cwd, env)
            return ForkedChild(forker.start(cwd, env, output)) if forker else None
        except (OSError, ValueError):
            self._drop(key)
            return None

    def _make(self, key: str, words: List[str], cwd: str, env: Mapping[str, str]) -> Optional[Forker]:
        if len(self.forkers) >= MOST_FORKERS:
            return None
        self.forkers[key] = None  # (until it is ready)
        # (what it forks has these in /proc, whatever they are in the fork)
        own = {name: value for name, value in env.items() if name != PROCESS}
        self.forkers[key] = found = Forker(words, cwd, own)
        return found

    def _drop(self, key: str) -> None:
        forker = self.forkers.get(key)
        self.forkers[key] = None
        if forker is not None:
            forker.end()


class Guard:
    def __init__(self, channel: socket.socket):
        self.channel = channel
        self.held: List[Tuple[str, str]] = []
        self.begun: Dict[str, str] = {}  # when the processes that are held began, by their numbers
        self.started: Dict[int, "Union[subprocess.Popen[bytes], ForkedChild]"] = {}
        self.forkers = Forkers()
        self.marks: Dict[int, str] = {}  # the variables of those, NAME=VALUE
        self.ended: Dict[int, int] = {}  # the statuses that the tool was sent
        self.unread = b""  # of standard input

    def serve(self) -> None:
        """Until the tool has gone."""
        woken, wakes = os.pipe()
        os.set_blocking(wakes, False)
        signal.signal(signal.SIGCHLD, lambda *_: None)
        signal.set_wakeup_fd(wakes, warn_on_full_buffer=False)
        sources = select.poll()
        for source in (0, self.channel.fileno(), woken):
            sources.register(source, select.POLLIN)
        while True:
            ready = {source for source, _ in sources.poll()}
            if woken in ready:
                os.read(woken, 4096)
                self.look()
            if self.channel.fileno() in ready and not self.answer():
                sources.unregister(self.channel.fileno())
            if 0 in ready and not self.note():
                return

    # ---- what is held ------------------------------------------------------------------------------------------------

    def note(self) -> bool:
        """Takes lines; whether more can come."""
        data = os.read(0, 65536)
        *lines, self.unread = (self.unread + data).split(b"\n")
        for line in lines:
            sign, kind, target = os.fsdecode(line).split(" ", 2)
            if sign == "+":
                self.held.append((kind, target))
                if kind in ("group", "process"):
                    self.begun[target] = begun_at(int(target))
            elif (kind, target) in self.held:
                self.held.remove((kind, target))
        return bool(data)

    def end(self) -> None:
        """Ends all that is held, and all below this process."""
        for kind, target in self.held:
            # (one that has ended meanwhile may have given its number to a process of others)
            if kind in ("group", "process") and begun_at(int(target)) in ("", self.begun[target]):
                kill_tree(int(target))
        for kind, target in self.held:
            if kind == "marked":
                self.end_by_mark(target)
        end_all_below()
        for kind, target in self.held:
            if kind == "folder":
                shutil.rmtree(target, ignore_errors=True)

    @staticmethod
    def end_by_mark(variable: str, among: Callable[[], Optional[List[int]]] = lambda: None) -> None:
        """What lost its parent before, and so is below nothing that is held."""
        end = time.monotonic() + PATIENCE
        while (found := processes_with(variable, among())) and time.monotonic() < end:
            for pid in found:
                kill_tree(pid)
            time.sleep(0.005)

    # ---- what is started here ----------------------------------------------------------------------------------------

    def answer(self) -> bool:
        """Does what the next message asks for; whether more can come."""
        message, handles = receive(self.channel)
        if message is None:
            return False
        try:
            if "start" in message:
                self.tell(self.start(cast(List[str], message["start"]), cast(str, message["cwd"]),
                                     cast(Dict[str, str], message["env"]), handles[0], bool(message.get("forks"))))
            else:
                self.kill(cast(int, message["end"]))
        finally:
            for handle in handles:
                os.close(handle)
        return True

    def tell(self, message: object) -> None:
        with contextlib.suppress(OSError):  # (the tool has gone, which standard input says)
            self.channel.sendall(frame(message))

    def start(self, words: List[str], cwd: str, env: Dict[str, str], output: int, forks: bool) -> Dict[str, object]:
        mark = os.urandom(16).hex()
        env = {**env, PROCESS: mark}
        forked = self.forkers.start(words, cwd, env, output) if forks else None
        if forked is not None:
            self.started[forked.pid], self.marks[forked.pid] = forked, f"{PROCESS}={mark}"
            return {"pid": forked.pid}
        try:
            child = subprocess.Popen(words, cwd=cwd, env=env, stdin=subprocess.DEVNULL, stdout=output, stderr=output,
                                     start_new_session=True)
        except OSError as fault:
            return {"errno": fault.errno}
        except (ValueError, MemoryError) as fault:
            return {"errno": 0, "reason": str(fault)}
        self.started[child.pid], self.marks[child.pid] = child, f"{PROCESS}={mark}"
        return {"pid": child.pid}

    def kill(self, pid: int) -> None:
        """Ends a process that was started here, what is below it, and what it has left behind, which is adopted."""
        child = self.started.get(pid)
        if child is not None:
            kill_tree(pid)
            child.wait()
            del self.started[pid]
            self.ended.pop(pid, None)
            self.end_by_mark(self.marks.pop(pid), self.orphans)
        self.tell({"gone": pid})

    def look(self) -> None:
        """Says which processes have ended: their numbers stay theirs until they are killed. What was adopted goes."""
        for pid in self.started:
            if pid not in self.ended:
                seen = os.waitid(os.P_PID, pid, os.WEXITED | os.WNOWAIT | os.WNOHANG)
                if seen is not None:
                    self.ended[pid] = seen.si_status if seen.si_code == os.CLD_EXITED else -seen.si_status
                    self.tell({"ended": pid, "status": self.ended[pid]})
        for pid in self.orphans():
            with contextlib.suppress(ChildProcessError):
                os.waitpid(pid, os.WNOHANG)

    def orphans(self) -> List[int]:
        return [pid for pid in self.children() if pid not in self.started]

    @staticmethod
    def children() -> List[int]:
        own = os.getpid()
        return listed_children(own) or below(own)


def main() -> None:
    adopt_orphans()
    guard = Guard(socket.socket(fileno=int(sys.argv[1])))
    try:
        guard.serve()
    finally:
        guard.end()


if __name__ == "__main__":
    main()
    os._exit(0)  # (at once: the one that ends this waits for it)
