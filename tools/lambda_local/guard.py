"""Leaves no process behind even if the tool itself is killed: a second process ends what the tool holds.

`hold` and `release` name what is to be ended: a process group (its number) or a single process (`Single`), each with
all below it; whatever was started with a variable (`Mark`); a folder (a path). They go through a pipe whose writing
end only this process has. When that closes, however this process ended, the guard kills what is still held. A process
must be released before its status is asked for: until then, its number cannot be another's.

`start` lets the guard start a process: it is then below the guard, which ends it with all that it has started, whatever
session that is in. If the guard itself is killed, what was below it comes below this process (`adopt_orphans`)."""
import atexit
import contextlib
import errno
import os
import queue
import socket
import subprocess
import sys
import tempfile
import threading
from collections import deque
from typing import Callable, Deque, Dict, List, Mapping, Optional, Tuple, Union

from . import guard_process
from .guard_process import frame, receive

PATIENCE = 30.0  # seconds for the guard to answer
END_SECONDS = 60.0  # for it to end all that it holds


class Single(int):
    """The number of one process, without its group."""


class Mark(str):
    """`NAME=VALUE`: every process that was started with this variable, whatever has become of its parent."""


Target = Union[int, str]
Answer = Dict[str, object]
Take = Callable[[Optional[Answer]], None]


class NoAnswer(TimeoutError):
    def __init__(self) -> None:
        super().__init__(errno.ETIMEDOUT, "the guard does not answer")


def request(words: List[str], directory: str, variables: Mapping[str, str], forks: bool) -> Dict[str, object]:
    """What the guard is asked for a start."""
    return {"start": words, "cwd": directory, "env": dict(variables), "forks": forks}


class Process:
    """A process that the guard has started, in a session of its own: its number is its own until it is killed."""

    def __init__(self, guard: "Guard", pid: int):
        self.guard, self.pid = guard, pid
        self.has_ended = threading.Event()
        self.returncode: Optional[int] = None  # below zero: the signal that ended it
        self.when_ended: Callable[[], None] = lambda: None  # called once its end is known, by who reads of that

    def status(self) -> int:
        """Once it has ended; -9 if the guard has gone, which knows it."""
        self.has_ended.wait(PATIENCE)
        return -9 if self.returncode is None else self.returncode

    def kill(self) -> None:
        """Kills it, its group, and all below it."""
        self.guard.kill(self)

    def note_end(self) -> None:
        self.has_ended.set()
        self.when_ended()


class Channel:
    """Requests to the guard and their answers, in their order; and what it says of processes meanwhile."""

    def __init__(self, ours: socket.socket, when_lost: "Callable[[Channel], None]"):
        self.socket, self.when_lost = ours, when_lost
        self.sending, self.lock = threading.Lock(), threading.Lock()
        self.awaited: Deque[Take] = deque()  # who gets the next answers
        self.is_lost = False
        self.started: Dict[int, Process] = {}
        self.early: Dict[int, int] = {}  # statuses of processes that ended before their start was answered

    def follow(self) -> None:
        """By a thread."""
        threading.Thread(target=self.read, name="guard", daemon=True).start()

    def ask(self, message: object, handles: Tuple[int, ...] = ()) -> Answer:
        """The answer to a request. OSError if the guard has gone."""
        answers: "queue.SimpleQueue[Optional[Answer]]" = queue.SimpleQueue()
        self.send(message, handles, answers.put)
        try:
            return self.given(answers.get(timeout=PATIENCE))
        except queue.Empty:
            raise NoAnswer() from None

    @staticmethod
    def given(answer: Optional[Answer]) -> Answer:
        """OSError if there is none."""
        if answer is None:
            raise ConnectionResetError(errno.ECONNRESET, "the guard has gone")
        return answer

    def send(self, message: object, handles: Tuple[int, ...], take: Take) -> None:
        """`take` is given the answer, or nothing once the guard has gone. OSError if it cannot be sent."""
        with self.sending:
            with self.lock:
                if self.is_lost:
                    return take(None)
                self.awaited.append(take)
            data = frame(message)
            try:
                sent = socket.send_fds(self.socket, [data], handles) if handles else 0
                self.socket.sendall(data[sent:])
            except OSError:
                with self.lock, contextlib.suppress(ValueError):
                    self.awaited.remove(take)
                raise

    def read(self) -> None:
        while self.come():
            pass

    def come(self) -> bool:
        """Takes the next message, which is waited for; whether there can be another one."""
        try:
            message = receive(self.socket)[0]
        except (OSError, ValueError):  # (it has gone, or says what it never says)
            message = None
        if message is None:
            self.lose()
            return False
        self.take(message)
        return True

    def lose(self) -> None:
        with self.lock:
            self.is_lost = True
            awaited, started = list(self.awaited), list(self.started.values())
            self.awaited.clear()
        for take in awaited:
            take(None)
        for process in started:
            process.note_end()
        self.when_lost(self)

    def take(self, message: Answer) -> None:
        pid, status = message.get("ended"), message.get("status")
        take: Optional[Take] = None
        with self.lock:
            if not isinstance(pid, int) or not isinstance(status, int):
                take = self.awaited.popleft() if self.awaited else None
            elif pid in self.started:
                self.note(self.started[pid], status)
            else:
                self.early[pid] = status
        if take:
            take(message)

    @staticmethod
    def note(started: Process, status: int) -> None:
        started.returncode = status
        started.note_end()

    def know(self, started: Process) -> None:
        with self.lock:
            self.started[started.pid] = started
            if started.pid in self.early:
                self.note(started, self.early.pop(started.pid))
            if self.is_lost:
                started.note_end()

    def forget(self, pid: int) -> None:
        with self.lock:
            self.started.pop(pid, None)
            self.early.pop(pid, None)


class Guard:
    def __init__(self) -> None:
        self.lock = threading.Lock()
        self.process: "Optional[subprocess.Popen[bytes]]" = None
        self.pipe = -1
        self.channel: Optional[Channel] = None
        self.when_lost: Callable[[], None] = lambda: None
        self.follow: Callable[[Channel], None] = Channel.follow  # has a channel's messages taken, as they come
        os.register_at_fork(after_in_child=self._forget)

    def hold(self, target: Target) -> None:
        self._say("+", target)

    def release(self, target: Target) -> None:
        self._say("-", target)

    def new_folder(self) -> str:
        """Makes a folder for temporary files, which is held before it exists: this process may be killed in between."""
        while True:
            path = os.path.join(os.path.abspath(tempfile.gettempdir()), f"lambda_local.{os.urandom(8).hex()}")
            self.hold(path)
            try:
                os.mkdir(path, 0o700)
                return path
            except FileExistsError:  # (another program's)
                self.release(path)
            except OSError:
                self.release(path)
                raise

    def announcing(self, words: List[str]) -> Tuple[List[str], int]:
        """Returns these words after those of a shell that holds its own group before it becomes them, and the pipe that
        must be its standard input: so the guard knows the group from the moment that it exists."""
        self.begin()
        return ["/bin/sh", "-c", '(echo "+ group $$" >&0) 2>/dev/null; exec "$@" </dev/null', "sh", *words], self.pipe

    def start(self, words: List[str], directory: str, variables: Mapping[str, str], output: int,
              forks: bool = False) -> Process:
        """Starts a process below the guard, whose standard output and error are this descriptor. One that `forks`, a
        Python program, may be forked by a process that has its imports (`forker`). OSError if it cannot be."""
        channel = self.begin()
        return self.known(channel, words, channel.ask(request(words, directory, variables, forks), (output,)))

    def known(self, channel: Channel, words: List[str], answer: Answer) -> Process:
        """The process that an answer to a start has."""
        pid, number = answer.get("pid"), answer.get("errno")
        if not isinstance(pid, int):
            number = number if isinstance(number, int) else 0
            raise OSError(number, os.strerror(number) if number else str(answer.get("reason")), words[0])
        started = Process(self, pid)
        channel.know(started)
        return started

    def kill(self, started: Process) -> None:
        channel = self.channel
        try:
            if channel is None:
                raise ConnectionResetError
            channel.ask({"end": started.pid})
            channel.forget(started.pid)
        except OSError:  # (the guard has gone: what it had started is below this process)
            guard_process.kill_tree(started.pid)

    def adopt_orphans(self, when_lost: Callable[[], None]) -> None:
        """For a tool that uses `start`: what is below the guard comes below this process if the guard is killed, which
        `when_lost` is told."""
        guard_process.adopt_orphans()
        self.when_lost = when_lost

    def end(self) -> None:
        """Ends the guard itself, which ends what is still held."""
        with self.lock:
            if self.process and self.channel:
                self.channel = None
                os.close(self.pipe)
                with contextlib.suppress(subprocess.TimeoutExpired):  # (it goes on by itself)
                    self.process.wait(END_SECONDS)
                self.process = None

    def _on_lost(self, channel: Channel) -> None:
        if channel is self.channel:
            self.when_lost()

    def _say(self, sign: str, target: Target) -> None:
        self.begin()
        kind = ("marked" if isinstance(target, Mark) else "folder" if isinstance(target, str)
                else "process" if isinstance(target, Single) else "group")
        with contextlib.suppress(OSError):
            os.write(self.pipe, os.fsencode(f"{sign} {kind} {target}\n"))

    def begin(self) -> Channel:
        """The guard's channel, which is started if it is not there yet."""
        with self.lock:
            if self.channel:
                return self.channel
            ours, self.pipe = os.pipe()  # (neither is inherited)
            mine, its = socket.socketpair()
            try:
                # In a session of its own, since a terminal's signals are not for it.
                self.process = subprocess.Popen(
                    [sys.executable or "python3", "-I", "-S", os.path.realpath(guard_process.__file__),
                     str(its.fileno())],
                    stdin=ours, cwd="/", stdout=subprocess.DEVNULL, stderr=subprocess.DEVNULL, start_new_session=True,
                    pass_fds=[its.fileno()])
            finally:
                os.close(ours)
                its.close()
            self.channel = Channel(mine, self._on_lost)
            self.follow(self.channel)
            atexit.register(self.end)
            return self.channel

    def _forget(self) -> None:
        """A child that was only forked holds nothing."""
        if self.process and self.channel:
            os.close(self.pipe)
            self.channel.socket.close()
            self.process = self.channel = None
        self.lock = threading.Lock()


GUARD = Guard()
