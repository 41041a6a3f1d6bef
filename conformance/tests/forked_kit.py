"""Runs of the conformance kit as forks of one process that has its imports and those of the programs that are tested:
to start so many interpreters takes longer than all else that they do. A forked program is a process in a session of its
own with its own variables, as one that the kit starts afresh, and the kit sees no difference but in `/proc`.

    kits = Kits(PROGRAMS)                          # before there are threads; names of files, and what runs each
    kits = Kits(PROGRAMS, prepare)                 # so, and what is done once, before the first run, for all of them
    kits.run(words, folder, variables)             # of `lambda_local conformance WORDS`: status, output and errors"""
import atexit
import contextlib
import gc
import json
import mmap
import os
import queue
import select
import signal
import socket
import struct
import sys
import tempfile
import threading
import time
import traceback
from typing import Any, Set

from lambda_conformance import command, extension, process, runtime, service  # noqa: F401 (before the forks)
from lambda_conformance import watch
from lambda_conformance.clock import CLOCK, FIRST_PAUSE, PAUSE, WORK
from lambda_local.guard import GUARD
from lambda_local.timeline import command as timeline  # noqa: F401 (so)

MOST = 1_000_000  # bytes of a message
ANSWERED_SECONDS = 60  # in which a process has been forked
STDLIB = list(sys.path)
SECONDS = struct.Struct("d")


def exit_code(end):
    """The status of a process that ends by this SystemExit."""
    if end.code is None or isinstance(end.code, int):
        return (end.code or 0) & 255
    print(end.code, file=sys.stderr)
    return 1


def end_as(run):
    """Ends this process as an interpreter does whose program this is."""
    try:
        code = run() or 0
    except SystemExit as end:
        code = exit_code(end)
    except BaseException:
        traceback.print_exc()
        code = 1
    with contextlib.suppress(BaseException):
        threading._shutdown()  # type: ignore[attr-defined]
        atexit._run_exitfuncs()
    for stream in (sys.stdout, sys.stderr):
        with contextlib.suppress(OSError, ValueError):
            stream.flush()
    return code


def begin_in(folder, variables, *outputs):
    """Makes this process, which was forked, what a fresh one is."""
    signal.set_wakeup_fd(-1)
    for ending in (signal.SIGCHLD, signal.SIGTERM):
        signal.signal(ending, signal.SIG_DFL)
    signal.signal(signal.SIGINT, signal.default_int_handler)
    os.setsid()
    nothing = os.open(os.devnull, os.O_RDONLY)
    for number, descriptor in enumerate((nothing, *outputs)):
        os.dup2(descriptor, number)
    for descriptor in {nothing, *outputs} - {0, 1, 2}:
        os.close(descriptor)
    if folder:
        os.chdir(folder)
    os.environ.clear()
    os.environ.update(variables)
    time.tzset()
    tempfile.tempdir = None
    atexit._clear()


def received(channel):
    """The next message and its descriptors; nothing at the end."""
    data, handles, _, _ = socket.recv_fds(channel, MOST, 4)
    return (json.loads(data) if data else None), handles


def pair():
    """Two ends of a channel for whole messages, one of which may be long."""
    ends = socket.socketpair(socket.AF_UNIX, socket.SOCK_SEQPACKET)
    for end in ends:
        end.setsockopt(socket.SOL_SOCKET, socket.SO_SNDBUF, MOST)
    return ends


class Kits:
    """The process of which each run of the kit is a fork."""

    def __init__(self, programs, prepare=lambda: None):
        self._channel, its = pair()
        sys.stdout.flush()
        gc.collect()
        gc.freeze()
        if os.fork() == 0:
            self._channel.close()
            fork_kits(its, programs, prepare)
        its.close()
        gc.unfreeze()

    def run(self, words, folder, variables, timeout=3600):
        """Returns the status, what was written to standard output and to standard error."""
        reads, writes = os.pipe()
        with tempfile.TemporaryFile() as output, tempfile.TemporaryFile() as errors:
            message = json.dumps([words, folder, variables]).encode()
            socket.send_fds(self._channel, [message], [output.fileno(), errors.fileno(), writes])
            os.close(writes)
            said = until_it_ends(reads, timeout)
            output.seek(0)
            errors.seek(0)
            return int(said[1]) if len(said) > 1 else -9, output.read().decode(), errors.read().decode()


def until_it_ends(descriptor, seconds):
    """The words that a run writes there: its number, and its status. It is killed after this time."""
    said, end = b"", time.monotonic() + seconds
    with os.fdopen(descriptor, "rb", buffering=0) as pipe:
        while True:
            if not select.select([pipe], [], [], max(0, end - time.monotonic()))[0]:
                os.killpg(int(said.split()[0]), signal.SIGKILL)
                end = time.monotonic() + seconds
            elif data := pipe.read(100):
                said += data
            else:
                return said.split()


def fork_kits(channel, programs, prepare):
    """Forks a run for each message, until there are no more."""
    running = []
    with contextlib.suppress(KeyboardInterrupt):
        if channel.recv(1, socket.MSG_PEEK):  # (there is one)
            prepare()
            gc.freeze()
            CLOCK.took = Timekeeper().took  # type: ignore[assignment]
            signal.signal(signal.SIGCHLD, signal.SIG_IGN)  # (nobody asks for their statuses here)
        while True:
            message, handles = received(channel)
            if message is None:
                break
            number = os.fork()
            if number == 0:
                channel.close()
                os._exit(kit(programs, *message, *handles))
            running.append(number)
            for handle in handles:
                os.close(handle)
    for number in running:  # (one that has ended may have given its number to a process of others)
        with contextlib.suppress(ProcessLookupError, PermissionError):
            if watch.parent_of(number) == os.getpid():
                os.killpg(number, signal.SIGTERM)
    os._exit(0)


class Timekeeper:
    """A process that looks how busy this machine is, for all runs: each of them would take a fiftieth of a processor
    for that, and with as many as there are all together one or two."""

    def __init__(self):
        self._shared = mmap.mmap(-1, SECONDS.size)
        self._shared[:] = SECONDS.pack(CLOCK.took(FIRST_PAUSE))
        parent = os.getpid()
        if os.fork() == 0:
            with contextlib.suppress(KeyboardInterrupt):
                while os.getppid() == parent:
                    self._shared[:] = SECONDS.pack(CLOCK.took(PAUSE))
            os._exit(0)

    def took(self, pause):
        """As a clock finds by itself: what it took there, but for how late this thread is woken."""
        begun = time.monotonic()
        time.sleep(pause)
        return max(time.monotonic() - begun - pause + WORK, *SECONDS.unpack(self._shared))


def kit(programs, words, folder, variables, output, errors, status):
    begin_in(folder, variables, output, errors)
    os.write(status, b"%d " % os.getpid())
    process.begun = Nursery(programs, status).begun
    sys.argv[:] = ["lambda_local conformance", *words]
    code = end_as(command.main)
    os.write(status, b"%d" % code)
    return code


class Started:
    """A process that was forked."""

    def __init__(self, pid):
        self.pid, self._status, self._ended = pid, None, threading.Event()

    def wait(self):
        self._ended.wait()
        return self._status

    def end(self, status):
        self._status = status
        self._ended.set()


class Nursery:
    """The process of which each tested program of a run is a fork."""

    def __init__(self, programs, *unwanted):
        self._fresh, self._names = process.begun, set(programs)
        self._channel, its = pair()
        gc.freeze()
        if os.fork() == 0:
            self._channel.close()
            for descriptor in unwanted:
                os.close(descriptor)
            fork_programs(its, programs)
        its.close()
        self._asking, self._running = threading.Lock(), {}
        self._answers: "queue.Queue[Any]" = queue.Queue()
        threading.Thread(target=self._read, daemon=True).start()

    def begun(self, words, variables, output):
        """In place of the kit's own: those of these files in Python alone are forked."""
        if len(words) < 3 or words[1] != "-S" or os.path.basename(words[2]) not in self._names:
            return self._fresh(words, variables, output)
        with self._asking:
            socket.send_fds(self._channel, [json.dumps([words[2:], variables]).encode()], [output.fileno()])
            started = self._answers.get(timeout=ANSWERED_SECONDS)
        GUARD.hold(started.pid)
        return started

    def _read(self):
        while message := received(self._channel)[0]:
            pid, status = message
            if status is None:
                self._running[pid] = Started(pid)
                self._answers.put(self._running[pid])
            else:
                self._running.pop(pid).end(status)
        for started in self._running.values():  # (it has gone, and they with it)
            started.end(-signal.SIGKILL)


def fork_programs(channel, programs):
    """Forks a program for each message, and tells its number and, once it has ended, its status."""
    woken, wakes = os.pipe()
    os.set_blocking(woken, False)
    os.set_blocking(wakes, False)
    signal.signal(signal.SIGCHLD, lambda *_: None)
    for ending in (signal.SIGTERM, signal.SIGINT):  # (it ends with its kit)
        signal.signal(ending, signal.SIG_IGN)
    signal.set_wakeup_fd(wakes, warn_on_full_buffer=False)
    running: Set[int] = set()
    sys.modules.pop("conformance", None)  # (a program's handler is in a module of the same name)
    while True:
        ready = select.select([channel, woken], [], [])[0]
        if woken in ready:
            with contextlib.suppress(BlockingIOError):
                os.read(woken, 4096)
            tell_ended(channel, running)
        if channel in ready:
            message, handles = received(channel)
            if message is None:
                break
            number = os.fork()
            if number == 0:
                for descriptor in (channel.detach(), woken, wakes):
                    os.close(descriptor)
                (path, *arguments), variables = message
                begin_in(None, variables, handles[0], handles[0])
                sys.argv[:] = [path, *arguments]
                sys.path[:] = [os.path.dirname(path), *STDLIB]
                os._exit(end_as(lambda: programs[os.path.basename(path)](*arguments)))
            running.add(number)
            os.close(handles[0])
            channel.send(json.dumps([number, None]).encode())
    for number in running:
        with contextlib.suppress(ProcessLookupError):
            os.killpg(number, signal.SIGKILL)
    os._exit(0)


def tell_ended(channel, running):
    with contextlib.suppress(ChildProcessError):
        while (found := os.waitpid(-1, os.WNOHANG))[0]:
            running.discard(found[0])
            with contextlib.suppress(OSError):  # (the kit has gone)
                channel.send(json.dumps([found[0], os.waitstatus_to_exitcode(found[1])]).encode())
