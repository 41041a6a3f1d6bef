"""Processes of functions and extensions."""
import asyncio
import contextlib
import os
import secrets
import select
import shutil
import signal
import time
from typing import List, Mapping, Optional, Tuple

from ..executables import why_not_found, why_not_started
from ..guard import Process as Started
from ..telemetry.beside import Marker
from .bell import first_of, settle
from .invocation_lines import Printed
from .output import MarkedSplitter, Reader, Splitter
from .tasks import Tasks

LONGEST_KILL = 2.0  # seconds until a process that was killed is gone
LAST_SECONDS = 1.0  # for the last of what it has printed, which another may go on with
MARK = "LAMBDA_LOCAL_MARK"  # what a bundled runtime prints before an invocation, after a NUL


def program_of(word: str, directory: str) -> str:
    """The path of a program as a command of a function names it: from its directory, or on PATH."""
    return os.path.join(directory, word) if "/" in word else word


class Process:
    """A process in a session of its own, whose lines `printed` takes under its name. One that `marks` is a bundled
    runtime, which prints where the lines of an invocation begin; in what any other prints, a `marker` may do that. It
    is of the loop in which it is made, and no other thread calls what waits."""

    def __init__(self, name: str, tasks: Tasks, printed: Printed, marks: bool = False,
                 marker: Optional[Marker] = None) -> None:
        self.name, self.tasks, self.printed, self.begun = name, tasks, printed, time.monotonic()
        self.marks, self.marker, self.marked = marks, marker, 0
        self.pid, self.handle = 0, -1  # until it is started
        self.started: Started
        self.gone: "asyncio.Future[None]" = asyncio.get_running_loop().create_future()  # done once it has ended

    async def start(self, words: List[str], directory: str, variables: Mapping[str, str], forks: bool = False) -> None:
        """OSError if it cannot be; then nothing is left of it."""
        name, printed, mark = self.name, self.printed, secrets.token_hex(16)
        splitter = Splitter(lambda line: printed.take(name, line))
        if self.marks:
            variables = {**variables, MARK: mark}
            splitter = MarkedSplitter(splitter.take, printed.divide, b"\0" + mark.encode())
        elif self.marker:
            passing = printed.passing
            splitter = MarkedSplitter(lambda line: passing.take(name, line),
                                      lambda identifier: passing.passes(name, identifier), b"\0" + mark.encode())
        program = program_of(words[0], directory)
        if not shutil.which(program):
            raise FileNotFoundError(f"{words[0]} {why_not_found(program) or 'is not a program (any more)'}")
        reading, writing = os.pipe()
        # (before it is started: it may have answered an invocation before this task goes on)
        self.reader = Reader(reading, splitter, self.tasks.is_short, self.tasks.pace)
        printed.add(self)
        try:
            if self.marker:
                printed.passing.add(name)
                self.marked = self.marker.begins(writing, mark)
            self.started = await self.tasks.guarded.start([program, *words[1:]], directory, variables, writing, forks)
            self.pid = self.started.pid
            await self._watch()
        except OSError as fault:
            os.close(writing)
            writing = -1
            await self._leave(0.0)
            raise OSError(f"{words[0]} {why_not_started(shutil.which(program) or program, fault)}") from None
        finally:
            if writing >= 0:
                os.close(writing)

    async def _watch(self) -> None:
        try:
            self.handle = os.pidfd_open(self.pid)
        except OSError:
            await self.tasks.guarded.kill(self.started)
            raise
        asyncio.get_running_loop().add_reader(self.handle, self._note_end)

    def _note_end(self) -> None:
        asyncio.get_running_loop().remove_reader(self.handle)
        settle(self.gone, None)

    async def _leave(self, seconds: float = LAST_SECONDS) -> None:
        """It has ended. (The marker, which has its pipe open, is notified first.)"""
        if self.marker:
            self.marker.ended(self.marked)
        await first_of([self.reader.over], seconds)
        self.printed.passing.remove(self.name)
        self.printed.remove(self)

    def settle(self, cuts: bool = False) -> Tuple[float, str]:
        """Takes what it has printed by now; what has come of the line that is not whole yet, and since when. If it
        cuts, that is a line as well."""
        return self.reader.settle(cuts)

    def has_ended(self) -> bool:
        waiting = select.poll()
        waiting.register(self.handle, select.POLLIN)
        return bool(waiting.poll(0))

    async def ended(self, seconds: float) -> bool:
        """Whether it ends within this many seconds."""
        await first_of([self.gone], seconds)
        return self.gone.done()

    async def status(self) -> int:
        """The status of a process that has ended."""
        return await self.tasks.guarded.status(self.started)

    async def kill(self) -> None:
        """Kills its group at once; its status says so."""
        with contextlib.suppress(ProcessLookupError, PermissionError):
            os.killpg(self.pid, signal.SIGKILL)
        await self.ended(LONGEST_KILL)

    async def end(self, seconds: float = 0.0) -> None:
        """Asks it to end if there is time for it; then its whole group is killed, with all below it."""
        if seconds > 0 and not self.has_ended():
            with contextlib.suppress(ProcessLookupError, PermissionError):
                os.killpg(self.pid, signal.SIGTERM)
            await self.ended(seconds)
        self.printed.measure()
        await self.tasks.guarded.kill(self.started)
        asyncio.get_running_loop().remove_reader(self.handle)
        os.close(self.handle)
        await self._leave()


def reason_of(status: int, who: str = "Runtime") -> str:
    """Returns how Lambda reports to a caller that a process has ended."""
    if status == 0:
        return f"{who} exited without providing a reason"
    return f"{who} exited with error: {name_of_signal(-status) if status < 0 else f'exit status {status}'}"


def name_of_signal(number: int) -> str:
    """A signal in the words of Lambda, whose own programs are in Go: those of the system in lower case."""
    name = signal.strsignal(number)
    return f"signal: {name.lower()}" if name else f"signal {number}"
