"""The command after --, and its end."""
import asyncio
import os
import select
import signal
import subprocess
import time
import uuid
from typing import Callable, Dict, List, Optional, Union

from ..guard import GUARD, Mark, Single
from ..service import Fault
from .bell import hear

PATIENCE = 10.0  # seconds for a command that was interrupted
TERM_SECONDS = 5.0
MARK = "LAMBDA_LOCAL_RUN"  # another value for each command: by it the guard knows what the command has started


def has_terminal() -> bool:
    """Whether a terminal's Ctrl-C comes to the group of this process, and so to each process in it."""
    try:
        terminal = os.open("/dev/tty", os.O_RDONLY | os.O_NOCTTY)
    except OSError:
        return False
    try:
        return os.tcgetpgrp(terminal) == os.getpgrp()
    except OSError:
        return False
    finally:
        os.close(terminal)


class Run:
    """A command that runs. In a terminal's foreground it shares this process's group: so it reads from the terminal,
    and Ctrl-C reaches both. Elsewhere it has its own group: a signal to this process, or to its whole group,
    interrupts the command once, through this process."""

    def __init__(self, words: List[str], variables: Dict[str, str], loop: asyncio.AbstractEventLoop,
                 when_ended: Callable[[], None]) -> None:
        """The loop calls `when_ended`."""
        self.shares, self.mark = has_terminal(), Mark(f"{MARK}={uuid.uuid4()}")
        GUARD.hold(self.mark)
        try:
            self.child = subprocess.Popen(words, env={**variables, MARK: self.mark.partition("=")[2]},
                                          start_new_session=not self.shares)
        except OSError as fault:
            GUARD.release(self.mark)
            raise Fault(4, f"{words[0]}: {fault.strerror}: write a program after --") from None
        self.held: Union[Single, int] = Single(self.child.pid) if self.shares else self.child.pid
        GUARD.hold(self.held)
        self.handle = os.pidfd_open(self.child.pid)  # (until this process ends)
        hear(loop, self.handle, lambda: bool(when_ended()))

    def is_over(self) -> bool:
        if self.child.returncode is None and os.waitid(os.P_PID, self.child.pid, os.WEXITED | os.WNOWAIT | os.WNOHANG):
            GUARD.release(self.held)  # (while its number cannot be another's)
            GUARD.release(self.mark)  # (what it leaves behind by itself is its own)
            self.child.wait()
        return self.child.returncode is not None

    def _wait(self, seconds: Optional[float]) -> None:
        """Until it is over, at most so long."""
        end = select.poll()
        end.register(self.handle, select.POLLIN)
        end.poll(None if seconds is None else 1000 * seconds)

    def interrupt(self, is_hurried: Callable[[], bool]) -> None:
        """After a Ctrl-C: it may end by itself, with all that it does at its end, unless somebody hurries."""
        if not self.shares:
            self._signal(signal.SIGINT)
        end = time.monotonic() + PATIENCE
        while not self.is_over() and time.monotonic() < end and not is_hurried():
            self._wait(0.05)

    def end(self) -> None:
        for number, seconds in ((signal.SIGTERM, TERM_SECONDS), (signal.SIGKILL, None)):
            if not self.is_over():
                self._signal(number)
                self._wait(seconds)

    def _signal(self, number: int) -> None:
        try:
            (os.kill if self.shares else os.killpg)(self.child.pid, number)
        except ProcessLookupError:
            pass

    @property
    def status(self) -> int:
        """As a shell has it."""
        while not self.is_over():
            self._wait(None)
        return self.child.returncode if self.child.returncode >= 0 else 128 - self.child.returncode
