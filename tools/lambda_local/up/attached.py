"""A debugger that attaches by itself to a bundled runtime: while one is attached, the clock is paused.

Nothing is asked of a runtime, nor for an invocation. Node says on standard error that its inspector listens, however
that was started; from then on the system is asked at each look whether a client is connected to it. Python's runtime
notices that pydevd is imported, on which debugpy and PyCharm rest; from then on it has a file beside the clock's while
a client is attached (examples/runtime.py)."""
import contextlib
import functools
import os
import re
from typing import Callable, Dict, Iterable, List, NamedTuple, Set

from ..clock.asked import PAUSE, RESUME
from .environments import Environment
from .invocation_lines import Line, Printed
from .loop_clock import LoopClock
from .programs import language_of

LISTENS = re.compile(r"Debugger listening on ws://\S+:([0-9]{1,5})/[0-9a-f-]{36}")
BEGINS = "Debugger listening on ws://"
ESTABLISHED = "01"  # as the system has it (<net/tcp_states.h>)
MARK = ".debugger."  # between the name of the clock's file and the number of a process


class Inspector(NamedTuple):
    """Of a runtime of Node."""
    generation: int  # of the environment's processes
    port: int


def clients_of(port: int, pid: int) -> Set[str]:
    """The addresses that are connected to a port, as a process sees it."""
    found: Set[str] = set()
    for name in ("tcp", "tcp6"):
        with contextlib.suppress(OSError), open(f"/proc/{pid}/net/{name}", encoding="ascii") as file:
            for _, local, remote, state, *_ in (line.split() for line in file):
                if state == ESTABLISHED and local.endswith(f":{port:04X}"):
                    found.add(remote)
    return found


class Attached:
    """The debuggers of a run. `look` is called again and again, by one task."""

    def __init__(self, environments: Iterable[Environment], printed: Dict[int, Printed], clock: LoopClock,
                 clock_file: str, say: Callable[[str, str, str], None]) -> None:
        """`say` gets a name, a line and its level."""
        self.clock, self.clock_file, self.say = clock, clock_file, say
        self.environments: List[Environment] = [one for one in environments if one.function.is_bundled]
        self.inspectors: Dict[Environment, Inspector] = {}
        self.clients: Dict[Environment, Set[str]] = {}  # of inspectors, at the last look
        self.attached: Set[Environment] = set()
        self.holds = False  # the clock
        for environment in self.environments:
            if language_of(environment.function.member["runtime"]) == "node":
                printed[environment.number].follow(functools.partial(self._take, environment))

    def _take(self, environment: Environment, line: Line) -> None:
        if line.text.startswith(BEGINS) and (found := LISTENS.fullmatch(line.text)):
            self.inspectors[environment] = Inspector(environment.generation, int(found[1]))

    async def look(self) -> None:
        marked = self._marked()
        attached = {one for one in self.environments if self._is_inspected(one) or self._pid_of(one) in marked}
        fresh = sorted(attached - self.attached, key=lambda one: one.number)
        was_held, self.attached = bool(self.attached), attached
        if attached and not was_held:
            await self._hold(fresh[0])
        elif was_held and not attached:
            await self._let_go()

    @staticmethod
    def _pid_of(environment: Environment) -> int:
        runtime = environment.runtime
        return runtime.pid if runtime is not None else -1

    def _marked(self) -> Set[int]:
        """The processes that say that a client is attached to them. What one has left behind is removed."""
        folder, name = os.path.split(self.clock_file)
        found = set()
        with contextlib.suppress(OSError):
            for entry in os.listdir(folder):
                before, mark, pid = entry.partition(MARK)
                if before == name and mark and pid.isascii() and pid.isdigit():
                    found.add(int(pid))
        known = {self._pid_of(one) for one in self.environments}
        for gone in found - known:
            with contextlib.suppress(OSError):
                os.unlink(f"{self.clock_file}{MARK}{gone}")
        return found & known

    def _is_inspected(self, environment: Environment) -> bool:
        """Whether a client stays connected to its inspector: one that only asks what there is to debug goes at once."""
        inspector = self.inspectors.get(environment)
        runtime = environment.runtime
        if inspector is None or runtime is None or inspector.generation != environment.generation:
            return False
        before = self.clients.get(environment, set())
        self.clients[environment] = clients = clients_of(inspector.port, runtime.pid)
        return bool(clients & before)

    # ---- the clock ---------------------------------------------------------------------------------------------------

    async def _hold(self, environment: Environment) -> None:
        await self.clock.ask_later()
        was_paused = self.clock.is_paused
        if not was_paused:
            await self.clock.set_later(PAUSE)
        self.holds = self.clock.is_paused and not was_paused
        what = ("the clock is paused until it detaches" if self.holds
                else "the clock is paused already, and stays so" if was_paused
                else "its timeout is as it is, since the service's clock cannot be paused")
        self.say(environment.name, f"a debugger has attached: {what}", "info" if self.clock.is_paused else "warning")

    async def _let_go(self) -> None:
        if self.holds:
            self.holds = False
            await self.clock.set_later(RESUME)
            self.say("up", "no debugger is attached any more: the clock goes on", "info")
