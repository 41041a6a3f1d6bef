"""What Lambda would have done: a line about a function that goes beyond one of Lambda's limits which do not end it
here, or comes near to one that does; one for each function and each limit."""
import time
from typing import Dict, Mapping, NamedTuple, Optional, Sequence, Set, Tuple

from ..configuration import shown
from ..history.words import IDLE, Word
from ..life import Ended, Environment, Event
from .invocation_lines import Printed
from .invocation_log import MB
from .log import Log
from .members import Function
from .watch import Watch

NEARLY = 0.9
MOST_OUTPUT = 6_291_456  # bytes of a response
INIT_SECONDS = 10
MEMORY_SECONDS = 1.0  # between two looks at the memory of an environment that works
ANSWERED = (Word.OUTPUT, Word.ERROR, Word.TOO_LARGE_OUTPUT)  # by the function itself
Work = Tuple[object, int]  # a generation, with how many invocations it was given


class Quiet(NamedTuple):
    """An environment at rest: all that was printed before this line belongs to its invocation."""
    work: Work
    place: int


class Measured(NamedTuple):
    work: Work
    was_idle: bool
    moment: float


class Limits:
    """`patience` is by how much all times are longer than Lambda's. What streams its responses may send more than one
    that does not."""

    def __init__(self, functions: Sequence[Function], streaming: Set[str], watch: Watch, printed: Mapping[int, Printed],
                 log: Log, patience: float = 1) -> None:
        self.functions = {function.name: function for function in functions}
        # By function: from how many milliseconds on an invocation is nearly too long
        self.long = {name: NEARLY * 1000 * function.part.get("timeout", 3) for name, function in self.functions.items()}
        self.streaming, self.watch, self.printed, self.log, self.patience = streaming, watch, printed, log, patience
        self.told: Set[Tuple[str, str]] = set()
        self.quiet: Dict[int, Quiet] = {}
        self.measured: Dict[int, Measured] = {}

    def warn(self, function: str, limit: str, text: str, where: Optional[Environment] = None) -> None:
        if (function, limit) in self.told:
            return
        self.told.add((function, limit))
        place = {} if where is None else {"environment": where.place}
        self.log(where.name if where else function, text, "warning", "limit", False, function=function, limit=limit,
                 **place)

    def is_told(self, function: str, limit: str) -> bool:
        return (function, limit) in self.told

    # ---- what comes by itself ----------------------------------------------------------------------------------------

    def take(self, event: Event) -> None:
        """From the watch, event by event."""
        if not isinstance(event, Ended) or event.invocation.delivered is None or event.kind not in ANSWERED:
            return
        name, took = event.invocation.function, event.moment - event.invocation.delivered
        if event.kind is Word.OUTPUT:
            self._look_at_length(name, event.length or 0)
        if took >= self.long[name]:
            timeout = self.functions[name].part.get("timeout", 3)
            self.warn(name, "timeout", f"an invocation took {took / 1000:.2f} s of its {timeout} s, at which Lambda "
                      "ends it: write a longer \"timeout\"", event.environment)

    def _look_at_length(self, function: str, length: int) -> None:
        if length >= NEARLY * MOST_OUTPUT and function not in self.streaming:
            self.warn(function, "response", f"a response has {length} bytes: Lambda refuses one of more than "
                      f"{MOST_OUTPUT}")

    # ---- what is looked at -------------------------------------------------------------------------------------------

    async def look(self) -> None:
        for number, here in self.watch.life.environments.items():
            if self.printed[number].starts:  # (else it is not started, or not by this tool)
                function = self.functions[here.function]
                self._look_at_init(here, function)
                self._look_at_memory(number, here, function)
                await self._look_at_output(number, here)

    async def look_at_the_end(self) -> None:
        """While the processes are still there."""
        self.measured.clear()
        await self.look()

    def _look_at_init(self, here: Environment, function: Function) -> None:
        starts, asked = self.printed[here.number].starts, here.generation.asked
        if function.init is None or function.debug or asked is None or self.is_told(function.name, "init"):
            return
        seconds, most = (asked - starts[-1].moment) / 1000, self.patience * INIT_SECONDS
        if seconds > most:
            self.warn(function.name, "init", f"its Init took {seconds:.1f} s: Lambda ends one after {most:g} s, and "
                      "begins it again with the first invocation, within its timeout", here)

    def _look_at_memory(self, number: int, here: Environment, function: Function) -> None:
        if self.is_told(function.name, "memory") or function.enforces_memory:
            return
        work, is_idle, now = self._work(here), here.here.phase.name == IDLE, time.monotonic()
        last = self.measured.get(number)
        if last and (now - last.moment < MEMORY_SECONDS or (last.work, last.was_idle, is_idle) == (work, True, True)):
            return
        self.measured[number] = Measured(work, is_idle, now)
        if self.printed[number].is_above(function.memory * MB):
            used = -(-self.printed[number].peak() // MB)
            self.warn(function.name, "memory", f"it has used {used} MB, and \"memory\" is {function.memory}: Lambda "
                      "kills it (Runtime.ExitError, signal: killed), and so does \"enforceMemory\": true", here)

    @staticmethod
    def _work(here: Environment) -> Work:
        return here.generation, here.generation.deliveries

    def _is_at_rest(self, here: Environment) -> bool:
        return here.here.phase.name == IDLE and here.generation.deliveries > 0 and not here.generation.closes

    async def _look_at_output(self, number: int, here: Environment) -> None:
        """What a runtime prints while all of its environment has asked for the next invocation. Before that, it may
        work after its response on Lambda too."""
        if self.is_told(here.function, "frozen"):
            return
        printed, work = self.printed[number], self._work(here)
        if not self._is_at_rest(here):
            self.quiet.pop(number, None)
            return
        quiet = self.quiet.get(number)
        if quiet is None or quiet.work != work:
            self.quiet[number] = Quiet(work, printed.settle().place)  # (what was written before is taken with it)
            return
        line = next((line for line in printed.since(quiet.place) if line.source == here.name and line.text), None)
        if line is None:
            return
        await self.watch.refreshed()  # (an invocation that had begun, or an end, is known now)
        if self._is_at_rest(here) and self._work(here) == work:
            said = line.text.rpartition("\t")[2] or line.text  # (behind the moment, the identifier and the level)
            self.warn(here.function, "frozen", f"it printed {shown(said)} after its response, while no invocation "
                      "ran: Lambda freezes it from there to the next invocation", here)
        else:
            self.quiet.pop(number, None)
