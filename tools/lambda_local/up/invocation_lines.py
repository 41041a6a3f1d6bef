"""What the processes of an environment print, and which of it belongs to an invocation.

An environment handles one invocation at a time: so what its processes print from the delivery of one to that of the
next, or to the end of the generation, is that invocation's. What they wrote before a delivery is in their pipes by
then: a division is made there, by the mark that a bundled runtime prints once it has an invocation, or that the relay
does before it passes a delivery on (`passing`), or by a proxy, which reads the pipes before. So it does not matter how
late a line is read.

    printed = Printed()                      # of one environment, for all its processes, one generation after the other
    printed.follow(lambda line: ..)          # called for each line as it comes
    printed.divide(identifier)               # what is taken from now on is this invocation's
    printed.settle()                         # all that the processes had written by now has been taken then
    printed.of_invocation(identifier)        # its lines"""
import itertools
import time
from collections import deque
from typing import Callable, Deque, List, NamedTuple, Optional, Protocol, Tuple

from .memory import is_above, peak_of
from .passing import Passing

MOST_KEPT = 1 << 20  # characters of lines
OF_A_LINE = 100  # and so many for each line, so that empty ones count too
MOST_STARTS = 8  # of runtimes that are remembered
MOST_DIVISIONS = 1024  # that are remembered


class Line(NamedTuple):
    moment: float  # when it was read, in milliseconds
    source: str  # the name of the process, such as "greet/1", or "greet/1 flush" for an extension
    text: str  # without its end


class Division(NamedTuple):
    """Where the lines of an invocation begin."""
    identifier: str  # or nothing, if a generation of processes begins
    place: int  # how many lines were taken before


class Settled(NamedTuple):
    """What was taken until a moment."""
    place: int  # how many lines
    identifier: str  # of the invocation whose lines came
    unfinished: List[Line]  # what has come of those whose end has not


class Readable(Protocol):
    """A process whose output is read."""
    name: str

    @property
    def pid(self) -> int:
        ...

    def settle(self, cuts: bool = False) -> Tuple[float, str]:
        """Takes what it has written by now; what has come of the line that is not whole yet, and since when, by the
        time of day in seconds. If it cuts, that is a line as well."""


class Start:
    """A runtime that was started, and the most memory that it and its extensions have used, in bytes."""

    def __init__(self, moment: float):
        self.moment, self.peak = moment, 0
        self.is_measured = False  # since its Init was over


def now() -> float:
    """Milliseconds, as the service's history has them."""
    return 1000 * time.time()


class Printed:
    """What the processes of one environment print."""

    def __init__(self) -> None:
        self.lines: Deque[Line] = deque()
        self.size = self.count = 0  # of those that are kept, in characters; of all
        self.divisions: Deque[Division] = deque(maxlen=MOST_DIVISIONS)
        self.followers: List[Callable[[Line], None]] = []
        self.dividers: List[Callable[[str], None]] = []
        self.processes: List[Readable] = []
        self.starts: Deque[Start] = deque(maxlen=MOST_STARTS)
        self.measured = 0.0  # when, by the monotonic clock
        self.passing = Passing(self.take, self.divide)

    # ---- the processes -----------------------------------------------------------------------------------------------

    def begins(self) -> None:
        """A runtime is started."""
        self.starts.append(Start(now()))

    def add(self, process: Readable) -> None:
        self.processes.append(process)

    def remove(self, process: Readable) -> None:
        """It has ended, and all its lines have been taken."""
        if process in self.processes:
            self.processes.remove(process)

    def measure(self, since: float = 0.0) -> None:
        """Notes how much memory they have used, if that was not done within so many seconds: it reads files of the
        system for each of their threads."""
        moment = time.monotonic()
        if self.starts and moment - self.measured >= since:
            self.measured = moment
            used = sum(peak_of(process.pid) for process in self.processes)
            self.starts[-1].peak = max(self.starts[-1].peak, used)

    def is_above(self, most: int) -> bool:
        """Whether they have used more than so many bytes since the last runtime was started."""
        self.measure()
        return bool(self.starts) and self.starts[-1].peak > most and is_above(
            [process.pid for process in self.processes], most)

    def peak(self) -> int:
        """The most that they have used since the last runtime was started, in bytes; 0 if none is known."""
        self.measure()
        return self.starts[-1].peak if self.starts else 0

    def start_before(self, moment: float) -> Optional[Start]:
        """The last start of a runtime before this moment, if it is remembered."""
        return next((start for start in reversed(self.starts) if start.moment <= moment), None)

    # ---- the lines ---------------------------------------------------------------------------------------------------

    def follow(self, take: Callable[[Line], None], divide: Callable[[str], None] = lambda _: None) -> None:
        """`take` is given each line, and `divide` the identifier of each invocation before its lines."""
        self.followers.append(take)
        self.dividers.append(divide)

    def take(self, source: str, text: str) -> None:
        """A line that was read just now."""
        line = Line(now(), source, text)
        self.lines.append(line)
        self.count += 1
        self.size += len(text) + OF_A_LINE
        while self.size > MOST_KEPT and len(self.lines) > 1:
            self.size -= len(self.lines.popleft().text) + OF_A_LINE
        for follower in self.followers:
            follower(line)

    def since(self, place: int) -> List[Line]:
        """The lines that were taken after so many, as far as they are kept."""
        return list(itertools.islice(self.lines, max(0, place - self.count + len(self.lines)), None))

    def settle(self, cuts: bool = False) -> Settled:
        """Takes all that the processes have written by now. If it cuts, also what is not whole. (While one is held, it
        has come to the lines of a later invocation than those that come.)"""
        begun = [(process.name, *process.settle(cuts)) for process in self.processes]
        unfinished = [Line(1000 * since, name, text) for name, since, text in begun
                      if text and not self.passing.holds(name)]
        return Settled(self.count, self.divisions[-1].identifier if self.divisions else "", unfinished)

    # ---- the invocations ---------------------------------------------------------------------------------------------

    def divide(self, identifier: str = "") -> None:
        """What is taken from now on is this invocation's; without one, it is that of a new generation."""
        if self.is_current(identifier):
            return
        self.divisions.append(Division(identifier, self.count))
        if identifier:
            for divider in self.dividers:
                divider(identifier)

    def is_current(self, identifier: str) -> bool:
        """Whether what is taken now is this invocation's."""
        return bool(self.divisions) and self.divisions[-1].identifier == identifier

    def deliver(self, identifier: str) -> None:
        """Divides after all that the processes have written by now: before this invocation is passed on to them. The
        first of those that are to get it makes the division."""
        if not self.is_current(identifier):
            self.settle(cuts=True)
            self.divide(identifier)

    def of_invocation(self, identifier: str, until: Optional[Settled] = None) -> List[Line]:
        """The lines of an invocation, as far as they are kept, and what has come of those that are not whole; only what
        was taken until then."""
        places = [division.place for division in self.divisions] + [self.count]
        number = next((number for number, division in enumerate(self.divisions)
                       if division.identifier == identifier), None)
        if number is None:
            return []
        end = min(places[number + 1], until.place) if until else places[number + 1]
        dropped = self.count - len(self.lines)
        found = list(itertools.islice(self.lines, max(0, places[number] - dropped), max(0, end - dropped)))
        return found + (until.unfinished if until and until.identifier == identifier else [])
