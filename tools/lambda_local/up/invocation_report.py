"""`--report`: the log of each environment as Lambda writes it, with START, END and REPORT around the lines of each
invocation.

What an environment's processes print is shown as it comes, and START before what is the first invocation's own. The
next one's START waits until the history says that the one before has ended, which is known a moment later: its END and
REPORT come first."""
import asyncio
from collections import deque
from typing import Any, Deque, Dict, Iterator, List, NamedTuple, Set, Union

from ..life import Begun, Ended, Event
from .bell import Bell
from .invocation_lines import OF_A_LINE, Line, Printed
from .invocation_log import Invocations, end_line, report_line, start_line
from .log import OUTPUT, Log

MOST_HELD = 4 << 20  # characters, with OF_A_LINE for each line; then a process that prints waits
PATIENCE = 1.0  # seconds, as long as it waits
MOST_REMEMBERED = 64  # invocations of an environment
BETWEEN_MEASURES = 0.2  # seconds at least, of memory before an invocation: at its end it is measured anew
REST = 0.005  # seconds in which lines come together
BETWEEN_LOOKS = 0.01  # seconds, for room in the log


class Begin(NamedTuple):
    """Here the lines of an invocation begin."""
    identifier: str


class Mark(NamedTuple):
    """A line that no process has printed."""
    text: str
    members: Dict[str, Any]
    level: str = "info"
    kind: str = "platform"  # Lambda's own


class Held:
    """What one environment's log has next."""

    def __init__(self, name: str, function: str, place: int, printed: Printed):
        self.name, self.printed = name, printed
        self.members: Dict[str, Any] = {"function": function, "environment": place}
        self.next: Deque[Union[Line, Begin, Mark]] = deque()
        self.open = ""  # the invocation whose START was shown, and not its END
        self.over: Deque[str] = deque(maxlen=MOST_REMEMBERED)  # those whose END has its place

    def end_of(self, identifier: str) -> int:
        """Where what is said of an invocation at its end belongs: before the next one begins."""
        begins = [place for place, item in enumerate(self.next) if isinstance(item, Begin)]
        if any(self.next[place] == Begin(identifier) for place in begins):
            begins = begins[begins.index(self.next.index(Begin(identifier))) + 1:]
        return begins[0] if begins else len(self.next)

    def has(self, identifier: str) -> bool:
        """Whether its lines have begun."""
        return self.open == identifier or Begin(identifier) in self.next

    def put(self, identifier: str, marks: List[Mark]) -> None:
        """At the end of an invocation."""
        if identifier not in self.over:
            self.over.append(identifier)
            if not self.has(identifier):  # (it was never delivered, or ended before its runtime had it)
                marks = [Mark(start_line(identifier), {"request": identifier}), *marks]
        place = self.end_of(identifier)
        for mark in reversed(marks):
            self.next.insert(place, mark)


class Told(NamedTuple):
    """What the watch has said of an invocation's end."""
    held: Held
    identifier: str
    marks: List[Mark]


class InvocationReport:
    def __init__(self, invocations: Invocations, log: Log, loop: asyncio.AbstractEventLoop) -> None:
        self.invocations, self.log = invocations, log
        self.news = Bell(loop)
        self.newer: Set[Held] = set()  # those that have something to show
        self.held: Dict[int, Held] = {}
        self.told: List[Told] = []
        self.size = 0
        self.is_over = self.is_closed = False

    def hold(self, number: int, name: str, function: str, place: int, printed: Printed) -> None:
        """From now on, what this environment's processes print goes this way."""
        self.held[number] = held = Held(name, function, place, printed)
        printed.follow(lambda line: self.take_line(held, line), lambda identifier: self.begin(held, identifier))

    def is_short(self) -> bool:
        """Whether so much is held that what processes print is to wait."""
        return self.size > MOST_HELD

    def take_line(self, held: Held, line: Line) -> None:
        self.size += len(line.text) + OF_A_LINE
        self.add(held, line)

    def begin(self, held: Held, identifier: str) -> None:
        if identifier not in held.over and not held.has(identifier):
            self.add(held, Begin(identifier))

    def add(self, held: Held, item: Union[Line, Begin]) -> None:
        held.next.append(item)
        self.newer.add(held)
        self.news.set()

    # ---- from the watch ----------------------------------------------------------------------------------------------

    def take(self, event: Event) -> None:
        """Event by event. (The figures of an invocation are taken now, while its processes are there.)"""
        if not isinstance(event, (Begun, Ended)) or event.environment is None:
            return
        held, identifier = self.held[event.environment.number], event.invocation.identifier
        held.printed.measure(BETWEEN_MEASURES if isinstance(event, Begun) else 0.0)
        if isinstance(event, Begun):
            if not held.printed.starts:  # (its runtime was started by somebody else, and prints nothing here)
                self.begin(held, identifier)
            return
        figures, about = self.invocations.figures_of(event), {"request": identifier}
        marks = [Mark(text, about) for text in (*self.invocations.failure_of(event), end_line(identifier))]
        self.told.append(Told(held, identifier, [*marks, Mark(report_line(figures), figures.members)]))

    def tell(self, who: str, text: str, level: str = "info", kind: str = "up", always: bool = False,
             **members: object) -> None:
        """A line of lambda_local up: one about an invocation comes after that."""
        held = next((held for held in self.held.values() if held.name == who), None)
        if kind == "invocation" and held is not None:
            self.told.append(Told(held, str(members["request"]), [Mark(text, members, level, kind)]))
        else:
            self.log(who, text, level, kind, always, **members)

    def know(self) -> None:
        """All that an entry tells was told."""
        if self.told:
            self.news.set()

    # ---- its task ----------------------------------------------------------------------------------------------------

    async def run(self) -> None:
        while not self.is_over:
            await self.news.wait()
            await asyncio.sleep(REST)
            self.news.clear()
            self.place()
            newer, self.newer = self.newer, set()
            for held in newer:
                for found in self.ready_of(held):
                    await self.room()
                    self.show(held, found)

    async def room(self) -> None:
        """Waits while there is little room in the log, up to PATIENCE."""
        left = PATIENCE
        while self.log.is_short() and left > 0 and not self.is_over:
            left -= BETWEEN_LOOKS
            await asyncio.sleep(BETWEEN_LOOKS)

    def place(self) -> None:
        """What was told gets its place: after all that the processes had written before they answered."""
        told, self.told = self.told, []
        for held in {one.held for one in told}:
            held.printed.settle()
        for one in told:
            one.held.put(one.identifier, one.marks)
            self.newer.add(one.held)

    def show(self, held: Held, found: Union[Line, Mark]) -> None:
        if isinstance(found, Line):
            self.size -= len(found.text) + OF_A_LINE
            self.log(found.source, found.text, kind=OUTPUT)
        else:
            self.log(held.name, found.text, found.level, found.kind, found.kind == "platform",
                     **{**held.members, **found.members})

    def ready_of(self, held: Held) -> Iterator[Union[Line, Mark]]:
        """What is shown next, up to the START of an invocation that waits for the end of the one before."""
        while held.next:
            found = held.next[0]
            if isinstance(found, Begin):
                if held.open and held.open not in held.over and not self.is_closed:
                    return
                held.open = found.identifier
                found = Mark(start_line(found.identifier), {"request": found.identifier})
            held.next.popleft()
            yield found

    def stop(self) -> None:
        """Ends its task. For any thread."""
        self.is_over = True
        self.news.set()

    def close(self) -> None:
        """Once all has ended: shows all that is left."""
        self.is_closed = True
        self.place()
        for held in self.held.values():
            for found in self.ready_of(held):
                self.log.wait_for_room()
                self.show(held, found)
