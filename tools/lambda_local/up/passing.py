"""Processes of one environment, in what each of which an invocation's lines begin at a mark of its own. Each prints the
same marks, in one order; how far it has been read is another matter. So what one prints after a mark is held until all
have come to theirs: the division is one for all, and each line on its right side."""
from collections import deque
from typing import Callable, Deque, Dict, NamedTuple, Union

MOST_HELD = 1 << 20  # characters; then the slowest are not waited for
OF_A_LINE = 100  # and so many for each line, so that empty ones count too
MOST_FORCED = 256  # marks that are remembered


class Mark(NamedTuple):
    """Of an invocation."""
    identifier: str


Items = Deque[Union[str, Mark]]


class Passing:
    """`divide` is called with an invocation before `take` is with its lines, each with the name of its process."""

    def __init__(self, take: Callable[[str, str], None], divide: Callable[[str], None]):
        self.take_now, self.divide = take, divide
        self.held: Dict[str, Items] = {}  # of each process that is there, from a mark on
        self.size = 0
        self.forced: Deque[Mark] = deque(maxlen=MOST_FORCED)  # not waited for, so another process comes to it later

    def add(self, name: str) -> None:
        self.held[name] = deque()

    def remove(self, name: str) -> None:
        """It has ended, and all its lines were taken."""
        while self.held.get(name):
            self._force(name)
        self.held.pop(name, None)
        self._go_on()

    def take(self, name: str, text: str) -> None:
        """A line that a process has printed."""
        held = self.held.get(name)
        if not held:
            self.take_now(name, text)
            return
        held.append(text)
        self.size += len(text) + OF_A_LINE
        while self.size > MOST_HELD:
            self._force(max(self.held, key=lambda each: len(self.held[each])))

    def holds(self, name: str) -> bool:
        """Whether this one has come to a mark to which another has not."""
        return bool(self.held.get(name))

    def passes(self, name: str, identifier: str) -> None:
        """What this one prints from now on is this invocation's."""
        mark, held = Mark(identifier), self.held.setdefault(name, deque())
        if held or mark not in self.forced:
            held.append(mark)
            self._go_on()

    def _go_on(self) -> None:
        """As far as all have come."""
        while self.held and all(self.held.values()):
            first = {held[0] for held in self.held.values()}
            if len(first) > 1:  # (one has begun in between)
                self._force(max(self.held, key=lambda each: len(self.held[each])))
                continue
            self._begin(first.pop())

    def _force(self, name: str) -> None:
        """Does not wait for the others at the next mark of this one."""
        mark = self.held[name][0]
        assert isinstance(mark, Mark)
        self.forced.append(mark)
        self._begin(mark)

    def _begin(self, mark: Union[str, Mark]) -> None:
        """The lines of an invocation begin. (A mark that was forced before means nothing any more.)"""
        assert isinstance(mark, Mark)
        self.divide(mark.identifier)
        for name, held in self.held.items():
            while held and (isinstance(held[0], str) or held[0] == mark or held[0] in self.forced):
                item = held.popleft()
                if isinstance(item, str):
                    self.size -= len(item) + OF_A_LINE
                    self.take_now(name, item)
