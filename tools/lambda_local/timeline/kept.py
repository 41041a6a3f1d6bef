"""What a drawing shows: the calls of a window, what went on around them, and the position of each entry."""
import bisect
from typing import List, NamedTuple, Optional, TypeVar

from ..history.opening import Configuration
from .call import Call
from .sink import Sink
from .world import Environment, Work, World

Other = TypeVar("Other", bound="Kept")
LISTS = ("moments", "calls", "bands", "resets", "works", "steps", "expiries", "refused")


class Band(NamedTuple):
    """A phase of an environment. `entry` is that at which it ends; none if it has not."""
    environment: int
    phase: str
    generation: int
    reason: Optional[str]
    since: int
    since_entry: int
    moment: int
    entry: Optional[int]
    deadline: Optional[int]


class Reset(NamedTuple):
    """An environment closes."""
    environment: int
    moment: int
    entry: int
    reason: Optional[str]
    generation: int


class Worked(NamedTuple):
    """What an extension or a runtime worked on. `entry` is that at which it ends; none if it has not."""
    work: Work
    moment: int
    entry: Optional[int]


class Step(NamedTuple):
    """A function's reservation changes; none: it has none from there on."""
    entry: int
    moment: int
    function: int
    reserved: Optional[int]


class Expiry(NamedTuple):
    """A deadline of an environment passes, in this phase."""
    entry: int
    environment: int
    phase: str


class Refusal(NamedTuple):
    """A call for which the history had no room."""
    moment: int
    call: str


class Kept(Sink):
    """Keeps what is drawn: calls, and what goes on around them."""

    draws_the_past = True  # a reservation that was set before the window is drawn from its left edge on

    def __init__(self, configuration: Configuration, scale: str = "entries") -> None:
        self.configuration, self.scale = configuration, scale
        # The moment at which the axis begins, and the number of the first entry that is drawn.
        self.zero: Optional[int] = None
        self.first: Optional[int] = None
        self.moments: List[int] = []
        self.calls: List[Call] = []
        self.bands: List[Band] = []
        self.resets: List[Reset] = []
        self.works: List[Worked] = []
        self.steps: List[Step] = []
        self.expiries: List[Expiry] = []
        self.refused: List[Refusal] = []
        self.places: List[float] = []
        self.width = 0.0

    def begin(self, moment: int) -> None:
        self.zero = moment

    def full(self, moment: int, words: str) -> None:
        self.refused.append(Refusal(moment, words))

    def answered(self, call: Call) -> None:
        self.calls.append(call)

    def still_open(self, call: Call, moment: int, entry: int) -> None:
        call.end, call.end_entry = moment, None
        self.calls.append(call)

    def expired(self, moment: int, entry: int, environment: Environment) -> None:
        self.expiries.append(Expiry(entry, environment.number, environment.phase))

    def phase(self, environment: Environment, moment: int, entry: Optional[int]) -> None:
        self.bands.append(Band(environment.number, environment.phase, environment.generation, environment.reason,
                               environment.since or 0, environment.since_entry or 0, moment, entry,
                               environment.deadline))

    def turned(self, environment: Environment, moment: int, entry: int, phase: str, deadline: Optional[int],
               reason: Optional[str]) -> None:
        if phase == "Closing":
            self.resets.append(Reset(environment.number, moment, entry, reason, environment.generation))

    def worked(self, work: Work, moment: int, entry: Optional[int]) -> None:
        self.works.append(Worked(work, moment, entry))

    def reservation(self, moment: int, entry: int, f: int, count: Optional[int]) -> None:
        self.steps.append(Step(entry, moment, f, count))

    def entered(self, entry: int, moment: int) -> None:
        if self.first is None:
            self.first = entry
        self.moments.append(moment)

    def copied(self, other: Other) -> Other:
        """Gives all to another one, which may go on by itself."""
        other.zero, other.first, other.scale = self.zero, self.first, self.scale
        for name in LISTS:
            setattr(other, name, list(getattr(self, name)))
        return other

    def forget(self, entry: int) -> None:
        """Drops what was over before this entry."""
        if self.first is None or entry <= self.first:
            return
        del self.moments[:entry - self.first]
        self.first = entry
        self.calls = [call for call in self.calls if is_from(call.end_entry, entry)]
        self.bands = [band for band in self.bands if is_from(band.entry, entry)]
        self.works = [work for work in self.works if is_from(work.entry, entry)]
        self.resets = [reset for reset in self.resets if reset.entry >= entry]
        self.expiries = [expiry for expiry in self.expiries if expiry.entry >= entry]
        # (of those before it, the last one of each function still holds)
        before = {step.function: step for step in self.steps if step.entry < entry}
        self.steps = [step for step in self.steps if step.entry >= entry or step is before[step.function]]

    def end(self, world: World) -> None:
        self.calls.sort(key=lambda call: call.ticket)
        self.works.sort(key=lambda worked: worked.work.entry)
        self.place_entries()

    # positions

    def place_entries(self) -> None:
        """Gives each entry its own place, so that entries of the same moment can be distinguished."""
        at = 16.0
        self.places = []
        for i, moment in enumerate(self.moments):
            if i:
                gap = moment - self.moments[i - 1]
                at += self.step(gap)
            self.places.append(at)
        if self.scale == "time" and self.moments and self.moments[-1] > self.moments[0]:
            unit = max(1000, min(24_000, 16 * len(self.moments))) / (self.moments[-1] - self.moments[0])
            self.places = [16 + unit * (moment - self.moments[0]) for moment in self.moments]
        elif at > 24_000:
            self.places = [16 + (place - 16) * 24_000 / at for place in self.places]
        self.width = (self.places[-1] if self.places else 16) + 110

    @staticmethod
    def step(gap: int) -> float:
        return 16 if gap == 0 else 20 + 16 * (gap.bit_length() + gap / (1 << gap.bit_length()) - 0.5) / 1.7

    def x(self, entry: Optional[int]) -> float:
        """Returns an entry's position; one before the window is at its left edge, one after it at its right edge."""
        if entry is None or self.first is None or entry - self.first >= len(self.places):
            return self.width - 24
        return self.places[entry - self.first] if entry >= self.first else 4

    def is_after(self, entry: Optional[int]) -> bool:
        """Whether an entry is after the last one that is drawn."""
        return entry is not None and self.first is not None and entry - self.first >= len(self.places)

    def x_of_moment(self, moment: int) -> Optional[float]:
        """Returns a deadline's position, between the entries around it; None if it is after them all."""
        i = bisect.bisect_left(self.moments, moment)
        if i == len(self.moments):
            return None
        if i == 0 or self.moments[i] == moment:
            return self.places[i]
        share = (moment - self.moments[i - 1]) / (self.moments[i] - self.moments[i - 1])
        return self.places[i - 1] + share * (self.places[i] - self.places[i - 1])


def is_from(end: Optional[int], entry: int) -> bool:
    """Whether what ended at an entry, or has not ended, was not over before another one."""
    return end is None or end >= entry
