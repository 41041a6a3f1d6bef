"""A storm: trouble at random, which its seed makes again. What the n-th invocation of a function meets is drawn by the
seed, the function's name and n alone, so it is the same whatever the timing. An invocation that has trouble is followed
by SPARED of the function that have none: whoever tries again comes through."""
import hashlib
import re
import threading
from collections import Counter
from typing import Callable, Counter as Counts, Dict, List, NamedTuple, Optional, Protocol, Sequence, Tuple, Union

from .outgoing import several

THROTTLE, COLD, TIMEOUT, CRASH, INIT = KINDS = ("throttle", "cold", "timeout", "crash", "init")
WORDS = {THROTTLE: "throttle", COLD: "cold start", TIMEOUT: "timeout", CRASH: "crash", INIT: "failed Init"}
RATE, LEAST_RATE = 0.1, 0.001
SPARED = 2  # invocations of the function, after one that has trouble
MOST_SEED = 2 ** 64
FORM = re.compile(r"([0-9]{1,20})(?::([0-9]{1,3}(?:\.[0-9]{1,6})?))?")
EXPECTED = f"SEED[:RATE], a whole number below 2^64 and a share from {LEAST_RATE} to 1, such as 7 or 7:0.25"


class Storm(NamedTuple):
    """`rate` is the share of the invocations which may have trouble that have some; `scope`, such as a test's name,
    makes another storm of the same seed."""
    seed: int
    rate: float = RATE
    scope: str = ""

    @property
    def name(self) -> str:
        return f"storm {self.seed}"

    @property
    def given(self) -> str:
        """As an option has it."""
        return f"{self.seed}:{self.rate:g}"

    def draw(self, function: str, number: int, kinds: Sequence[str]) -> Optional[str]:
        """The trouble of this invocation, the number-th of the function, from 1; None for most."""
        drawn = hashlib.sha256("\n".join((str(self.seed), self.scope, function, str(number))).encode()).digest()
        if not kinds or int.from_bytes(drawn[:8], "big") >= self.rate * 2 ** 64:
            return None
        return kinds[int.from_bytes(drawn[8:16], "big") % len(kinds)]


def storm_of(text: str) -> Storm:
    """ValueError if it is none."""
    found = FORM.fullmatch(text)
    if not found or not text.isascii():
        raise ValueError(text)
    seed, rate = int(found[1]), RATE if found[2] is None else float(found[2])
    if seed >= MOST_SEED or not LEAST_RATE <= rate <= 1:
        raise ValueError(text)
    return Storm(seed, rate)


def given_storm(given: Union[None, int, str, Storm]) -> Optional[Storm]:
    """As a test gives it."""
    if given is None or isinstance(given, Storm):
        return given
    try:
        return storm_of(str(given) if type(given) in (int, str) else "")
    except ValueError:
        raise ValueError(f"storm: {given!r}: give {EXPECTED}") from None


storm_of.__name__ = EXPECTED  # (so does argparse call it in its message)


class Course:
    """The storm over one function: what its invocations meet, one after the other."""

    def __init__(self, storm: Storm, function: str, kinds: Sequence[str]) -> None:
        self.storm, self.function, self.kinds = storm, function, kinds
        self.count = self.spared = 0

    def next(self) -> Tuple[int, Optional[str]]:
        """The number of the next invocation, and its trouble."""
        self.count += 1
        if self.spared:
            self.spared -= 1
            return self.count, None
        kind = self.storm.draw(self.function, self.count, self.kinds)
        if kind is not None:
            self.spared = SPARED
        return self.count, kind


class Outcome(NamedTuple):
    """What became of trouble that was ordered: whether it came about; the invocation's identifier, if it is known; and
    otherwise why it did not."""
    has_come: bool
    request: str = ""
    why: str = ""


Progress = Callable[[Optional[Outcome]], None]  # None once the invocation has it; then what became of it


class NotMade(Exception):
    """Why trouble cannot be made."""


class Order(Protocol):
    """Trouble that waits for its invocation, or has it."""

    async def call_off(self, why: str) -> None:
        """The invocation is over, or never came. Its progress has ended when this returns."""


class Ordered:
    """What is told of it: what became of it, once."""

    def __init__(self, function: str, kind: str, progress: Progress) -> None:
        self.function, self.kind, self.progress = function, kind, progress
        self.is_over = threading.Event()

    def end(self, has_come: bool, request: str = "", why: str = "") -> None:
        if not self.is_over.is_set():
            self.progress(Outcome(has_come, request, why))
            self.is_over.set()


class Maker(Protocol):
    """Makes the trouble, for the loop of what sends invocations."""

    def kinds_of(self, function: str) -> Sequence[str]:
        """Those of KINDS that it can make; none for a function that there is not."""

    async def working(self, function: str) -> int:
        """How many of the function's invocations a runtime has."""

    async def arrange(self, function: str, kind: str, progress: Progress) -> Order:
        """Has the next invocation of the function meet this, which is sent at once then. NotMade if that cannot be."""


class Tally:
    """What a storm has done."""

    def __init__(self, storm: Storm) -> None:
        self.storm, self.invocations, self.passed_over = storm, 0, 0
        self.made: Counts[str] = Counter()

    def announcement(self) -> str:
        return (f"{self.storm.name}: trouble for {self.storm.rate:g} of all invocations, but for the {SPARED} after "
                "one that has some, and what is sent again")

    def members(self) -> Dict[str, object]:
        """Of its summary's line."""
        return {"seed": self.storm.seed, "rate": self.storm.rate, "invocations": self.invocations,
                "made": dict(self.made), "notMade": self.passed_over}

    def summary(self) -> str:
        kinds: List[str] = [several(self.made[kind], WORDS[kind]).replace("crashs", "crashes") for kind in KINDS
                            if self.made[kind]]
        had = f": {', '.join(kinds)}" if kinds else ""
        over = f"; {self.passed_over} could not be made" if self.passed_over else ""
        return (f"{self.storm.name}: {sum(self.made.values())} of {several(self.invocations, 'invocation')} had "
                f"trouble{had}{over}; again with {self.storm.given}")
