"""Whether what a process holds stops growing: it is looked at after each part of a long run of the same requests."""
import time
from math import inf
from typing import Callable, Dict, List, NamedTuple, Optional, Tuple

from .clock import CLOCK
from .files import Files
from .kit import FAIL, NOTE, PASS
from .process import Holds, Process
from .stage import Stage

COUNTED = ("descriptors", "threads", "zombies")  # of what `Holds` has
WITH_MEMORY = ("descriptors", "threads")  # each of which has some of its own
PART = 50  # requests between two looks
LEAST_PARTS = 6  # that a judgement takes
LEAST = 100  # requests, that it takes
EACH = 0.02  # of one thing, that is left behind for a request at least
FEW_EACH = 0.5  # so, of few requests, of which the first ones count too
LEAKED = 12  # of one thing, that are left behind at least
GROUPS = 8  # of looks, between which memory grows if it does not stop
SHARE = 0.2  # of what it grows by on average, that it grows by between two of these
LONG = 3  # times as many requests as asked for, of which a collector has surely had its turn
MANY = 400  # requests; what memory grows by in fewer says nothing
CALM = 0.25  # of the requests so far, in which memory has not grown when it has stopped
STRETCHED = 3  # times as long at most, on a busy machine


class Look(NamedTuple):
    done: int
    holds: Holds


class Rule(NamedTuple):
    """From which growth on memory does not stop growing."""
    least: int  # bytes
    even: float  # of the growth in the first half, that there is in the second one
    nearly: float  # of the groups, in which there is some
    share: float = SHARE
    requests: int = 0  # at least, in which it has grown
    most: float = inf  # bytes for each request
    fallen: float = inf  # of the growth, that it may have fallen by in between
    each: float = 0  # bytes for each request at least


SUSPECT = (Rule(1_500_000, 0.2, 0.4, fallen=0.5), Rule(4_000_000, 0.2, 0.4))  # that it is worth to go on
CERTAIN = Rule(4_000_000, 0.5, 0.75)
AFTER_LONG = Rule(4_000_000, 0.4, 0.5)
STEADY = Rule(1_000_000, 0.6, 0.85, 0.4, 2500)  # little, but the same all the time, as no heap grows that is collected
# Very little, in small steps and never back: no heap that is collected fills by so little garbage, nor without a fall.
CREEPING = Rule(100_000, 0.6, 0.85, 0.4, 1000, 3000, 0.1, 90)  # (of a pool's threads each takes some pages in the end)
SUSPECT_OF_LITTLE = (Rule(40_000, 0.3, 0.7, 0.2, 400, 3000, 0.5, 70), Rule(500_000, 0.4, 0.55, 0.2, 800, 3000, 1.5))
SUSPECT_OF_EVENTS = (Rule(700_000, 0.1, 0.0), *SUSPECT_OF_LITTLE)  # of an extension, whose events are small


class Course(NamedTuple):
    """How often a request is repeated."""
    wanted: int
    seconds: float  # that these may take
    most: int  # for as long as memory grows
    patience: float  # seconds more that this may take
    suspects: Tuple[Rule, ...]  # by one of which memory grows then


class Looks:
    """What a process held, after how many requests of one kind."""

    def __init__(self, process: Process, before: Optional[Holds] = None) -> None:
        self._process, self._before = process, before or process.holds()
        self._looks: List[Look] = []

    def look(self, done: int) -> None:
        self._looks.append(Look(done, self._process.holds()))

    def _values(self, name: str) -> List[int]:
        return [getattr(look.holds, name) for look in self._looks]

    @property
    def done(self) -> int:
        return self._looks[-1].done

    def followed_by(self, other: "Looks") -> "Looks":
        """All looks: for what is counted, it does not matter of which kind the requests were."""
        both = Looks(self._process, self._before)
        both._looks = [*self._looks, *(look._replace(done=self.done + look.done) for look in other._looks)]
        return both

    def counted(self, name: str) -> Tuple[str, str]:
        """How many more of these there are after the last request than after the first quarter, the least of a few
        looks each: an outcome and words."""
        values, quarter = self._values(name), max(1, len(self._looks) // 4)
        first, last = self._looks[min(quarter, len(self._looks) - 1)].done, self.done
        more = min(values[-quarter:]) - min(values[quarter:2 * quarter] or values)
        words = f"{more:+d} in {last - first} invocations"
        if len(self._looks) < LEAST_PARTS or last < LEAST:
            left = values[-1] - getattr(self._before, name)
            if left >= max(LEAKED, FEW_EACH * last):
                return FAIL, f"{left:+d} in {last} invocations"
            return (FAIL if more >= LEAKED else NOTE), f"{last} invocations are too few to tell: {words}"
        return (FAIL if more >= max(LEAKED, EACH * (last - first)) else PASS), words

    def grows(self, rule: "Rule") -> int:
        """Whether memory has grown evenly, in nearly each group of the last looks, and by as many bytes at least: those
        for each request; 0 if not."""
        values = self._values("memory")
        if len(values) < LEAST_PARTS + 2:
            return 0
        quarter = len(values) // 4
        tail = values[quarter:]
        # (the least of a group, and of those behind it: what a collector frees is no growth, and an allocator takes
        # memory now and then, many requests' at once)
        size = max(2, len(tail) // GROUPS)
        lowest = [min(tail[place:]) for place in range(0, len(tail) - size + 1, size)]
        steps = [after - before for before, after in zip(lowest, lowest[1:])]
        first, middle, last = lowest[0], lowest[len(lowest) // 2], lowest[-1]
        grown, average = last - first, (last - first) / max(1, len(steps))
        rising = sum(step > rule.share * average for step in steps)
        fallen = sum(max(0, before - after) for before, after in zip(tail, tail[1:]))
        each = grown / max(1, self._looks[-size].done - self._looks[quarter].done)
        if self.done - self._looks[quarter].done < rule.requests or grown < rule.least:
            return 0
        if not rule.each <= each <= rule.most:
            return 0
        if last - middle < rule.even * (middle - first) or rising < rule.nearly * len(steps):
            return 0
        return int(each) if fallen <= rule.fallen * grown else 0

    def memory(self) -> str:
        values = self._values("memory")
        return f"{(values[-1] - values[len(values) // 4]) / 1e6:+.1f} MB in {self.done} invocations"

    def leaks(self, wanted: int) -> int:
        """How many bytes for each request memory does not stop growing by; 0 if it does, or may."""
        if self.done < MANY:
            return 0
        return self.grows(AFTER_LONG if self.done >= LONG * wanted else CERTAIN) or self.is_steady()

    def is_steady(self) -> int:
        """So, if it is little and the same all the time."""
        return self.grows(STEADY) or self.grows(CREEPING)


def repeat(process: Process, once: Callable[[int], None], course: Course, files: Optional[Files] = None) -> Looks:
    """Calls `once` with the numbers from 0 on. Returns what the process held; `files` looks as often."""
    looks, done, begun = Looks(process), 0, CLOCK.now()
    part = max(1, min(PART, course.wanted // (4 * LEAST_PARTS)))
    brief = course.seconds / (2 * LEAST_PARTS)  # after which a part of a slow process ends

    def go_on(done: int) -> int:
        end = CLOCK.now() + brief
        for number in range(done, done + part):
            once(number)
            if CLOCK.now() > end:
                break
        looks.look(number + 1)
        if files:
            files.look(number + 1)
        return number + 1
    if files:
        files.look(0)
    while done < course.wanted and CLOCK.now() - begun < course.seconds:
        done = go_on(done)
    grew = done if any(map(looks.grows, course.suspects)) else 0
    end, real_end = CLOCK.now() + course.patience, time.monotonic() + STRETCHED * course.patience
    while done - grew < CALM * done and done < course.most and CLOCK.now() < end and time.monotonic() < real_end:
        done = go_on(done)
        grew = done if any(map(looks.grows, course.suspects)) else grew
        if looks.is_steady() or (done >= LONG * course.wanted and looks.leaks(course.wanted)):
            break
    return looks


def judge(stage: Stage, looks: Looks, names: Dict[str, str], wanted: int, little: Optional[Looks] = None) -> None:
    """Judges memory and the things that are counted, by the names of their checks; `little` are looks after as many
    requests again, with little in each."""
    all_looks = looks.followed_by(little) if little else looks
    left, words = all_looks.counted("processes")
    stage.jury.judge(names["processes"], left, words)
    if left == FAIL:  # (each has memory, descriptors and threads of its own)
        return stage.jury.rest(NOTE, "not judged: it leaves processes behind")
    found = {thing: all_looks.counted(thing) for thing in COUNTED}
    for thing, (outcome, words) in found.items():
        stage.jury.judge(names[thing], outcome, words)
    behind = [thing for thing in WITH_MEMORY if found[thing][0] == FAIL]
    if behind:
        return stage.note(names["memory"], f"not judged: it leaves {behind[0]} behind")
    return judge_memory(stage, looks, little, names["memory"], wanted)


def judge_memory(stage: Stage, looks: Looks, little: Optional[Looks], name: str, wanted: int) -> None:
    for part, rate in ((looks, looks.leaks(wanted)), (little, little.is_steady() if little else 0)):
        if part and rate:
            return stage.check(name, False, f"it does not stop growing: {rate:,} bytes more with each invocation, "
                                            f"{part.memory()}")
    done = looks.done + (little.done if little else 0)
    if looks.done < min(wanted, MANY) or done < max(wanted, MANY):
        return stage.note(name, f"no more than {done} invocations in the time there is: {looks.memory()}")
    return stage.check(name, True, "", looks.memory())
