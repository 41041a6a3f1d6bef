"""What a check, a scenario and a verdict are, and how scenarios run beside one another."""
import concurrent.futures
import time
import traceback
from typing import Any, Callable, Dict, Iterator, List, NamedTuple, Optional, Protocol, Set, Tuple, Union

from lambda_local.service import Fault

from .pages import Page

Play = Callable[..., None]  # takes a stage
OpenStage = Callable[["Scenario", "Jury"], Any]

PASS, FAIL, SHOULD, NOTE = "PASS", "FAIL", "SHOULD", "NOTE"
GRAVITY = (PASS, NOTE, SHOULD, FAIL)  # of several outcomes of one check the last of these counts


class Check(NamedTuple):
    """One thing that a document prescribes."""
    name: str
    page: Page
    expected: str  # a sentence: what the tested program does


class Scenario(NamedTuple):
    """A few requests, and the checks that judge what came of them."""
    name: str
    checks: Tuple[Check, ...]
    play: Play  # takes the stage, and judges each of the checks
    settings: Dict[str, Any]  # of the stage


class Finding(NamedTuple):
    """What came in place of what is expected."""
    words: str  # as a line
    is_deed: bool = False  # the program did it: a busy machine may be the reason of what it only did not do in time
    about: Tuple[str, ...] = ()  # the checks that look at this by themselves
    is_later: bool = False  # of an invocation that followed what its check is about
    like: str = ""  # what others tell that are the same, if not the words: without what differs from run to run

    @property
    def key(self) -> str:
        """What FAILs that tell the same have in common."""
        return self.like or self.words

    def within(self, words: str) -> "Finding":
        """The same, told in other words."""
        return self._replace(words=words, like=self.key)


Came = Union[str, Finding]


def finding(came: Came) -> Finding:
    return came if isinstance(came, Finding) else Finding(came)


def deed(words: str, *about: str) -> Finding:
    """Something that the program did."""
    return Finding(words, True, about)


class Seen(NamedTuple):
    """What a FAIL shows: the part of its scenario from its check's first call to its last."""
    history: Optional[str]  # the service's, of the whole scenario, for its timeline
    acts: Tuple[str, ...]  # what the kit did in the service's place
    wire: Tuple[str, ...]  # what the proxy saw that may be the cause, and the last exchange
    cause: str  # what that comes from, if the connections show it: told once
    begin: int = 0  # of the part, in milliseconds of the history; 0 for all of it
    end: int = 0
    written: Tuple[str, ...] = ()  # the last lines that the program wrote until then
    asked: str = ""  # what its handler was asked for last


NOTHING_SEEN = Seen(None, (), (), "")


class Verdict(NamedTuple):
    check: Check
    scenario: str
    outcome: str
    found: Finding  # what came
    seconds: float  # that its scenario took
    seen: Seen
    stops: bool = False  # whether nothing else can be judged

    @property
    def came(self) -> str:
        return self.found.words


class EndedEarly(Fault):
    """The command ended before anything could be tested, and had written these lines."""

    def __init__(self, words: str, wrote: List[str]) -> None:
        super().__init__(2, words + (", and wrote:" if wrote else ""))
        self.wrote = wrote


class Missing(Exception):
    """What a scenario needs did not come: its checks that are not judged yet fail with these words; the last one if
    there is none."""

    def __init__(self, came: Came) -> None:
        super().__init__(finding(came).words)
        self.finding = finding(came)


class Witness(Protocol):
    """What a jury asks of its stage."""

    def has_acted_since(self, moment: float) -> bool:
        """Whether the kit has begun anything of its own since then: an invocation, a process, a shutdown."""

    def seen(self, begin: float, end: float) -> Seen:
        """What it saw between two moments."""


class Judgement(NamedTuple):
    outcome: str
    found: Finding
    seen: Seen


class Jury:
    """The verdicts on the checks of one scenario. Moments are those of `time.monotonic`."""

    def __init__(self, scenario: Scenario) -> None:
        self.scenario, self.stops, self._last = scenario, False, ""
        self.verdicts: Dict[str, Judgement] = {}  # by the names of checks
        self.witness: Optional[Witness] = None
        self._moments = [time.monotonic()]  # of the scenario's begin, and of each judgement
        self._begun: Dict[str, float] = {}  # by the names of checks: when their first calls were to come

    def judge(self, name: str, outcome: str, came: Came) -> None:
        """Of several outcomes of a check the worst counts, and of these the first."""
        if not any(check.name == name for check in self.scenario.checks):
            raise ValueError(f"scenario {self.scenario.name} has no check {name}")
        self._last, begin = name, self._begun.setdefault(name, self._part_begun())
        before, now = self.verdicts.get(name), time.monotonic()
        if not before or GRAVITY.index(outcome) > GRAVITY.index(before.outcome):
            seen = self.witness.seen(begin, now) if self.witness and outcome == FAIL else NOTHING_SEEN
            self.verdicts[name] = Judgement(outcome, finding(came), seen)
        self._moments.append(now)

    def _part_begun(self) -> float:
        """When that began which is judged now: at the last judgement since which the kit has done anything. (Checks
        that are judged one after the other are of the same calls.)"""
        moments, witness = reversed(self._moments), self.witness
        return next((moment for moment in moments if witness and witness.has_acted_since(moment)), self._moments[0])

    def cannot_go_on(self, outcome: str, came: Came) -> None:
        """Judges the checks that are left, or the last one, which more was to be seen of."""
        if len(self.verdicts) == len(self.scenario.checks):
            self.judge(self._last, outcome, came)
        self.rest(outcome, came)

    def rest(self, outcome: str, came: Came) -> None:
        for check in self.scenario.checks:
            if check.name not in self.verdicts:
                self.judge(check.name, outcome, came)


def scenarios_of(registry: List[Scenario]) -> Callable[..., Callable[[Play], Play]]:
    """A decorator that adds a scenario to a registry: its name is the function's."""
    def made(*checks: Any, **settings: Any) -> Callable[[Play], Play]:
        def add(play: Callable[..., Any]) -> Play:
            registry.append(Scenario(play.__name__, tuple(Check(*check) for check in checks), play, settings))
            return play
        return add
    return made


def chosen(registry: List[Scenario], only: List[str]) -> List[Scenario]:
    """The scenarios of which a name of `only` is the name, or that of a check; all if there is none."""
    if not only:
        return list(registry)
    return [scenario for scenario in registry if scenario.name in only
            or any(check.name in only for check in scenario.checks)]


def names_of(registry: List[Scenario]) -> Set[str]:
    return {scenario.name for scenario in registry} | {check.name for scenario in registry for check in scenario.checks}


def run(scenario: Scenario, open_stage: OpenStage) -> List[Verdict]:
    """Plays one scenario on a stage of its own: its verdicts, in the order of its checks."""
    jury, begun, history = Jury(scenario), time.monotonic(), None
    with open_stage(scenario, jury) as stage:
        jury.witness = stage
        try:
            stage.prepare()
            scenario.play(stage)
            jury.rest(FAIL, "the scenario ended before it came to this check")
        except Missing as missing:
            jury.cannot_go_on(scenario.settings.get("judged", FAIL), missing.finding)
            jury.stops = scenario.settings.get("first", False)
        except Fault:
            raise
        except Exception:  # a fault of the kit itself, or the service is gone: said as it is
            jury.cannot_go_on(FAIL, "the kit could not go on: " + traceback.format_exc().strip().splitlines()[-1])
        if scenario.settings.get("drawn", True) and any(one.outcome == FAIL for one in jury.verdicts.values()):
            history = stage.history()
    seconds = time.monotonic() - begun
    return [Verdict(check, scenario.name, found.outcome, found.found, seconds, found.seen._replace(history=history),
                    jury.stops) for check in scenario.checks for found in (jury.verdicts[check.name],)]


def has_failed(verdicts: List[Verdict]) -> bool:
    return any(verdict.outcome == FAIL for verdict in verdicts)


def run_all(scenarios: List[Scenario], open_stage: OpenStage,
            at_once: int) -> Iterator[Tuple[Scenario, List[Verdict]]]:
    """Each scenario with its verdicts, in their order, each as soon as it and those before it are there."""
    pool = concurrent.futures.ThreadPoolExecutor(at_once)
    # (the longest first, so that none of them begins last)
    order = sorted(scenarios, key=lambda scenario: -float(scenario.settings.get("lasts", 0)))
    running = {scenario.name: pool.submit(run, scenario, open_stage) for scenario in order}
    try:
        for scenario in scenarios:
            yield scenario, running[scenario.name].result()
    finally:  # (who ends it early ends what the scenarios wait for, and does not wait for them)
        pool.shutdown(wait=False, cancel_futures=True)
