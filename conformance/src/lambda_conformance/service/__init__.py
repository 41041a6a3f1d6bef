"""Compares another local Lambda, with one environment or two, with the definitions.

  lambda_local conformance service --invoke http://127.0.0.1:8080 --runtime 127.0.0.1:9001
  lambda_local conformance service --invoke URL --runtime HOST:PORT --seconds 60 --seed 7 --known accepted.txt --junit
  report.xml

The tool plays a caller, a runtime and extensions, in worked and in random sequences of calls, one call after the other;
no runtime of the service's own may be connected. The same calls are replayed by `lambda_local replay`, and each answer
is compared, up to identifiers, times, and the texts that are a service's own. What differs is reported with as few
calls as show it. docs/conformance_service.md says more.

With --endpoint it asks another Lambda, such as AWS's own, by Invokes of a function that --zip writes, how it answers
where docs/differences.md does not know it.

Exit statuses: 0; 1 if an answer differs; 2 for wrong usage, or a service that does not answer."""
import argparse
import random
import signal
import socket
import time
from typing import Iterable, List, Set, Tuple

from lambda_local.service import Fault, program_path
from lambda_local.usage import parser_of

from ..clock import CLOCK
from ..run import Parser, ended_by_signal, seconds
from . import remote
from .calls import Call
from .course import ANSWER_SECONDS, SURELY, Course, Difference, Played, Unrecoverable
from .incomplete import REQUESTS, Incomplete, invokes, not_refused_by
from .known import KnownDifferences
from .minimise import BUDGET, Undecided, confirmed, minimised
from .oracle import FRESH, WARM, Oracle, Plan, counts_at, left_polls
from .pairs import pairs_of
from .random_sequences import Generator
from .report import Report
from .sequences import plans_of, timed, worked
from .tested import tested_by

USUAL_TIMEOUT = 3  # seconds, as a function has it by default
MOST_TIMEOUT = 10  # seconds: with a longer one, the sequences with a timeout are left out
FRESH_SHARE = 0.75  # of the random sequences begin with a fresh environment
INIT_ERROR_ROUTE = "POST /2018-06-01/runtime/init/error"
BATCH = 20  # random sequences that are made at once
LATE, LATE_TIMES = ("invoke", "timeout", "moment"), 4  # a timeout that is late, and how often it has to be so again
WHOLE_BUDGET = 2 * BUDGET  # seconds in which calls are left out of all that is found
LATER = 3  # times that what was left undecided is looked into again, since this machine may be less busy then


class Run:
    """One run: what it plays, what it has reported."""

    def __init__(self, options: argparse.Namespace, report: Report) -> None:
        self.options, self.report = options, report
        self.tested = tested_by(options.invoke, options.runtime, options.function, options.second)
        self.course = Course(self.tested, KnownDifferences(options.known), USUAL_TIMEOUT)
        self.oracle = Oracle(program_path(options.program), USUAL_TIMEOUT, self.tested.environments)
        self.generator, self.begun = Generator(random.Random(options.seed)), time.monotonic()
        self.reported: Set[Tuple[str, str, str]] = set()  # of differences, the words
        self.undecided: List[Plan] = []
        self.budget = WHOLE_BUDGET

    def prepare(self) -> bool:
        """Finds out whether a Runtime API answers, and the function's timeout. Returns whether sequences can begin."""
        look_for(self.tested.invoke)
        status = self.course.ask(Call("init-failure", "", ("={}",)), {}, ANSWER_SECONDS)
        place = ":".join(map(str, self.tested.runtime))
        if not status:
            raise Fault(2, f"{place}: POST /2018-06-01/runtime/init/error is not answered "
                           f"within {ANSWER_SECONDS:.0f} s")
        if status not in (202, 403):
            if not self._has_runtime_api():
                raise Fault(2, f"{place}: POST /2018-06-01/runtime/init/error is answered {status}: "
                               "no Runtime API listens there")
            self.report.missing(INIT_ERROR_ROUTE, status)
            return False
        self.course.restore()
        found = self.course.learn_timeout()
        if found:
            self.course.timeout = self.oracle.timeout = found
        self.report.write(f"conformance service {self.options.invoke}: seed {self.options.seed}, "
                          f"the function's timeout is {self.oracle.timeout} s")
        return True

    def _has_runtime_api(self) -> bool:
        """Whether Next waits, or is answered as only a Runtime API does."""
        return self.course.ask(Call("next"), {}, SURELY) in (0, 200, 202, 403, 500)

    def everything(self) -> None:
        self.all_sequences()
        for _ in range(LATER):
            plans, self.undecided = self.undecided, []
            for plan in plans:
                self._play(plan)
        self.report.undecided = len(self.undecided)

    def all_sequences(self) -> None:
        with_timeouts = self.oracle.timeout <= MOST_TIMEOUT
        if self.options.second:
            self.play(pairs_of(self.oracle, with_timeouts), False)
            return
        self._refused(REQUESTS)
        share = 0.0
        for start, until in ((FRESH, FRESH_SHARE), (WARM, 1.0)):
            self.play(plans_of(worked(start), self.oracle), False)
            if with_timeouts:
                self.play(plans_of(timed(start), self.oracle), False)
            self._random(start, share, until)
            share = until
            if start == FRESH:
                self._refused(invokes(self.tested))
        if not with_timeouts:
            self.report.write(f"left out: sequences with a timeout, since it is {self.oracle.timeout} s")

    def _refused(self, requests: Iterable[Incomplete]) -> None:
        """Requests that are to be refused; what is not is reported."""
        for one in not_refused_by(self.course, () if self.over() else requests):
            if not self.over():
                self.report.takes(one)

    def _random(self, start: str, share: float, until: float) -> None:
        """Random sequences until their share of the number or of the time is used up."""
        wanted = self.options.sequences
        made, count = 0, round(wanted * until) - round(wanted * share) if wanted else None
        begun = time.monotonic()
        while not self.over() and (made < count if wanted
                                   else time.monotonic() - begun < self.options.seconds * (until - share)):
            plans = plans_of(self.generator.sequences(start, BATCH), self.oracle)
            made += self.play(plans[:count - made] if wanted else plans, True)

    def over(self) -> bool:
        return bool(self.report.differences >= self.options.most)

    def play(self, plans: List[Plan], is_random: bool) -> int:
        """Plays these, and reports what differs: how many were played."""
        for plan in plans:
            if self.over():
                break
            self.report.passed(plan.sequence, self._play(plan), is_random)
        return len(plans)

    def _play(self, plan: Plan) -> float:
        """Plays one, and reports what differs: the seconds that it took."""
        if self.over():
            return 0.0
        played = self.course.play(plan)
        if played.difference and played.difference.words not in self.reported:
            self._look_into(plan, played)
        elif played.is_late and LATE not in self.reported:
            self._look_into_lateness(plan, played)
        return played.seconds

    def _look_into_lateness(self, plan: Plan, played: Played) -> None:
        """A timeout that comes late each time does not do so because this machine is busy."""
        self.course.is_strict = True
        try:
            differences = (self.course.play(plan).difference for _ in range(LATE_TIMES))
            if all(difference and difference.words == LATE for difference in differences):
                self._look_into(plan, played)
        finally:
            self.course.is_strict = False

    def _look_into(self, plan: Plan, played: Played) -> None:
        """Reports a difference with as few calls as show it. One that does not show again with more time between the
        calls was a matter of their order, and is none."""
        difference = None
        try:
            difference = confirmed(self.course, self.oracle, plan)
            if not difference or difference.words in self.reported:
                return
            if not self.options.second:
                begun = time.monotonic()
                difference = minimised(self.course, self.oracle, difference, min(BUDGET, self.budget))
                self.budget = max(0.0, self.budget - (time.monotonic() - begun))
        except Undecided:
            self.undecided.append(plan)
            return
        except (OSError, Unrecoverable):  # (what the service does not survive is reported as it was last seen)
            if difference := difference or self.course.found:
                self._tell(difference, plan, played)
            raise
        self._tell(difference, plan, played)

    def _tell(self, difference: Difference, plan: Plan, played: Played) -> None:
        self.reported |= {one.words for one in (played.difference, difference) if one}
        self.report.differs(difference, plan.sequence.name, played.seconds, self._script(difference))

    def _script(self, difference: Difference) -> List[str]:
        """The calls as a script, as far as they were made."""
        plan = difference.plan
        lines = self.oracle.opening(1)
        entries = {place: place for place in range(len(plan.sequence.calls))}  # (each call is one)
        left = left_polls(plan.sequence, plan.steps, entries)
        for place, (call, moment) in enumerate(zip(plan.sequence.calls, difference.moments)):
            known = counts_at(plan.sequence, plan.counts, call.environment)
            lines.append(f"{moment} {call.script(call.environment, 'f1', known, left.get(place))}")
        return lines


def look_for(address: Tuple[str, int]) -> None:
    try:
        socket.create_connection(address, timeout=5).close()
    except OSError as fault:
        raise Fault(2, f"{address[0]}:{address[1]}: no service answers there ({fault.strerror or fault}): start it "
                       f"first") from None


def count(text: str) -> int:
    value = int(text)
    if not 1 <= value <= 1_000_000:
        raise argparse.ArgumentTypeError(f"{text} is not a number from 1 to 1,000,000")
    return value


def main(words: List[str]) -> int:
    parser = parser_of("conformance service", __doc__, made=Parser)
    parser.add_argument("--invoke", metavar="URL", help="the port for callers, for example http://127.0.0.1:8080")
    parser.add_argument("--runtime", metavar="HOST:PORT", help="the Runtime API, for example 127.0.0.1:9001")
    parser.add_argument("--second", metavar="HOST:PORT",
                        help="that of a second environment of the function: sequences with two are played, and no "
                        "others")
    parser.add_argument("--function", metavar="NAME", default="function", help="the function's name (function)")
    parser.add_argument("--seconds", metavar="S", type=seconds, default=20,
                        help="how long random sequences are played (20)")
    parser.add_argument("--sequences", metavar="N", type=count,
                        help="how many random sequences are played, in place of --seconds")
    parser.add_argument("--seed", metavar="N", type=int, default=random.SystemRandom().randrange(10 ** 6),
                        help="of the random sequences")
    parser.add_argument("--known", metavar="FILE",
                        help="differences that are accepted, one a line, as a report names them")
    parser.add_argument("--most", metavar="N", type=count, default=5,
                        help="after how many differences the run ends (5)")
    parser.add_argument("--junit", metavar="FILE", help="write the result there as JUnit XML")
    parser.add_argument("--program", metavar="P",
                        help="lambda_local (default: LAMBDA_LOCAL_PROGRAM, else the repository's ./lambda_local)")
    remote.add_options(parser)
    options = parser.parse_args(words)
    if remote.asks(options):
        return remote.run(options)
    for name in ("invoke", "runtime"):
        if not getattr(options, name):
            raise Fault(2, f"write --{name} {'URL' if name == 'invoke' else 'HOST:PORT'}, "
                           "where the tested service listens")
    for number in (signal.SIGTERM, signal.SIGINT, signal.SIGHUP):
        signal.signal(number, ended_by_signal)
    CLOCK.start()
    try:
        report = Report(options.junit)
        whole = Run(options, report)
    except Fault as fault:  # (a program that is not there is wrong usage here)
        raise Fault(2, str(fault)) from None
    return run(whole, report, options)


def run(whole: Run, report: Report, options: argparse.Namespace) -> int:
    """The exit status. What the service does not survive ends the run, with what was found until then."""
    try:
        look_for(whole.tested.runtime)
        if whole.prepare():
            whole.everything()
    except (OSError, Unrecoverable) as fault:
        why = f"does not answer any more: {fault.strerror or fault}" if isinstance(fault, OSError) else (
            "comes to no fresh environment by a failed Init or a timeout: end what is connected to it, and have it "
            "serve one environment")
        if not report.differences:
            raise Fault(2, f"the service at {options.invoke}, {options.runtime} {why}") from None
        report.write(f"the run ends: the service {why}")
    finally:
        whole.course.close()
    return report.finish(whole.course, time.monotonic() - whole.begun, not options.second)
