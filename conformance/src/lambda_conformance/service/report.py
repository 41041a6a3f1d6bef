"""What a run says: each difference with its calls, both answers and the public page, and the counts at the end."""
import os
from typing import Any, Callable, List, Optional

from lambda_local import junit
from lambda_local.service import Fault

from ..pages import INIT_ERROR, Page
from .course import Course, Difference
from .incomplete import NotRefused
from .judge import page_of
from .oracle import WARM, Sequence

WIDTH = 150


class Report:
    def __init__(self, path: Optional[str], write: Callable[[str], Any] = print) -> None:
        self.write, self.path, self.suite = write, path, junit.Suite("conformance service")
        self.differences, self.sequences, self.random, self.undecided = 0, 0, 0, 0
        if path and not os.access(os.path.dirname(os.path.abspath(path)), os.W_OK):
            raise Fault(2, f"--junit {path}: name a file in a folder that can be written")

    def passed(self, sequence: Sequence, seconds: float, is_random: bool) -> None:
        self.sequences += 1
        self.random += is_random
        if not is_random:
            self.suite.case("conformance service.worked", sequence.name, seconds)

    def differs(self, difference: Difference, name: str, seconds: float, script: List[str]) -> None:
        """A difference that was found in the sequence of this name."""
        self.differences += 1
        title = (f"{' '.join(difference.words)}: {cut(difference.aspect.theirs)} "
                 f"instead of {cut(difference.aspect.ours)}")
        details = details_of(difference, script)
        for line in (f"DIFFERENCE  {title}", f"      found in  {name}", *(f"      {line}" for line in details)):
            self.write(line)
        self.suite.case("conformance service", f"{name}: {' '.join(difference.words)}", seconds, failure=title,
                        details="\n".join(details))

    def missing(self, route: str, status: int) -> None:
        """A route of the Runtime API that is not there, without which no sequence has a known beginning."""
        self._differs("init-failure accepted status", f"{route} is answered {status} instead of 202", INIT_ERROR)
        self.write("      (no sequence can be played without it)")

    def takes(self, one: NotRefused) -> None:
        """A request that its page refuses."""
        statuses = " or ".join(map(str, one.refusals))
        self._differs(" ".join(one.words), f"{cut(one.theirs)} instead of {statuses}", one.page)

    def _differs(self, words: str, how: str, page: Page) -> None:
        """A difference that one request shows."""
        self.differences += 1
        for line in (f"DIFFERENCE  {words}: {how}", f"      page      {page}"):
            self.write(line)
        self.suite.case("conformance service", words, 0.0, failure=f"{words}: {how}", details=f"page      {page}")

    def finish(self, course: Course, seconds: float, needs_random: bool = True) -> int:
        """The last lines and the file: the exit status."""
        for why, count in sorted(course.known.met.items()):
            self.write(f"accepted {count} times: {why}")
        if self.undecided:
            self.write(
                f"undecided: {self.undecided} sequences, in which deadlines came between calls; this machine is slow")
        self.suite.case("conformance service", f"{self.random} random sequences", seconds)
        self.suite.seconds = seconds
        self.write(f"{self.sequences} sequences ({self.random} random), {course.calls} calls, {self.differences} "
                   f"differences in {seconds:.1f} s")
        if self.path:
            self.suite.write(self.path)
        if needs_random and not self.differences and not self.random:
            self.write("no random sequence was played: this says little about the service")
            return 2
        return 1 if self.differences else 0


def details_of(difference: Difference, script: List[str]) -> List[str]:
    plan, place, step = difference.plan, difference.place, difference.step
    call = plan.sequence.calls[place]
    begins = "the runtime alone waits, with the first call" if plan.sequence.start == WARM else "a fresh environment"
    lines = [f"begins    {begins}", "calls"]
    for number, (one, moment) in enumerate(zip(plan.sequence.calls, difference.moments)):
        mark = ">" if number == place else " "
        lines.append(f"  {mark} {number + 1:>2}  {moment:>6} ms  {cut(str(one))}")
    when = "" if place == step else f", after call {step + 1}"
    return [*lines, f"to call   {place + 1}{when}", f"theirs    {cut(difference.aspect.theirs)}",
            f"ours      {cut(difference.aspect.ours)}", f"page      {page_of(call, difference.label)}",
            f"known     {' '.join(difference.words)}",
            "script", *(f"  {cut(line)}" for line in script)]


def cut(text: str) -> str:
    return text if len(text) <= WIDTH else text[:WIDTH] + ".."
