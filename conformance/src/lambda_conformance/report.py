"""What a run says: a line for each check, for a FAIL what was expected, by which page, what came, what the connections
show, and the timeline. FAILs of one cause are told once and then counted."""
import argparse
import itertools
import os
from typing import Any, Callable, Dict, Iterable, List, Set, Tuple

from lambda_local import junit
from lambda_local.outgoing import written
from lambda_local.service import Fault

from .causes import Causes, Known
from .clock import CLOCK
from .documents import Documents
from .kit import FAIL, NOTE, PASS, SHOULD, Seen, Verdict

LINES, FIRST, WIDTH = 24, 8, 200  # of a timeline as text and what the kit did, of which these come first; letters


def draw(history: str, *words: str) -> str:
    """What lambda_local timeline writes of a history, asked for by these words."""
    from lambda_local.timeline.command import drawn  # (which takes a moment, and only a FAIL is drawn)
    try:
        return drawn(history, *words)
    except (Fault, OSError) as fault:
        return f"(not drawn: {fault})"


def text_timeline(history: str, *words: str) -> List[str]:
    """The timeline of a history as lines that are neither too long nor too many."""
    return shortened(line if len(line) <= WIDTH else line[:WIDTH] + "\u2026"
                     for line in draw(history, *words).splitlines())


def shortened(lines: Iterable[str]) -> List[str]:
    """Each line once, with how often it comes if it comes several times in a row; of many the first and the last."""
    told = []
    for line, same in itertools.groupby(lines):
        count = sum(1 for _ in same)
        told.append(line if count == 1 else f"{line} ({count:,} times)")
    if len(told) > LINES:
        told = [*told[:FIRST], f".. {len(told) - LINES} lines ..", *told[FIRST - LINES:]]
    return told


def part_of(seen: Seen) -> Tuple[str, ...]:
    """The words that ask for the part of a timeline that a FAIL is about."""
    return ("--from", str(seen.begin), "--to", str(seen.end)) if seen.end else ()


class Report:
    """Prints verdicts as they come, and keeps what the files need."""

    def __init__(self, name: str, options: argparse.Namespace, write: Callable[[str], Any] = print) -> None:
        self.write, self.pictures, self.junit_path = write, options.pictures, options.junit
        self._program = ["--program", options.program] if options.program else []
        self.strict, self._causes = options.strict, Causes()
        self._again: Dict[Known, List[str]] = {}  # checks that failed as others have
        self._timelines: Set[Tuple[str, Tuple[str, ...]]] = set()  # that were drawn: of scenarios, parts
        self.suite, self.counts = junit.Suite(name), {PASS: 0, FAIL: 0, SHOULD: 0, NOTE: 0}
        self._drawn: Dict[str, str] = {}  # by their paths
        self.documents, self.title = Documents(name, options.markdown, options.badge), name
        if self.junit_path and not os.access(os.path.dirname(os.path.abspath(self.junit_path)), os.W_OK):
            raise Fault(2, f"--junit {self.junit_path}: name a file in a folder that can be written")
        if self.pictures:
            try:
                os.makedirs(self.pictures, exist_ok=True)
            except OSError as fault:
                raise Fault(2, f"--pictures {self.pictures}: {fault.strerror}: name a folder that can be "
                               f"written") from None

    def add_all(self, verdicts: Iterable[Verdict], only: List[str]) -> None:
        """Adds those that are chosen."""
        for verdict in verdicts:
            if not only or verdict.scenario in only or verdict.check.name in only:
                self.add(verdict)

    def tells(self, verdicts: Iterable[Verdict]) -> bool:
        """Whether one of these is a FAIL for another cause than those before."""
        return any(verdict.outcome == FAIL and not self._causes.known(verdict, False) for verdict in verdicts)

    def add(self, verdict: Verdict) -> None:
        self.counts[verdict.outcome] += 1
        self.documents.add(verdict)
        known = self._causes.known(verdict) if verdict.outcome == FAIL else None
        if known:
            self._again.setdefault(known, []).append(verdict.check.name)
            details = [f"{known.because.value} {known.first}"]
        else:
            details = self._tell(verdict)
        failed = verdict.outcome == FAIL or (verdict.outcome == SHOULD and self.strict)
        said = verdict.outcome in (NOTE, SHOULD) and not failed
        self.suite.case(f"{self.suite.name}.{verdict.scenario}", verdict.check.name, verdict.seconds,
                        failure=verdict.came if failed else None, details="\n".join(details),
                        output=f"{verdict.outcome} {verdict.came}" if said else "")

    def _tell(self, verdict: Verdict) -> List[str]:
        """Writes a verdict. Returns the details."""
        said = verdict.came if verdict.outcome != PASS else (
            verdict.check.expected + (f": {verdict.came}" if verdict.came else ""))
        self.write(f"{verdict.outcome}  {verdict.check.name:<22}{said}")
        details = self._details(verdict) if verdict.outcome == FAIL else (
            self._rule(verdict) if verdict.outcome == SHOULD else [])
        for line in details:
            self.write("      " + line)
        return details

    @staticmethod
    def _rule(verdict: Verdict) -> List[str]:
        return [f"expected  {verdict.check.expected}", f"page      {verdict.check.page}"]

    def _details(self, verdict: Verdict) -> List[str]:
        lines = [*self._rule(verdict), *(f"wire      {line}" for line in verdict.seen.wire)]
        if verdict.seen.written:
            lines += ["wrote", *("  " + line for line in verdict.seen.written)]
        if verdict.seen.history:
            lines += [f"kit       {act}" for act in shortened(verdict.seen.acts)]
            part = part_of(verdict.seen)
            if (verdict.scenario, part) in self._timelines:
                lines.append("timeline  as above")
            else:
                self._timelines.add((verdict.scenario, part))
                drawn = text_timeline(verdict.seen.history, *part, *self._program)
                lines += ["timeline", *("  " + line for line in drawn)]
            if self.pictures:
                lines.append(f"picture   {self._picture(verdict)}")
        return lines

    def _picture(self, verdict: Verdict) -> str:
        """One of each scenario."""
        path = os.path.join(self.pictures, f"{verdict.scenario}.svg")
        if path not in self._drawn:
            self._drawn[path] = draw(verdict.seen.history or "", "--svg", *self._program)
            with written(path) as file:
                file.write(self._drawn[path])
        return path

    def finish(self, seconds: float) -> int:
        """The last lines and the file: the exit status."""
        self.suite.seconds = seconds
        for known, others in self._again.items():
            checks = "check fails" if len(others) == 1 else "checks fail"
            because = f"{known.because.value} {known.first}" + (f" ({known.cause})" if known.cause else "")
            self.write(f"{len(others)} more {checks} {because}: {', '.join(others)}")
        if CLOCK.stretch() > 1.5:
            self.write(f"(this machine is busy with other things: limits were {CLOCK.stretch():.1f} times as long)")
        should = f"{self.counts[SHOULD]} should, " if self.counts[SHOULD] else ""
        self.write(f"{self.counts[PASS]} passed, {self.counts[FAIL]} failed, {should}{self.counts[NOTE]} noted in "
                   f"{seconds:.1f} s")
        if self.junit_path:
            self.suite.write(self.junit_path)
        self.documents.write(self.title)
        return 1 if self.counts[FAIL] or (self.strict and self.counts[SHOULD]) else 0
