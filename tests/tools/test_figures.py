"""Checks what a gate measures anew of docs/speed.md, and what it makes of that: in small repositories, with scripts in
place of benches. Which ratio has left its bracket was worked out by hand."""
import contextlib
import io
import os
import signal
import subprocess
import sys
import tempfile
import time
import unittest
from types import ModuleType
from typing import Dict, List
from unittest import mock

from tests import ROOT
from tests.library import counted, evidence, gate_record, ratios, records, refusals
from tests.library.cases import Case
from tests.library.checkout import module_of
from tests.library.ratios import Columns, Noted, Ratio, Section
from tests.library.trees import commit, write

ROWS = Columns(("callers", "payload"), ("rate / C", "rate / Go"), ("service", "ours"))
SECTIONS: Dict[str, Section] = {title: Section((f"bench/{title}", "--quick", "PROGRAM"), ("sh",), (ROWS,))
                                for title in ("one", "two")}
PAGE = """# Speed

## one
<!-- measured at {} -->

| aim | what shows it |
|---|---|
| 0.9 | a command |

| callers | payload | a second | rate / C | rate / Go |
|---|---|---|---|---|
| 1 | 100 B | 9,300 | 0.72 (0.60 to 0.80) | 1.50 (1.40 to 1.60) |
| 8 | 100 B | 9,900 | 0.50 (0.45 to 0.55) | - |

## two
<!-- measured at {} -->

| payload | callers | rate / C |
|---|---|---|
| 1 MB | 1 | 1,000.5 (900 to 1,100) |

## stays
It stays.
"""
TABLE = """Some words before.

| callers | payload | service | rate / C |
|---|---|---|---|
| 1 | 100 B | ours | 0.55 (0.50 to 0.59), aim 0.9 |
| 1 | 100 B | C | - |
| 8 | 100 B | ours | 0.40 (0.30 to 0.46) |
| 64 | 100 B | ours | 0.10 (0.10 to 0.10) |
"""


class Figures(Case):
    def setUp(self) -> None:
        room = tempfile.TemporaryDirectory()
        self.addCleanup(room.cleanup)
        self.root = os.path.join(room.name, "tree")
        state = mock.patch.dict(os.environ, {"XDG_STATE_HOME": os.path.join(room.name, "state")})
        few = mock.patch.multiple(ratios, SECTIONS=SECTIONS, STAYING=("stays",))
        state.start()
        self.addCleanup(state.stop)
        few.start()
        self.addCleanup(few.stop)
        write(f"{self.root}/crates.txt", b"a:\n")
        write(f"{self.root}/lambda_local", b"#!/bin/sh\necho /the/program\n", 0o755)
        commit(self.root)

    def change(self, path: str, text: str) -> str:
        """Commits another text of a file. Returns the commit."""
        write(f"{self.root}/{path}", text.encode())
        commit(self.root)
        return refusals.git(self.root, "rev-parse", "--short=8", "HEAD")

    def bench(self, name: str, python: str) -> None:
        write(f"{self.root}/bench/{name}", f"import sys\n{python}\n".encode())

    def refusal(self, cell: str, page: str = PAGE) -> str:
        """The faults of a page with another cell in place of the first ratio."""
        return "; ".join(ratios.faults(page.format("a" * 8, "b" * 8).replace("0.72 (0.60 to 0.80)", cell)))

    def test_the_page_is_read_strictly(self) -> None:
        self.check("its ratios", ratios.of_page(PAGE, "one"),
                   {"callers 1, payload 100 B, rate / C": Ratio(.72, .6, .8),
                    "callers 1, payload 100 B, rate / Go": Ratio(1.5, 1.4, 1.6),
                    "callers 8, payload 100 B, rate / C": Ratio(.5, .45, .55)})
        self.check("by their columns, wherever these are", ratios.of_page(PAGE, "two"),
                   {"callers 1, payload 1 MB, rate / C": Ratio(1000.5, 900, 1100)})
        self.check("as it is", self.refusal("0.72 (0.60 to 0.80)"), "")
        for cell in ("0.72", "0.72 (0.60)", "0.72 (0.60 to x)", "about 0.72 (0.60 to 0.80)", "0.72 (0.60 to 0.80) now"):
            self.check(f"{cell!r} is refused", self.refusal(cell),
                       f"'one': {cell!r} is not a ratio with its least and greatest")
        for cell in ("0.72 (0.73 to 0.80)", "0.72 (0.60 to 0.71)"):
            self.check(f"{cell!r} is refused", self.refusal(cell),
                       f"'one': {cell!r} does not lie between its least and greatest")
        self.check("a cell too many", "6 cells, and the head has 5" in self.refusal("0.72 | 0.60"))
        bare = PAGE.replace("|---|---|\n", "")
        self.check("no line below a head", "no line below its head" in self.refusal("", bare))
        self.check("two columns of one name", self.refusal("", PAGE.replace("| a second |", "| payload |")),
                   "'one': two columns are 'payload'")
        twice = PAGE.replace("| 8 | 100 B", "| 1 | 100 B")
        self.check("two ratios of one row", self.refusal("0.7 (0.6 to 0.8)", twice),
                   "'one': two ratios of callers 1, payload 100 B, rate / C")
        self.check("no ratios", self.refusal("", PAGE.replace("| callers |", "| caller |", 1)),
                   "'one' has no table with callers, payload and a ratio")
        self.check("no commit", self.refusal("", PAGE.replace("at {} -->\n\n| aim", "-->{}\n\n| aim")),
                   "'one' has not one line <!-- measured at COMMIT -->")
        self.check("a section is gone", self.refusal("", PAGE.replace("## stays", "stays")), "there is no 'stays'")

    def test_a_ratio_has_left_its_bracket_if_each_run_lies_outside(self) -> None:
        page = Ratio(.7, .6, .8)
        for now, has_left in ((Ratio(.7, .7, .7), False), (Ratio(.5, .4, .6), False), (Ratio(.9, .8, .9), False),
                              (Ratio(.5, .4, .59), True), (Ratio(.9, .81, .9), True), (Ratio(.9, .1, 2), False)):
            self.check(f"{now} beside {page}", now.has_left(page), has_left)
        found = ratios.ratios_of(TABLE, SECTIONS["one"].tables)
        self.check("those of a bench, and what the page does not have is passed over",
                   [*ratios.left(ratios.of_page(PAGE, "one"), found)],
                   ["callers 1, payload 100 B, rate / C 0.55 (0.50 to 0.59), page 0.72 (0.60 to 0.80): left its "
                    "bracket"])

    def test_a_bench_is_run(self) -> None:
        for what, python, fault, is_failure in (
                ("a table", f"print({TABLE!r})", "", False),
                ("no ratio", "print('| callers |\\n|---|')", "bench/one printed no ratio", True),
                ("another form", "print('| callers |\\n| 1 |')", "bench/one printed what cannot be read: a table has "
                 "no line below its head: '| callers |\\n| 1 |\\n'", True),
                ("a failure", "sys.exit('bench: it failed')", "bench/one ended with status 1: bench: it failed", True),
                ("a busy machine", "sys.stderr.write('bench: 2 failed'); sys.exit(75)",
                 "bench/one ended with status 75: bench: 2 failed", False),
                ("too long", "import time; time.sleep(60)", "bench/one had not ended within 1 s", False)):
            self.bench("one", python)
            with mock.patch.object(ratios, "LONGEST", 1 if what == "too long" else 60):
                made = ratios.measured(self.root, "one", "/the/program")
            self.check(what, (made.fault, made.is_failure, len(made.ratios)), (fault, is_failure, 0 if fault else 3))
        self.bench("one", f"print({TABLE!r} if sys.argv[1:] == ['--quick', '/the/program'] else sys.argv)")
        self.check("with the program", len(ratios.measured(self.root, "one", "/the/program").ratios), 3)
        with mock.patch.dict(os.environ, PATH="/nowhere"):
            self.check("what it needs is not here", ratios.measured(self.root, "one", ""),
                       ratios.Measured({}, 0, "no sh is here"))

    def dated(self) -> List[str]:
        """A repository whose page has a section of the first commit and one of the second. Its four commits."""
        first = self.change("crates/a/src/lib.rt", "1")
        second = self.change("crates/a/src/lib.rt", "2")
        page = self.change(ratios.PAGE, PAGE.format(second, first))
        return [first, second, page, self.change("crates/a/src/lib.rt", "3")]

    def test_the_stalest_section_comes_first(self) -> None:
        first, second, _, last = self.dated()
        page = records.text_of(f"{self.root}/{ratios.PAGE}")

        def order(**table: Noted) -> List[str]:
            return ratios.stalest(self.root, page, table)
        self.check("by the page", order(), ["two", "one"])
        self.check("by what is noted", order(two=Noted(last, 1, 1)), ["one", "two"])
        self.check("an earlier note changes nothing", order(one=Noted(first, 1, 1)), ["two", "one"])
        self.check("nor one of another history", order(two=Noted("0123456789", 1, 1)), ["two", "one"])
        self.check("one without a commit is the first", ratios.stalest(self.root, page.replace(second, "x"), {}),
                   ["one", "two"])

    def test_what_is_noted_comes_into_the_tree(self) -> None:
        first, second, _, last = self.dated()
        ratios.note("one", Noted(second, 2, 3))
        ratios.note("two", Noted(last, 1, 1))
        told = [*gate_record.keep_in_tree(self.root, records.folder())]
        self.check("told", told, [f"{ratios.NOTED}: one, two"])
        noted = f"one: {second} 2 of 3\ntwo: {last} 1 of 1\n"
        self.check("kept", records.text_of(f"{self.root}/{ratios.NOTED}"), noted)
        ratios.note("one", Noted(first, 3, 3))
        self.check("an earlier one is not", [*gate_record.keep_in_tree(self.root, records.folder())], [])
        for line in ("three: 01234567 1 of 1", "one: 01234567 4 of 3", "one: it 1 of 1", "one 01234567 1 of 1", ""):
            write(f"{self.root}/{ratios.NOTED}", f"{noted}{line}\n".encode())
            self.check(f"{line!r} is refused", [*evidence.mismeasured(self.root)],
                       [f"{ratios.NOTED}:3: {line!r} is not TITLE: COMMIT N of M, of a section that is measured"])

    def test_how_old_figures_may_be(self) -> None:
        first, second, _, last = self.dated()
        one, two = (f"{ratios.PAGE}: {it}" for it in SECTIONS)
        self.check("by the page", [*evidence.ages(self.root)], [(one, second), (two, first)])
        ratios.note("two", Noted(last, 0, 1))
        self.check("by what a gate has measured", [*evidence.ages(self.root)], [(one, second), (two, last)])
        found = {name: bool(fault) for name, fault in evidence.too_old(self.root, 30, 0) if ratios.PAGE in name}
        self.check("one commit since changed a crate, and none", found,
                   {f"{one}: its age": True, f"{two}: its age": False})
        ratios.note("one", Noted(first, 0, 3))
        told = [it for it in evidence.ages_of_figures(self.root) if "gate" in it]
        self.check("what a gate has found since the page's commit is told", told, [
            f"{ratios.PAGE}, two: 0 of 1 ratios were in their brackets when a gate measured them, at {last}, 0 commits "
            "ago, 0 of which changed sources of crates"])
        with mock.patch.object(ratios, "STAYING", ("one", "two")):
            self.check("a section that stays has no greatest age", [*evidence.ages(self.root)], [])
        for words, wanted in (("more than 30 commits ago, more than 100 commits, more than 30 such commits", 0),
                              ("more than 30 commits ago", 1), ("more than 30 commits, more than 200 commits", 1)):
            self.check(f"{words!r}", len([*evidence.limits(self.root, words)]), wanted)

    def test_a_bench_ends_with_what_has_started_it(self) -> None:
        self.dated()
        self.bench("one", "import os, time\nopen('here', 'w').write(str(os.getpid()))\ntime.sleep(60)")
        script = ("import signal, sys; signal.signal(signal.SIGTERM, lambda *_: sys.exit(143)); "
                  "from tests.library import ratios; ratios.SECTIONS['one'] = ratios.Section(('bench/one',), (), ()); "
                  f"ratios.measured({self.root!r}, 'one', '')")
        with subprocess.Popen([sys.executable, "-c", script], cwd=ROOT) as ran:
            end = time.monotonic() + 60
            while not records.text_of(f"{self.root}/here") and time.monotonic() < end:
                time.sleep(0.05)
            ran.send_signal(signal.SIGTERM)
            status = ran.wait(60)
        self.check("by a signal", (status, os.path.exists(f"/proc/{records.text_of(f'{self.root}/here')}/cmdline")),
                   (143, False))

    def figures(self) -> ModuleType:
        module = module_of("tests", "figures")
        setattr(module, "ROOT", self.root)
        self.addCleanup(signal.signal, signal.SIGTERM, signal.getsignal(signal.SIGTERM))
        return module

    def ran(self, *words: str) -> List[str]:
        """What the command prints, and its status."""
        printed = io.StringIO()
        with mock.patch.multiple(counted, passed=0, failed=0), contextlib.redirect_stdout(printed):
            status = self.figures().main([*words])
        return [*printed.getvalue().splitlines(), f"status {status:d}"]

    def test_a_gate_measures_the_stalest(self) -> None:
        *_, last = self.dated()
        self.bench("one", f"print({TABLE!r})")
        rows = "| callers | payload | rate / C |", "|---|---|---|", "| 1 | 1 MB | 1,000 (900 to 1,200) |"
        self.bench("two", f"print(*{rows}, sep='\\n')")
        commit(self.root)
        with mock.patch.object(ratios, "cpu_seconds", mock.Mock(side_effect=[0, 130] * 8)):
            first, second = self.ran(), self.ran()
            last = refusals.git(self.root, "rev-parse", "--short=8", "HEAD")
            self.check("the one of the earlier commit, and no further one when its CPU seconds are spent", first,
                       [f'ok   {ratios.PAGE}, "two": 1 of 1 ratios are in their brackets, 0 were not measured (130 s)',
                        "1 passed, 0 failed", "status 0"])
            self.check("then the other, whose ratio has left its bracket: a note", second, [
                f'note {ratios.PAGE}, "one": callers 1, payload 100 B, rate / C 0.55 (0.50 to 0.59), page 0.72 (0.60 '
                "to 0.80): left its bracket",
                f'ok   {ratios.PAGE}, "one": 1 of 2 ratios are in their brackets, 1 were not measured (130 s)',
                "1 passed, 0 failed", "status 0"])
            self.check("both are noted", ratios.noted_here(), {"one": Noted(last, 1, 2), "two": Noted(last, 1, 1)})
            self.bench("two", "sys.exit('bench: it failed')")
            changed = self.ran("two")
        self.check("a bench that does not work is a failure, and nothing is noted of another bench", changed, [
            "note nothing is noted: crates, tools, benches or the page differ from the commit",
            f'note {ratios.PAGE}, "two": measured once more, since bench/two ended with status 1: bench: it failed',
            f'FAIL {ratios.PAGE}, "two": 0 of 0 ratios are in their brackets, 1 were not measured (130 s)',
            "     bench/two ended with status 1: bench: it failed", "0 passed, 1 failed", "status 1"])

    def test_what_is_not_here_fails_nothing(self) -> None:
        self.dated()
        with mock.patch.object(ratios, "measured", return_value=ratios.Measured({}, 0, "no cc is here")):
            self.check("a compiler", self.ran(), [
                *(f'note {ratios.PAGE}, "{it}": not measured: no cc is here' for it in ("two", "one")),
                "0 passed, 0 failed", "status 0"])
        write(f"{self.root}/lambda_local", b"#!/bin/sh\nexit 4\n", 0o755)
        self.check("a program", self.ran(), ["note no figures are measured: no program of these sources is here",
                                             "0 passed, 0 failed", "status 0"])
        write(f"{self.root}/lambda_local", b"#!/bin/sh\necho it\n", 0o755)
        with self.assertRaises(SystemExit) as ended:
            self.ran("three")
        self.check("another title", "no section that is measured has this title: three" in str(ended.exception))


if __name__ == "__main__":
    unittest.main()
