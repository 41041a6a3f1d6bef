"""Checks what lambda_local conformance says: which part of a scenario a FAIL shows, which FAILs are told once, what the
program wrote, and the documents. The program is LAMBDA_LOCAL_PROGRAM, else ./lambda_local."""
import functools
import os
import re
import subprocess
import sys
import tempfile
import time
import xml.etree.ElementTree as xml
from types import SimpleNamespace
from typing import Any, cast

from lambda_conformance import causes, documents, pages, report, sometimes
from lambda_conformance.exchanges import Exchange as Refused
from lambda_conformance.kit import (FAIL, NOTE, NOTHING_SEEN, PASS, SHOULD, Came, Check, Jury, Missing, Scenario,
                                    Verdict, deed, finding)
from lambda_conformance.process import Process
from lambda_conformance.stage import Answer, Stage
from tests import ROOT
from tests.library.cases import Case

PROGRAMS = os.path.join(ROOT, "conformance", "programs", "wrong")
HANDLERS = os.path.join(ROOT, "examples", "conformance")
PYTHON = [sys.executable, "-S"]  # (it starts in half the time)


class Run:
    """A finished run of the kit."""

    def __init__(self, *words):
        done = subprocess.run([*PYTHON, os.path.join(ROOT, "tools"), "conformance", *words], cwd=HANDLERS,
                              capture_output=True, text=True, timeout=600)
        self.words, self.status, self.output, self.errors = words, done.returncode, done.stdout, done.stderr

    def verdicts(self, outcome):
        return set(re.findall(rf"^{outcome}  (\w+)", self.output, re.MULTILINE))

    def told(self, passed):
        if not passed:
            print(self.words, self.output, self.errors, flush=True)


def program(name):
    return os.path.join(PROGRAMS, name)


def lacks(what: str, status: int) -> Came:
    """What did not come from a process that ended with this status."""
    process = SimpleNamespace(ended=True, status=status)
    process.kind_of_end = functools.partial(Process.kind_of_end, process)
    return Stage.lacks(SimpleNamespace(  # type: ignore[arg-type]
        ended=functools.partial(Process.how_it_ended, process), environment=SimpleNamespace(process=process)), what)


def verdict(outcome: str, came: Came, name: str = "one", cause: str = "", asked: str = "") -> Verdict:
    check = Check(name, pages.RESPONSE, "it is so")
    return Verdict(check, "scenario", outcome, finding(came), 1.0, NOTHING_SEEN._replace(cause=cause, asked=asked))


class OneCause(Case):
    def told(self, *fails):
        """The checks whose FAILs are told, of those with what came and the cause that the connections show."""
        found = causes.Causes()
        return [name for name, came, cause in fails if found.known(verdict(FAIL, came, name, cause)) is None]

    def test_fails_of_one_cause(self):
        for name, fails, wanted in (
                ("a program that never ends",
                 (("ends_at_spindown", "it still ran", ""), ("crash_noticed", "it runs", ""),
                  ("ends_at_500", "it runs on", ""), ("refused_next", "neither", "")),
                 ["ends_at_spindown"]),
                ("an answer that is sent twice", (("responds_once", "responses to each: [2]", ""),
                                                  ("after_error", deed("answered twice: POST", "responds_once"), "")),
                 ["responds_once"]),
                ("a second poll", (("one_poll", "a second Next", "there is a second Next while one waits"),
                                   ("many_events", "it took none", "there is a second Next while one waits")),
                 ["one_poll"]),
                ("telemetry that it cannot read", (("takes_telemetry", "it has ended", ""),
                                                   ("takes_dropped", "alone it is not answered", "")),
                 ["takes_telemetry"]),
                ("the same words with other numbers", (("one", lacks("no Next", 1), ""),
                                                       ("two", lacks("no Next", 2), "")), ["one"]),
                ("an end by itself, and one by a signal", (("one", lacks("no Next", 1), ""),
                                                           ("two", lacks("no Next", -9), "")), ["one", "two"]),
                ("two causes", (("utf8", "the caller received ?", ""), ("ends_at_sigterm", "it runs", "")),
                 ["utf8", "ends_at_sigterm"])):
            self.check(f"{name}: one FAIL for each cause", self.told(*fails), wanted)

    def test_why_a_fail_is_not_told(self):
        """A cause is named as one only if the connections show it: the same words may have several."""
        shown = "a body is longer than its length says"
        for name, fails, wanted in (
                ("a cause that the connections show", (("utf8", "nothing came", shown, "echo"),
                                                       ("kinds", "null came", shown, "echo")), causes.Because.CAUSE),
                ("a check that builds on another", (("utf8", "null came", "", "bytes"),
                                                    ("escapes", "{} came", "", "echo")), causes.Because.BUILDS),
                ("the same words, with other numbers", (("memory", lacks("no Next", 1), "", "echo"),
                                                        ("stdout", lacks("no Next", 2), "", "echo")),
                 causes.Because.WORDS),
                ("the same words about another request of the handler",
                 (("utf8", "the caller received null", "", "bytes"),
                  ("request_id", "the caller received null", "", "context")), None)):
            found = causes.Causes()
            known = [found.known(verdict(FAIL, came, check, cause, asked)) for check, came, cause, asked in fails][-1]
            self.check(f"{name}: why the second is not told", known and known.because, wanted)

    def test_what_a_busy_machine_may_be_the_reason_of(self):
        def answer(report: bytes) -> Answer:
            return Answer(200, {"x-amz-function-error": "Unhandled"}, report)
        for name, came, is_its_own in (
                ("an output", Answer(200, {}, b"17").came(), True),
                ("an error of the handler's", answer(b'{"errorType":"OutOfCheese"}').came(), True),
                ("a timeout", answer(b'{"errorType":"Function.Timeout"}').came(), False),
                ("an end", answer(b'{"errorType":"Runtime.ExitError"}').came(), False),
                ("what did not come", Missing("no Next within 10 s").finding, False)):
            self.check(f"{name} is {'' if is_its_own else 'not '}what the program did", came.is_deed, is_its_own)
        for status, is_wrong in ((400, True), (404, True), (403, False), (500, False), (202, False)):
            one = SimpleNamespace(status=status)
            self.check(f"a request that is answered {status} is {'' if is_wrong else 'not '}wrong in itself",
                       Refused.is_wrong.fget(one), is_wrong)  # type: ignore[attr-defined]

    def test_many_lines(self):
        self.check("lines that are the same are one line", report.shortened(["a", "b", "b", "b", "a"]),
                   ["a", "b (3 times)", "a"])
        told = report.shortened(map(str, range(5000)))
        self.check("of many there are the first and the last", (len(told), told[0], told[-1]), (25, "0", "4999"))
        self.check("of which there are more", told[-16:], [str(number) for number in range(4984, 5000)])

    def test_what_is_seen_once(self):
        failed, passed = verdict(FAIL, "the caller received 1"), verdict(PASS, "")
        own = sometimes.judged(failed, passed, 5, True)
        self.check("what shows once is a FAIL that says so", (own.outcome, own.came),
                   (FAIL, "in 1 of 6 runs: the caller received 1"))
        self.check("what others disturb is a NOTE", sometimes.judged(failed, passed, 5, False).outcome, NOTE)


class Witness:
    """A stage that has last acted at some moment, and shows the moments of which it is asked."""

    def __init__(self) -> None:
        self.acted = time.monotonic()

    def act(self) -> float:
        time.sleep(0.002)
        self.acted = time.monotonic()
        time.sleep(0.002)
        return self.acted

    def has_acted_since(self, moment: float) -> bool:
        return self.acted > moment

    def seen(self, begin: float, end: float):
        return NOTHING_SEEN._replace(wire=(begin, end))  # type: ignore[arg-type]  # (the moments alone are looked at)


class Parts(Case):
    """What a FAIL shows begins with the first call of its own check, and ends with the last one."""

    def test_parts(self):
        checks = tuple(Check(name, pages.RESPONSE, "it is so") for name in ("one", "two", "three", "four"))
        jury, witness = Jury(Scenario("scenario", checks, lambda stage: None, {})), Witness()
        jury.witness = witness
        first = witness.act()
        jury.judge("one", PASS, "")
        second = witness.act()
        jury.judge("two", FAIL, "wrong")
        jury.judge("three", FAIL, "wrong too")
        third = witness.act()
        jury.judge("four", PASS, "")
        fourth = witness.act()
        jury.judge("four", FAIL, "wrong after all")
        parts = {name: jury.verdicts[name].seen.wire for name in ("two", "three", "four")}

        def has(name, *moments):
            begin, end = parts[name]
            return [begin < moment < end for moment in moments]
        self.check("of one of several checks, its own calls alone", has("two", first, second, third),
                   [False, True, False])
        self.check("of one that is judged with another, the same calls", has("three", first, second, third),
                   [False, True, False])
        self.check("of one that is judged twice, all its calls", has("four", second, third, fourth),
                   [False, True, True])

    def test_what_it_wrote(self):
        with tempfile.TemporaryFile() as file:
            for written, wanted in ((b"", []), (b"one\n\n  two\x1b[1m\n", ["one", "  two\\x1b[1m"]),
                                    (b"".join(b"line %d\n" % number for number in range(5000)),
                                     [f"line {number}" for number in range(4990, 5000)]),
                                    (b"x" * 5000, ["x" * 200 + "\u2026"])):
                file.seek(0)
                file.truncate()
                file.write(written)
                file.flush()
                process = SimpleNamespace(output=file)
                self.check(f"the last lines of {len(written)} bytes", Process.last_lines(cast(Process, process), 10),
                           wanted)


class Pages(Case):
    """What a program sends cannot do anything to the documents."""

    def test_marks(self):
        sent = "a | b <script> `c` *d* [e](f)\n# g \x1b[31m $h$ & \\"
        told = documents.page("conformance runtime: x|y", [verdict(FAIL, sent), verdict(PASS, "", "two")])
        row, = (line for line in told.splitlines() if line.startswith("| `one`"))
        self.check("a cell is one cell", len(re.findall(r"(?<!\\)\|", row)), 5)
        self.check("and has no marks of its own", re.findall(r"(?<!\\)[<>*`#]", row.split(" | ")[2]), [])
        self.check("nor control characters", "\x1b" in told, False)
        self.check("a long text is cut", len(documents.cell("x" * 5000)) < 310)

    def test_badges(self):
        passed, failed, should = verdict(PASS, ""), verdict(FAIL, "x"), verdict(SHOULD, "x")
        verdicts: Any
        for verdicts, wanted in (([passed] * 3, "Lambda runtime: 3 of 3 passed"),
                                 ([passed, should], "Lambda runtime: 1 of 2 passed, 1 should"),
                                 ([passed, failed, failed], "Lambda runtime: 2 failed"),
                                 ([], "Lambda runtime: not tested")):
            drawn = xml.fromstring(documents.badge("runtime", verdicts))
            self.check(wanted, drawn.get("aria-label"), wanted)


class Reports(Case):
    def test_documents(self):
        with tempfile.TemporaryDirectory() as folder:
            paths = {name: os.path.join(folder, name) for name in ("report.md", "badge.svg")}
            run = Run("runtime", "--only", "error_type", "--only", "stdout", "--only", "numbers", "--markdown",
                      paths["report.md"], "--badge", paths["badge.svg"], "--", *PYTHON, program("wrong_runtimes.py"),
                      "LosesTheErrorType")
            with open(paths["report.md"], encoding="utf-8") as file:
                lines = file.read().splitlines()
            self.check("the page begins with what was tested", lines[0].startswith("# conformance runtime: "))
            self.check("it counts the verdicts",
                       lines[2].endswith(": 1 of 3 checks passed, 1 failed, 0 should, 1 noted."))
            rows = [line.split(" | ") for line in lines if line.startswith("| `")]
            self.check("what did not pass is a table, the worst first", [row[:2] for row in rows],
                       [["| `error_type`", "FAIL"], ["| `numbers`", "NOTE"]])
            self.check("with pages", "(https://docs.aws.amazon.com/lambda/latest/dg/runtimes-api.html)" in rows[0][3])
            self.check("what passed is named", lines[-1], "Passed: `stdout`.")
            drawn = xml.parse(paths["badge.svg"]).getroot()
            self.check("the badge is an SVG", (drawn.tag.rpartition("}")[2], drawn.get("aria-label")),
                       ("svg", "Lambda runtime: 1 failed"))
            run.told(run.status == 1)

    def test_a_failure_shows_its_own_part(self):
        """Of a scenario of seven checks one after the other, a FAIL of the fifth shows its calls and no others."""
        run = Run("runtime", "--only", "without_trace", "--", *PYTHON, program("wrong_runtimes.py"), "NeedsATrace")
        _, _, drawn = run.output.partition("      timeline\n")
        self.check("its two invocations are drawn", [one for one in re.findall(r"caller 1: invoke .* bytes?: (\S+),",
                                                                              drawn)],
                   ['{"do":"echo","value":1}', '{"do":"context","value":0}'])
        delivered = re.findall(r"next, call \d+, answered .*: deliver request (\d+)", drawn)
        answered = re.search(r"^      wire      last: POST \S*/invocation/\S*-([0-9a-f]+)/error -> 202$", run.output,
                             re.MULTILINE)
        self.check("the last exchange is its own", answered and str(int(answered[1], 16)), delivered[-1])
        run.told(answered is not None)

    def test_what_it_wrote_is_shown(self):
        lines = ("import sys", f"sys.path.insert(0, {PROGRAMS!r})", "from sound_runtime import Runtime",
                 "Runtime.respond = lambda *_: sys.exit('\\n'.join('abcdefghijk'))", "Runtime().run()")
        run = Run("runtime", "--", *PYTHON, "-c", "; ".join(lines))
        wrote = run.output.partition("      wrote\n")[2].splitlines()[:10]
        self.check("a FAIL has the last ten lines that the program wrote", [line.strip() for line in wrote],
                   list("bcdefghijk"))
        run.told(len(wrote) == 10)

    def test_what_saw_nothing_passes_nothing(self):
        run = Run("runtime", "--only", "failing_init", "--", "sh", "-c",
                  f"case $_HANDLER in failing.*) exit 1;; esac; exec {' '.join(PYTHON)} {program('sound_runtime.py')}")
        self.check("without init/error its end is a NOTE", (run.verdicts("FAIL"), run.verdicts("NOTE"),
                                                            run.verdicts("PASS")),
                   ({"init_error"}, {"init_error_ends"}, set()))
        run.told(run.status == 1)
