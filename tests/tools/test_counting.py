"""Checks tests/library/counted.py and cases.py, by which all other tests check: what they must not take for a success,
what they say then, and that a check which fails hides none of the next."""
import subprocess
import sys

from tests import ROOT
from tests.library import tool_tests
from tests.library.cases import Case

# Arguments of a check, the last line of a run of it alone, and words of what it prints.
CHECKS = (
    ("1 < 2", "1 passed, 0 failed", "ok   it"),
    ("2 < 1", "0 passed, 1 failed", "seen   False"),
    ("2 < 1, shown=[7]", "0 passed, 1 failed", "[7]"),
    ("False, False", "1 passed, 0 failed", "ok   it"),
    ("2 < 1 or 1", "0 passed, 1 failed", "it: 1 is not a Boolean"),
    ("2 < 1 or 'words'", "0 passed, 1 failed", "it: 'words' is not a Boolean"),
    ("[]", "0 passed, 1 failed", "it: [] is not a Boolean"),
    ("None, False", "0 passed, 1 failed", "it: None is not a Boolean"),
    ("0, False", "0 passed, 1 failed", "it: 0 is not a Boolean"),
    ("1.0, True", "0 passed, 1 failed", "it: 1.0 is not a Boolean"),
    ("True, 1", "0 passed, 1 failed", "wanted 1"),
    ("False, 0", "0 passed, 1 failed", "wanted 0"),
    ("[1, 2], [1, 2]", "1 passed, 0 failed", "ok   it"),
    ("[1], [2]", "0 passed, 1 failed", "wanted [2]"),
    ("None, None", "1 passed, 0 failed", "ok   it"),
)
COUNTED = ("import sys\nfrom tests.library import counted\ndef part(): counted.check('it', {})\n"
           "sys.exit(counted.run(part))")
# What another run has printed, the last line of one that counts its checks, and words of what is printed.
OTHERS = (
    ("ok   one\nok   two\n2 passed, 0 failed\n", "3 passed, 0 failed", "ok   one\nok   two\nok   it\n"),
    ("FAIL one\n     seen 1\n0 passed, 1 failed", "1 passed, 1 failed", "FAIL one\n     seen 1\nok   it\n"),
    ("ok   one\n", "0 passed, 1 failed", "FAIL it\n     ok   one\n"),
    ("1 passed, 0 failed\nTerminated\n", "0 passed, 1 failed", "1 passed, 0 failed\nFAIL it\n     Terminated\n"),
    ("", "0 passed, 1 failed", "FAIL it\n     it says nothing\n"),
)
OTHER = "import sys\nfrom tests.library import counted\ncounted.check_run('it', {!r})\nsys.exit(counted.end())"
OPENING = "import unittest\nfrom tests.library.cases import Case\nclass It(Case):\n"
CASE = OPENING + "    def test_it(self): self.check('it', {})\nunittest.main()"
# Tests, and the last line of their run with words of what they print.
TESTS = (
    ("    def test_it(self):\n        self.check('one', 1, 2)\n        self.check('two', 2, 2)\n", 1,
     "1 passed, 1 failed", ("FAIL one", "ok   two")),
    ("    def test_it(self):\n        self.check('one', 1, 1)\n        raise KeyError('no')\n"
     "    def test_others(self): self.check('two', 2, 2)\n", 1, "2 passed, 1 failed",
     ("FAIL test_it runs to its end", "KeyError: 'no'", "ok   two")),
    ("    def test_it(self): self.skipTest('no network')\n", 0, "0 passed, 0 failed",
     ("note test_it is skipped: no network",)),
    ("    def test_it(self): self.check('a list', list(range(40)), [*range(39), 41])\n", 1, "0 passed, 1 failed",
     ("FAIL a list", "First differing element 39:")),
    ("    prints_each = False\n    def test_it(self):\n        self.check('one', 1, 1)\n"
     "        self.check('two', 1, 2)\n", 1, "1 passed, 1 failed", ("FAIL two", "ok   test_it: 1")),
)
# A result that keeps none of unittest's lists, as pytest's, which it gives to each test.
BARE = OPENING + """    def test_it(self): self.check('one', 1, 1)
class Result:
    startTest = stopTest = addSuccess = addFailure = addError = addSkip = lambda *given: None
It('test_it').run(Result())
"""
# Three tests beside which something goes on, of which two are chosen.
BESIDE = """import unittest
from tests.library.cases import Beside, Case
def begins(name): return lambda: print("begun", name) or name
beside = Beside({name: begins(name) for name in "cba"})
load_tests = beside.load_tests
class It(Case):
    def test_a(self): self.check("a", beside.begun("a"), "a")
    def test_b(self): self.check("b", beside.begun("b"), "b")
    def test_c(self): self.check("c", beside.begun("c"), "c")
print("loaded")
unittest.main(argv=["it", "-k", "test_a", "-k", "test_b"])
"""
FOUND = """import threading, unittest
def ids(suite):
    return [name for one in suite for name in ([one.id()] if isinstance(one, unittest.TestCase) else ids(one))]
print('found', *sorted({name.split('.')[2] for name in ids(unittest.defaultTestLoader.discover('.'))}))
print('threads:', threading.active_count())
"""


def run(program: str) -> "tuple[int, list[str], str]":
    """The status of a program, the last line, and all that it prints."""
    done = subprocess.run([sys.executable, "-c", program], cwd=ROOT, stdout=subprocess.PIPE, stderr=subprocess.DEVNULL,
                          text=True)
    return done.returncode, done.stdout.splitlines()[-1:], done.stdout


class Counting(Case):
    def what_passes(self, name: str, program: str) -> None:
        for arguments, last, words in CHECKS:
            status, seen, printed = run(program.format(arguments))
            self.check(f"{name}(.., {arguments})", (status, seen, words in printed),
                       (int("1 failed" in last), [last], True), shown=printed)

    def test_a_check_counts_what_holds_and_says_what_does_not(self) -> None:
        self.what_passes("check", COUNTED)

    def test_a_check_of_a_case_does_so_too(self) -> None:
        self.what_passes("Case.check", CASE)

    def test_a_check_that_fails_hides_none_of_the_next(self) -> None:
        for test, wanted, last, words in TESTS:
            status, seen, printed = run(OPENING + test + "unittest.main()")
            self.check(f"a case: {words[0]}", (status, seen, [it for it in words if it not in printed]),
                       (wanted, [last], []), shown=printed)

    def test_the_checks_of_another_run_are_counted_if_it_came_to_its_end(self) -> None:
        for others, last, words in OTHERS:
            status, seen, printed = run(OTHER.format(others))
            self.check(f"another run: {others.splitlines()[-1:]}", (status, seen, words in printed),
                       (int("1 failed" in last), [last], True), shown=printed)

    def test_a_case_needs_no_lists_of_its_result(self) -> None:
        """A case under a result of pytest's."""
        status, last, printed = run(BARE)
        self.check("a case needs no lists of its result", (status, last), (0, ["1 passed, 0 failed"]), shown=printed)

    def test_what_goes_on_beside_the_chosen_tests_begins_before_them_and_once(self) -> None:
        self.check("what goes on beside two tests", run(BESIDE)[2].splitlines(),
                   ["loaded", "begun b", "begun a", "ok   a", "ok   b", "2 passed, 0 failed"])

    def test_unittest_discover_finds_each_file_of_tests(self) -> None:
        printed = run(FOUND)[2]
        found = {name for line in printed.splitlines() if line.startswith("found ") for name in line.split()}
        names = {module.rpartition(".")[2] for module in tool_tests.files(ROOT).values()}
        self.check("all files are found", sorted(it for it in names - found if it.startswith("test_")), [],
                   shown=printed)
        self.check("what goes on beside tests has not begun", "threads: 1" in printed.splitlines(), shown=printed)
