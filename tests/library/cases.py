"""unittest cases whose checks are printed one by one and counted: one that fails hides none of the next. What a module
of them prints ends with the line 'N passed, M failed'."""
import atexit
import textwrap
import unittest
from typing import Any, Callable, Dict, Iterator, List, Optional, Tuple

from tests.library import counted

MOST_COMPARED = 2000  # characters of what is compared line by line


def names_of(tests: unittest.TestSuite) -> Iterator[str]:
    """The names of the tests of a suite, without `test_`."""
    for test in tests:
        if isinstance(test, unittest.TestSuite):
            yield from names_of(test)
        else:
            yield test.id().rpartition(".test_")[2]


class Beside:
    """What goes on beside all tests of a module for some of them: of each of these, by its name, what begins it. The
    module's `load_tests` is that of this."""

    def __init__(self, starts: Dict[str, Callable[[], Any]]) -> None:
        self.starts = starts
        self.going: Dict[str, Any] = {}

    def begun(self, test: str) -> Any:
        """What has begun for a test, which it does once."""
        if test not in self.going:
            self.going[test] = self.starts[test]()
        return self.going[test]

    def load_tests(self, _loader: object, chosen: unittest.TestSuite, _pattern: object) -> unittest.TestSuite:
        return Beginning(self, chosen)


class Beginning(unittest.TestSuite):
    """The chosen tests. Once they run, and not if they are only looked at, what goes on for them begins in the order in
    which it stands."""

    def __init__(self, beside: Beside, chosen: unittest.TestSuite) -> None:
        super().__init__(chosen)
        self.beside = beside

    def run(self, result: unittest.TestResult, debug: bool = False) -> unittest.TestResult:
        names = {*names_of(self)}
        for test in self.beside.starts:
            if test in names:
                self.beside.begun(test)
        return super().run(result, debug)


class Case(unittest.TestCase):
    """What a test does is seen in its checks. A class of very many says only how many of each test have passed."""

    maxDiff = None
    prints_each = True

    def check(self, name: str, seen: object, wanted: object = True, *, shown: object = None) -> None:
        """Checks in a subtest whether what was seen is what is expected, prints that, and counts it."""
        with self.subTest(name):
            try:
                self.compare(name, seen, wanted, shown)
            except Exception as fault:
                print("FAIL", name + "\n" + textwrap.indent(str(fault), "     "), flush=True)
                raise
            counted.passed += 1
            if self.prints_each:
                print("ok  ", name, flush=True)

    def compare(self, name: str, seen: object, wanted: object, shown: object) -> None:
        """Raises what differs, if anything does; of values of several lines or members, line by line."""
        fault = counted.difference(name, seen, wanted, shown)
        if fault is None:
            return
        are_alike = type(seen) is type(wanted) and isinstance(seen, (str, list, tuple, dict))
        if are_alike and 80 < len(fault) < MOST_COMPARED:
            self.assertEqual(seen, wanted, fault)
        self.fail(fault)

    def run(self, result: Optional[unittest.TestResult] = None) -> Optional[unittest.TestResult]:
        """Runs the test, counts what failed, and prints what ended it before its time, or why it was skipped."""
        result = self.defaultTestResult() if result is None else result
        before, skipped, checks = len(faults_of(result)), len(skipped_of(result)), counted.passed
        super().run(result)
        for _, reason in skipped_of(result)[skipped:]:
            print(f"note {self._testMethodName} is skipped: {reason}", flush=True)
        for test, trace in faults_of(result)[before:]:
            counted.failed += 1
            if test is self:
                print(f"FAIL {self._testMethodName} runs to its end\n" + textwrap.indent(trace, "     "), flush=True)
        if not self.prints_each:
            print(f"ok   {self._testMethodName}: {counted.passed - checks}", flush=True)
        return result


def faults_of(result: unittest.TestResult) -> List[Tuple[Any, str]]:
    """(pytest's result keeps its own account, and none of these lists)"""
    return [*getattr(result, "failures", []), *getattr(result, "errors", [])]


def skipped_of(result: unittest.TestResult) -> List[Tuple[Any, str]]:
    return getattr(result, "skipped", [])


atexit.register(counted.end)
