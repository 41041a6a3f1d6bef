"""JUnit XML, as CI systems read it: one suite of a tool's run.

    suite = Suite("conformance runtime")
    suite.case("errors", "error_type", seconds=0.2)
    suite.case("errors", "error_message", seconds=0.2, failure="expected ..", details="the timeline ..")
    suite.write("report.xml")"""
from typing import List, NamedTuple, Optional
from xml.sax.saxutils import escape, quoteattr

from .outgoing import written
from .service import Fault


class Case(NamedTuple):
    group: str
    name: str
    seconds: float
    failure: Optional[str]
    details: str
    skipped: Optional[str]
    output: str


class Suite:
    """The cases of one run, in order."""

    def __init__(self, name: str) -> None:
        self.name = name
        self.cases: List[Case] = []
        self.seconds: Optional[float] = None

    def case(self, group: str, name: str, seconds: float = 0.0, failure: Optional[str] = None, details: str = "",
             skipped: Optional[str] = None, output: str = "") -> None:
        """Adds a case: passed, or with a `failure` (a line) and its `details`, or `skipped` for a reason."""
        self.cases.append(Case(group, name, seconds, failure, details, skipped, output))

    def text(self) -> str:
        failed = sum(case.failure is not None for case in self.cases)
        skipped = sum(case.skipped is not None for case in self.cases)
        total = sum(case.seconds for case in self.cases) if self.seconds is None else self.seconds
        head = (f"<testsuite name={attribute(self.name)} tests=\"{len(self.cases)}\" failures=\"{failed}\" "
                f"errors=\"0\" skipped=\"{skipped}\" time=\"{total:.3f}\">")
        return "\n".join(['<?xml version="1.0" encoding="UTF-8"?>', "<testsuites>", head, *map(self._case, self.cases),
                          "</testsuite>", "</testsuites>", ""])

    @staticmethod
    def _case(case: Case) -> str:
        group, name, seconds, failure, details, skipped, output = case
        lines = [f"  <testcase classname={attribute(group)} name={attribute(name)} time=\"{seconds:.3f}\">"]
        if failure is not None:
            lines.append(f"    <failure message={attribute(failure)}>{content(details)}</failure>")
        if skipped is not None:
            lines.append(f"    <skipped message={attribute(skipped)}/>")
        if output:
            lines.append(f"    <system-out>{content(output)}</system-out>")
        return "\n".join([*lines, "  </testcase>"])

    def write(self, path: str, has_payloads: bool = False) -> None:
        """Writes the file whole or not at all."""
        try:
            with written(path, has_payloads) as file:
                file.write(self.text())
        except OSError as fault:
            raise Fault(2, f"--junit {path}: {fault.strerror}: name a file in a folder that can be written") from None


def allowed(text: str) -> str:
    """The text without what XML 1.0 cannot hold."""
    return "".join(letter if letter in "\t\n" or 0x20 <= ord(letter) < 0xD800 or 0xE000 <= ord(letter) < 0xFFFE
                   or ord(letter) > 0xFFFF
                   else "\N{REPLACEMENT CHARACTER}" for letter in text)


def content(text: str) -> str:
    return escape(allowed(text))


def attribute(text: str) -> str:
    return quoteattr(allowed(text), {"\n": "&#10;", "\t": "&#9;"})
