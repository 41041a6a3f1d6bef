"""A run as documents for people: a page in Markdown, and a badge.

    documents = Documents("conformance runtime", markdown="report.md", badge="badge.svg")
    documents.add(verdict)
    documents.write("conformance runtime: python3 runtime.py")"""
import os
import re
import time
from typing import Dict, List, Optional
from xml.sax.saxutils import escape

from lambda_local.outgoing import printable, written
from lambda_local.service import Fault

from .kit import FAIL, NOTE, PASS, SHOULD, Verdict

TOLD = (FAIL, SHOULD, NOTE)
MARKS = re.compile(r"([\\`*_{}\[\]<>|#~$&])")  # what a cell of a table, or a heading, could be read as
LETTER, HEIGHT, MARGIN = 6.6, 20, 6  # of the badge, in pixels
GREEN, YELLOW, RED, GREY = "#3a7d1e", "#8a6d00", "#b3261e", "#555"
LONGEST = 300  # letters of what came


class Documents:
    """The files that are asked for. A Fault if one cannot be written, before anything is tested."""

    def __init__(self, name: str, markdown: Optional[str], badge: Optional[str]) -> None:
        self.name, self.markdown, self.badge = name, markdown, badge
        self.verdicts: List[Verdict] = []
        for option, path in (("--markdown", markdown), ("--badge", badge)):
            if path and not os.access(os.path.dirname(os.path.abspath(path)), os.W_OK):
                raise Fault(2, f"{option} {path}: name a file in a folder that can be written")

    def add(self, verdict: Verdict) -> None:
        self.verdicts.append(verdict)

    def write(self, title: str) -> None:
        for path, text in ((self.markdown, page(title, self.verdicts)),
                           (self.badge, badge(self.name.rpartition(" ")[2], self.verdicts))):
            if path:
                try:
                    with written(path, has_payloads=False) as file:
                        file.write(text)
                except OSError as fault:
                    raise Fault(2, f"{path}: {fault.strerror}: name a file that can be written") from None


def counts_of(verdicts: List[Verdict]) -> Dict[str, int]:
    return {outcome: sum(one.outcome == outcome for one in verdicts) for outcome in (PASS, *TOLD)}


def page(title: str, verdicts: List[Verdict]) -> str:
    """The page: what is not a PASS as a table, with the public page of each, and then what passed."""
    counts = counts_of(verdicts)
    day = time.strftime("%d %B %Y", time.gmtime()).lstrip("0")
    lines = [f"# {cell(title)}", "", f"{day}: {counts[PASS]} of {len(verdicts)} checks passed, {counts[FAIL]} failed, "
             f"{counts[SHOULD]} should, {counts[NOTE]} noted.", ""]
    rows = [one for outcome in TOLD for one in verdicts if one.outcome == outcome]
    if rows:
        lines += ["| Check | Verdict | What came | Page |", "|---|---|---|---|"]
        lines += [f"| {code(one.check.name)} | {one.outcome} | {cell(one.came)} | [{cell(one.check.page.part)}]"
                  f"({one.check.page.address}) |" for one in rows]
        lines.append("")
    passed = [code(one.check.name) for one in verdicts if one.outcome == PASS]
    return "\n".join([*lines, f"Passed: {', '.join(passed) or 'nothing'}.", ""])


def cell(text: str) -> str:
    """A text as it is, in a cell of a table."""
    line = printable(text)
    return MARKS.sub(r"\\\1", line if len(line) <= LONGEST else f"{line[:LONGEST]}..")


def code(name: str) -> str:
    return f"`{name}`"


def badge(what: str, verdicts: List[Verdict]) -> str:
    """An SVG of two fields: what was tested, and how many checks have passed."""
    counts = counts_of(verdicts)
    right, colour = f"{counts[PASS]} of {len(verdicts)} passed", GREEN
    if counts[FAIL]:
        right, colour = f"{counts[FAIL]} failed", RED
    elif not verdicts:
        right, colour = "not tested", GREY
    elif counts[SHOULD]:
        right, colour = f"{right}, {counts[SHOULD]} should", YELLOW
    left = f"Lambda {what}"
    widths = [round(len(text) * LETTER + 2 * MARGIN) for text in (left, right)]
    label = escape(f"{left}: {right}", {'"': "&quot;"})
    return (f'<svg xmlns="http://www.w3.org/2000/svg" width="{sum(widths)}" height="{HEIGHT}" role="img" '
            f'aria-label="{label}">\n<title>{label}</title>\n{field(0, widths[0], GREY, left)}\n'
            f'{field(widths[0], widths[1], colour, right)}\n</svg>\n')


def field(begin: int, width: int, colour: str, text: str) -> str:
    return (f'<rect x="{begin}" width="{width}" height="{HEIGHT}" fill="{colour}"/>'
            f'<text x="{begin + width / 2:g}" y="14" fill="#fff" font-family="Verdana,DejaVu Sans,sans-serif" '
            f'font-size="11" text-anchor="middle" textLength="{width - 2 * MARGIN}">{escape(text)}</text>')
