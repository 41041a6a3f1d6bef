"""Whether the ratios of docs/speed.md are still so. A gate measures sections of the page anew, in the quick form of
their benches: those whose claims are ratios of two measurements of one run, which a busy machine changes little. A
ratio has left its bracket if each of its runs lies outside, on the same side: a median of five alone lies beyond the
least or greatest of five others by chance, one time in six. When a section was last measured is noted as refused edits
are (tests/library/refusals.py): beside the gate's records, and by `tests/gate --keep` in the tree."""
import os
import re
import resource
import shutil
import subprocess
import sys
from typing import Dict, Iterator, List, NamedTuple, Optional, Tuple

from tests.library import records
from tests.library.refusals import git, place

PAGE = os.path.join("docs", "speed.md")
NOTED = os.path.join("bench", "measured.noted")
MARK = re.compile(r"^<!-- measured at ([0-9a-f]{7,40}) -->$", re.M)
LINE = re.compile(r"(.+): ([0-9a-f]{7,40}) (\d+) of (\d+)")
FIGURE = r"(\d[\d,]*(?:\.\d+)?)"
CELL = re.compile(rf"{FIGURE} \({FIGURE} to {FIGURE}\)(?:, aim .*)?")
LONGEST, ENDS = 400, 90  # seconds until a bench has ended, by itself and once it is ended


class Columns(NamedTuple):
    """The columns of a table of ratios, which a bench and the page have by the same names: those that name a row, and
    those of ratios. If there is a column as in `only`, the rows that have another word there are no rows of it."""
    keys: Tuple[str, ...]
    ratios: Tuple[str, ...]
    only: Tuple[str, str] = ("", "")


class Section(NamedTuple):
    """A section of the page: the command that measures it, in whose words PROGRAM is the program; the commands that it
    needs; its tables."""
    words: Tuple[str, ...]
    needs: Tuple[str, ...]
    tables: Tuple[Columns, ...]


class Ratio(NamedTuple):
    middle: float
    least: float
    most: float

    def has_left(self, bracket: "Ratio") -> bool:
        return self.least > bracket.most or self.most < bracket.least

    def __str__(self) -> str:
        return f"{self.middle:.2f} ({self.least:.2f} to {self.most:.2f})"


SECTIONS: Dict[str, Section] = {
    "A replay": Section(("bench/replay", "--quick", "--runs", "5", "PROGRAM"), (),
                        (Columns(("script",), ("CPU of a line, to the first",)),)),
    "The server": Section(
        ("bench/serve/run", "--quick", "--only", "round", "--runs", "5", "--processors", "shared", "PROGRAM"), ("cc",),
        (Columns(("environments", "payload"), ("rate / plain C", "rate / Go"), ("service", "lambda_local")),)),
    "The front of `up`": Section(
        ("bench/up/run", "--quick", "--runs", "5", "--runtimes", "command,python", "--callers", "1,8", "--sizes", "100",
         "--ways", "invoke", "--program", "PROGRAM"), ("cc",),
        (Columns(("runtime", "callers", "payload"), ("rate, to bare",), ("way", "up, invoke")),)),
}
# Sections that no gate measures, since that needs a machine that does little else, or first seven CPU minutes for the
# proof of what is measured (bench/benches): they stay with their commits, whose age is told. (`Instructions` are
# counted anew by tests/release.)
STAYING = ("A request", "Threads on one account", "A stop, and an idle service", "Scale")


class Unreadable(ValueError):
    """A table has another form, in words."""


def tables_of(text: str) -> Iterator[Tuple[List[str], List[Dict[str, str]]]]:
    """The tables of a text: their columns, and their rows, each cell by its column."""
    for block in re.findall(r"(?:^\|.*\n)+", text + "\n", re.M):
        head, rule, *rows = [[it.strip() for it in line.strip().strip("|").split("|")] for line in block.splitlines()] \
            if block.count("\n") > 1 else [[block], []]
        if not rule or any(it.strip("-") for it in rule):
            raise Unreadable(f"a table has no line below its head: {block[:60]!r}")
        for row in rows:
            if len(row) != len(head):
                raise Unreadable(f"{len(row)} cells, and the head has {len(head)}: {' | '.join(row)[:80]!r}")
        yield head, [dict(zip(head, row)) for row in rows]


def ratio_of(cell: str) -> Optional[Ratio]:
    """A ratio with its least and greatest; None of a cell without one."""
    if cell in ("", "-"):
        return None
    found = CELL.fullmatch(cell)
    if not found:
        raise Unreadable(f"{cell!r} is not a ratio with its least and greatest")
    made = Ratio(*(float(it.replace(",", "")) for it in found.groups()))
    if not made.least <= made.middle <= made.most:
        raise Unreadable(f"{cell!r} does not lie between its least and greatest")
    return made


def ratios_of(text: str, wanted: Tuple[Columns, ...]) -> Dict[str, Ratio]:
    """The ratios of the tables that have these columns, by the words of their rows and columns."""
    found: Dict[str, Ratio] = {}
    for head, rows in tables_of(text):
        for columns in (it for it in wanted if {*it.keys} <= {*head}):
            names = [it for it in columns.ratios if it in head]
            twice = [it for it in (*columns.keys, *names, *filter(None, columns.only[:1])) if head.count(it) > 1]
            if twice:
                raise Unreadable(f"two columns are {twice[0]!r}")
            for row in (it for it in rows if it.get(columns.only[0], columns.only[1]) == columns.only[1]):
                for name in names:
                    where = ", ".join([*(f"{it} {row[it]}" for it in columns.keys), name])
                    ratio = ratio_of(row[name])
                    if ratio and where in found:
                        raise Unreadable(f"two ratios of {where}")
                    found.update({where: ratio} if ratio else {})
    return found


def section_of(page: str, title: str) -> str:
    """The text of a section; nothing if the page has none of this title."""
    return "".join(page.split(f"\n## {title}\n")[1:2]).split("\n## ")[0]


def of_page(page: str, title: str) -> Dict[str, Ratio]:
    """The ratios that a section of the page tells."""
    return ratios_of(section_of(page, title), SECTIONS[title].tables)


def faults(page: str) -> Iterator[str]:
    """What is wrong with the sections of the page that are measured anew, or stay."""
    for title, section in SECTIONS.items():
        text = section_of(page, title)
        if len(MARK.findall(text)) != 1:
            yield f"{title!r} has not one line <!-- measured at COMMIT -->"
        try:
            found = of_page(page, title)
        except Unreadable as fault:
            yield f"{title!r}: {fault}"
            continue
        if not found:
            yield f"{title!r} has no table with {', '.join(section.tables[0].keys)} and a ratio"
    yield from (f"there is no {it!r}" for it in STAYING if not section_of(page, it))


class Measured(NamedTuple):
    """What a bench has found: its ratios, and the CPU seconds; or why there is none, and whether that is a failure."""
    ratios: Dict[str, Ratio]
    seconds: float
    fault: str = ""
    is_failure: bool = False


def cpu_seconds() -> float:
    used = resource.getrusage(resource.RUSAGE_CHILDREN)
    return used.ru_utime + used.ru_stime


def measured(root: str, title: str, program: str) -> Measured:
    """Measures a section anew. That something is not here, or that the machine was too busy, is no failure."""
    section = SECTIONS[title]
    missing = [it for it in section.needs if not shutil.which(it)]
    if missing:
        return Measured({}, 0, f"no {' and no '.join(missing)} is here")
    words = [program if it == "PROGRAM" else it for it in section.words]
    before = cpu_seconds()
    with subprocess.Popen([sys.executable, os.path.join(root, words[0]), *words[1:]], cwd=root,
                          stdin=subprocess.DEVNULL, stdout=subprocess.PIPE, stderr=subprocess.PIPE, text=True,
                          errors="replace") as bench:
        try:
            printed, said = bench.communicate(timeout=LONGEST)
        except subprocess.TimeoutExpired:
            end(bench)
            return Measured({}, cpu_seconds() - before, f"{words[0]} had not ended within {LONGEST} s")
        except BaseException:  # (ended before it, by a signal)
            end(bench)
            raise
    used = cpu_seconds() - before
    if bench.returncode:  # (measurements that failed tell of a busy machine first; if not, the age of the section will)
        return Measured({}, used, f"{words[0]} ended with status {bench.returncode}: {said[-400:].strip()}",
                        bench.returncode != os.EX_TEMPFAIL)
    try:
        found = ratios_of(printed, section.tables)
    except Unreadable as fault:
        return Measured({}, used, f"{words[0]} printed what cannot be read: {fault}", True)
    return Measured(found, used, "" if found else f"{words[0]} printed no ratio", not found)


def end(bench: "subprocess.Popen[str]") -> None:
    """Ends it; it then ends what it has started."""
    bench.terminate()
    try:
        bench.communicate(timeout=ENDS)
    except subprocess.TimeoutExpired:
        bench.kill()


def left(page: Dict[str, Ratio], now: Dict[str, Ratio]) -> Iterator[str]:
    """The ratios that have left the brackets that the page has for them."""
    for where, ratio in now.items():
        if where in page and ratio.has_left(page[where]):
            yield f"{where} {ratio}, page {page[where]}: left its bracket"


class Noted(NamedTuple):
    """When a section was last measured anew, and how many of its ratios were in their brackets."""
    commit: str
    inside: int
    ratios: int


def of_machine() -> str:
    """The table of what gates on this machine have measured."""
    return os.path.join(records.folder(), "MEASURED")


def read(path: str) -> Dict[str, Noted]:
    """A table: a line for each section, `TITLE: COMMIT N of M`. A ValueError names a line of another form."""
    found: Dict[str, Noted] = {}
    for number, line in enumerate(records.text_of(path).splitlines(), 1):
        words = LINE.fullmatch(line)
        if not words or words[1] not in SECTIONS or int(words[3]) > int(words[4]):
            raise ValueError(f"{path}:{number}: {line[:80]!r} is not TITLE: COMMIT N of M, of a section that is "
                             "measured")
        found[words[1]] = Noted(words[2], int(words[3]), int(words[4]))
    return found


def text_of(table: Dict[str, Noted]) -> str:
    return "".join(f"{title}: {it.commit} {it.inside} of {it.ratios}\n" for title, it in sorted(table.items()))


def noted_here() -> Dict[str, Noted]:
    """The table of this machine; nothing if another program has written there."""
    try:
        return read(of_machine())
    except ValueError:
        return {}


def note(title: str, made: Noted) -> None:
    """Notes on this machine that a section was measured."""
    with records.alone(of_machine()):
        records.write(of_machine(), text_of({**noted_here(), title: made}))


def known(root: str, *others: str) -> Dict[str, Noted]:
    """For each section its line at the latest commit of those that HEAD continues: by the tree's own table, and by
    other tables, or else by this machine's."""
    best: Dict[str, Noted] = {}
    for table in (read(os.path.join(root, NOTED)), *(map(read, others) if others else [noted_here()])):
        for title, it in table.items():
            if place(root, it.commit) > (place(root, best[title].commit) if title in best else 0):
                best[title] = it
    return best


def measured_at(root: str, page: str, table: Dict[str, Noted]) -> Dict[str, str]:
    """For each section the commit at which it was last measured: the page's, or a later one that is noted."""
    found: Dict[str, str] = {}
    for title in SECTIONS:
        own = "".join(MARK.findall(section_of(page, title))[:1])
        noted = table[title].commit if title in table else ""
        found[title] = noted if noted and place(root, noted) > place(root, own or "none") else own
    return found


def stalest(root: str, page: str, table: Dict[str, Noted]) -> List[str]:
    """The sections, the one that was measured at the earliest commit first."""
    at = measured_at(root, page, table)
    return sorted(SECTIONS, key=lambda it: place(root, at[it] or "none"))


def commit_to_note(root: str) -> str:
    """The commit of what is measured; nothing if the program's sources, the tools or the benches are not as it has
    them."""
    changed = git(root, "status", "--porcelain", "--", "crates", "crates.txt", "HANDLES", "tools", "examples", "bench",
                  PAGE, f":(exclude){NOTED}")
    return "" if changed else git(root, "rev-parse", "--short=8", "HEAD")
