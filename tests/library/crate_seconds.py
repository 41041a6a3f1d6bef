"""How many CPU seconds the proof of each crate took. Each run of the gate, or of `.ci/run NAME ..`, keeps those of the
crates that it proves beside the records of gates, each with a sum of the crate's sources: so a later run that finds a
crate proved knows what that took."""
import contextlib
import hashlib
import os
import re
import threading
from typing import Dict, Iterator, List, NamedTuple, Set

from crate_list import uses
from prover import TICKS, fields_of
from tests.library import records
from tests.library.up_kit import children

NAMED = re.compile(rb"--crate-name\0(\w+)\0")
PROVED = re.compile(r"rt: (\w+) proved")
LINE = re.compile(r"(\w+) ([0-9a-f]{16}) (\d+)")
SOURCES = ("src", "specs", "proofs")
MOST = 20  # of one crate, the latest


class Costs(NamedTuple):
    """The CPU seconds of the crates of which some run here knows them, in the order of crates.txt; and those of these
    crates that an earlier run proved."""
    seconds: Dict[str, int]
    earlier: List[str]


class Follower(threading.Thread):
    """Follows how many CPU seconds the checker takes for each crate, by the processes that a command has started."""

    def __init__(self, command: int) -> None:
        super().__init__(daemon=True)
        self.command, self.is_over = command, threading.Event()
        self.used: Dict["tuple[str, str]", float] = {}  # by a process with its start, and by the crate

    def run(self) -> None:
        while not self.is_over.wait(0.3):
            started = {str(it): crate_of(it) for it in children(self.command)}
            for process, crate in started.items():
                fields = fields_of(process)
                # (a checker forks parts of itself, whose time it has once they have ended)
                if crate and fields and not started.get(fields[1]):
                    self.used[f"{process} {fields[19]}", crate] = sum(map(int, fields[11:15])) / TICKS

    def of(self, crates: Set[str]) -> Dict[str, float]:
        """The seconds of these crates until now."""
        found: Dict[str, float] = {}
        for (_, crate), used in [*self.used.items()]:
            if crate in crates:
                found[crate] = found.get(crate, 0) + used
        return found

    def end(self) -> None:
        self.is_over.set()
        self.join()


class Proofs:
    """What a command proves: of each crate of which it prints that it is proved, the CPU seconds are kept at once, and
    once more at the end, with those of its tests."""

    def __init__(self, root: str, command: int) -> None:
        self.sums = sums_of(root)
        self.proved: Set[str] = set()
        self.follower = Follower(command)
        self.follower.start()

    def read(self, line: str) -> None:
        told = PROVED.fullmatch(line)
        if told and told[1] in self.sums:
            self.proved.add(told[1])
            self.keep({told[1]})

    def keep(self, crates: Set[str]) -> None:
        """That they cannot be kept fails nothing."""
        with contextlib.suppress(OSError):
            note({f"{crate} {self.sums[crate]}": used for crate, used in self.follower.of(crates).items()})

    def end(self) -> Costs:
        self.follower.end()
        self.keep(self.proved)
        seconds = known(self.sums)
        return Costs(seconds, [it for it in seconds if it not in self.proved])


def crate_of(process: int) -> str:
    """The crate that a process checks; nothing if it checks none, or has ended."""
    try:
        with open(f"/proc/{process}/cmdline", "rb") as file:
            named = NAMED.search(file.read())
    except OSError:
        return ""
    return named[1].decode() if named else ""


def sum_of(root: str, crate: str) -> str:
    """A sum of a crate's own sources: a run that finds the crate proved has the same."""
    found = hashlib.sha256()
    for path in sorted(sources_of(os.path.join(root, "crates", crate))):
        with open(path, "rb") as file:
            text = file.read()
        found.update(f"{os.path.relpath(path, root)} {len(text)} ".encode() + text)
    return found.hexdigest()[:16]


def sums_of(root: str) -> Dict[str, str]:
    return {it: sum_of(root, it) for it in uses(root)}


def sources_of(folder: str) -> Iterator[str]:
    for part in SOURCES:
        for at, _, names in os.walk(os.path.join(folder, part)):
            yield from (os.path.join(at, name) for name in names)


def of_machine() -> str:
    """The table of this machine: lines `CRATE SUM SECONDS`, the latest last."""
    return os.path.join(records.folder(), "CRATES")


def read(path: str = "") -> Dict[str, int]:
    """The seconds of each `CRATE SUM`, by this machine's table or another; lines that another program has written there
    are passed over."""
    lines = map(LINE.fullmatch, records.text_of(path or of_machine()).splitlines())
    return {f"{it[1]} {it[2]}": int(it[3]) for it in lines if it}


def known(sums: Dict[str, str], path: str = "") -> Dict[str, int]:
    """The seconds of each of these crates, if that table has them for sources with its sum."""
    table = read(path)
    return {crate: table[f"{crate} {it}"] for crate, it in sums.items() if f"{crate} {it}" in table}


def note(found: Dict[str, float]) -> None:
    """Notes the seconds of each `CRATE SUM`."""
    if not found:
        return
    with records.alone(of_machine()):
        table = {name: used for name, used in read().items() if name not in found}
        table.update((name, round(used)) for name, used in found.items())
        left: Dict[str, int] = {}
        kept: List[str] = []
        for name in reversed([*table]):
            crate = name.split()[0]
            left[crate] = left.get(crate, MOST) - 1
            if left[crate] >= 0:
                kept.insert(0, f"{name} {table[name]}\n")
        records.write(of_machine(), "".join(kept))
