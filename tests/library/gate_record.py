"""What is kept of a gate that passed, with the CPU seconds of each crate, and how it comes into the tree."""
import hashlib
import os
import re
import subprocess
import time
from typing import Dict, Iterator, List

from tests.library import crate_seconds, ratios, records, refusals
from tests.library.crate_seconds import Costs

PROGRAM = os.path.join("crates", "lambda_local", "out", "lambda_local")
SCRATCH = os.path.join(".ci", "LAST_FROM_SCRATCH")
CRATES = os.path.join(".ci", "CRATE_SECONDS")
OF_GATE = ("commit", "day", "kit", "processors")  # what that has of a record, beside the seconds
COSTS = os.path.join("docs", "proof_costs.md")
MARK = f"<!-- of {CRATES} -->\n"
NONE = "No gate has recorded those of all crates yet.\n"


def told(root: str, words: List[str]) -> str:
    """What a command prints; nothing if it fails."""
    ran = subprocess.run(words, cwd=root, stdout=subprocess.PIPE, stderr=subprocess.DEVNULL, text=True)
    return ran.stdout.strip() if ran.returncode == 0 else ""


def sha256_of(path: str) -> str:
    try:
        with open(path, "rb") as file:
            return hashlib.sha256(file.read()).hexdigest()
    except OSError:
        return ""


def lines_of(root: str, minutes: float, cpu_minutes: float, costs: Costs, passed: int) -> Iterator[str]:
    """The record of a gate that passed."""
    yield f"commit {told(root, ['git', 'describe', '--always', '--exclude=*', '--dirty'])}"
    yield f"day {time.strftime('%Y-%m-%d', time.gmtime())}"
    yield f"kit {told(root, ['rt', 'version'])}"
    yield told(root, ["./lambda_local", "stamp"]).split("\n")[0]
    yield f"program {sha256_of(os.path.join(root, PROGRAM))}"
    yield f"processors {os.environ.get('RT_JOBS') or len(os.sched_getaffinity(0))}"
    yield f"minutes {minutes:.0f}"
    yield f"cpu_minutes {cpu_minutes:.0f}"
    yield f"call_model_seconds {costs.seconds.get('call_model', 0)}"
    yield from lines_of_costs(costs)
    yield f"gate {passed} passed, 0 failed"


def keep_on_machine(lines: List[str], is_from_scratch: bool) -> None:
    for name in ["GATE", "FROM_SCRATCH"][:1 + is_from_scratch]:
        records.write(os.path.join(records.folder(), name), "\n".join(lines) + "\n")


def line_of(text: str, word: str) -> str:
    return "".join(re.findall(rf"^{word} (.*)$", text, re.M))


def seconds_of(record: str) -> Dict[str, int]:
    """The CPU seconds of each crate that a record has."""
    pairs = (it.split(" ") for it in line_of(record, "crate_seconds").split(", ") if it)
    return {crate: int(seconds) for crate, seconds in pairs}


def earlier_of(record: str) -> List[str]:
    """Those of them that other runs proved."""
    return [it for it in line_of(record, "earlier_crates").split(", ") if it]


def lines_of_costs(costs: Costs) -> Iterator[str]:
    yield f"crate_seconds {', '.join(f'{crate} {seconds}' for crate, seconds in costs.seconds.items())}"
    if costs.earlier:
        yield f"earlier_crates {', '.join(costs.earlier)}"


def costs_of(record: str) -> str:
    """The CPU seconds of each crate as a page has them, the most expensive first, with their sum, and what other runs
    proved of it; nothing if the record has none."""
    found, earlier = seconds_of(record), earlier_of(record)
    ordered = sorted(found, key=lambda it: -found[it])
    whose = "all crates" if len(earlier) == len(found) else ", ".join(f"`{it}`" for it in earlier)
    of_earlier = (f"; {sum(found[it] for it in earlier) / 60:.0f} of them in other runs on that machine than its "
                  f"gate, which proved {whose}") if earlier else ""
    return (f"{', '.join(f'`{it}` {found[it]}' for it in ordered)}: {sum(found.values()) / 60:.0f} CPU minutes in all, "
            f"at {line_of(record, 'commit')}{of_earlier}.\n") if found else ""


def with_costs(page: str, record: str) -> str:
    """The page with the CPU seconds of the record below the mark. Without any, those of an earlier one stay; a page
    that has none says so."""
    costs = costs_of(record)
    return re.sub(re.escape(MARK) + rf"(`.*\n|{re.escape(NONE)})?", lambda found: MARK + (
        costs or found[1] or NONE), page)


def is_newer(root: str, record: str, own: str) -> bool:
    """Whether a record is of a later commit than the tree's own, of those that HEAD continues."""
    return place_of(root, record) > place_of(root, own)


def place_of(root: str, record: str) -> int:
    return refusals.place(root, line_of(record, "commit").replace("-dirty", ""))


def present(root: str) -> str:
    """A record of the tree as it is, of which no gate on this machine tells."""
    return (f"commit {refusals.git(root, 'rev-parse', '--short=8', 'HEAD')}\n"
            f"day {time.strftime('%Y-%m-%d', time.gmtime())}\nkit {told(root, ['rt', 'version'])}\n"
            f"processors {len(os.sched_getaffinity(0))}\n")


def keep_costs(root: str, gate: str, table: str) -> str:
    """Brings into the tree what the proof of each of its crates cost, by the record of a gate, and by what runs on that
    machine have kept of the same sources since. Tells that, or of which crates neither has it."""
    commit, sums, found = line_of(gate, "commit"), crate_seconds.sums_of(root), seconds_of(gate)
    if not refusals.git(root, "diff", "--name-only", commit.replace("-dirty", ""), "--", "crates"):
        found = {**crate_seconds.known(sums, table), **found}
    unknown = [it for it in sums if it not in found]
    if unknown:
        return (f"{CRATES} stays as it is: at {commit} no run has kept the CPU seconds of "
                f"{', '.join(unknown)} (tests/gate --anew NAME .. keeps them)")
    others = [it for it in sums if it not in seconds_of(gate) or it in earlier_of(gate)]
    costs = "".join(f"{it} {line_of(gate, it)}\n" for it in OF_GATE if line_of(gate, it)) + "".join(
        f"{it}\n" for it in lines_of_costs(Costs({it: found[it] for it in sums}, others)))
    records.write(os.path.join(root, CRATES), costs)
    page = records.text_of(os.path.join(root, COSTS))
    records.write(os.path.join(root, COSTS), with_costs(page, costs))
    return f"{CRATES} and {COSTS}: those at {commit}"


def keep_in_tree(root: str, folder: str) -> Iterator[str]:
    """Brings into the tree what gates have left in a folder, if it is newer; tells what it changed."""
    if not any(os.path.exists(os.path.join(folder, it)) for it in (
            "GATE", "FROM_SCRATCH", "REFUSED", "MEASURED", "CRATES")):
        raise ValueError(f"no gate has left anything in {folder}")
    scratch, gate = (records.text_of(os.path.join(folder, it)) for it in ("FROM_SCRATCH", "GATE"))
    if is_newer(root, scratch, records.text_of(os.path.join(root, SCRATCH))):
        records.write(os.path.join(root, SCRATCH), scratch)
        yield f"{SCRATCH}: the gate at {line_of(scratch, 'commit')}"
    for name, record in (("FROM_SCRATCH", scratch), ("GATE", gate)):
        if record and not place_of(root, record):
            yield f"{name} is passed over: it is of {line_of(record, 'commit')}, which HEAD does not continue"
    table = os.path.join(folder, "CRATES")
    if not place_of(root, gate) and crate_seconds.known(crate_seconds.sums_of(root), table):
        gate = present(root)
    if is_newer(root, gate, records.text_of(os.path.join(root, CRATES))):
        yield keep_costs(root, gate, table)
    before = refusals.read(os.path.join(root, refusals.NOTED))
    after = refusals.known(root, os.path.join(folder, "REFUSED"))
    if before != after:
        records.write(os.path.join(root, refusals.NOTED), refusals.text_of(after))
        renewed = sum(before.get(name) != it for name, it in after.items())
        yield f"{refusals.NOTED}: {renewed} edits and twins are noted anew"
    old = ratios.read(os.path.join(root, ratios.NOTED))
    new = ratios.known(root, os.path.join(folder, "MEASURED"))
    if old != new:
        records.write(os.path.join(root, ratios.NOTED), ratios.text_of(new))
        yield f"{ratios.NOTED}: {', '.join(title for title, it in new.items() if old.get(title) != it)}"
