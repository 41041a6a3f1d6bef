"""When each must-fail edit was last refused, and each twin proved: at which commit, and in how many CPU seconds. The
tree has a table, tests/must_fail/refused.noted. A gate changes no file of the tree that it judges: it notes what it
tried in the same form beside its records (tests/library/records.py), and `tests/gate --keep` brings that into the
tree."""
import hashlib
import os
import re
import subprocess
from typing import Dict, Iterator, List, NamedTuple, Optional, Set

from crate_list import below, uses
from tests.library import edits, records

NOTED = os.path.join(edits.FOLDER, "refused.noted")
LINE = re.compile(rf"(\w+/\w+(?:{edits.TWIN})?) ([0-9a-f]{{7,40}}) (\d+)")
USUAL = 15  # CPU seconds of an edit that was not tried yet


class Noted(NamedTuple):
    commit: str
    seconds: int


def of_machine() -> str:
    """The table of what gates on this machine have tried."""
    return os.path.join(records.folder(), "REFUSED")


def read(path: str) -> Dict[str, Noted]:
    """A table: a line for each edit, `CRATE/NAME COMMIT SECONDS`, and for each twin, `CRATE/NAME same ..`. A ValueError
    names a line of another form."""
    found: Dict[str, Noted] = {}
    for number, line in enumerate(records.text_of(path).splitlines(), 1):
        words = LINE.fullmatch(line)
        if not words:
            raise ValueError(f"{path}:{number}: {line[:80]!r} is not CRATE/NAME COMMIT SECONDS")
        found[words[1]] = Noted(words[2], int(words[3]))
    return found


def text_of(table: Dict[str, Noted]) -> str:
    return "".join(f"{name} {it.commit} {it.seconds}\n" for name, it in sorted(table.items()))


def note(name: str, commit: str, seconds: float) -> None:
    """Notes on this machine that an edit was refused, or a twin proved."""
    with records.alone(of_machine()):
        records.write(of_machine(), text_of({**noted_here(), name: Noted(commit, round(seconds))}))


def noted_here() -> Dict[str, Noted]:
    """The table of this machine; nothing if another program has written there."""
    try:
        return read(of_machine())
    except ValueError:
        return {}


def git(root: str, *words: str) -> str:
    """What git prints; nothing if it fails."""
    ran = subprocess.run(["git", "-C", root, *words], stdout=subprocess.PIPE, stderr=subprocess.DEVNULL, text=True)
    return ran.stdout.strip() if ran.returncode == 0 else ""


def place(root: str, commit: str) -> int:
    """How many commits lead to one that HEAD continues; 0 if git knows none of this name there."""
    if subprocess.run(["git", "-C", root, "merge-base", "--is-ancestor", commit, "HEAD"],
                      stderr=subprocess.DEVNULL).returncode:
        return 0
    return int(git(root, "rev-list", "--count", commit) or 0)


def merged(root: str, *tables: Dict[str, Noted]) -> Dict[str, Noted]:
    """For each edit of the tree its line at the latest commit, of those that HEAD continues."""
    places: Dict[str, int] = {}
    best: Dict[str, Noted] = {}
    for table in tables:
        for name, it in table.items():
            places.setdefault(it.commit, place(root, it.commit))
            if places[it.commit] > (places[best[name].commit] if name in best else 0):
                best[name] = it
    return {name: best[name] for name in edits.names_of(root) if name in best}


def known(root: str, *others: str) -> Dict[str, Noted]:
    """What is known of the edits of the tree: by its own table, and by other tables, or else by this machine's."""
    return merged(root, read(os.path.join(root, NOTED)), *(map(read, others) if others else [noted_here()]))


def changes(root: str, commit: str) -> List[Set[str]]:
    """What each commit since then changed of crates and edits."""
    listed = git(root, "log", "--format=%x00", "--name-only", f"{commit}..HEAD", "--", "crates", edits.FOLDER)
    return [set(it.split()) for it in listed.split("\0")[1:]]


def ages(root: str, table: Dict[str, Noted]) -> Dict[str, Optional[int]]:
    """For each edit and twin, how many commits have changed what it stands on since it was noted: its own file, and the
    sources of its crate and of those below. None if nothing is noted of it."""
    crates = uses(root)
    since = {commit: changes(root, commit) for commit in {it.commit for it in table.values()}}
    found: Dict[str, Optional[int]] = {}
    for name in edits.names_of(root):
        crate = name.split("/")[0]
        stands_on = re.compile(rf"crates/({'|'.join([crate, *below(crate, crates)])})/(src|specs|proofs)/|"
                               + re.escape(os.path.relpath(edits.path_of(root, name), root)) + "$")
        found[name] = (sum(any(map(stands_on.match, it)) for it in since[table[name].commit]) if name in table
                       else None)
    return found


def stalest(root: str, table: Dict[str, Noted], names: List[str], budget: float) -> Iterator[str]:
    """Those of these edits that a gate tries for so many CPU seconds: the stalest first, of equally stale ones at each
    commit others. One that nothing has changed since is as it was."""
    head, found = git(root, "rev-parse", "HEAD"), ages(root, table)

    def order(name: str) -> "tuple[float, str]":
        age = found[name]
        return (float("-inf") if age is None else -age, hashlib.sha256(f"{head} {name}".encode()).hexdigest())
    for name in sorted((it for it in names if found[it] != 0), key=order):
        seconds = table[name].seconds if name in table else USUAL
        if seconds <= budget:
            budget -= seconds
            yield name
