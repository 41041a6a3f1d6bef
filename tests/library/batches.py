"""Must-fail edits, or twins, of a crate that are tried by one check. Most of what a check costs is to read the crate
and the libraries below it, and that is then done once. Each changes functions of a file of its own, so what the prover
says of a file tells which of them it has refused; what that does not tell is tried again in two halves, in the end
alone."""
import os
import re
import time
from typing import Dict, Iterable, Iterator, List, NamedTuple, Optional, Tuple

from tests.library import edits, trials
from tests.library.trials import Trial

MOST = 8  # in one check
# What the prover says of a function, and of a place in a source or in a proof.
FUNCTION = re.compile(r"fn (\w+(?:::\w+)*): (.*)")
PLACE = re.compile(r"(?:note: )?(?:\./)?(src|proofs)/([^\s:]+):\d+:\d+:")


class Member(NamedTuple):
    """An edit of functions of one source, or its twin: its name, the path of the source, and the functions with their
    texts."""
    name: str
    path: str
    functions: Dict[str, str]

    @property
    def module(self) -> str:
        """The path of its module below the crate: folders and the file, with slashes."""
        return os.path.splitext(self.path.removeprefix("src/"))[0]

    def mentions(self, other: "Member") -> bool:
        """Whether one of its functions has the name of one of the other's."""
        names = "|".join({it.split("::")[-1] for it in other.functions})
        return any(re.search(rf"\b({names})\b", it) for it in self.functions.values())


def member_of(root: str, name: str) -> Optional[Member]:
    """An edit as one of several; nothing if it has to be tried alone: it changes something outside functions, more than
    one file, or the root of its crate, or the gate tries it on another function."""
    path, crate = edits.path_of(root, name), f"{root}/crates/{name.split('/')[0]}"
    functions, sources = edits.functions_of(path, crate), edits.files_of(path)
    gate = edits.function_of(path).split("::")[-1]
    if not functions or len(sources) != 1 or sources[0] in ("src/lib.rt", "src/main.rt"):
        return None
    if gate and gate not in {it.split("::")[-1] for it in functions}:
        return None
    return Member(name, sources[0], edits.bodies_of(path, crate))


def grouped(root: str, names: Iterable[str]) -> List[List[str]]:
    """The names in groups that are tried together, each at the place of its first."""
    groups: List[Tuple[Tuple[str, bool], List[Optional[Member]], List[str]]] = []
    for name in names:
        kind, member = (name.split("/")[0], name.endswith(edits.TWIN)), member_of(root, name)
        fits = next((it for it in groups if it[0] == kind and member and has_room(it[1], member)), None)
        if fits:
            fits[1].append(member)
            fits[2].append(name)
        else:
            groups.append((kind, [member], [name]))
    return [it[2] for it in groups]


def has_room(group: List[Optional[Member]], newcomer: Member) -> bool:
    """Whether one more can be tried with these: at another file, and neither knows the other's functions."""
    return len(group) < MOST and all(it and it.path != newcomer.path and not it.mentions(newcomer)
                                     and not newcomer.mentions(it) for it in group)


def tried(root: str, names: List[str], built: str, seconds: float,
          ends: float = float("inf")) -> Iterator[Tuple[str, Trial]]:
    """Tries edits, or twins, of one crate, which `grouped` has put together. Each bears its part of the CPU time. No
    check begins after the moment `ends`: what is then open has no verdict."""
    if time.monotonic() > ends:
        yield from ((name, Trial("no check of it began in time", 0, False)) for name in names)
        return
    if len(names) == 1:
        yield names[0], trials.trial(root, names[0], built, seconds)
        return
    crate, twins = names[0].split("/")[0], names[0].endswith(edits.TWIN)
    wanted = "same" if twins else "new"
    members = [it for it in (member_of(root, name) for name in names) if it]
    texts: Dict[str, str] = {}
    try:
        for it in members:
            texts.update(edits.edited(edits.path_of(root, it.name), f"{root}/crates/{crate}", wanted))
    except ValueError:  # one does not fit, which is told of it alone
        members = []
    functions = [path for it in members for path in trials.functions_of(root, it.name)]
    made = trials.Check(None, [], 0)
    if members:
        made = trials.check(root, crate, functions, texts, built, seconds)
    share = made.seconds / len(names)
    good = (dict.fromkeys(names if made.status == 0 else (), "") if twins
            else refused(crate, members, made.status, made.lines))
    yield from ((it, Trial("", share, by=good[it])) for it in names if it in good)
    open_ones = [it for it in names if it not in good]
    halves = [open_ones] if good else [names[:len(names) // 2], names[len(names) // 2:]]
    for half in halves:
        for name, one in tried(root, half, built, seconds, ends) if half else ():
            yield name, one._replace(seconds=one.seconds + share)


def refused(crate: str, members: List[Member], status: Optional[int], lines: List[str]) -> Dict[str, str]:
    """Those of the members that a check of all has refused, each by what it said of the member's own file. If it says
    something of a file that is none of theirs, or did not come to its end, it tells of none."""
    if status != 1:
        return {}
    owned: Dict[str, List[str]] = {it.name: [] for it in members}
    for line in lines:
        owner = owner_of(line, crate, members)
        if owner:
            owned[owner.name].append(line)
        elif is_told_against(line):
            return {}
    return {name: trials.reason_of(own) for name, own in owned.items()
            if not trials.fault_of_edit(1, [*own, lines[-1]])}


def owner_of(line: str, crate: str, members: List[Member]) -> Optional[Member]:
    """The member of whose file a line tells; nothing if it tells of no file, or of that of no member."""
    function, place = FUNCTION.match(line), PLACE.match(line)
    if function:
        told = "/".join(function[1].split("::")[1:]) if function[1].split("::")[0] == crate else ""
    else:
        told = place[2] if place else ""
    of = [it for it in members if told.startswith(f"{it.module}/") or place and told == it.path.removeprefix("src/")]
    return max(of, key=lambda it: len(it.module)) if of else None


def is_told_against(line: str) -> bool:
    """Whether a line says that something is not as it should be: a function is not proved, or a place has a fault."""
    function = FUNCTION.match(line)
    return bool(function and function[2] != "proved" or not function and trials.TOLD.match(line))
