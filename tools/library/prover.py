"""How the kit's checker is called over libraries that `rt ci` has proved in a checkout, and what a process used."""
import os
import shutil
import sys

from crate_list import below, uses
from typing import List, NoReturn, Optional, Sequence, Union

TICKS = os.sysconf("SC_CLK_TCK")


def stop(why: str) -> NoReturn:
    sys.exit(f"{sys.argv[0]}: {why}")


def kit() -> str:
    """The folder of the kit: two above its command."""
    command = shutil.which("rt")
    if not command:
        stop("rt is not on the path: is the kit on this machine?")
    return os.path.dirname(os.path.dirname(os.path.realpath(command)))


def check_words(root: str, built: str, name: str, only: Sequence[str] = ()) -> List[str]:
    """The check of a crate, or of functions of it with those that they call, over what `rt ci` left in the checkout
    `built`. It runs in a folder that has the crate's src, specs and proofs."""
    known, home = uses(root), kit()
    if name not in known:
        stop(f"crates.txt has no crate {name}")
    rlibs = {need: f"{built}/crates/{need}/out/rlib/{need}.rlib" for need in below(name, known)}
    missing = [need for need, rlib in rlibs.items() if not os.path.isdir(rlib)]
    if missing:
        stop(f"{built} has not proved {', '.join(missing)}: run rt ci there, or name another checkout by --built")
    first = "src/main.rt" if os.path.exists(f"{root}/crates/{name}/src/main.rt") else "src/lib.rt"
    words = [f"{home}/bin/rattle", "check", "--crate-name", name, first, "-L", f"dependency={home}/rlibs"]
    for need in ["std", *known[name]]:
        words += ["--extern", f"{need}={rlibs.get(need, f'{home}/rlibs/{need}.rlib')}"]
    for rlib in rlibs.values():
        words += ["-L", f"dependency={os.path.dirname(rlib)}"]
    words += ["--antt-project", f"{home}/rattle/logic/antt-project.json", "--logic-built", f"{home}/logic_built"]
    return [*words, "--jobs", "1", *(word for path in only for word in ("--only", path))]


def fields_of(process: Union[int, str]) -> List[str]:
    """What the system says of a process behind its name; nothing if it has ended."""
    try:
        with open(f"/proc/{process}/stat", encoding="utf-8") as file:
            return file.read().rsplit(")", 1)[1].split()
    except OSError:
        return []


def seconds_of(process: Union[int, str]) -> Optional[float]:
    """The CPU seconds of a process without those that it started; None if it has ended."""
    fields = fields_of(process)
    return (int(fields[11]) + int(fields[12])) / TICKS if fields else None
