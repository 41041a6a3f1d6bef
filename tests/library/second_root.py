"""Crates that stand outside crates/, since the gate runs them and does not prove them: the tables' (tables/) and the
bench's (bench/). `rt ci` refuses a .rt or .antt file of a crate that crates.txt does not list, so their files end with
.rs and .proof; here they get the kit's endings, beside the crates that they use, in a root of their own."""
import os
import shutil
import subprocess
import sys

from crate_list import below, uses
from jobs import jobs_here
from tests.library.checkout import ROOT
from tests.library.crate_seconds import Proofs

FOLDERS = ("tables", "bench")
ENDINGS = {".rs": ".rt", ".proof": ".antt"}
PARTS = ("src", "specs", "proofs", "data", "stdin", "stdout")


def lines_of(path):
    """The lines of a list of crates, by their crates."""
    with open(path, encoding="utf-8") as file:
        lines = [line.split("#")[0].strip() for line in file]
    return {line.split(":")[0]: line for line in lines if ":" in line}


def copy(path, to):
    """Copies a file, or a folder, giving each file the kit's ending."""
    if os.path.isdir(path):
        for name in sorted(os.listdir(path)):
            copy(f"{path}/{name}", f"{to}/{name}")
        return
    start, ending = os.path.splitext(to)
    os.makedirs(os.path.dirname(to), exist_ok=True)
    shutil.copyfile(path, start + ENDINGS.get(ending, ending))


def make(root, crate, with_proofs=True):
    """Makes a root with a crate and all below it, as a repository in which `rt` can run."""
    lines = {f"{ROOT}/crates/{name}": line for name, line in lines_of(f"{ROOT}/crates.txt").items()}
    for folder in FOLDERS:
        for name, line in lines_of(f"{ROOT}/{folder}/crates.list").items():
            lines[f"{ROOT}/{folder}/{name}"] = line
    os.makedirs(f"{root}/.git")
    with open(f"{root}/crates.txt", "w", encoding="utf-8") as file:
        file.writelines(f"{line}\n" for line in lines.values())
    known = uses(root)
    wanted = {*below(crate, known), crate}
    with open(f"{root}/crates.txt", "w", encoding="utf-8") as file:
        file.writelines(f"{line}\n" for path, line in lines.items() if os.path.basename(path) in wanted)
    for path in lines:
        name = os.path.basename(path)
        for part in PARTS if name in wanted else ():
            if os.path.exists(f"{path}/{part}") and (with_proofs or part not in ("specs", "proofs")):
                copy(f"{path}/{part}", f"{root}/crates/{name}/{part}")
    shutil.copyfile(f"{ROOT}/HANDLES", f"{root}/HANDLES")


def prove(root, crate):
    """Proves and builds a crate's program there, taking what `rt ci` has kept on this machine, and keeping what each
    proof costs; its path."""
    with subprocess.Popen(["rt", "ci"], cwd=root, env={**os.environ, "RT_JOBS": str(jobs_here())},
                          stdin=subprocess.DEVNULL, stdout=subprocess.PIPE, stderr=subprocess.STDOUT, text=True) as ran:
        assert ran.stdout
        proofs, said = Proofs(root, ran.pid), ""
        for line in ran.stdout:
            proofs.read(line.rstrip("\n"))
            said += line
    proofs.end()
    program = f"{root}/crates/{crate}/out/{crate}"
    if not os.access(program, os.X_OK):
        sys.exit(f"{crate} is not built:\n{said[-2000:]}")
    return program
