"""The folders of the tables, and the cases of a table of scripts, in the form that docs/checks.md describes under
"Adding a case", and what a program makes of one."""
import glob
import os
import re
import subprocess
from typing import Dict, List, NamedTuple, Tuple

DATA = os.path.join("tables", "checks", "data")
# The folders of the tables that the program of tables/checks runs by a word.
GROUPS: Dict[str, Tuple[str, ...]] = {
    "examples": ("parts", "wire", "handed", "routes", "scripts"), "accounts": ("accounts", "ledgers", "exchanges"),
    "sockets": ("sockets",)}
# Those of scripts, which lambda_local itself reads.
SCRIPTS = ("replays", "traces")
SECONDS = 600  # for one of them, on a machine that is busy


class Case(NamedTuple):
    """A case: its script, and what replaying that gives."""

    name: str
    script: bytes
    gives: str


def unknown_folders(root: str) -> List[str]:
    """The folders of tables that are in no group, and those of a group that are not there."""
    known = {*SCRIPTS, *(folder for folders in GROUPS.values() for folder in folders)}
    return sorted(known.symmetric_difference(os.listdir(os.path.join(root, DATA))))


def tables_in(root: str, *folders: str) -> List[str]:
    """The paths of the tables in these folders, folder by folder."""
    return [path for folder in folders for path in sorted(glob.glob(os.path.join(root, DATA, folder, "*.txt")))]


def plain(line):
    """A line of a part, without the escape in front of what would begin another."""
    return line[1:] if line.startswith("\\") else line


def bytes_of(kind, words, lines):
    """What a part adds to its case's script."""
    whole = "".join(line + "\n" for line in lines).encode()
    if kind == "script":
        return whole
    if kind == "open":
        return whole[:-1]
    if kind == "repeat":
        return whole * int(words[0])
    if kind == "bytes":
        return bytes.fromhex("".join(words))
    if kind == "signs":
        return b"#" * int(words[0])
    raise ValueError(f"no part of a script is {kind!r}")


def cases_of(path):
    """The cases of a table, in order."""
    with open(path, encoding="utf-8", newline="\n") as file:
        blocks = file.read().split("\n== ")[1:]
    for block in blocks:
        name, *lines = block.split("\n")
        if lines and not lines[-1]:
            lines.pop()  # (the end of the table, or the empty line before the next case)
        yield case_of(name, lines)


def case_of(name, lines):
    script = b""
    parts: List[Tuple[str, List[str], List[str]]] = []
    for line in lines:
        if line.startswith("-- "):
            kind, *words = line[3:].split(" ")
            parts.append((kind, words, []))
        else:
            parts[-1][2].append(plain(line))
    for kind, words, of_part in parts[:-1]:
        script += bytes_of(kind, words, of_part)
    kind, _, given = parts[-1]
    if kind != "gives":
        raise ValueError(f"{name}: its last part is {kind!r}, not 'gives'")
    return Case(name, script, "".join(line + "\n" for line in given))


def words_of(table):
    """The words with which the program takes the cases of a table, by its folder: replays or traces."""
    folder, name = table.split("/")[-2:]
    return ["replay"] if folder != "traces" else ["trace", *["--bodies", "none"] * (name == "without_bodies.txt")]


def status_of(case):
    """The status that the program ends with."""
    told = re.search(r", status (\d+)\n$", case.gives)
    return int(told[1]) if told else 0


def fault_of(program, case, words=("replay",)):
    """What is wrong with what this program makes of a case; nothing if it gives what is wanted."""
    try:
        ran = subprocess.run([program, *words], input=case.script, stdout=subprocess.PIPE, stderr=subprocess.PIPE,
                             timeout=SECONDS)
    except subprocess.TimeoutExpired:
        return f"has not ended after {SECONDS} s"
    seen = ran.stdout.decode() + (f"{ran.stderr.decode().strip()}, status {ran.returncode}\n" if ran.returncode else "")
    return "" if seen == case.gives else f"gives {seen!r}, wanted {case.gives!r}"
