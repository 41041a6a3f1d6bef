"""Whether tests/compatibility/run finds what a later version must not change: in copies of what 1.0 has left, one
change each, as if a later program or reader had made it."""
import json
import os
import shutil
import subprocess
import sys
import tempfile
from typing import Callable, Tuple

from tests import ROOT
from tests.library.cases import Case
from tests.library.trees import program, text_of

HERE = os.path.join("tests", "compatibility")


def copy_to(folder: str) -> str:
    """The files of tests/compatibility in a tree whose rest is this one's."""
    shutil.copytree(os.path.join(ROOT, HERE), os.path.join(folder, HERE))
    for name in ("lambda_local", "tools", "examples", "tests/library", "tests/__init__.py"):
        os.symlink(os.path.join(ROOT, name), os.path.join(folder, name))
    return os.path.join(folder, HERE)


def run(folder: str) -> Tuple[int, str]:
    done = subprocess.run([sys.executable, os.path.join(folder, "run"), program()], stdout=subprocess.PIPE, text=True)
    return done.returncode, done.stdout


def changed(line: str, change: Callable[[dict], None]) -> str:
    value = json.loads(line)
    change(value)
    return json.dumps(value)


# What is changed: the file, how, and the check that fails; none if it is allowed.
CHANGES = (
    ("1.0/histories/many.txt", lambda text: text.replace(" accepted", " done", 1), "1.0/histories/many.txt: replays"),
    ("1.0/scripts/timeout.answers", lambda text: text.replace("timeout", "late", 1), "1.0/scripts/timeout.txt"),
    ("1.0/traces/many.jsonl", lambda text: changed(text.split("\n", 1)[0], lambda it: it.update(more=1)) + "\n"
     + text.split("\n", 1)[1], "1.0/traces/many.jsonl"),
    ("1.0/traces/many.jsonl", lambda text: changed(text.split("\n", 1)[0], lambda it: it.pop(next(iter(it)))) + "\n"
     + text.split("\n", 1)[1], ""),
    ("1.0/traces/many.jsonl", lambda text: text.split("\n", 1)[1], "1.0/traces/many.jsonl"),
    ("1.0/configurations/least.json", lambda text: text.replace("region", "area"), "1.0/configurations/least.json"),
    ("1.0/up/greet.json", lambda text: text.replace("timeout", "limit"), "1.0/up/greet.json"),
)


class Compatibility(Case):
    def test_what_1_0_has_left_is_read_and_replayed(self) -> None:
        with tempfile.TemporaryDirectory() as folder:
            status, said = run(copy_to(folder))
            self.check("what 1.0 has left is read", status, 0, shown=said)

    def test_a_later_version_that_changes_what_stays_is_found(self) -> None:
        for name, change, failing in CHANGES:
            with tempfile.TemporaryDirectory() as folder:
                path = os.path.join(copy_to(folder), name)
                before = text_of(path)
                with open(path, "w", encoding="utf-8", newline="") as file:
                    file.write(change(before))
                said = run(os.path.join(folder, HERE))[1]
                failed = [line[len("FAIL "):] for line in said.splitlines() if line.startswith("FAIL")]
                self.check(f"{name} is another: {failing or 'a member was added since'}",
                           failing in failed if failing else not failed, shown=said)
