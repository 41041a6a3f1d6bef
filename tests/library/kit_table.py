"""Each command and tool of a fresh clone, with a kit of each sort on the path: what is released serves, and what is not
there is told at once. Nothing is proved or built for them."""
import os
import re
import shutil
import tempfile
import time

from tests.library.commands import Commands
from tests.library.counted import check_sound as check
from tests.library.release_tree import NONE, RELEASED, SOURCE
from tests.library.stub_kits import KITS, NoKit, StubKit
from tests.library.trees import commit, copied, program, text_of, write

PATIENCE = 60  # seconds for one command, on a machine that is busy: a build takes minutes
OTHER_LOGIC = "has another logic"
OTHER_USER = 65534
OF_PYTHON = ("the plugin's service", "the pytest plugin", "newcomer")  # (whose failures have a status of their own)
# So that git reads another user's clone.
GIT_TRUSTS = {"GIT_CONFIG_COUNT": "1", "GIT_CONFIG_KEY_0": "safe.directory", "GIT_CONFIG_VALUE_0": "*"}


def kit_of(name, folder):
    return StubKit(folder, name) if name in KITS else NoKit()


def fault_of(ran, status, wanted, took):
    """What is wrong with a command's end, if anything."""
    if took > PATIENCE:
        return f"took {took:.0f} s"
    if ran[0] != status or not ran[1].endswith(wanted or ""):
        return f"status {ran[0]}, wanted {status}; printed {ran[1][-300:]!r}, said {ran[2][-300:]!r}"
    return ""


def all_of(commands):
    """Every command: its name, words, the end of its output and its input."""
    yield from commands.cases()
    packages = os.path.join(commands.folder, "packages")
    os.makedirs(packages, exist_ok=True)
    os.chmod(packages, 0o777)
    yield "package", [commands.python, os.path.join(commands.root, "tools", "package"), packages], ".tar.gz\n", ""
    newcomer = os.path.join(commands.root, "tests", "newcomer")
    yield "newcomer", [commands.python, newcomer, "--page", "README.md"], " passed, 0 failed\n", ""


def run_all(title, commands, outputs={}):
    """Each must do its work. Returns all that was said."""
    said = ""
    for command, words, wanted, stdin in all_of(commands):
        began = time.monotonic()
        ran = commands.run(words, stdin)
        took = time.monotonic() - began
        check(f"{title}: {command} ({took:.1f} s)", fault_of(ran, 0, outputs.get(command, wanted), took))
        said += ran[2]
    return said


def with_release(name, user=None):
    """A release of these sources: every command does its work."""
    with copied() as root, tempfile.TemporaryDirectory() as folder, tempfile.TemporaryDirectory() as there:
        commit(root)
        title, kit = f"{name}, {'another user' if user else 'own clone'}", kit_of(name, there)
        for path in (folder, there):
            os.chmod(path, 0o777)
        said = run_all(title, Commands(root, folder, user, PATH=kit.path, HOME=folder, **GIT_TRUSTS))
        check(f"{title}: the release was unpacked, and that was said once",
              "" if said.count(RELEASED) == 1 else f"{said.count(RELEASED)} times")
        told = said.count(OTHER_LOGIC)
        check(f"{title}: another logic is told once, another letter never",
              "" if told == kit.is_of_another_logic else f"{told} times")
        check(f"{title}: the kit was asked for nothing", ", ".join(kit.asked()))


def without_program(name):
    """A release of other sources, and no build: a program that is named serves all the same, and without it every
    command says at once what makes one."""
    with copied() as root, tempfile.TemporaryDirectory() as folder, tempfile.TemporaryDirectory() as there:
        write(os.path.join(root, SOURCE), text_of(root, SOURCE).encode() + b"// changed\n")
        commit(root)
        kit, given = kit_of(name, there), os.path.join(there, "a program")
        shutil.copy(program(), given)
        said = run_all(f"{name}, a program that is named",
                       Commands(root, folder, PATH=kit.path, LAMBDA_LOCAL_PROGRAM=given),
                       {"path": f"{given}\n", "--version": f"the program {given}\n"})
        check(f"{name}: a package names it, and that it was given", "" if "package: program " in said
              and "package: given by LAMBDA_LOCAL_PROGRAM, not proved here" in said else said)
        refuse_all(name, Commands(root, folder, PATH=kit.path))
        check(f"{name}, no program: the kit was asked for nothing", ", ".join(kit.asked()))


def refuse_all(name, commands):
    for command, words, _, stdin in all_of(commands):
        if command == "from_template":
            continue  # (which starts none)
        began = time.monotonic()
        ran = commands.run(words, stdin)
        fault = fault_of(ran, 1 if command in OF_PYTHON else 4, "", time.monotonic() - began)
        told = [line for line in (ran[1] + ran[2]).splitlines() if NONE in line]
        if not fault and not (told and re.search(r"build' proves and builds one, here in about \d+ min", told[0])):
            fault = f"printed {ran[1][-500:]!r}, said {ran[2][-500:]!r}"
        if not fault and command not in OF_PYTHON and ran[2].count("\n") != 1:
            fault = f"said {ran[2]!r}"
        check(f"{name}, no program: {command}", fault)


def run():
    """Runs the table."""
    for name in (*KITS, "no kit"):
        with_release(name)
    if os.getuid() == 0:
        with_release("a kit of another letter", OTHER_USER)
        with_release("no kit", OTHER_USER)
    for name in ("a kit of another letter", "no kit"):
        without_program(name)
