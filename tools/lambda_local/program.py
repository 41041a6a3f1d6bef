"""The program that the tools start, and what ends a tool.

The program is the one given, else LAMBDA_LOCAL_PROGRAM, else the one that was installed with the tools, else the one
that the repository's ./lambda_local finds: none is proved or built for a tool."""
import functools
import os
import shutil
import subprocess
from typing import Optional

from .outgoing import tell
from .paths import LAUNCHER, own_program

FOUND = "LAMBDA_LOCAL_FOUND"  # by which the launcher says which program it has found, to the tool that it becomes alone


class Fault(Exception):
    """What ends a tool: a status, and a line that says what to do."""

    def __init__(self, status: int, message: str) -> None:
        super().__init__(message)
        self.status = status


class NoProgram(Fault):
    """There is no program to start: status 4 in every tool."""

    def __init__(self, message: str) -> None:
        super().__init__(4, message)


def program_path(given: Optional[str] = None) -> str:
    """The program that a tool starts."""
    program = given or os.environ.get("LAMBDA_LOCAL_PROGRAM") or own_program()
    path = shutil.which(program)
    if not path:
        raise NoProgram(f"{program} is not a program: name one by --program or LAMBDA_LOCAL_PROGRAM")
    if os.path.realpath(path) == LAUNCHER:
        program = ask_launcher(path)
    if program.endswith(".unproved"):
        tell_unproved(program)
    return program


class FromLauncher:
    """What the launcher that became this process has found, if it did."""
    program: Optional[str] = None


def take_from_launcher() -> None:
    """Once, at the start: what this process starts is not to find it."""
    FromLauncher.program = os.environ.pop(FOUND, None)


@functools.lru_cache(maxsize=None)
def ask_launcher(launcher: str) -> str:
    """The program that the launcher finds: it is asked once a process. What it says beside that is passed on."""
    if FromLauncher.program and os.path.isfile(FromLauncher.program):
        return FromLauncher.program
    variables = {name: value for name, value in os.environ.items() if name != "LAMBDA_LOCAL_PROGRAM"}
    done = subprocess.run([launcher, "path"], stdin=subprocess.DEVNULL, capture_output=True, text=True,
                          errors="replace", env=variables)
    said = [line.replace("lambda_local: ", "", 1) for line in done.stderr.splitlines()]
    if done.returncode:
        raise NoProgram(said[-1] if said else f"{launcher} path ended with status {done.returncode}")
    for line in said:
        tell(f"lambda_local: {line}")
    return done.stdout.rstrip("\n")


@functools.lru_cache(maxsize=None)
def tell_unproved(program: str) -> None:
    tell(f"lambda_local: {program} is not proved: './lambda_local build' proves and builds the program")


def place_of_fault(program: str, configuration: bytes) -> str:
    """Where the first fault of a configuration is, as the program says it; nothing if it does not."""
    try:
        done = subprocess.run([program, "explain"], input=configuration, stdout=subprocess.DEVNULL,
                              stderr=subprocess.PIPE)
    except OSError:
        return ""
    lines = done.stderr.decode(errors="replace").splitlines()
    return lines[1] if done.returncode == 2 and len(lines) == 2 and lines[0].startswith("configuration: ") else ""
