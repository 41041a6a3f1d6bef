"""Which program runs a function that has a `runtime`, by Lambda's names of runtimes or shorter ones."""
import functools
import os
import re
import shutil
import subprocess
import sys
from typing import Optional, Tuple

from ..service import Fault

NAMED = re.compile(r"(python)(?:(3)(?:\.(\d{1,2}))?)?|(node)(?:js(\d{1,3})\.x)?")
LONGEST_SECONDS = 20.0  # for a program to say its version
FILES = {"python": "runtime.py", "node": "runtime.mjs"}


def is_runtime(value: object) -> bool:
    return isinstance(value, str) and NAMED.fullmatch(value) is not None


def is_of_python(value: object) -> bool:
    return isinstance(value, str) and is_runtime(value) and language_of(value) == "python"


def language_of(runtime: str) -> str:
    return "python" if runtime.startswith("python") else "node"


def python_of(runtime: str, given: Optional[str], directory: str) -> Tuple[str, str]:
    """The interpreter, and a note if it is of another version than the runtime. By default it is the one that runs this
    tool, since that has the packages of the project; one of the wanted version on PATH comes before it if this is of
    another."""
    own = sys.executable or "python3"
    if given is not None:
        return (os.path.join(directory, given) if "/" in given else given), ""
    named = NAMED.fullmatch(runtime)
    minor = named[3] if named else None
    if minor is None or int(minor) == sys.version_info[1]:
        return own, ""
    is_there = shutil.which(f"python3.{minor}") is not None
    # (one that a manager of versions has put there may refuse to start)
    if is_there and version_of(f"python3.{minor}", "python") == f"3.{minor}":
        return f"python3.{minor}", ""
    return own, (f"python3.{minor} {'does not start' if is_there else 'not found'}, using "
                 f"{sys.version_info[0]}.{sys.version_info[1]} (set \"python\" to choose another)")


def program_of_runtime(runtime: str, given: Optional[str], directory: str, where: str) -> Tuple[str, str]:
    """The program of a runtime, and a note on it."""
    if language_of(runtime) == "python":
        return python_of(runtime, given, directory)
    if given is not None:
        raise Fault(2, f"{where}: python is for \"runtime\": \"python\": leave it out")
    return "node", ""


@functools.lru_cache(maxsize=None)
def version_of(program: str, language: str) -> str:
    """The version of an interpreter as the folders of layers have it: "3.11" or "20"; nothing if it does not say."""
    code = {"python": ["-I", "-c", "import sys; print('%d.%d' % sys.version_info[:2])"],
            "node": ["-p", "process.versions.node.split('.')[0]"]}[language]
    try:
        done = subprocess.run([program, *code], stdin=subprocess.DEVNULL, stdout=subprocess.PIPE,
                              stderr=subprocess.DEVNULL, text=True, timeout=LONGEST_SECONDS)
    except (OSError, subprocess.SubprocessError):
        return ""
    return done.stdout.strip() if re.fullmatch(r"[0-9.]{1,10}\s*", done.stdout) else ""
