"""The tree as it lies here, for the build backend: a clone with or without changes, or what was unpacked of one."""
import contextlib
import os
import subprocess
import sys
import tempfile
from typing import Callable, Iterator, Tuple

from .source import ROOT, File, Source, is_executable, launched, read, version_of

NEEDED = ("LICENSE", "README.md", "docs", "examples", "tools/lambda_local", "conformance/src")
FIRST_MOMENT = 315532800  # 1980, the first that a zip file knows


def of_git(*words: str) -> str:
    """What git says of the tree; nothing if it is not a clone, or git is not here or does not read it."""
    if not os.path.exists(os.path.join(ROOT, ".git")):  # (a clone above it is another project's)
        return ""
    try:
        done = subprocess.run(["git", "-C", ROOT, *words], stdout=subprocess.PIPE, stderr=subprocess.DEVNULL, text=True)
    except OSError:
        return ""
    return done.stdout.strip() if done.returncode == 0 else ""


def version_here() -> str:
    """The version: what an sdist says of itself, else that of the tree with its commit."""
    with contextlib.suppress(OSError):
        lines = read("PKG-INFO").decode().split("\n\n")[0].splitlines()
        return next(line.partition(": ")[2] for line in lines if line.startswith("Version: "))
    return version_of(of_git("rev-parse", "HEAD"))


def files_below(name: str) -> Iterator[str]:
    """The files of the tree below this name, by their names: none that begins with a dot, none that Python has made."""
    path = os.path.join(ROOT, name)
    if os.path.isfile(path):
        yield name
    for entry in sorted(os.listdir(path)) if os.path.isdir(path) else ():
        if not entry.startswith(".") and entry != "__pycache__":
            yield from files_below(f"{name}/{entry}")


def file_of(name: str) -> File:
    mode = os.stat(os.path.join(ROOT, name)).st_mode
    return (0o755 if is_executable(mode) else 0o644), read(name)


class Folder(Source):
    """The files of a wheel, and the program that is released for these sources, or was built here."""

    def __init__(self, say: Callable[[object], None]) -> None:
        super().__init__(say)
        self.commit, self.version = of_git("rev-parse", "HEAD"), version_here()
        self.moment = max(FIRST_MOMENT, int(os.environ.get("SOURCE_DATE_EPOCH") or of_git("log", "-1", "--format=%ct")
                                            or FIRST_MOMENT))
        with tempfile.TemporaryDirectory() as folder:
            # (where the tree cannot be written the launcher unpacks into the cache, and nothing stays of this one)
            self.take(launched(XDG_CACHE_HOME=folder))
        self.files = dict(self._read())

    @staticmethod
    def _read() -> Iterator[Tuple[str, File]]:
        for needed in NEEDED:
            for name in files_below(needed):
                yield name, file_of(name)


def tell(line: object) -> None:
    print(f"lambda_local: {line}", file=sys.stderr)
