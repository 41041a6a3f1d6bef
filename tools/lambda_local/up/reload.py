"""Begins a function's environments anew when its files change."""
import fnmatch
import os
import re
import threading
import time
from typing import Dict, FrozenSet, List, NamedTuple, Optional, Protocol, Sequence, Tuple

from ..service import Service, ask
from .environments import Environment
from .log import Log
from .members import Function

SKIPPED = {"__pycache__", "node_modules", "venv", "dist", "build", "target"}
ENVIRONMENT = "pyvenv.cfg"  # what a virtual environment of Python has
BETWEEN_LOOKS = 0.5  # seconds
MOST_IGNORED = 1 << 20  # bytes of a .gitignore
Times = Dict[str, int]  # nanoseconds, by the paths of files


class Pattern(NamedTuple):
    """A line of a .gitignore."""
    is_taken_back: bool  # what others ignore
    of_folders: bool  # alone
    folder: Optional[str]  # where it is anchored
    text: str


class Watched(Protocol):
    """What says which files are looked at."""
    watch: List[str]
    handler: str
    command: Optional[List[str]]


class Ignored:
    """What the .gitignore files of a folder and of those above it leave out. (** in a pattern counts as one *.)"""

    def __init__(self, patterns: Tuple[Pattern, ...] = ()) -> None:
        self.patterns = patterns

    def below(self, folder: str) -> "Ignored":
        """The same with the file of this folder."""
        try:
            with open(os.path.join(folder, ".gitignore"), encoding="utf-8", errors="replace") as file:
                lines = file.read(MOST_IGNORED).splitlines()
        except OSError:
            return self
        return Ignored((*self.patterns, *filter(None, (pattern_of(line, folder) for line in lines))))

    def has(self, path: str, is_folder: bool) -> bool:
        is_ignored = False
        for is_taken_back, of_folders, folder, pattern in self.patterns:
            if is_folder or not of_folders:
                name = os.path.basename(path) if folder is None else os.path.relpath(path, folder)
                if fnmatch.fnmatchcase(name, pattern):
                    is_ignored = not is_taken_back
        return is_ignored


def pattern_of(line: str, folder: str) -> Optional[Pattern]:
    """None for an empty line and a comment."""
    line = line.rstrip()
    if not line or line.startswith("#"):
        return None
    is_taken_back, line = line.startswith("!"), line.lstrip("!")
    of_folders, text = line.endswith("/"), line.strip("/")
    is_anchored = "/" in line.rstrip("/") and not text.startswith("**/")
    return Pattern(is_taken_back, of_folders, folder if is_anchored else None,
                   text[3:] if text.startswith("**/") else text)


class Files:
    """The watched files of a function, hidden ones left out, those that its .gitignore names, and folders that hold
    packages or what was built. What its handler or its command names is watched in any case."""

    def __init__(self, function: Watched) -> None:
        self.paths = tuple(function.watch)
        words = [function.handler, *(function.command or ())]
        self.named = frozenset(part for word in words for part in re.split(r"[/:]", word) if part)

    @property
    def key(self) -> Tuple[Tuple[str, ...], FrozenSet[str]]:
        """Functions with the same key have the same files."""
        return self.paths, self.named

    def times(self) -> Times:
        """The time of each file."""
        seen: Times = {}
        for path in self.paths:
            if os.path.isfile(path):
                note(seen, path)
            elif os.path.isdir(path):
                self.walk(path, Ignored(), seen)
        return seen

    def walk(self, folder: str, ignored: Ignored, seen: Times) -> None:
        ignored = ignored.below(folder)
        try:
            entries = list(os.scandir(folder))
        except OSError:
            return  # (it has gone)
        for entry in entries:
            if entry.name.startswith(".") or entry.name.endswith(".pyc"):
                continue
            is_folder = entry.is_dir(follow_symlinks=False)
            if entry.name not in self.named and ignored.has(entry.path, is_folder):
                continue
            if not is_folder:
                note(seen, entry.path)
            elif not self.is_skipped(entry):
                self.walk(entry.path, ignored, seen)

    def is_skipped(self, entry: "os.DirEntry[str]") -> bool:
        if entry.name in self.named:
            return False
        return entry.name in SKIPPED or os.path.exists(os.path.join(entry.path, ENVIRONMENT))


def times(paths: Sequence[str]) -> Times:
    """The times of all files below these paths."""
    return Files(Paths(paths)).times()


class Paths:
    """Paths to watch, of no function."""
    handler = ""
    command: Optional[List[str]] = None

    def __init__(self, watch: Sequence[str]) -> None:
        self.watch = list(watch)


def is_output(seen: os.stat_result) -> bool:
    """Whether it is the file that this process writes to, as its standard output or error."""
    for number in (1, 2):
        try:
            if os.path.samestat(seen, os.fstat(number)):
                return True
        except OSError:
            pass  # (it is closed)
    return False


def note(seen: Times, path: str) -> None:
    """Notes a file's time, but for the file that lambda_local up itself writes to: it would begin all anew by saying
    so."""
    try:
        seen_now = os.stat(path)
    except OSError:
        return  # (it has gone)
    if not is_output(seen_now):
        seen[path] = seen_now.st_mtime_ns


class Reload(threading.Thread):
    """Looks at the times of the watched files twice a second, more seldom if that takes long. Functions that have the
    same files are looked at once."""

    def __init__(self, environments: List[Environment], service: Service, stopping: threading.Event, log: Log,
                 paths: Sequence[str]) -> None:
        super().__init__(name="reload")
        self.environments, self.service, self.stopping, self.log = environments, service, stopping, log
        self.paths = list(paths)  # of UP.json, or of a template and the values for it
        # The environments to be spun down, with their generation when the file changed
        self.due: Dict[Environment, int] = {}

    def run(self) -> None:
        functions = {environment.function.name: environment.function for environment in self.environments}
        files = {name: Files(function) for name, function in functions.items()}
        seen, own, took = self.look(files), times(self.paths), 0.0
        while not self.stopping.wait(max(BETWEEN_LOOKS, 4 * took)):
            begun = time.monotonic()
            now, own_now = self.look(files), times(self.paths)
            took = time.monotonic() - begun
            for name, function in functions.items():
                if now[name] != seen[name]:
                    self.changed(function, sorted(path for path in now[name].keys() | seen[name].keys()
                                                  if now[name].get(path) != seen[name].get(path)))
            if own_now != own:
                changed = next(path for path in {**own, **own_now} if own.get(path) != own_now.get(path))
                self.log("up", f"{os.path.relpath(changed)} has changed: restart lambda_local up to apply it",
                         level="warning", kind="reload")
            seen, own = now, own_now
            try:
                self.spin_down()
            except OSError:
                return  # (the service has ended)

    def look(self, files: Dict[str, Files]) -> Dict[str, Times]:
        """The times of each function's files. UP.json is none of them: its changes are told apart."""
        times: Dict[Tuple[Tuple[str, ...], FrozenSet[str]], Times] = {}
        own = {os.path.realpath(path) for path in self.paths}
        for each in files.values():
            if each.key not in times:
                times[each.key] = {path: moment for path, moment in each.times().items()
                                   if os.path.realpath(path) not in own}
        return {name: times[each.key] for name, each in files.items()}

    def changed(self, function: Function, paths: List[str]) -> None:
        self.log("up", f"restarting {function.name}: {os.path.relpath(paths[0])} changed")
        for environment in self.environments:
            if environment.function is function and environment.is_started:
                self.due[environment] = environment.generation
                environment.pause.hurry.set()

    def spin_down(self) -> None:
        """One that is busy or in its Init is asked again at the next look (409)."""
        for environment, generation in list(self.due.items()):
            path = f"/_local/env/{environment.number}/spindown"
            if environment.generation != generation or ask(self.service.port, "POST", path)[0] == 202:
                del self.due[environment]
