"""What a process leaves in folders: a file for each request fills them in the end."""
import contextlib
import itertools
import os
import tempfile
import time
from typing import TYPE_CHECKING, Callable, Dict, Iterator, List, Set, Tuple

from .kit import FAIL

if TYPE_CHECKING:
    from .stage import Stage

READ = 200_000  # bytes of a file that are searched
FILE = 1000  # bytes of a file that may be one for each request; a larger one is a payload
LEFT = 5  # files, from which on they are one for each
MOST_KNOWN = 50_000  # entries of folders that everyone uses, after which no further look is taken there
ALIKE = 3  # letters with which names begin that are alike
NEARLY = 0.9  # of the requests, and of the looks, that have a file each
LEAST_LOOKS = 4


class Files:
    """What a process leaves in the folder for temporary files, which is its own, and in others, in which what is its
    own has one of these marks in its name or in it: only the tested program knows these. `each` are the bytes for each
    request by which a single file grows that is not to."""

    def __init__(self, stage: "Stage", marks: Callable[[], List[bytes]], each: int = FILE) -> None:
        self._stage, self._marks, self._each, self._since = stage, marks, each, time.time() - 1
        self._looks: List[Tuple[int, int, int]] = []  # requests, and entries and bytes of its own folder
        self._unmarked = Unmarked(self._folders())

    def look(self, done: int) -> None:
        sizes = [size_of(entry) for entry in below(self._stage.environment.folder)]
        self._looks.append((done, len(sizes), sum(sizes)))
        self._unmarked.look(done)

    def judge(self, name: str) -> None:
        """A file for each request fills the folder in the end; clients of AWS's own leave small ones."""
        quarter = len(self._looks) // 4
        (first, entries, size), (done, more, larger) = self._looks[quarter], self._looks[-1]
        elsewhere = max(self._left_elsewhere(), self._unmarked.left(), key=len)
        count, total = more - entries + len(elsewhere), larger - size + sum(elsewhere)
        words = f"{count} files with {total:,} bytes, after {done} invocations"
        has_many = count >= LEFT
        if total > (FILE * count if has_many else self._each * max(done - first, LEFT)):
            return self._stage.jury.judge(name, FAIL, words)
        if has_many:
            return self._stage.should(name, words)
        return self._stage.check(name, True, "", f"{max(count, 0)} left")

    def _left_elsewhere(self) -> List[int]:
        """The sizes of the files of other folders, written since it began."""
        marks, sizes = self._marks(), []
        for folder in self._folders():
            for entry in entries_of(folder):
                try:
                    found = entry.stat(follow_symlinks=False)
                    if found.st_mtime >= self._since and found.st_uid == os.getuid() and has_a_mark(entry, marks):
                        sizes.append(found.st_size)
                except OSError:
                    continue
        return sizes

    def _folders(self) -> List[str]:
        own = self._stage.environment.folder
        named = {tempfile.gettempdir(), "/tmp", "/var/tmp", "/dev/shm", os.getcwd()}
        return sorted(folder for folder in named if folder != own and os.path.isdir(folder))


class Unmarked:
    """Files of folders that everyone uses: those whose names begin and end alike, and of which there is one more for
    nearly each request, look after look, are the tested program's, whatever is in them."""

    def __init__(self, folders: List[str]) -> None:
        self._folders = folders
        self._known: Set[str] = set()  # paths, of all that was there at a look
        self._found: Dict[Tuple[str, str, str], List[str]] = {}  # paths, by the folder and by how their names are alike
        self._counts: List[Tuple[int, Dict[Tuple[str, str, str], int]]] = []  # by the number of requests

    def look(self, done: int) -> None:
        for folder in self._folders if len(self._known) < MOST_KNOWN else ():
            for entry in own_entries(folder):
                if entry.path not in self._known:
                    self._known.add(entry.path)
                    if self._counts:  # (at the first look all are older)
                        alike = (folder, entry.name[:ALIKE], os.path.splitext(entry.name)[1])
                        self._found.setdefault(alike, []).append(entry.path)
        self._counts.append((done, {alike: len(paths) for alike, paths in self._found.items()}))

    def left(self) -> List[int]:
        """The sizes of those that are one for nearly each request, and still there."""
        sizes: List[int] = []
        for alike, paths in self._found.items():
            if self._come_with_requests(alike):
                sizes += [os.lstat(path).st_size for path in paths if os.path.lexists(path)]
        return sizes

    def _come_with_requests(self, alike: Tuple[str, str, str]) -> bool:
        parts = list(zip(self._counts, self._counts[1:]))
        as_many = [after[1].get(alike, 0) - before[1].get(alike, 0) >= NEARLY * (after[0] - before[0])
                   for before, after in parts]
        return len(parts) >= LEAST_LOOKS and sum(as_many) >= NEARLY * len(as_many)


def own_entries(folder: str) -> Iterator[os.DirEntry[str]]:
    """Entries of this user's in a folder."""
    try:
        for entry in itertools.islice(os.scandir(folder), MOST_KNOWN):
            with contextlib.suppress(OSError):
                if entry.stat(follow_symlinks=False).st_uid == os.getuid():
                    yield entry
    except OSError:
        return


def has_a_mark(entry: os.DirEntry[str], marks: List[bytes]) -> bool:
    if any(mark in os.fsencode(entry.name) for mark in marks):
        return True
    if not entry.is_file(follow_symlinks=False):
        return False
    with open(entry.path, "rb") as file:
        content = file.read(READ)
    return any(mark in content for mark in marks)


def size_of(entry: os.DirEntry[str]) -> int:
    try:
        return entry.stat(follow_symlinks=False).st_size if entry.is_file(follow_symlinks=False) else 0
    except OSError:
        return 0


def below(folder: str) -> Iterator[os.DirEntry[str]]:
    """All entries below a folder."""
    try:
        for entry in os.scandir(folder):
            yield entry
            if entry.is_dir(follow_symlinks=False):
                yield from below(entry.path)
    except OSError:
        return


def entries_of(folder: str) -> Iterator[os.DirEntry[str]]:
    """The entries of a folder, and of those in it."""
    for entry in os.scandir(folder):
        yield entry
        try:
            if entry.is_dir(follow_symlinks=False):
                yield from os.scandir(entry.path)
        except OSError:
            continue
