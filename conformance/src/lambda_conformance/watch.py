"""What the system says in /proc of the processes of a session: whether they work, and what they hold."""
import math
import os
import threading
import time
from typing import Dict, FrozenSet, Iterable, List, NamedTuple, Optional, Tuple

from .clock import CLOCK

CALM = 1.3  # times as long as usual a little work may take before it matters whether the machine or the program is slow
LISTED, SEEN = 1.5, 0.5  # seconds for which a list of processes is used again, and one that others have made
MOST_READ = 20_000  # processes whose environment is remembered
BRIEF = 0.2  # seconds in which it does not matter yet
PAGE = os.sysconf("SC_PAGE_SIZE")
TICKS = os.sysconf("SC_CLK_TCK")  # in a second
NO_SESSION = -1  # the number of none


def fields(path: str) -> List[str]:
    """The words of a `stat` file behind the command's name, from the state on; nothing if the process is gone."""
    try:
        descriptor = os.open(path, os.O_RDONLY)
    except OSError:
        return []
    try:
        return os.read(descriptor, 1024).rpartition(b")")[2].decode().split()
    except OSError:
        return []
    finally:
        os.close(descriptor)


class Older:
    """The processes that were there before any that is tested: none of these is looked at, since on most machines they
    are the most."""

    def __init__(self) -> None:
        self._names: FrozenSet[str] = frozenset()

    def note(self) -> None:
        self._names = frozenset(os.listdir("/proc"))

    def others(self) -> List[int]:
        """The numbers of all others. (A number may come again once its process has ended.)"""
        names = os.listdir("/proc")
        self._names = self._names.intersection(names)
        return [int(name) for name in names if name not in self._names and name.isdigit()]


OLDER = Older()


class Sessions:
    """The processes that run, by their sessions. To look at all takes a while, and several scenarios ask at once."""

    def __init__(self) -> None:
        self._lock = threading.Lock()
        self._seen = -math.inf  # when, by `time.monotonic`
        self._members: Dict[int, List[int]] = {}

    def look(self) -> None:
        self._seen, self._members = time.monotonic(), {}
        for number in OLDER.others():
            words = fields(f"/proc/{number}/stat")
            if words and words[0] != "Z":
                self._members.setdefault(int(words[3]), []).append(number)

    def members(self, session: int, since: Optional[float] = None) -> List[int]:
        """The numbers of those of a session: now, or, of one that has begun since then, as they were a moment ago."""
        with self._lock:
            is_old = time.monotonic() - self._seen > SEEN
            if since is None or is_old or self._seen < since and session not in self._members:
                self.look()
            return list(self._members.get(session, ()))


members = Sessions().members


class Found(NamedTuple):
    """The processes of a command: those that run, and those of its session that have ended and are not waited for."""
    running: List[int]
    zombies: List[int]


def processes_of(session: int, mark: bytes) -> Found:
    """Those of a session, and those that are not older and have these words in their environment, in whatever
    session."""
    found, begun = Found([], []), begun_at(session) or 0
    for number in OLDER.others():
        words = fields(f"/proc/{number}/stat")
        if words and int(words[3]) == session:
            (found.zombies if words[0] == "Z" else found.running).append(number)
        elif words and int(words[19]) >= begun and VARIABLES.has(number, words, mark):
            found.running.append(number)
    return found


class Variables:
    """What processes have as one variable of their environment, each of which is read once: it is another one after an
    `exec`, and then stands elsewhere."""

    def __init__(self) -> None:
        self._read: Dict[Tuple[int, bytes], Tuple[List[str], bytes]] = {}

    def has(self, process: int, words: List[str], mark: bytes) -> bool:
        """Whether it has this one, by the words of its `stat` file: when it began, and where its environment stands
        (nothing but 0 for one that is not ours to see)."""
        name, place = mark.partition(b"=")[0] + b"=", [words[19], *words[47:49]]
        known = self._read.get((process, name))
        if known is None or known[0] != place or "0" in place:
            if len(self._read) > MOST_READ:
                self._read.clear()
            known = self._read[process, name] = place, value_of(process, name)
        return known[1] == mark


VARIABLES = Variables()


def value_of(process: int, name: bytes) -> bytes:
    """The variable of its environment that begins so; nothing if it has none."""
    try:
        with open(f"/proc/{process}/environ", "rb", buffering=0) as file:
            return next((one for one in file.read().split(b"\0") if one.startswith(name)), b"")
    except OSError:
        return b""


def begun_at(process: int) -> Optional[int]:
    """When a process began, in the system's own clock ticks; None if it is gone."""
    words = fields(f"/proc/{process}/stat")
    return int(words[19]) if words else None


def began_after(process: int, moment: float) -> bool:
    """Whether a process began after a moment of `time.monotonic`."""
    ticks = begun_at(process)
    uptime = time.clock_gettime(time.CLOCK_BOOTTIME) - (time.monotonic() - moment)
    return ticks is not None and ticks / TICKS > uptime


def parent_of(process: int) -> Optional[int]:
    words = fields(f"/proc/{process}/stat")
    return int(words[1]) if words else None


def threads_of(process: int) -> List[str]:
    try:
        return os.listdir(f"/proc/{process}/task")
    except OSError:
        return []


def is_asleep(processes: Iterable[int]) -> bool:
    """Whether none of these has a thread that could work, or waits for a disk."""
    return all(fields(f"/proc/{process}/task/{thread}/stat")[:1] not in (["R"], ["D"])
               for process in processes for thread in threads_of(process))


def worked(processes: Iterable[int]) -> float:
    """Seconds of a processor that these and their ended children have had. (In steps of a hundredth.)"""
    found = [fields(f"/proc/{process}/stat")[11:15] for process in processes]
    return sum(int(ticks) for words in found for ticks in words) / TICKS


def resident(process: int) -> int:
    try:
        with open(f"/proc/{process}/statm") as file:
            return int(file.read().split()[1]) * PAGE
    except (OSError, IndexError):
        return 0


def open_descriptors(process: int) -> int:
    try:
        return len(os.listdir(f"/proc/{process}/fd"))
    except OSError:
        return 0


class OwnTime:
    """How long a session's processes take by themselves. While they sleep, that is the real time; while they could
    work, it is the time of a processor that this machine gives them. So a program that waits too long is late on a busy
    machine too, and one that is not served is not."""

    def __init__(self, session: int, since: Optional[float] = None) -> None:
        self._session, self._listed = session, 0.0
        self._members: List[int] = []
        self._begun = self._at = time.monotonic() if since is None else since
        self._worked: Optional[float] = None  # at the last look, if that was one at a busy machine
        self.seconds, self.real = 0.0, 0.0

    def look(self) -> float:
        """Counts the time since the last look. Returns the seconds until now."""
        now = time.monotonic()
        passed, self._at = now - self._at, now
        self.real += passed
        slowness = CLOCK.slowness()
        if slowness < CALM:
            self.seconds, self._worked = self.seconds + passed, None
            return self.seconds
        before, is_listed = self._worked, self._list(now)
        self._worked = worked(self._members)
        if self.real > BRIEF and is_asleep(self._members):
            self.seconds += passed
        elif before is not None and is_listed:
            self.seconds += min(passed, max(0.0, self._worked - before))
        else:
            self.seconds += passed / slowness
        return self.seconds

    def has_others(self) -> bool:
        """Whether there are processes now that have been started since: in place of others, if the command itself is to
        have ended."""
        return any(began_after(number, self._begun) for number in members(self._session))

    def _list(self, now: float) -> bool:
        """Lists the processes anew now and then. Returns whether they are those of the last look."""
        if now - self._listed <= LISTED:
            return True
        before, self._members, self._listed = self._members, members(self._session, self._begun), now
        return before == self._members
