"""How much memory this process and its service may have, and how much of it is used."""
import os
import resource
from typing import Dict, Iterable, Iterator, List, NamedTuple, Optional

CGROUP = "/sys/fs/cgroup"
PAGE = os.sysconf("SC_PAGE_SIZE")


class Use(NamedTuple):
    used: int  # bytes
    allowed: int
    by: str  # what allows no more, in words


def number_in(path: str) -> Optional[int]:
    """The number in a file of the system; none if there is none, such as `max`."""
    try:
        with open(path) as file:
            return int(file.read())
    except (OSError, ValueError):
        return None


def folder_of_cgroup() -> Optional[str]:
    """The folder of this process's control group (version 2)."""
    try:
        with open("/proc/self/cgroup") as file:
            path = next((line.strip()[3:] for line in file if line.startswith("0::")), None)
    except OSError:
        return None
    return None if path is None else os.path.normpath(f"{CGROUP}/{path}")


def use_of_service(process: int) -> Optional[Use]:
    """The data of the service, if what begins it has limited that (limits.sh); none if it has ended."""
    try:
        limit = resource.prlimit(process, resource.RLIMIT_DATA)[0]
        with open(f"/proc/{process}/status") as file:
            used = next((int(line.split()[1]) << 10 for line in file if line.startswith("VmData:")), None)
    except OSError:
        return None
    if used is None or limit == resource.RLIM_INFINITY:
        return None
    return Use(used, limit, "the service's memory (LAMBDA_LOCAL_MEMORY), beyond which it answers 500 `Out of memory`")


def use_of_address_space() -> Optional[Use]:
    """The address space of this process, if that is limited; none if there is no descriptor to read it by."""
    limit = resource.getrlimit(resource.RLIMIT_AS)[0]
    if limit == resource.RLIM_INFINITY:
        return None
    try:
        with open("/proc/self/statm") as file:
            return Use(PAGE * int(file.read().split()[0]), limit, "its address space (ulimit -v)")
    except OSError:
        return None


def uses(service: int) -> Iterator[Use]:
    """Each limit that there is."""
    of_service = use_of_service(service)
    if of_service is not None:
        yield of_service
    space = use_of_address_space()
    if space is not None:
        yield space
    folder = folder_of_cgroup()
    while folder is not None and folder.startswith(CGROUP):
        allowed, used = number_in(f"{folder}/memory.max"), number_in(f"{folder}/memory.current")
        if allowed is not None and used is not None:
            yield Use(used, allowed, "the memory of its control group, with all its processes")
            return
        folder = os.path.dirname(folder) if folder != CGROUP else None


def peaks_of(pid: int) -> Dict[int, int]:
    """What a process and each of those below it has had resident at most, in bytes. Nothing of one that has ended."""
    try:
        with open(f"/proc/{pid}/status", "rb") as file:
            peaks = {pid: int(line.split()[1]) << 10 for line in file if line.startswith(b"VmHWM:")}
        tasks = os.listdir(f"/proc/{pid}/task")
    except OSError:
        return {}
    for task in tasks:
        for child in children_of(pid, task):
            peaks.update(peaks_of(child))
    return peaks


def peak_of(pid: int) -> int:
    """The most memory that a process and those below it have used, in bytes: the sum of their peaks."""
    return sum(peaks_of(pid).values())


def share_of(pid: int) -> int:
    """What a process has resident now, in bytes, where several that share a page have a part of it each."""
    try:
        with open(f"/proc/{pid}/smaps_rollup", "rb") as file:
            return sum(int(line.split()[1]) << 10 for line in file if line.startswith(b"Pss:"))
    except OSError:
        return 0


def is_above(processes: Iterable[int], most: int) -> bool:
    """Whether these, with those below them, have used more than so many bytes. What several share counts once."""
    peaks: Dict[int, int] = {}
    for pid in processes:
        peaks.update(peaks_of(pid))
    return sum(peaks.values()) > most and (len(peaks) == 1 or sum(map(share_of, peaks)) > most)


def children_of(pid: int, task: str) -> List[int]:
    try:
        with open(f"/proc/{pid}/task/{task}/children") as file:
            return list(map(int, file.read().split()))
    except OSError:
        return []
