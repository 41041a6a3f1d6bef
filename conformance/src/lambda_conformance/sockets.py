"""Which process has a connection open, and on which ports processes listen, by what the system says in /proc."""
import itertools
import os
from typing import Iterable, Iterator, List, Optional, Set

LISTENS = "0A"  # the state of a socket that does
EPHEMERAL = 32768  # the first port that the system chooses, unless it says another


def owner_of(port: int, peer_port: int, processes: Iterable[int]) -> Optional[int]:
    """The number of the process, among these, that has the connection from `port` to `peer_port` of 127.0.0.1; None if
    none has."""
    inode = inode_of(port, peer_port)
    return next((process for process in processes if inode and inode in sockets_of(process)), None)


def lines_of_sockets(listen: bool = False) -> Iterator[List[str]]:
    """The words of each line about a TCP socket, or about those that listen, which come first: there may be very many
    others, and the system writes no more than is read."""
    for name in ("tcp", "tcp6"):
        try:
            with open(f"/proc/net/{name}") as file:
                for words in map(str.split, itertools.islice(file, 1, None)):
                    if listen and words[3] != LISTENS:
                        break
                    yield words
        except OSError:
            continue


def port_of(word: str) -> int:
    return int(word.rpartition(":")[2], 16)


def inode_of(port: int, peer_port: int) -> Optional[str]:
    """Of the socket of the connection's side at `port`."""
    return next((words[9] for words in lines_of_sockets()
                 if port_of(words[1]) == port and port_of(words[2]) == peer_port), None)


def chosen_ports(processes: Iterable[int]) -> List[int]:
    """The ports on which these processes listen, and which they have chosen: the system gives higher ones."""
    own = set().union(*map(sockets_of, processes))
    ports = {port_of(words[1]) for words in lines_of_sockets(listen=True) if words[9] in own}
    return sorted(port for port in ports if port < first_ephemeral())


def first_ephemeral() -> int:
    try:
        with open("/proc/sys/net/ipv4/ip_local_port_range") as file:
            return int(file.read().split()[0])
    except (OSError, ValueError, IndexError):
        return EPHEMERAL


def sockets_of(process: int) -> Set[str]:
    """The inodes of the sockets that a process has open."""
    found = set()
    folder = f"/proc/{process}/fd"
    try:
        for name in os.listdir(folder):
            target = os.readlink(os.path.join(folder, name))
            if target.startswith("socket:["):
                found.add(target[8:-1])
    except OSError:
        pass
    return found
