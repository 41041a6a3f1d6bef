"""The debugger with which `--debug F` starts a bundled runtime: debugpy, if the function's Python has it, or Node's
own. It listens at a port, and the runtime's first line waits for a client."""
import subprocess
from typing import List, NamedTuple, Optional, Tuple

from ..service import Fault, free_ports, is_taken
from .programs import language_of

USUAL = {"python": 5678, "node": 9229}  # the ports that editors take by default
LONGEST_SECONDS = 20.0  # for an interpreter to say whether it has debugpy
PAGE = "docs/debugging.md"


class Wanted(NamedTuple):
    """What `--debug` says."""
    function: str
    port: Optional[int]


class Started(NamedTuple):
    """The words of a runtime's command, and a line about it. If there is no debugger, `port` is none."""
    words: List[str]
    port: Optional[int]
    said: str


def wanted_of(text: str) -> Wanted:
    """F or F:PORT."""
    name, colon, port = text.partition(":")
    if not colon:
        return Wanted(name, None)
    if not (port.isascii() and port.isdigit() and 0 < int(port) < 65536):
        raise Fault(2, f"--debug {text[:100]}: write it as F or F:PORT, with a port from 1 to 65535")
    return Wanted(name, int(port))


def port_for(language: str, given: Optional[int]) -> int:
    """The given one; the usual one; or a free one."""
    if given is not None and is_taken(given):
        raise Fault(4, f"--debug: port {given}: another program listens there: leave it out, and a free one is used")
    usual = USUAL[language]
    return given or (usual if not is_taken(usual) else free_ports(1, ())[0])


def has_debugpy(python: str) -> bool:
    try:
        return subprocess.run([python, "-c", "import debugpy"], stdin=subprocess.DEVNULL, stdout=subprocess.DEVNULL,
                              stderr=subprocess.DEVNULL, timeout=LONGEST_SECONDS).returncode == 0
    except (OSError, subprocess.SubprocessError):
        return False


def started(runtime: str, command: Tuple[str, str], given: Optional[int], node_options: str = "") -> Started:
    """How the runtime is started, of this program and file."""
    program, path = command
    if language_of(runtime) == "node":
        if "--inspect" in node_options:
            return Started([program, path], None, "its NODE_OPTIONS start the debugger")
        port = port_for("node", given)
        return Started([program, f"--inspect-brk=127.0.0.1:{port}", path], port,
                       f"attach a debugger of Node at 127.0.0.1:{port} ({PAGE} has a launch.json)")
    if not has_debugpy(program):
        return Started([program, path], None, f"no debugger is started, since {program} has no debugpy: `{program} -m "
                       f"pip install debugpy`, or start the runtime yourself ({PAGE})")
    port = port_for("python", given)
    return Started([program, "-m", "debugpy", "--listen", f"127.0.0.1:{port}", "--wait-for-client", path], port,
                   f"attach a debugger of Python at 127.0.0.1:{port} ({PAGE} has a launch.json)")
