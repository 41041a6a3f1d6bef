"""The environment variables of the command and of functions, and whether the clients on PATH read them."""
import contextlib
import os
import re
import shutil
import signal
import subprocess
import sys
import threading
import time
from typing import Callable, Dict, Iterator, List, Mapping, Optional, Sequence, Tuple

from ..guard import GUARD
from ..service import Service
from ..variables import of_callers, of_function, past_proxies
from .log import Log
from .members import Function

# The first that read AWS_ENDPOINT_URL_LAMBDA; older ones call AWS itself.
OLDEST_BOTO3 = (1, 28)
OLDEST_AWS = {1: (1, 29), 2: (2, 13)}
LONGEST_SECONDS = 10.0  # for a client to say its version


def of_environment(service: Service, function: Function, number: int, port: int, keeps_credentials: bool,
                   addresses: Mapping[str, str] = {}) -> Dict[str, str]:
    """The variables of an environment's processes. `addresses` are those of routes and URLs."""
    variables = {
        "TZ": ":UTC", "PYTHONUNBUFFERED": "1", **of_callers(service, keeps_credentials), **addresses,
        **({} if keeps_credentials else {"AWS_SESSION_TOKEN": "local"}),
        **address_of(function, port),
        "_HANDLER": function.handler, "LAMBDA_TASK_ROOT": os.path.realpath(function.directory),
        **of_function(function.name, function.memory, number), **function.variables}
    return {**variables, **past_proxies(variables)}


def address_of(function: Function, port: int) -> Dict[str, str]:
    """The variable by which an environment's processes find its port, or what is before that."""
    name = "AWS_LAMBDA_RUNTIME_API"
    return {name: function.variables.get(name, f"127.0.0.1:{port}")}


def written(version: Sequence[int]) -> str:
    return ".".join(map(str, version))


def warning(client: str, version: Sequence[int], newer: str, otherwise: str) -> str:
    return (f"{client} {written(version)} ignores AWS_ENDPOINT_URL_LAMBDA and would call AWS itself: take {newer} or "
            f"newer, or give it {otherwise}")


def is_python_of_path() -> bool:
    """Whether `python3` starts this interpreter: it was started so, or is in that folder."""
    here = shutil.which("python3")
    return getattr(sys, "orig_argv", [""])[0] == "python3" or (
        here is not None and os.path.dirname(here) == os.path.dirname(sys.executable))


def own_boto3() -> Optional[Tuple[int, int]]:
    """The version of this interpreter's boto3; none if it has none, or says none."""
    try:
        from importlib import metadata  # (which takes a while)
        return version_in(metadata.version("boto3") or "")
    except (ImportError, KeyError, OSError):  # (it is not there; or no descriptor, which is not waited for, as below)
        return None


def version_in(text: str) -> Optional[Tuple[int, int]]:
    match = re.search(r"(?:^|/)(\d+)\.(\d+)", text)
    return (int(match[1]), int(match[2])) if match else None


def old_clients(version_of: Callable[[List[str]], Optional[Tuple[int, int]]]) -> Iterator[str]:
    """A sentence on each client on PATH that is too old to come here by itself."""
    boto3 = own_boto3() if is_python_of_path() else version_of(
        ["python3", "-c", "import importlib.metadata as m; print(m.version('boto3'))"])
    if boto3 and boto3 < OLDEST_BOTO3:
        yield warning("boto3", boto3, written(OLDEST_BOTO3), "endpoint_url=os.environ['AWS_ENDPOINT_URL_LAMBDA']")
    aws = version_of(["aws", "--version"])
    if aws and aws < OLDEST_AWS.get(aws[0], (0, 0)):
        newer = " or ".join(map(written, OLDEST_AWS.values()))
        yield warning("aws", aws, newer, '--endpoint-url "$AWS_ENDPOINT_URL_LAMBDA"')


class Clients(threading.Thread):
    """Looks for old clients once all is ready, beside the user's command: a client may take seconds to say its version,
    which nobody waits for."""

    def __init__(self, log: Log, stopping: threading.Event) -> None:
        super().__init__(name="clients", daemon=True)
        self.log, self.stopping = log, stopping
        self.lock = threading.Lock()
        self.child: "Optional[subprocess.Popen[str]]" = None  # that is asked
        self.is_over = False

    def run(self) -> None:
        # (nothing else needs this: it waits for no descriptor, also of an import, and `end` may have reaped the child)
        with contextlib.suppress(OSError, ImportError):
            for sentence in old_clients(self.version_of):
                self.log("up", sentence, level="warning", kind="client")

    def version_of(self, words: List[str]) -> Optional[Tuple[int, int]]:
        """The first version that a program prints; none if it is not here, fails, or takes long."""
        if self.stopping.is_set():
            return None
        command, pipe = GUARD.announcing(words)
        with self.lock:
            if self.is_over:
                return None
            self.child = child = subprocess.Popen(command, stdin=pipe, stdout=subprocess.PIPE, stderr=subprocess.STDOUT,
                                                  text=True, errors="replace", start_new_session=True)
        printed, end = None, time.monotonic() + LONGEST_SECONDS
        while printed is None:
            try:
                printed, _ = child.communicate(timeout=0.1)
            except subprocess.TimeoutExpired:
                if self.stopping.is_set() or time.monotonic() > end:
                    os.killpg(child.pid, signal.SIGKILL)
        with self.lock:
            if not self.is_over:  # (then the guard may be ending)
                GUARD.release(child.pid)
        return version_in(printed) if child.returncode == 0 else None

    def end(self) -> None:
        """Ends what is asked at once, and waits for nothing else: the process may end while the thread goes on."""
        with self.lock:
            self.is_over = True
            if self.child is not None and self.child.poll() is None:
                with contextlib.suppress(ProcessLookupError):
                    os.killpg(self.child.pid, signal.SIGKILL)
                self.child.wait()
