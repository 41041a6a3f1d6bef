"""An environment of a stage: its port in the service, the proxy before it, and the process that is tested."""
import json
import tempfile
import time
from typing import TYPE_CHECKING, Any, Callable, List, Optional

from lambda_local.service import EXTENSION, RUNTIME, ask

from .exchanges import Exchange
from .kit import Missing
from .process import Process, collecting_early, variables_of
from .proxy import Proxy
from .watch import OwnTime

if TYPE_CHECKING:
    from .stage import Stage

LOOK = 0.05  # seconds between two looks at what a process does
IDENTIFIED = "Lambda-Extension-Identifier"
FAILURE_TYPE = "Lambda-Extension-Function-Error-Type"


def report_failure(port: int, identifier: str, message: str) -> None:
    """Says for an extension that it exits, with which its environment is at its end."""
    ask(port, "POST", EXTENSION + "exit/error", json.dumps({"errorMessage": message, "errorType": "Extension.Crash"}),
        {IDENTIFIED: identifier, FAILURE_TYPE: "Extension.Crash"})


class Environment:
    """One environment: its port in the service, the proxy before it, and the process that is tested."""

    own: OwnTime  # what the last wait for a request took

    def __init__(self, stage: "Stage", number: int, port: int) -> None:
        self.stage, self.number, self.service_port = stage, number, port
        self.proxy = Proxy(port)
        # (for temporary files, as in Lambda, below the service's, which is removed in any case)
        self.folder = tempfile.mkdtemp(dir=stage.service.folder)
        self._process: Optional[Process] = None

    @property
    def process(self) -> Process:
        """That was started last; Missing if none was."""
        if self._process is None:
            raise Missing("no process was started")
        return self._process

    @property
    def is_started(self) -> bool:
        return self._process is not None

    def start(self) -> Process:
        """Starts the command anew, as Lambda starts an environment."""
        stage = self.stage
        stage.acted = time.monotonic()
        more = {"TMPDIR": self.folder, **stage.variables, **(collecting_early() if stage.collects_early else {})}
        variables = variables_of(stage.service.configuration, stage.function, self.proxy.port, self.number, more)
        self._process = stage.tools.processes.start(stage.tools.command, variables)
        return self._process

    def kill(self) -> None:
        if self._process:
            self._process.kill()

    def revive(self) -> None:
        """Starts a new process in place of one that has ended; Missing if that does not ask for an invocation."""
        asked = len(self.proxy.of("next"))
        self.kill()
        self._end_open_invocation()
        self.end_extensions()
        self.start()
        if not self.asked(asked + 1):
            raise Missing(self.stage.lacks("the new process did not ask for an invocation"))

    def _end_open_invocation(self) -> None:
        """As Lambda does when a process has ended with one."""
        delivered = [one.delivered for one in self.proxy.of("next") if one.delivered]
        if delivered and not any(one.request_id == delivered[-1] and one.status == 202
                                 for one in self.proxy.of("response", "error")):
            ask(self.service_port, "POST", f"{RUNTIME}invocation/{delivered[-1]}/error",
                b'{"errorType":"Runtime.ExitError","errorMessage":"the process has ended"}')

    def end_extensions(self) -> None:
        """Says that what its process has registered has ended with it, so that the service begins a generation in which
        the next process can register. (It refuses what is said of an extension of an earlier one.)"""
        for one in self.proxy.of("register"):
            if one.status == 200 and not one.by_rule:
                report_failure(self.service_port, one.told[IDENTIFIED.lower()], "its process has ended")

    def asked(self, count: int = 1, seconds: Optional[float] = None, kind: str = "next", real_seconds: float = 0,
              in_vain: Callable[[], Any] = lambda: False) -> bool:
        """Whether it makes its count-th request of a kind. Waits up to this many seconds (by default those of the Init)
        of its own time, which `own` has then, and of real ones, or until its process ends or `in_vain` holds."""
        process, real_end = self.process, time.monotonic() + real_seconds
        limit, self.own = self.stage.patience if seconds is None else seconds, OwnTime(process.number)
        while len(self.proxy.of(kind)) < count and not process.ended and not in_vain():
            if self.own.look() >= limit and time.monotonic() >= real_end:
                break
            self.proxy.wait(lambda: sum(one.kind == kind for one in self.proxy.exchanges) >= count, LOOK)
        self.own.look()
        return len(self.proxy.of(kind)) >= count

    def asked_after(self, exchange: Exchange, seconds: float, kind: str = "next", real_seconds: float = 0) -> bool:
        """Whether it asks again within this many seconds after this exchange is over."""
        before = sum(one.begun < exchange.end for one in self.proxy.of(kind))
        return self.asked(before + 1, seconds, kind, real_seconds)

    def has_gone_on(self, since: float) -> bool:
        """Whether it has asked for its next invocation, and the last one, which was delivered since this moment, has no
        answer that could still count."""
        polls = self.proxy.of("next")
        delivered = next((poll for poll in reversed(polls) if poll.delivered), None)
        return delivered is not None and since <= delivered.end <= polls[-1].begun and not any(
            one.begun >= delivered.end and not one.refused for one in self.proxy.of("response", "error"))

    def given_up(self, kind: str, seconds: float) -> Optional[Exchange]:
        """Returns the poll of a kind that it gives up within this many seconds; None if it waits."""
        def found() -> Optional[Exchange]:
            return next((poll for poll in self.proxy.exchanges if poll.kind == kind and poll.left), None)
        self.proxy.wait(found, seconds)
        return found()

    def saw(self, kind: str, seconds: float, count: int = 1) -> Optional[Exchange]:
        """Waits for the count-th whole exchange of a kind: that exchange, or None."""
        def found() -> List[Exchange]:
            return [one for one in self.proxy.exchanges if one.kind == kind and one.ended]
        self.proxy.wait(lambda: len(found()) >= count, seconds)
        seen = [one for one in self.proxy.of(kind) if one.ended]
        return seen[count - 1] if len(seen) >= count else None
