"""The functions of an UP.json, started by what lambda_local up has, for as long as invocations are sent to them."""
import argparse
from typing import Callable, List, Optional, Tuple, TypeVar

from ..service import Fault
from ..up.environments import Environment
from ..up.log import Log
from ..up.project import project_of
from ..up.session import Session
from .record import Recording

Given = TypeVar("Given")

FAILED_STARTS = 3  # of an environment, before it is given up


class Silent(Log):
    """Says nothing of what lambda_local up says."""

    def __init__(self) -> None:
        self.form, self.quiet = "text", True

    def __call__(self, who: str, text: str, level: str = "info", kind: str = "up", always: bool = False,
                 **members: object) -> None:
        pass

    def is_short(self) -> bool:
        return False


class Functions(Session):
    """Prints nothing itself, unless it is verbose, and saves no history."""
    sends_on = False  # (to queues and topics, which got it when it was recorded)

    def __init__(self, path: str, recording: Recording, program: Optional[str], ready: float, verbose: bool) -> None:
        options = argparse.Namespace(up=path, debug=None, storm=None, salt=recording.salt, program=program,
                                     reload=False, keep_credentials=False, ready=ready, command=["rerun"],
                                     history=None, only=None, allow_unready=False, drain=5, patient=1, report=False)
        log = Log() if verbose else Silent()
        project = project_of(path, say=lambda line: log("up", line, kind="template"))
        names = {member["name"] for member in project.whole["functions"]}
        for invocation in recording.invocations:
            if invocation.was_served and invocation.function not in names:
                raise Fault(2, f"{path}: there is no function {invocation.function}, which the history invokes")
        super().__init__(options, log, project)

    def late(self) -> Tuple[List[Environment], List[Environment]]:
        """As lambda_local up has it; a command that ends each time is not waited for."""
        for environment in self.environments:
            if environment.restarts.early >= FAILED_STARTS:
                raise Fault(2, f"{self.options.up}: not ready: {self.lateness(environment)}")
        return super().late()

    def used(self, use: Callable[[], Given]) -> Given:
        """What `use` gives once all are ready; whatever happens, nothing is left running."""
        self.begin()
        try:
            if not self.wait_until_ready():
                raise Fault(2, "the service ended before its functions were ready")
            return use()
        except Fault:
            if self.signals:
                raise Fault(128 + self.signal_number, "ended by a signal") from None
            raise
        finally:
            self.finish(failed=False)
