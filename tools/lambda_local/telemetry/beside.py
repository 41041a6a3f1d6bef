"""What lambda_local up has beside an environment: nothing, unless `sidecars` says otherwise."""
from typing import Any, Callable, Optional, Protocol


class Line(Protocol):
    """A line that a process has printed."""
    @property
    def source(self) -> str:
        """The name of the process."""

    @property
    def text(self) -> str:
        ...


class Printed(Protocol):
    """What the processes of an environment print."""

    def follow(self, take: Callable[[Any], None]) -> None:
        """`take` is given each line."""

    def peak(self) -> int:
        """The most memory that they have used since the runtime was started, in bytes; 0 if it is not known."""

    def deliver(self, identifier: str) -> None:
        """Takes all that they have written by now: what comes after that is this invocation's."""


class Marker(Protocol):
    """Marks what the processes of an environment print, where the lines of an invocation begin."""

    def begins(self, output: int, mark: str) -> int:
        """A process that is started next prints into this pipe. Returns by which number it is known."""

    def ended(self, process: int) -> None:
        ...


class Beside:
    """Nothing: the processes have the environment's own port."""
    divides = False  # whether the lines of invocations are divided by it
    marker: Optional[Marker] = None  # by which, if it is so by marks

    def __init__(self, port: int):
        self.port = port

    def begins(self) -> None:
        """A generation begins: its first process is started next."""

    def fails(self, kind: str) -> None:
        """A process has ended, which the service is told next."""

    def closes(self, reason: str) -> None:
        """The service has said that the generation ends."""

    def ends(self) -> None:
        """All its processes have ended."""
