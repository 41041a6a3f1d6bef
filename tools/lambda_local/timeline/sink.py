"""What a `World` notifies its sink of, in the order in which it happens."""
from typing import TYPE_CHECKING, NamedTuple, Optional

from ..history.entries import Answer
from .call import Call

if TYPE_CHECKING:
    from .world import Environment, Work, World


class Lasting(NamedTuple):
    """An Init or a shutdown of an environment, which is over."""
    name: str  # "Init", "Shutdown"
    environment: int
    generation: int
    begin: int  # moments
    end: int
    reason: Optional[str]  # why the environment closed
    failed: bool
    invocation: Optional[int]  # the ticket of the invocation that waited for an Init


class Sink:
    """Takes no notice of anything: the forms override what they show."""
    draws_the_past = False  # whether it draws a reservation that was set before the window, from its left edge on

    def begin(self, moment: int) -> None:
        """The first entry, before anything else."""

    def reservation(self, moment: int, entry: int, f: int, count: Optional[int]) -> None:
        """From this entry on, a function has `count` environments reserved; None means no reservation."""

    def full(self, moment: int, words: str) -> None:
        """A call that a full journal refused: it has no ticket and no entry."""

    def expired(self, moment: int, entry: int, environment: "Environment") -> None:
        """The deadline of an environment's phase has come."""

    def taken(self, call: Call, own: Optional[Answer]) -> None:
        """A call has its ticket; `own` is its answer if that came at once."""

    def answered(self, call: Call) -> None:
        """A call has its answer."""

    def still_open(self, call: Call, moment: int, entry: int) -> None:
        """A call has no answer when the history ends."""

    def cut(self, call: Call, moment: int) -> None:
        """A call waits at this moment, after which nothing is shown; its answer may have come later."""

    def turned(self, environment: "Environment", moment: int, entry: int, phase: str, deadline: Optional[int],
               reason: Optional[str]) -> None:
        """An environment enters a phase. It still has that in which it was."""

    def phase(self, environment: "Environment", moment: int, entry: Optional[int]) -> None:
        """The phase of an environment ends; with the history if `entry` is None."""

    def worked(self, work: "Work", moment: int, entry: Optional[int]) -> None:
        """A runtime or an extension has done what it was given; with the history if `entry` is None."""

    def lasted(self, lasting: Lasting) -> None:
        """An Init or a shutdown is over."""

    def entered(self, entry: int, moment: int) -> None:
        """Everything about an entry has been reported."""

    def end(self, world: "World") -> None:
        """The history ends."""
