"""What the history of a service says of the invocations whose responses may be streamed: which caller's each is, which
environment serves it, and when it is over."""
from typing import Any, Callable, Container, Dict, NamedTuple, Optional

from ..history.entries import Entry
from ..history.words import ENDINGS, INVOKE, Word
from .streams import Streams, token_in

Call = Callable[..., None]  # has a function called with what follows, soon, in the loop of the streams


class Placed(NamedTuple):
    """An invocation that was admitted."""
    identifier: str
    environment: int


class Pairing:
    """Takes the entries of the history, each as it comes, in a thread of its own. `environments` are those, by their
    numbers, whose responses may be streamed."""

    def __init__(self, streams: Streams, environments: Container[int], call: Call) -> None:
        self.streams, self.environments, self.call = streams, environments, call
        self.placed: Dict[int, Placed] = {}  # those without an answer, by ticket

    def take(self, entry: Entry) -> None:
        if entry.charged is not None and entry.request is not None and entry.place is not None:
            token = token_in(entry.call.trace) if entry.call.kind == INVOKE else None
            if token is not None:
                self.call(self.streams.placed, token, entry.request, entry.place)
            if entry.place in self.environments:
                self.placed[entry.ticket] = Placed(entry.request, entry.place)
        for answer in entry.answers if self.placed else ():
            if answer.word is Word.DELIVER and answer.source is not None:
                self._tell(self.streams.delivered, self.placed.get(answer.source))
            elif answer.word in ENDINGS:
                self._tell(self.streams.ended, self.placed.pop(answer.ticket, None))

    def _tell(self, what: Callable[[int, str], Any], placed: Optional[Placed]) -> None:
        if placed is not None:
            self.call(what, placed.environment, placed.identifier)
