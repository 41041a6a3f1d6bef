"""The log: one line an event."""
import functools
from typing import Callable, Optional

from ..history.entries import Answer
from ..history.opening import Configuration
from .call import Call
from .sink import Sink
from .words import length_words, moment_words, payload_words, what, who
from .world import Environment


class Text(Sink):
    """One line an event, with the moment at which it happened."""

    def __init__(self, configuration: Configuration, write: Callable[[str], object]) -> None:
        self.configuration, self.write = configuration, write

    def line(self, moment: int, words: str) -> None:
        self.write(f"{stamp(moment)}  {words}\n")

    def full(self, moment: int, words: str) -> None:
        self.line(moment, f"account: {words}: refused JournalFull, so it has no number")

    def expired(self, moment: int, entry: int, environment: Environment) -> None:
        self.line(moment, f"{self.configuration.place(environment.number)}: the {environment.phase} deadline is "
                          f"reached (entry {entry})")

    def words_of(self, call: Call) -> str:
        """Who has made a call, which one, and its number."""
        return f"{who(self.configuration, call)}: {what(self.configuration, call)}, call {call.ticket}"

    def taken(self, call: Call, own: Optional[Answer]) -> None:
        if own is None:
            payload = payload_words(call)
            self.line(call.moment, self.words_of(call) + (f", {payload}" if payload else "") + ", waits")

    def answered(self, call: Call) -> None:
        if call.ticket == call.end_entry:
            payload = payload_words(call)
            self.line(call.end, self.words_of(call) + (f", {payload}" if payload else "") + f": {call.said}")
        else:
            length = length_words(call.end - call.moment)
            self.line(call.end, f"{self.words_of(call)}, answered after {length}: {call.said}")

    def still_open(self, call: Call, moment: int, entry: int) -> None:
        self.line(moment, f"{self.words_of(call)}, has no answer yet")

    def cut(self, call: Call, moment: int) -> None:
        words = f"{self.words_of(call)}, still waits"
        if call.answer:
            words += f"; answered at {moment_words(call.end)}, after what is shown"
        self.line(moment, words)

    def turned(self, environment: Environment, moment: int, entry: int, phase: str, deadline: Optional[int],
               reason: Optional[str]) -> None:
        place = self.configuration.place(environment.number)
        if phase == "Closing":
            self.line(moment, f"{place}: reset, {reason}: Closing")
        else:
            begins = phase == "Starting" and environment.phase == "Closing"
            generation = f", generation {environment.generation + 1}" if begins else ""
            self.line(moment, f"{place}: {phase}{generation}" + (f", until {deadline}" if deadline is not None else ""))


@functools.lru_cache(maxsize=16)
def stamp(moment: int) -> str:
    return f"{moment_words(moment):>10}"
