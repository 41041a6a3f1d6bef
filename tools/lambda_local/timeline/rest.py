"""What comes after the window of a log: nothing of it is shown, so it is counted alone, and read no further than that
takes. (The program has written it, and each line is of the form that docs/trace.md has.)"""
import json
from typing import Any, Dict, Iterable, NamedTuple, Set, Tuple

from ..history.entries import count_in
from ..history.reader import made_of
from ..history.shapes import ANSWERS, WORDS
from ..history.words import EXPIRE, OF_EXTENSIONS, POLLS, REGISTER, WITHDRAW
from ..program import Fault
from .call import FAILED, OUTCOMES
from .window import OF_UP, Window
from .world import World

FAILURES = frozenset(word for word, outcome in OUTCOMES.items() if outcome in FAILED)
ENDED = ("Container", "Replaced")  # reasons for which a poll is refused that has not failed


class Open(NamedTuple):
    """A call that has no answer yet."""
    moment: int
    is_poll: bool
    hidden: bool


class Rest:
    """`take` is given each line after that by which the window is over."""

    def __init__(self, world: World, sink: Window) -> None:
        self.world, self.sink = world, sink
        self.open: Dict[int, Open] = {}
        # The extensions of up itself, by their environments and the counts in their identifiers.
        self.of_up: Set[Tuple[int, int]] = {
            (number, count) for number, environment in world.generations.environments.items()
            for count, extension in environment.generation.extensions.items() if extension.name == OF_UP}

    def take_all(self, lines: Iterable[bytes]) -> None:
        read = json.JSONDecoder().raw_decode
        try:
            for line in lines:
                self.take(read(line.decode())[0])
        except (ValueError, LookupError, TypeError) as fault:
            raise Fault(3, f"entry {self.world.entry + 1} of the trace: it is none: {fault!r}") from None

    def take(self, entry: Dict[str, Any]) -> None:
        world, call, ticket, moment = self.world, entry["call"], entry["ticket"], entry["moment"]
        world.entry, world.moment = ticket, moment
        if call["kind"] != EXPIRE:
            hidden = not self.sink.shows_all and self.is_of_up(call)
            self.open[ticket] = Open(moment, call["kind"] in POLLS, hidden)
            world.calls += 1
            self.sink.left_after(moment, hidden)
        for answer in entry["answers"]:
            if answer["ticket"] in self.open:
                self.end(self.open.pop(answer["ticket"]), answer)
            elif before := world.open.pop(answer["ticket"], None):
                before.end_with(made_of(answer, ANSWERS, "an answer"), moment, ticket)
                self.sink.answered(before)
            if call["kind"] == REGISTER and "extension" in answer and call["name"] == OF_UP:
                self.of_up.add((call["environment"], count_in(answer["extension"])))

    def end(self, call: Open, answer: Dict[str, Any]) -> None:
        word, reason = WORDS[answer["answer"]], answer.get("reason")
        if word in FAILURES and not call.hidden and not (call.is_poll and reason in ENDED):
            self.sink.left_failed(call.moment)

    def is_of_up(self, call: Dict[str, Any]) -> bool:
        kind: str = call["kind"]
        if kind == REGISTER:
            return bool(call["name"] == OF_UP)
        if kind == WITHDRAW:
            poll, before = self.open.get(call["ticket"]), self.world.open.get(call["ticket"])
            return poll.hidden if poll else bool(before and before.kind in POLLS and before.hidden)
        return kind in OF_EXTENSIONS and (call["environment"], call["extension"]) in self.of_up
