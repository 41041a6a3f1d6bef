"""Tells of an extension that has registered under a name that UP.json does not have, while one that it has does not
come: an Init waits for that until its time is over."""
import time
from typing import Callable, Dict, Iterable, List, Tuple

from ..life import Environment, Generation
from .members import NAME

SOON = 2.0  # seconds: so late may the right one come


def late_and_others(environment: Environment, generation: Generation) -> Tuple[List[str], List[str]]:
    """The names that are expected and have not registered, and those that have and are not expected."""
    late = [name for name in generation.missing(environment.expected)
            if name != NAME and generation.named(name) is None]
    others = [extension.name for extension in generation.extensions.values()
              if extension.name != NAME and extension.name not in environment.expected]
    return late, others


class Unnamed:
    """`say` is given the name of an environment, and a line for it."""

    def __init__(self, environments: Iterable[Environment], say: Callable[[str, str], None]):
        self.environments, self.say = list(environments), say
        self.since: Dict[int, Tuple[Generation, float]] = {}  # by the number of the environment
        self.told: Dict[int, Generation] = {}

    def look(self) -> None:
        for environment in self.environments:
            generation = environment.generation
            if generation.is_ready or self.told.get(environment.number) is generation:
                continue
            late, others = late_and_others(environment, generation)
            if not late or not others:
                continue
            seen, since = self.since.get(environment.number, (None, 0.0))
            if seen is not generation:
                self.since[environment.number] = generation, time.monotonic()
            elif time.monotonic() - since >= SOON:
                self.told[environment.number] = generation
                self.say(environment.name, f"{' and '.join(others)} has registered, and {' and '.join(late)} has not: "
                         "its Init waits until an extension registers by each name in UP.json")
