"""What the stacks of a project have in common: what each exports, and how much all their expressions may cost."""
from typing import TYPE_CHECKING, Dict, List, Tuple

from .messages import Fault

if TYPE_CHECKING:
    from .values import Scope

DEEPEST, MOST_STEPS = 50, 10_000  # of one expression
LONGEST_TEXT = 4 << 20  # characters of one (CloudFormation takes 4 MB of code)
MOST_STEPS_IN_ALL, MOST_LETTERS_IN_ALL = 1_000_000, 256 << 20  # of all expressions of a project


class Unknown(Exception):
    """Why an expression has no value here."""


class Shared:
    """What the stacks of a project have in common: the exports of all, and how far an expression has been worked
    out, which may lead from one stack to another."""

    def __init__(self) -> None:
        self.exports: "Dict[str, Tuple[Scope, object]]" = {}
        self.placeholders: List[str] = []
        self.depth = self.steps = 0
        self.steps_in_all = self.letters_in_all = 0

    def enter(self, why: str = "its expressions are nested too deep, or go round in a circle") -> None:
        """Counts a step one level deeper; the caller has counted the level, and takes it back."""
        self.steps = 0 if self.depth == 1 else self.steps
        self.spend()
        if self.depth > DEEPEST:
            raise Unknown(why)

    def spend(self, steps: int = 1, letters: int = 0) -> None:
        """Counts a step of an expression, and the characters of a text that it makes. Texts that name one another
        double at each level: all together may have so many."""
        self.steps += steps
        self.steps_in_all += steps
        self.letters_in_all += letters
        if self.steps_in_all > MOST_STEPS_IN_ALL or self.letters_in_all > MOST_LETTERS_IN_ALL:
            raise Fault(f"its expressions take more than {MOST_STEPS_IN_ALL:,} steps, or make more than "
                        f"{MOST_LETTERS_IN_ALL:,} characters: this is not a template that can be served")
        if letters > LONGEST_TEXT:
            raise Unknown(f"a text of more than {LONGEST_TEXT:,} characters")
        if self.steps > MOST_STEPS:
            raise Unknown("its expressions are nested too deep, or go round in a circle")
