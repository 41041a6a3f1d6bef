"""Compares a history's own answers with those of its replay, line by line, as both come."""
from typing import Iterator, NamedTuple, Optional, Tuple

from ..reasons import shown
from .replay import Run
from .script import ANSWER, Script

SHOWN = 200  # characters of an answer


class Comparison(NamedTuple):
    difference: Optional[str]  # where they first differ, in words; none if they are the same
    answers: int  # of the replay, up to there
    saved: int  # answers that the history has, up to there


def answers_of(script: Script) -> Iterator[Tuple[int, bytes]]:
    """The answers that a history has, each with the number of its line."""
    for number, line in enumerate(script.lines(), 1):
        if line.startswith(b"# ") and (found := ANSWER.fullmatch(line)):
            yield number, found[1]


def compared(script: Script, program: str) -> Comparison:
    """What the replay of a history answers, beside what it has itself. Fault if the program refuses it."""
    run = Run(program, script, "replay")
    try:
        comparison = beside(script, run)
        if comparison.difference is None:
            run.finish()
        return comparison
    finally:
        run.kill()


def beside(script: Script, run: Run) -> Comparison:
    saved, number = 0, 0
    for saved, (number, answer) in enumerate(answers_of(script), 1):
        replayed = run.output.readline()
        if not replayed:
            run.finish()
            words = f"line {number}: the history has {shown(answer, SHOWN)}, but the replay ends before it"
            return Comparison(words, saved - 1, saved)
        if replayed[:-1] != answer:
            return Comparison(f"line {number}: the history has {shown(answer, SHOWN)}, but the replay answers "
                              f"{shown(replayed[:-1], SHOWN)}", saved, saved)
    more = run.output.readline()
    if more:
        last = sum(1 for _ in script.lines())
        return Comparison(f"line {last}: the history ends here, but the replay also answers {shown(more[:-1], SHOWN)}",
                          saved + 1, saved)
    return Comparison(None, saved, saved)
