"""Differences that are accepted: those that docs/differences.md has, and those of a file.

Each is named by three words, as a report gives them: the call, the definitions' answer to it, and the respect in which
the other answer differs; `*` stands for any word. The details are where answers are compared (judge.py)."""
from typing import Dict, List, NamedTuple, Optional, Tuple

from lambda_local.service import Fault

WAITS = "waits"  # the label of a call that the definitions do not answer yet
AFTER_ANSWER = "throttled-after-answer"  # and of an Invoke that finds an environment with an answer, and not free yet


class Known(NamedTuple):
    words: Tuple[str, ...]
    why: str  # the point in docs/differences.md, or the line of the file

    def accepts(self, words: Tuple[str, ...]) -> bool:
        return all(mine in ("*", other) for mine, other in zip(self.words, words))


END = "the end of an environment"
BUILT_IN = (
    *(Known(("*", refused, respect), END) for refused in ("Container", "State-at-end")
      for respect in ("connection", "refusal")),
    Known(("*", "accepted-at-end", "*"), END),
    # (it may have begun anew before, or take the report of an extension that starts)
    *(Known((call, "State-at-end", "status"), END) for call in ("register", "init-failure", "ext-init-failure")),
    Known(("init-failure", "accepted-after-next", "*"), "an Init that fails after its Next"),
    Known(("ext-init-failure", "accepted-after-next", "*"), "an Init that fails after its Next"),
    *(Known(("*", f"{taken}-after-leave", "*"), "a Next whose connection ends")
      for taken in ("registered", "accepted")),
    Known(("invoke", "error-of-init", "connection"), "a failed Init"),
    Known(("invoke", AFTER_ANSWER, "*"), "an environment that has answered and not asked again"),
)
# The points that comparing takes into account without a line above.
COMPARED_LOOSELY = ("a timeout", "the greatest response", "a report of an extension (`init/error`, `exit/error`)",
                    "`Lambda-Runtime-Trace-Id` if the caller gave none", "`shutdownReason`", "that reason of a 429")


class KnownDifferences:
    def __init__(self, path: Optional[str] = None) -> None:
        self.all = [*BUILT_IN, *(read(path) if path else [])]
        self.met: Dict[str, int] = {}

    def accepts(self, words: Tuple[str, ...]) -> bool:
        """Whether a difference is accepted; counts it."""
        found = next((known for known in self.all if known.accepts(words)), None)
        if found:
            self.met[found.why] = self.met.get(found.why, 0) + 1
        return found is not None

    def accepts_silence(self, words: Tuple[str, ...]) -> bool:
        """Whether it is accepted that an answer never comes: then it is not waited for."""
        return any(known.accepts((*words, "connection")) for known in self.all)


def read(path: str) -> List[Known]:
    try:
        with open(path, encoding="utf-8") as file:
            lines = file.read().splitlines()
    except (OSError, UnicodeDecodeError) as fault:
        why = getattr(fault, "strerror", None) or "it is not UTF-8"
        raise Fault(2, f"--known {path}: {why}: name a file of accepted differences") from None
    found = []
    for number, line in enumerate(lines, 1):
        words = tuple(line.partition("#")[0].split())
        if not words:
            continue
        if len(words) != 3:
            raise Fault(2, f"--known {path}: line {number} has {len(words)} words: write three, CALL ANSWER RESPECT, "
                           "as a report names the difference")
        found.append(Known(words, f"{path}, line {number}"))
    return found
