"""Random sequences: some from scratch, call by call, some by small changes to a worked one."""
import random
import string
from typing import List, Optional, Tuple

from .calls import Call
from .oracle import FRESH, WARM, Sequence
from .sequences import REPORT, labels_of, worked

LONGEST = 1000  # letters of a call
LEAST, MOST = 3, 12  # calls, without the ending
EVENTS = ("i", "s", "is", "-")
WEIGHTS = {FRESH: {"next": 5, "invoke": 5, "response": 5, "failure": 2, "register": 2, "ext-next": 7, "init-failure": 1,
                   "ext-init-failure": 1, "ext-exit-failure": 1},
           WARM: {"next": 5, "invoke": 5, "response": 5, "failure": 2, "init-failure": 1, "register": 1}}
UNKNOWN = 0.05  # how often an identifier is one that was never given
EARLIER = 0.3  # how often it is not the last one


class Generator:
    def __init__(self, source: random.Random) -> None:
        self.random, self.made = source, 0

    def sequences(self, start: str, count: int) -> List[Sequence]:
        """Returns this many sequences that begin in this way."""
        return [self._one(start) for _ in range(count)]

    def _one(self, start: str) -> Sequence:
        self.made += 1
        if self.random.random() < 0.4:
            calls = self._changed(self.random.choice(worked(start)).calls, start)
        else:
            calls = self._begun(start)
            while len(calls) < self.random.randint(LEAST, MOST):
                calls.append(self._call(calls, start))
        if start == WARM and (not calls or calls[0].kind != "next"):
            calls.insert(0, Call("next"))
        return Sequence(f"random {self.made}", start, tuple(calls))

    def _begun(self, start: str) -> List[Call]:
        """In most cases an extension, without which a fresh environment ends by a failed Init alone."""
        if start == WARM:
            return [Call("next")]
        calls: List[Call] = []
        for _ in range(self.random.choice((0, 1, 1, 1, 2, 3))):
            calls.append(self._call(calls, start, "register"))
        for label in labels_of(calls, "register") if calls else ():
            if self.random.random() < 0.7:
                calls.append(Call("ext-next", label))
        return calls

    def _changed(self, worked_calls: Tuple[Call, ...], start: str) -> List[Call]:
        calls = list(worked_calls)
        for _ in range(self.random.randint(1, 3)):
            place = self.random.randrange(len(calls))
            change = self.random.choice(("drop", "twice", "swap", "add"))
            if change == "drop" and len(calls) > 2:
                del calls[place]
            elif change == "twice" and calls[place].kind not in ("invoke", "register"):
                calls.insert(place, calls[place])
            elif change == "swap" and place:
                calls[place - 1], calls[place] = calls[place], calls[place - 1]
            else:
                calls.insert(place + 1, self._call(calls, start))
        return [call for call in calls if call.kind != "response-too-large" and len(str(call)) < LONGEST]

    def _call(self, calls: List[Call], start: str, kind: Optional[str] = None) -> Call:
        weights = WEIGHTS[start]
        kind = kind or self.random.choices(list(weights), list(weights.values()))[0]
        if kind == "next":
            return Call("next")
        if kind == "invoke":
            return Call("invoke", self._new_label(calls), (f'={{"n":{self.random.randint(0, 999)}}}',))
        if kind == "register":
            label = self._new_label(calls)
            name = label if self.random.random() < 0.9 else "probe"
            return Call("register", label, (f"={name}", self.random.choice(EVENTS), self.random.choice("---a")))
        if kind in ("response", "failure"):
            text = f'="{self.random.randint(0, 999)}"' if kind == "response" else REPORT
            return Call(kind, self._label(labels_of(calls, "invoke")), (text,))
        if kind == "init-failure":
            return Call(kind, "", (REPORT,))
        label = self._label(labels_of(calls, "register"))
        return Call(kind, label, () if kind == "ext-next" else (REPORT,))

    def _new_label(self, calls: List[Call]) -> str:
        used = {call.label for call in calls}
        return next(letter for letter in string.ascii_letters if letter not in used)

    def _label(self, labels: List[str]) -> str:
        if self.random.random() < UNKNOWN:
            return "?"
        return str(self.random.choice(labels)) if self.random.random() < EARLIER else labels[-1]
