"""What the definitions answer: sequences as one script, and its trace.

Each sequence of a script has a function and an environment of its own, so that many are replayed at once. Before each
call there is a `tick`, whose own answer shows the entry of the call, even if environments have expired before it."""
import collections
import json
from typing import Dict, List, Mapping, NamedTuple, Optional, Set, Tuple
from typing import Sequence as TypingSequence

from lambda_local.history.entries import Answer, Entry, count_in
from lambda_local.history.replay import entries_of_script
from lambda_local.history.script import Script
from lambda_local.history.words import CLOSING, TICK, Word

from .calls import MADE_BY_NONE, OF_EXTENSIONS, OF_INVOCATIONS, Call, Counts, about_extension
Entries = Mapping[int, int]  # by the places of calls

FRESH, WARM = "fresh", "warm"
AT_ONCE = 60  # sequences in a script; a configuration has at most 64 functions
BEYOND = 500  # milliseconds that a `wait` lasts longer than the function's timeout
BY_TICK = ("wait", "hang-up")  # calls for which a script has no line but that of the clock
FIRST_PORT = 20000  # of environments that no one serves


class Sequence(NamedTuple):
    """Calls that begin with an environment of which nothing has been heard (fresh), or whose runtime alone waits
    (warm): then the first call is that Next, which was made before."""
    name: str
    start: str
    calls: Tuple[Call, ...]


class Given(NamedTuple):
    """An answer that the definitions give in a step."""
    call: int  # the place of the call that is answered
    answer: Answer
    cause: str  # the kind of the call that gave it, or `expire`
    remaining: int  # until the deadline that it names, if it names one, in milliseconds
    at_end: bool  # whether it answers a call to an environment that is ending


class Plan(NamedTuple):
    """A sequence with the answers of the definitions, step by step."""
    sequence: Sequence
    steps: "Steps"
    counts: Counts  # of labels: an invocation (False, label), an extension (True, label)
    moments: Tuple[int, ...]
    tickets: Dict[int, int]  # by the place of each `leave`, that of the Next that it is about

    def own(self, place: int) -> Optional[Answer]:
        """The answer to a call in its own step; none if it waits."""
        return next((given.answer for given in self.steps[place] if given.call == place), None)

    def label_of(self, identifier_count: int, of_extension: bool = False) -> Optional[str]:
        return next((label for (kind, label), count in self.counts.items()
                     if kind == of_extension and count == identifier_count), None)

    def waiting(self) -> List[int]:
        """The places of the calls that are not answered."""
        answered = {given.call for step in self.steps for given in step}
        return [place for place, call in enumerate(self.sequence.calls)
                if call.kind not in MADE_BY_NONE and place not in answered]


Steps = Tuple[Tuple[Given, ...], ...]  # the answers of each step


class Oracle:
    """`environments` is how many the function has."""

    def __init__(self, program: str, timeout: int, environments: int = 1) -> None:
        self.program, self.timeout, self.environments = program, timeout, environments

    def plans(self, sequences: TypingSequence[Sequence]) -> List[Plan]:
        """A plan for each of the sequences."""
        return [plan for first in range(0, len(sequences), AT_ONCE)
                for plan in self._some(sequences[first:first + AT_ONCE])]

    def plan(self, sequence: Sequence, moments: Optional[TypingSequence[int]] = None) -> Plan:
        """The plan of one; of calls that were made at these moments, if there are any."""
        return self._some([sequence], moments)[0]

    def _some(self, sequences: TypingSequence[Sequence], moments: Optional[TypingSequence[int]] = None) -> List[Plan]:
        found: Dict[int, Plan] = {}
        left: Dict[int, Tuple[Counts, Dict[int, int]]] = {
            number: (counts_of(sequence.calls, None), {}) for number, sequence in enumerate(sequences)}
        while left:  # (which registrations are taken decides on the counts of the others)
            plans = dict(zip(left, self._replayed([sequences[number] for number in left],
                                                  [counts for counts, _ in left.values()],
                                                  [tickets for _, tickets in left.values()], moments)))
            seen = {number: (counts_of(plan.sequence.calls, taken_registrations(plan)), plan.tickets)
                    for number, plan in plans.items()}
            found.update((number, plan) for number, plan in plans.items() if seen[number] == left[number])
            left = {number: seen[number] for number in left if number not in found}
        return [found[number] for number in range(len(sequences))]

    def _replayed(self, sequences: TypingSequence[Sequence], counts: List[Counts], tickets: List[Dict[int, int]],
                  moments: Optional[TypingSequence[int]]) -> List[Plan]:
        lines, now = self.opening(len(sequences)), 0
        marks: List[Tuple[int, int]] = []
        times: List[List[int]] = [[] for _ in sequences]
        for number, sequence in enumerate(sequences):
            for place, call in enumerate(sequence.calls):
                now = moments[place] if moments else now + (self.timeout * 1000 + BEYOND if call.kind == "wait" else 1)
                times[number].append(now)
                lines.append(f"{now} tick")
                if call.kind not in BY_TICK:
                    ticket = tickets[number].get(place)
                    environment = number * self.environments + call.environment
                    known = counts_at(sequence, counts[number], call.environment)
                    lines.append(f"{now} {call.script(environment, f'f{number + 1}', known, ticket)}")
                marks.append((number, place))
        steps, entries = self._steps(self._replay(lines), sequences, marks, times)
        left = [left_polls(*parts) for parts in zip(sequences, steps, entries)]
        return [Plan(*parts) for parts in zip(sequences, steps, counts, [tuple(one) for one in times], left)]

    def opening(self, count: int) -> List[str]:
        """Returns the first two lines of a script with this many functions."""
        functions = [{"name": f"f{number + 1}", "timeout": self.timeout,
                      "ports": [FIRST_PORT + number * self.environments + place
                                for place in range(self.environments)]} for number in range(count)]
        return ["form 2", json.dumps({"account": "123456789012", "region": "us-east-1", "functions": functions},
                                     separators=(",", ":"))]

    def _replay(self, lines: List[str]) -> List[Entry]:
        script = Script("the kit's script", ("\n".join(lines) + "\n").encode())
        try:
            return list(entries_of_script(script, self.program))
        finally:
            script.close()

    @staticmethod
    def _steps(entries_made: List[Entry], sequences: TypingSequence[Sequence], marks: List[Tuple[int, int]],
               times: List[List[int]]) -> Tuple[List[Steps], List[Dict[int, int]]]:
        steps: List[List[List[Given]]] = [[[] for _ in sequence.calls] for sequence in sequences]
        answers = [(entry.ticket, answer) for entry in entries_made for answer in entry.answers]
        ticks = iter([entry.ticket for entry in entries_made if entry.call.kind == TICK])
        calls, step_at, causes = {}, {}, {}  # by entries: the call; the step to which an entry belongs; what caused it
        before = -1
        for number, place in marks:
            kind = sequences[number].calls[place].kind
            tick = next(tick for tick in ticks if tick > before)  # (a `leave` without a Next is one as well)
            last = tick if kind in BY_TICK else tick + 1
            for entry in range(before + 1, last + 1):
                step_at[entry], causes[entry] = (number, place), "expire"
            if kind not in BY_TICK:
                calls[last], causes[last] = (number, place), kind
            before = last
        ending = calls_at_end(entries_made)
        for entry, answer in answers:
            number, place = step_at[entry]
            if answer.ticket in calls and calls[answer.ticket][0] == number:
                steps[number][place].append(Given(calls[answer.ticket][1], answer, causes[entry],
                                                  (answer.deadline or times[number][place]) - times[number][place],
                                                  answer.ticket == entry and entry in ending))
        entries: List[Dict[int, int]] = [{} for _ in sequences]
        for entry, (number, place) in calls.items():
            entries[number][place] = entry
        return [tuple(map(tuple, of_one)) for of_one in steps], entries


def calls_at_end(entries: List[Entry]) -> Set[int]:
    """The entries of calls that came to an environment while it was closing."""
    phases: Dict[int, str] = {}
    found: Set[int] = set()
    for entry in entries:
        if phases.get(entry.call.environment or 0) == CLOSING:
            found.add(entry.ticket)
        phases.update((phase.environment, phase.name) for phase in entry.phases)
    return found


def left_polls(sequence: Sequence, steps: Steps, entries: Entries) -> Dict[int, int]:
    """By the place of each `leave`: the ticket of the Next that waits then, if there is one."""
    found: Dict[int, int] = {}
    waiting: Dict[int, int] = {}  # by environments
    for place, call in enumerate(sequence.calls):
        if call.kind == "next":
            waiting[call.environment] = place
        if call.kind == "leave" and call.environment in waiting:
            found[place] = entries[waiting[call.environment]]
        answered = {given.call for given in steps[place]}
        waiting = {environment: one for environment, one in waiting.items() if one not in answered}
    return found


def counts_of(calls: TypingSequence[Call], registered: Optional[Set[int]]) -> Counts:
    """The count in the identifier of each label: all Invokes count, and in each environment the registrations that are
    taken (all, if that is not known yet)."""
    counts: Counts = {}
    invocations, extensions = 0, collections.Counter[int]()
    for place, call in enumerate(calls):
        if call.kind == "invoke":
            invocations += 1
            counts[False, call.label] = invocations
        elif call.kind == "register" and (registered is None or place in registered):
            extensions[call.environment] += 1
            counts[True, call.label] = extensions[call.environment]
    return counts


def counts_at(sequence: Sequence, counts: Counts, environment: int) -> Counts:
    """Those that an environment knows: an extension's is its own environment's."""
    homes = {call.label: call.environment for call in sequence.calls if call.kind == "register"}
    return {(of_extension, label): count for (of_extension, label), count in counts.items()
            if not of_extension or homes[label] == environment}


def taken_registrations(plan: Plan) -> Set[int]:
    return {given.call for step in plan.steps for given in step if given.answer.word is Word.REGISTERED}


def playable(plan: Plan) -> Sequence:
    """The sequence without the calls that name what the caller cannot know at that time: an invocation that was not
    delivered, or an extension that was not registered."""
    known, kept = {(False, "?"), (True, "?")}, []
    for place, call in enumerate(plan.sequence.calls):
        refers = call.kind in OF_INVOCATIONS or call.kind in OF_EXTENSIONS
        own = plan.own(place)
        # What no service gave is known to be unknown only while another invocation is open: else the phase is refused
        # first.
        guessed = call.label == "?" and call.kind in OF_INVOCATIONS and (not own or own.reason != "BadId")
        if (not refers or (about_extension(call), call.label) in known) and not guessed:
            kept.append(call)
        for given in plan.steps[place]:
            if given.answer.word in (Word.DELIVER, Word.REGISTERED):
                known.add((given.answer.word is Word.REGISTERED, plan.sequence.calls[labelled(plan, given)].label))
    return plan.sequence._replace(calls=tuple(kept))


def labelled(plan: Plan, given: Given) -> int:
    """The place of the call whose label a delivery or a registration makes known."""
    if given.answer.word is Word.REGISTERED:
        return given.call
    count = count_in(given.answer.request or "0")
    invokes = [place for place, call in enumerate(plan.sequence.calls) if call.kind == "invoke"]
    return invokes[count - 1]
