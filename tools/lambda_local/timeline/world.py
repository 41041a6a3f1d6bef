"""Follows the entries of a history, and notifies a sink of each thing that begins or ends."""
import heapq
from collections import Counter
from typing import Counter as Counts, Dict, Iterator, List, Optional, Tuple

from ..history.entries import Answer, Entry, Phase, count_in
from ..history.generations import Generation, Generations, Turn
from ..history.opening import Configuration
from ..history.words import CLOSING, EXPIRE, EXT_NEXT, INVOKE, OF_EXTENSIONS, OFF, POLLS, REGISTER, RESERVE
from ..history.words import SPINDOWN, STARTING, WITHDRAW, Word
from ..program import Fault
from .call import Call, Lane, outcome
from .sink import Lasting, Sink


SPUN_DOWN = "SPINDOWN"


class Environment:
    """An environment as it is shown: in a phase, since an entry."""

    def __init__(self, number: int, function: int) -> None:
        self.number, self.function = number, function
        self.generation = 1
        self.phase = "Starting"
        self.since: Optional[int] = None
        self.since_entry: Optional[int] = None
        self.deadline: Optional[int] = None
        self.reason: Optional[str] = None

    @property
    def runtime(self) -> Lane:
        return ("runtime", self.number)


class Work:
    """What a runtime does between its delivery and its response, or an extension between an event and its next
    poll."""

    __slots__ = ("lane", "name", "moment", "entry", "until", "request", "outcome")

    def __init__(self, lane: Lane, name: str, moment: int, entry: int, until: int, request: Optional[int]) -> None:
        self.lane, self.name, self.moment = lane, name, moment
        self.entry, self.until, self.request = entry, until, request
        self.outcome = "open"


Handed = List[Tuple[Lane, Answer]]  # the polls that are given work


class World:
    """Follows the entries, and reports to a sink each thing that was begun, ended, or reset."""

    def __init__(self, configuration: Configuration, sink: Sink) -> None:
        self.configuration, self.sink = configuration, sink
        self.environments = [Environment(e + 1, f) for e, f in enumerate(configuration.owners)]
        self.generations = Generations(len(self.environments))
        self.works: Dict[Lane, Work] = {}
        self.open: Dict[int, Call] = {}
        self.entry, self.moment, self.calls, self.refused_full = -1, 0, 0, 0
        self.free_callers: List[int] = []
        self.callers = 0
        self.reserved = list(configuration.reserved)
        self.outcomes: Counts[Tuple[str, Word]] = Counter()
        self.inits: Dict[int, int] = {}  # by environments, since when an Init goes on
        self.initialised: Dict[int, int] = {}  # by environments, the last generation whose Init is over
        self.closing: Dict[int, Tuple[int, str]] = {}  # by environments, since when it closes, and why

    def full(self, moment: int, words: str) -> None:
        """A call that a full journal refused: it has no entry and no ticket."""
        self.refused_full += 1
        self.sink.full(max(moment, self.moment), words)

    def take(self, entry: Entry) -> Optional[Call]:
        """One entry. Returns its call, if it is not an expiry."""
        moment, own, call = entry.moment, entry.own, None
        if self.entry < 0:
            self.begin_at(moment)
        self.entry, self.moment = entry.ticket, moment
        if entry.call.kind == EXPIRE:
            self.sink.expired(moment, self.entry, self.environments[(entry.expires or 1) - 1])
        else:
            call = self.begin(entry, own)
        turns = self.generations.take(entry)
        handed: Handed = []
        if own is not None:
            self.end(own, handed)
        for turn in turns:
            self.turn_at_once(turn, entry)
        for answer in entry.answers:
            if answer is not own:
                self.end(answer, handed)
        for turn in turns:
            self.settle(turn)
            for lasting in self.lasting(turn):
                self.sink.lasted(lasting)
        for lane, answer in handed:
            self.begin_work(lane, answer)
        if call is not None and call.kind == RESERVE and call.function is not None and (
                entry.has(Word.RESERVED) or entry.has(Word.UNRESERVED)):
            self.reserved[call.function] = call.count
            self.sink.reservation(moment, self.entry, call.function, call.count)
        self.sink.entered(self.entry, moment)
        return call

    def begin_at(self, moment: int) -> None:
        """The first entry, before anything else."""
        self.sink.begin(moment)
        for f, count in enumerate(self.reserved):
            if count is not None:
                self.sink.reservation(moment, 0, f, count)
        for environment in self.environments:
            environment.since, environment.since_entry = moment, 0

    def begin(self, entry: Entry, own: Optional[Answer]) -> Call:
        """A call is taken: it gets its lane."""
        self.calls += 1
        call = Call(entry, self.configuration)
        call.lane = self.lane_of(call)
        self.open[call.ticket] = call
        self.sink.taken(call, own)
        if call.kind == EXT_NEXT and call.lane[2] is not None:
            self.rests(call.lane)
        return call

    def lane_of(self, call: Call) -> Lane:
        if call.kind == INVOKE:
            if self.free_callers:
                return ("caller", heapq.heappop(self.free_callers))
            self.callers += 1
            return ("caller", self.callers)
        if call.kind in OF_EXTENSIONS:
            name = call.name
            if call.kind != REGISTER:
                known = self.generations.environments[call.environment or 0].generation.extensions
                name = known[call.count].name if call.count in known else None
            return ("extension", call.environment, name)
        if call.kind == WITHDRAW:
            poll = self.open.get(-1 if call.count is None else call.count)
            return poll.lane if poll and poll.kind in POLLS else ("account",)
        if call.environment:
            return ("environment" if call.kind == SPINDOWN else "runtime", call.environment)
        return ("account",)

    def turn_at_once(self, turn: Turn, entry: Entry) -> None:
        """What the call itself makes of a phase: a generation begins to close, or an idle environment is busy."""
        environment, now = self.environments[turn.environment.number - 1], turn.now
        if turn.closes:
            deadline = now.deadline if now.name == CLOSING else None
            self.change(environment, now._replace(name=CLOSING, deadline=deadline, reason=turn.closes))
            self.closing[environment.number] = self.moment, turn.closes
        elif now.name == turn.was.name and not turn.is_over:
            environment.deadline = now.deadline
        elif entry.call.kind == INVOKE:
            self.change(environment, now)

    def lasting(self, turn: Turn) -> Iterator[Lasting]:
        """The Init and the shutdown that are over by an entry. An Init lasts from its first contact on: from then on it
        has a deadline."""
        number, was, now, generation = turn.environment.number, turn.was, turn.now, turn.generation.number
        if self.initialised.get(number, 0) < generation and was.name == STARTING and (
                turn.closes or now.name != STARTING):
            self.initialised[number] = generation
            begin = self.inits.pop(number, self.moment)
            if turn.closes != SPUN_DOWN or was.deadline is not None:
                failed = turn.closes is not None and turn.closes != SPUN_DOWN
                yield Lasting("Init", number, generation, begin, self.moment, turn.closes, failed, was.bound)
        if turn.is_over and number in self.closing:
            begin, reason = self.closing.pop(number)
            yield Lasting("Shutdown", number, generation, begin, self.moment, reason, False, None)
        if now.name == STARTING and now.deadline is not None:
            self.inits.setdefault(number, self.moment)

    def settle(self, turn: Turn) -> None:
        """What an environment is at the end of an entry: a generation is over, or all have asked for work."""
        environment, now = self.environments[turn.environment.number - 1], turn.now
        if turn.is_over:
            for lane in self.lanes_of(environment, turn.generation):
                self.rests(lane)
            self.change(environment, now)
            environment.generation += now.name != OFF
        elif now.name.capitalize() != environment.phase:
            self.change(environment, now)

    @staticmethod
    def lanes_of(environment: Environment, generation: Generation) -> Iterator[Lane]:
        """The lanes of a runtime and its extensions."""
        yield environment.runtime
        for extension in generation.extensions.values():
            yield ("extension", environment.number, extension.name)

    def change(self, environment: Environment, now: Phase) -> None:
        name = now.name.capitalize()
        self.sink.phase(environment, self.moment, self.entry)
        self.sink.turned(environment, self.moment, self.entry, name, now.deadline, now.reason)
        environment.phase, environment.reason, environment.deadline = name, now.reason, now.deadline
        environment.since, environment.since_entry = self.moment, self.entry

    def end(self, answer: Answer, handed: Handed) -> None:
        """A call gets its answer."""
        call = self.open.pop(answer.ticket, None)
        if call is None:
            raise Fault(3, f"entry {self.entry} answers call {answer.ticket}, which is not open")
        call.end_with(answer, self.moment, self.entry)
        if call.kind == INVOKE:
            heapq.heappush(self.free_callers, call.lane[1])
            lane: Lane = ("runtime", call.place)
            if lane in self.works and self.works[lane].request == call.ticket:
                self.works[lane].outcome = outcome(call)
                self.rests(lane)
        elif answer.word is Word.SHUTDOWN:
            self.begin_work(call.lane, answer)
        elif answer.word in (Word.DELIVER, Word.TELL):
            handed.append((call.lane, answer))
        self.outcomes[call.kind, answer.word] += 1
        self.sink.answered(call)

    def begin_work(self, lane: Lane, answer: Answer) -> None:
        self.rests(lane)
        if answer.word is Word.DELIVER:
            name = f"request {count_in(answer.request or '')}"
        elif answer.word is Word.TELL:
            name = f"event {count_in(answer.event or '')}"
        else:
            name = answer.reason or ""
        request = answer.source if answer.word is Word.DELIVER else None
        self.works[lane] = Work(lane, name, self.moment, self.entry, answer.deadline or 0, request)

    def rests(self, lane: Lane) -> None:
        if lane in self.works:
            self.sink.worked(self.works.pop(lane), self.moment, self.entry)

    def finish(self, sink: Sink) -> None:
        """After the last entry: what is still open ends with the picture. Changes nothing here: more may follow."""
        for environment in self.environments:
            generation = self.generations.environments[environment.number].generation
            for lane in self.lanes_of(environment, generation):
                if lane in self.works:
                    sink.worked(self.works[lane], self.moment, None)
            if environment.since is not None:
                sink.phase(environment, self.moment, None)
        for call in self.open.values():
            sink.still_open(call, self.moment, self.entry)
        sink.end(self)
