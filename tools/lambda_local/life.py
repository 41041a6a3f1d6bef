"""What goes on in an account, entry by entry of its history: invocations that are delivered and end, and environments
that close (docs/semantics.md).

    life = Life(configuration)
    for entry in source.read():
        for event in life.take(entry):
            ..

The events are an invocation that a runtime was given, one that ended, one that was throttled, and an environment that
closes."""
from typing import Dict, List, NamedTuple, Optional, Tuple, Type, Union

from .configuration import Members
from .history import generations
from .history.entries import Entry
from .history.generations import Extension as Extension, Generation as Generation, Generations
from .history.short import Asked, Delivered, Responded, Taken
from .history.words import ENDINGS, FAILURES, INIT_FAILURE, INVOKE, Word


class Invocation:
    __slots__ = ("function", "identifier", "moment", "environment", "delivered", "asked", "is_over")

    def __init__(self, function: str, identifier: str, moment: int, environment: Optional["Environment"]) -> None:
        self.function, self.identifier, self.moment = function, identifier, moment
        self.environment = environment  # where it was placed
        self.delivered: Optional[int] = None
        self.asked: Optional[int] = None  # when the Init was over, if this is the environment's first after it
        self.is_over = False  # it was answered

    @property
    def waits(self) -> bool:
        """Whether it was admitted, and no runtime has it yet."""
        return self.delivered is None and not self.is_over


class Environment:
    """An environment, from 1, of a function; `place` is its place among that function's own, from 1."""

    def __init__(self, here: generations.Environment, function: str, place: int, expected: List[str]) -> None:
        self.here, self.number, self.function, self.place, self.expected = here, here.number, function, place, expected

    @property
    def generation(self) -> Generation:
        return self.here.generation

    @property
    def before(self) -> Optional[Generation]:
        return self.here.before

    @property
    def is_bound(self) -> bool:
        """Whether an invocation waits for the end of its Init."""
        return self.here.phase.bound is not None

    @property
    def name(self) -> str:
        return f"{self.function}/{self.place}"

    def of(self, identifier: str) -> Optional[Generation]:
        """The generation in which this extension is registered: the present one, or that before it."""
        return self.here.of(identifier)


class Begun(NamedTuple):
    """A runtime was given an invocation."""
    moment: int
    invocation: Invocation
    environment: Environment


class Ended(NamedTuple):
    """An invocation was answered."""
    moment: int
    invocation: Invocation
    environment: Optional[Environment]
    kind: Word
    body: Optional[bytes]
    length: Optional[int]  # of the body in bytes


class Throttled(NamedTuple):
    moment: int
    function: str
    reason: str


class Closes(NamedTuple):
    """An environment's generation ends."""
    moment: int
    environment: Environment
    generation: Generation
    kind: str  # of the entry that closed it: "expire", "init-failure", "spindown" ..
    extension: Optional[Extension]  # that failed
    was_ready: bool


Reporter = Union[int, str]  # an environment's runtime, by the environment's number, or an extension, by its identifier
Event = Union[Begun, Ended, Throttled, Closes]
KINDS: Tuple[Type[Event], ...] = (Begun, Ended, Throttled, Closes)


class Life:
    def __init__(self, configuration: Members) -> None:
        functions = configuration["functions"]
        self.generations = Generations(sum(len(function["ports"]) for function in functions))
        self.environments: Dict[int, Environment] = {}
        for function in functions:
            for place, _ in enumerate(function["ports"], 1):
                here = self.generations.environments[len(self.environments) + 1]
                self.environments[here.number] = Environment(here, function["name"], place,
                                                             function.get("extensions", []))
        self.invocations: Dict[int, Invocation] = {}  # those without an answer, by ticket
        self.tells_begun = True  # whether there are events of deliveries

    def take(self, entry: Taken) -> List[Event]:
        """The events of an entry."""
        if isinstance(entry, Responded):
            if entry.invoke in self.generations.polls:
                self.generations.answered(entry.invoke, Word.OUTPUT)
            return self._answered(entry.invoke, Word.OUTPUT, entry.moment, None, entry.length)
        if isinstance(entry, Asked):
            self.generations.asked(entry)
            return []
        if isinstance(entry, Delivered):
            here = self.environments[entry.environment]
            self.invocations[entry.ticket] = one = Invocation(entry.function, entry.request, entry.moment, here)
            self.generations.delivered(entry)
            return self._given(one, entry.moment)
        return self._take(entry)

    def _take(self, entry: Entry) -> List[Event]:
        events: List[Event] = []
        if entry.call.kind == INVOKE:
            self._invoked(entry, events)
        failed = None if entry.call.extension is None else self._extension_of(entry)
        turns = self.generations.take(entry)
        for answer in entry.answers:
            if answer.word is Word.DELIVER:
                invocation = self.invocations.get(-1 if answer.source is None else answer.source)
                events += self._given(invocation, entry.moment)
            elif answer.word in ENDINGS:
                length = answer.length if answer.body is None else len(answer.body)
                events += self._answered(answer.ticket, answer.word, entry.moment, answer.body, length)
        for turn in turns:
            if turn.closes:
                events.append(Closes(entry.moment, self.environments[turn.environment.number], turn.generation,
                                     entry.call.kind, failed, turn.generation.is_ready))
        return events

    def reporter(self, entry: Entry) -> Optional[Reporter]:
        """Who reports a failure by an entry that is taken next; none if none is reported."""
        if entry.call.kind == INIT_FAILURE:
            return entry.call.environment
        extension = self._extension_of(entry) if entry.call.kind in FAILURES else None
        return extension.identifier if extension else None

    def _invoked(self, entry: Entry, events: List[Event]) -> None:
        function, own = str(entry.call.function), entry.own
        if own and own.word is Word.THROTTLED:
            events.append(Throttled(entry.moment, function, own.reason or ""))
        else:
            self.invocations[entry.ticket] = Invocation(function, entry.request or "", entry.moment,
                                                        self.environments.get(entry.place or 0))

    def _extension_of(self, entry: Entry) -> Optional[Extension]:
        """The extension that a call names, in the generation in which it is made."""
        environment = self.environments.get(entry.call.environment or 0)
        return environment.generation.extensions.get(entry.call.extension or 0) if environment else None

    def _given(self, invocation: Optional[Invocation], moment: int) -> List[Event]:
        """A runtime was given an invocation."""
        if invocation is None or invocation.environment is None:
            return []
        generation = invocation.environment.generation
        invocation.delivered = moment
        invocation.asked = generation.asked if generation.deliveries == 1 else None
        return [Begun(moment, invocation, invocation.environment)] if self.tells_begun else []

    def _answered(self, ticket: int, word: Word, moment: int, body: Optional[bytes],
                  length: Optional[int]) -> List[Event]:
        invocation = self.invocations.pop(ticket, None)
        if invocation is None:
            return []  # (the answer to another call: a reservation after a stop)
        invocation.is_over = True
        return [Ended(moment, invocation, invocation.environment, word, body, length)]
