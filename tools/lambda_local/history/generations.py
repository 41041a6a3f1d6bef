"""Who takes part in each generation of an environment, who asks for work, and when a generation ends: as the entries of
a trace say it.

    generations = Generations(environments)
    for entry in entries:
        for turn in generations.take(entry):
            .."""
from typing import Dict, Iterable, List, NamedTuple, Optional, Sequence, Tuple, Union

from .entries import Entry, Phase, count_in
from .short import Asked, Delivered
from .words import (BUSY, CLOSING, EXPIRE, EXT_NEXT, FAILURES, IDLE, NEXT, OFF, REGISTER, SPINDOWN, STARTING, STOP,
                    Word)

new = tuple.__new__  # (for what is made again and again)
MAY_END = (*FAILURES, STOP, EXPIRE, SPINDOWN)  # the calls that may end a generation


class Extension:
    """An extension that is registered in a generation."""
    __slots__ = ("name", "identifier", "invoke", "shutdown", "poll", "told", "again", "exited")

    def __init__(self, name: str, identifier: str, invoke: bool, shutdown: bool) -> None:
        self.name, self.identifier, self.invoke, self.shutdown = name, identifier, invoke, shutdown
        self.poll: Optional[int] = None  # the ticket of the Next that waits
        self.told = False  # that the generation ends
        self.again = False  # it has asked once more after that
        self.exited = False  # it has said that it fails

    @property
    def is_done(self) -> bool:
        """Whether it has nothing to do any more in a generation that ends."""
        return self.exited or self.told and self.again


class Generation:
    """What one environment does from its Init to its end."""

    def __init__(self, number: int) -> None:
        self.number = number  # from 1
        self.poll: Optional[int] = None  # the ticket of the runtime's Next that waits
        self.extensions: Dict[int, Extension] = {}  # by the count of the identifier
        self.is_ready = False  # its Init is over
        self.asked: Optional[int] = None  # when its runtime asked for its first invocation
        self.deliveries = 0
        self.closes = self.is_over = False
        self.report: Optional[bytes] = None  # the body of the failure that closed it

    def named(self, name: str) -> Optional[Extension]:
        return next((extension for extension in self.extensions.values() if extension.name == name), None)

    @property
    def waiting(self) -> int:
        """How many extensions wait for an event."""
        return sum(extension.poll is not None for extension in self.extensions.values())

    def missing(self, expected: Sequence[str]) -> List[str]:
        """The names of the extensions that are expected and do not ask for work, in that order."""
        found = ((name, self.named(name)) for name in expected)
        return [name for name, one in found if one is None or one.poll is None]


Poller = Union[Extension, Generation]  # a generation for its runtime


class Environment:
    def __init__(self, number: int) -> None:
        self.number = number
        self.phase = Phase(number, STARTING)
        self.generation = Generation(1)
        self.before: Optional[Generation] = None
        self.idle = Phase(number, IDLE)

    def becomes(self, now: Phase, closes: bool = False) -> bool:
        """Its phase after an entry, with which its generation may begin to close; whether that is over."""
        generation, was, self.phase = self.generation, self.phase, now
        if (closes or was.name == CLOSING) and now.name != CLOSING:
            generation.is_over = True
            self.before, self.generation = generation, Generation(generation.number + (now.name != OFF))
            return True
        if not closes and not generation.is_ready:
            generation.is_ready = now.name in (IDLE, BUSY)
        return False

    def of(self, identifier: str) -> Optional[Generation]:
        """The generation in which this extension is registered: the present one, or that before it."""
        count = count_in(identifier)
        return next((generation for generation in (self.generation, self.before)
                     if generation and count in generation.extensions), None)


class Turn(NamedTuple):
    """What an entry made of an environment."""
    environment: Environment
    generation: Generation  # before the entry
    was: Phase
    now: Phase
    closes: Optional[str]  # why the generation begins to close, if it does
    is_over: bool  # the generation is over


class Generations:
    def __init__(self, environments: int) -> None:
        self.environments = {number: Environment(number) for number in range(1, environments + 1)}
        self.polls: Dict[int, Tuple[Generation, Poller]] = {}  # by ticket: whose they are

    def delivered(self, entry: Delivered) -> None:
        """Follows an Invoke in short."""
        if entry.poll in self.polls:
            self.answered(entry.poll, Word.DELIVER)
        self.environments[entry.environment].becomes(
            new(Phase, (entry.environment, BUSY, entry.deadline, None, entry.ticket, None)))

    def asked(self, entry: Asked) -> None:
        """Follows a Next in short."""
        environment = self.environments[entry.environment]
        self._asks(environment.generation, entry.ticket, entry.moment)
        environment.becomes(environment.idle)

    def take(self, entry: Entry) -> List[Turn]:
        """Follows an entry. Returns what it made of those environments that it changed, by rising number."""
        environment = self.environments.get(entry.call.environment or 0)
        if environment:
            self._note(environment.generation, entry)
        if self.polls:
            self._answered(entry)
        may_end = entry.call.kind in MAY_END
        return self._turns(entry, environment, may_end) if entry.phases or may_end else []

    def _note(self, generation: Generation, entry: Entry) -> None:
        """What a call says of the one who makes it."""
        call, own = entry.call, entry.own
        if call.kind == NEXT:
            if own is None:
                self._asks(generation, entry.ticket, entry.moment)
            elif own.word is Word.DELIVER:
                generation.asked = entry.moment if generation.asked is None else generation.asked
                generation.deliveries += 1
            return
        if call.kind == REGISTER and own and own.word is Word.REGISTERED:
            identifier = own.extension or ""
            generation.extensions[count_in(identifier)] = Extension(call.name or "", identifier, call.invoke,
                                                                    call.shutdown)
        extension = None if call.extension is None else generation.extensions.get(call.extension)
        if extension and call.kind == EXT_NEXT:
            extension.again = extension.again or extension.told
            if own is None:
                extension.poll = entry.ticket
                self.polls[entry.ticket] = generation, extension
            extension.told = extension.told or own is not None and own.word is Word.SHUTDOWN
        elif extension and entry.has(Word.ACCEPTED):
            extension.exited = True

    def _answered(self, entry: Entry) -> None:
        """Notes the polls that wait no more."""
        for answer in entry.answers:
            if answer.ticket in self.polls:
                self.answered(answer.ticket, answer.word)

    def _asks(self, generation: Generation, ticket: int, moment: int) -> None:
        """Its runtime waits."""
        generation.poll = ticket
        self.polls[ticket] = generation, generation
        if generation.asked is None:
            generation.asked = moment

    def answered(self, ticket: int, word: Word) -> None:
        """The poll with this ticket waits no more."""
        generation, member = self.polls.pop(ticket)
        if member.poll == ticket:
            member.poll = None
        if isinstance(member, Extension):
            member.told = member.told or word is Word.SHUTDOWN
        elif word is Word.DELIVER:
            generation.deliveries += 1

    def _turns(self, entry: Entry, named: Optional[Environment], may_end: bool) -> List[Turn]:
        turns, after = [], {phase.environment: phase for phase in entry.phases}
        numbers: Iterable[int] = after
        if may_end:  # (then also one whose phase it does not change)
            numbers = self.environments if entry.call.kind == STOP else {*after, *([named.number] if named else [])}
        for number in sorted(numbers):
            environment = self.environments[number]
            was, generation = environment.phase, environment.generation
            now = after.get(number, was)
            closes = self._reason(entry, was, now) if may_end or now.name == CLOSING else None
            if closes:
                generation.closes = True
                generation.report = entry.call.body if entry.call.kind in FAILURES else None
            if closes or now is not was:
                is_over = environment.becomes(now, closes is not None)
                turns.append(Turn(environment, generation, was, now, closes, is_over))
        return turns

    @staticmethod
    def _reason(entry: Entry, was: Phase, now: Phase) -> Optional[str]:
        """Why a generation begins to close, if it does. If its end waits for no one, the phases do not show that: then
        the call says it."""
        if was.name in (CLOSING, OFF):
            return None
        if now.name == CLOSING:
            return now.reason
        kind = entry.call.kind
        if kind == EXPIRE:
            return "TIMEOUT" if entry.expires == was.environment else None
        if kind == STOP:
            return "SPINDOWN"
        if kind not in (SPINDOWN, *FAILURES) or not entry.has(Word.ACCEPTED):
            return None
        return "SPINDOWN" if kind == SPINDOWN else "FAILURE"
