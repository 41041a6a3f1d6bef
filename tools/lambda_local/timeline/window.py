"""What is shown of a history: the calls of a window of time, up to a limit, and what goes on around them."""
from typing import Dict, Optional, Sequence

from ..history.entries import Answer
from ..outgoing import several
from ..program import Fault
from .call import FAILED, Call, Lane, outcome
from .sink import Lasting, Sink
from .words import since_words
from .world import Environment, Work, World

OF_UP = "lambda_local.up"  # the extension as which lambda_local up registers in each environment


class Moment:
    """A moment of the command line: on the axis of the history, or in milliseconds after its first entry."""

    def __init__(self, milliseconds: int, is_relative: bool) -> None:
        self.milliseconds, self.is_relative = milliseconds, is_relative

    def is_after(self, other: "Moment") -> bool:
        """Whether it is later than another one on the same axis."""
        return self.is_relative == other.is_relative and self.milliseconds > other.milliseconds

    def after(self, first: int) -> int:
        return self.milliseconds + (first if self.is_relative else 0)


class Window(Sink):
    """Passes on what is shown, and counts what is left out.

    `events` are the sinks that show what happens at a moment: they are notified of what happens in the window. `spans`
    are those that show what lasts: they are notified of all of which a part lies in the window."""

    def __init__(self, begin: Optional[Moment] = None, end: Optional[Moment] = None, limit: Optional[int] = None,
                 shows_all: bool = False, events: Sequence[Sink] = (), spans: Sequence[Sink] = ()) -> None:
        self.given, self.limit, self.shows_all, self.events, self.spans = (begin, end), limit, shows_all, events, spans
        self.start, self.stop = 0, float("inf")
        self.first: Optional[int] = None  # the moment of the first entry
        self.over: Optional[int] = None  # that from which on nothing more is shown
        self.calls = self.before = self.after = self.hidden = 0
        self.failed = 0  # calls that are left out
        self.first_failed: Optional[int] = None  # the moment of the first of them
        self.waiting: Dict[int, Call] = {}  # by ticket, the calls that wait for their answer where the window is

    def begin(self, moment: int) -> None:
        self.first = moment
        begin, end = self.given
        if begin is not None:
            self.start = begin.after(moment)
        if end is not None:
            self.stop = end.after(moment)
        if self.stop < self.start:
            raise Fault(2, f"--to is before --from: the history begins at {moment}, so the two are {self.stop} and "
                           f"{self.start}")
        for sink in (*self.events, *self.spans):
            sink.begin(moment)

    def shows(self, moment: int) -> bool:
        return self.start <= moment <= self.stop and self.over is None

    def is_past(self, moment: int) -> bool:
        return moment > self.stop or (self.over is not None and moment >= self.over)

    def is_hidden(self, lane: Lane) -> bool:
        return not self.shows_all and lane[0] == "extension" and lane[2] == OF_UP

    def reservation(self, moment: int, entry: int, f: int, count: Optional[int]) -> None:
        shown = self.shows(moment)
        for sink in self.events if shown else ():
            sink.reservation(moment, entry, f, count)
        for sink in self.spans:
            if shown or (sink.draws_the_past and not self.is_past(moment)):
                sink.reservation(moment, entry, f, count)

    def full(self, moment: int, words: str) -> None:
        if self.shows(moment):
            for sink in (*self.events, *self.spans):
                sink.full(moment, words)

    def expired(self, moment: int, entry: int, environment: Environment) -> None:
        if self.shows(moment):
            for sink in (*self.events, *self.spans):
                sink.expired(moment, entry, environment)

    def taken(self, call: Call, own: Optional[Answer]) -> None:
        call.hidden = self.is_hidden(call.lane)
        if call.hidden:
            self.hidden += 1
            return
        if call.moment < self.start:
            self.before += 1
            call.drawn = own is None  # it may wait until the window begins
        elif not self.shows(call.moment) or self.calls == self.limit:
            self.after += 1
            if self.over is None:
                self.over = call.moment
        else:
            self.calls += 1
            call.drawn = True
        if own is None and not self.is_past(call.moment):
            self.waiting[call.ticket] = call
        for sink in self.spans:
            sink.taken(call, own)
        if self.shows(call.moment):
            for sink in self.events:
                sink.taken(call, own)

    @property
    def is_over(self) -> bool:
        """Whether nothing more is shown: what follows is only counted."""
        return self.over is not None and not self.spans

    def left_after(self, moment: int, hidden: bool) -> None:
        """A call after that."""
        self.hidden += hidden
        self.after += not hidden

    def left_failed(self, moment: int) -> None:
        """A call that is left out has failed."""
        self.failed += 1
        self.first_failed = moment if self.first_failed is None else self.first_failed

    def answered(self, call: Call) -> None:
        if call.hidden:
            return
        if not self.is_past(call.end):
            self.waiting.pop(call.ticket, None)
        if call.drawn and call.end >= self.start:
            self.before -= call.moment < self.start
            for sink in self.spans:
                sink.answered(call)
        elif outcome(call) in FAILED:
            self.left_failed(call.moment)
        if self.shows(call.end):
            for sink in self.events:
                sink.answered(call)

    def still_open(self, call: Call, moment: int, entry: int) -> None:
        if call.hidden:
            return
        if not self.is_past(moment):
            self.waiting.pop(call.ticket, None)
        if call.drawn:
            self.before -= call.moment < self.start
            for sink in self.spans:
                sink.still_open(call, moment, entry)
        if self.shows(moment):
            for sink in self.events:
                sink.still_open(call, moment, entry)

    def turned(self, environment: Environment, moment: int, entry: int, phase: str, deadline: Optional[int],
               reason: Optional[str]) -> None:
        if self.shows(moment):
            for sink in (*self.events, *self.spans):
                sink.turned(environment, moment, entry, phase, deadline, reason)

    def phase(self, environment: Environment, moment: int, entry: Optional[int]) -> None:
        if moment >= self.start and not self.is_past(environment.since or 0):
            for sink in self.spans:
                sink.phase(environment, moment, entry)

    def lasted(self, lasting: Lasting) -> None:
        if lasting.end >= self.start and not self.is_past(lasting.begin):
            for sink in self.spans:
                sink.lasted(lasting)

    def worked(self, work: Work, moment: int, entry: Optional[int]) -> None:
        if moment >= self.start and not self.is_past(work.moment) and not self.is_hidden(work.lane):
            for sink in self.spans:
                sink.worked(work, moment, entry)

    def entered(self, entry: int, moment: int) -> None:
        if self.shows(moment):
            for sink in self.spans:
                sink.entered(entry, moment)

    def end(self, world: World) -> None:
        for call in self.waiting.values():
            moment = self.stop if self.over is None else min(self.stop, self.over)
            for event in self.events:
                event.cut(call, int(moment))
        for sink in (*self.events, *self.spans):
            sink.end(world)

    def left_out(self) -> str:
        """What is left out, in words; nothing if that is nothing."""
        words = []
        if self.before:
            words.append(f"{several(self.before, 'call')} before {since_words(self.start, self.first)}")
        if self.after:
            words.append(f"{several(self.after, 'call')} from {since_words(self.over or 0, self.first)} on")
        if not words:
            return ""
        failed = ""
        if self.failed:
            failed = f" {self.failed:,} of them failed, the first at {since_words(self.first_failed or 0, self.first)}."
        return f"Left out: {' and '.join(words)}.{failed} --from, --to and --limit choose what is shown."
