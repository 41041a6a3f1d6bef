"""The calls that are shown: what an entry says of its call and of the answers, for a person."""
import os
from typing import Any, NamedTuple, Optional, Tuple, Union

from ..history.entries import Answer, Entry, count_in
from ..history.opening import Configuration
from ..history.words import POLLS, Word
from ..outgoing import printable
from ..reports import Report

# What makes a call, or has something: its kind, then the number of a caller or of an environment, then the name of an
# extension
Lane = Tuple[Any, ...]
SHOWN_OF_A_PAYLOAD = 160
BEGINNING = 4 * SHOWN_OF_A_PAYLOAD  # bytes that are enough for what is shown
LONGEST_REPORT = 64 << 10  # bytes of one that is read
NOWHERE = os.path.join(os.sep, "nowhere")  # the folder of the function is not known
# the outcome of a call, by the word of its answer
OUTCOMES = {
    **dict.fromkeys((Word.OUTPUT, Word.ACCEPTED, Word.DONE, Word.REGISTERED, Word.RESERVED, Word.UNRESERVED), "good"),
    Word.DELIVER: "handed", Word.TELL: "handed", Word.SHUTDOWN: "ending", Word.ERROR: "error",
    Word.TOO_LARGE_OUTPUT: "error", Word.TIMEOUT: "timeout", Word.INIT_TIMEOUT: "timeout",
    Word.THROTTLED: "throttled", Word.STOPPED: "ended", Word.WITHDRAWN: "ended", Word.REFUSED: "refused"}
FAILED = ("error", "timeout", "throttled", "refused")  # the outcomes of a call that failed


class Call:
    """A call of an entry, and when it has one its answer."""

    __slots__ = ("moment", "kind", "function", "environment", "count", "name", "size", "events", "ticket", "entry",
                 "end", "end_entry", "answer", "answered", "body", "lane", "drawn", "hidden", "request", "trace",
                 "place")

    def __init__(self, entry: Entry, configuration: Configuration) -> None:
        call = entry.call
        self.moment, self.kind, self.environment = entry.moment, call.kind, call.environment
        self.function = None if call.function is None else configuration.numbers.get(call.function)
        self.count = call.extension if call.id is None else call.id
        if self.count is None:
            self.count = call.reserved if call.ticket is None else call.ticket
        self.events, self.name = "i" * call.invoke + "s" * call.shutdown, call.name
        self.size = 0 if call.body is None else len(call.body)
        self.body = beginning(call.body, "failure" in call.kind)
        self.ticket = self.entry = entry.ticket
        self.request, self.trace, self.place = entry.request, call.trace, entry.place
        self.end = entry.moment  # with its answer
        self.end_entry: Optional[int] = None
        self.answer: Optional[Answer] = None
        self.answered: Union[str, Beginning, None] = None  # the body of the answer
        self.lane: Lane = ("account",)
        self.drawn, self.hidden = False, False

    def end_with(self, answer: Answer, moment: int, entry: int) -> None:
        self.end, self.end_entry = moment, entry
        self.answered = beginning(answer.body, answer.word is Word.ERROR)
        is_long = answer.body is not None and len(answer.body) > BEGINNING
        self.answer = answer._replace(body=None) if is_long else answer

    @property
    def said(self) -> str:
        """The answer for a person; empty if there is none."""
        if self.answer is None:
            return ""
        words, body = answer_words(self.answer), "" if self.answered is None else str(self.answered)
        return f"{words} {body}" if body else words


class Beginning(NamedTuple):
    """What is kept of a body that may be shown."""
    body: bytes
    is_whole: bool

    def __str__(self) -> str:
        return shown(self.body, self.is_whole)


def beginning(body: Optional[bytes], is_report: bool) -> Union[str, Beginning, None]:
    """What is kept of a body: of a report its words, since they need all of it."""
    if body is None or is_report:
        return None if body is None else shown_report(body)
    return Beginning(body[:BEGINNING], len(body) <= BEGINNING)


def outcome(call: Call) -> str:
    if call.answer is None:
        return "open"
    if call.kind in POLLS and call.answer.reason in ("Container", "Replaced"):
        return "ended"
    return OUTCOMES[call.answer.word]


def shown(body: bytes, is_whole: bool = True) -> str:
    """A body for a person: what cannot be printed is a dot."""
    if len(body) <= SHOWN_OF_A_PAYLOAD and body.isascii():
        plain = body.decode()
        if plain.isprintable():
            return plain
    cut = body[:BEGINNING]
    plain = cut.decode("utf-8", "replace")
    plain = "".join(c if c.isprintable() else "\u00b7" for c in plain)
    more = len(plain) > SHOWN_OF_A_PAYLOAD or len(cut) < len(body) or not is_whole
    return plain[:SHOWN_OF_A_PAYLOAD] + ("\u2026" if more else "")


def shown_report(body: bytes) -> str:
    """A report of a failure, as its type, its message and its place, if it has a type; else as it is."""
    if len(body) <= LONGEST_REPORT and b"errorType" in body:
        report = Report(body, NOWHERE)
        if report.is_read and report.kind:
            return printable(str(report))
    return shown(body)


def answer_words(answer: Answer) -> str:
    """An answer for a person, without its body."""
    word = answer.word
    if word is Word.DELIVER:
        words = f"deliver request {count_in(answer.request or '')}, until {answer.deadline}"
    elif word is Word.TELL:
        words = (f"tell event {count_in(answer.event or '')}: request {count_in(answer.request or '')}, "
                 f"until {answer.deadline}")
    elif word is Word.SHUTDOWN:
        words = f"shutdown event {count_in(answer.event or '')}: {answer.reason}, until {answer.deadline}"
    elif word is Word.REGISTERED:
        words = f"registered as extension {count_in(answer.extension or '')}"
    else:
        more = answer.reason if answer.reserved is None else answer.reserved
        words = str(word) if more is None else f"{word} {more}"
    return words
