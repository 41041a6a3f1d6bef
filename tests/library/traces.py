"""The entries of a history or a script, as the program traces them, and those of lines, as they are read."""
from typing import Any, List, Sequence, Tuple

from lambda_local.history.entries import Answer, Call, Entry, Phase
from lambda_local.history.reader import Reader
from lambda_local.history.replay import entries_of_script
from lambda_local.history.script import Script
from lambda_local.history.shapes import NotTrace
from lambda_local.history.short import Asked, Delivered, Responded, Taken
from lambda_local.history.words import Word
from tests.library.timelines import PROGRAM

TOGETHER = 7  # lines that come at once


def entries_in(text):
    script = Script("a history", text.encode())
    try:
        return list(entries_of_script(script, PROGRAM))
    finally:
        script.close()


def one_by_one(lines: Sequence[bytes], environments: int) -> Tuple[List[Entry], str]:
    """The entries that are read of lines, and what is said of the first that is none."""
    each = Reader(environments)
    found: List[Entry] = []
    try:
        for line in lines:
            found.append(each.take(line))
    except NotTrace as fault:
        return found, str(fault)
    return found, ""


def all_at_once(lines: Sequence[bytes], environments: int, in_short: bool = False) -> Tuple[List[Any], str]:
    """The same, as a task reads what has come: some entries in short, if that is asked. Each line may be read by the
    form of one that came before."""
    each = Reader(environments, in_short=in_short)
    each.forms.misses = 1
    found: List[Any] = []
    try:
        while len(found) < len(lines):
            found += each.take_all(b"".join([line + b"\n" for line in lines[len(found):len(found) + TOGETHER]]))
    except NotTrace as fault:
        return found, str(fault)
    return found, ""


def whole(taken: Taken, entry: Entry) -> Entry:
    """What is taken, as a whole entry: with those values of this one that nobody needs who takes it in short."""
    if isinstance(taken, Delivered):
        answer = Answer(taken.poll, Word.DELIVER, taken.deadline, taken.request, source=taken.ticket,
                        length=entry.answers[0].length)
        call = Call("invoke", function=taken.function, length=entry.call.length, qualified=entry.call.qualified,
                    trace=entry.call.trace)
        phase = Phase(taken.environment, "busy", taken.deadline, invoke=taken.ticket)
        return Entry(taken.ticket, taken.moment, call, (answer, ), (phase, ), (), taken.request, taken.environment,
                     taken.ticket)
    if isinstance(taken, Responded):
        answers = (Answer(taken.invoke, Word.OUTPUT, source=taken.ticket, length=taken.length),
                   Answer(taken.ticket, Word.ACCEPTED))
        return Entry(taken.ticket, taken.moment, Call("response", taken.environment, id=entry.call.id,
                                                      length=entry.call.length), answers)
    if isinstance(taken, Asked):
        return Entry(taken.ticket, taken.moment, Call("next", taken.environment), (),
                     (Phase(taken.environment, "idle"), ), entry.released)
    return taken
