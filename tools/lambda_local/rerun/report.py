"""What came of each invocation, compared with what was recorded: as lines, and as JUnit XML."""
from collections import Counter
from typing import List, NamedTuple, Optional, Sequence

from ..junit import Suite
from ..outgoing import several
from .compare import Pointer, differences, of_reports, shown
from .record import Invocation, Recording

EQUAL, CHANGED, FAILED_NOW, FAILED_THEN = "equal", "changed", "failed now", "failed then"


EVENT = 80  # letters of an event
EVENT_OF_A_NAME = 40  # letters of it in the name of a case


class Result(NamedTuple):
    invocation: Invocation
    verdict: str
    lines: List[str]  # what differs
    seconds: float
    is_new: bool = False  # the history does not have it: a function has made it now

    @property
    def name(self) -> str:
        return "a new call" if self.is_new else f"call {self.invocation.ticket}"


def words_of(kind: str, body: Optional[bytes]) -> str:
    """An answer in a few words."""
    return kind if body is None else f"{kind} {shown(body)}"


def judged(then: Invocation, kind: str, body: Optional[bytes], seconds: float, pointers: Sequence[Pointer],
           exact: bool = False) -> Result:
    """A recorded invocation beside the `kind` and the body of its answer now. Errors are compared by type and message,
    unless they are to be exact."""
    failed = [each != "output" for each in (then.kind, kind)]
    if failed == [False, True]:
        return Result(then, FAILED_NOW, [words_of(kind, body)], seconds)
    if failed == [True, False]:
        return Result(then, FAILED_THEN, [f"then {words_of(then.kind, then.body)}, now {words_of(kind, body)}"],
                      seconds)
    if then.kind != kind:
        return Result(then, CHANGED, [f"{words_of(then.kind, then.body)} -> {words_of(kind, body)}"], seconds)
    compared = of_reports if kind == "error" and not exact else differences
    lines = [str(each) for each in compared(then.body or b"", body or b"", pointers)]
    return Result(then, CHANGED if lines else EQUAL, lines, seconds)


def of_made(then: Invocation, now: Optional[Invocation], pointers: Sequence[Pointer], exact: bool = False) -> Result:
    """A recorded invocation that a function made, beside the one that it has made now, if it has."""
    if now is None:
        return Result(then, CHANGED, ["recorded, but no function makes it now"], 0.0)
    result = judged(then, now.kind, now.body, 0.0, pointers, exact)
    events = [f"its event: {each}" for each in differences(then.payload, now.payload, pointers)]
    if not events:
        return result
    return Result(then, CHANGED if result.verdict == EQUAL else result.verdict, [*events, *result.lines], 0.0)


def of_new(now: Invocation) -> Result:
    """An invocation that a function has made now alone."""
    return Result(now, CHANGED, [f"new, a function makes it now: {words_of(now.kind, now.body)}"], 0.0, is_new=True)


def left_out(invocations: Sequence[Invocation]) -> str:
    """The recorded invocations that are not sent, in words."""
    counts = Counter("without an answer" if each.kind == "open" else each.kind for each in invocations
                     if not each.was_served)
    return ", ".join(f"{count} {kind}" for kind, count in sorted(counts.items()))


def text_of(results: Sequence[Result], recording: Recording) -> List[str]:
    """The lines of a report: one for each that is not equal, and the counts."""
    lines = []
    for result in results:
        if result.verdict != EQUAL:
            head = f"{result.verdict}: {result.name}, {result.invocation.function}"
            lines += [f"{head}: {result.lines[0]}"] if len(result.lines) == 1 else [
                f"{head}:", *(f"  {line}" for line in result.lines)]
            lines.append(f"  its event: {shown(result.invocation.payload, EVENT)}")
    counts = Counter(result.verdict for result in results)
    words = ", ".join(f"{counts[verdict]} {verdict}" for verdict in (EQUAL, CHANGED, FAILED_NOW, FAILED_THEN)
                      if counts[verdict])
    others = left_out(recording.invocations)
    sent = f"{several(len(results), 'invocation')}: {words or 'none'}"
    return lines + [sent + (f"; not sent: {others}" if others else "")]


def write_junit(path: str, results: Sequence[Result]) -> None:
    suite = Suite("rerun")
    for result in results:
        failure = None if result.verdict == EQUAL else f"{result.verdict}: {result.lines[0]}"
        name = f"{result.name}: {shown(result.invocation.payload, EVENT_OF_A_NAME)}"
        lines = result.lines + [f"its event: {shown(result.invocation.payload, EVENT)}"]
        suite.case(result.invocation.function, name, result.seconds, failure, "\n".join(lines))
    suite.write(path, has_payloads=True)
