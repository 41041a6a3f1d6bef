"""A line for each invocation and each Init that failed, from what goes on in the account."""
import time
from collections import Counter
from typing import Counter as Counts, Dict, Iterable, List, Mapping, Optional, Tuple

from ..history.words import EXPIRE, FAILURES, Word
from ..life import Closes, Ended, Environment, Event, Generation, Throttled
from ..outgoing import Log
from ..reports import Report, shorten
from .invocation_lines import Printed
from .members import NAME, Function
from .unnamed import late_and_others

REASONS = {"ReservedFunctionConcurrentInvocationLimitExceeded": "reserved concurrency",
           "ConcurrentInvocationLimitExceeded": "the account's concurrency",
           "LocalEnvironmentLimitExceeded": "no environment is free"}
INIT_SECONDS = 10
MOST_LOOKED_AT = 200  # of the lines that a runtime has printed
SUMMED_SECONDS = 1.0  # of throttled invocations of a function in one line


class Lines:
    def __init__(self, log: Log, functions: Iterable[Function],
                 printed: Optional[Mapping[int, Printed]] = None) -> None:
        self.log = log
        self.printed = printed or {}  # by the number of the environment
        self.functions = {function.name: function for function in functions}
        # By function: since when, and how often for which reason
        self.throttled: Dict[str, Tuple[float, Counts[str]]] = {}
        self.failed: Dict[str, str] = {}  # how the last Init of a function failed
        self.tells_outputs = True

    def take(self, event: Event) -> None:
        if isinstance(event, Ended):
            self._ended(event)
        elif isinstance(event, Throttled):
            self.throttled.setdefault(event.function, (time.monotonic(), Counter()))[1][event.reason] += 1
        elif isinstance(event, Closes) and not event.was_ready:
            self._init_failed(event)

    def say(self, where: str, text: str, level: str, kind: str, members: Dict[str, object]) -> None:
        self.log(where, text, level, kind, False, **members)

    def _ended(self, event: Ended) -> None:
        if event.kind is Word.OUTPUT and not self.tells_outputs:
            return
        invocation, function = event.invocation, self.functions[event.invocation.function]
        where = event.environment.name if event.environment else function.name
        duration = None if invocation.delivered is None else event.moment - invocation.delivered
        members: Dict[str, object] = {
            "function": function.name, "environment": event.environment.place if event.environment else None,
            "request": invocation.identifier, "moment": event.moment, "duration_ms": duration}
        if event.kind is Word.OUTPUT:
            members["status"] = "ok"
            self.say(where, f"{invocation.identifier} ok {duration} ms", "ok", "invocation", members)
            return
        if event.kind is Word.ERROR:
            report = Report(event.body or b"", function.directory)
            text = f"error {report}"
            members.update(report.members)
        else:
            text = {Word.TIMEOUT: f"timeout after {function.part.get('timeout', 3)} s",
                    Word.INIT_TIMEOUT: f"Init timed out after {INIT_SECONDS} s",
                    Word.TOO_LARGE_OUTPUT: "error: its response has more than 6291456 bytes",
                    Word.STOPPED: "ended by the stop"}[event.kind]
        self.say(where, f"{invocation.identifier} {text}", "error", "invocation",
                 {"status": str(event.kind), **members})

    def _init_failed(self, event: Closes) -> None:
        environment, function = event.environment, self.functions[event.environment.function]
        members: Dict[str, object] = {"function": function.name, "environment": environment.place,
                                      "moment": event.moment}
        if event.kind == EXPIRE:
            text = f"Init failed: timed out after {INIT_SECONDS} s, {self.waited_for(environment, event.generation)}"
            self.say(environment.name, text, "error", "init", members)
        elif event.kind in FAILURES:
            report = Report(event.generation.report or b"", function.directory)
            of = f"of the extension {event.extension.name} " if event.extension else ""
            text = f"Init {of}failed {report}"
            is_again = self.failed.get(function.name) == text  # (it has been told at length)
            self.failed[function.name] = text
            self.say(environment.name, f"Init {of}failed again, in the same way" if is_again else text, "error", "init",
                     {**report.members, **members})
            for line in [] if is_again or self._is_printed(environment.number, report.lines) else report.lines:
                self.log(environment.name, f"  {shorten(line)}", level="error", kind="trace")

    def _is_printed(self, number: int, trace: List[str]) -> bool:
        """Whether the runtime has printed the end of its trace itself, as the bundled ones do."""
        printed = self.printed.get(number)
        if printed is None or not trace:
            return False
        printed.settle()
        return any(line.text.strip() == trace[-1].strip() for line in list(printed.lines)[-MOST_LOOKED_AT:])

    @staticmethod
    def waited_for(environment: Environment, generation: Generation) -> str:
        """Returns who has not come in an Init."""
        late = [f"its extension {name}, which must "
                f"{'ask for its next event' if generation.named(name) else 'register by this name'}"
                for name in generation.missing(environment.expected) if name != NAME]
        others = late_and_others(environment, generation)[1]
        if late and others:
            late[-1] += f" ({', '.join(others)} has registered)"
        if generation.poll is None:
            late.append("its runtime, which must ask for its next invocation")
        return "which waited for " + (" and ".join(late) or "lambda_local up")

    def more(self, name: str) -> str:
        """What to write so that a function has more environments."""
        count = len(self.functions[name].part["ports"])
        most = max(10, 2 * count)
        return f' ("environments": {{"min": 1, "max": {most}}} allows {most})' if most < 257 else ""

    def tell_throttled(self, at_the_end: bool = False) -> None:
        """One line for each function that was throttled, a second after the first time that it sums."""
        for name, (since, reasons) in list(self.throttled.items()):
            if at_the_end or time.monotonic() - since >= SUMMED_SECONDS:
                del self.throttled[name]
                count = sum(reasons.values())
                why = ", ".join(REASONS[reason] + (f" {often}" if len(reasons) > 1 else "")
                                for reason, often in reasons.most_common())
                times = "" if count == 1 else f" {count} times"
                hint = self.more(name) if "LocalEnvironmentLimitExceeded" in reasons else ""
                self.log(name, f"throttled{times}: {why}{hint}", level="warning", kind="throttled", function=name,
                         count=count, reasons=dict(reasons))
