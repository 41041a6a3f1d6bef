"""Trace events, for Perfetto and chrome://tracing."""
import json
from typing import Callable, Dict, Optional, Tuple

from ..history.opening import Configuration
from .call import Call, Lane, outcome
from .sink import Sink
from .words import extension_words, payload_words, what
from .world import Environment, Work, World


class Trace(Sink):
    """The trace-event JSON that Perfetto and chrome://tracing open. Each call is one event of the category call."""

    draws_the_past = False

    def __init__(self, configuration: Configuration, write: Callable[[str], object]) -> None:
        self.configuration, self.write = configuration, write
        self.lanes: Dict[Lane, Tuple[int, int]] = {}
        self.names: Dict[int, Dict[int, str]] = {}
        self.between = '{"displayTimeUnit":"ms","traceEvents":[\n'

    def event(self, **members: object) -> None:
        self.write(self.between + json.dumps(members, separators=(",", ":")))
        self.between = ",\n"

    def name(self, process: int, thread: int, process_name: str, name: str) -> None:
        if process not in self.names:
            self.names[process] = {}
            self.event(ph="M", pid=process, tid=0, name="process_name", args={"name": process_name})
            self.event(ph="M", pid=process, tid=0, name="process_sort_index", args={"sort_index": process})
        self.event(ph="M", pid=process, tid=thread, name="thread_name", args={"name": name})
        self.event(ph="M", pid=process, tid=thread, name="thread_sort_index", args={"sort_index": thread})

    def place(self, lane: Lane) -> Tuple[int, int]:
        """The numbers of a lane's process and thread."""
        if lane not in self.lanes:
            if lane[0] == "caller":
                place, name = (1, lane[1]), f"caller {lane[1]}"
            elif lane[0] == "account":
                place, name = (2, 1), "account"
            else:
                process = 10 + lane[1]
                others = sum(1 for other in self.lanes if other[0] == "extension" and other[1] == lane[1])
                thread = {"environment": 1, "runtime": 2}.get(lane[0], 3 + others)
                place, name = (process, thread), (
                    {"environment": "phase", "runtime": "runtime"}.get(lane[0]) or extension_words(lane[2]))
            process_name = {1: "callers", 2: "account"}.get(place[0]) or self.configuration.place(lane[1])
            self.name(*place, process_name, name)
            self.lanes[lane] = place
        return self.lanes[lane]

    def span(self, lane: Lane, category: str, name: str, begin: int, end: int, args: Dict[str, object]) -> None:
        process, thread = self.place(lane)
        self.event(ph="X", cat=category, pid=process, tid=thread, name=name, ts=1000 * begin, dur=1000 * (end - begin),
                   args=args)

    def mark(self, lane: Lane, category: str, name: str, moment: int, args: Dict[str, object]) -> None:
        process, thread = self.place(lane)
        self.event(ph="i", s="p", cat=category, pid=process, tid=thread, name=name, ts=1000 * moment, args=args)

    def begin(self, moment: int) -> None:
        for e in range(1, len(self.configuration.owners) + 1):
            self.place(("environment", e))

    def full(self, moment: int, words: str) -> None:
        self.mark(("account",), "full", f"{words}: JournalFull", moment, {})

    def expired(self, moment: int, entry: int, environment: Environment) -> None:
        self.mark(("environment", environment.number), "expiry", f"the deadline of {environment.phase} has come",
                  moment, {"entry": entry})

    def call(self, call: Call, end: int, colour: str) -> None:
        args = {"call": call.ticket, "outcome": outcome(call), "answer": call.said or "none yet"}
        if payload := payload_words(call):
            args["payload"] = payload
        words = what(self.configuration, call)
        process, thread = self.place(call.lane)
        self.event(ph="X", cat="call", pid=process, tid=thread,
                   name=f"{words}: {call.answer.word if call.answer else 'open'}",
                   ts=1000 * call.moment, dur=1000 * (end - call.moment), cname=colour, args=args)

    # the names of colours that chrome://tracing has; Perfetto chooses by the event's name, which has the outcome in it
    COLOURS = {"good": "good", "handed": "thread_state_sleeping", "ending": "yellow", "error": "bad",
               "timeout": "terrible", "throttled": "olive", "ended": "grey", "refused": "black", "open": "white"}

    def answered(self, call: Call) -> None:
        self.call(call, call.end, self.COLOURS[outcome(call)])

    def still_open(self, call: Call, moment: int, entry: int) -> None:
        self.call(call, moment, "white")

    def phase(self, environment: Environment, moment: int, entry: Optional[int]) -> None:
        args: Dict[str, object] = {"generation": environment.generation}
        if environment.deadline is not None:
            args["deadline"] = environment.deadline
        reset = f" ({environment.reason})" if environment.reason else ""
        begun = environment.since or 0
        self.span(("environment", environment.number), "phase", environment.phase + reset, begun, moment,
                  args)

    def turned(self, environment: Environment, moment: int, entry: int, phase: str, deadline: Optional[int],
               reason: Optional[str]) -> None:
        if phase == "Closing":
            self.mark(("environment", environment.number), "reset", f"reset: {reason}", moment,
                      {"generation": environment.generation})

    def worked(self, work: Work, moment: int, entry: Optional[int]) -> None:
        self.span(work.lane, "work", f"works on {work.name}", work.moment, moment, {"deadline": work.until})

    def reservation(self, moment: int, entry: int, f: int, count: Optional[int]) -> None:
        self.mark(("account",), "reservation", f"{self.configuration.names[f]}: "
                  + ("no reservation" if count is None else f"{count} reserved"), moment, {})

    def end(self, world: World) -> None:
        self.write((self.between if self.between.startswith("{") else "\n") + "]}\n")
