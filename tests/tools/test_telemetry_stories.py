"""Checks what tools/lambda_local/telemetry tells its subscribers, without processes: events, buffers and schemas are as
AWS's pages have them."""
import json
import random
from typing import Dict, List, Optional, Tuple

from lambda_local.configuration import Members
from lambda_local.telemetry.buffer import Buffer
from lambda_local.telemetry.desk import MOST_KEPT, Kept
from lambda_local.telemetry.schema import Event, rendered
from lambda_local.telemetry.story import About, Moment, Story
from lambda_local.telemetry.subscription import Buffering
from tests.library.cases import Case


def buffer_of(items=1000, size=262_144, seconds=1.0):
    return Buffer(Buffering(items, size, seconds), lambda records, lost: json.dumps([records, lost]).encode())


AT = 1665532800.064  # 2022-10-12T00:00:00.064Z
METRICS = {"durationMs": 101.51, "billedDurationMs": 102, "memorySizeMB": 512, "maxMemoryUsedMB": 33}
EVENTS = {
    "start": ("platform.start", {"requestId": "r", "version": "$LATEST", "tracing": {"value": "t"}}),
    "done": ("platform.runtimeDone", {"requestId": "r", "status": "error", "errorType": "E", "metrics": METRICS}),
    "report": ("platform.report", {"requestId": "r", "status": "success", "metrics": METRICS, "spans": []}),
    "init": ("platform.initStart", {"initializationType": "on-demand", "phase": "init", "functionName": "f",
                                    "functionVersion": "$LATEST", "instanceId": "i", "instanceMaxMemory": 128}),
    "extension": ("platform.extension", {"name": "x", "state": "Ready", "events": ["INVOKE"]}),
    "subscribed": ("platform.telemetrySubscription", {"name": "x", "state": "Subscribed", "types": ["function"]}),
    "dropped": ("platform.logsDropped", {"reason": "why", "droppedRecords": 12, "droppedBytes": 3}),
    "end": ("platform.end", {"requestId": "r"}), "fault": ("platform.fault", {"text": "RequestId: r Process exited"}),
    "line": ("function", '{"level":"INFO"}'), "plain": ("function", "hello"), "of extension": ("extension", "{}"),
}
Wanted = Dict[Tuple[str, str], Optional[Members]]  # (event, schema)
START_OF_LOGS = {"time": "2022-10-12T00:00:00.064Z", "type": "platform.start",
                 "record": {"requestId": "r", "version": "$LATEST"}}
OF_LOGS: Wanted = {  # what the Logs API's page has
    ("start", "2020-08-15"): START_OF_LOGS, ("start", "2021-03-18"): START_OF_LOGS,
    ("done", "2020-08-15"): None,
    ("done", "2021-03-18"): {"type": "platform.runtimeDone", "record": {"requestId": "r", "status": "failure"}},
    ("report", "2020-08-15"): {"type": "platform.report", "record": {"requestId": "r", "metrics": METRICS}},
    ("init", "2020-08-15"): None,
    ("extension", "2020-08-15"): {"type": "platform.extension",
                                  "record": {"name": "x", "state": "Ready", "events": ["INVOKE"]}},
    ("subscribed", "2020-08-15"): {"type": "platform.logsSubscription",
                                   "record": {"name": "x", "state": "Subscribed", "types": ["function"]}},
    ("dropped", "2020-08-15"): {"type": "platform.logsDropped",
                                "record": {"reason": "why", "droppedRecords": 12, "droppedBytes": 3}},
    ("end", "2020-08-15"): {"type": "platform.end", "record": {"requestId": "r"}},
    ("fault", "2020-08-15"): {"type": "platform.fault", "record": "RequestId: r Process exited"},
    ("line", "2020-08-15"): {"type": "function", "record": '{"level":"INFO"}'},
}
OF_TELEMETRY: Wanted = {
    ("start", "2022-07-01"): {"type": "platform.start", "record": EVENTS["start"][1]},
    ("done", "2025-01-29"): {"type": "platform.runtimeDone", "record": EVENTS["done"][1]},
    ("init", "2022-07-01"): {"type": "platform.initStart",
                             "record": {"initializationType": "on-demand", "phase": "init"}},
    ("init", "2022-12-13"): {"type": "platform.initStart", "record": EVENTS["init"][1]},
    ("subscribed", "2022-07-01"): {"type": "platform.telemetrySubscription", "record": EVENTS["subscribed"][1]},
    ("end", "2022-12-13"): None, ("fault", "2022-12-13"): None,
    ("line", "2022-07-01"): {"type": "function", "record": '{"level":"INFO"}'},
    ("line", "2022-12-13"): {"type": "function", "record": {"level": "INFO"}},
    ("plain", "2022-12-13"): {"type": "function", "record": "hello"},
    ("of extension", "2022-12-13"): {"type": "extension", "record": "{}"},
}


class Clock:
    def __init__(self):
        self.at = 0.0

    def __call__(self):
        return Moment(AT + self.at, self.at)


def story_of(expected=()):
    told: List[Event] = []
    clock = Clock()
    story = Story(About("f", 128, "i", False, expected), told.append, lambda: 34_000_000, clock)
    return story, told, clock


def kinds(told):
    return [event.type.replace("platform.", "") + (":" + event.record["status"] if "status" in event.record else "")
            for event in told]


INIT = ["initStart", "initRuntimeDone:success", "extension", "initReport:success"]


def begun(expected=("x", )):
    """A story whose Init is over, 0.5 s after its begin."""
    story, told, clock = story_of(expected)
    story.registers("1", "x", ["INVOKE"])
    story.extension_asks("1")
    clock.at = 0.5
    story.runtime_asks()
    return story, told, clock


def invoked(story, clock, identifier="r"):
    story.runtime_answered()
    story.extension_answered("1")
    story.delivered(identifier, "Root=1-2;Parent=3;Sampled=1")
    clock.at += 0.010


class TelemetryStories(Case):
    def test_a_batch_is_due_after_its_time_or_by_its_events(self):
        buffer = buffer_of()
        self.check("nothing waits", buffer.wait(0.0), None)
        buffer.put(b"a", 10.0)
        buffer.put(b"b", 10.5)
        self.check("a batch is due after its time", (buffer.wait(10.25), buffer.wait(12.0)), (0.75, 0.0))
        for _ in range(998):
            buffer.put(b"c", 10.6)
        self.check("or once it has as many events as it may", buffer.wait(10.6), 0.0)
        for _ in range(500):
            buffer.put(b"d", 10.6)
        self.check("it has no more than that", len(buffer.batch()), 1000)
        buffer.taken(1000, 11.0)
        self.check("the rest waits", (len(buffer.waiting), buffer.wait(11.0)), (500, 1.0))

    def test_a_batch_is_due_by_its_bytes(self):
        large = buffer_of()
        for _ in range(4):
            large.put(b"x" * 100_000, 0.0)
        self.check("a batch is due by its bytes", (large.wait(0.0), [len(each) for each in large.batch()]),
                   (0.0, [100_000] * 2))

    def test_an_event_that_is_longer_than_a_batch_goes_alone(self):
        single = buffer_of()
        single.put(b"x" * 2_000_000, 0.0)
        self.check("an event that is longer than a batch goes alone", len(single.batch()), 1)

    def test_taken_and_dropped_events_are_all_that_were_made(self):
        """However events come and go, those that were taken and those that were dropped are all of them."""
        chosen, wrong = random.Random(20261128), []
        for _ in range(50):
            buffer, made, lost = buffer_of(), 0, 0
            notes, taken = [], []
            for _ in range(chosen.randrange(1, 60)):
                for _ in range(chosen.randrange(3000)):
                    event = b"%d" % made + b"." * chosen.choice((0, 10, 1000))
                    made += 1
                    buffer.put(event, 0.0)
                for _ in range(chosen.randrange(3)):
                    batch = buffer.batch()
                    taken += batch
                    buffer.taken(len(batch), 0.0)
                lost = max(lost, buffer.size)
            while buffer.waiting:
                batch = buffer.batch()
                taken += batch
                buffer.taken(len(batch), 0.0)
            notes = [json.loads(event) for event in taken if event.startswith(b"[")]
            events = [int(event.rstrip(b".")) for event in taken if not event.startswith(b"[")]
            if (len(events) + sum(records for records, _ in notes) != made or events != sorted(set(events))
                    or lost > 4 * 262_144 + 5000):
                wrong.append((made, len(events), notes))
        self.check("taken and dropped add up to what was made, in order, within bounds", wrong[:1], [])

    def test_what_was_dropped_is_told_after_what_waited_before_it(self):
        buffer = buffer_of()
        for number in range(4003):
            buffer.put(b"%d" % number, 0.0)
        batch = buffer.batch()
        buffer.taken(len(batch), 0.0)
        self.check("what was dropped is told after what waited before it", (buffer.waiting[-2], buffer.waiting[-1]),
                   (b"3999", b"[3, 12]"))

    def test_each_event_has_its_form_in_each_schema(self):
        for (name, schema), wanted in {**OF_LOGS, **OF_TELEMETRY}.items():
            text = rendered(Event(AT, *EVENTS[name]), schema, has_json_lines=True)
            seen = None if text is None else json.loads(text)
            self.check(f"{name} in {schema}", seen, wanted and {"time": "2022-10-12T00:00:00.064Z", **wanted})
        self.check("a line of a function that logs text is text", json.loads(rendered(Event(AT, *EVENTS["line"]),
                                                                                      "2022-12-13") or b""),
                   {"time": "2022-10-12T00:00:00.064Z", "type": "function", "record": '{"level":"INFO"}'})

    def test_an_invocation_is_done_when_its_runtime_asks_and_reported_when_its_extensions_do(self):
        story, told, clock = begun()
        self.check("an Init", kinds(told), INIT)
        self.check("its time", told[-1].record["metrics"], {"durationMs": 500.0})
        del told[:]
        invoked(story, clock)
        story.responds("r")
        clock.at += 0.003
        story.answered("r", "success", None, 17)
        clock.at += 0.002
        story.runtime_asks()
        self.check("it is done when its runtime asks again", kinds(told), ["start", "runtimeDone:success", "end"])
        clock.at += 0.004
        story.extension_asks("1")
        self.check("and reported once its extension does", kinds(told)[3:], ["report:success"])
        self.check("the trace", told[0].record["tracing"],
                   {"spanId": "3", "type": "X-Amzn-Trace-Id", "value": "Root=1-2;Parent=3;Sampled=1"})
        done, report = told[1].record, told[3].record
        self.check("what the runtime took", done["metrics"], {"durationMs": 15.0, "producedBytes": 17})
        self.check("its parts", [(span["name"], span["durationMs"]) for span in done["spans"]],
                   [("responseLatency", 10.0), ("responseDuration", 3.0), ("runtimeOverhead", 2.0)])
        self.check("what the invocation took", report["metrics"],
                   {"durationMs": 19.0, "billedDurationMs": 519, "memorySizeMB": 128, "maxMemoryUsedMB": 33,
                    "initDurationMs": 500.0})
        self.check("the extension's part", [(span["name"], span["durationMs"]) for span in report["spans"]],
                   [("extensionOverhead", 4.0)])
        invoked(story, clock, "s")
        story.answered("s", "error", "Runtime.E", 3)
        story.runtime_asks()
        story.extension_asks("1")
        self.check("an error has its type", told[-1].record["errorType"], "Runtime.E")
        self.check("only the first report has the Init's time", "initDurationMs" in told[-1].record["metrics"], False)

    def test_a_timeout_is_told_once(self):
        story, told, clock = begun()
        invoked(story, clock)
        del told[:]
        story.closes("TIMEOUT")
        story.closes("FAILURE")
        self.check("a timeout", kinds(told), ["runtimeDone:timeout", "end", "report:timeout"])

    def test_a_runtime_that_exits_is_told_with_its_type(self):
        story, told, clock = begun()
        invoked(story, clock)
        del told[:]
        story.fails("Runtime.ExitError")
        story.closes("FAILURE")
        self.check("a runtime that exits", kinds(told), ["fault", "runtimeDone:failure", "end", "report:failure"])
        self.check("its type", (told[1].record["errorType"], told[3].record["errorType"]), ("Runtime.ExitError", ) * 2)

    def test_an_extension_that_takes_too_long_is_told(self):
        story, told, clock = begun()
        invoked(story, clock)
        story.answered("r", "success", None, 1)
        story.runtime_asks()
        del told[:]
        story.closes("TIMEOUT")
        self.check("an extension that takes too long", kinds(told), ["report:timeout"])

    def test_an_init_that_fails_is_told_with_its_type(self):
        story, told, _ = story_of(("x", ))
        story.registers("1", "x", [])
        story.init_fails("Runtime.ImportModuleError")
        story.closes("FAILURE")
        self.check("an Init that fails", kinds(told),
                   ["initStart", "initRuntimeDone:error", "extension", "initReport:error"])
        self.check("its extension had registered, and no more", told[2].record["state"], "Registered")
        self.check("its type", told[3].record["errorType"], "Runtime.ImportModuleError")

    def test_an_init_that_takes_too_long_is_told(self):
        story, told, _ = story_of()
        story.closes("TIMEOUT")
        self.check("an Init that takes too long", kinds(told), ["initStart", "initRuntimeDone:timeout",
                                                                "initReport:timeout"])

    def test_an_extension_whose_init_fails_is_told(self):
        story, told, _ = story_of(("x", ))
        story.registers("1", "x", [])
        story.extension_fails("1", "InitError", "Extension.Bad")
        story.closes("FAILURE")
        self.check("an extension whose init fails", (told[2].record["state"], told[2].record["errorType"]),
                   ("InitError", "Extension.Bad"))

    def test_a_spindown_says_nothing(self):
        story, told, _ = begun()
        del told[:]
        story.closes("SPINDOWN")
        self.check("a spindown says nothing", told, [])

    def test_an_init_waits_for_each_extension(self):
        story, told, clock = story_of(("x", "y"))
        story.registers("1", "x", [])
        story.extension_asks("1")
        story.runtime_asks()
        self.check("an Init waits for each extension that is expected", story.is_ready, False)
        story.registers("2", "y", [])
        self.check("also until that has asked", story.is_ready, False)
        story.extension_asks("2")
        self.check("then it is over", story.is_ready, True)

    def test_a_Next_without_an_answer_ends_nothing_and_times_never_go_back(self):
        story, told, clock = begun()
        invoked(story, clock)
        story.runtime_asks()
        self.check("a Next of a runtime that has not answered ends nothing", kinds(told)[4:], ["start"])
        story.runtime_answered()
        story.answered("other", "success", None, 1)
        story.runtime_asks()
        self.check("nor does a response to another invocation", kinds(told)[4:], ["start"])
        clock.at = -100.0
        story.line("function", "back")
        self.check("times never go back", [event.time for event in told] == sorted(event.time for event in told), True)

    def test_of_an_init_that_prints_without_end_some_lines_are_kept(self):
        """Of an Init that prints without end, some lines are kept, and the number of the others."""
        kept = Kept()
        for kind in ("function", "extension", "function"):
            for _ in range(MOST_KEPT):
                kept.take(Event(AT, kind, "abc"))
        self.check("kept, and how many and how much are not", (len(kept.events), kept.dropped),
                   (MOST_KEPT, {"extension": (MOST_KEPT, 3 * MOST_KEPT), "function": (MOST_KEPT, 3 * MOST_KEPT)}))
