"""Asynchronous invocations under a mixed load, with runtimes that crash, hang and are restarted: no event is lost, and
none runs again unless its run before failed. The program is LAMBDA_LOCAL_PROGRAM, else ./lambda_local.

Variable: LOAD_SECONDS is how long the load goes on (60)."""
import json
import os
import random
import re
import threading
import time
from collections import Counter

from tests.library.cases import Case
from tests.library.events_kit import READY, READY_SECONDS, Caller
from tests.library.up_kit import Up, until

SECONDS = float(os.environ.get("LOAD_SECONDS", "60"))
ENVIRONMENTS, SENDERS, AHEAD, DRAIN = 4, 3, 60, 10 * SECONDS
# Each event has a file, to which each of its runs adds a line at its begin and one for its end, with its invocation.
APP = '''import os, time
def note(event, context, word):
    file = os.open(f"runs/{event['number']}", os.O_CREAT | os.O_APPEND | os.O_RDWR)
    os.write(file, f"{word} {context.aws_request_id}\\n".encode())
    lines = os.pread(file, 10_000, 0).split(b"\\n")
    os.close(file)
    return sum(line.startswith(b"begins") for line in lines)
def run(event, context):
    if "number" not in event: return event
    do = (event["does"] + ["ok"] * 10)[note(event, context, "begins") - 1]
    note(event, context, do)
    if do == "fails": raise ValueError("asked for")
    if do == "crashes": os._exit(7)
    if do == "hangs": time.sleep(60)
    return do
def sink(event, context):
    open(f"records/{event['requestPayload']['number']}", "a").write("x")
'''
MOST_SHOWN = 3
GOES_ON = ("retry",)
ENDS = ("ok",) * 12 + ("fails",) * 4 + ("crashes", "hangs")


class Load:
    """Sends events, invokes and spins environments down from several threads, until its time is over."""

    def __init__(self, up):
        self.up, self.end, self.lock = up, time.monotonic() + SECONDS, threading.Lock()
        self.sent, self.names, self.invoked, self.wrong, self.spun_down = {}, {}, 0, [], 0
        self.read, self.ended, self.left = 0, 0, 0  # lines; the events that have come to an end by them, and the others
        # by event: (status, invocation) of each attempt; by invocation: what the service answered
        self.told, self.answers = {}, {}
        self.threads = [threading.Thread(target=target)
                        for target in [self.send] * SENDERS + [self.invoke, self.spin_down]]

    def run(self):
        for thread in self.threads:
            thread.start()
        for thread in self.threads:
            thread.join()

    def open_events(self):
        """How many events have no end yet, by the lines that have come."""
        with self.lock:
            lines = self.up.lines[self.read:]
            self.read += len(lines)
            for line in map(json.loads, lines):
                if line["kind"] == "event" and line.get("function") == "f":
                    self.told.setdefault(line["request"], []).append((line["status"], line["invocation"]))
                    self.ended += line["status"] not in GOES_ON
                elif line["kind"] == "invocation":
                    self.answers[line["request"]] = line["status"]
            self.left = len(self.sent) - self.ended
            return self.left

    def all_answered(self):
        """Whether the service's answer is known for each attempt that was reported."""
        return all(invocation in self.answers for lines in self.told.values() for _, invocation in lines if invocation)

    def send(self):
        chosen = random.Random()
        with Caller(self.up.endpoint) as caller:
            while time.monotonic() < self.end:
                with self.lock:
                    number = len(self.sent)
                    does = self.sent[number] = [chosen.choice(ENDS) for _ in range(3)]
                while (answer := caller.event("f", {"number": number, "does": does}))[0] == 429:
                    time.sleep(0.05)
                self.names[number] = answer[1].get("x-amzn-requestid")
                if answer[0] != 202:
                    self.wrong.append(answer)
                if number % 20 == 0:
                    until(lambda: self.open_events() < AHEAD, 60)
                time.sleep(chosen.random() * 0.05)

    def invoke(self):
        with Caller(self.up.endpoint) as caller:
            while time.monotonic() < self.end:
                status, _, body = caller.invoke("f", {"plain": self.invoked})
                is_error = b"errorType" in body  # (a runtime that was just ended, or is late on a busy machine)
                if status == 200 and (is_error or body == b'{"plain": %d}' % self.invoked):
                    self.invoked += not is_error
                elif status != 429:
                    self.wrong.append((status, body))
                time.sleep(0.02)

    def spin_down(self):
        with Caller(self.up.endpoint) as caller:
            while time.monotonic() < self.end:
                number = random.randint(1, ENVIRONMENTS)
                self.spun_down += caller.ask("POST", f"/_local/env/{number}/spindown", b"")[0] == 202
                time.sleep(0.3)


class Story:
    """One event: its attempts as they were reported, its runs as they noted themselves, and its record."""

    def __init__(self, load, number):
        self.number, self.told = number, load.told.get(load.names[number], [])
        noted = [line.split() for line in text_of(load.up.at, "runs", str(number)).splitlines()]
        self.runs = [invocation for word, invocation in noted if word == "begins"]
        self.ends = {invocation: word for word, invocation in noted if word != "begins"}
        self.answers = {invocation: load.answers.get(invocation) for invocation in self.runs}
        self.records = text_of(load.up.at, "records", str(number))

    def __repr__(self):
        return (f"{self.number}: told {self.told}, runs {self.runs}, {self.ends}, answered {self.answers}, "
                f"records {self.records!r}")

    @property
    def has_ended(self):
        return bool(self.told) and self.told[-1][0] not in GOES_ON

    @property
    def is_whole(self):
        return re.fullmatch(r"(retry ){0,2}ok|retry retry RetriesExhausted",
                            " ".join(status for status, _ in self.told)) is not None

    def runs_untold(self):
        """Whether an invocation ran twice, or without a line. (A late one may begin after its next attempt.)"""
        return len(set(self.runs)) < len(self.runs) or not set(self.runs) <= {invocation for _, invocation in self.told}

    def differs(self):
        """Whether the service's own answer to a run is not what was reported."""
        told = {invocation: "ok" if status == "ok" else "failed" for status, invocation in self.told}
        return any(told.get(invocation) != ("ok" if answer == "ok" else "failed")
                   for invocation, answer in self.answers.items())

    def is_lost(self):
        """It has neither done its work nor come to its destination."""
        status, invocation = self.told[-1]
        return self.ends.get(invocation) != "ok" if status == "ok" else not self.records


def text_of(*path):
    try:
        with open(os.path.join(*path)) as file:
            return file.read()
    except FileNotFoundError:
        return ""


class EventsLoad(Case):
    def test_mixed_load(self):
        up = Up(*READY, "--log", "json", app=APP, whole={"asynchronous": {"delays": [0.1, 0.3], "onFailure": "sink"}},
                functions=[{"name": "f", "runtime": "python", "handler": "app.run", "environments": ENVIRONMENTS,
                            "timeout": 2},
                           {"name": "sink", "runtime": "python", "handler": "app.sink"}])
        for name in ("runs", "records"):
            os.mkdir(os.path.join(up.at, name))
        self.check("all is ready", up.until('"kind": "ready"', READY_SECONDS))
        load = Load(up)
        load.run()
        self.check("every event comes to an end", until(lambda: load.open_events() == 0, DRAIN),
                   shown=load.open_events())
        until(lambda: len(os.listdir(os.path.join(up.at, "records"))) >= up.count("its record goes to sink"), 60)
        until(lambda: load.open_events() >= 0 and load.all_answered(), 60)
        # (What was reported of each run is known only once the event has ended.)
        stories = [story for story in (Story(load, number) for number in load.sent) if story.has_ended]
        for name, fault in (("each succeeds once, after up to two failures, or fails three times",
                             lambda story: not story.is_whole),
                            ("each run is an attempt that was told, and none runs again unless it failed before",
                             Story.runs_untold),
                            ("the service answered each as it was told", Story.differs),
                            ("each has done its work, or its record has come", Story.is_lost),
                            ("no record comes twice", lambda story: len(story.records) > 1)):
            wrong = [story for story in stories if fault(story)]
            self.check(name, (len(wrong), wrong[:MOST_SHOWN]), (0, []))
        self.check("no other answer came", load.wrong, [])
        self.check("it was a load", (len(load.sent) > SECONDS, load.invoked > SECONDS / 10, load.spun_down > SECONDS
                                     / 100),
                   (True, True, True))
        runs = Counter(f"{story.ends.get(invocation, 'begun')}, {answer}"
                       for story in stories for invocation, answer in story.answers.items())
        print(f"     {len(stories)} events in {SECONDS:g} s, {sum(bool(story.records) for story in stories)} of them "
              f"given up; runs with their answers {json.dumps(dict(runs))}; {load.invoked} invocations; "
              f"{load.spun_down} spindowns", flush=True)
        self.check("it ends in order, and leaves nothing", up.end(), (0, []))
