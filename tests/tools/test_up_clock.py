"""Checks that what waits in lambda_local up follows the service's clock: a timeout of 15 minutes, two retries and a
daily schedule in a moment, again and again with equal histories; idle environments, pauses between starts, Inits with
their own limit, the greatest age of an event, the window of a queue's batch, and a stop in a pause. The program is
LAMBDA_LOCAL_PROGRAM, else ./lambda_local."""
import contextlib
import importlib.util
import json
import os
import threading
import time
import unittest

from tests.library import clock_kit
from tests.library.cases import Case
from tests.library.clock_kit import EVENT, INVOKE, advance, pause, posted, resume, rests
from tests.library.events_kit import READY, READY_SECONDS
from tests.library.sqs_server import Server
from tests.library.threads import together
from tests.library.traces import entries_in
from tests.library.up_kit import Up, lives, until

ROUNDS = int(os.environ.get("CLOCK_ROUNDS", "20"))
DAY = 86_400
APP = """import os, time
def hangs(event):
    with open("pid", "w") as file:
        file.write(str(os.getpid()))
    time.sleep(600)
def fails(event): raise KeyError("missing")
def daily(event): return event["time"]
def short(event): time.sleep(event.get("sleep", 0)); return os.getpid()
"""
HANGS = ["sh", "-c", 'curl -s -D h -d \'{"events":["SHUTDOWN"]}\' -H "Lambda-Extension-Name: hangs" '
         'http://$AWS_LAMBDA_RUNTIME_API/2020-01-01/extension/register; curl -s -H "$(grep -i '
         'lambda-extension-identifier h | tr -d "\\r")" '
         "http://$AWS_LAMBDA_RUNTIME_API/2020-01-01/extension/event/next; sleep 600"]
WITH_BOTO3 = unittest.skipUnless(importlib.util.find_spec("boto3"), "boto3 is not here: queues")


def function(name, handler=None, **members):
    return {"name": name, "runtime": "python", "handler": f"app.{handler or name}", "timeout": 900, "environments": 1,
            **members}


def started(case, *functions, options=(), whole={}, app=APP, **members):
    up = Up(*READY, *options, functions=list(functions), app=app, whole=whole, **members)
    case.check("it is ready", up.until("[up] ready", READY_SECONDS))
    return up


def invoked(up, name):
    """A thread that invokes a function, and the list that has what it gets."""
    got = []
    thread = threading.Thread(target=lambda: got.append(posted(up.endpoint, INVOKE.format(name), b"{}")))
    thread.start()
    return thread, got


def is_given(up, function):
    """Whether a runtime of the function works."""
    environments = json.loads(up.get("/_local/environments"))["environments"]
    return any(one["function"] == function and one["phase"] == "busy" for one in environments)


def send(up, name, body=b"{}"):
    return posted(up.endpoint, INVOKE.format(name), body, EVENT)[0]


class UpClock(Case):
    def test_equal_courses_of_a_timeout_retries_and_a_schedule_have_equal_histories(self):
        """A timeout of 15 minutes, two retries after a minute and two, and a daily schedule, in each round."""
        up = started(self, function("hangs"), function("fails"), function("daily", schedule="rate(1 day)"),
                     options=("--salt", "7"), whole={"asynchronous": {"delays": [60, 120]}})
        pause(up.endpoint)
        seen, took = [], []
        for number in range(ROUNDS):
            first = len(entries_in(up.history()))
            begun, before = time.monotonic(), 5 * number
            at = self.round(up, before)
            took.append(time.monotonic() - begun)
            seen.append(clock_kit.course_of(entries_in(up.history())[first:], at))
        self.check(f"{ROUNDS} rounds have equal histories", [course == seen[0] for course in seen], [True] * ROUNDS,
                   shown=[course for course in seen if course != seen[0]][:1] + seen[:1])
        kinds = [one[1] for one in seen[0]]
        self.check("which have what happened", (kinds.count("invoke"), kinds.count("failure"), kinds.count("tick")),
                   (5, 3, 4))
        print(f"note a round takes {min(took):.3f} s to {max(took):.3f} s", flush=True)
        self.check("a round takes seconds", sorted(took)[ROUNDS // 2] < 20, shown=took)
        self.check("its log says so", (up.count(r"event .* failed, attempt 1 of 3: again after 60 s"),
                                       up.count("timeout after 900 s")), (ROUNDS, ROUNDS))
        self.check("it ends", up.end(), (0, []))

    def round(self, up, before):
        """One round, after this many invocations; the moment at which it began."""
        self.quietly("all rest", rests(up, before))
        begun = clock_kit.moment_in((200, up.get(clock_kit.CLOCK).encode()))
        thread, got = invoked(up, "hangs")
        self.quietly("the handler hangs", until(lambda: is_given(up, "hangs"), 60))
        advance(up.endpoint, 900)
        thread.join()
        report = json.loads(got[0][1])
        is_said = report["errorMessage"].endswith("Task timed out after 900 seconds")
        self.quietly("its caller gets Lambda's timeout", (got[0][0], report["errorType"], is_said),
                     (200, "Function.Timeout", True))
        self.quietly("the event is taken", rests(up, before + 1) and send(up, "fails"), 202)
        for count, seconds in ((2, 60), (3, 120)):
            self.quietly(f"attempt {count - 1}", rests(up, before + count))
            advance(up.endpoint, seconds)
        self.quietly("attempt 3", rests(up, before + 4))
        now = advance(up.endpoint, DAY - 1080)
        self.quietly("the schedule", rests(up, before + 5))
        self.quietly("a day has passed", now - begun, 1000 * DAY)
        return begun

    def quietly(self, name, seen, wanted=True):
        """A check of each round, of which only a failure is a line."""
        if seen != wanted:
            self.check(name, seen, wanted)

    def test_what_is_due_in_a_pause_happens_once_the_clock_goes_on(self):
        """What is due by a clock that stands does not happen, and happens once it goes on; handlers that hang are
        killed."""
        up = started(self, function("hangs", timeout=1), function("fails"),
                     function("daily", schedule="rate(1 minute)"), whole={"asynchronous": {"delays": [0.2]}})
        pause(up.endpoint)
        thread, got = invoked(up, "hangs")
        self.check("the handler hangs", until(lambda: os.path.exists(os.path.join(up.at, "pid")), 60))
        self.check("an event is taken", send(up, "fails"), 202)
        self.check("and fails", up.until("attempt 1 of 3: again after 0.2 s"))
        time.sleep(1.5)
        with open(os.path.join(up.at, "pid")) as file:
            pid = int(file.read())
        self.check("in a pause nothing times out or is tried again",
                   (got, lives(pid), up.has("attempt 2 of 3")), ([], True, False))
        resume(up.endpoint)
        thread.join()
        self.check("then the handler times out", b"Task timed out after 1 seconds" in got[0][1])
        self.check("and its process is killed", until(lambda: not lives(pid), 20))
        self.check("the event is tried again", up.until("attempt 3 of 3: it is dropped", 20))
        self.check("the schedule is not due", up.has("schedule rate(1 minute)"), False)
        posted(up.endpoint, f"{clock_kit.CLOCK}/advance?ms=60000")
        self.check("it is by an advance of which lambda_local up is not asked",
                   up.until("schedule rate(1 minute): event", 20))
        self.check("it ends", up.end(), (0, []))

    def test_no_environment_is_idle_in_a_pause(self):
        up = started(self, function("short", environments={"min": 1, "max": 2, "idle": 1}))
        pause(up.endpoint)
        pids = together(*2 * [lambda: up.invoke("short", sleep=1)[0]])
        self.check("two environments", len(set(pids)), 2)
        time.sleep(1.5)
        self.check("none is idle in a pause", [lives(pid) for pid in pids], [True, True])
        advance(up.endpoint, 0.9)
        time.sleep(0.3)
        self.check("nor shortly after", up.has("stopping: idle"), False)
        advance(up.endpoint, 5)
        self.check("the further one is, later", up.until("short/2] -- stopping: idle for 1 s", 20))
        self.check("and ends", until(lambda: [lives(pid) for pid in pids].count(True) == 1, 20))
        self.check("it ends", up.end(), (0, []))

    def test_no_start_is_tried_in_a_pause_and_an_advance_starts_it_at_once(self):
        up = Up(*READY, files={"broken": ""}, timeout=900)
        self.check("it keeps exiting", up.until("restarting in 1 s"))
        pause(up.endpoint)
        count = len(up.lines)
        time.sleep(2.5)
        self.check("in a pause of the clock it is not started",
                   [line for line in up.lines[count:] if "restarting in" in line][1:], [])
        os.remove(os.path.join(up.at, "broken"))
        advance(up.endpoint, 10)
        self.check("an advance starts it at once", up.until("[up] ready", 60))
        self.check("it ends", up.end(), (0, []))

    def test_an_init_has_its_own_limit_by_the_clock(self):
        up = Up("--allow-unready", *READY, functions=[function("slow", init=300)],
                app="import time\ntime.sleep(600)\ndef slow(event): return 1\n")
        self.check("it starts", up.until("callers: "))
        time.sleep(1)
        pause(up.endpoint)
        advance(up.endpoint, 290)
        self.check("its Init may go on", up.until("Init timed out", 1), False)
        advance(up.endpoint, 20)
        self.check("until its own limit", up.until("Init failed: Init timed out after 300 s", 20))
        self.check("it ends", up.end()[1], [])

    def test_an_event_is_too_old_by_the_clock(self):
        up = started(self, function("f", "short", reserved=0), whole={"asynchronous": {"maximumAge": 3600}})
        pause(up.endpoint)
        self.check("an event is taken", send(up, "f"), 202)
        self.check("and throttled", until(lambda: json.loads(up.get("/_local/stats"))["throttled"] == 1, 30))
        time.sleep(0.5)
        self.check("in a pause it is not tried again", json.loads(up.get("/_local/stats"))["throttled"], 1)
        advance(up.endpoint, 3599)
        self.check("an hour less a second later it is", until(
            lambda: json.loads(up.get("/_local/stats"))["throttled"] == 2, 30))
        advance(up.endpoint, 10)
        self.check("then it is too old", up.until("is older than 3600 s: it is dropped", 20))
        self.check("it ends", up.end(), (0, []))

    @WITH_BOTO3
    def test_a_window_of_a_queue_is_over_by_the_clock(self):
        with Server() as server:
            up = started(self, function("f", "short", queue={"url": server.url, "batchSize": 100, "window": 300}))
            pause(up.endpoint)
            server.queue.send("one")
            self.check("a message is taken", until(lambda: len(server.queue.bodies()) == 1 and server.queue.asked, 30))
            time.sleep(2.5)
            self.check("its batch is collected", json.loads(up.get("/_local/stats"))["admitted"], 0)
            advance(up.endpoint, 301)
            self.check("until its window is over", up.until("a batch of 1 ok", 20))
            self.check("it ends", up.end(), (0, []))

    def test_a_stop_in_a_pause_is_as_one_without(self):
        """In a pause, a stop is as one without: an extension that does not end has two seconds."""
        for by_request in (False, True):
            up = started(self, function("f", "short", extensions={"hangs": HANGS}))
            pause(up.endpoint)
            begun = time.monotonic()
            if by_request:
                posted(up.endpoint, "/_local/stop")
                self.check("a stop by request ends it", up.end(None), (0, []))
            else:
                self.check("a signal ends it", up.end(), (0, []))
            self.check("in seconds", time.monotonic() - begun < 15, shown=time.monotonic() - begun)

    def test_a_stop_ends_it_though_somebody_pauses_the_clock_again(self):
        """Somebody pauses the clock again and again while it stops."""
        up = started(self, function("f", "short", extensions={"hangs": HANGS}))
        over = threading.Event()

        def pauses():
            while not over.wait(0.02):
                with contextlib.suppress(OSError):
                    posted(address, f"{clock_kit.CLOCK}/pause")
        address = up.endpoint
        threading.Thread(target=pauses, daemon=True).start()
        self.check("it is paused", until(lambda: not json.loads(up.get(clock_kit.CLOCK))["running"], 20))
        begun = time.monotonic()
        self.check("a signal ends it all the same", up.end(), (0, []))
        over.set()
        self.check("in its time", time.monotonic() - begun < 15, shown=time.monotonic() - begun)

    def test_the_remaining_time_is_as_the_service_counts_it(self):
        """What is left of an invocation's time, by the bundled runtimes: as the service counts it, at no request."""
        up = started(self, function("py", timeout=60),
                     {"name": "js", "runtime": "node", "handler": "index.js", "timeout": 60, "environments": 1},
                     app=APP + "\ndef py(event, context):\n    first = context.get_remaining_time_in_millis()\n"
                               "    time.sleep(0.3)\n    return first, context.get_remaining_time_in_millis(), "
                               "'LAMBDA_LOCAL_CLOCK' in os.environ\n",
                     files={"index.js": "exports.js = async (event, context) => {\n"
                                        "  const first = context.getRemainingTimeInMillis();\n"
                                        "  await new Promise((resolve) => setTimeout(resolve, 300));\n"
                                        "  return [first, context.getRemainingTimeInMillis(), "
                                        "'LAMBDA_LOCAL_CLOCK' in process.env];\n};\n"})
        for name in ("py", "js"):
            first, second, is_seen = up.invoke(name)[0]
            self.check(f"{name}: it goes by", 250 <= first - second < 20_000 and 30_000 < first <= 60_500, shown=(
                first, second))
            self.check(f"{name}: the variable is not seen", is_seen, False)
        advance(up.endpoint, 7 * DAY)
        for name in ("py", "js"):
            first, second, _ = up.invoke(name)[0]
            self.check(f"{name}: after an advance too", 250 <= first - second < 20_000 and 30_000 < first <= 60_500,
                       shown=(first, second))
        pause(up.endpoint)
        for name in ("py", "js"):
            first, second, _ = up.invoke(name)[0]
            self.check(f"{name}: in a pause it stands", first == second and 59_500 <= first <= 60_500,
                       shown=(first, second))
        self.check("it ends", up.end(), (0, []))
