"""Checks storms: that a seed makes the same trouble again whatever the timing, within its bounds; what callers get of
each kind, of lambda_local up and of handlers in a test's process; and who is spared. The program is
LAMBDA_LOCAL_PROGRAM, else ./lambda_local."""
import asyncio
import contextlib
import io
import json
import re
import subprocess
import threading
import time
from typing import Any, List
from unittest import mock

from lambda_local.front.storm import Gate, Trouble, root_of
from lambda_local.in_process import FunctionError, LambdaLocal
from lambda_local.in_storm import InMaker
from lambda_local.storm import INIT, KINDS, SPARED, THROTTLE, TIMEOUT, Course, Ordered, Storm, storm_of
from lambda_local.up.following import REST
from lambda_local.up.troubles import Troubles
from tests.library.cases import Case
from tests.library.clock_kit import EVENT, INVOKE, posted
from tests.library.events_kit import READY, READY_SECONDS
from tests.library.paces import longest_rests
from tests.library.threads import together
from tests.library.up_kit import LAUNCHER, Up, until

LINE = re.compile(r"\[up\] storm (\d+): (\w+) #(\d+)(?:, ([0-9a-f-]{36}))?: "
                  r"(throttle|cold start|timeout|crash|failed Init)( could not be made: .*)?$")
SUMMARY = re.compile(r"storm \d+: (\d+) of (\d+) invocations had trouble")
APP = """import os, time, urllib.request
def run(event):
    time.sleep(event.get("sleep", 0) if isinstance(event, dict) else 0)
    return os.getpid()
def outer(event):
    inner = os.environ["AWS_ENDPOINT_URL_LAMBDA"] + "/2015-03-31/functions/f/invocations"
    trace = {"X-Amzn-Trace-Id": os.environ["_X_AMZN_TRACE_ID"]}
    seen = []
    for _ in range(3):
        try:
            with urllib.request.urlopen(urllib.request.Request(inner, b"{}", trace, method="POST")) as answer:
                seen.append(answer.headers.get("X-Amz-Function-Error") or answer.status)
        except urllib.error.HTTPError as fault:
            seen.append(fault.code)
    return seen
"""
COUNT = 21  # invocations, of which seven meet each kind by this seed
WHOLE = {"throttle": (429, "ReservedFunctionConcurrentInvocationLimitExceeded"),
         "timeout": (200, "Task timed out after 900 seconds"),
         "crash": (200, "Runtime exited with error: signal: killed"),
         "failed Init": (200, "Runtime exited with error: exit status 1")}


def function(name="f", handler="run", **members):
    return {"name": name, "runtime": "python", "handler": f"app.{handler}", "timeout": 900,
            "environments": {"min": 1, "max": 4}, **members}


def told(up):
    """What is told of each trouble: the function, its invocation's number, its identifier, the kind, and whether it
    came about."""
    found = [LINE.search(line) for line in list(up.lines)]
    return [(one[2], int(one[3]), one[4], one[5], one[6] is None) for one in found if one]


def outcome(up, name="f", body=b"{}", headers={}):
    status, answer = posted(up.endpoint, INVOKE.format(name), body, headers)
    return status, answer.decode()


async def held_by_two():
    """Whether what came after a first timeout, an invocation and an Init, may go on: while that moves the clock and a
    second one does, once one has, and once both have."""
    moved = {one: asyncio.Event() for one in ("first", "second")}
    watch: Any = mock.Mock(refreshed=mock.AsyncMock(), environment=lambda _: mock.Mock(is_bound=False))
    watch.life.invocations, watch.clock = {}, mock.Mock(now=lambda: 0, ask_later=mock.AsyncMock())
    troubles = Troubles([], watch, mock.Mock(), threading.Event())
    gate = Gate(Storm(7), troubles, 0, mock.Mock())
    troubles.still = gate.still

    async def times_out(name):
        invocation: Any = mock.Mock(is_over=False)
        here: Any = mock.Mock()

        async def move(*_):
            await moved[name].wait()
            invocation.is_over = True
            return True
        with mock.patch.object(troubles, "_move", move):
            ending = asyncio.ensure_future(troubles._time_out_gently(mock.Mock(), here, invocation, 0))
            await asyncio.sleep(0.1)
        return ending
    environment: Any = mock.Mock(stopping=threading.Event())
    with mock.patch.object(troubles, "_timeout_of", lambda _: 900_000):
        first = await times_out("first")
        waiting = [asyncio.ensure_future(it) for it in (gate.may_be_sent(), troubles.holds(environment))]
        second = await times_out("second")
        seen = [[it.done() for it in waiting]]
        for name, ending in (("first", first), ("second", second)):
            moved[name].set()
            await asyncio.wait_for(ending, 60)
            await asyncio.wait(waiting, timeout=0.3 if name == "first" else 20)
            seen.append([it.done() for it in waiting])
    for it in waiting:
        it.cancel()
    return seen


async def come_with_the_answer():
    """What is told of trouble that has come about in the turn in which its invocation's answer ends."""
    lines = []

    class AtOnce(Ordered):
        async def call_off(self, why):
            self.end(True, "its-request")

    async def arrange(function, kind, progress):
        return AtOnce(function, kind, progress)
    maker: Any = mock.Mock(kinds_of=lambda _: KINDS, working=mock.AsyncMock(return_value=0), arrange=arrange)
    gate = Gate(Storm(7, 1.0), maker, 0, lambda _, text, **members: lines.append((text, members["made"])))
    lane = gate.lane_of("f")
    async with gate.troubled(Trouble("f", 1, TIMEOUT, lane)):
        pass
    return lines


class Choices(Case):
    def test_a_storm_is_a_seed_and_a_rate(self):
        for text, wanted in (("7", Storm(7, 0.1)), ("0:1", Storm(0, 1.0)), ("18446744073709551615:0.25", Storm(
                2 ** 64 - 1, 0.25)), ("7:0.001", Storm(7, 0.001))):
            self.check(f"the storm {text}", storm_of(text), wanted)

    def test_what_is_no_storm_is_refused(self):
        for text in ("", "a", "-1", "+1", "7:", "7:0", "7:1.1", "7:0.0001", "7:1e-1", ":1", "7:.5", "7 ", "\u0667",
                     "18446744073709551616", "7:0.5:1", "7:nan"):
            with self.assertRaises(ValueError, msg=text):
                storm_of(text)

    def test_a_course_is_of_its_seed_and_as_often_as_its_rate_says(self):
        for rate in (0.1, 0.5, 1.0):
            courses = [Course(Storm(seed, rate), "f", KINDS) for seed in range(200)]
            drawn = [[course.next()[1] for _ in range(120)] for course in courses]
            again = [[course.next()[1] for _ in range(120)]
                     for course in (Course(Storm(seed, rate), "f", KINDS) for seed in range(200))]
            self.check(f"{rate}: the same seed draws the same", drawn == again)
            self.check(f"{rate}: another seed, others", len({tuple(course) for course in drawn}), 200)
            apart = all(later - before > SPARED for one in drawn for before, later in zip(
                [at for at, kind in enumerate(one) if kind], [at for at, kind in enumerate(one) if kind][1:]))
            self.check(f"{rate}: whoever tries again is spared", apart)
            found = [kind for one in drawn for kind in one if kind]
            # (each one that may have trouble has it with this probability, and spares two)
            share, wanted = len(found) / (120 * 200), rate / (1 + SPARED * rate)
            self.check(f"{rate}: as often as it says", abs(share - wanted) < 0.1 * wanted, shown=(share, wanted))
            self.check(f"{rate}: each kind as often as the others", all(
                abs(found.count(kind) / len(found) - 1 / len(KINDS)) < 0.05 for kind in KINDS))

    def test_functions_have_storms_of_their_own(self):
        one, other = (Course(Storm(7, 0.5), name, KINDS) for name in ("f", "g"))
        self.check("functions have storms of their own", [one.next() for _ in range(99)] != [
            other.next() for _ in range(99)])

    def test_what_cannot_be_made_is_not_drawn(self):
        by_hand = Course(Storm(7, 1.0), "f", (THROTTLE,))
        self.check("what cannot be made is not drawn", {by_hand.next()[1] for _ in range(30)}, {THROTTLE, None})

    def test_the_root_of_a_trace_is_read(self):
        for trace, wanted in (("Root=1-2-3;Parent=4;Sampled=1", "1-2-3"), ("Self=1-1-1;Root=1-2-3", "1-2-3"),
                              ("Parent=4", None), ("", None), ("NotRoot=1", None)):
            self.check(f"the root of {trace!r}", root_of([("X-Amzn-Trace-Id", trace)]), wanted)


class OfUp(Case):
    def started(self, *functions, storm="7:1", whole={}):
        up = Up(*READY, "--storm", storm, functions=list(functions) or [function()], app=APP, whole=whole)
        self.check("it is ready", up.until("[up] ready", READY_SECONDS))
        return up

    def test_the_nth_invocation_meets_the_same_trouble_again_one_by_one_and_at_once(self):
        """One caller after the other, and three at once: the n-th invocation meets the same."""
        seen, met = [], set()
        for at_once in (1, 3):
            up = self.started(storm="4:1")
            if at_once == 1:
                answers = [outcome(up) for _ in range(COUNT) if self.rests(up)]
                for _, number, _, kind, has_come in told(up):
                    status, text = answers[number - 1]
                    met.add(kind)
                    wanted = WHOLE.get(kind, (200, ""))
                    self.quietly(f"#{number}: {kind}", has_come and status == wanted[0] and wanted[1] in text,
                                 (kind, status, text))
                had = [one[1] for one in told(up)]
                self.check("all others get their result", [answer for number, answer in enumerate(answers, 1)
                                                           if number not in had and not answer[1].isdigit()], [])
            else:
                for _ in range(COUNT // at_once):
                    together(*at_once * [lambda: outcome(up)])
            self.check("its end has a summary", up.end()[1], [])
            lines = told(up)
            seen.append(sorted((one[0], one[1], one[3]) for one in lines))
            self.check("with as many as were told", [int(number) for number in SUMMARY.findall("\n".join(up.lines))[0]],
                       [sum(one[4] for one in lines), COUNT])
            # (among callers at once another's environment may be free first: that is told)
            self.check("most came about", sum(one[4] for one in lines) >= (1.0 if at_once == 1 else 0.5) * len(lines),
                       shown=lines)
        self.check("the same for the same invocations", seen[1], seen[0])
        self.check("of each kind", met, {"throttle", "cold start", "timeout", "crash", "failed Init"}, shown=seen[0])

    def rests(self, up):
        """An Init is over before the next invocation, which would wait for it, on a slow machine too."""
        return until(lambda: '"idle"' in up.get("/_local/environments"), 60)

    def quietly(self, name, holds, shown):
        if not holds:
            self.check(name, False, shown=shown)

    def test_retries_and_inner_calls_are_spared(self):
        up = self.started(function(), function("g"), function("outer", "outer"),
                          whole={"asynchronous": {"delays": [0.1]}})
        for _ in range(8):
            self.quietly("an event is taken", posted(up.endpoint, INVOKE.format("g"), b"{}", EVENT)[0] == 202, "")
        self.check("each event comes through, since its retries are spared", until(
            lambda: up.count(r"\[g\] event .* ok after") == 8, 60))
        self.check("though some had trouble", bool([one for one in told(up) if one[0] == "g"]))
        count = len(told(up))
        self.check("who says so is spared", {outcome(up, headers={"Lambda-Local-Again": "1"})[0] for _ in range(8)},
                   {200})
        self.check("and not counted", len(told(up)), count)
        came = []
        for _ in range(6):
            before = len([one for one in told(up) if one[0] == "f"])
            outcome(up, "outer")
            came.append(len([one for one in told(up) if one[0] == "f"]) - before)
        self.check("what a function invokes has trouble once for each of its own at most",
                   (max(came), sum(came) > 0), (1, True), shown=came)
        self.check("a caller's reservation stays", [posted(up.endpoint, "/_local/stats")[0] > 0,
                                                    up.get("/2019-09-30/functions/f/concurrency")], [True, "{}"])
        self.check("it ends", up.end()[1], [])

    def test_what_up_has_not_started_can_only_be_throttled(self):
        """What up has not started can only be throttled; a name that there is not is as ever."""
        up = Up("--storm", "3:1", functions=[{"name": "f", "timeout": 900, "ports": [0]}], app=APP)
        self.check("it is there", up.until("callers: "))
        found = outcome(up)
        self.check("a throttle", found[0] == 429 and "ReservedFunctionConcurrent" in found[1], shown=found)
        self.check("no function", outcome(up, "h")[0], 404)
        self.check("one line", [one[1:] for one in told(up)][:1], [(1, told(up)[0][2], "throttle", True)])
        self.check("it ends", up.end()[1], [])

    def test_a_web_page_is_refused_and_told_once(self):
        """As at the service's own port: the first is told, by its method and path."""
        up = self.started(storm="3:1")
        path = INVOKE.format("f")
        for name, headers in (("an Origin", {"Origin": "http://localhost:3000"}),
                              ("a site", {"Sec-Fetch-Site": "cross-site"}), ("another path", {"Origin": "null"})):
            status, body = posted(up.endpoint, path if name != "another path" else "/x?secret=1", b"{}", headers)
            self.check(f"{name}: the refusal", (status, json.loads(body)["message"]),
                       (403, "Web pages may not call this service"))
        self.check("it is no invocation", told(up), [])
        self.check("it ends", up.end()[1], [])
        self.check("one line", [line.partition("] ")[2] for line in up.lines if "web page" in line.lower()],
                   [f"invokePort: POST {path}: 403, web pages may not call this service; call it from a program"])

    def test_callers_in_a_storm_wait_for_no_long_rest(self):
        """They wait until an entry is taken, also while many come."""
        self.check("the longest rest", longest_rests("--storm", "7"), [REST])

    def test_two_timeouts_at_once_hold_all_that_comes_until_both_have_moved_the_clock(self):
        """One ends first: no invocation is sent and no Init begins before the other ends too, and both do then."""
        self.check("two hold, one does, none does", asyncio.run(held_by_two()), [[False] * 2] * 2 + [[True] * 2])

    def test_trouble_that_comes_with_the_answer_has_come(self):
        self.check("it is told once, as what came", asyncio.run(come_with_the_answer()),
                   [("storm 7: f #1, its-request: timeout", True)])

    def test_faults_of_the_option_are_told(self):
        for words, wanted in ((["--storm", "x"], "--storm: invalid SEED[:RATE]"),
                              (["--storm", "7:2"], "--storm: invalid SEED[:RATE]"),
                              (["--storm", "7", "--debug", "f"], "--storm and --debug: ")):
            done = subprocess.run([LAUNCHER, "up", *words, "up.json"], capture_output=True, text=True, timeout=60,
                                  stdin=subprocess.DEVNULL)
            self.check(f"refused: {' '.join(words)}", (done.returncode, wanted in done.stderr), (2, True),
                       shown=done.stderr)


def storm_over(service, count):
    """What each invocation comes to, and the lines on standard error."""
    seen, lines = [], io.StringIO()
    with contextlib.redirect_stderr(lines):
        with service:
            for number in range(count):
                try:
                    seen.append(service.invoke("f", number) == number)
                except FunctionError as fault:
                    report: Any = fault.report
                    seen.append(report["errorType"])
    return seen, lines.getvalue()


class OfTest(Case):
    def service(self, storm, **words):
        service = LambdaLocal()
        service.storm = storm
        return service.start({"f": {"timeout": 900}}, f=lambda event: event, **words)

    def test_in_a_test_the_same_seed_has_the_same_course_as_in_up(self):
        began = time.monotonic()
        seen, lines = storm_over(self.service("4:1"), COUNT)
        again, _ = storm_over(self.service("4:1", asynchronous=True), COUNT)
        self.check("the same seed, the same course", again, seen)
        self.check("timeouts of 900 s take none of it", time.monotonic() - began < 200)
        self.check("each kind is in it", {"TooManyRequestsException", "Function.Timeout", "Runtime.ExitError",
                                          True} <= set(seen), shown=seen)
        drawn = Course(Storm(4, 1.0), "f", KINDS)
        wanted = {"throttle": "TooManyRequestsException", "timeout": "Function.Timeout", "cold": True, None: True,
                  "crash": "Runtime.ExitError", INIT: "Runtime.ExitError"}
        self.check("in the order of lambda_local up", seen, [wanted[drawn.next()[1]] for _ in range(COUNT)])
        made, count = SUMMARY.findall(lines)[0]
        self.check("the end says how many", count, str(COUNT))
        self.check("and each has a line", len(re.findall(r"storm 4: f #", lines)), int(made))

    def test_in_a_test_what_has_just_answered_starts_anew_too(self):
        """A runtime that has answered and has not asked again, as on a busy machine, does not take what is to find a
        new one; one that works for another caller is left alone."""
        for others, left, wanted in ((0, 3, [1]), (1, 3, []), (0, 0, [1])):
            ended: List[int] = []

            class Service:
                def __init__(self):
                    self.looks = 0

                def numbers_of(self, name):
                    return [1]

                def phases(self):
                    self.looks += 1
                    return {1: {"phase": "starting" if ended else "idle" if self.looks > left else "busy"}}

                def spin_down(self, number):
                    ended.append(number)
            service: Any = Service()
            maker = InMaker(service, ["f"])
            maker.sent = lambda: 1 + others
            for kind in ("cold", INIT):
                asyncio.run(maker.arrange("f", kind, lambda outcome: None))
                self.check(f"{kind}: {left} looks until it asks, {others} others", ended, wanted)
                ended.clear()

    def test_in_a_test_what_is_no_storm_is_refused(self):
        for storm in ("x", -1, True, 7.5, "7:2"):
            try:
                self.service(storm)
                self.check(f"no storm: {storm}", False)
            except ValueError as fault:
                self.check(f"no storm: {storm}", str(fault).startswith("storm: "), shown=fault)

    def test_in_a_test_events_come_through(self):
        service = self.service("7:1", asynchronous={"delays": [0.01]})
        with contextlib.redirect_stderr(io.StringIO()):
            with service:
                for _ in range(10):
                    posted(service.endpoint_url, INVOKE.format("f"), b"1", EVENT)
                    self.check("an event comes through", service.settled(30))
                self.check("though some failed or were throttled", service.stats()["failed"] +
                           service.stats()["throttled"] > 0)
