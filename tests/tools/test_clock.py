"""Checks `lambda_local clock` against a service that runs, one that `lambda_local up` runs, and servers that answer
otherwise; and the clock by which the tools wait, against one that a test sets. The program is LAMBDA_LOCAL_PROGRAM,
else ./lambda_local."""
import http.server
import json
import os
import re
import subprocess
import sys
import threading
import time
import urllib.error
import urllib.request
from typing import Any, List

from lambda_local.clock.durations import NotDuration, milliseconds_in
from lambda_local.clock.followed import Clock as Followed
from lambda_local.in_process import LambdaLocal
from tests import ROOT
from tests.library.cases import Case
from tests.library.up_kit import Up, until

CLOCK = [sys.executable, os.path.join(ROOT, "tools"), "clock"]
CLEAN = {name: value for name, value in os.environ.items() if name != "AWS_ENDPOINT_URL_LAMBDA"}
LINE = re.compile(r"([0-9]+) [0-9]{4}-[0-9]{2}-[0-9]{2}T[0-9]{2}:[0-9]{2}:[0-9]{2}\.[0-9]{3}Z (running|paused)\n")
LAST = 2 ** 53 - 1


def clock(*words, endpoint):
    """The status, and what is printed on both streams."""
    done = subprocess.run([*CLOCK, *words], capture_output=True, text=True, timeout=60, stdin=subprocess.DEVNULL,
                          env={**CLEAN, "AWS_ENDPOINT_URL_LAMBDA": endpoint})
    return done.returncode, done.stdout, done.stderr


def read(*words, endpoint):
    """What the clock reads, and whether it is running or paused."""
    status, output, said = clock(*words, endpoint=endpoint)
    found = LINE.fullmatch(output)
    assert status == 0 and said == "" and found, (status, output, said)
    return int(found[1]), found[2]


class Answers(http.server.BaseHTTPRequestHandler):
    """Answers what its server says."""

    server: Any

    def do_GET(self):
        status, body = self.server.answer
        self.send_response(status)
        self.send_header("Content-Length", str(len(body)))
        self.end_headers()
        self.wfile.write(body)

    def log_message(self, *words):
        pass


class Clock(Case):
    def test_times_are_numbers_with_units(self):
        for text, wanted in (("1ms", 1), ("500ms", 500), ("90s", 90_000), ("15m", 900_000), ("2h", 7_200_000),
                             ("1d", 86_400_000), ("1.5s", 1500), ("0.001s", 1), ("1h30m", 5_400_000),
                             ("1d2h3m4s5ms", 93_784_005), (f"{LAST}ms", LAST)):
            self.check(f"the time {text}", milliseconds_in(text), wanted)

    def test_what_is_no_time_is_refused(self):
        for text in ("", "1", "s", "1 s", "-1s", "+1s", "0s", "1S", "1.s", ".5s", "1,5s", "1e3s", "1s1m", "1s2s",
                     "0.5ms", "1.0005s", "1h 30m", f"{LAST + 1}ms", "9999999999999999d", "\u0661s", "1s\n"):
            try:
                self.check(f"{text!r} is no time", milliseconds_in(text), None)
            except NotDuration as fault:
                self.check(f"{text!r} is no time, which is said", str(fault).startswith("write a number with a unit"))

    def test_the_clock_is_shown_paused_advanced_and_resumed(self):
        with LambdaLocal(f=lambda event: event) as service:
            here = service.endpoint_url
            first, state = read(endpoint=here)
            self.check("it is shown, and runs", state, "running")
            before, state = read("pause", endpoint=here)
            self.check("a pause", (before >= first, state), (True, "paused"))
            self.check("while it is paused it stands still", read("show", endpoint=here), (before, "paused"))
            self.check("a second pause", read("pause", endpoint=here), (before, "paused"))
            self.check("an advance", read("advance", "1h30m", endpoint=here), (before + 5_400_000, "paused"))
            now, state = read("resume", endpoint=here)
            self.check("it goes on", (now >= before + 5_400_000, state), (True, "running"))
            self.check("and is shown at --endpoint", clock("--endpoint", here, endpoint="http://127.0.0.1:1")[0], 0)
            status, output, said = clock("advance", f"{LAST}ms", endpoint=here)
            self.check("too far an advance", (status, output, said),
                       (2, "", f"clock: advance {LAST}ms: ms would set the clock past {LAST}\n"))
            self.check("after which nothing has moved", read(endpoint=here)[0] < LAST // 2)

    def test_faults_of_the_command_are_told(self):
        for words, wanted in (
                (["advance"], "clock: advance: how far? write a number with a unit"),
                (["advance", "15"], "clock: advance 15: write a number with a unit"),
                (["pause", "15s"], "clock: pause 15s: only advance has a time"),
                (["15s"], "clock: 15s: write show, pause, resume or advance TIME"),
                (["--endpoint", "https://a"], "clock: --endpoint=https://a: write it as http://127.0.0.1:PORT")):
            status, output, said = clock(*words, endpoint="http://127.0.0.1:1")
            self.check(f"a fault: {wanted}", (status, output, said.count("\n"), said.startswith(wanted)),
                       (2, "", 1, True), shown=said)
        status, output, said = clock(endpoint="http://127.0.0.1:1")
        self.check("a service that is not there", (status, output, said.startswith(
            "clock: http://127.0.0.1:1: Connection refused: start the service")), (4, "", True), shown=said)

    def test_a_service_that_answers_otherwise_is_told(self):
        server: Any = http.server.HTTPServer(("127.0.0.1", 0), Answers)
        thread = threading.Thread(target=server.serve_forever)
        thread.start()
        try:
            for answer, wanted in (
                    ((404, b'{"errorMessage":"No such resource","errorType":"NotFound"}'),
                     "the service has no clock that can be set: its program is an older one"),
                    ((200, b"hello"), "the service answers 200 the answer is not JSON"),
                    ((200, b'{"now":"1","running":true}'), "the service answers 200 the answer has no reading"),
                    ((200, b'{"now":true,"running":true}'), "the service answers 200 the answer has no reading"),
                    ((500, b'{"errorMessage":"Journal is full","errorType":"JournalFull"}'),
                     "the service answers 500 Journal is full"),
                    ((403, b'{"Type":"User","message":"No\\n\\u001b[1m"}'), "the service answers 403 No \\x1b[1m")):
                server.answer = answer
                self.check(f"an answer: {answer}", clock(endpoint=f"http://127.0.0.1:{server.server_port}"),
                           (4, "", f"clock: {wanted}\n"))
            server.answer = 200, json.dumps({"now": LAST, "running": False}).encode()
            self.check("a moment after the year 9999", clock(endpoint=f"http://127.0.0.1:{server.server_port}"),
                       (0, f"{LAST} - paused\n", ""))
        finally:
            server.shutdown()
            thread.join()
            server.server_close()

    def test_up_lets_the_clock_through_and_refuses_web_pages(self):
        """Its front lets these requests through, and refuses those of web pages."""
        up = Up()
        up.until("ready")
        before = read("pause", endpoint=up.endpoint)[0]
        self.check("an advance", read("advance", "90s", endpoint=up.endpoint), (before + 90_000, "paused"))
        for path in ("/_local/clock/advance?ms=5", "/_local/clock/pause", "/_local/clock/resume"):
            request = urllib.request.Request(up.endpoint + path, b"", {"Origin": "http://site.example"}, method="POST")
            try:
                urllib.request.urlopen(request, timeout=30).close()
                status = 200
            except urllib.error.HTTPError as fault:
                status = fault.code
                fault.close()
            self.check(f"a web page asks for {path}", status, 403)
        self.check("after which it is as it was", read(endpoint=up.endpoint), (before + 90_000, "paused"))
        read("resume", endpoint=up.endpoint)
        up.end()


class Scripted:
    """A service whose clock a test sets; it counts what it is asked."""

    def __init__(self, now=None):
        self.begun, self.at, self.is_running = time.monotonic(), now or int(1000 * time.time()), True
        self.asked: List[Any] = []
        self.entries = 0
        owner = self

        class Service(http.server.BaseHTTPRequestHandler):
            def do_GET(self):
                owner.asked.append(self.path)
                body = json.dumps({"now": owner.reads(), "running": owner.is_running}).encode()
                self.send_response(200)
                self.send_header("Content-Length", str(len(body)))
                self.end_headers()
                self.wfile.write(body)
            do_POST = do_GET

            def log_message(self, *words):
                pass
        self.server = http.server.ThreadingHTTPServer(("127.0.0.1", 0), Service)
        threading.Thread(target=self.server.serve_forever, daemon=True).start()
        self.port = self.server.server_port

    def reads(self):
        return self.at + (int(1000 * (time.monotonic() - self.begun)) if self.is_running else 0)

    def set(self, is_running, forward=0):
        self.at, self.begun, self.is_running = self.reads() + forward, time.monotonic(), is_running

    def close(self):
        self.server.shutdown()
        self.server.server_close()


class FollowedClock(Case):
    def setUp(self):
        self.service = Scripted()
        self.told: List[str] = []
        self.came: List[str] = []
        self.clock = Followed(self.service.port, self.told.append)
        self.addCleanup(self.service.close)
        self.addCleanup(self.clock.close)

    def later(self, name, milliseconds):
        return self.clock.at(self.clock.now() + milliseconds, lambda: self.came.append(name))

    def test_nothing_is_asked_while_nothing_waits(self):
        self.clock.note(self.service.reads())
        self.check("its moment is counted on", abs(self.clock.now() - self.service.reads()) < 2000)
        self.check("what is far off is not reached", self.clock.reached(self.clock.now() + 60_000), False)
        timer = self.later("an hour", 3_600_000)
        time.sleep(0.6)
        timer.cancel()
        self.check("at most once is it asked", len(self.service.asked) <= 1, shown=self.service.asked)

    def test_what_is_due_comes_in_its_order_and_what_fails_stops_nothing(self):
        self.later("second", 300)
        self.later("first", 100)
        self.later("third", 300)
        self.later("none", 200).cancel()
        self.check("what is due comes in its order", (until(lambda: len(self.came) == 3, 10), self.came),
                   (True, ["first", "second", "third"]))
        fails: Any = lambda: 1 // 0
        self.check("what fails is told, and stops nothing", self.clock.at(0, fails) is not None)
        self.later("after it", 1)
        self.check("the next one comes", until(lambda: "after it" in self.came, 10))
        self.check("a line", (len(self.told), "ZeroDivisionError" in self.told[0]), (1, True))

    def test_an_advance_brings_all_that_is_due_by_its_moment(self):
        for name, milliseconds in (("last", 7_200_000), ("first", 3_600_000), ("later", 90_000_000)):
            self.later(name, milliseconds)
        self.service.set(True, 86_400_000)
        self.clock.note(self.service.reads())
        self.clock.settle()
        self.check("all that is due by an entry's moment has come", self.came, ["first", "last"])

    def test_nothing_is_due_while_the_clock_is_paused(self):
        self.service.set(False)
        self.clock.ask()
        self.check("it is known to be paused", self.clock.is_paused)
        self.later("soon", 50)
        count = len(self.service.asked)
        time.sleep(1.2)
        self.check("nothing comes", (self.came, self.clock.reached(self.service.reads() + 1)), ([], False))
        self.check("it is asked some times a second", 1 <= len(self.service.asked) - count <= 6,
                   shown=len(self.service.asked) - count)
        self.service.set(True)
        self.check("it comes once the clock goes on", until(lambda: self.came == ["soon"], 10))
        self.service.set(False)
        self.later("unseen", 200)
        time.sleep(0.8)
        self.check("a pause of which nothing was heard counts", self.came, ["soon"])
        self.service.set(False, 1000)
        self.check("an advance of which nothing was heard too", until(lambda: self.came == ["soon", "unseen"], 10))

    def test_a_wait_ends_when_it_is_over_or_when_the_event_is_set(self):
        event = threading.Event()
        begun = time.monotonic()
        self.check("its time is over", self.clock.wait(event, 0.2), False)
        self.check("not before", time.monotonic() - begun >= 0.19)
        event.set()
        self.check("it is set", self.clock.wait(event, 60), True)

    def test_nothing_waits_for_ever_without_a_clock(self):
        """What a service without a clock, or one that has ended, is asked: nothing waits for ever."""
        for answer in (404, None):
            server: Any = http.server.ThreadingHTTPServer(("127.0.0.1", 0), Answers)
            server.answer = (404, b"{}")
            threading.Thread(target=server.serve_forever, daemon=True).start()
            if answer is None:
                server.shutdown()
                server.server_close()
            clock = Followed(server.server_port)
            came = []
            clock.at(clock.now() + 50, lambda: came.append(1))
            self.check(f"an answer {answer}", until(lambda: came == [1], 10))
            clock.close()
            if answer is not None:
                server.shutdown()
                server.server_close()
