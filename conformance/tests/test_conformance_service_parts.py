"""Checks parts of lambda_local conformance service by themselves: another service, and a machine, that take their
time, and what the pages leave open."""
import argparse
import http.server
import itertools
import threading
import time
from typing import Iterator, Optional, Tuple
from unittest import mock

from lambda_conformance import service
from lambda_conformance.service import course, judge, tested
from lambda_conformance.service.calls import Call
from lambda_conformance.service.known import KnownDifferences
from lambda_conformance.service.oracle import FRESH, Given, Oracle, Plan, Sequence
from lambda_conformance.service.report import Report
from lambda_conformance.service.sequences import plans_of, sequences_of
from lambda_conformance.service.wire import Exchange
from lambda_local.history import entries
from lambda_local.history.words import Word
from lambda_local.service import program_path
from tests.library.cases import Case

STARVED = 3.0  # seconds in which a service does nothing: longer than an answer may take
IDENTIFIER = "00000000-0000-4000-8000-000000000001"


class Server(http.server.ThreadingHTTPServer):
    """One whose threads have one processor, and wait for what it has lost until it is closed."""

    def __init__(self, handler):
        super().__init__(("127.0.0.1", 0), handler)
        self.processor, self.lost = threading.Lock(), threading.Event()


class Starved(http.server.BaseHTTPRequestHandler):
    """A service that takes one request after the other. It does nothing for a while as it takes a registration, or
    never answers that one."""
    server: Server
    protocol_version, loses, registered = "HTTP/1.1", False, 1

    def do_POST(self):
        self.rfile.read(int(self.headers.get("Content-Length", 0)))
        if not self.path.endswith("/register"):
            return self.answer(202, b'{"status":"OK"}')
        if self.loses:
            return self.server.lost.wait()
        with self.server.processor:
            time.sleep(STARVED)
        return self.answer(200, b'{"functionName":"f","functionVersion":"$LATEST","handler":"h"}')

    def do_GET(self):
        self.answer(404, b"{}")

    def answer(self, status, body):
        with self.server.processor:
            self.send_response(status)
            for name, value in (("Content-Type", "application/json"), ("Content-Length", len(body)),
                                ("Lambda-Extension-Identifier", f"{IDENTIFIER[:-1]}{self.registered}")):
                self.send_header(name, str(value))
            self.end_headers()
            self.wfile.write(body)

    def log_message(self, *_):
        pass


class RefusesLateFailures(Starved):
    """A service whose Init cannot fail any more once its runtime has asked; what asks waits."""
    asked, registered = False, 0

    def do_GET(self):
        if not self.path.endswith("/next"):
            return super().do_GET()
        type(self).asked = True
        return self.server.lost.wait()

    def do_POST(self):
        self.rfile.read(int(self.headers.get("Content-Length", 0)))
        if self.path.endswith("/register"):
            type(self).registered += 1
            return self.answer(200, b'{"functionName":"f","functionVersion":"$LATEST","handler":"h"}')
        return self.answer(403 if self.asked else 202, b'{"errorType":"State","errorMessage":"not now"}')


def plan_of(*calls: Call) -> Plan:
    """That of a sequence with these calls, which are not answered."""
    return Plan(Sequence("one", FRESH, calls), tuple(() for _ in calls), {}, tuple(range(len(calls))), {})


def given(word: Word, remaining: int) -> Given:
    """The answer to the first call, with a deadline after so many milliseconds."""
    return Given(0, entries.Answer(0, word), "next", remaining, False)


def reply(wall: float, answered: float, body: bytes = b"", head: bytes = b"") -> Exchange:
    """One that came at this moment, in Unix milliseconds and in seconds of the clock."""
    came = Exchange(("127.0.0.1", 1), "GET")
    came.take(b"HTTP/1.1 200 OK\r\n%sContent-Length: %d\r\n\r\n%s" % (head, len(body), body))
    came.wall, came.answered = wall, answered
    return came


class LateCourse(course.Course):
    """A course in which a timeout is late; to one who looks strictly, as often as `times` says."""

    def __init__(self, times: Iterator[bool]) -> None:
        self.is_strict, self._times = False, times

    def play(self, plan: Plan, settle: Optional[float] = None, patience: float = 0.0) -> course.Played:
        difference = None
        if self.is_strict and next(self._times):
            difference = course.Difference(plan, 0, 0, "timeout", judge.Aspect("moment", "late", "then"), (), None)
        return course.Played(difference, True, 1.0, True)


class SlowCourse(course.Course):
    """A course in which the deliveries of a function with 3 seconds are so many milliseconds on their way."""

    def __init__(self, *late: int) -> None:
        self._late = iter(late)

    def bring(self, start: str) -> None:
        pass

    def _deadline_of_probe(self) -> Tuple[float, Exchange]:
        asked = 1_000_000.0
        return asked, reply(asked + next(self._late), 0.0, head=b"Lambda-Runtime-Deadline-Ms: 1003000\r\n")


class LateRun(service.Run):
    """A run on such a course, which counts what it looks into."""

    def __init__(self, times: Iterator[bool]) -> None:
        self.options, self.report, self.reported = argparse.Namespace(most=5), Report(None), set()
        self.course, self.looked = LateCourse(times), 0

    def _look_into(self, plan: Plan, played: course.Played) -> None:
        self.looked += 1


class Service(Case):
    def difference(self, handler, calls="register x =probe -"):
        """What is found in a sequence with these calls, which a service of this kind takes."""
        server = Server(handler)
        threading.Thread(target=server.serve_forever, daemon=True).start()
        try:
            place = f"127.0.0.1:{server.server_port}"
            played = course.Course(tested.tested_by(f"http://{place}", place, "f"), KnownDifferences(None), 3)
            lines = "".join(f"\n  {call}" for call in calls.split("; "))
            plan, = plans_of(sequences_of(f"one{lines}\n", FRESH), Oracle(program_path(None), 3))
            found = played.play(plan).difference
            played.close()
            return found and found.words
        finally:
            server.lost.set()
            server.shutdown()
            server.server_close()

    def test_a_service_that_is_starved(self):
        self.check("what a service answers late with all else is no difference", self.difference(Starved), None)
        self.check("what alone has no answer is one", self.difference(type("Lost", (Starved,), {"loses": True})),
                   ("register", "registered", "connection"))

    def test_an_init_that_fails_late(self):
        calls = "register x =probe s; register y =other -; ext-next x; next; init-failure REPORT; next"
        self.check("what follows from an answer that the pages leave open is no difference",
                   self.difference(RefusesLateFailures, calls), None)

    def test_deadlines_on_a_busy_machine(self):
        begun = 100.0

        def fits(told, took):
            """Whether a deadline fits that is told so many milliseconds after the call's, and takes so long."""
            one = judge.Judge(plan_of())
            one.since = begun
            wall = 1_000_000.0
            value = str(int(wall + 3000 + told))
            came = reply(wall + 1000 * took, begun + took)
            _, theirs, ours = one._deadline(value, given(Word.DELIVER, 3000), came)
            return theirs == ours
        for told, took, wanted in ((0, 0.0, True), (0, 3.0, True), (2000, 3.0, True), (1000, 0.1, False),
                                   (-1000, 0.1, False), (-1000, 3.0, False)):
            self.check(f"a deadline that is {told} ms late, after {took} s, {'fits' if wanted else 'does not'}",
                       fits(told, took), wanted)

    def test_the_timeout_on_a_busy_machine(self):
        for name, late, wanted in (("a deadline that comes at once", (10,), 3),
                                   ("one that comes late", (700,), 3),
                                   ("one that comes too late, and then late", (1400, 1100, 700), 3),
                                   ("one that comes too late each time", 5 * (1400,), 2)):
            self.check(f"{name} tells {wanted} s", SlowCourse(*late).learn_timeout(), wanted)

    def test_timeouts_on_a_busy_machine(self):
        plan = plan_of(Call("invoke", "a"))
        for late, is_strict, wanted in ((100, False, (True, False)), (1200, False, (True, True)),
                                        (2500, False, (False, True)), (1200, True, (False, True)),
                                        (100, True, (True, False)), (-1200, False, (False, False))):
            one = judge.Judge(plan, is_strict)
            one.deadlines["a"] = 1_000_000
            came = reply(1_000_000.0 + late, 0.0, b"{}")
            with mock.patch.object(judge.CLOCK, "slowness", lambda: 6.0):
                pairs = {name: theirs == ours for name, theirs, ours in one._timeout(given(Word.TIMEOUT, 0), came)}
            self.check(f"one that is {late} ms late {'strictly ' if is_strict else ''}fits, and is late",
                       (pairs["moment"], one.is_late), wanted)

    def test_timeouts_that_are_late_each_time(self):
        for name, times, wanted in (("each time", itertools.repeat(True), 1), ("once more", iter([True, False]), 0)):
            whole = LateRun(times)
            whole._play(plan_of(Call("invoke", "a")))
            self.check(f"a timeout that is late {name} is {'' if wanted else 'not '}looked into", whole.looked, wanted)

    def test_what_the_pages_leave_open(self):
        known = KnownDifferences(None)
        for words, wanted in ((("init-failure", "accepted-after-next", "status"), True),
                              (("init-failure", "accepted", "status"), False),
                              (("ext-next", "Container", "refusal"), True),
                              (("ext-next", "Container", "status"), False),
                              (("next", "Replaced", "connection"), False)):
            self.check(f"{' '.join(words)} is {'' if wanted else 'not '}accepted", known.accepts(words), wanted)
        self.check("a response of Lambda's greatest size is not called too large", tested.TOO_LARGE, 6_291_556 + 1)
