"""Checks parts of lambda_local conformance by themselves: what is a leak, whose time a busy machine takes, and what
is said of what a runtime does."""
import contextlib
import http.server
import itertools
import math
import os
import signal
import subprocess
import sys
import threading
import time
from types import SimpleNamespace
from typing import List, Optional, cast
from unittest import mock

from lambda_conformance import again, leaks, watch
from lambda_conformance.environment import Environment
from lambda_conformance.extension import delivery, stage
from lambda_conformance.kit import FAIL, NOTE, PASS
from lambda_conformance.manners import Manner
from lambda_conformance.messages import reply_to
from lambda_conformance.process import Holds, Process
from lambda_conformance.runtime import first, payloads, refusals
from lambda_conformance.stage import Answer, Stage
from lambda_local.program import Fault
from tests.library.cases import Case

PART = leaks.PART
IDENTIFIER = "00000000-0000-4000-8000-000000000001"


def held(memory, left=0):
    return Holds(int(memory), 10, 4, 1 + left, 0)


def looks_at(memory_after, requests, left=lambda done: 0):
    """At a process that holds so much memory, and so many processes more, after so many requests."""
    process = SimpleNamespace(done=0)
    process.holds = lambda: held(memory_after(process.done), left(process.done))
    looks = leaks.Looks(cast(Process, process))
    for process.done in range(PART, requests + 1, PART):
        looks.look(process.done)
    return looks


def grown(memory_after, requests):
    """How many bytes for each request a process has kept that holds so much after so many requests."""
    return looks_at(memory_after, requests).leaks(1000)


class Leaks(Case):
    def test_memory(self):
        kept, block, filled = 4_500, 1 << 20, 60_000_000
        for name, memory_after, requests in (
                ("4,500 bytes of each request", lambda done: kept * done, 4000),
                ("so many, which an allocator takes a megabyte at a time",
                 lambda done: -(-kept * done // block) * block, 4000),
                ("so many, beside what a collector frees now and then",
                 lambda done: kept * done + done * 20_000 % 9_000_000, 4000),
                ("so many, after a heap has been filled",
                 lambda done: kept * done + min(12_000_000, 10_000 * done), 4000),
                ("65,536 bytes of each request", lambda done: 65_536 * done, 1000),
                ("so many, of as few as it takes to tell", lambda done: 65_536 * done, leaks.MANY)):
            self.check(f"{name} is a leak", grown(memory_after, requests) > 3000)
        for name, memory_after in (
                ("700 bytes of each request, in whole pages", lambda done: 700 * done // 4096 * 4096),
                ("150 bytes of each request", lambda done: 150 * done)):
            self.check(f"{name} is a leak", 100 < grown(memory_after, 2000) < 1200)
        beside_a_heap = [grown(lambda done: 700 * done + done * 5000 % 100_000, requests) for requests in (2000, 6000)]
        self.check("700 bytes of each, beside what a small heap is filled with, are a leak after long",
                   [each > 400 for each in beside_a_heap], [False, True])
        for name, memory_after, requests in (
                ("a heap that is filled before it is collected", lambda done: min(filled, 50_000 * done), 4000),
                ("one that is filled and collected again and again", lambda done: done * 65_536 % filled, 4000),
                ("one that grows until half of the requests", lambda done: 6_000 * min(done, 2000), 4000),
                ("one that grows less and less", lambda done: 40_000_000 * (1 - 0.5 ** (done / 500)), 4000),
                ("one that grows by very little in all", lambda done: 30 * done, 4000),
                ("one of which each page of a pool is touched in the end", lambda done: 60 * done, 6000),
                ("one that falls back now and then", lambda done: 200 * done - done % 1000 // 900 * 30_000, 4000),
                ("one that grows by little, less and less", lambda done: 900_000 * math.log(1 + done), 8000),
                ("one that grows by little at some times", lambda done: 2_000_000 * (done // 1500), 6000),
                ("a collected heap that grows towards its own limit", lambda done: 16_700 * min(done, 5000), 10_000),
                ("one of few requests", lambda done: 65_536 * done, leaks.MANY - PART)):
            self.check(f"{name} is no leak", grown(memory_after, requests), 0)

    def test_what_is_counted(self):
        for name, left, requests, outcome in (
                ("a process for each of few requests", lambda done: done, 2 * PART, FAIL),
                ("one for each second of them", lambda done: done // 2, 2 * PART, FAIL),
                ("as many as a pool has, of few requests", lambda done: min(done, 32), 2 * PART, NOTE),
                ("one for each of many", lambda done: done, 1000, FAIL),
                ("a pool's, of many", lambda done: min(done, 32), 1000, PASS)):
            self.check(f"{name}: {outcome}", looks_at(lambda _: 1, requests, left).counted("processes")[0], outcome)

    def test_of_slow_processes(self):
        """One that is asked a thousand times, or as often as there is time for, is looked at often enough to judge,
        unless that is very seldom."""
        for each, wanted in ((1 / 1024, (1025, PASS)), (1 / 32, (12 * 17, PASS)), (1 / 8, (10 * 5, NOTE))):
            now = [0.0]

            def once(_, each=each, now=now):
                now[0] += each
            process = cast(Process, SimpleNamespace(holds=lambda: held(1_000_000)))
            with mock.patch.object(leaks.CLOCK, "now", lambda now=now: now[0]):
                looks = leaks.repeat(process, once, leaks.Course(1000, 6, 1000, 0, leaks.SUSPECT))
            self.check(f"of one that takes {each} s for each", (looks.done, looks.counted("descriptors")[0]), wanted)


class OwnTime(Case):
    """On a machine that is eight times as slow as usual."""

    def counted(self, asleep, worked, seconds):
        """What is counted of a process that is looked at every tenth of a second."""
        moments = (place / 10 for place in itertools.count())
        had = (worked * place / 10 for place in itertools.count())
        with contextlib.ExitStack() as patched:
            for where, name, value in (
                    (watch.time, "monotonic", lambda: next(moments)), (watch, "members", lambda *_: [1]),
                    (watch.CLOCK, "slowness", lambda: 8.0), (watch, "worked", lambda _: next(had)),
                    (watch, "is_asleep", lambda _: asleep)):
                patched.enter_context(mock.patch.object(where, name, value))
            own = watch.OwnTime(1)
            for _ in range(int(10 * seconds)):
                own.look()
        return round(own.seconds)

    def test_own_time(self):
        self.check("a process that sleeps is late by the real time", self.counted(True, 0.0, 20), 20)
        self.check("one that works, by the time that it is given", self.counted(False, 0.25, 20), 5)
        self.check("one that could work and is given none is not", self.counted(False, 0.0, 20), 0)
        self.check("one of many threads, by no more than the real time", self.counted(False, 3.0, 20), 20)

    def test_a_poll_that_waits(self):
        def waiting(*ended):
            environments = [SimpleNamespace(proxy=SimpleNamespace(of=lambda kind, one=one: [
                SimpleNamespace(ended=None), SimpleNamespace(ended=one)])) for one in ended]
            return SimpleNamespace(environments=environments, poll_kind="next")
        self.check("a process that waits for what it has asked for is not late", Stage.waits(waiting(None)))
        self.check("one that has it is", Stage.waits(waiting(1.0)), False)
        self.check("so is one of two", Stage.waits(waiting(None, 1.0)), False)


def exchange(kind, begun, end, request_id=None, delivered=None, status=None, by_rule=None):
    return SimpleNamespace(kind=kind, begun=begun, asked=begun, end=end, request_id=request_id, delivered=delivered,
                           status=status, by_rule=by_rule, is_reset=False, length=9)


def stage_of(*exchanges):
    def of(*kinds):
        return [one for one in exchanges if one.kind in kinds]
    return SimpleNamespace(environment=SimpleNamespace(proxy=SimpleNamespace(of=of)))


def refused(answers: List[Answer]) -> Optional[int]:
    """The status with which a handler that gives these is refused as another one than the kit's, if it is."""
    try:
        first.refuse_another_handler(answers)
    except Fault as fault:
        return fault.status
    return None


class Conduct(Case):
    def test_answers(self):
        poll, answer = exchange("next", 0, 1, delivered="a"), exchange("response", 2, 3, "a", status=202)
        twice = stage_of(poll, answer, exchange("error", 4, 5, "a", status=403))
        refused = stage_of(poll, exchange("response", 2, 3, "a", status=413), exchange("error", 4, 5, "a", status=202))
        self.check("an answer after one that was accepted is told", bool(again.answered_twice(twice)))
        self.check("one after a refusal is not", again.answered_twice(refused), None)
        early = stage_of(poll, exchange("next", 1.5, 6), answer)
        late = stage_of(poll, answer, exchange("next", 3, 6))
        self.check("a Next before the response is told", bool(again.asked_early(early)))
        self.check("one after it is not", again.asked_early(late), None)

    def test_an_invocation_that_is_left(self):
        poll, later = exchange("next", 0, 1, delivered="a"), exchange("next", 3, 3.1, status=403)
        refused, accepted = (exchange("response", 2, 2.5, "a", status=status) for status in (404, 202))
        for one in (poll, later, refused, accepted):
            one.refused = (one.status or 200) >= 400
        for name, exchanges, since, wanted in (
                ("one that asks again without an answer has gone on", (poll, later), 0, True),
                ("so has one whose answer was refused", (poll, refused, later), 0, True),
                ("one whose answer was accepted has not", (poll, accepted, later), 0, False),
                ("nor has one that does not ask again", (poll,), 0, False),
                ("nor one whose invocation was an earlier one", (poll, later), 2, False)):
            self.check(name, Environment.has_gone_on(stage_of(*exchanges).environment, since), wanted)

    def test_refused_responses(self):
        response, same = exchange("response", 2, 3, "a", status=403), exchange("response", 4, 5, "a", status=403)
        again_told = refusals.sent_again(stage_of(response, same), response)
        self.check("a response that is sent again is told", bool(again_told))
        self.check("one that is sent once is not", refusals.sent_again(stage_of(response), response), None)
        response.is_reset = True
        self.check("nor is one that may have lost its refusal with its connection",
                   refusals.sent_again(stage_of(response, same), response), None)
        same.length = 5
        self.check("another one in its place is told in any case",
                   bool(refusals.sent_again(stage_of(response, same), response)))

    def test_outputs_that_are_lost(self):
        def answers(*bodies):
            return [Answer(200, {}, body) for body in bodies]
        self.check("a runtime that gives nothing may have lost it", refused(answers(b"null", b"{}", b"")), None)
        for name, came in (("the same", answers(b'"hello"', b'"hello"', b'"hello"')),
                           ("each event", answers(*map(first.compact, (event for event, _ in first.PROBES))))):
            self.check(f"a handler that gives {name} is another one", refused(came), 2)

    def test_numbers(self):
        self.check("a number to 13 digits is near", payloads.is_near("9007199254740993", "9007199254740900"))
        self.check("one to 12 is not", payloads.is_near("9007199254740993", "9007199254700000"), False)
        self.check("nor is another small one", payloads.is_near("0.1", "0.10000000001"), False)

    def test_manners(self):
        reply = reply_to("GET")
        reply.feed(b"HTTP/1.1 200 OK\r\nOne: 1\r\nTwo: 2\r\nContent-Length: 2\r\n\r\nok")
        (written,) = Manner(named=str.upper, backwards=True).parts(reply)
        self.check("headers come in capitals and backwards", written,
                   b"HTTP/1.1 200 OK\r\nCONTENT-LENGTH: 2\r\nTWO: 2\r\nONE: 1\r\n\r\nok")
        (chunked,) = Manner(chunk=27).parts(reply)
        self.check("the size of a chunk is in hexadecimal", b"\r\n\r\n2\r\nok\r\n0\r\n\r\n" in chunked)

    def test_the_end_of_an_invocation(self):
        for is_of_logs, kinds in ((False, ["platform.start", "platform.runtimeDone"]),
                                  (True, ["platform.start", "platform.end", "platform.runtimeDone"])):
            batch = delivery.end_of("a", "timeout", is_of_logs)
            self.check(f"it is told as {', '.join(kinds)}", [event["type"] for event in batch], kinds)
            self.check("with its request and status", batch[-1]["record"], {"requestId": "a", "status": "timeout"})


class Delivering(http.server.BaseHTTPRequestHandler):
    """A service that has an invocation for each Next after a while."""
    protocol_version, asked = "HTTP/1.1", 0

    def do_GET(self):
        type(self).asked += 1
        time.sleep(0.1)
        with contextlib.suppress(OSError):
            self.answer(200)

    def do_POST(self):
        self.rfile.read(int(self.headers["Content-Length"]))
        self.answer(202)

    def answer(self, status):
        self.send_response(status)
        self.send_header("Lambda-Runtime-Aws-Request-Id", IDENTIFIER)
        self.send_header("Content-Length", "1")
        self.end_headers()
        self.wfile.write(b"1")

    def log_message(self, *_):
        pass


class NumbersThatComeAgain(Case):
    def test_what_has_the_number_of_an_ended_command(self):
        for name, later, wanted in (("another process that has its number by now is left alone", 1, None),
                                    ("its own is ended", 0, -signal.SIGKILL)):
            other = subprocess.Popen([sys.executable, "-S", "-c", "input()"], stdin=subprocess.PIPE,
                                     start_new_session=True)
            ended = Process.__new__(Process)
            ended._child, ended._mark, ended._gone = other, b"AWS_LAMBDA_RUNTIME_API=none", lambda process: None
            ended._began_at, ended._ended = (watch.begun_at(other.pid) or 0) - later, threading.Event()
            ended._ended.set()
            ended.kill()
            time.sleep(0.1)
            self.check(f"of a command that has ended {name}", other.poll(), wanted)
            other.kill()
            other.communicate()


class Processes(Case):
    """Looks at the processes of this machine, of which there are many."""

    def test_members_of_a_session(self):
        sessions = watch.Sessions()
        with mock.patch.object(watch, "SEEN", 3600), subprocess.Popen(["sleep", "60"], start_new_session=True) as first:
            begun = time.monotonic()
            self.check("its process", sessions.members(first.pid, begun), [first.pid])
            with mock.patch.object(sessions, "look", side_effect=AssertionError("it looks again")):
                self.check("is known for a moment", sessions.members(first.pid, time.monotonic()), [first.pid])
            with subprocess.Popen(["sleep", "60"], start_new_session=True) as other:
                found = sessions.members(other.pid, time.monotonic())
                self.check("one of a later session is found", found, [other.pid])
                other.kill()
            first.kill()
        self.check("now there is none", sessions.members(first.pid), [])

    def test_a_variable_is_read_once_for_each_program(self):
        variables, read = watch.Variables(), watch.value_of
        with subprocess.Popen(["sh", "-c", "read line; NAME=second exec sleep 60"], stdin=subprocess.PIPE,
                              env={**os.environ, "NAME": "first"}) as child:
            def has(value):
                return variables.has(child.pid, watch.fields(f"/proc/{child.pid}/stat"), b"NAME=" + value)
            while read(child.pid, b"NAME=") != b"NAME=first":  # (until it is what it is to become)
                time.sleep(0.01)
            self.check("it has the variable that it was started with", (has(b"first"), has(b"second")), (True, False))
            with mock.patch.object(watch, "value_of", side_effect=AssertionError("it is read again")):
                self.check("and is not asked again", (has(b"first"), has(b"other")), (True, False))
            assert child.stdin
            child.stdin.write(b"\n")
            child.stdin.close()
            while read(child.pid, b"NAME=") != b"NAME=second":
                time.sleep(0.01)
            self.check("as another program it has another one", (has(b"first"), has(b"second")), (False, True))
            child.kill()


class PlayedRuntime(Case):
    def test_its_end(self):
        server = http.server.ThreadingHTTPServer(("127.0.0.1", 0), Delivering)
        server.daemon_threads = True
        threading.Thread(target=server.serve_forever, daemon=True).start()
        runtime = stage.PlayedRuntime(server.server_port)
        while Delivering.asked < 3:
            time.sleep(0.01)
        runtime.end()
        time.sleep(0.3)  # (until what it had asked for has come)
        seen = Delivering.asked
        time.sleep(0.3)
        server.shutdown()
        server.server_close()
        self.check("a played runtime that is ended asks for nothing more",
                   (runtime.is_alive(), Delivering.asked - seen), (False, 0))
