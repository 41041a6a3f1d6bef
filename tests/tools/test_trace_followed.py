"""Checks /_local/trace of a service that runs: each follower gets the line of each entry once, in order, from its
ticket on, and in the end what `lambda_local trace` writes of the history; also a follower that reads late, beside one
that goes, and from a ticket that no entry has yet. A service that is followed ends as fast as another. At most 64
connections follow it, beside which it is counted and stopped; readers that do not read hold little memory. The program
is LAMBDA_LOCAL_PROGRAM, else ./lambda_local. Ends with 'N passed, M failed'."""
import json
import os
import socket
import subprocess
import threading
import time
from typing import List

from lambda_local.history.entries import Entry
from lambda_local.history.running import Running
from lambda_local.service import RUNTIME, Service, ask, wait_for
from tests.library.cases import Case
from tests.library.timelines import PROGRAM
from tests.library.up_kit import until

CONFIGURATION = {"account": "123456789012", "region": "us-east-2",
                 "functions": [{"name": name, "ports": [0], "timeout": 600} for name in "fg"]}
PATIENCE = 60  # seconds until something has to come, on a machine that does much else
FOLLOWED = "/_local/trace?follow=1"
MOST_FOLLOWERS = 64
TURNED_AWAY = {"errorMessage": "64 connections follow the trace, as many as may at once",
               "errorType": "TooManyFollowers"}
READERS, LARGE = 200, 5 << 20
# Bytes that a reader may hold: 128 KiB of text, its thread and its connection, and no further piece of 64 KiB.
# (Measured: 205 KiB, at a load of 10 as at one of 40.)
OF_READER = 256 << 10
# What is freed for one reader is there for the next. (Each thread's own would stay with it.)
ONE_HEAP = {"MALLOC_ARENA_MAX": "1"}


def chunks_of(file):
    """The chunks of a body, each as it comes."""
    while True:
        line = file.readline()
        size = int(line, 16) if line else 0
        if size == 0:
            return
        yield file.read(size)
        file.readline()


class Follower:
    """A client that reads a followed trace on a thread of its own, at once or once it is let go."""

    def __init__(self, port, path=FOLLOWED, waits=False):
        self.lines, self.head, self.has_begun, self.gone = [], b"", threading.Event(), threading.Event()
        self.has_come, self.go = threading.Condition(), threading.Event()
        self.socket = socket.create_connection(("127.0.0.1", port), PATIENCE)
        self.socket.sendall(f"GET {path} HTTP/1.1\r\nHost: localhost\r\n\r\n".encode())
        if not waits:
            self.go.set()
        self.thread = threading.Thread(target=self.read)
        self.thread.start()

    def read(self):
        try:
            self.go.wait(PATIENCE)
            with self.socket.makefile("rb") as file:
                for line in iter(file.readline, b"\r\n"):
                    self.head += line
                self.has_begun.set()
                for chunk in chunks_of(file):
                    with self.has_come:
                        self.lines.append(chunk)
                        self.has_come.notify_all()
        except OSError:
            pass
        finally:
            self.gone.set()

    def until(self, count):
        """Whether so many lines came."""
        with self.has_come:
            return self.has_come.wait_for(lambda: len(self.lines) >= count, PATIENCE)

    def end(self):
        """What came, once the body has ended."""
        self.go.set()
        ended = self.gone.wait(PATIENCE)
        self.socket.close()
        self.thread.join(PATIENCE)
        return b"".join(self.lines).decode() if ended else "it does not end"


def serve(port):
    """One turn of a runtime."""
    _, headers, _ = ask(port, "GET", RUNTIME + "invocation/next", timeout=PATIENCE)
    ask(port, "POST", f"{RUNTIME}invocation/{headers['lambda-runtime-aws-request-id']}/response", b'"ok"')


def invoke(service, name, environment):
    """One call of a function, whose runtime asks before it."""
    before = service.stats()["entries"]
    runtime = threading.Thread(target=serve, args=(service.configuration["functions"][environment]["ports"][0],))
    runtime.start()
    until(lambda: service.stats()["entries"] != before, PATIENCE)
    ask(service.port, "POST", f"/2015-03-31/functions/{name}/invocations", b'{"n":1}', timeout=PATIENCE)
    runtime.join(PATIENCE)


def traced(history, *words):
    """What the program writes of a history."""
    done = subprocess.run([PROGRAM, "trace", *words], input=history, capture_output=True, timeout=PATIENCE)
    return done.stdout.decode() if done.returncode == 0 else f"status {done.returncode}: {done.stderr.decode()}"


def is_over_in(followers):
    """How many seconds a service takes from a stop to its end that so many followers wait for."""
    service = Service(CONFIGURATION)
    try:
        each = [Follower(service.port) for _ in range(followers)]
        for follower in each:
            follower.has_begun.wait(PATIENCE)
        begun = time.monotonic()
        ask(service.port, "POST", "/_local/stop")
        wait_for(service.process, PATIENCE)
        taken = time.monotonic() - begun
        return taken, all(follower.end().count("\n") == 1 for follower in each)
    finally:
        service.kill()


def asking(port, path):
    """A connection that has asked for a path, whose answer nobody has read."""
    connection = socket.create_connection(("127.0.0.1", port), PATIENCE)
    connection.setsockopt(socket.SOL_SOCKET, socket.SO_RCVBUF, 4096)
    connection.sendall(f"GET {path} HTTP/1.1\r\nHost: localhost\r\n\r\n".encode())
    return connection


def head_of(connection):
    """The head that came on a connection, and what came with it."""
    came = b""
    while b"\r\n\r\n" not in came:
        part = connection.recv(4096)
        if not part:
            break
        came += part
    return came


def resident(process):
    """How many bytes of a process are in memory."""
    with open(f"/proc/{process.pid}/status", encoding="utf-8") as file:
        return next(int(line.split()[1]) << 10 for line in file if line.startswith("VmRSS"))


def wait_for_rest(process):
    """Until each of its threads waits. (The newest comes last, and is looked at first.)"""
    end, tasks = time.monotonic() + PATIENCE, f"/proc/{process.pid}/task"
    while not all(rests(f"{tasks}/{one}/stat") for one in reversed(os.listdir(tasks))) and time.monotonic() < end:
        time.sleep(0.001)


def rests(stat):
    try:
        with open(stat, "rb") as file:
            return file.read().rpartition(b") ")[2].startswith(b"S")
    except OSError:
        return True  # (it has ended)


def answer_large(service, byte):
    """One invocation whose output is large, and all of one byte, which is escaped in a history and in its trace."""
    runtime_port = service.configuration["functions"][0]["ports"][0]
    caller = threading.Thread(target=ask, args=(service.port, "POST", "/2015-03-31/functions/f/invocations", b"{}"),
                              kwargs={"timeout": PATIENCE})
    caller.start()
    _, headers, _ = ask(runtime_port, "GET", RUNTIME + "invocation/next", timeout=PATIENCE)
    ask(runtime_port, "POST", f"{RUNTIME}invocation/{headers['lambda-runtime-aws-request-id']}/response", byte * LARGE,
        timeout=PATIENCE)
    caller.join(PATIENCE)


class TraceFollowed(Case):
    def test_followers_get_each_line_as_it_comes_until_the_stop(self):
        service = Service(CONFIGURATION)
        try:
            early = Follower(service.port)
            late = Follower(service.port, waits=True)
            bare = Follower(service.port, FOLLOWED + "&bodies=none&from=3")
            past = Follower(service.port, FOLLOWED + "&from=14")
            leaving = Follower(service.port)
            entries: List[Entry] = []
            tools = threading.Thread(target=lambda: entries.extend(Running(service.port, 2).entries()))
            tools.start()
            for turn in range(20):
                invoke(service, "fg"[turn % 2], turn % 2)
                self.check(f"a follower has the lines of call {turn}", early.until(3 * turn + 3))
                if turn == 4:
                    leaving.socket.shutdown(socket.SHUT_RDWR)
            history = ask(service.port, "GET", "/_local/history")[2]
            whole = ask(service.port, "GET", "/_local/trace")[2].decode()
            self.check("the trace is that of the history", whole, traced(history))
            self.check("without bodies", ask(service.port, "GET", "/_local/trace?bodies=none")[2].decode(),
                       traced(history, "--bodies", "none"))
            seen = whole.splitlines(True)
            self.check("what was followed is that trace", early.until(len(seen)) and "".join(
                line.decode() for line in early.lines), whole)
            ask(service.port, "POST", "/_local/stop")
            lines = early.end().splitlines(True)
            self.check("all lines come before that of the stop", lines[:len(seen)], seen)
            self.check("which comes too", '"kind":"stop"' in lines[len(seen)])
            self.check("it has no line but those of entries", [int(line.rsplit('"ticket":', 1)[1].strip("}\n"))
                                                               for line in lines], list(range(len(lines))))
            self.check("one that reads late has each line", late.end(), "".join(lines))
            self.check("from a ticket that came later", past.end(), "".join(lines[14:]))
            self.check("without bodies, from a ticket on", bare.end().splitlines(True)[:len(seen) - 3],
                       traced(history, "--bodies", "none").splitlines(True)[3:])
            self.check("its lines are JSON", b"content-type: application/x-ndjson" in early.head)
            leaving.end()
            tools.join(PATIENCE)
            self.check("the tools have each entry", [entry.ticket for entry in entries], list(range(len(lines))))
        finally:
            service.kill()

    def test_a_follower_that_waits_is_no_work(self):
        """A follower that waits is no work, and its place is free once it has gone."""
        service = Service(CONFIGURATION)
        try:
            follower = Follower(service.port)
            time.sleep(0.5)
            self.check("nothing comes of an idle service", follower.lines, [])
            self.check("it has made no entry", service.stats()["entries"], 0)
            follower.socket.shutdown(socket.SHUT_RDWR)
            self.check("a follower that goes ends", follower.end(), "")
            service.stop()
        finally:
            service.kill()

    def test_a_service_that_is_followed_ends_as_fast(self):
        """The least of some tries, since most of them may wait for a processor. (A look at a timer would be 60 ms.)"""
        tries = [(is_over_in(0), is_over_in(3)) for _ in range(9)]
        followed = [it for _, it in tries]
        alone, taken = min(it[0] for it, _ in tries), min(seconds for seconds, _ in followed)
        self.check("each of three followers gets the stop", all(whole for _, whole in followed))
        self.check("a service that is followed ends as fast", taken < alone + 0.03,
                   shown=f"{1000 * taken:.1f} ms, alone {1000 * alone:.1f} ms")
        print(f"      (it took {1000 * taken:.1f} ms, alone {1000 * alone:.1f} ms)")

    def test_no_more_than_64_follow_and_the_counts_and_the_stop_have_a_place(self):
        """Further ones are turned away, until one has gone. The counts and the stop have a place."""
        service = Service(CONFIGURATION)
        try:
            each = [asking(service.port, FOLLOWED) for _ in range(MOST_FOLLOWERS)]
            heads = [head_of(connection) for connection in each]
            self.check("64 follow", all(head.startswith(b"HTTP/1.1 200 ") for head in heads))
            refused = [ask(service.port, "GET", FOLLOWED, timeout=PATIENCE) for _ in range(3)]
            self.check("further ones get 503", [status for status, _, _ in refused], [503] * 3)
            self.check("and are told why", [json.loads(body) for _, _, body in refused], [TURNED_AWAY] * 3)
            self.check("who does not follow reads it", ask(service.port, "GET", "/_local/trace")[0], 200)
            self.check("the counts come", service.stats()["entries"], 0)
            each.pop().close()
            deadline = time.monotonic() + PATIENCE
            while time.monotonic() < deadline:
                each.append(asking(service.port, FOLLOWED))
                if head_of(each[-1]).startswith(b"HTTP/1.1 200 "):
                    break
                each.pop().close()
                time.sleep(0.1)
            self.check("one that goes makes room", len(each), MOST_FOLLOWERS)
            self.check("a stop ends it", ask(service.port, "POST", "/_local/stop")[0], 202)
            wait_for(service.process, PATIENCE)
            for connection in each:
                connection.close()
        finally:
            service.kill()

    def test_readers_that_do_not_read_on_hold_little(self):
        """After one large output, of bytes that are escaped, many readers that do not read on: one after the other,
        since what the heap keeps depends on how many threads make a text at once, and so on the machine's load."""
        for path in "/_local/history", "/_local/trace", FOLLOWED:
            for byte in b"\x01", b"\xff":
                service = Service(CONFIGURATION, variables=ONE_HEAP)
                try:
                    answer_large(service, byte)
                    before = resident(service.process)
                    count, each, heads = MOST_FOLLOWERS if path == FOLLOWED else READERS, [], []
                    for _ in range(count):
                        each.append(asking(service.port, path))
                        heads.append(head_of(each[-1]))
                        wait_for_rest(service.process)
                    self.check(f"each begins with {path}", all(head.startswith(b"HTTP/1.1 200 ") for head in heads))
                    held = resident(service.process) - before
                    self.check(f"readers of {path} hold little", held < count * OF_READER,
                               shown=f"{held >> 10} KiB for {count} readers")
                    print(f"      ({held // count >> 10} KiB each)")
                    for connection in each:
                        connection.close()
                finally:
                    service.kill()
