"""Checks further ports whose requests are handed over, under attack: requests that are meant to be read in two ways,
halves of requests, slow readers and writers, 1,000 connections, and a handler that dies at each point of an exchange.
Each request is answered once with its own answer, or its connection ends; then memory, threads and descriptors of the
service are back, and its history replays to its own answers. Some of it at the port of a Function URL of lambda_local
up. The program is LAMBDA_LOCAL_PROGRAM, else ./lambda_local.

Variables: HANDLED_SECONDS is how long the chaos lasts (8), HANDLED_SEED its seed (another one each time)."""
import contextlib
import http.client
import json
import os
import random
import resource
import socket
import threading
from collections import Counter
from typing import Iterator, Tuple
from unittest import mock
from urllib.parse import urlsplit

from lambda_local.exchange.client import MOST_IDLE
from lambda_local.service import RUNTIME, Service, ask, free_ports
from tests.library.cases import Case
from tests.library.chaos import state_of
from tests.library.events_kit import READY, READY_SECONDS
from tests.library.handler_chaos import Chaos, answered, cut, statuses
from tests.library.handler_kit import CONFIGURATION, PATIENCE, Handler, handler_of
from tests.library.up_kit import Up, children, command_of, until

SECONDS = float(os.environ.get("HANDLED_SECONDS", "8"))
SEED = int(os.environ.get("HANDLED_SEED") or random.randrange(1 << 32))
CONNECTIONS = 1000
MOST_GROWTH = 64 << 10  # kilobytes of the service's memory
APP = "def run(event, context): return event.get('rawPath')\n"
BEHIND = b"GET /behind HTTP/1.1\r\nHost: a\r\nConnection: close\r\n\r\n"
# What is meant to be read in two ways, and the status of its answer; another request is behind it.
ATTACKS: Tuple[Tuple[str, bytes, int], ...] = (
    ("two lengths", b"POST /a HTTP/1.1\r\nHost: a\r\nContent-Length: 3\r\nContent-Length: 0\r\n\r\n", 400),
    ("two lengths in one", b"POST /a HTTP/1.1\r\nHost: a\r\nContent-Length: 3, 0\r\n\r\n", 400),
    ("a length and chunks", b"POST /a HTTP/1.1\r\nHost: a\r\nContent-Length: 4\r\nTransfer-Encoding: chunked\r\n\r\n"
                            b"0\r\n\r\n", 400),
    ("chunks and a length", b"POST /a HTTP/1.1\r\nHost: a\r\nTransfer-Encoding: chunked\r\nContent-Length: 4\r\n\r\n"
                            b"0\r\n\r\n", 400),
    ("a coding before chunked", b"POST /a HTTP/1.1\r\nHost: a\r\nTransfer-Encoding: x, chunked\r\n\r\n0\r\n\r\n", 501),
    ("a coding twice", b"POST /a HTTP/1.1\r\nHost: a\r\nTransfer-Encoding: chunked\r\nTransfer-Encoding: chunked\r\n"
                       b"\r\n0\r\n\r\n", 400),
    ("a size that is none", b"POST /a HTTP/1.1\r\nHost: a\r\nTransfer-Encoding: chunked\r\n\r\n0x1\r\nx\r\n0\r\n\r\n",
     400),
    ("a chunk longer than its size", b"POST /a HTTP/1.1\r\nHost: a\r\nTransfer-Encoding: chunked\r\n\r\n1\r\nxy\r\n"
                                     b"0\r\n\r\n", 400),
    ("a size that is too great", b"POST /a HTTP/1.1\r\nHost: a\r\nTransfer-Encoding: chunked\r\n\r\n"
                                 b"fffffffffffffffff\r\n", 400),
    ("a folded line", b"POST /a HTTP/1.1\r\nHost: a\r\nX: a\r\n Content-Length: 9\r\n\r\n", 400),
    ("a blank before the colon", b"POST /a HTTP/1.1\r\nHost: a\r\nContent-Length : 9\r\n\r\n", 400),
    ("HTTP/1.0 in chunks", b"POST /a HTTP/1.0\r\nHost: a\r\nTransfer-Encoding: chunked\r\n\r\n0\r\n\r\n", 400),
    ("a foreign host", b"POST /a HTTP/1.1\r\nHost: evil.example\r\nContent-Length: 0\r\n\r\n", 403))


@contextlib.contextmanager
def serving() -> Iterator[Tuple[Service, int]]:
    # (a program that was built without proof has a sanitizer, which keeps what is freed)
    service = Service(CONFIGURATION, handled={"a port": 0}, variables={"ASAN_OPTIONS": "quarantine_size_mb=1"})
    try:
        yield service, service.handled["a port"]
    finally:
        service.kill()


def threads_of(pid: int) -> int:
    return len(os.listdir(f"/proc/{pid}/task"))


def port_of(up: Up) -> int:
    """That of the Function URL."""
    return urlsplit(up.told(r"its URL is (\S+)/")).port or 0


def service_of(up: Up) -> int:
    """The process of its service."""
    return next(pid for pid in children(up.process.pid) if "\0serve\0" in command_of(pid))


class HandledUnderAttack(Case):
    def take_descriptors(self) -> None:
        soft, hard = resource.getrlimit(resource.RLIMIT_NOFILE)
        if hard != resource.RLIM_INFINITY and hard < 3 * CONNECTIONS:
            self.skipTest("there are too few descriptors (ulimit -n)")
        resource.setrlimit(resource.RLIMIT_NOFILE, (max(soft, 3 * CONNECTIONS), hard))

    def test_what_can_be_read_in_two_ways_is_read_in_none(self) -> None:
        """At the port of a Function URL: one answer, and the request behind it never comes to the function."""
        up = Up(*READY, functions=[{"name": "f", "runtime": "python", "handler": "app.run", "url": True}], app=APP)
        self.check("it is ready", up.until("[up] ready", READY_SECONDS), True)
        port = port_of(up)
        for name, data, wanted in ATTACKS:
            seen = answered(port, data + BEHIND)
            self.check(name, (statuses(seen), b"/behind" in seen), ([wanted], False))
        self.check("no function has run", json.loads(up.get("/_local/stats"))["admitted"], 0)
        halves = [b"GET", b"GET /a HTTP/1.1\r\nHost: a\r\n",
                  b"POST /a HTTP/1.1\r\nHost: a\r\nContent-Length: 5\r\n\r\nab",
                  b"POST /a HTTP/1.1\r\nHost: a\r\nTransfer-Encoding: chunked\r\n\r\n5\r\nab"]
        for half in halves * 10:
            cut(port, half)
        self.check("nor for half a request", json.loads(up.get("/_local/stats"))["admitted"], 0)
        for path in (b"/behind", b"/_local/handler"):
            seen = answered(port, BEHIND.replace(b"/behind", path))
            self.check(f"{path.decode()} comes to the function", seen.endswith(b'"%b"' % path), True, shown=seen)
        self.check("it ends in order, and leaves nothing", up.end(), (0, []))

    def test_a_thousand_callers_of_a_URL_are_each_answered_once(self) -> None:
        """All of them are connected before the first asks; throttles are answers too."""
        self.take_descriptors()
        up = Up(*READY, app=APP,
                functions=[{"name": "f", "runtime": "python", "handler": "app.run", "url": True, "environments": 4}])
        self.check("it is ready", up.until("[up] ready", READY_SECONDS), True)
        service, url = service_of(up), port_of(up)
        before = state_of(service)[0], state_of(up.process.pid)[0]
        with contextlib.ExitStack() as stack:
            peers = [stack.enter_context(socket.create_connection(("127.0.0.1", url), PATIENCE))
                     for _ in range(CONNECTIONS)]
            for number, peer in enumerate(peers):
                peer.sendall(f"GET /{number} HTTP/1.1\r\nHost: a\r\nConnection: close\r\n\r\n".encode())
            seen = [b"".join(iter(lambda: peer.recv(4096), b"")) for peer in peers]
        counts = Counter(tuple(statuses(data)) for data in seen)
        self.check("each has one answer", set(counts) <= {(200,), (429,)}, True, shown=counts)
        self.check("and its own", [number for number, data in enumerate(seen)
                                   if b" 200 " in data and not data.endswith(f'"/{number}"'.encode())], [])
        # (but for connections that `up` keeps, of which each takes the service three)
        self.check("descriptors are back", until(
            lambda: (state_of(service)[0] <= before[0] + 3 * MOST_IDLE
                     and state_of(up.process.pid)[0] <= before[1] + MOST_IDLE), PATIENCE), True,
            shown=(before, state_of(service)[0], state_of(up.process.pid)[0]))
        self.check("another is answered", answered(url, BEHIND).endswith(b'"/behind"'))
        self.check("it ends in order, and leaves nothing", up.end(), (0, []))

    def test_a_free_port_that_is_taken_meanwhile_is_tried_again(self) -> None:
        """Between looking and listening another program can take it."""
        with socket.create_server(("127.0.0.1", 0)) as other:
            looks = iter([lambda count: [*free_ports(count - 1, ()), other.getsockname()[1]]])
            with mock.patch("lambda_local.service.free_ports", side_effect=lambda count, taken: next(
                    looks, lambda _: free_ports(count, taken))(count)) as looked, serving() as (_, port):
                self.check("it looks twice", looked.call_count, 2)
                self.check("and has another", port != other.getsockname()[1])
                self.check("which answers", ask(port, "GET", "/", timeout=PATIENCE)[0], 503)

    def test_a_stream_passes_before_its_end(self) -> None:
        """The first piece is with its requester before the handler has the second, over a further port."""
        with serving() as (service, port):
            handler = handler_of(service)
            handler.ask()
            with socket.create_connection(("127.0.0.1", port), PATIENCE) as peer:
                peer.sendall(BEHIND)
                head, _ = handler.taken()
                handler.begin(head)
                for piece in (b"first", b"second", b"third"):
                    handler.chunk(piece)
                    came = b""
                    while piece not in came and (part := peer.recv(4096)):
                        came += part
                    self.check(f"{piece.decode()} comes before the next is made", piece in came)
                self.check("and the end", (handler.end(), peer.recv(4096)), ((202, ""), b"0\r\n\r\n"))
            handler.close()

    def test_a_thousand_connections_are_each_answered_once(self) -> None:
        self.take_descriptors()
        with serving() as (service, port):
            before = state_of(service.process.pid)[0], threads_of(service.process.pid)
            handlers = [Handler(service) for _ in range(4)]
            peers = []

            def answer_all(handler: Handler) -> None:
                with contextlib.suppress(OSError, http.client.HTTPException), contextlib.closing(handler):
                    while True:
                        head, _ = handler.next()
                        handler.answer(head, head["target"].encode())
            working = [threading.Thread(target=answer_all, args=(one,), daemon=True) for one in handlers]
            for thread in working:
                thread.start()
            self.check("a handler is here", until(lambda: ask(port, "GET", "/x", timeout=PATIENCE)[0] == 200, PATIENCE))
            for _ in range(CONNECTIONS):
                peers.append(socket.create_connection(("127.0.0.1", port), PATIENCE))
            for turn in range(3):
                for number, peer in enumerate(peers):
                    peer.sendall(f"GET /{number}/{turn} HTTP/1.1\r\nHost: a\r\n\r\n".encode())
                wrong = []
                for number, peer in enumerate(peers):
                    seen = b""
                    while not seen.endswith(f"/{number}/{turn}".encode()) and (part := peer.recv(4096)):
                        seen += part
                    if statuses(seen) != [200]:
                        wrong.append((number, seen[:80]))
                self.check(f"turn {turn}: each of {CONNECTIONS} has its own answer, once", wrong, [])
            for peer in peers:
                peer.close()
            for handler in handlers:
                handler.connection.sock.shutdown(socket.SHUT_RDWR)  # (on which a thread waits)
            for thread in working:
                thread.join(PATIENCE)
            pid = service.process.pid
            self.check("descriptors and threads are back", until(
                lambda: (state_of(pid)[0], threads_of(pid)) <= before, PATIENCE), True,
                shown=(before, state_of(pid)[0], threads_of(pid)))

    def test_whatever_handlers_and_requesters_do_each_request_has_one_answer_at_most(self) -> None:
        with serving() as (service, port):
            runtime = threading.Thread(target=serve_runtime, args=(service,), daemon=True)
            runtime.start()
            pid = service.process.pid
            Chaos(service, port, 1, SEED).run()  # (what memory it takes once is there)
            descriptors, memory = state_of(pid)
            threads = threads_of(pid)
            chaos = Chaos(service, port, SECONDS, SEED + 1)
            chaos.run()
            print(f"     {chaos.number} requests in {SECONDS:g} s, seed {SEED}: {dict(chaos.outcomes)}", flush=True)
            self.check("what is wrong", chaos.wrong[:5], [])
            self.check("most have their own answer", chaos.outcomes["its own"] > chaos.number / 4, True)
            self.check("descriptors and threads are back", until(lambda: state_of(pid)[0] <= descriptors
                                                                 and threads_of(pid) <= threads, PATIENCE), True,
                       shown=(descriptors, threads, state_of(pid), threads_of(pid)))
            self.check("memory is", state_of(pid)[1] < memory + MOST_GROWTH, True, shown=(memory, state_of(pid)[1]))
            self.check("the history replays to its own answers", service.replays(service.history()), True)
            self.check("it ends in order", service.stop()[0], 0)


def serve_runtime(service: Service) -> None:
    """Answers the invocations, until the service ends."""
    port = service.configuration["functions"][0]["ports"][0]
    with contextlib.suppress(OSError):
        while True:
            _, fields, event = ask(port, "GET", f"{RUNTIME}invocation/next", timeout=PATIENCE + SECONDS)
            identifier = fields.get("lambda-runtime-aws-request-id")  # (none once it ends)
            ask(port, "POST", f"{RUNTIME}invocation/{identifier}/response", event)
