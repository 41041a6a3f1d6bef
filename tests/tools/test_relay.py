"""Checks the relay of lambda_local up, which stands before environments whose runtimes do not mark what they print:
what passes and what is heard of it without processes, and then by real ones. The program is LAMBDA_LOCAL_PROGRAM, else
./lambda_local."""
import asyncio
import json
import os
import random
import signal
import socket
import sys
import threading
import time
from typing import Any, Dict, List
from unittest import mock

from lambda_local.service import free_listener
from lambda_local.telemetry import relay, relay_process
from lambda_local.telemetry.conversation import Conversation, Ears
from lambda_local.telemetry.proxy import Proxy
from lambda_local.telemetry.quick import Quick
from lambda_local.telemetry.refusals import Refusals
from lambda_local.telemetry.relay_process import Marking, Pipe
from lambda_local.up.passing import MOST_HELD, Passing
from tests.library import http_mutants
from tests.library.cases import Case
from tests.library.events_kit import READY_SECONDS
from tests.library.up_kit import RUNTIME, Up, children, command_of, lives, until
from tests.tools.test_invocation_log import parts, tail_of

SEED, MUTANTS = 20261129, 3000
IDENTIFIERS = [f"01a228d3-ff4a-8000-8001-{number:012d}" for number in range(1, 10)]
OK = b'{"status":"OK"}\n'
LATE = b'{"errorMessage":"Not allowed in the current phase","errorType":"InvalidStateTransition"}'
ADDRESS = "import os\ndef run(event, context):\n    return os.environ['AWS_LAMBDA_RUNTIME_API']\n"
SLOW = "import time\n" + ADDRESS.replace("return", "time.sleep(event.get('for', 0)); print('said'); return")
WRONG_ROUTE = '''#!{python}
import http.client, os, sys
api = http.client.HTTPConnection(os.environ["AWS_LAMBDA_RUNTIME_API"])
api.request("GET", "/2018-06-01/runtime/next")
sys.exit(api.getresponse().status != 200)
'''
# It answers twice, and asks for something that is not there.
TWICE = '''#!{python}
import http.client, os
api = http.client.HTTPConnection(os.environ["AWS_LAMBDA_RUNTIME_API"])
def ask(method, path, body=None):
    api.request(method, "/2018-06-01/runtime/" + path, body)
    answer = api.getresponse()
    return answer.headers["Lambda-Runtime-Aws-Request-Id"], answer.read()
while True:
    identifier, event = ask("GET", "invocation/next")
    print("got", event.decode(), flush=True)
    for _ in range(2): ask("POST", f"invocation/{{identifier}}/response", event)
    ask("GET", "nothing")
'''


class Telling(relay_process.Relay):
    """What stands for the relay: its pipes have no processes."""

    def __init__(self):
        self.taken = 0

    def take_all(self):
        self.taken += 1


class Heard(Marking):
    def __init__(self, lines):
        super().__init__(Telling(), Refusals(lines.append))
        self.lines, self.delivered = lines, []

    def given(self, identifier):
        if identifier != self.current:
            self.delivered.append(identifier)
        return super().given(identifier)


def passed(pieces, is_quick):
    """What goes to the service and to the client of pieces from both, each with whether it is the client's, and what
    was heard."""
    ears, service, client = Heard([]), b"", b""
    talk = Conversation(ears)
    quick = Quick(ears, talk) if is_quick else None
    for is_client, data in pieces:
        if quick and (quick.client_sent if is_client else quick.service_sent)(data):
            service, client = service + data * is_client, client + data * (not is_client)
        else:
            (talk.client_sent if is_client else talk.service_sent)(data)
        service, client = service + bytes(talk.to_service), client + bytes(talk.to_client)
        talk.to_service.clear()
        talk.to_client.clear()
    return service, client, ears.delivered, ears.lines


def head(line, *fields):
    return "\r\n".join([line, *fields, "", ""]).encode()


def exchanges(chosen, number):
    """A request of a runtime and its answer, of one form or another."""
    identifier, host = IDENTIFIERS[number], chosen.choice(["Host: a", "host:127.0.0.1:9001", "Host: a\r\nA: b"])
    kind = chosen.choice(["next", "next", "response", "chunks", "late", "other", "extension", "closed"])
    if kind in ("next", "closed"):
        given = head("HTTP/1.1 200 OK", f"Lambda-Runtime-Aws-Request-Id: {identifier}", "content-length: 3") + b"[1]"
        fields = [host, *(["Connection: close"] if kind == "closed" else []),
                  *(["Connection: keep-alive"] if chosen.random() < 0.3 else [])]
        return head("GET /2018-06-01/runtime/invocation/next HTTP/1.1", *fields), given
    if kind == "other":
        missing = head("HTTP/1.1 404 Not Found", "content-length: 2") + b"{}"
        return head("GET /2018-06-01/runtime/next HTTP/1.1", host), missing
    if kind == "extension":
        event = json.dumps({"eventType": "INVOKE", "requestId": identifier}).encode()
        return (head("GET /2020-01-01/extension/event/next HTTP/1.1", host),
                head("HTTP/1.1 200 OK", f"content-length: {len(event)}") + event)
    route, body = f"POST /2018-06-01/runtime/invocation/{identifier}/response HTTP/1.1", bytes(chosen.randrange(50))
    answer = (head("HTTP/1.1 403 Forbidden", f"content-length: {len(LATE)}") + LATE if kind == "late"
              else head("HTTP/1.1 202 Accepted", f"content-length: {len(OK)}") + OK)
    if kind == "chunks":
        return head(route, host, "Transfer-Encoding: chunked") + b"3\r\nabc\r\n0\r\n\r\n", answer
    return head(route, host, f"Content-Length: {len(body)}") + body, answer


def cut(chosen, data, is_client):
    """The same in pieces."""
    if chosen.random() < 0.5:
        return [(is_client, data)]
    places = sorted(chosen.sample(range(1, len(data)), chosen.choice([1, 1, 2])))
    return [(is_client, data[begin:end]) for begin, end in zip([0, *places], [*places, len(data)])]


class Relay(Case):
    def test_what_it_does_not_read_is_heard_as_the_strict_reader_hears_it(self):
        """What it does not read is heard as the strict reader hears it, in whatever pieces it comes."""
        chosen, wrong = random.Random(SEED), []
        for _ in range(MUTANTS):
            pieces = []
            for number in range(chosen.choice([1, 3, 6])):
                request, answer = exchanges(chosen, number)
                pieces += [*cut(chosen, request, True), *cut(chosen, answer, False)]
            if chosen.random() < 0.2:
                pieces += [(True, http_mutants.mutant(chosen)),
                           (False, head("HTTP/1.1 400 No", "content-length: 0"))]
            if chosen.random() < 0.2:
                pieces.insert(chosen.randrange(len(pieces)), (chosen.random() < 0.5, b"\0\xff\r\n"))
            quick, strict = passed(pieces, True), passed(pieces, False)
            sent = tuple(b"".join(data for side, data in pieces if side is of) for of in (True, False))
            if quick != strict or quick[:2] != sent and not quick[0].startswith(b"PU"):
                wrong.append((pieces, quick, strict))
        self.check(f"{MUTANTS} conversations pass byte for byte, and are heard alike", wrong[:1], [])
        request, answer = exchanges(random.Random(1), 0)
        self.check("the plain form is not read at all", Quick(Heard([]), Conversation(Heard([]))).client_sent(
            head("GET /2018-06-01/runtime/invocation/next HTTP/1.1", "Host: a")))

    def test_an_invocation_goes_on_once_each_pipe_has_its_mark(self):
        """An invocation goes on once each pipe has its mark, and that has waited for room."""
        async def tried():
            relay, loop = Telling(), asyncio.get_running_loop()
            ears = Marking(relay, Refusals(lambda _: None))
            ends = [os.pipe(), os.pipe()]
            for number, (_, writing) in enumerate(ends):
                os.set_blocking(writing, False)
                ears.pipes[number] = Pipe(writing, b"\0m")
            at_once = ears.given(IDENTIFIERS[0])
            first = [os.read(reading, 100) for reading, _ in ends]
            again = ears.given(IDENTIFIERS[0])
            while True:
                try:
                    os.write(ends[0][1], bytes(4096))
                except BlockingIOError:
                    break
            waits, also = ears.given(IDENTIFIERS[1]), ears.given(IDENTIFIERS[1])
            assert waits is not None and also is not None
            done, _ = await asyncio.wait([asyncio.ensure_future(waits)], timeout=0.1)
            loop.call_later(0.05, os.read, ends[0][0], 1 << 20)
            await asyncio.wait_for(also, 10)
            ears.pipes[1].close()
            seen = os.read(ends[0][0], 1 << 20)[-39:], os.read(ends[1][0], 100)
            return at_once, first, again, done, seen, os.read(ends[1][0], 1)
        at_once, first, again, done, seen, end = asyncio.run(tried())
        mark = [b"\0m" + identifier.encode() + b"\n" for identifier in IDENTIFIERS[:2]]
        self.check("with room nobody waits", (at_once, again), (None, None))
        self.check("each pipe has the mark once", first, [mark[0]] * 2)
        self.check("a pipe without room is waited for", len(done), 0)
        self.check("then it has its mark", seen, (mark[1], mark[1]))
        self.check("a process that has ended has an end", end, b"")

    def test_lines_of_several_processes_are_divided_as_one_by_passing_marks(self):
        """Lines of several processes are divided as one, however far each has been read."""
        seen: List[Any] = []
        passing = Passing(lambda name, text: seen.append(text), lambda identifier: seen.append((identifier, )))

        def come(name, *items):
            for item in items:
                passing.passes(name, item[0]) if isinstance(item, tuple) else passing.take(name, item)
            found = seen[:]
            seen.clear()
            return found
        for name in "xy":
            passing.add(name)
        self.check("who comes to a mark first waits", come("x", "init", ("a", ), "x of a", ("b", ), "x of b"), ["init"])
        self.check("for the other", come("y", "y of init", ("a", ), "y of a"),
                   ["y of init", ("a", ), "x of a", "y of a"])
        self.check("at each mark", come("y", ("b", ), "y of b"), [("b", ), "x of b", "y of b"])
        self.check("then neither does", come("x", "x again") + come("y", "y again"), ["x again", "y again"])
        come("y", ("c", ), "y of c", ("d", ), "y of d")
        passing.remove("x")
        self.check("one that has ended is not waited for", come("y"), [("c", ), "y of c", ("d", ), "y of d"])
        passing.add("x")
        self.check("nor is one with more than may be held", come("y", ("e", ), "e" * MOST_HELD, "more"),
                   [("e", ), "e" * MOST_HELD, "more"])
        self.check("which comes to its mark later", come("x", "x of d", ("e", ), "x of e"), ["x of d", "x of e"])
        self.check("and waits again", come("x", ("f", ), "x of f") + come("y", "y of e", ("f", )),
                   ["y of e", ("f", ), "x of f"])
        come("x", ("g", ), "x of g")
        passing.remove("x")
        self.check("what one that ends has printed is not lost", come("y", ("g", ), "y of g"),
                   [("g", ), "x of g", "y of g"])
        chosen, wrong = random.Random(SEED), []
        for _ in range(300):
            wrong += self.of_some(chosen)
        self.check("each line is on its side of each mark", wrong[:1], [])

    @staticmethod
    def of_some(chosen):
        """What is wrong with the lines of some processes that are read in any order."""
        names, now, wrong = "xyz"[:chosen.choice([1, 2, 3])], [""], []

        def take(name, text):
            if text != now[0]:
                wrong.append((name, text, now[0]))
        passing = Passing(take, lambda identifier: now.__setitem__(0, identifier))
        left = {}
        for name in names:
            passing.add(name)
            left[name] = [item for number in range(6) for item in (
                [(str(number), )] + [str(number)] * chosen.choice([0, 1, 3]))]
        while any(left.values()):
            name = chosen.choice([name for name in names if left[name]])
            item = left[name].pop(0)
            passing.passes(name, item[0]) if isinstance(item, tuple) else passing.take(name, item)
        return wrong + ([(now, passing.held)] if now[0] != "5" or any(passing.held.values()) else [])

    def test_a_full_proxy_closes_a_newcomer_and_says_so_once(self):
        """A proxy whose connections all wait for answers closes a newcomer, and says so once."""
        async def come(count):
            lines: List[str] = []
            service = await asyncio.start_server(lambda *_: None, "127.0.0.1", 0)
            proxy = Proxy(free_listener("a proxy", "up.json"), service.sockets[0].getsockname()[1], Ears(),
                          lines.append, most=2)
            await proxy.start()
            readers, closed = [], 0
            for _ in range(count):
                reader, writer = await asyncio.open_connection(*proxy.address)
                writer.write(b"GET /2018-06-01/runtime/invocation/next HTTP/1.1\r\nHost: a\r\n\r\n")
                readers.append((reader, writer))
                await asyncio.sleep(0.2)
            for reader, _ in readers:
                try:
                    closed += await asyncio.wait_for(reader.read(1), 0.2) == b""
                except ConnectionError:
                    closed += 1
                except asyncio.TimeoutError:
                    pass
            await proxy.stop()
            service.close()
            return closed, lines
        closed, lines = asyncio.run(come(4))
        self.check("two of four are closed, and one line says so", (closed, lines),
                   (2, ["a connection of its processes is closed at once: 2 others, which are the most, wait for "
                        "answers"]))

    def test_one_that_hangs_is_waited_for_a_while_and_no_longer(self):
        """Whoever has a message for a relay that takes none waits for a while, and no longer."""
        with mock.patch.object(relay, "SEND_SECONDS", 1):
            one = relay.Relay(lambda *_: None, lambda: None, lambda *_: None)
        os.kill(one.process.pid, signal.SIGSTOP)
        reading, writing = os.pipe()
        faults = []

        def send():
            try:
                while True:
                    one.prints(1, writing, "mark")
            except OSError as fault:
                faults.append(fault)
        sender = threading.Thread(target=send, daemon=True)
        sender.start()
        sender.join(30)
        self.check("it ends by a fault", len(faults), 1)
        one.process.kill()
        one.end()
        os.close(reading)
        os.close(writing)

    def test_only_what_is_to_be_divided_or_told_has_a_relay(self):
        """Only what is to be divided, or told, has something before it."""
        command: Dict[str, Any] = {"name": "f", "command": RUNTIME}
        function: Any
        for what, function, options, is_there in (
                ("a command", {}, (), False), ("with exact logs", {"logs": "exact"}, (), True),
                ("with --report", {}, ("--report", ), True)):
            up = Up(*options, functions=[{**command, **function}], app=ADDRESS)
            up.until("[up] ready")
            port = json.loads(up.history().splitlines()[1])["functions"][0]["ports"][0]
            self.check(f"{what} is behind the relay", up.invoke()[0] != f"127.0.0.1:{port}", is_there)
            self.check(f"{what}: nothing is left", up.end(), (0, []))
        up = Up(functions=[{**command, "logs": "all"}])
        told = 'function f: logs must be "exact", or is left out, not "all"'
        self.check("another value is refused", (up.process.wait(60), up.until(told)), (2, True))

    def test_what_is_refused_is_told_by_the_relay(self):
        """The history and the service's log have some of it; the relay tells all, and stands before a function that has
        failed."""
        files = {"twice": TWICE.format(python=sys.executable), "wrong": WRONG_ROUTE.format(python=sys.executable)}
        over = "its invocation is over, by an answer or by its timeout"
        logs: Any
        for logs in ({}, {"logs": "exact"}):
            up = Up(functions=[{"name": "f", "command": ["./twice"], **logs}], files=files)
            up.until("[up] ready")
            up.invoke()
            self.check("a second answer is told", up.until(f"/response: 403, {over}"))
            up.invoke()
            up.end()
            self.check("a route that is not there is told, by the relay or the service's log", up.has(
                "/nothing: 404, there is no such route"))
        up = Up(functions=[{"name": "f", "command": ["./wrong"]}], files=files)
        self.check("after an early end the relay tells it too", until(lambda: up.count(
            r"GET /2018-06-01/runtime/next: 404, there is no such route: did you mean") == 2, READY_SECONDS))
        self.check("nothing is left", up.end()[1], [])

    def test_lines_of_the_relay_that_are_taken_late_all_come(self):
        """More than a socket has room for (some hundreds), and a tool that reads them once it has said that it ends."""
        tool, its = socket.socketpair(socket.AF_UNIX, socket.SOCK_SEQPACKET)

        async def told():
            relay = relay_process.Relay(its)
            running = asyncio.get_running_loop().create_task(relay.run())
            for number in range(900):
                relay.tell(1, "refused", f"line {number}")
                await asyncio.sleep(0)
            tool.shutdown(socket.SHUT_WR)
            await running
        telling = threading.Thread(target=lambda: asyncio.run(told()))
        telling.start()
        time.sleep(0.3)
        seen = []
        while data := tool.recv(relay_process.LONGEST_MESSAGE):
            seen.append(json.loads(data)["text"])
        telling.join()
        self.check("all lines, in their order", (len(seen), seen == [f"line {number}" for number in range(900)]),
                   (900, True))
        tool.close()

    def test_a_first_tail_restarts_idle_environments_once(self):
        """A caller who wants the log has idle environments started again, once; one that is busy is left."""
        up = Up(functions=[{"name": "f", "command": RUNTIME, "environments": 2, "timeout": 20}], app=SLOW)
        up.until("[up] ready")
        told = "restarting f: a caller wants the log of an invocation"
        self.check("as long as nobody does, nothing is restarted", (up.invoke()[0] != "", up.has(told)), (True, False))
        busy = threading.Thread(target=up.invoke, kwargs={"for": 6})
        busy.start()
        until(lambda: json.loads(up.get("/_local/stats"))["inFlight"] == 1, 5)
        begun = time.monotonic()
        tail = up.get("/2015-03-31/functions/f/invocations", b"{}")
        seen = parts(tail_of(up))[0]
        self.check("the log has what was printed", (seen, bool(tail)), (["said"], True))
        self.check("the busy one was not waited for", time.monotonic() - begun < 5.5)
        busy.join()
        self.check("each later one too", [parts(tail_of(up))[0] for _ in range(4)], [["said"]] * 4)
        self.check("it was told once", up.count(told), 1)
        self.check("nothing is left", up.end(), (0, []))

    def test_a_further_environment_ends_for_a_log_and_nobody_waits(self):
        """One that was started for parallel callers ends for a log, and nobody waits until it is wanted again."""
        up = Up(functions=[{"name": "f", "command": RUNTIME, "environments": {"min": 1, "max": 3}, "timeout": 20}],
                app=SLOW)
        up.until("[up] ready")
        together = [threading.Thread(target=up.invoke, kwargs={"for": 1}) for _ in range(2)]
        for each in together:
            each.start()
        for each in together:
            each.join()
        self.check("two are started", up.count("starting: all other environments are busy"), 1)
        begun = time.monotonic()
        self.check("the log has what was printed", parts(tail_of(up))[0], ["said"])
        self.check("the other one was not waited for", time.monotonic() - begun < 9)
        self.check("nothing is left", up.end(), (0, []))

    def test_nothing_goes_on_without_the_relay_and_it_ends_with_up(self):
        """Without it nothing goes on; without lambda_local up it ends."""
        for dies in (False, True):
            up = Up(functions=[{"name": "f", "command": RUNTIME, "logs": "exact"}], app=ADDRESS)
            up.until("[up] ready")
            (relay, ) = [pid for pid in children(up.process.pid) if "relay_process" in command_of(pid)]
            os.kill(up.process.pid if dies else relay, signal.SIGKILL)
            if dies:
                self.check("it ends with lambda_local up", until(lambda: not lives(relay), 20))
            else:
                self.check("lambda_local up ends in order", (up.process.wait(60), up.until("its relay has ended")),
                           (70, True))
            self.check("nothing is left", up.end()[1], [])
