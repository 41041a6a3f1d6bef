"""Checks the handler of what the service hands over: how it reads a request, and what is none; what it posts; that it
goes on after each fault of the service, tells it, and holds a bounded number of connections; and that what it answers
in the service's words is what the service says without it. The program is LAMBDA_LOCAL_PROGRAM, else ./lambda_local."""
import asyncio
import contextlib
import json
import socket
import threading
import time
from typing import Any, AsyncIterator, Dict, Iterator, List, Tuple

from lambda_local.front import handler as handlers
from lambda_local.front.descriptors import MOST
from lambda_local.front.handed import NotHanded, handed_of
from lambda_local.front.handler import Handler
from lambda_local.front.http import Reply, Request
from lambda_local.service import Service, ask
from tests.library.cases import Case
from tests.library.events_kit import READY, Caller, caller_of, invoke_path
from tests.library.failing_service import answer
from tests.library.hostile_service import Deaf, Hostile
from tests.library.up_kit import Up, until

PATIENCE = 60  # seconds, on a machine that does much else
HEAD = {"id": 7, "port": 9100, "method": "POST", "target": "/a/b?c=d", "headers": [["host", "a"], ["x", "\xe9"]]}
CONFIGURATION = {"account": "123456789012", "region": "us-east-1", "functions": [{"name": "f", "ports": [0]}]}
MUCH = 6 << 20  # bytes of an answer: more than the system holds for one that reads nothing
NO_LOG: Any = lambda *_, **__: None


def line_of(**members: object) -> bytes:
    return json.dumps({**HEAD, **members}).encode() + b"\n"


BAD_IDS: Tuple[Any, ...] = (-1, 2 ** 64, "7", 7.0, True, None)
BAD_HEADERS: Tuple[Any, ...] = (None, {}, "a", [None], [["a"]], [["a", "b", "c"]], [["a", 1]], [["a b", "c"]],
                                [["", "c"]], [["a", "b\r\nc: d"]], [["a", "\u20ac"]])
# What is none, and a word of why.
WRONG: Tuple[Tuple[bytes, str], ...] = (
    (b"", "no end"), (line_of()[:-1], "no end"), (b"\n", "its line"), (b"{}\n", "other members"), (b"[]\n", "members"),
    (b"\xff\n", "its line"), (b"[" * 9000 + b"\n", "its line"), (line_of(more=1), "members"),
    *((line_of(id=one), "id") for one in BAD_IDS),
    *((line_of(port=one), "port") for one in (-1, 65536, "9100", None)),
    *((line_of(method=one), "method") for one in ("", "a b", "a\r\nb", 7, None)),
    *((line_of(target=one), "target") for one in ("a b", "/a b", "/\r\nX: y", "/\0", "//a/\ud800", 7, None, "/a<b")),
    *((line_of(headers=one), "headers") for one in BAD_HEADERS))


class Running:
    """A handler of a service, in a loop of its own."""

    def __init__(self, port: int, reply: Any, *further: int, most: int = MOST) -> None:
        """`reply` answers at the service's port, and at further ones."""
        self.told: List[str] = []
        self.loop, self.ready = asyncio.new_event_loop(), threading.Event()
        log: Any = lambda _who, text, **_: self.told.append(text)
        self.handler = Handler(port, dict.fromkeys([port, 9100, *further], reply), log, most)
        self.thread = threading.Thread(target=self.run, daemon=True)
        self.thread.start()
        self.handler.is_known.wait(PATIENCE)

    def run(self) -> None:
        self.loop.run_until_complete(self.handler.start())
        self.loop.run_forever()
        self.loop.run_until_complete(self.handler.stop())
        self.loop.close()

    def __enter__(self) -> "Running":
        return self

    def __exit__(self, *_: object) -> None:
        self.loop.call_soon_threadsafe(self.loop.stop)
        self.thread.join(PATIENCE)


async def ok(_request: Request) -> Reply:
    return Reply(200, [("x-one", "1"), ("Connection", "close"), ("content-length", "9")], b"ok")


class Slow:
    """A body of pieces, which counts how often it is closed."""

    def __init__(self, pieces: List[bytes], seconds: float, fault: Any = None) -> None:
        self.pieces, self.seconds, self.fault, self.closed = pieces, seconds, fault, 0

    async def __aiter__(self) -> AsyncIterator[bytes]:
        for piece in self.pieces:
            yield piece
            await asyncio.sleep(self.seconds)
        if self.fault:
            raise self.fault

    async def aclose(self) -> None:
        self.closed += 1


@contextlib.contextmanager
def real() -> Iterator[Service]:
    service = Service(CONFIGURATION)
    try:
        yield service
    finally:
        service.kill()


def plain(given: Tuple[int, Dict[str, str], bytes]) -> Tuple[int, Dict[str, str], bytes]:
    return given[0], {name: value for name, value in given[1].items() if name != "date"}, given[2]


class FrontHandler(Case):
    def test_a_request_is_read_as_it_was_sent(self) -> None:
        handed = handed_of(line_of() + b"\n\0body")
        request = handed.request
        self.check("its number and its port", (handed.number, handed.port), (7, 9100))
        self.check("its head", (request.method, request.target, request.path, request.query, request.headers),
                   ("POST", "/a/b?c=d", "/a/b", "c=d", [("host", "a"), ("x", "\xe9")]))
        self.check("its body, byte for byte", request.body(6), b"\n\0body")
        self.check("a target beyond ASCII", handed_of(line_of(target="/\xe9")).request.path, "/\xc3\xa9")
        self.check("that of a tunnel", handed_of(line_of(target="", method="CONNECT")).request.path, "")
        self.check("any", handed_of(line_of(target="*", method="OPTIONS")).request.path, "*")

    def test_what_is_none_is_refused_with_its_reason(self) -> None:
        for given, word in WRONG:
            try:
                seen = str(handed_of(given))
            except NotHanded as fault:
                seen = f"refused: {fault}"
            self.check(f"{given[:70]!r} is refused", (seen.startswith("refused: "), word in seen), (True, True),
                       shown=seen)

    def test_it_goes_on_after_each_fault_of_the_service_and_tells_it(self) -> None:
        self.addCleanup(setattr, handlers, "BODY_SECONDS", handlers.BODY_SECONDS)
        request, taken = answer(200, line_of() + b"body"), answer(202, b"")
        over = answer(409, b'{"errorMessage":"It is over","errorType":"RequestIsOver"}')
        wrong = answer(400, b'{"errorMessage":"A field is none","errorType":"InvalidResponse"}')
        for name, given, said, wanted in (
                ("is well", request, taken, None), ("whose requester has gone", request, over, None),
                ("that refuses the answer", request, wrong, "A field is none"),
                ("that refuses it without words", request, answer(413, b""), "413"),
                ("that closes before the answer", request, b"", "has closed the connection"),
                ("that answers no HTTP", request, b"hello\r\n\r\n", "has closed the connection"),
                ("that gives no request", answer(200, b"{}\n"), b"", "what is no request"),
                ("that gives no HTTP", b"hello\r\n\r\n", b"", None),
                ("that refuses to give one", answer(404, b"gone"), b"", "it answers 404 gone"),
                ("that breaks off", request[:-2], b"", None)):
            service = Hostile((given, said), (request, taken))
            handlers.BODY_SECONDS = 1.0
            with Running(service.port, ok) as running:
                self.check(f"a service {name}: the next request is answered", until(
                    lambda: sum(b"/7/response" in post for post in service.posts) >= 1 + (given == request), 30), True)
                until(lambda: running.told or not wanted, 10)
                self.check("what is told", [wanted in line for line in running.told] if wanted else running.told,
                           [True] if wanted else [])
            service.close()

    def test_the_next_request_is_asked_for_with_the_answer(self) -> None:
        """A short one. If the service refuses that, nothing more is posted there: its connection ends."""
        request, other = answer(200, line_of() + b"body"), answer(200, line_of(id=8))
        next_one = b"POST /_local/requests/8/response"
        asked = b"okGET /_local/requests/next HTTP/1.1\r\n"
        for name, said, posted in (("that is taken", answer(202, b""), next_one),
                                   ("whose requester has gone", answer(409, b"{}"), next_one),
                                   ("that is refused", answer(400, b"{}"), b"")):
            service = Hostile((request, said + other))
            service.reads = 2
            with Running(service.port, ok) as running:
                self.check(f"an answer {name}", until(lambda: len(service.posts) > 2, 30))
                self.check(f"{name}: it asks in the same breath", service.posts[1][:len(asked)], asked)
                self.check(f"{name}: what follows", service.posts[2][:max(1, len(posted))], posted)
                self.check(f"{name}: no error is posted", b"/error" in b"".join(service.posts), False)
                self.check(f"{name}: what is told", len(running.told), int(not posted))
            service.close()

    def test_answers_that_are_not_taken_leave_one_that_asks(self) -> None:
        """Each has asked for the next request with its answer, and none of these is read."""
        service = Deaf(*[(answer(200, line_of(id=number)), b"") for number in range(12)])
        with Running(service.port, ok):
            self.check("each further request is taken", until(lambda: not service.deeds, 30), True)
        service.close()

    def test_the_end_of_the_service_is_the_end(self) -> None:
        service = Hostile((answer(503, b'{"errorMessage":"The service has ended","errorType":"ServiceEnded"}'), b""))
        with Running(service.port, ok) as running:
            self.check("it asks no more", until(lambda: not running.handler.tasks, 10))
            self.check("nothing is told", running.told, [])
        service.close()

    def test_an_answer_is_posted_with_the_fields_that_are_its_own(self) -> None:
        service = Hostile((answer(200, line_of()), answer(202, b"")))
        with Running(service.port, ok):
            self.check("it is posted", until(lambda: service.posts, 10))
            self.check("its fields", sorted(service.posts[0].split(b"\r\n")[2:-1]), [
                b"Content-Length: 2", b"Lambda-Local-Header: x-one: 1", b"Lambda-Local-Status: 200"])
        service.close()

    def test_a_fault_of_an_answer_is_a_500_or_a_502_and_told(self) -> None:
        async def reply(request: Request) -> Reply:
            if request.path == "/raises":
                raise KeyError("missing")
            if request.path == "/breaks":
                return Reply(200, pieces=Slow([b"one"], 0, KeyError("missing")))
            return Reply(200, [("x", "a\r\nb")])
        with real() as service, Running(service.port, reply) as running:
            said = ask(service.port, "GET", "/raises", timeout=PATIENCE)
            self.check("one that raises", (said[0], said[1]["x-amzn-errortype"]), (500, "ServiceException"))
            self.check("one that cannot be written", ask(service.port, "GET", "/unwritable", timeout=PATIENCE)[0], 502)
            with contextlib.suppress(Exception):
                seen = ask(service.port, "GET", "/breaks", timeout=PATIENCE)
                self.check("one that breaks off is not taken for whole", seen[0], 502)
            self.check("each is told", [any(word in line for line in running.told) for word in
                                        ("GET /raises cannot be answered: KeyError", "GET /unwritable gets 502",
                                         "an answer breaks off: KeyError")], [True] * 3, shown=running.told)
            self.check("and all goes on", ask(service.port, "GET", "/raises", timeout=PATIENCE)[0], 500)

    def test_an_answer_with_more_fields_than_may_be_is_a_502_and_told(self) -> None:
        """The service ends the connection on which it is posted, and all goes on with others."""
        async def reply(request: Request) -> Reply:
            return Reply(200, [("x", "y" * int(request.query or "1"))] * int(request.path[1:]), b"ok")
        with real() as service, Running(service.port, reply) as running:
            for path, wanted in (("/97", 200), ("/98", 502), ("/3", 200), ("/70?1000", 502), ("/4?1000", 200)):
                self.check(path, ask(service.port, "GET", path, timeout=PATIENCE)[0], wanted)
            self.check("each is told", [line.partition(": ")[0] for line in running.told],
                       ["GET /98 gets 502", "GET /70 gets 502"], shown=running.told)

    def test_what_takes_long_holds_nothing_up_and_few_connections_stay(self) -> None:
        gate: "List[asyncio.Event]" = []

        async def reply(request: Request) -> Reply:
            if request.path == "/long":
                gate.append(asyncio.Event())
                await gate[-1].wait()
            return Reply(200)
        with real() as service, Running(service.port, reply) as running:
            long = [threading.Thread(target=ask, args=(service.port, "GET", "/long"), kwargs={"timeout": PATIENCE})
                    for _ in range(40)]
            for thread in long:
                thread.start()
            self.check("40 are at work", until(lambda: len(gate) == 40, 30))
            self.check("another is answered", ask(service.port, "GET", "/short", timeout=PATIENCE)[0], 200)
            running.handler.most = 40
            for one in gate:
                running.loop.call_soon_threadsafe(one.set)
            for thread in long:
                thread.join(PATIENCE)
            self.check("then few connections stay", until(lambda: len(running.handler.tasks) <= handlers.SPARE, 10),
                       shown=len(running.handler.tasks))
            self.check("which answer", ask(service.port, "GET", "/short", timeout=PATIENCE)[0], 200)

    def test_superfluous_connections_that_ask_end(self) -> None:
        """So many may have asked for a request with their last answers. No one's request is needed to end them."""
        with real() as service, Running(service.port, ok) as running:
            async def begin() -> int:
                for _ in range(2 * handlers.SPARE):
                    running.handler.begin()
                return running.handler.asking
            asking = asyncio.run_coroutine_threadsafe(begin(), running.loop).result(PATIENCE)
            self.check("there are more than are spare", asking > handlers.SPARE)
            self.check("then no more than are", until(lambda: len(running.handler.tasks) <= handlers.SPARE, 10),
                       shown=len(running.handler.tasks))
            self.check("all of which ask", until(lambda: running.handler.asking == handlers.SPARE, 10),
                       shown=running.handler.asking)
            self.check("nothing is told", running.told, [])
            self.check("and a request is answered", ask(service.port, "GET", "/x", timeout=PATIENCE)[0], 200)

    def test_nothing_is_asked_while_no_connection_is_superfluous(self) -> None:
        self.addCleanup(setattr, handlers, "BETWEEN_LOOKS", handlers.BETWEEN_LOOKS)
        handlers.BETWEEN_LOOKS = 0.001
        looks: List[int] = []
        ended: List[int] = []

        async def end_spare(count: int) -> None:
            ended.append(count)
        with real() as service, Running(service.port, ok) as running:
            setattr(running.handler, "end_spare", end_spare)
            setattr(running.handler, "break_off", lambda: looks.append(running.handler.fewest))
            self.check("it looks", until(lambda: len(looks) > 20, PATIENCE))
            self.check("and no more ask than are spare", max(looks) <= handlers.SPARE, shown=looks[:20])
            self.check("so none is ended", ended, [])

    def test_no_more_than_the_most_are_at_work(self) -> None:
        held = threading.Semaphore(0)
        now, highest = [0], [0]

        async def reply(request: Request) -> Reply:
            now[0] += 1
            highest[0] = max(now[0], highest[0])
            await asyncio.get_running_loop().run_in_executor(None, held.acquire)
            now[0] -= 1
            return Reply(200)
        with real() as service, Running(service.port, reply, most=3):
            seen: List[int] = []
            asking = [threading.Thread(target=lambda: seen.append(ask(service.port, "GET", "/x",
                                                                      timeout=PATIENCE)[0])) for _ in range(9)]
            for thread in asking:
                thread.start()
            until(lambda: now[0] == 3, 10)
            time.sleep(0.5)
            self.check("three are at work, and six wait in the service", (now[0], highest[0], seen), (3, 3, []))
            for _ in range(9):
                held.release()
            for thread in asking:
                thread.join(PATIENCE)
            self.check("each is answered", (seen, highest[0] <= 3), ([200] * 9, True))

    def test_bodies_that_are_held_are_bounded(self) -> None:
        held, sizes = threading.Semaphore(0), []

        async def reply(request: Request) -> Reply:
            sizes.append(len(request.content))
            await asyncio.get_running_loop().run_in_executor(None, held.acquire)
            return Reply(200)
        most, handlers.MOST_HELD = handlers.MOST_HELD, 1000
        try:
            with real() as service, Running(service.port, reply) as running:
                asking = [threading.Thread(target=ask, args=(service.port, "POST", "/x", b"x" * 900),
                                           kwargs={"timeout": PATIENCE}) for _ in range(20)]
                for thread in asking:
                    thread.start()
                time.sleep(1)
                self.check("what is held is bounded", len(sizes) <= 2 + handlers.SPARE, True, shown=len(sizes))
                for _ in range(20):
                    held.release()
                for thread in asking:
                    thread.join(PATIENCE)
                self.check("each is answered", len(sizes), 20)
                self.check("and nothing is held", until(lambda: running.handler.held == 0, 10))
        finally:
            handlers.MOST_HELD = most

    def test_a_body_that_comes_is_passed_on_and_closed(self) -> None:
        body = Slow([b"one ", b"", b"two"], 0.05)

        async def reply(request: Request) -> Reply:
            return Reply(201, [("x", "y")], pieces=body)
        with real() as service, Running(service.port, reply) as running:
            status, headers, content = ask(service.port, "GET", "/pieces", timeout=PATIENCE)
            self.check("it is whole", (status, headers["x"], content), (201, "y", b"one two"))
            self.check("and closed", until(lambda: body.closed == 1, 10), shown=body.closed)
            status, _, content = ask(service.port, "HEAD", "/pieces", timeout=PATIENCE)
            self.check("HEAD has none of it", (status, content), (201, b""))
            self.check("nothing is told", running.told, [])

    def test_answers_that_are_not_taken_are_bounded(self) -> None:
        """If too much waits for its reader, answers are broken off of which nothing is taken; a line says so."""
        async def reply(_request: Request) -> Reply:
            return Reply(200, [], b"x" * MUCH)
        most, handlers.MOST_UNREAD = handlers.MOST_UNREAD, 3 * MUCH
        service = Deaf(*[(answer(200, line_of()), b"")] * 7)
        try:
            with Running(service.port, reply) as running:
                unread = running.handler.unread
                self.check("what waits is more than may", until(lambda: len(unread) == 7, PATIENCE), shown=len(unread))
                self.check("and then bounded", until(lambda: sum(unread.values()) <= 3 * MUCH, PATIENCE))
                self.check("no more is broken off", len(unread) >= 3, shown=len(unread))
                self.check("a line says so", until(lambda: any("broken off" in line for line in running.told), 5))
        finally:
            handlers.MOST_UNREAD = most
            service.close()

    def test_a_requester_that_goes_ends_its_answer(self) -> None:
        body = Slow([b"x"] * 10_000, 0.02)

        async def reply(request: Request) -> Reply:
            return Reply(200, pieces=body)
        with real() as service, Running(service.port, reply) as running:
            peer = socket.create_connection(("127.0.0.1", service.port), timeout=PATIENCE)
            peer.sendall(b"GET /endless HTTP/1.1\r\nHost: a\r\n\r\n")
            time.sleep(0.5)
            peer.close()
            self.check("nothing is told", running.told, [])
            self.check("another is answered", ask(service.port, "HEAD", handlers.HERE, timeout=PATIENCE)[0], 204)

    def test_what_it_answers_in_the_services_words_is_what_the_service_says(self) -> None:
        """Of unknown paths, functions, qualifiers and types, to the byte."""
        asked = [("GET", "/nothing", {}), ("POST", "/a/b?c", {}), ("GET", "/_local/requests", {}),
                 *(("POST", path, {"X-Amz-Invocation-Type": kind} if kind else {})
                   for kind in (None, "RequestResponse", "Nonsense", "event")
                   for path in [*(invoke_path(name) for name in (
                       "g", "f:live", "f:7", "f:$LATEST", "arn:aws:lambda:us-east-1:123456789012:function:g",
                       "arn:aws:lambda:us-east-1:123456789012:function:f:live", "999999999999:function:f", "f%2F",
                       "arn:aws:lambda:eu-west-1:123456789012:function:f", "123456789012:function:f:%24LATEST")),
                       invoke_path("f") + "?Qualifier=7", invoke_path("g") + "?Qualifier=$LATEST",
                       invoke_path("f") + "/"]
                   if kind not in (None, "RequestResponse") or "LATEST" not in path or "g" in path)]
        with real() as bare:
            up = Up(*READY, functions=[{"name": "f", "runtime": "python", "handler": "app.run"}],
                    app="def run(event, context): return 7\n")
            with caller_of(self, up) as caller, Caller(bare.endpoint_url) as direct:
                for method, path, headers in asked:
                    body = b"{}" if method == "POST" else None
                    self.check(f"{method} {path} {headers}", plain(caller.ask(method, path, body, headers)),
                               plain(direct.ask(method, path, body, headers)))
