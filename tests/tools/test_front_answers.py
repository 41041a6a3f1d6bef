"""Checks where the answers of a front end, by Python's own reader of HTTP: a client that keeps its connection gets the
right next answer, whatever a function answers, to whichever method (RFC 9112, section 6.3; RFC 9110, sections 8.6, 9.3
and 15). The program is LAMBDA_LOCAL_PROGRAM, else ./lambda_local."""
import asyncio
import concurrent.futures
import http.client
import io
import itertools
import json
import socket
import time
from typing import Any, AsyncIterator, Dict, List, Tuple

from lambda_local.front import tail
from lambda_local.front.http import Reply, Request
from lambda_local.service import Service
from tests.library.cases import Case
from tests.library.up_kit import Up
from tests.tools.test_front_handler import CONFIGURATION, Running
from tests.tools.test_streaming import STREAMING, quoted

METHODS = ("GET", "HEAD", "POST", "PUT", "PATCH", "DELETE", "OPTIONS", "TRACE")
STATUSES = (200, 201, 204, 205, 206, 301, 304, 400, 404, 500, 599)
FORGED = "HTTP/1.1 200 OK\r\nContent-Length: 6\r\n\r\nFORGED"
PRELUDE = "application/vnd.awslambda.http-integration-response"


class Pieces:
    is_closed = False

    def __init__(self, pieces: List[bytes], seconds: float = 0) -> None:
        self.pieces, self.seconds = pieces, seconds

    async def __aiter__(self) -> AsyncIterator[bytes]:
        for piece in self.pieces:
            if self.seconds:
                await asyncio.sleep(self.seconds)
            yield piece

    async def aclose(self) -> None:
        self.is_closed = True


class Bytes:
    """A socket that has these bytes."""

    def __init__(self, file: io.BytesIO) -> None:
        self.file = file

    def makefile(self, *_: object) -> io.BytesIO:
        return Unclosed(self.file.read())


class Unclosed(io.BytesIO):
    def close(self) -> None:
        """What comes after the answer is read too."""


def read(data: bytes, method: str) -> Any:
    """What Python's reader makes of the bytes: status, body, and what is left after it."""
    file = Bytes(io.BytesIO(data))
    answer = http.client.HTTPResponse(file, method=method)  # type: ignore[arg-type]
    rest: Any = answer.fp
    answer.begin()
    body = answer.read()
    return answer.status, body, rest.read()


class FrontAnswers(Case):
    def test_each_answer_ends_where_the_next_begins(self) -> None:
        """Each answer at a further port has its body, and what follows it on the connection is the next."""
        contents: Tuple[List[bytes], ...] = ([b"some", b"", b"thing"], [FORGED.encode()], [])
        versions, forms = ("HTTP/1.1", "HTTP/1.0"), ("whole", "with a length", "in pieces")

        async def reply(request: Request) -> Reply:
            if request.path == "/next":
                return Reply(200, [], b"next")
            status, content, form = map(int, request.path.split("/")[1:])
            headers = [("Content-Length", "3")] if form == 1 else []
            if form == 2:
                return Reply(status, headers, pieces=Pieces(contents[content]))
            return Reply(status, headers, b"".join(contents[content]))

        def asked(method: str, status: int, version: str, content: int, form: int) -> Any:
            """What Python's reader makes of what comes: the answer, and then the next."""
            target, whole = f"/{status}/{content}/{form}", b"".join(contents[content])
            has_content = not (method == "HEAD" or status in (204, 205, 304))
            keeps = version == "HTTP/1.1" or form != 2 or not has_content
            with socket.create_connection(("127.0.0.1", service.handled["a port"]), timeout=60) as peer:
                peer.sendall(f"{method} {target} {version}\r\nHost: a\r\nConnection: keep-alive\r\n\r\n"
                             "GET /next HTTP/1.1\r\nHost: a\r\nConnection: close\r\n\r\n".encode())
                data = b"".join(iter(lambda: peer.recv(1 << 16), b""))
            try:
                seen = read(data, method)
                following = read(seen[2], "GET")[:2] if seen[2] else b""
            except http.client.HTTPException as fault:
                return f"{fault!r} of {data!r}"
            wanted = (status, whole if has_content else b"", (200, b"next") if keeps else b"")
            return None if (*seen[:2], following) == wanted else (*seen[:2], following)

        cases = [*itertools.product(METHODS, STATUSES, versions, range(len(contents)), range(len(forms)))]
        service = Service(CONFIGURATION, handled={"a port": 0})
        with Running(service.port, reply, service.handled["a port"]) as running:
            with concurrent.futures.ThreadPoolExecutor(8) as pool:
                wrong = [(*case[:3], contents[case[3]], forms[case[4]], seen)
                         for case, seen in zip(cases, pool.map(lambda case: asked(*case), cases)) if seen]
            self.check("nothing is told", running.told, [])
        service.kill()
        self.check(f"of {len(cases)} answers those that a client reads otherwise", wrong, [])

    def test_an_answer_is_its_callers_whatever_is_known_of_its_log(self) -> None:
        """An answer is its caller's, whatever is known of its log; and it ends with its caller."""
        class Tails:
            def is_prepared(self, function: str) -> bool:
                return False

            async def prepare(self, function: str) -> None:
                raise OSError("gone")

            async def result_of(self, function: str, identifier: str) -> str:
                raise ValueError(identifier)

        class Slow(Tails):
            async def result_of(self, function: str, identifier: str) -> str:
                await asyncio.sleep(0.5)
                return ""
        lines: List[str] = []
        pieces = Pieces([b"x"])

        async def invoke() -> Reply:
            return Reply(200, [("x-amzn-requestid", "r")], b"1", pieces)

        async def left() -> None:
            task = asyncio.get_running_loop().create_task(tail.with_tail(Slow(), "f", invoke, lines.append))
            await asyncio.sleep(0.2)
            task.cancel()
            await asyncio.wait([task])
        reply = asyncio.run(tail.with_tail(Tails(), "f", invoke, lines.append))
        self.check("the answer", (reply.body, reply.headers), (b"1", [("x-amzn-requestid", "r")]))
        self.check("both faults are told", [line.split(": ", 1)[1] for line in lines], ["OSError('gone')",
                                                                                        "ValueError('r')"])
        asyncio.run(left())
        self.check("one whose caller goes is closed", pieces.is_closed)

    def test_on_a_kept_connection_each_answer_is_the_one_that_was_asked_for(self) -> None:
        """On a kept connection to each kind of port, preludes and methods by turns with an invocation whose answer is
        known."""
        functions = [{"name": name, "command": ["./streaming"], "timeout": 5, "url": {"invoke": mode}}
                     for name, mode in (("s", "RESPONSE_STREAM"), ("b", "BUFFERED"))]
        up = Up(functions=functions, files={"streaming": STREAMING}, whole={"routes": {"$default": "b"}})
        self.check("it is ready", up.until("[up] ready"), True)
        ports = {"a streaming URL": (up.told(r"s: its URL is http://([0-9.:]+)/"), True),
                 "a URL": (up.told(r"b: its URL is http://([0-9.:]+)/"), False),
                 "a route": (up.told(r"routes: http://([0-9.:]+)"), False)}
        event: Dict[str, Any]
        wrong: List[Any]
        preludes: List[Dict[str, Any]] = [
            {"statusCode": status, "headers": headers} for status in (200, 204, 304, 404)
            for headers in ({}, {"content-length": "3", "transfer-encoding": "chunked", "connection": "x"})]
        for name, (address, streams) in ports.items():
            kept = Kept(address)
            wrong = []
            for prelude, method in itertools.product(preludes, ("GET", "HEAD", "POST", "OPTIONS", "DELETE")):
                event = ({"parts": [json.dumps(prelude), "=" + "00" * 8, FORGED], "type": PRELUDE, "pause": 0.005}
                         if streams else {"buffered": {**prelude, "body": FORGED}})
                status = prelude["statusCode"]
                body = b"" if method == "HEAD" or status in (204, 304) else FORGED.encode()
                known: Dict[str, Any] = {"parts": ["next"]} if streams else {"buffered": "next"}
                seen = kept.ask(method, event), kept.ask("GET", known)
                if seen != ((status, body), (200, b"next" if streams else b'"next"')):
                    wrong.append((prelude, method, seen))
            self.check(f"{name}: of {len(preludes) * 5} preludes and methods those with a wrong answer", wrong, [])
        kept = Kept(up.endpoint.partition("//")[2], "/2021-11-15/functions/s/response-streaming-invocations")
        wrong = []
        for method, part in itertools.product(("POST", "HEAD", "GET", "PUT", "DELETE"), (FORGED, "", "x" * 70000)):
            first = kept.ask(method, {"parts": [part] if part else []}, in_body=True)
            second = kept.ask("POST", {"parts": ["next"]}, in_body=True)
            if first[0] != (200 if method == "POST" else 501) or second[0] != 200 or b"next" not in second[1]:
                wrong.append((method, part[:10], first, second))
        self.check("InvokeWithResponseStream: those with a wrong answer", wrong, [])
        self.check("it ends", up.end(), (0, []))


class Kept:
    """A client that keeps its connection. It notices if that is closed, which it is only if the answer says so."""

    def __init__(self, address: str, path: str = "/") -> None:
        self.connection, self.path = http.client.HTTPConnection(address, timeout=20), path
        self.connection.connect()

    def ask(self, method: str, event: Any, in_body: bool = False) -> Any:
        """The status and the body. A throttle, as on a busy machine, is tried again."""
        for _ in range(50):
            seen = self.once(method, event, in_body)
            if seen[0] != 429:
                break
            time.sleep(0.1)
        return seen

    def once(self, method: str, event: Any, in_body: bool) -> Any:
        assert self.connection.sock is not None
        path = self.path if in_body else f"{self.path}?event={quoted(event)}"
        try:
            self.connection.request(method, path, json.dumps(event) if in_body else None)
            answer = self.connection.getresponse()
            body = answer.read()
        except (http.client.HTTPException, OSError) as fault:
            self.connection.close()
            self.connection.connect()
            return type(fault).__name__, b""
        if answer.headers["Connection"] == "close":
            self.connection.close()
            self.connection.connect()
        return answer.status, body
