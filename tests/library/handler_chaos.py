"""Handlers and requesters of a service's further port that do what a seed says, and break off at each point of an
exchange. What requesters get is noted: their own answer once, or part of it, a refusal, or nothing."""
import contextlib
import http.client
import random
import re
import socket
import threading
import time
from collections import Counter
from typing import Any, Callable, Dict, Iterator, List

from lambda_local.service import Service, ask
from tests.library.handler_kit import INVOKE, PATIENCE, Handler

HANDLERS, REQUESTERS = 6, 12
BEYOND = b"ab"  # what a handler may post behind an answer that breaks off


def answered(port: int, data: bytes) -> bytes:
    """All that comes for these bytes until the connection ends."""
    found = b""
    with socket.create_connection(("127.0.0.1", port), PATIENCE) as peer, contextlib.suppress(ConnectionResetError):
        peer.sendall(data)
        while part := peer.recv(1 << 16):
            found += part
    return found


def statuses(data: bytes) -> List[int]:
    return [int(one) for one in re.findall(rb"HTTP/1\.[01] (\d{3})", data)]


def cut(port: int, data: bytes, seconds: float = 0.0) -> None:
    """Sends these bytes, and ends the connection after so many seconds."""
    with contextlib.suppress(OSError), socket.create_connection(("127.0.0.1", port), PATIENCE) as peer:
        peer.sendall(data)
        time.sleep(seconds)


class Chaos:
    """Handlers and requesters of a service, each doing what a seed says, until time is over."""

    def __init__(self, service: Service, port: int, seconds: float, seed: int) -> None:
        self.service, self.port, self.seconds, self.end = service, port, seconds, time.monotonic() + seconds
        self.random, self.outcomes, self.wrong = random.Random(seed), Counter[str](), [""] * 0
        self.number, self.lock, self.is_over = 0, threading.Lock(), False
        self.here: Dict[Handler, bool] = {}

    def run(self) -> None:
        handlers = [threading.Thread(target=self.repeat, args=(self.handle,)) for _ in range(HANDLERS)]
        requesters = [threading.Thread(target=self.repeat, args=(self.request,)) for _ in range(REQUESTERS)]
        steady = threading.Thread(target=self.answer_all)
        for thread in (steady, *handlers, *requesters):
            thread.start()
        for thread in requesters:
            thread.join(PATIENCE + self.seconds)
        self.is_over = True
        while any(thread.is_alive() for thread in (steady, *handlers)):
            for handler in list(self.here):  # (each may wait for a request)
                with contextlib.suppress(OSError, AttributeError):
                    handler.connection.sock.shutdown(socket.SHUT_RDWR)
            time.sleep(0.01)

    def repeat(self, deed: Callable[[random.Random], None]) -> None:
        with self.lock:
            chosen = random.Random(self.random.random())
        while time.monotonic() < self.end:
            try:
                deed(chosen)
            except OSError as fault:
                self.outcomes[f"{deed.__name__}: {type(fault).__name__}"] += 1
            except Exception as fault:
                self.wrong.append(f"{deed.__name__}: {fault!r}")

    # ---- handlers ----------------------------------------------------------------------------------------------------

    @contextlib.contextmanager
    def handler(self) -> Iterator[Handler]:
        handler = Handler(self.service)
        self.here[handler] = True
        try:
            yield handler
        finally:
            del self.here[handler]
            handler.close()

    def answer_all(self) -> None:
        """A handler that always answers, so that nothing waits for good. (A post to a requester that has gone may end
        its connection.)"""
        while not self.is_over:
            with contextlib.suppress(OSError, http.client.HTTPException), self.handler() as handler:
                while not self.is_over:
                    head, body = handler.next()
                    handler.answer(head, self.own(head, body))

    @staticmethod
    def own(head: Dict[str, Any], body: bytes) -> bytes:
        return head["target"].encode() + b" " + body

    def handle(self, chosen: random.Random) -> None:
        """One connection, which ends at some point of an exchange."""
        with self.handler() as handler:
            for _ in range(chosen.randrange(5)):
                head, body = handler.next()
                handler.answer(head, self.own(head, body))
            self.last(handler, chosen)

    def last(self, handler: Handler, chosen: random.Random) -> None:
        deed = chosen.randrange(10)
        if deed == 0:
            return  # (it asks for nothing)
        handler.ask()
        if deed == 1:
            return time.sleep(0.01 * chosen.random())  # (it may have been given one)
        head, body = handler.taken()
        own = self.own(head, body)
        if deed == 2:
            return  # (it has one)
        if deed == 3:
            handler.post(f"{head['id']}/error")
        elif deed == 4:
            handler.connection.sock.sendall(f"POST /_local/requests/{head['id']}/resp".encode())
        elif deed == 5:  # within its head
            handler.connection.sock.sendall(f"POST /_local/requests/{head['id']}/response HTTP/1.1\r\nHost: a\r\n"
                                            "Lambda-Local-Status: 200\r\n".encode())
        elif deed == 6:  # within a body whose length is known
            handler.begin(head, length=len(own) + 1)
            handler.connection.send(own)
        elif deed == 7:  # within chunks
            handler.begin(head)
            handler.chunk(own)
            handler.connection.send(b"5\r\n" + BEYOND)
        elif deed == 8:  # with a chunk that is none
            handler.begin(head)
            handler.connection.send(b"zz\r\n")
        else:
            handler.begin(head)
            step = 1 if len(own) < 2000 else 999
            for begin in range(0, len(own), step):
                handler.chunk(own[begin:begin + step])
            handler.end()

    # ---- requesters --------------------------------------------------------------------------------------------------

    def request(self, chosen: random.Random) -> None:
        with self.lock:
            self.number += 1
            target = f"/{self.number}"
        body = b"x" * chosen.choice((0, 1, 1000, 200_000))
        head = f"POST {target} HTTP/1.1\r\nHost: a\r\nContent-Length: {len(body)}\r\n"
        deed = chosen.randrange(10)
        whole = f"{head}\r\n".encode() + body
        if deed == 0:
            cut(self.port, whole[:chosen.randrange(len(whole))], 0.02 * chosen.random())
        elif deed == 1:  # (it goes before its answer)
            cut(self.port, whole, 0.01 * chosen.random())
        elif deed == 2:
            ask(self.service.port, "POST", INVOKE % "f", b"{}", timeout=PATIENCE)
        else:
            self.note(target, body, self.sent(whole, f"{head}Connection: close\r\n\r\n".encode() + body, deed, chosen))

    def sent(self, kept: bytes, closing: bytes, deed: int, chosen: random.Random) -> bytes:
        """What comes for a request, of those that a connection may have before it."""
        if deed > 4:
            return answered(self.port, closing)
        with socket.create_connection(("127.0.0.1", self.port), PATIENCE) as peer:
            if deed == 3:  # (slow in both directions)
                peer.setsockopt(socket.SOL_SOCKET, socket.SO_RCVBUF, 4096)
                for begin in range(0, len(closing), 20_000):
                    peer.sendall(closing[begin:begin + 20_000])
                    time.sleep(0.002)
            else:
                peer.sendall(closing)
            found = b""
            with contextlib.suppress(ConnectionResetError):
                while part := peer.recv(4096):
                    found += part
                    if deed == 3 and chosen.random() < 0.1:
                        time.sleep(0.002)
            return found

    def note(self, target: str, body: bytes, data: bytes) -> None:
        """What a requester got: its own answer once, or part of it, a refusal, or nothing."""
        head, _, rest = data.partition(b"\r\n\r\n")
        own, is_chunked = target.encode() + b" " + body, b"chunked" in head.lower()
        seen = statuses(head)
        if len(seen) > 1 or data.count(b"HTTP/1.1 ") > 1:
            self.wrong.append(f"{target}: {seen} answers")
        if not seen:
            self.outcomes["no answer"] += 1
        elif seen[0] in (502, 503):
            self.outcomes[str(seen[0])] += 1
        elif seen[0] != 200:
            self.wrong.append(f"{target}: {seen}")
        elif (unchunked(rest) if is_chunked else rest) == own:
            self.outcomes["its own"] += 1
        elif (own + BEYOND).startswith(unchunked(rest, True) if is_chunked else rest):
            self.outcomes["broken off"] += 1
        else:
            self.wrong.append(f"{target}: {rest[:60]!r} is not its own")


def unchunked(data: bytes, may_end: bool = False) -> bytes:
    """A body in chunks. One that is not whole is what no requester has sent, unless it may end early."""
    found, at = bytearray(), 0
    while (end := data.find(b"\r\n", at)) >= 0:
        count = int(data[at:end], 16)
        if not count:
            return bytes(found)
        found += data[end + 2:end + 2 + count]
        at = end + 4 + count
    return bytes(found) if may_end else b"\0not whole"
