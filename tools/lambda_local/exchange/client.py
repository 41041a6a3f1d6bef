"""Connections of tasks to the service that are kept, and each used by one request at a time. What is asked is written
anew: a method, a target, the headers that the service reads, and a body of a known length. A caller's own head is never
passed on."""
import contextlib
import time
from typing import AsyncIterator, List, Tuple

from ..http1 import Headers
from .connection import NO_DESCRIPTOR, Answer, Fields, Unanswered
from .of_tasks import Wire, connected

MOST_IDLE = 64  # connections that are kept
IDLE_SECONDS = 60  # (the service closes one after 300)


class Unreachable(Unanswered):
    """There is no connection to the service, so it has received nothing of the request."""


class NoDescriptor(Unreachable):
    """This process has no descriptor for a connection."""


class Client:
    def __init__(self, port: int) -> None:
        self.port = port
        self.idle: List[Tuple[Wire, float]] = []  # with the time since when

    async def connection(self) -> Wire:
        now = time.monotonic()
        while self.idle:
            wire, since = self.idle.pop()
            if now - since < IDLE_SECONDS and wire.is_silent():
                return wire
            wire.close()
        try:
            return await connected(self.port)
        except OSError as fault:
            raise (NoDescriptor if fault.errno in NO_DESCRIPTOR else Unreachable)(str(fault)) from None

    def give_back(self, wire: Wire) -> None:
        """Keeps a connection that is silent: what came after the answer would be taken for the next one."""
        if len(self.idle) < MOST_IDLE and wire.is_silent():
            self.idle.append((wire, time.monotonic()))
        else:
            wire.close()

    def close(self) -> None:
        for wire, _ in self.idle:
            wire.close()
        self.idle.clear()

    @contextlib.asynccontextmanager
    async def exchange(self, method: str, target: str, headers: Fields = (), length: int = 0, body: bytes = b"",
                       is_again: bool = False) -> AsyncIterator[Answer]:
        """The answer to a request, while it is read. A body of more bytes than are there the service refuses by its
        length. A request is never sent twice: it could be an invocation. `is_again` is for a storm: it has been sent
        before."""
        wire = await self.connection()
        answer = None
        try:
            wire.put(wire.request(method, target, headers, length) + body)
            answer = await wire.answer(method)
            yield answer
        finally:
            if len(body) == length and answer is not None and answer.keeps:
                self.give_back(wire)
            else:
                wire.close()

    async def ask(self, method: str, target: str, headers: Fields = (), body: bytes = b"",
                  is_again: bool = False) -> Tuple[int, Headers, bytes]:
        """The status, headers and whole body of an answer."""
        async with self.exchange(method, target, headers, len(body), body, is_again) as answer:
            return answer.status, answer.headers, await answer.whole()
