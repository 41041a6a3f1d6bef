"""The relay of lambda_local up, as a process of its own: the proxies of environments whose processes it does not hear,
but for the place in what they print where an invocation begins.

Before an invocation goes on to a process of an environment, a mark is written into the pipe of each of them: what
they had written by then is before it, and what they write for the invocation after it. So nobody waits for a reader.
What the service refuses of them is told as it is by other proxies. `relay` has the tool's side: the socket whose number
is the argument has messages in JSON, some with a descriptor, and closes when the tool ends, however that ends."""
import asyncio
import json
import os
import resource
import socket
import sys
from collections import deque
from typing import Awaitable, Deque, Dict, List, Optional

from ..http1 import Malformed, Request, Response, first
from ..json_reader import members_of
from .conversation import Ears, Exchange
from .proxy import Proxy
from .refusals import Refusals

LONGEST_MESSAGE = 64 << 10  # bytes
MOST_LINES = 1000  # that wait, beyond those for which the socket has room, if the tool is slow
LAST_SECONDS = 5.0  # for it to take the last ones
SHORT = 64 << 10  # bytes of an extension's event
NEXT, EVENT = "/2018-06-01/runtime/invocation/next", "/2020-01-01/extension/event/next"
REQUEST = "lambda-runtime-aws-request-id"


class Pipe:
    """Where a process prints, and its mark."""

    def __init__(self, descriptor: int, mark: bytes):
        self.descriptor, self.mark = descriptor, mark
        self.is_closed = False
        self.room: "Optional[asyncio.Future[None]]" = None  # while a mark waits for it

    def put(self, identifier: bytes) -> bool:
        """Whether it has the mark now. (So few bytes are written whole or not at all: pipe(7).)"""
        if self.is_closed:
            return True
        try:
            os.write(self.descriptor, self.mark + identifier + b"\n")
        except BlockingIOError:
            return False
        except OSError:  # (nobody reads it any more)
            pass
        return True

    async def put_later(self, identifier: bytes) -> None:
        loop = asyncio.get_running_loop()
        while not self.put(identifier):
            self.room = loop.create_future()
            loop.add_writer(self.descriptor, self._has_room)
            await self.room

    def _has_room(self) -> None:
        asyncio.get_running_loop().remove_writer(self.descriptor)
        if self.room and not self.room.done():
            self.room.set_result(None)

    def close(self) -> None:
        if not self.is_closed:
            self._has_room()
            self.is_closed = True
            os.close(self.descriptor)


class Poll(Exchange):
    """A runtime's Next."""

    def __init__(self, head: Request, ears: "Marking"):
        super().__init__(head)
        self.ears = ears

    def answered(self, head: Response) -> None:
        identifier = first(head.headers, REQUEST)
        if head.status == 200 and identifier is not None:
            self.waits = self.ears.given(identifier.lower())


class EventPoll(Exchange):
    """An extension's: its answer is held until it is whole."""

    def __init__(self, head: Request, ears: "Marking"):
        super().__init__(head)
        self.ears, self.status, self.content = ears, 0, bytearray()

    def answered(self, head: Response) -> None:
        self.status = head.status
        self.holds = head.length is not None and 0 <= head.length <= SHORT

    def came(self, data: bytes) -> None:
        if self.holds:
            self.content += data

    def all_came(self) -> None:
        if self.status != 200 or not self.holds:
            return
        event = members_of(bytes(self.content), SHORT) or {}
        if event.get("eventType") == "INVOKE":
            self.waits = self.ears.given(str(event.get("requestId")).lower())


class Marking(Ears):
    """Those of one environment."""
    is_quick = True

    def __init__(self, relay: "Relay", refusals: Refusals):
        self.relay, self.refusals = relay, refusals
        self.pipes: Dict[int, Pipe] = {}  # by the number of the process
        self.current = ""  # the last invocation that was given to one of them
        self.marking: "Optional[asyncio.Task[None]]" = None  # while a pipe has no room for its mark

    def given(self, identifier: str) -> Optional[Awaitable[object]]:
        """The first process that is to get it has it marked, and the others wait for that."""
        if identifier != self.current:
            self.relay.take_all()  # (a process is known before it is started)
            self.current, name = identifier, identifier.encode()
            full = [pipe for pipe in list(self.pipes.values()) if not pipe.put(name)]
            before = self.marking
            self.marking = asyncio.get_running_loop().create_task(self._put(before, full, name)) if full else None
        return asyncio.shield(self.marking) if self.marking and not self.marking.done() else None

    @staticmethod
    async def _put(before: "Optional[asyncio.Task[None]]", full: List[Pipe], name: bytes) -> None:
        if before:
            await before
        for pipe in full:
            await pipe.put_later(name)

    def exchange(self, head: Request) -> Exchange:
        if head.method == "GET" and head.parts.path == NEXT:
            return Poll(head, self)
        return EventPoll(head, self) if head.method == "GET" and head.parts.path == EVENT else Exchange(head)

    def refused(self, head: Request, answer: Response, body: bytes) -> None:
        self.refusals.refused(head, answer, body)

    def unreadable(self, fault: Malformed, head: Optional[Request], begun: bytes) -> None:
        self.refusals.unreadable(fault, head, begun)


class Relay:
    def __init__(self, channel: socket.socket):
        self.channel = channel
        self.places: Dict[int, Marking] = {}  # by the number of the environment
        self.proxies: List[Proxy] = []
        self.starting: "List[asyncio.Task[None]]" = []
        self.lines: Deque[bytes] = deque()  # that the tool has not taken
        self.is_over: "asyncio.Future[None]" = asyncio.get_running_loop().create_future()

    async def run(self) -> None:
        loop = asyncio.get_running_loop()
        self.channel.setblocking(False)
        loop.add_reader(self.channel, self.take_all)
        await self.is_over
        loop.remove_reader(self.channel)
        for proxy in self.proxies:
            await proxy.stop()
        loop.remove_writer(self.channel)
        self.channel.settimeout(LAST_SECONDS)
        self.send()
        self.channel.close()

    def take_all(self) -> None:
        """All messages that are here."""
        while not self.is_over.done():
            try:
                data, handles, _, _ = socket.recv_fds(self.channel, LONGEST_MESSAGE, 1)
            except BlockingIOError:
                return
            except OSError:
                data, handles = b"", []
            if data:
                self.take(json.loads(data), handles)
            else:
                self.is_over.set_result(None)

    def take(self, message: Dict[str, object], handles: List[int]) -> None:
        what, number, process = message["what"], int(str(message["environment"])), int(str(message.get("process", 0)))
        if what == "listen":
            self.listen(number, int(str(message["port"])), socket.socket(fileno=handles[0]))
        elif what == "prints":
            self.places[number].pipes[process] = Pipe(handles[0], b"\0" + str(message["mark"]).encode())
        elif what == "ended":
            pipe = self.places[number].pipes.pop(process, None)
            if pipe:
                pipe.close()

    def listen(self, number: int, port: int, listener: socket.socket) -> None:
        refusals = Refusals(lambda text: self.tell(number, "refused", text))
        self.places[number] = ears = Marking(self, refusals)
        proxy = Proxy(listener, port, ears, lambda text: self.tell(number, "proxy", text), refusals.end)
        self.proxies.append(proxy)
        self.starting.append(asyncio.get_running_loop().create_task(proxy.start()))

    def tell(self, number: int, kind: str, text: str) -> None:
        """A line for the log. (One that there is no room for is left out, as the log does it.)"""
        if len(self.lines) < MOST_LINES:
            self.lines.append(json.dumps({"environment": number, "kind": kind, "text": text}).encode())
        self.send()

    def send(self) -> None:
        """Sends the lines that wait; if there is no room, the rest once there is."""
        loop = asyncio.get_running_loop()
        try:
            while self.lines:
                self.channel.send(self.lines[0])
                self.lines.popleft()
        except BlockingIOError:
            return loop.add_writer(self.channel, self.send)
        except OSError:  # (the tool has ended, or takes none)
            self.lines.clear()
        loop.remove_writer(self.channel)


async def serve(channel: socket.socket) -> None:
    await Relay(channel).run()


def main(number: int) -> None:
    most = resource.getrlimit(resource.RLIMIT_NOFILE)[1]
    resource.setrlimit(resource.RLIMIT_NOFILE, (most, most))
    asyncio.run(serve(socket.socket(fileno=number)))


if __name__ == "__main__":
    main(int(sys.argv[1]))
