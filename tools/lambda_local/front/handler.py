"""What the service hands over, and what is answered: connections that stay open, each of which asks for a request,
answers it, and asks again (docs/formats.md, "Handlers of requests").

As long as fewer than `most` are at work there is one that asks, so what is long holds nothing else up. What comes
beyond that waits in the service, within its bounds; so it does while the bodies that are held here have MOST_HELD
bytes. Of answers that their readers do not take, there are MOST_UNREAD bytes here at most."""
import asyncio
import contextlib
import socket
import threading
import time
from typing import Awaitable, Callable, Dict, List, Optional, Set, Tuple

from ..exchange.client import Client, NoDescriptor
from ..exchange.connection import NO_DESCRIPTOR, Fields, TooLong, Unanswered
from ..exchange.of_tasks import Wire, connected
from ..http1 import Unwritable
from ..json_reader import members_of
from ..outgoing import Log, several
from .descriptors import MOST
from .errors import of_service
from .handed import LONGEST_LINE, Handed, NotHanded, handed_of
from .http import LONGEST_BODY, OF_CONNECTION, Pieces, Reply, Request, first
from .tasks import begin_task

REQUESTS = "/_local/requests/"
NEXT = "GET", f"{REQUESTS}next"
HERE = "/_local/handler"  # no route of the service: it has one while a handler is here, which answers it
SPARE = 4  # connections that ask while nothing is to be done
MOST_HELD = 64 << 20  # bytes of bodies; each connection that asks may get one more
LONGEST = LONGEST_LINE + LONGEST_BODY  # bytes of a request, with its line
PIECE = 128 << 10  # bytes of a body that are given to the system at once
SHORT, FEW = 16 << 10, 64  # bytes and fields of an answer that the service takes in any case
MOST_SENT = 256 << 10  # bytes of a connection that the system holds for the service
MOST_UNREAD = 256 << 20  # bytes of answers; beyond these, those of which nothing is taken for SLOW_SECONDS break off
SLOW_SECONDS, BETWEEN_LOOKS = 2.0, 1.0
PAUSE = 0.1  # seconds, until a connection that has broken is made again
BETWEEN_TELLS = 60.0  # seconds, of the same shortage
BEGIN_SECONDS = 20.0  # until the service knows the handler
BODY_SECONDS = 20.0  # for the body of an answer of the service, once its head is here
LONGEST_SAID = 1 << 20  # bytes of an answer to a post
OVER, TOO_MUCH, ENDED = 409, 431, 503  # the requester has gone; a head is too long; the service ends
OWN_FIELDS = OF_CONNECTION | {"content-length"}  # which the service sets
Port = Callable[[Request], Awaitable[Reply]]


class Refused(Exception):
    """The service does not take an answer: why."""


class Left(Exception):
    """The connection has ended before the answer to this request."""


class Handler:
    """`ports` have what answers the requests to each port, `most` of which at once. It runs in the loop in which it is
    started."""

    def __init__(self, service: int, ports: Dict[int, Port], log: Log, most: int = MOST) -> None:
        self.service, self.ports, self.log, self.most = service, ports, log, most
        self.unread: Dict[Wire, int] = {}  # bytes of answers, by the connections on which they wait
        self.ahead: Set[Wire] = set()  # connections that have asked for a request with their last answer
        self.tasks: "Set[asyncio.Task[None]]" = set()
        self.asking = self.held = 0  # connections that ask; bytes of the bodies of requests that are answered
        self.fewest = 0  # how many asked all the time since the last look
        self.rooms: "List[asyncio.Future[None]]" = []  # those that wait until there is room for a body
        self.last_told = self.last_broken = -BETWEEN_TELLS
        self.is_known = threading.Event()  # the service hands over, or has ended

    async def start(self) -> None:
        self.begin()
        self.keep(begin_task(self.see(), "what sees whether the service hands over", self.tell))
        self.looking = begin_task(self.look(), "what breaks off answers that are not read", self.tell)

    async def stop(self) -> None:
        ending = [*self.tasks, self.looking]
        for task in ending:
            task.cancel()
        await asyncio.gather(*ending, return_exceptions=True)

    def begin(self) -> None:
        """Makes one more connection."""
        self.asking += 1
        self.keep(begin_task(self.attend(), "what answers requests that the service hands over", self.tell))

    def keep(self, task: "asyncio.Task[None]") -> None:
        self.tasks.add(task)
        task.add_done_callback(self.tasks.discard)

    def tell(self, text: str) -> None:
        self.log("up", text, level="error", kind="http")

    async def see(self) -> None:
        """Waits until a request is handed over, which is its own."""
        client = Client(self.service)
        try:
            while (await client.ask("GET", HERE))[0] == 404:
                await asyncio.sleep(0.001)
        except Unanswered:
            pass  # (it has ended: nothing is waited for)
        finally:
            client.close()
            self.is_known.set()

    # ---- a connection ------------------------------------------------------------------------------------------------

    async def attend(self) -> None:
        """One connection, made again when it breaks, until it is not needed or the service ends. While it does not
        answer a request it is counted as one that asks."""
        unanswered = ""
        while True:
            wire: Optional[Wire] = None
            try:
                wire = await connected(self.service)
                wire.transport.get_extra_info("socket").setsockopt(socket.SOL_SOCKET, socket.SO_SNDBUF, MOST_SENT)
                if unanswered:
                    self.tell(f"{unanswered} gets 502: the service has closed the connection of its handler")
                    unanswered = ""
                while await self.exchange(wire):
                    pass
                return
            except Left as fault:
                unanswered = str(fault)  # (told if the service does not end)
            except NotHanded as fault:
                self.tell(f"the service hands over what is no request: {fault}")
            except OSError as fault:  # (else the service ends, or closes what is idle)
                if fault.errno in NO_DESCRIPTOR:
                    self.tell_shortage()
            except Exception as fault:
                self.tell(f"an answer breaks off: {fault!r}"[:300])
            finally:
                if wire:
                    self.ahead.discard(wire)
                    wire.close()
            await asyncio.sleep(PAUSE)

    async def exchange(self, wire: Wire) -> bool:
        """Asks for a request and answers it. Whether the connection is needed further."""
        while self.held > MOST_HELD and wire not in self.ahead:
            room = asyncio.get_running_loop().create_future()
            self.rooms.append(room)
            await room
        handed = await self.next(wire)
        if handed is None:
            self.asking -= 1
            return False
        size = len(handed.request.content)
        self.asking, self.held = self.asking - 1, self.held + size
        self.fewest = min(self.fewest, self.asking)
        if not self.asking and len(self.tasks) < self.most:
            self.begin()
        try:
            await self.answer(wire, handed)
        finally:
            self.held -= size
            self.asking += 1
            while self.rooms:
                room = self.rooms.pop()
                if not room.done():
                    room.set_result(None)
        if self.asking > SPARE and wire not in self.ahead:
            self.asking -= 1
            return False
        return True

    def asks_on(self, wire: Wire, size: int) -> bool:
        """Whether the connection asks for the next request with its answer to this one, whose body has so many bytes.
        (It is one that asks once that answer is taken, for which it may wait.)"""
        if self.asking + len(self.ahead) >= SPARE or self.held - size > MOST_HELD:
            return False
        self.ahead.add(wire)
        return True

    async def next(self, wire: Wire) -> Optional[Handed]:
        """None if the service has ended."""
        if wire not in self.ahead:
            wire.put(wire.request(*NEXT))
        self.ahead.discard(wire)
        status, body = await self.said(wire, "GET", LONGEST)
        if status == ENDED:
            return None
        if status != 200:
            raise NotHanded(f"it answers {status} {body[:200].decode(errors='replace')}")
        return handed_of(body)

    @staticmethod
    async def said(wire: Wire, method: str, most: int = LONGEST_SAID) -> Tuple[int, bytes]:
        """The status and body of the answer to what was sent last. Unanswered if a body that has begun does not come.
        """
        answer = await wire.answer(method)
        try:
            body = await (answer.whole(most) if answer.is_here else
                          asyncio.wait_for(answer.whole(most), BODY_SECONDS))
        except (asyncio.TimeoutError, TooLong):
            raise Unanswered("a body does not come") from None
        if not answer.keeps:
            wire.close()  # (what is sent or read next is Unanswered)
        return answer.status, body

    # ---- an answer ---------------------------------------------------------------------------------------------------

    async def answer(self, wire: Wire, handed: Handed) -> None:
        request = handed.request
        what = f"{request.method} {request.path[:200]}"
        reply, is_told = await self.reply_to(handed, what), False
        try:
            if reply is not None:
                try:
                    return await self.post(wire, handed, reply)
                except (Refused, Unwritable) as fault:
                    is_told = True
                    self.tell(f"{what} gets 502: {fault}")
                if wire in self.ahead:
                    raise Unanswered()  # (what it would post now comes after the next request: its end is the answer)
            wire.put(self.posted(wire, handed, "error"))
            await self.said(wire, "POST")
        except Unanswered:
            is_broken = wire.is_lost or wire.reader.ended or wire.reader.fault is not None
            if is_told or not is_broken:
                raise  # (what is passed on breaks off, and its own line says why)
            raise Left(what) from None
        finally:
            if reply is not None and reply.pieces is not None:
                await reply.pieces.aclose()

    async def reply_to(self, handed: Handed, what: str) -> Optional[Reply]:
        """None if there is none, for which its requester gets 502. A fault of our own is answered too, and reported."""
        if handed.port == self.service and handed.request.path == HERE:
            return Reply(204)
        try:
            return await self.ports[handed.port](handed.request)
        except NoDescriptor:
            self.tell_shortage()
            return of_service(503, "There are too many connections (ulimit -n)")
        except Unanswered:
            return None  # (the service has broken a connection off)
        except Exception as fault:
            self.tell(f"{what} cannot be answered: {fault!r}")
            return of_service(500, "Internal Server Error")

    @staticmethod
    def posted(wire: Wire, handed: Handed, how: str, fields: Fields = (), length: Optional[int] = 0) -> bytes:
        """The head of a post."""
        return wire.request("POST", f"{REQUESTS}{handed.number}/{how}", fields, length)

    async def post(self, wire: Wire, handed: Handed, reply: Reply) -> None:
        """Refused if the service does not take it, Unanswered if the connection is broken, or has to be."""
        if reply.status == 205:  # (which has no content: RFC 9110, section 15.3.6)
            reply = reply._replace(body=b"", pieces=None)
        fields = [("Lambda-Local-Status", str(reply.status)),
                  *(("Lambda-Local-Header", f"{name}: {value}") for name, value in reply.headers
                    if name.lower() not in OWN_FIELDS)]
        length = len(reply.body) if reply.pieces is None else length_said(reply)
        head = self.posted(wire, handed, "response", fields, length)
        if reply.pieces is None:
            is_plain = len(head) + len(reply.body) <= SHORT and len(fields) <= FEW and 200 <= reply.status <= 599
            asks_on = is_plain and self.asks_on(wire, len(handed.request.content))
            await self.write(wire, head, reply.body + wire.request(*NEXT) if asks_on else reply.body)
            status, said = await self.said(wire, "POST")
        else:
            await wire.write(head)
            status, said = await self.said_of_pieces(wire, reply.pieces, length)
        if status == TOO_MUCH:
            raise Refused("its headers are more, or longer, than the service takes")
        if status not in (202, OVER):
            raise Refused(f"the service answers {status}, {message_in(said)}")

    async def write(self, wire: Wire, head: bytes, body: bytes) -> None:
        """Of a body that its reader does not take, there is no copy but for a piece."""
        try:
            for begin in range(0, max(1, len(body)), PIECE):
                self.unread[wire] = len(body) - begin
                await wire.write(head + body[begin:begin + PIECE])
                head = b""
        finally:
            self.unread.pop(wire, None)

    async def look(self) -> None:
        while True:
            self.fewest = self.asking
            await asyncio.sleep(BETWEEN_LOOKS)
            self.break_off()
            if self.fewest > SPARE:
                with contextlib.suppress(Unanswered, asyncio.TimeoutError):
                    await asyncio.wait_for(self.end_spare(self.fewest - SPARE), BETWEEN_LOOKS)

    def break_off(self) -> None:
        """Breaks off answers that are not read, if too much of them waits."""
        now, size, count = time.monotonic(), sum(self.unread.values()), 0
        for wire in sorted(self.unread, key=lambda wire: wire.full_since):
            if size > MOST_UNREAD and wire.untaken(now) >= SLOW_SECONDS:
                size, count = size - self.unread.pop(wire), count + 1
                wire.close()
        if count and now - self.last_broken > BETWEEN_TELLS:
            self.last_broken = now
            self.tell(f"{several(count, 'answer')} broken off: more than {MOST_UNREAD >> 20} MiB of answers wait, "
                      "and their readers take nothing")

    async def end_spare(self, count: int) -> None:
        """Ends so many of the connections that ask. None of them can be closed, since a request may be on its way to
        it. So it makes as many requests: whichever connection has answered one is superfluous, and ends."""
        with contextlib.closing(Client(self.service)) as client:
            for _ in range(count):
                await client.ask("GET", HERE)

    async def said_of_pieces(self, wire: Wire, pieces: Pieces, length: Optional[int]) -> Tuple[int, bytes]:
        """Sends a body as it comes. If the service answers before its end, it takes no more of it. What breaks off, or
        has another length than was said, breaks the connection off, and so the requester's response."""
        loop = asyncio.get_running_loop()
        said, sent = loop.create_task(self.said(wire, "POST")), loop.create_task(wire.send(pieces, length))
        try:
            await asyncio.wait({said, sent}, return_when=asyncio.FIRST_COMPLETED)
            if sent.done():
                await sent
            else:
                await asyncio.wait({said})
                wire.close()
            return await said
        finally:
            for task in (said, sent):
                task.cancel()
            await asyncio.gather(said, sent, return_exceptions=True)

    def tell_shortage(self) -> None:
        now = time.monotonic()
        if now - self.last_told > BETWEEN_TELLS:
            self.last_told = now
            self.tell("no file descriptor is left for another connection (ulimit -n): callers wait")


def length_said(reply: Reply) -> Optional[int]:
    """The length that the service has said of a body which is passed on, if it may be posted with it."""
    said = first(reply.headers, "content-length")
    return int(said) if said is not None and said.isdigit() and int(said) <= LONGEST_BODY else None


def message_in(said: bytes) -> str:
    """What is wrong, as the service says it."""
    words = (members_of(said) or {}).get("errorMessage")
    return words if isinstance(words, str) else said[:200].decode(errors="replace")
