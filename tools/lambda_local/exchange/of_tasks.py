"""A connection of a task, whose reader of HTTP is fed what comes. What was not read is bounded, as is what waits to be
sent.

It is a protocol of asyncio and not a pair of its streams, for three reasons. A connection is kept only while it is
silent, and a stream does not say whether it holds bytes that nobody has read. What is done for a peer that has gone
ends at once, and a stream tells its loss only to who reads or writes. And a stream copies what comes into a buffer of
its own before the reader of HTTP does: measured with the same reader, a request of an SDK took 80 microseconds of
processor time through streams and 72 so, one with a body of 1 MiB 900 and 600."""
import asyncio
import contextlib
import select
import threading
import time
from typing import Dict, Mapping, Optional, Tuple, Union

from ..http1 import Event
from .connection import LOCAL, Connection, Silent, Unanswered, words_of

AT_ONCE = 128 << 10  # bytes that are read
MOST_UNREAD = 256 << 10  # bytes; with more, the peer is not read from until they are taken
SECONDS = 30.0  # for an answer
Answered = Tuple[int, Dict[str, str], bytes]  # status, headers by their names in lower case, body


class Shared(threading.local):
    """Where what comes is put before its reader takes it, at once: one place for all connections of a thread. (A new
    place for each time costs some 40 microseconds, if the system has to give it again and again.)"""

    def __init__(self) -> None:
        self.place = memoryview(bytearray(AT_ONCE))


SHARED = Shared()


class Wire(Connection, asyncio.BufferedProtocol):
    """One is made by `connected`."""

    def __init__(self, host: str, silence: Optional[float] = None) -> None:
        super().__init__(host, silence)
        self.is_lost = self.is_paused = self.is_silenced = False
        self.transport: asyncio.Transport  # from connection_made on
        self.waiting: "Optional[asyncio.Future[None]]" = None
        self.draining: "Optional[asyncio.Future[None]]" = None
        self.timer: Optional[asyncio.TimerHandle] = None  # of the silence
        self.full_since = time.monotonic()  # while it drains: since when its peer takes too little
        self.touched = time.monotonic()  # when it was waited for, or something has come

    # ---- what asyncio tells ------------------------------------------------------------------------------------------

    def connection_made(self, transport: asyncio.BaseTransport) -> None:
        assert isinstance(transport, asyncio.Transport)
        self.transport = transport

    def get_buffer(self, _sizehint: int) -> memoryview:
        return SHARED.place

    def buffer_updated(self, count: int) -> None:
        self.touched = time.monotonic()
        self.reader.receive(SHARED.place[:count])
        if len(self.reader.buffer) > MOST_UNREAD:
            self.hold()
        self._wake()

    def eof_received(self) -> bool:
        self.reader.receive(b"")
        self._wake()
        return True  # (what ended its side may still take what is sent)

    def connection_lost(self, fault: Optional[Exception]) -> None:
        self.is_lost = True
        if self.timer:
            self.timer.cancel()
        self._wake()
        if self.draining and not self.draining.done():
            self.draining.set_result(None)

    def pause_writing(self) -> None:
        self.draining, self.full_since = asyncio.get_running_loop().create_future(), time.monotonic()

    def resume_writing(self) -> None:
        if self.draining and not self.draining.done():
            self.draining.set_result(None)

    def untaken(self, now: float) -> float:
        """For how many seconds its peer has taken too little of what waits to be sent."""
        return now - self.full_since if self.draining is not None else 0.0

    def _wake(self) -> None:
        if self.waiting and not self.waiting.done():
            self.waiting.set_result(None)

    # ---- reading -----------------------------------------------------------------------------------------------------

    async def event(self) -> Event:
        event = await super().event()
        if self.is_paused and len(self.reader.buffer) <= MOST_UNREAD:
            self._resume()
        return event

    async def more(self) -> None:
        self._is_usable()
        self._resume()
        self.touched, self.waiting = time.monotonic(), asyncio.get_running_loop().create_future()
        if self.silence is not None and self.timer is None:
            self._look(self.silence)
        try:
            await self.waiting
        finally:
            self.waiting = None
        self._is_usable()

    async def came(self) -> None:
        """Waits until something of an answer has come, or none will."""
        with contextlib.suppress(Unanswered):
            while not self.reader.buffer and not self.reader.ended:
                await self.more()

    def _is_usable(self) -> None:
        if self.is_silenced:
            raise Silent(f"no answer within {self.silence:g} s")
        if self.is_lost:
            raise Unanswered("it has closed the connection")

    def _look(self, silence: float) -> None:
        """Ends it if it is waited for and silent for too long. (One timer for each silence, and none for each piece.)
        """
        rest = self.touched + silence - time.monotonic()
        if rest > 0 or self.waiting is None:
            self.timer = asyncio.get_running_loop().call_later(rest if rest > 0 else silence, self._look, silence)
        else:
            self.is_silenced = True
            self.close()

    def hold(self) -> None:
        if not self.is_paused and not self.is_lost:
            self.is_paused = True
            self.transport.pause_reading()

    def _resume(self) -> None:
        if self.is_paused and not self.is_lost:
            self.is_paused = False
            self.transport.resume_reading()

    async def turn(self) -> None:
        await asyncio.sleep(0)

    # ---- writing -----------------------------------------------------------------------------------------------------

    async def write(self, data: bytes) -> None:
        self._is_usable()
        self.put(data)
        if self.draining:
            await self.draining
            self.draining = None
            self._is_usable()

    def put(self, data: bytes) -> None:
        self.transport.write(data)

    def close(self) -> None:
        self.transport.abort()

    def is_silent(self) -> bool:
        """Whether nothing has come that was not read, not even the end: also nothing that the system has and the loop
        has not looked at yet."""
        if self.is_lost or not self.reader.is_silent or self.transport.is_closing():
            return False
        poll = select.poll()
        poll.register(self.transport.get_extra_info("socket").fileno(), select.POLLIN)
        return not poll.poll(0)


async def connected(port: int, silence: Optional[float] = None, host: str = LOCAL) -> Wire:
    """A connection to a port. OSError if there is none."""
    try:
        _, wire = await asyncio.wait_for(asyncio.get_running_loop().create_connection(
            lambda: Wire(f"{host}:{port}", silence), host, port), silence)
    except asyncio.TimeoutError as fault:  # (from Python 3.11 on also the system's)
        raise Silent(words_of(fault) if silence is None else f"no connection within {silence:g} s") from None
    return wire


async def sent(port: int, method: str, target: str, body: Union[str, bytes] = b"",
               headers: Mapping[str, str] = {}) -> Wire:
    """The connection on which a request was sent. OSError if there is none."""
    wire = await connected(port)
    data = body.encode() if isinstance(body, str) else body
    wire.put(wire.request(method, target, list(headers.items()), len(data)) + data)
    return wire


async def answered(wire: Wire, method: str) -> Answered:
    """The answer to a request with this method, whole. Unanswered if it does not come so."""
    answer = await wire.answer(method)
    return answer.status, {name.lower(): value for name, value in answer.headers}, await answer.whole()


async def ask(port: int, method: str, target: str, body: Union[str, bytes] = b"", headers: Mapping[str, str] = {},
              seconds: float = SECONDS) -> Answered:
    """The answer to a request. OSError if none comes within so many seconds."""
    async def exchange() -> Answered:
        with contextlib.closing(await sent(port, method, target, body, headers)) as wire:
            return await answered(wire, method)
    try:
        return await asyncio.wait_for(exchange(), seconds)
    except asyncio.TimeoutError:
        raise Silent(f"no answer within {seconds:g} s") from None
