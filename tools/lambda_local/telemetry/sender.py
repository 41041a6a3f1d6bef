"""Batches on their way to a receiver: over HTTP, where it acknowledges each, or over TCP. A receiver that is slow, away
or wrong costs nothing but the room of its own buffer. A batch that was not taken is sent again, so none is lost while
there is room, and one may come twice."""
import asyncio
import contextlib
import time
from typing import Callable, List, Optional, Tuple

from ..exchange.connection import LOCAL, NotAnswer, TooLong
from ..exchange.of_tasks import Wire, connected
from ..front.tasks import begin_task
from .buffer import Buffer
from .schema import array_of, lines_of
from .subscription import Destination

ACKNOWLEDGED_SECONDS = 60.0  # for an answer
LONGEST_ANSWER = 64 << 10  # bytes
FIRST_PAUSE, LONGEST_PAUSE = 0.05, 2.0  # seconds, before a batch is sent again
BETWEEN_LOOKS = 0.005
Streams = Tuple[asyncio.StreamReader, asyncio.StreamWriter]


class NotTaken(Exception):
    """Why a receiver has not taken a batch."""


class Receiver:
    """A receiver, and a connection to it, made when there is something to send."""
    is_kept = False  # whether it can be used again

    def __init__(self, destination: Destination):
        self.destination = destination

    async def send(self, events: List[bytes]) -> None:
        """Raises NotTaken; the next time, a new connection is made."""
        try:
            was_kept, self.is_kept = self.is_kept, False
            try:
                await self._send(events)
            except asyncio.TimeoutError:  # (from Python 3.11 on an OSError)
                raise
            except (OSError, EOFError):
                self.close()
                if not was_kept:
                    raise
                await self._send(events)  # (it had closed a connection that was not used)
        except asyncio.TimeoutError:
            raise NotTaken(f"it has not answered within {ACKNOWLEDGED_SECONDS:g} s") from None
        except NotAnswer as fault:
            raise NotTaken(f"its answer is not HTTP/1.1: {fault}") from None
        except (OSError, EOFError) as fault:
            raise NotTaken(str(fault) or type(fault).__name__) from None
        finally:
            if not self.is_kept:
                self.close()

    async def _send(self, events: List[bytes]) -> None:
        raise NotImplementedError

    def close(self) -> None:
        raise NotImplementedError


class OverHttp(Receiver):
    wire: Optional[Wire] = None

    async def _send(self, events: List[bytes]) -> None:
        await asyncio.wait_for(self._ask(array_of(events)), ACKNOWLEDGED_SECONDS)

    async def _ask(self, body: bytes) -> None:
        """Of an answer that is longer no more is read: it counts by its head."""
        to = self.destination
        if self.wire is None:
            self.wire = await connected(to.port)
        await self.wire.write(self.wire.request(to.method, to.target, [
            ("Host", f"{to.host}:{to.port}"), ("Content-Type", "application/json")], len(body)) + body)
        answer = await self.wire.answer(to.method)
        with contextlib.suppress(TooLong):
            await answer.whole(LONGEST_ANSWER)
        self.is_kept = answer.keeps and self.wire.is_silent()
        if not 200 <= answer.status < 300:
            raise NotTaken(f"it answers {answer.status}")

    def close(self) -> None:
        if self.wire is not None:
            self.wire.close()
            self.wire = None


class OverTcp(Receiver):
    """There is no answer: what the system has taken has been sent. So a receiver may take its time."""
    streams: Optional[Streams] = None

    async def _send(self, events: List[bytes]) -> None:
        if self.streams is None:
            self.streams = await asyncio.open_connection(LOCAL, self.destination.port)
        reader, writer = self.streams
        if reader.at_eof():
            raise EOFError("it has closed the connection")
        writer.transport.set_write_buffer_limits(high=0)
        writer.write(lines_of(events))
        await writer.drain()
        if writer.transport.is_closing():
            raise EOFError("it has closed the connection")
        self.is_kept = True

    def close(self) -> None:
        if self.streams is not None:
            self.streams[1].transport.abort()
            self.streams = None


def receiver_at(destination: Destination) -> Receiver:
    return OverTcp(destination) if destination.protocol == "TCP" else OverHttp(destination)


class Sender:
    """Sends what is in a buffer, batch by batch."""

    def __init__(self, destination: Destination, buffer: Buffer, tell: Callable[[str], None]):
        self.buffer, self.tell = buffer, tell
        self.receiver = receiver_at(destination)
        self.is_hurried = self.is_ended = self.is_woken = False
        self.is_idle = True  # nothing waits, and so no time is running
        self.task: Optional["asyncio.Task[None]"] = None

    def begin(self) -> None:
        """In the loop that it will use."""
        self.loop, self.changed = asyncio.get_running_loop(), asyncio.Event()
        self.task = begin_task(self._run(), "what sends telemetry", self.tell)

    # ---- from its desk -----------------------------------------------------------------------------------------------

    def wake(self) -> None:
        """Something has come."""
        if self.task and not self.is_woken and (self.is_idle or self.is_hurried or self.buffer.is_full_batch):
            self.is_woken = True
            self._call(self.changed.set)

    def hurry(self) -> None:
        """From here on nothing waits for a batch to fill."""
        self.is_hurried = True
        self.wake()

    def end(self) -> None:
        self.is_ended = True
        if self.task:
            self._call(self.task.cancel)

    def _call(self, what: Callable[[], object]) -> None:
        try:
            self.loop.call_soon_threadsafe(what)
        except RuntimeError:
            pass  # (the loop has ended, and all that it serves)

    # ---- in its loop -------------------------------------------------------------------------------------------------

    async def flushed(self, seconds: float) -> None:
        """Until its receiver has taken all, or its time is over."""
        end = time.monotonic() + seconds
        while not self.is_ended and time.monotonic() < end:
            if not self.buffer.waiting:
                return
            await asyncio.sleep(BETWEEN_LOOKS)

    async def _run(self) -> None:
        """A fault of its own ends no telemetry: it is told, and the batch is sent again."""
        pause = FIRST_PAUSE
        try:
            while True:
                await self._due()
                try:
                    await self._send_one()
                    pause = FIRST_PAUSE
                except NotTaken as reason:
                    self._tell_first(pause, f"a batch of telemetry is not taken: {reason}")
                    await asyncio.sleep(pause)
                    pause = min(2 * pause, LONGEST_PAUSE)
                except Exception as fault:
                    self._tell_first(pause, f"a batch of telemetry could not be sent: {fault!r}"[:300])
                    await asyncio.sleep(LONGEST_PAUSE)
                    pause = LONGEST_PAUSE
        finally:
            self.receiver.close()

    def _tell_first(self, pause: float, what: str) -> None:
        """(of several in a row)"""
        if pause == FIRST_PAUSE:
            self.tell(what)

    async def _due(self) -> None:
        while True:
            self.changed.clear()
            self.is_woken = False
            wait = self.buffer.wait(time.monotonic())
            if wait is not None and (self.is_hurried or wait <= 0):
                return
            self.is_idle = wait is None
            try:
                await asyncio.wait_for(self.changed.wait(), wait)
            except asyncio.TimeoutError:
                pass

    async def _send_one(self) -> None:
        batch = self.buffer.batch()
        await self.receiver.send(batch)
        self.buffer.taken(len(batch), time.monotonic())
