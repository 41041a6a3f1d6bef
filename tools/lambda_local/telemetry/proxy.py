"""The port that an environment's processes have as AWS_LAMBDA_RUNTIME_API: connections that are read as they pass, each
with one of its own to the environment's port. Nothing ends a connection here but one of its sides, however long it
waits. What one side does not take, the other is not asked for."""
import asyncio
import socket
import struct
from typing import Callable, Dict, Optional, Set, Tuple, cast

from ..front.tasks import begin_task
from .conversation import Conversation, Ears
from .newcomers import Newcomers
from .quick import Quick

MOST = 64  # connections at once; a runtime and ten extensions have eleven polls
A_PROXY = 8  # descriptors: two for each connection of a runtime and some extensions
HELD_SECONDS = 20.0  # for the rest of a request that is answered here, as the service has it for a head
STEPS = 4  # of the loop, in which what is cancelled ends
BY_RESET = struct.pack("ii", 1, 0)  # of SO_LINGER
HERE = "127.0.0.1"
OTHER_SIDE, CALLER = "the other side", "the caller of a stream"  # that takes no more just now
Tell = Callable[[str], None]


class Side(asyncio.Protocol):
    """One of the two connections of a pair."""

    def __init__(self, pair: "Pair", is_client: bool):
        self.pair, self.is_client = pair, is_client
        self.transport: Optional[asyncio.Transport] = None
        self.has_ended = self.is_lost = False
        self.reasons: Set[str] = set()  # for which it is not read from

    def connection_made(self, transport: asyncio.BaseTransport) -> None:
        assert isinstance(transport, asyncio.Transport)
        self.transport = transport

    def data_received(self, data: bytes) -> None:
        self.pair.came(self, data)

    def eof_received(self) -> bool:
        self.has_ended = True
        self.pair.came(self, b"")
        return True  # (the other direction stays open)

    def connection_lost(self, fault: Optional[Exception]) -> None:
        self.is_lost = True
        self.pair.lost(self, fault)

    def pause_writing(self) -> None:
        self.pair.other(self).pause(OTHER_SIDE)

    def resume_writing(self) -> None:
        self.pair.other(self).resume(OTHER_SIDE)

    # ---- what its pair does ------------------------------------------------------------------------------------------

    def pause(self, reason: str) -> None:
        if self.transport and not self.is_lost and not self.reasons:
            self.transport.pause_reading()
        self.reasons.add(reason)

    def resume(self, reason: str) -> None:
        if reason not in self.reasons:
            return
        self.reasons.discard(reason)
        if self.transport and not self.is_lost and not self.reasons:
            self.transport.resume_reading()

    def write(self, data: bytearray) -> None:
        if data and self.transport and not self.is_lost:
            self.transport.write(bytes(data))
        data.clear()

    def end(self) -> None:
        """Says that nothing more comes."""
        if self.transport and not self.is_lost and not self.transport.is_closing() and self.transport.can_write_eof():
            self.transport.write_eof()

    def close(self, by_reset: bool = False) -> None:
        if self.transport is None or self.is_lost:
            return
        if by_reset:
            self.transport.get_extra_info("socket").setsockopt(socket.SOL_SOCKET, socket.SO_LINGER, BY_RESET)
            self.transport.abort()
        else:
            self.transport.close()


class Pair:
    """A connection of a process, and the one to the environment that belongs to it."""

    def __init__(self, proxy: "Proxy"):
        self.proxy, self.conversation = proxy, Conversation(proxy.ears)
        self.quick = Quick(proxy.ears, self.conversation) if proxy.ears.is_quick else None
        self.client, self.service = Side(self, True), Side(self, False)
        self.task: Optional["asyncio.Task[None]"] = None
        self.holding: Optional[asyncio.TimerHandle] = None
        self.is_waiting = False

    @property
    def is_idle(self) -> bool:
        """Whether no request of it waits for an answer."""
        return not self.conversation.open and not (self.quick and self.quick.is_open)

    def other(self, side: Side) -> Side:
        return self.service if side.is_client else self.client

    async def begin(self, peer: socket.socket) -> None:
        loop = cast(asyncio.BaseEventLoop, asyncio.get_running_loop())
        try:
            await loop.create_connection(lambda: self.service, HERE, self.proxy.port)
            await loop.connect_accepted_socket(lambda: self.client, peer)
        except BaseException as fault:
            peer.close()
            self.service.close()
            self.proxy.leave(self)
            if not isinstance(fault, OSError):  # (that is: the service has ended, or there is no descriptor)
                raise
        if self.service.is_lost:
            self.client.close()

    def came(self, side: Side, data: bytes) -> None:
        if self.quick and (self.quick.client_sent if side.is_client else self.quick.service_sent)(data):
            return self._pass(side, data, self.quick)
        (self.conversation.client_sent if side.is_client else self.conversation.service_sent)(data)
        self._flush()

    def _pass(self, side: Side, data: bytes, quick: Quick) -> None:
        other = self.other(side)
        if side.is_client or not (self.is_waiting or quick.waits):
            if other.transport and not other.is_lost:
                other.transport.write(data)
            return
        self.conversation.to_client += data
        if quick.waits:
            self.conversation.waits.append(quick.waits)
            quick.waits = None
        self._flush()

    def _flush(self) -> None:
        conversation = self.conversation
        self.service.write(conversation.to_service)
        if self.client.has_ended and not conversation.to_service:
            self.service.end()
        if conversation.waits and not self.is_waiting:
            self.is_waiting = True
            self.task = begin_task(self._wait(), "a connection of its processes", self.proxy.tell)
        if not self.is_waiting:
            self._flush_client()
        full = conversation.full
        if full is not None:
            self.client.pause(CALLER)
            full.when_room(lambda: self.client.resume(CALLER))
        self._watch_held()

    def _flush_client(self) -> None:
        self.client.write(self.conversation.to_client)
        if self.service.has_ended:
            self.client.end()
        if self.service.has_ended and self.client.has_ended:
            self.client.close()  # (once what it gets is written; the service's side follows)
        if self.conversation.closes and not self.conversation.open:
            self.client.close()

    async def _wait(self) -> None:
        """Before more goes to the client."""
        while self.conversation.waits:
            await self.conversation.waits.pop(0)
        self.is_waiting = False
        self._flush_client()
        if self.service.is_lost:
            self.client.close()

    def _watch_held(self) -> None:
        """Half a request that would be answered here has its time."""
        is_held = self.conversation.is_held
        if is_held and self.holding is None:
            self.holding = asyncio.get_running_loop().call_later(HELD_SECONDS, self.client.close, True)
        elif not is_held and self.holding is not None:
            self.holding.cancel()
            self.holding = None

    def lost(self, side: Side, fault: Optional[Exception]) -> None:
        """How one side ends, the other does."""
        if side.is_client:
            self.conversation.lost()
            if self.holding is not None:
                self.holding.cancel()
        if not (self.is_waiting and not side.is_client):
            self.other(side).close(by_reset=fault is not None)
        if self.client.is_lost and (self.service.is_lost or self.service.transport is None):
            self.proxy.leave(self)

    def abort(self) -> None:
        self.client.close(by_reset=True)
        self.service.close(by_reset=True)


class Proxy:
    """One environment's. `port` is that of the environment itself."""

    def __init__(self, listener: socket.socket, port: int, ears: Ears, tell: Tell,
                 when_stopped: Callable[[], None] = lambda: None, most: int = MOST, descriptors: int = A_PROXY):
        self.listener, self.port, self.ears, self.tell, self.most = listener, port, ears, tell, most
        self.when_stopped, self.descriptors = when_stopped, descriptors
        self.newcomers = Newcomers(listener, self._welcome, self._tell_shortage)
        self.pairs: Dict[Pair, None] = {}  # in the order in which they came
        self.beginning: Set["asyncio.Task[None]"] = set()
        self.told: Set[str] = set()

    @property
    def address(self) -> Tuple[str, int]:
        name: Tuple[str, int] = self.listener.getsockname()
        return name

    async def start(self) -> None:
        self.loop = asyncio.get_running_loop()
        self.newcomers.begin()

    async def stop(self) -> None:
        self.newcomers.end()
        for task in self.beginning:
            task.cancel()
        for pair in list(self.pairs):
            pair.abort()
        self.when_stopped()
        for _ in range(STEPS):
            await asyncio.sleep(0)

    def _welcome(self, peer: socket.socket) -> None:
        """Without room, one that asks nothing makes it; if each does, the newcomer is closed."""
        if len(self.pairs) >= self.most:
            idle = next((pair for pair in self.pairs if pair.is_idle), None)
            if idle is None:
                peer.close()
                self._tell_once(f"a connection of its processes is closed at once: {self.most} others, which are the "
                                "most, wait for answers")
                return
            self.leave(idle)
            idle.abort()
        pair = Pair(self)
        self.pairs[pair] = None
        task = self.loop.create_task(pair.begin(peer))
        self.beginning.add(task)
        task.add_done_callback(self.beginning.discard)

    def _tell_shortage(self) -> None:
        self._tell_once("no file descriptor is left for another connection of its processes (ulimit -n): they wait")

    def _tell_once(self, line: str) -> None:
        if line not in self.told:
            self.told.add(line)
            self.tell(line)

    def leave(self, pair: Pair) -> None:
        self.pairs.pop(pair, None)
