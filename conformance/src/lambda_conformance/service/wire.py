"""The connections to the tested service: requests that are sent, and replies that come when they come, read as strictly
as `lambda_local.http1` reads them. One thread."""
import collections
import contextlib
import math
import select
import socket
import time
from typing import Deque, Dict, List, Optional, Sequence, Set, Tuple

from lambda_local.http1 import CutShort, Data, EndOfMessage, Malformed, Response, ResponseReader

from ..clock import CLOCK
from ..exchanges import shown_bytes

LEAST_SETTLE, MOST_SETTLE = 0.002, 0.1  # seconds after which a request that is not answered is taken for one that waits
WAKING_SETTLE = 0.03  # at least, on a connection that is new, or on which a request waited for this long
RECENT = 64  # round trips by which that is measured


class Exchange:
    """A request and what came of it: `status` of a reply, `ended` if the connection ended without one, else it
    waits."""

    def __init__(self, address: Tuple[str, int], method: str) -> None:
        self.address, self._reader = address, ResponseReader()
        self._reader.method = method
        self.response: Optional[Response] = None
        self._body, self.is_whole = bytearray(), False
        self.sent = time.monotonic()
        self.wakes = False  # on a connection on which a service may take longer to see it
        self.answered: Optional[float] = None
        self.wall = 0.0  # then, in Unix milliseconds
        self.status, self.ended = 0, ""

    @property
    def over(self) -> bool:
        return bool(self.status or self.ended)

    def take(self, data: bytes) -> None:
        """Takes bytes as they come; none at the end. Malformed if they are no reply."""
        self._reader.receive(data)
        while isinstance(event := self._reader.next_event(), (Response, Data, EndOfMessage)):
            if isinstance(event, Response) and event.status >= 200:
                self.response = event
            elif isinstance(event, Data):
                self._body += event.data
            elif isinstance(event, EndOfMessage):
                self.is_whole = True
                return
        if not data:
            raise CutShort(502, "the connection ended")

    @property
    def behind(self) -> bytes:
        """What came behind the reply."""
        return bytes(self._reader.buffer)

    @property
    def headers(self) -> Dict[str, str]:
        """Values by names in lower case, the first of each."""
        pairs = self.response.headers if self.response else []
        return {name.lower(): value for name, value in reversed(pairs)}

    @property
    def body(self) -> bytes:
        return bytes(self._body)


class Wire:
    """Connections are kept: one that has been answered carries the next request to its address."""

    def __init__(self) -> None:
        self.open: Dict[socket.socket, Exchange] = {}  # of exchanges that wait
        self.idle: Dict[Tuple[str, int], List[socket.socket]] = {}
        self.awake: Set[socket.socket] = set()  # of the idle ones, those whose last request was answered at once
        self.trips: Deque[float] = collections.deque(maxlen=RECENT)

    def settle(self, exchange: Optional[Exchange] = None) -> float:
        """How long a request may go without an answer until it surely waits: some round trips of late."""
        usual = sorted(self.trips)[len(self.trips) // 2] if self.trips else LEAST_SETTLE
        least = WAKING_SETTLE if exchange and exchange.wakes else LEAST_SETTLE
        return min(MOST_SETTLE, max(least, 3 * usual))

    def send(self, address: Tuple[str, int], method: str, path: str, headers: Sequence[Tuple[str, str]] = (),
             body: Optional[bytes] = None) -> Exchange:
        """Sends a request. Raises OSError if no one listens there."""
        lines = [f"{method} {path} HTTP/1.1", f"Host: {address[0]}:{address[1]}",
                 *(f"{name}: {value}" for name, value in headers)]
        if body is not None:
            lines.append(f"Content-Length: {len(body)}")
        data = ("\r\n".join(lines) + "\r\n\r\n").encode() + (body or b"")
        exchange = Exchange(address, method)
        connection = self._kept(address)
        if not connection:
            connection = socket.create_connection(address, timeout=10)
            connection.setsockopt(socket.IPPROTO_TCP, socket.TCP_NODELAY, 1)
        exchange.wakes = connection not in self.awake
        # (what it answered before it had read all is read)
        with contextlib.suppress(BrokenPipeError, ConnectionResetError):
            connection.sendall(data)
        self.open[connection] = exchange
        return exchange

    def _kept(self, address: Tuple[str, int]) -> Optional[socket.socket]:
        for connection in self.idle.pop(address, []):
            if select.select([connection], [], [], 0)[0]:  # the peer has ended it
                self._close(connection)
            else:
                self.idle.setdefault(address, []).append(connection)
        kept = self.idle.get(address, [])
        return kept.pop(max(range(len(kept)), key=lambda place: kept[place] in self.awake)) if kept else None

    def collect(self, wanted: Sequence[Exchange] = (), seconds: float = 0.0, most: float = math.inf) -> None:
        """Reads until all that is wanted is over or the time is up, of which there are at most so many real seconds;
        without a wish, for as long as that."""
        now = CLOCK.now if wanted else time.monotonic  # (what is wanted may be late if this machine is busy)
        end, last = now() + seconds, time.monotonic() + most
        while True:
            is_there = bool(wanted) and all(exchange.over for exchange in wanted)
            left = 0.0 if is_there else max(0.0, min(end - now(), last - time.monotonic()))
            ready = select.select(list(self.open), [], [], left)[0]
            for connection in ready:
                self._read(connection)
            if is_there or (not ready and (now() >= end or time.monotonic() >= last)):
                return

    def _read(self, connection: socket.socket) -> None:
        exchange = self.open[connection]
        try:
            exchange.take(connection.recv(65536))
        except OSError as fault:
            exchange.ended = f"the connection ended ({fault.strerror})"
        except CutShort:
            exchange.ended = "the connection ended"
        except Malformed as fault:
            exchange.ended = f"what came is not an HTTP/1.1 response: {fault}"
        if exchange.is_whole:
            self._end(connection, exchange)
        elif exchange.ended:
            del self.open[connection]
            self._close(connection)

    def _end(self, connection: socket.socket, exchange: Exchange) -> None:
        response = exchange.response
        if exchange.behind:
            exchange.ended = f"behind the reply come the bytes {shown_bytes(exchange.behind)}"
        elif response:
            exchange.status = response.status
        exchange.answered, exchange.wall = time.monotonic(), time.time() * 1000
        del self.open[connection]
        if exchange.ended or not response or not response.keeps_alive:
            self._close(connection)
            return
        self.idle.setdefault(exchange.address, []).append(connection)
        (self.awake.add if exchange.answered - exchange.sent < WAKING_SETTLE else self.awake.discard)(connection)

    def _close(self, connection: socket.socket) -> None:
        self.awake.discard(connection)
        connection.close()

    def note_trip(self, exchange: Exchange) -> None:
        """Notes how long an immediate answer takes."""
        self.trips.append((exchange.answered or exchange.sent) - exchange.sent)

    def leave(self, exchanges: Sequence[Exchange]) -> None:
        """Ends the connections of these, whose answers do not come and are not missed."""
        for connection, exchange in list(self.open.items()):
            if exchange in exchanges:
                del self.open[connection]
                self._close(connection)

    def drop(self) -> None:
        """Ends all connections, as processes that are killed do."""
        for connection in [*self.open, *(one for kept in self.idle.values() for one in kept)]:
            self._close(connection)
        self.open.clear()
        self.idle.clear()
