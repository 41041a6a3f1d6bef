"""A proxy between a runtime or an extension and an environment's port: forwards bytes as they come, and how each of the
two ends the connection, and records each request with its reply and their times. A rule may answer in the service's
place, or close the connection after a reply.

    proxy = Proxy(port)                                      # listens at 127.0.0.1:proxy.port
    proxy.rule = Rule("response", reply=(500, b"{}"))        # of the next response, once
    proxy.exchanges                                          # what was asked, in the order in which it began"""
import re
import selectors
import socket
import struct
import threading
import time
from typing import Any, Callable, Dict, List, Optional, Set

from lambda_local.http1 import Malformed

from .clock import CLOCK
from .exchanges import ENOUGH, Exchange, Rule
from .manners import Manner
from .messages import Message, a_request, reply_to

PART = 262_144
REQUEST_LINE = re.compile(rb"\s*[A-Z]+ \S+ HTTP/1\.[01]\r?\n")  # of a request, however wrong the rest is


class Proxy:
    """Forwards the connections that it takes to the port of the service."""

    def __init__(self, target: int) -> None:
        self.target, self.connections = target, 0
        self.exchanges: List[Exchange] = []
        self._by_kind: Dict[str, List[Exchange]] = {}
        self.rule: Optional[Rule] = None  # for the next request of its kind
        self.then: Optional[Rule] = None  # for all of its kind, once that one has been made
        self.always: Dict[str, Rule] = {}  # by kind: rules for each request
        self.manner: Optional[Manner] = None  # in which replies are written, if not as the service does
        # is called with each exchange that is answered, before the answer is sent
        self.on_answer: Optional[Callable[[Exchange], None]] = None
        self.changed = threading.Condition()
        self._open: Set[socket.socket] = set()
        self._closed = False
        self._listener = socket.create_server(("127.0.0.1", 0), backlog=128)
        self.port = self._listener.getsockname()[1]
        threading.Thread(target=self._accept, daemon=True).start()

    def wait(self, condition: Callable[[], Any], seconds: float) -> Any:
        """Waits until the condition over the exchanges holds, up to this many seconds. Returns its value."""
        def wait_once(part: float) -> Any:
            with self.changed:
                return self.changed.wait_for(lambda: self._closed or condition(), part)
        CLOCK.wait(wait_once, seconds)
        with self.changed:
            return condition()

    def add(self, exchange: Exchange) -> None:
        self.exchanges.append(exchange)
        self._by_kind.setdefault(exchange.kind, []).append(exchange)

    def of(self, *kinds: str) -> List[Exchange]:
        with self.changed:
            if len(kinds) == 1:  # (of very many)
                return list(self._by_kind.get(kinds[0], ()))
            return [exchange for exchange in self.exchanges if exchange.kind in kinds]

    def close(self) -> None:
        with self.changed:
            self._closed = True
            opened = list(self._open)
            self.changed.notify_all()
        for one in [self._listener, *opened]:
            try:
                one.shutdown(socket.SHUT_RDWR)
            except OSError:
                pass
            one.close()

    def _accept(self) -> None:
        while True:
            try:
                client, (_, peer) = self._listener.accept()
            except OSError:
                return
            with self.changed:
                if self._closed:
                    client.close()
                    return
                self.connections += 1
                number = self.connections
                self._open.add(client)
                self.changed.notify_all()
            threading.Thread(target=self._serve, args=(client, number, peer), daemon=True).start()

    def _serve(self, client: socket.socket, number: int, peer: int) -> None:
        with selectors.DefaultSelector() as sources:
            link = Link(self, client, number, peer, sources)
            try:
                link.run()
            except (OSError, ValueError):
                pass  # (one of the two has gone, which the exchanges say, or the proxy has been closed)
            finally:
                link.end()
                with self.changed:
                    self._open.discard(client)
                client.close()

    def note(self, change: Callable[[], None]) -> None:
        with self.changed:
            change()
            self.changed.notify_all()

    def take_rule(self, exchange: Exchange) -> Optional[Rule]:
        """The rule for this request, if there is one."""
        with self.changed:
            if self.rule and self.rule.fits(exchange):
                rule, self.rule = self.rule, None
                if self.then:
                    self.always[self.then.kind] = self.then
                return rule
            found = self.always.get(exchange.kind)
            return found if found and found.fits(exchange) else None


class Link:
    """One connection of the client and, from its first request on, one to the service. How one of the two ends its
    side, or resets the connection, is passed on to the other: a service that answers before the request is whole ends
    its own side and may read on (RFC 9112, section 9.6)."""

    def __init__(self, proxy: Proxy, client: socket.socket, number: int, peer: int,
                 sources: selectors.BaseSelector) -> None:
        self.proxy, self.client, self.number, self.peer, self.sources = proxy, client, number, peer, sources
        self.service: Optional[socket.socket] = None
        self.request: Optional[Message] = None
        self.reply: Optional[Message] = None
        self.exchange: Optional[Exchange] = None
        self.held = b""  # a head that is not whole yet
        self.waiting = b""  # what the client has sent after a whole request
        self.reads = self.hears = True  # until what the client sends, or the service, is not HTTP/1.1
        self.service_ended = self.service_refuses = False  # it sends no more; it has reset the connection
        self.before: Optional[Exchange] = None  # the exchange that was over last
        self.raw = bytearray()  # of a reply that may be written anew

    def run(self) -> None:
        self.client.setsockopt(socket.IPPROTO_TCP, socket.TCP_NODELAY, 1)
        self.sources.register(self.client, selectors.EVENT_READ)
        while self.sources.get_map():
            for key, _ in self.sources.select():
                if isinstance(key.fileobj, socket.socket) and not self.take_from(key.fileobj):
                    return

    def take_from(self, side: socket.socket) -> bool:
        """Forwards what came. Returns whether the link continues."""
        try:
            data = side.recv(PART)
        except OSError:
            return self.reset_other(side)
        if not data:
            return self.end_other(side)
        return self.from_client(data) if side is self.client else self.from_service(data)

    # -- the ends

    def end_other(self, side: socket.socket) -> bool:
        """The side's peer sends no more: nor does the link to the other one."""
        self.sources.unregister(side)
        if side is self.client:
            self.note_behind(self.held)
            self.note_left()
            if self.service:
                self.to_service(self.held + self.waiting)
                self.service.shutdown(socket.SHUT_WR)
            return self.service is not None
        self.service_ended = True
        if self.service_refuses:
            return self.reset_other(side)
        goes_on = self.finish() if self.reply and self.is_whole_by_its_end(self.reply) else self.go_on()
        self.note_left()
        self.client.shutdown(socket.SHUT_WR)
        return goes_on

    def reset_other(self, side: socket.socket) -> bool:
        """The side's peer has reset the connection: so does the link."""
        other = self.service if side is self.client else self.client
        if side is not self.client:
            self.note_reset()
        if other:
            self.reset(other)
        return False

    @staticmethod
    def reset(side: socket.socket) -> None:
        """Its end will be a reset."""
        side.setsockopt(socket.SOL_SOCKET, socket.SO_LINGER, struct.pack("ii", 1, 0))

    def note_reset(self) -> None:
        """The service has reset the connection: if that was within a request, the reply may not be seen."""
        exchange = self.exchange
        if exchange and not exchange.asked:
            self.proxy.note(lambda: setattr(exchange, "is_reset", True))

    @staticmethod
    def is_whole_by_its_end(reply: Message) -> bool:
        try:
            reply.feed(b"")
        except Malformed:
            return False
        return reply.whole

    def stop_reading(self) -> bool:
        """From now on what the client sends is handed on as it is."""
        self.reads, self.request = False, None
        data, self.held, self.waiting = self.held + self.waiting, b"", b""
        return self.to_service(data)

    def note_left(self) -> None:
        exchange = self.exchange
        if exchange and not exchange.ended:
            self.proxy.note(lambda: setattr(exchange, "left", time.monotonic()))

    def end(self) -> None:
        self.note_left()
        if self.service:
            self.service.close()

    # -- requests

    def from_client(self, data: bytes) -> bool:
        if not self.reads:
            return self.to_service(data)
        if self.exchange and self.exchange.asked:  # (pipelined: its turn comes when the reply has gone)
            self.waiting += data
            return True
        return self.forward(data)

    def forward(self, data: bytes) -> bool:
        """Forwards bytes of a request: its head once it is whole, the rest as it comes."""
        request = self.request = self.request or a_request()
        had_head = request.head is not None
        try:
            self.waiting = request.feed(data)
        except Malformed as fault:
            self.held += data
            self.note_malformed(request, had_head, fault)
            return self.stop_reading()
        data = data[:len(data) - len(self.waiting)]
        if not had_head:
            self.held += data
            if request.head is None:
                return True
            data, self.held = self.held, b""
            self.exchange = self.begin(request)
        rule = self.exchange.by_rule if self.exchange else None
        stands_in = rule is not None and rule.stands_in
        if not stands_in and not self.to_service(data):
            return False
        if not request.whole:
            return True
        self.proxy.note(lambda: setattr(self.exchange, "asked", time.monotonic()))
        return self.answer_by(rule) if rule and stands_in else self.go_on()

    def note_behind(self, data: bytes) -> None:
        """What comes is no request: the body of the one before may be longer than it says."""
        before = self.before
        if before and not before.behind and data.strip():
            self.proxy.note(lambda: setattr(before, "behind", bytes(data[:ENOUGH])))

    def note_malformed(self, request: Message, had_head: bool, fault: Malformed) -> None:
        """What comes is no request, or not the rest of one. The service says so, in an answer that is still read."""
        if request.head is None and self.before and not REQUEST_LINE.match(self.held):
            return self.note_behind(self.held)
        if not had_head:
            self.exchange = self.begin(request)
        exchange = self.exchange
        self.proxy.note(lambda: setattr(exchange, "malformed", fault.reason))

    def begin(self, request: Message) -> Exchange:
        """The exchange of a request whose head is there, or cannot be read."""
        exchange = Exchange(self.number, self.peer, request, self.held)
        if request.head is not None:
            exchange.by_rule = self.proxy.take_rule(exchange)
        self.proxy.note(lambda: self.proxy.add(exchange))
        return exchange

    def to_service(self, data: bytes) -> bool:
        """Whether the link goes on. If the service has reset the connection, what it sent before that comes first."""
        service = self.service
        if service is None:
            service = self.service = socket.create_connection(("127.0.0.1", self.proxy.target))
            service.setsockopt(socket.IPPROTO_TCP, socket.TCP_NODELAY, 1)
            self.sources.register(service, selectors.EVENT_READ)
        try:
            service.sendall(data)
        except OSError:
            self.service_refuses = True
            self.note_reset()
        return not (self.service_refuses and self.service_ended) or self.reset_other(service)

    # -- replies

    def answer_by(self, rule: Rule) -> bool:
        if rule.holds:
            return True
        if rule.ends_after is not None:
            time.sleep(rule.ends_after)
            if rule.resets:
                self.reset(self.client)
            return False
        data = rule.bytes(self.exchange)
        reply = self.reply = reply_to("GET")
        reply.feed(data)
        return self.finish(data, rule.manner)

    def from_service(self, data: bytes) -> bool:
        while data:
            exchange = self.exchange
            is_read = self.reads or exchange is not None and exchange.answered is None
            if not (self.hears and is_read):
                self.client.sendall(data)
                return True
            reply = self.reply = self.reply or reply_to(exchange.method if exchange else "GET")
            try:
                rest = reply.feed(data)
            except Malformed:
                data, self.raw, self.hears = bytes(self.raw) + data, bytearray(), False
                self.stop_reading()
                continue
            self.raw += data[:len(data) - len(rest)]
            data = rest
            if self.proxy.manner and reply.has_begun and not reply.whole:
                return True  # (how it is written is known once it is whole)
            part, self.raw = bytes(self.raw), bytearray()
            if not reply.whole:
                self.client.sendall(part)
            elif not self.finish(part, self.manner(reply)):
                return False
        return True

    def manner(self, reply: Message) -> Optional[Manner]:
        """The manner in which the reply is to be written, if not as it comes."""
        manner, exchange, status = self.proxy.manner, self.exchange, reply.status
        return manner if manner and exchange and status and manner.fits(exchange, status) else None

    def finish(self, data: bytes = b"", manner: Optional[Manner] = None) -> bool:
        """The reply is whole with these bytes, which are sent in this manner: whether the link goes on."""
        exchange, reply, self.reply = self.exchange, self.reply, None

        def change() -> None:
            if exchange:
                exchange.reply, exchange.answered = reply, time.monotonic()
        if exchange:  # (noted first: the receiver of the reply may act on it before this thread runs again)
            self.proxy.note(change)
            if self.proxy.on_answer:
                self.proxy.on_answer(exchange)
        rule = exchange.by_rule if exchange else None
        if rule and rule.close and not manner:
            self.send_last(data)
        elif manner and reply:
            self.send_in(manner, reply)
        elif data:
            self.client.sendall(data)
        if rule and exchange and (rule.close or (rule.stands_in and exchange.is_last)):
            return False
        if manner and manner.ends:
            return False
        return self.go_on()

    def send_last(self, data: bytes) -> None:
        """Sends bytes with the end of the stream in one segment: a client that looks for an end before it asks again
        sees it, however soon it looks."""
        self.client.setsockopt(socket.IPPROTO_TCP, socket.TCP_CORK, 1)
        self.client.sendall(data)
        self.client.shutdown(socket.SHUT_WR)

    def send_in(self, manner: Manner, reply: Message) -> None:
        """Writes a reply anew."""
        for place, part in enumerate(manner.parts(reply)):
            if place:
                time.sleep(manner.pause)
            self.client.sendall(part)

    def go_on(self) -> bool:
        """A request or a reply is whole: with the next request if both are."""
        if self.exchange and not self.exchange.asked:
            return True
        if self.exchange and self.exchange.answered:
            self.before = self.exchange
            self.exchange = self.request = None
        if self.service_ended:
            return self.stop_reading()
        waiting = self.waiting
        if self.exchange or not waiting:
            return True
        self.waiting = b""
        return self.forward(waiting)
