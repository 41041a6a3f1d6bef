"""One connection of a runtime or an extension, without sockets: what it sends goes to the environment's own port byte
for byte, and what comes back goes to it, whatever it is. Requests and answers are read beside that. A request for one
of the routes that are answered here goes no further, and its answer waits for those before it."""
from collections import deque
from typing import Awaitable, Callable, Deque, List, Optional, Tuple, Union

from ..http1 import (CLOSED, NEED_DATA, Data, EndOfMessage, Headers, Malformed, Reader, Request, RequestReader,
                     Response, ResponseReader, response_head)

BEGINS_OWN = b"PUT "  # what the requests begin with that are answered here; no other route has this method
LONGEST_BODY = 256 << 10  # bytes of such a request
LONGEST_REASON = 4096  # bytes of the answer to one that is refused
MOST_OPEN = 100  # requests on a connection that wait for their answers
CONTINUE = b"HTTP/1.1 100 Continue\r\n\r\n"


class Exchange:
    """A request that passes, and its answer: what is done when some of it comes."""
    holds = False  # whether the answer is kept until it is whole
    waits: Optional[Awaitable[object]] = None  # before what has come of its answer goes on

    def __init__(self, head: Request):
        self.head = head

    @property
    def is_full(self) -> bool:
        """Whether no more of its request is wanted just now."""
        return False

    def when_room(self, resume: Callable[[], None]) -> None:
        """What is called once more of its request is wanted."""

    def sent(self, data: bytes) -> None:
        """A part of the request's body."""

    def all_sent(self, trailers: Headers) -> None:
        """The request is whole."""

    def answered(self, head: Response) -> None:
        """The head of its answer has come."""

    def came(self, data: bytes) -> None:
        """A part of the answer's body."""

    def all_came(self) -> None:
        """The answer is whole."""

    def lost(self) -> None:
        """Its connection has gone before that."""


class Answer:
    """What is answered here."""

    def __init__(self, status: int, reason: str, body: bytes):
        self.status, self.reason, self.body = status, reason, body

    def written(self, version: str, keeps: bool) -> bytes:
        headers = [("Content-Type", "application/json"), ("Content-Length", str(len(self.body)))]
        if not keeps:
            headers.append(("Connection", "close"))
        return response_head(version, self.status, self.reason, headers) + self.body


class Own:
    """A request that is answered here."""

    def __init__(self, head: Request):
        self.head, self.body = head, bytearray()
        self.written: Optional[bytes] = None

    @property
    def is_too_long(self) -> bool:
        return len(self.body) > LONGEST_BODY


class Ears:
    """What a conversation is read for."""
    is_quick = False  # whether of plain exchanges only the delivery of an invocation is heard

    def given(self, identifier: str) -> Optional[Awaitable[object]]:
        """An invocation comes to a runtime, of whose exchange nothing else is heard. What is returned is awaited before
        it goes on."""
        return None

    def exchange(self, head: Request) -> Exchange:
        """A request that passes begins."""
        return Exchange(head)

    def is_own(self, head: Request) -> bool:
        return False

    def answer(self, head: Request, body: Optional[bytes]) -> Answer:
        """The answer to a request for one of the routes here; without a body if it is too long."""
        raise NotImplementedError

    def refused(self, head: Request, answer: Response, body: bytes) -> None:
        """A request that passed was answered with a status from 400 to 499, and a body that begins so."""

    def unreadable(self, fault: Malformed, head: Optional[Request], begun: bytes) -> None:
        """What came is no request, or not the rest of this one."""


class Conversation:
    """After each call, `to_service` and `to_client` have what goes out."""

    def __init__(self, ears: Ears):
        self.ears = ears
        self.requests, self.responses = RequestReader(), ResponseReader()
        self.to_service, self.to_client = bytearray(), bytearray()
        self.open: Deque[Union[Exchange, Own]] = deque()  # in the order in which they are answered
        self.is_blind = False  # what passes is not HTTP/1.1, and is not read any more
        self.closes = False  # its last answer is the last one
        self.waits: List[Awaitable[object]] = []  # for what, before more goes to the client
        self._from_client, self._from_service = bytearray(), bytearray()  # what was not passed on
        self._ahead = 0  # bytes that were passed on and not read
        self._current: Union[Exchange, Own, None] = None  # whose request comes
        self._refusal: Optional[Response] = None  # the answer that comes, if it is one
        self._reason = bytearray()

    @property
    def is_between(self) -> bool:
        """Whether nothing of a message is here, and no request waits for an answer."""
        return not (self.open or self.is_blind or self.closes or self._from_client or self._from_service or self._ahead
                    or self.requests.buffer or self.responses.buffer)

    # ---- requests ----------------------------------------------------------------------------------------------------

    def client_sent(self, data: bytes) -> None:
        """`data` is empty at the end of its side."""
        if self.closes:
            return
        self._from_client += data
        if not self.is_blind:
            self.requests.receive(data)
            self._read_requests()
        if self.is_blind and not self.closes:
            self._pass(len(self._from_client))

    def _read_requests(self) -> None:
        while not self.closes and not self.is_blind:
            event, read = self._next(self.requests)
            if event is None or event is CLOSED:
                break
            self._take_request(event, read)
            if event is NEED_DATA:
                break
        if not self.is_held and not self.closes:
            self._ahead += len(self._from_client)
            self._pass(len(self._from_client))

    @property
    def full(self) -> Optional[Exchange]:
        """The exchange whose request is not to be read further just now."""
        current = self._current
        return current if isinstance(current, Exchange) and current.is_full else None

    @property
    def is_held(self) -> bool:
        """Whether half a request that is answered here, or may be, has come."""
        begun = bytes(self.requests.buffer[:len(BEGINS_OWN)])
        is_between = self._current is None and not self.is_blind
        return isinstance(self._current, Own) or is_between and bool(begun) and BEGINS_OWN.startswith(begun)

    def _next(self, reader: Reader) -> "Tuple[object, int]":
        """The next event, and how many bytes have been read for it."""
        before = len(reader.buffer)
        try:
            return reader.next_event(), before - len(reader.buffer)
        except Malformed as fault:
            if reader is self.requests:
                head = self._current.head if self._current else None
                self.ears.unreadable(fault, head, bytes(self._from_client[:LONGEST_REASON]))
            self._is_unreadable()
            return None, 0

    def _is_unreadable(self) -> None:
        """From here on all passes. (Half of a request that would be answered here has no answer.)"""
        if isinstance(self._current, Own):
            self.closes = True
        self.is_blind = True
        self.to_client += self._from_service
        self._from_service.clear()

    def _take_request(self, event: object, read: int) -> None:
        if isinstance(event, Request):
            self._current = Own(event) if self.ears.is_own(event) else self.ears.exchange(event)
            self.open.append(self._current)
            self.closes = self.closes or len(self.open) > MOST_OPEN
        current = self._current
        if isinstance(current, Own):
            del self._from_client[:read]
            self._take_own(current, event)
        else:
            passed = max(0, read - self._ahead)
            self._ahead -= read - passed
            self._pass(passed)
            if isinstance(current, Exchange):
                self._take_passing(current, event)

    def _take_passing(self, current: Exchange, event: object) -> None:
        if isinstance(event, Data):
            current.sent(event.data)
        elif isinstance(event, EndOfMessage):
            self._current = None
            self.requests.next_message()
            current.all_sent(event.trailers)

    def _take_own(self, current: Own, event: object) -> None:
        if isinstance(event, Request) and event.expects_continue and self.open[0] is current:
            self.to_client += CONTINUE
        if isinstance(event, Data) and not current.is_too_long:
            current.body += event.data
        is_whole = isinstance(event, EndOfMessage)
        if not is_whole and not current.is_too_long:
            return
        self._current = None
        if is_whole:
            self.requests.next_message()
        keeps = is_whole and current.head.keeps_alive
        answer = self.ears.answer(current.head, None if current.is_too_long else bytes(current.body))
        current.written = answer.written(current.head.version, keeps)
        self.closes = self.closes or not keeps
        self._answer_own()

    def _answer_own(self) -> None:
        while self.open and isinstance(first := self.open[0], Own) and first.written is not None:
            self.to_client += first.written
            self.open.popleft()

    def _pass(self, count: int) -> None:
        self.to_service += self._from_client[:count]
        del self._from_client[:count]

    # ---- answers -----------------------------------------------------------------------------------------------------

    def service_sent(self, data: bytes) -> None:
        """`data` is empty at the end of its side, with which all of it goes on."""
        self._from_service += data
        if not self.is_blind:
            self.responses.receive(data)
            self._read_responses()
        if self.is_blind or not data:
            self.to_client += self._from_service
            self._from_service.clear()

    def _read_responses(self) -> None:
        while not self.is_blind:
            first = self.open[0] if self.open else None
            if self.responses.is_silent and first is None:
                break
            self.responses.method = first.head.method if first else "GET"
            event, read = self._next(self.responses)
            if event is None or event is CLOSED:
                break
            if not isinstance(first, Exchange):  # (nobody has asked)
                self._is_unreadable()
                break
            self._take_response(first, event, read)
            if event is NEED_DATA:
                break

    def _take_response(self, exchange: Exchange, event: object, read: int) -> None:
        if isinstance(event, Response) and event.status >= 200:
            exchange.answered(event)
            self._refusal, self._reason = event if 400 <= event.status < 500 else None, bytearray()
        elif isinstance(event, Data):
            exchange.came(event.data)
            self._reason += event.data[:LONGEST_REASON - len(self._reason)] if self._refusal else b""
        elif isinstance(event, EndOfMessage):
            exchange.all_came()
            if self._refusal:
                self.ears.refused(exchange.head, self._refusal, bytes(self._reason))
        if exchange.waits is not None:
            self.waits.append(exchange.waits)
            exchange.waits = None
        is_over = isinstance(event, EndOfMessage)
        if is_over or not exchange.holds:
            count = len(self._from_service) - len(self.responses.buffer) if exchange.holds else read
            self.to_client += self._from_service[:count]
            del self._from_service[:count]
        if is_over:
            self.open.popleft()
            self.responses.next_message()
            self._answer_own()

    # ---- the end -----------------------------------------------------------------------------------------------------

    def lost(self) -> None:
        """The connection has gone."""
        while self.open:
            waiting = self.open.popleft()
            if isinstance(waiting, Exchange):
                waiting.lost()
