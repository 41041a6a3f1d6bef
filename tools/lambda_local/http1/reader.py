"""Readers of requests and of responses: a buffer, and what is expected next in it."""
import re
from typing import Callable, List, Optional, Union

from .chunks import Chunks
from .events import CLOSED, NEED_DATA, PAUSED, Data, EndOfMessage, Event, Malformed, Request, Response
from .framing import UNTIL_CLOSE, of_request, of_response
from .syntax import (BEGUN_FIELD, BEGUN_REQUEST_LINE, BEGUN_STATUS_LINE, ONE_FIELD, ONE_REQUEST_LINE, ONE_STATUS_LINE,
                     REQUEST_LINE, STATUS_LINE, fields_of, is_utf8, target_of)

PIECE = 256 << 10  # bytes of a body that are given at once
# The service's (docs/formats.md): bytes of a head and of a body's trailers, and how many fields each of them may have.
MOST_HEAD, MOST_TRAILERS, MOST_FIELDS = 64 << 10, 16 << 10, 100
LOOKED_AT = 4 << 10  # bytes of a line that has not ended; so a slow peer costs no more than its bytes
END = re.compile(rb"\n\r?\n")
BARE = "each line of a head must end with CR LF"
EMPTY_LINES = re.compile(rb"(?:\r?\n)+")


class Reader:
    """What requests and responses have in common."""
    begun_line = BEGUN_REQUEST_LINE
    status_of_faults: Optional[int] = None  # that of all, if it is one

    def __init__(self) -> None:
        self.buffer, self.ended = bytearray(), False
        self.fault: Optional[Malformed] = None
        self._step: Callable[[], Event] = self._head
        # bytes of the head in which its end is not; those of its lines that are whole; of the empty lines before it
        self._seen = self._lines = self._blank = 0
        self._fields, self._is_bare = 0, False  # how many of these lines there are; whether an empty one has no CR
        self._left = 0  # of a body with a length
        self._chunks = Chunks()

    def receive(self, data: Union[bytes, memoryview]) -> None:
        """Takes bytes as they come; none say that the peer has ended its side."""
        self.buffer += data
        self.ended = self.ended or not data

    def next_event(self) -> Event:
        """Raises Malformed if what came is not HTTP/1.1, and from then on always."""
        if self.fault:
            raise self.fault
        try:
            return self._step()
        except Malformed as fault:
            fault.status = self.status_of_faults or fault.status
            self.fault = fault
            raise

    def next_message(self) -> None:
        """Begins the next one, after EndOfMessage."""
        assert self._step == self._over
        self._step, self._blank, self._is_bare = self._head, 0, False
        self._forget_lines()

    @property
    def has_begun(self) -> bool:
        """Whether a byte of a message has come that is not whole."""
        return self._step not in (self._head, self._over) or bool(self.buffer) or self._blank > 0

    @property
    def is_silent(self) -> bool:
        """Whether a message has ended, or none has begun, and nothing has come after it."""
        return self._step in (self._head, self._over) and not self.buffer and not self.ended and not self.fault

    # ---- heads -------------------------------------------------------------------------------------------------------

    def _head(self) -> Event:
        self._skip_empty_lines()
        most = MOST_HEAD - self._blank
        end_of_head = END.search(self.buffer, max(0, self._seen - 2), max(0, most))
        if end_of_head and self._is_bare:
            raise Malformed(400, BARE)
        if end_of_head:
            return self._message(self._take(end_of_head.end()).decode("latin-1"))
        if len(self.buffer) >= most:
            is_long_line = b"\n" not in self.buffer[:max(0, most)]
            raise Malformed(414 if is_long_line else 431, "the head is too long")
        self._look_at(True)
        return self._cut_short(CLOSED if not self.buffer and not self._blank else None)

    def _skip_empty_lines(self) -> None:
        """Those before a request are ignored (RFC 9112, section 2.2). If one ends with LF alone, the head is refused
        once it is whole, as any of its lines would be."""
        empty_lines = EMPTY_LINES.match(self.buffer)
        if empty_lines:
            end = empty_lines.end()
            self._is_bare = self._is_bare or 2 * self.buffer.count(b"\n", 0, end) > end
            self._blank += end
            del empty_lines, self.buffer[:end]

    def _look_at(self, has_first_line: bool) -> None:
        """Malformed if what has come of a head, or of trailers, cannot become one. Each line is looked at once more
        when it has ended, and that is all."""
        self._seen = len(self.buffer)
        while (end := self.buffer.find(b"\n", self._lines) + 1) > 0:
            line = self.buffer[self._lines:end].decode("latin-1")
            is_first = has_first_line and not self._lines
            if not (self._is_first_line(line) if is_first else ONE_FIELD.fullmatch(line)):
                raise Malformed(400, "what came is not a line of a head")
            self._fields += not is_first
            self._lines = end
        if self._fields > MOST_FIELDS:
            raise Malformed(431, f"there are more than {MOST_FIELDS} fields")
        line = self.buffer[self._lines:self._lines + LOOKED_AT].decode("latin-1")
        pattern = self.begun_line if has_first_line and not self._lines else BEGUN_FIELD
        if len(line) < LOOKED_AT and not pattern.fullmatch(line) and line != "\r":
            raise Malformed(400, "what came is not the beginning of a head")

    def _is_first_line(self, line: str) -> bool:
        raise NotImplementedError

    def _forget_lines(self) -> None:
        self._seen = self._lines = self._fields = 0

    def _message(self, text: str) -> Event:
        raise NotImplementedError

    # ---- bodies ------------------------------------------------------------------------------------------------------

    def _body(self, length: Optional[int]) -> None:
        """What follows a head."""
        if length is None:
            self._chunks, self._step = Chunks(), self._chunked
        elif length == UNTIL_CLOSE:
            self._step = self._until_close
        else:
            self._left, self._step = length, self._counted

    def _counted(self) -> Event:
        if not self._left:
            return self._end([])
        if not self.buffer:
            return self._cut_short()
        data = self._take(min(self._left, PIECE))
        self._left -= len(data)
        return Data(data)

    def _until_close(self) -> Event:
        if self.buffer:
            return Data(self._take(PIECE))
        return self._end([]) if self.ended else NEED_DATA

    def _chunked(self) -> Event:
        data = self._chunks.take(self.buffer)
        if data:
            return Data(data)
        if not self._chunks.is_over:
            return self._cut_short()
        self._forget_lines()
        self._step = self._trailers
        return self._trailers()

    def _trailers(self) -> Event:
        most = MOST_TRAILERS
        if self.buffer[:1] in (b"\r", b"\n"):
            end = 2 if len(self.buffer) > 1 or self.buffer == b"\n" else 0
        else:
            end_of_trailers = END.search(self.buffer, max(0, self._seen - 2), most)
            end = end_of_trailers.end() if end_of_trailers else 0
        if end:
            return self._end(fields_of(self._take(end).decode("latin-1"), 0, MOST_FIELDS))
        if len(self.buffer) >= most:
            raise Malformed(431, "the trailers are too long")
        self._look_at(False)
        return self._cut_short()

    def _take(self, count: int) -> bytes:
        if count >= len(self.buffer):
            taken = bytes(self.buffer)
            self.buffer.clear()
        else:
            taken = bytes(self.buffer[:count])
            del self.buffer[:count]
        return taken

    # ---- ends --------------------------------------------------------------------------------------------------------

    def _cut_short(self, at_the_end: Optional[Event] = None) -> Event:
        """What there is to say if more bytes are needed."""
        if not self.ended:
            return NEED_DATA
        if at_the_end is None:
            raise CutShort(400, "the connection ends within a message")
        return at_the_end

    def _end(self, trailers: "List[tuple[str, str]]") -> Event:
        self._step = self._over
        return EndOfMessage(trailers)

    def _over(self) -> Event:
        return PAUSED


class CutShort(Malformed):
    """The peer ended its side within a message."""


class RequestReader(Reader):
    def _is_first_line(self, line: str) -> bool:
        return ONE_REQUEST_LINE.fullmatch(line) is not None and is_utf8(line)

    def _message(self, text: str) -> Event:
        line = REQUEST_LINE.match(text)
        if not line:
            is_bare = not text[:text.find("\n")].endswith("\r")
            raise Malformed(400, BARE if is_bare else "a request begins with METHOD TARGET HTTP/1.1")
        method, target, version = line.groups()
        parts = target_of(target)
        headers = fields_of(text, line.end(), MOST_FIELDS)
        length, keeps_alive, expects_continue = of_request(method, version, headers)
        self._body(length)
        return Request(method, target, parts, version, headers, length, keeps_alive, expects_continue)


class ResponseReader(Reader):
    """`method` is that of the request that the next response answers."""
    begun_line = BEGUN_STATUS_LINE
    status_of_faults = 502  # (a gateway that got an invalid response: RFC 9110, section 15.6.3)

    def __init__(self) -> None:
        super().__init__()
        self.method = "GET"

    def _is_first_line(self, line: str) -> bool:
        return ONE_STATUS_LINE.fullmatch(line) is not None

    def _message(self, text: str) -> Event:
        line = STATUS_LINE.match(text)
        if not line:
            raise Malformed(502, "a response begins with HTTP/1.1 STATUS REASON")
        version, status, reason = line[1], int(line[2]), line[3] or ""
        headers = fields_of(text, line.end(), MOST_FIELDS)
        if status == 101:
            raise Malformed(502, "a response switches protocols unasked")
        length, keeps_alive = of_response(self.method, status, version, headers)
        if status >= 200:
            self._body(length)
        return Response(status, reason, version, headers, length, keeps_alive)
