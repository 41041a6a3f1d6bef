"""How another Lambda may write its replies: the same in meaning, in other bytes."""
from typing import TYPE_CHECKING, Callable, List, NamedTuple, Optional, Tuple

from lambda_local.http1 import Response

from .messages import Message

if TYPE_CHECKING:
    from .exchanges import Exchange

KEPT = ("content-length", "transfer-encoding")  # of a body, which is written anew


class Manner(NamedTuple):
    """How replies are written; by itself, as they are."""
    kinds: Tuple[str, ...] = ()  # of the requests whose replies are written so; all if there is none
    refusals: bool = False  # only those that are refusals
    named: Callable[[str], str] = str  # what becomes of a header's name
    backwards: bool = False  # whether the headers come in the opposite order
    without: Tuple[str, ...] = ()  # headers, in lower case, that are left out
    more: Tuple[Tuple[str, str], ...] = ()  # headers that are added
    chunk: int = 0  # bytes of each chunk, if the body is sent in chunks
    spaces: str = " "  # between a header's colon and its value
    reason: Optional[str] = None  # the words behind the status, in place of the reply's
    interim: bytes = b""  # what comes before the reply
    part: int = 0  # bytes that are sent at once
    pause: float = 0  # seconds between two of these
    most: int = 400  # parts; the rest is sent at once
    close: bool = False  # whether the connection ends after the reply, which says so
    cut: Optional[int] = None  # bytes of the body after which the connection ends
    body: Optional[bytes] = None  # in place of the reply's

    def fits(self, exchange: "Exchange", status: int) -> bool:
        return (not self.kinds or exchange.kind in self.kinds) and (not self.refusals or status >= 400)

    @property
    def ends(self) -> bool:
        """Whether the connection ends after the reply."""
        return self.close or self.cut is not None

    def parts(self, reply: Message) -> List[bytes]:
        """The bytes of a reply, in the parts in which they are sent."""
        data = self.interim + self._head(reply) + self._body(reply)
        size = self.part or len(data)
        cuts = [*range(0, len(data), size)][:self.most]
        return [data[begin:end] for begin, end in zip(cuts, [*cuts[1:], len(data)])]

    def _whole(self, reply: Message) -> bytes:
        return bytes(reply.body) if self.body is None else self.body

    def _head(self, reply: Message) -> bytes:
        head = reply.head
        assert isinstance(head, Response)
        length = ("Transfer-Encoding", "chunked") if self.chunk else ("Content-Length", str(len(self._whole(reply))))
        pairs = [(name, value) for name, value in head.headers if name.lower() not in (*KEPT, *self.without)]
        pairs += [*self.more, length, *([("Connection", "close")] if self.close else [])]
        ordered = pairs[::-1] if self.backwards else pairs
        status = (head.version, str(head.status), head.reason if self.reason is None else self.reason)
        written = [" ".join(status), *(f"{self.named(name)}:{self.spaces}{value}" for name, value in ordered)]
        return ("\r\n".join(written) + "\r\n\r\n").encode("latin-1")

    def _body(self, reply: Message) -> bytes:
        body = self._whole(reply)
        if self.cut is not None:
            return body[:self.cut]
        if not self.chunk:
            return body
        chunks = [body[begin:begin + self.chunk] for begin in range(0, len(body), self.chunk)]
        return b"".join(b"%x\r\n%b\r\n" % (len(chunk), chunk) for chunk in (*chunks, b""))
