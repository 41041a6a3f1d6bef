"""What the proxy records of a request and its reply, and what a rule has it do to them."""
import json
import math
import re
import time
from typing import Any, Callable, Dict, Iterable, Iterator, Optional, Tuple, Union

from lambda_local.http1 import Request, response_head
from lambda_local.service import EXTENSION, RUNTIME

from .kit import Finding
from .manners import Manner
from .messages import Message

Decide = Callable[["Exchange"], Tuple[int, bytes]]

ENOUGH = 300  # bytes of what comes behind a request, or begins one that cannot be read

KINDS = {
    ("GET", RUNTIME + "invocation/next"): "next",
    ("POST", RUNTIME + "init/error"): "init_error",
    ("POST", EXTENSION + "register"): "register",
    ("GET", EXTENSION + "event/next"): "event",
    ("POST", EXTENSION + "init/error"): "extension_init_error",
    ("POST", EXTENSION + "exit/error"): "extension_exit_error",
    ("PUT", "/2022-07-01/telemetry"): "telemetry",
    ("PUT", "/2020-08-15/logs"): "telemetry",
}


class Exchange:
    """A request and its reply. Times are those of `time.monotonic`, and None for what has not come. A request that
    cannot be read has the words of its first line alone, of what has `come`."""

    def __init__(self, connection: int, peer: int, request: Message, come: bytes = b"") -> None:
        self.connection, self.peer = connection, peer  # the connection's number, from 1, and the peer's port
        self.begun = time.monotonic()
        self.asked: Optional[float] = None  # the request is whole
        self.answered: Optional[float] = None  # the reply is
        self.left: Optional[float] = None  # one of the two has gone before that
        head, begun = request.head, shown_bytes(come.lstrip().split(b"\r")[0].split(b"\n")[0], ENOUGH).split(" ")
        self.method, self.path = (head.method, head.parts.origin_form) if isinstance(head, Request) else (
            begun[0], " ".join(begun[1:2]))
        # Whether its connection ends with the reply, by what the request says (RFC 9112, section 9.6)
        self.is_last = not (isinstance(head, Request) and head.keeps_alive)
        self.request, self.malformed = request, ""  # and what is wrong with it, if it cannot be read
        self.reply: Optional[Message] = None
        self.by_rule: "Optional[Rule]" = None  # a rule with `close` may still be set while the exchange is open
        self.is_reset = False  # the service has reset the connection within the request: its reply may be lost
        self.behind = b""  # what came behind the request and is not the beginning of another one
        self.kind, self.request_id = self._kind()

    def _kind(self) -> Tuple[str, Optional[str]]:
        if (self.method, self.path) in KINDS:
            return KINDS[self.method, self.path], None
        words = self.path.split("/")
        if (self.method == "POST" and self.path.startswith(RUNTIME + "invocation/")
                and words[-1] in ("response", "error")):
            return words[-1], words[-2]
        return "other", None

    @property
    def status(self) -> Optional[int]:
        """The reply's status; None if there is none."""
        return self.reply.status if self.reply else None

    @property
    def delivered(self) -> Optional[str]:
        """The request identifier of the invocation that this poll was answered with; None if it was not."""
        return (self.told.get("lambda-runtime-aws-request-id")
                if self.kind == "next" and self.status == 200 else None)

    @property
    def told(self) -> Dict[str, str]:
        """The reply's headers; empty if there is none."""
        return self.reply.headers if self.reply else {}

    @property
    def ended(self) -> Optional[float]:
        """When the exchange was over; None if it is open."""
        return self.answered or self.left

    @property
    def came(self) -> bytes:
        """The reply's body; empty if there is none."""
        return bytes(self.reply.body) if self.reply else b""

    @property
    def end(self) -> float:
        """The same; never, if it is open."""
        return self.ended or math.inf

    @property
    def length(self) -> int:
        """Bytes of the request's body, as it says or as they have come."""
        head = self.request.head
        return head.length if isinstance(head, Request) and head.length else len(self.request.body)

    @property
    def refused(self) -> bool:
        return self.status is not None and self.status >= 400

    @property
    def is_wrong(self) -> bool:
        """Whether it is refused for what it is. (403 is the answer to what comes in another phase, so too late.)"""
        return self.status is not None and 400 <= self.status < 500 and self.status != 403

    def __str__(self) -> str:
        """As a line: the request, its status, and the body of a refusal."""
        body = self.came[:ENOUGH].decode(errors="replace").strip() if self.refused else ""
        came = self.status or ("the connection ended before the answer" if self.left else "no answer: it waits")
        return f"{self.method} {self.path} -> {came} {body}".strip()

    def finding(self, words: str) -> Finding:
        """That it is refused: something that the program did if it is wrong in itself."""
        return Finding(f"{words}: {self}", self.is_wrong, like=f"{words}: {self.kind} {self.status}")

    def faults(self) -> Iterator[str]:
        """What the connection shows that the one who made the request may not know, as lines."""
        length = self.request.headers.get("content-length")
        if self.malformed:
            yield f"{self.method} {self.path}: it cannot be read as HTTP/1.1: {self.malformed}"
        if self.behind and self.request.chunked:
            yield (f"{self.method} {self.path}: behind the last chunk, which is one without bytes, come the bytes "
                   f"{shown_bytes(self.behind)}: is a part that is empty sent as a chunk?")
        elif self.behind:
            yield (f"{self.method} {self.path}: behind the body, of Content-Length {length or 0}, come the bytes "
                   f"{shown_bytes(self.behind)}: is the length that of the body in bytes, and not in characters?")
        if self.left and not self.asked:
            declared = f"of Content-Length {length}" if length else "without its last chunk" * self.request.chunked
            yield (f"{self.method} {self.path}: the body is cut short: {len(self.request.body)} bytes came {declared}, "
                   f"and then the connection ended")

    def json(self) -> Any:
        """The request's body as JSON; None if it is none."""
        return as_json(self.request.body)

    def reply_json(self) -> Any:
        return as_json(self.reply.body) if self.reply else None


def read_json(body: Union[bytes, bytearray]) -> Any:
    """The value of a JSON text in UTF-8 without a byte order mark (RFC 8259, section 8.1); a ValueError if it is none.
    (Python guesses the encoding of bytes.)"""
    return json.loads(bytes(body).decode())


def as_json(body: Union[bytes, bytearray]) -> Any:
    try:
        return read_json(body)
    except (ValueError, RecursionError):
        return None


class Rule:
    """What the proxy does to a request of a kind: answers in the service's place by a status and a body (`decide` gives
    them for the exchange), never answers (`holds`), ends the connection after these seconds without an answer, by a
    reset if it `resets`, or closes it after the reply. `manner` is how the reply is written, and `of` the only
    invocation that it is for."""

    def __init__(self, kind: str, reply: Optional[Tuple[int, bytes]] = None, close: bool = False,
                 headers: Iterable[Tuple[str, str]] = (), decide: Optional[Decide] = None, holds: bool = False,
                 ends_after: Optional[float] = None, manner: Optional[Manner] = None, resets: bool = False,
                 of: Optional[str] = None) -> None:
        self.kind, self.reply, self.close, self.headers, self.decide = kind, reply, close, headers, decide
        self.holds, self.ends_after, self.manner, self.resets = holds, ends_after, manner or Manner(), resets
        self.of = of

    def fits(self, exchange: Exchange) -> bool:
        return self.kind == exchange.kind and self.of in (None, exchange.request_id)

    @property
    def stands_in(self) -> bool:
        """Whether the service does not see the request."""
        return bool(self.reply or self.decide or self.holds or self.ends_after is not None)

    def bytes(self, exchange: Optional[Exchange] = None) -> bytes:
        status, body = self.decide(exchange) if self.decide and exchange else self.reply or (500, b"")
        headers = [("Content-Type", "application/json"), ("Content-Length", str(len(body))), *self.headers]
        return response_head("HTTP/1.1", status, "Rule", headers) + body

    def did(self, exchange: Exchange) -> str:
        if self.holds:
            return "did not answer it"
        if self.ends_after is not None:
            how = "reset" if self.resets else "ended"
            return f"{how} the connection after {self.ends_after:g} s without an answer"
        if self.reply or self.decide:
            return f"answered it {exchange.status}"
        return "ended the connection after the answer"


def shown_bytes(data: bytes, most: int = 40) -> str:
    """Bytes as they may be printed."""
    text = re.sub(r"[^ -~]", lambda found: repr(found[0])[1:-1], bytes(data[:most]).decode("latin-1"))
    return text + (".." if len(data) > most else "")
