"""A request or a reply that passes the proxy, read by the tools' one reader of HTTP. What that cannot read the proxy
hands on all the same, and the service, which takes and refuses the same bytes, judges it. So a program meets the answer
that it would have without the proxy."""
from typing import Dict, Optional, Union

from lambda_local.http1 import (CLOSED, NEED_DATA, Data, EndOfMessage, Reader, Request, RequestReader, Response,
                                ResponseReader)


class Message:
    """It grows with `feed` until it is whole. Of an interim reply (1xx) nothing is kept."""

    def __init__(self, reader: Reader) -> None:
        self.head: Union[Request, Response, None] = None
        self.headers: Dict[str, str] = {}  # the first of each name, which is in lower case
        self.body, self.whole = bytearray(), False
        self._reader = reader

    def feed(self, data: bytes) -> bytes:
        """Takes bytes, none at the end of them; gives those that belong to the next message. Raises Malformed."""
        reader = self._reader
        reader.receive(data)
        while not self.whole:
            event = reader.next_event()
            if event in (NEED_DATA, CLOSED):
                return b""
            self._take(event)
        rest = bytes(reader.buffer)
        reader.buffer.clear()
        return rest

    def _take(self, event: object) -> None:
        if isinstance(event, Data):
            self.body += event.data
        elif isinstance(event, EndOfMessage):
            self.whole = True
        elif isinstance(event, Request) or isinstance(event, Response) and event.status >= 200:
            self.head = event
            for name, value in event.headers:
                self.headers.setdefault(name.lower(), value)

    @property
    def has_begun(self) -> bool:
        """Whether some of it has come."""
        return self.head is not None or self._reader.has_begun

    @property
    def status(self) -> Optional[int]:
        """That of a reply."""
        return self.head.status if isinstance(self.head, Response) else None

    @property
    def chunked(self) -> bool:
        """Whether the body of a request comes in chunks."""
        return isinstance(self.head, Request) and self.head.length is None


def a_request() -> Message:
    return Message(RequestReader())


def reply_to(method: str) -> Message:
    reader = ResponseReader()
    reader.method = method
    return Message(reader)
