"""Requests and answers of the front."""
import http
from typing import AsyncIterator, NamedTuple, Optional, Protocol

from ..exchange.connection import TooLong
from ..http1 import TOKEN, Headers, Request as Head, every, first

__all__ = ["LONGEST_BODY", "OF_CONNECTION", "PHRASES", "TOKEN", "Headers", "Reply", "Request", "every", "first"]

# Of one connection alone (RFC 9110, section 7.6.1)
OF_CONNECTION = {"connection", "keep-alive", "proxy-connection", "te", "trailer", "transfer-encoding", "upgrade"}
LONGEST_BODY = 6 << 20  # bytes that the service takes, as Lambda does
PHRASES = {**{status.value: status.phrase for status in http.HTTPStatus}, 413: "Payload Too Large", 414: "URI Too Long"}


NO_STAGE = "$default"  # the stage of an HTTP API that is in no path


class Request(NamedTuple):
    head: Head
    content: bytes  # its body
    below: Optional[str] = None  # its path below the stage that it begins with

    @property
    def method(self) -> str:
        return self.head.method

    @property
    def version(self) -> str:
        return self.head.version

    @property
    def headers(self) -> Headers:
        return self.head.headers

    @property
    def path(self) -> str:
        return self.head.parts.path if self.below is None else self.below

    def body(self, most: int) -> bytes:
        """Its body; TooLong if it has more bytes than that."""
        if len(self.content) > most:
            raise TooLong
        return self.content

    def path_with(self, stage: str) -> str:
        """Its path with the stage, as AWS has it at an API's own address."""
        if self.below is not None:
            return self.head.parts.path
        return self.path if stage == NO_STAGE else f"/{stage}{self.path}"

    @property
    def query(self) -> str:
        return self.head.parts.query or ""

    @property
    def target(self) -> str:
        """Its path and query, in whichever form its target came."""
        return self.head.parts.origin_form


class Pieces(Protocol):
    """A body that is passed on as it comes."""

    def __aiter__(self) -> AsyncIterator[bytes]:
        ...

    async def aclose(self) -> None:
        """Once it is passed on, or will not be."""


class Reply(NamedTuple):
    """What is answered. `pieces` is a body that is passed on as it comes, in place of `body`."""
    status: int
    headers: Headers = []
    body: bytes = b""
    pieces: Optional[Pieces] = None
