"""The two exchanges of every invocation, as nearly all runtimes make them: a Next, and a response or an error, each a
plain request with a plain answer. They are known by their heads alone, and pass at once.

What is not of this form goes to the `Conversation` of the connection, from its beginning, or from the middle of an
exchange on: the one strict reader of what passes. So this reads less than that, and nothing in another way."""
import re
from typing import Awaitable, Optional

from .conversation import Conversation, Ears

LONGEST = 6 << 20  # bytes of a body that the service takes
FIELDS = rb"(?:[!#$%&'*+.^_`|~0-9A-Za-z-]+:[\t\x20-\x7e\x80-\xff]*\r\n)*"
NEXT = re.compile(rb"GET /2018-06-01/runtime/invocation/next HTTP/1\.1\r\n" + FIELDS + rb"\r\n")
POSTED = re.compile(rb"POST /2018-06-01/runtime/invocation/[0-9a-fA-F-]{36}/(?:response|error) HTTP/1\.1\r\n" + FIELDS
                    + rb"\r\n")
ANSWERED = re.compile(rb"HTTP/1\.1 20[02] [\t\x20-\x7e]*\r\n" + FIELDS + rb"\r\n")
# What makes a message another one than its first line and its length say.
ODD = re.compile(rb"(?i)\n(?:transfer-encoding|expect|upgrade|connection(?!:[ \t]*keep-alive[ \t]*\r))")
LENGTH = re.compile(rb"(?i)\ncontent-length[^\n]*")
DIGITS = re.compile(rb"(?i)\ncontent-length:[ \t]*([0-9]{1,7})[ \t]*\r")
IDENTIFIER = re.compile(rb"(?i)\nlambda-runtime-aws-request-id:[ \t]*([0-9a-f-]{36})[ \t]*\r")


def length_in(head: bytes) -> Optional[int]:
    """The length that a head says; none if it does not, or not in the plainest way."""
    said = LENGTH.findall(head)
    number = DIGITS.match(said[0]) if len(said) == 1 else None
    length = int(number[1]) if number else -1
    return length if 0 <= length <= LONGEST else None


class Quick:
    """One connection. After each call that says so, what has come passes as it is; otherwise its conversation has it.
    `waits` is what is to be awaited before that passes."""

    def __init__(self, ears: Ears, conversation: Conversation):
        self.ears, self.conversation = ears, conversation
        self.head = self.answer = b""  # of the request that is open, and passed by here; of the answer that comes
        self.left = self.coming = 0  # bytes of its body, and of its answer's, that have not come
        self.waits: Optional[Awaitable[object]] = None

    @property
    def is_open(self) -> bool:
        return bool(self.head)

    def client_sent(self, data: bytes) -> bool:
        """Whether it passes."""
        if self.left and data and len(data) <= self.left:
            self.left -= len(data)
            return True
        if self.head or not data:
            self._hand_over()
            return False
        return self.conversation.is_between and self._begins(data)

    def _begins(self, data: bytes) -> bool:
        if data.startswith(b"GET "):
            if not NEXT.fullmatch(data) or ODD.search(data) or LENGTH.search(data):
                return False
            self.head = data
            return True
        found = POSTED.match(data)
        if not found or ODD.search(found[0]):
            return False
        length = length_in(found[0])
        here = len(data) - found.end()
        if length is None or here > length:
            return False
        self.head, self.left = found[0], length - here
        return True

    def service_sent(self, data: bytes) -> bool:
        """Whether it passes."""
        if not self.head:
            return False
        if self.coming and data and len(data) <= self.coming:
            self._came(len(data))
            return True
        found = None if self.coming or self.left else ANSWERED.match(data)
        length = length_in(found[0]) if found and not ODD.search(found[0]) else None
        if found is None or length is None or len(data) - found.end() > length:
            self._hand_over()
            return False
        if self.head.startswith(b"GET "):
            given = IDENTIFIER.search(found[0])
            self.waits = self.ears.given(given[1].decode().lower()) if given else None
        self.answer, self.coming = found[0], length
        self._came(len(data) - found.end())
        return True

    def _came(self, count: int) -> None:
        self.coming -= count
        if not self.coming:
            self.head = b""

    def _hand_over(self) -> None:
        """The conversation has the open exchange from here on, as if what is left of it was all that it has."""
        talk = self.conversation
        if self.head:
            talk.client_sent(with_length(self.head, self.left))
            talk.to_service.clear()
        if self.coming:
            waiting = len(talk.to_client)
            talk.service_sent(with_length(self.answer, self.coming))
            del talk.to_client[waiting:]
        self.head, self.left, self.coming = b"", 0, 0


def with_length(head: bytes, length: int) -> bytes:
    return DIGITS.sub(b"\ncontent-length: %d\r" % length, head)
