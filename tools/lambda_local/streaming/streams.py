"""Callers that wait for a response as it comes, and what has come. All of it is in one loop: the front, which has the
callers, and the proxies, which see the responses.

Which invocation is a caller's, and which environment serves it, the service's own history says (`pairing`). What is
posted for another one, or at another environment's port, is the service's alone, and so is what is posted once more."""
import asyncio
import base64
import binascii
import hashlib
import re
import secrets
import time
from collections import deque
from typing import AsyncIterator, Callable, Deque, Dict, NamedTuple, Optional, Tuple

from ..http1 import Headers, first

MODE, STREAMING = "lambda-runtime-function-response-mode", "streaming"
ERROR_TYPE, ERROR_BODY = "lambda-runtime-function-error-type", "lambda-runtime-function-error-body"
MOST_UNREAD = 256 << 10  # bytes; with more, the runtime is not read from until its caller has taken them
LONGEST_TRACE = 256  # bytes, of the service
LINEAGE = re.compile(r"(?:(.*);)?Lineage=1:([0-9a-f]{16}):0")
HELD_SECONDS = 5.0  # for which a response waits until the history says whose it is; then its caller gets it at its end


class Fault(NamedTuple):
    """Why a response has ended early."""
    kind: str
    body: str


class Stream:
    """A response of which some has come, or all."""

    def __init__(self, content_type: Optional[str]):
        self.content_type = content_type
        self.waiting: Deque[bytes] = deque()
        self.size = 0  # of what waits
        self.is_over = self.is_left = False  # no more comes; its caller has gone
        self.fault: Optional[Fault] = None
        self.on_room: Callable[[], None] = lambda: None
        self.changed, self.sum = asyncio.Event(), hashlib.blake2b()

    # ---- from the runtime --------------------------------------------------------------------------------------------

    def feed(self, data: bytes) -> None:
        self.sum.update(data)
        if not self.is_left:
            self.waiting.append(data)
            self.size += len(data)
            self.changed.set()

    @property
    def is_full(self) -> bool:
        return self.size > MOST_UNREAD

    def trailed(self, trailers: Headers) -> None:
        """All of it has come from the runtime, which may say now that it has failed in the middle."""
        kind = first(trailers, ERROR_TYPE)
        if kind is not None:
            self.fault = Fault(kind, text_of(first(trailers, ERROR_BODY) or ""))

    # ---- from who has asked for it -----------------------------------------------------------------------------------

    def is_all_of(self, output: bytes) -> bool:
        """Whether this, and nothing else, has come."""
        return self.sum.digest() == hashlib.blake2b(output).digest()

    def end(self, fault: Optional[Fault] = None) -> None:
        """The service has answered."""
        self.fault = self.fault or fault
        self.is_over = True
        self.changed.set()

    def leave(self) -> None:
        """Nobody wants it any more: what comes is dropped."""
        self.is_left = True
        self.waiting.clear()
        self.size = 0
        self.on_room()

    async def pieces(self) -> AsyncIterator[bytes]:
        while True:
            while self.waiting:
                piece = self.waiting.popleft()
                was_full = self.is_full
                self.size -= len(piece)
                if was_full and not self.is_full:
                    self.on_room()
                yield piece
            if self.is_over:
                return
            self.changed.clear()
            await self.changed.wait()


def text_of(body: str) -> str:
    """The body of an error, which a trailer has in base64."""
    try:
        return base64.b64decode(body, validate=True).decode(errors="replace")
    except (binascii.Error, ValueError):
        return body


def own_trace(more: str) -> str:
    """The trace of an invocation whose caller gave none, with what else is to be in it."""
    return f"Root=1-{int(time.time()):08x}-{secrets.token_hex(12)};Sampled=0;{more}"


class Expected:
    """A caller that waits for the response to an invocation. Its token is in the trace that the service gets, and
    nowhere else before that: the first Invoke with it is this caller's."""

    def __init__(self) -> None:
        self.token = secrets.token_hex(8)
        self.identifier: Optional[str] = None  # once the history has it
        self.environment: Optional[int] = None  # where the service has placed it
        self.begun: "asyncio.Future[Stream]" = asyncio.get_running_loop().create_future()

    def trace(self, given: Optional[str]) -> str:
        """The trace of its invocation: the given one with a Lineage, in the place of another caller's; or a new one."""
        lineage, others = f"Lineage=1:{self.token}:0", LINEAGE.fullmatch(given or "")
        given = others[1] if others else given
        if given and len(given) + 1 + len(lineage) <= LONGEST_TRACE:
            return f"{given};{lineage}"
        return own_trace(lineage)


def token_in(trace: Optional[str]) -> Optional[str]:
    """The token of a trace that has one."""
    lineage = LINEAGE.fullmatch(trace or "")
    return lineage[2] if lineage else None


class Serving(NamedTuple):
    """What an environment serves, as the history has it."""
    identifier: str
    expected: Optional[Expected]  # the caller who waits for its response as it comes; none once it was answered


class Held(NamedTuple):
    """A response that has begun before the history says whose it is."""
    identifier: str
    stream: Stream
    giving_up: asyncio.TimerHandle


class Streams:
    def __init__(self) -> None:
        self.expected: Dict[str, Expected] = {}  # by token
        self.invoked: Dict[str, Expected] = {}  # by the identifier of the invocation
        # By environment: what its runtime was given last, as its proxy has seen; what the history says; what is held
        self.given: Dict[int, str] = {}
        self.serving: Dict[int, Serving] = {}
        self.held: Dict[int, Held] = {}
        self.posted: Dict[int, Tuple[str, Stream]] = {}  # the last one that came, and for which invocation

    # ---- from the front ----------------------------------------------------------------------------------------------

    def expect(self) -> Expected:
        made = Expected()
        self.expected[made.token] = made
        return made

    def forget(self, expected: Expected) -> None:
        self.expected.pop(expected.token, None)
        if expected.identifier is not None:
            self.invoked.pop(expected.identifier, None)

    def late(self, identifier: Optional[str], output: bytes) -> Optional[Stream]:
        """The response to an invocation, if it was streamed, for a caller who has got nothing of it: the service has
        answered before its history was read."""
        for name, posted in self.posted.values():
            if name == identifier and posted.is_all_of(output):
                made = Stream(posted.content_type)
                if output:
                    made.feed(output)
                made.end(posted.fault)
                return made
        return None

    # ---- from the service's history ----------------------------------------------------------------------------------

    def placed(self, token: str, identifier: str, environment: int) -> None:
        """An Invoke with this token was admitted. (A function that invokes another one hands its own trace on: then the
        token comes again.)"""
        expected = self.expected.get(token)
        if expected and expected.identifier is None:
            expected.identifier, expected.environment = identifier, environment
            self.invoked[identifier] = expected

    def delivered(self, environment: int, identifier: str) -> None:
        """The environment's runtime was given this invocation."""
        expected = self.invoked.get(identifier)
        self.serving[environment] = Serving(identifier, expected if expected and expected.environment == environment
                                            else None)
        if environment in self.held and self.held[environment].identifier == identifier:
            self._give(environment, self._let_go(environment))

    def ended(self, environment: int, identifier: str) -> None:
        """It was answered."""
        serving = self.serving.get(environment)
        if serving and serving.identifier == identifier:
            self.serving[environment] = Serving(identifier, None)

    # ---- from the proxies --------------------------------------------------------------------------------------------

    def passed(self, environment: int, identifier: str) -> None:
        """The service's answer with this invocation passes to the environment's runtime."""
        self.given[environment] = identifier

    def begins(self, environment: int, identifier: str, headers: Headers) -> Optional[Stream]:
        """A response, or an error, begins. Returns its stream if it is the first for its invocation, is streamed, and
        somebody waits for it or may be found to."""
        if self.given.get(environment) != identifier:
            return None
        del self.given[environment]
        if (first(headers, MODE) or "").lower() != STREAMING:
            return None
        stream, serving = Stream(first(headers, "content-type")), self.serving.get(environment)
        self.posted[environment] = identifier, stream
        if serving and serving.identifier == identifier:
            return stream if self._give(environment, stream) else None
        if environment in self.held:
            self._let_go(environment).leave()
        giving_up = asyncio.get_running_loop().call_later(HELD_SECONDS, lambda: self._let_go(environment).leave())
        self.held[environment] = Held(identifier, stream, giving_up)
        return stream

    def _let_go(self, environment: int) -> Stream:
        held = self.held.pop(environment)
        held.giving_up.cancel()
        return held.stream

    def _give(self, environment: int, stream: Stream) -> bool:
        """The response to what the environment serves is its caller's, if one waits for it. Returns whether it is."""
        expected = self.serving[environment].expected
        if expected is None or expected.begun.done():
            stream.leave()
            return False
        expected.begun.set_result(stream)
        return True
