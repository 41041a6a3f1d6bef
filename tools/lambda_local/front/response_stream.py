"""Invocations whose response goes to its caller as it comes: of a Function URL with "invoke": "RESPONSE_STREAM", and by
InvokeWithResponseStream. The service is asked as for any other, and gets the whole response too."""
import asyncio
import contextlib
from typing import Any, AsyncIterator, Callable, List, NamedTuple, Optional, Set, Tuple, Union

from ..exchange.client import Client
from ..exchange.connection import Unanswered
from ..json_reader import members_of
from ..streaming import frames, prelude
from ..streaming.streams import Fault, Stream, Streams
from .http import Headers, Reply, Request, first
from .payload import Unmappable, cookies_in, headers_in, status_in
from .names import refusal_by_service

Whole = Tuple[int, Headers, bytes]
TRACE = "X-Amzn-Trace-Id"
DEFAULT_TYPE = "application/octet-stream"


class Start(NamedTuple):
    """A response that has begun."""
    stream: Stream
    identifier: str
    answer: "asyncio.Task[Whole]"


def fault_of(result: bytes) -> Fault:
    """What the service answers for a function that has failed."""
    kind = (members_of(result) or {}).get("errorType")
    return Fault(kind if isinstance(kind, str) and kind else "Unhandled", result.decode(errors="replace"))


class Invocation:
    """One invocation, from its request to the end of its response: `first` gives what has come first, the beginning of
    a stream or the service's whole answer."""

    def __init__(self, client: Client, streams: Streams, target: str, headers: Headers, payload: bytes) -> None:
        self.streams, self.expected = streams, streams.expect()
        trace = first(headers, TRACE.lower())
        others = [(name, value) for name, value in headers if name.lower() != TRACE.lower()]
        self.answer: "asyncio.Task[Whole]" = asyncio.get_running_loop().create_task(client.ask(
            "POST", target, [*others, (TRACE, self.expected.trace(trace))], payload))
        self.stream: Optional[Stream] = None

    async def first(self) -> Union[Start, Whole]:
        try:
            either: "Set[asyncio.Future[Any]]" = {self.answer, self.expected.begun}
            await asyncio.wait(either, return_when=asyncio.FIRST_COMPLETED)
            if not self.expected.begun.done():
                return self._late(await self.answer)
        except BaseException:
            await self.aclose()
            raise
        self.stream = self.expected.begun.result()
        self.answer.add_done_callback(self._end)
        return Start(self.stream, str(self.expected.identifier), self.answer)

    def _late(self, whole: Whole) -> Union[Start, Whole]:
        """The service's answer; one to a response that was streamed is as if it came now."""
        status, headers, result = whole
        if status == 200 and first(headers, "x-amz-function-error") is None:
            identifier = first(headers, "x-amzn-requestid")
            self.stream = self.streams.late(identifier, result)
            if self.stream is not None:
                return Start(self.stream, str(identifier), self.answer)
        return whole

    def _end(self, answer: "asyncio.Task[Whole]") -> None:
        """All that will come has come."""
        assert self.stream is not None
        if answer.cancelled() or answer.exception() is not None:
            self.stream.end(Fault("Service.Gone", "the service has broken its connection off"))
            return
        self.stream.end(self._fault(self.stream, *answer.result()))

    def _fault(self, stream: Stream, status: int, headers: Headers, result: bytes) -> Optional[Fault]:
        """Why what has come is not the answer of the service to this invocation; none if it is."""
        if status != 200 or first(headers, "x-amz-function-error") is not None:
            return fault_of(result)
        if first(headers, "x-amzn-requestid") == self.expected.identifier and stream.is_all_of(result):
            return None
        return Fault("Runtime.TruncatedResponse", "the service was given another response than what was streamed")

    async def aclose(self) -> None:
        self.streams.forget(self.expected)
        self.expected.begun.cancel()
        if self.stream is not None:
            self.stream.leave()
        self.answer.cancel()
        with contextlib.suppress(asyncio.CancelledError, Unanswered):
            await self.answer


class BodyOfStream:
    """The body of a reply that is passed on as it comes."""

    def __init__(self, invocation: Invocation, pieces: AsyncIterator[bytes]) -> None:
        self.invocation, self.pieces = invocation, pieces

    def __aiter__(self) -> AsyncIterator[bytes]:
        return self.pieces

    async def aclose(self) -> None:
        await self.invocation.aclose()


# ---- a Function URL --------------------------------------------------------------------------------------------------


def plain_reply(result: bytes, _request: Request, _tell: Callable[[str], None]) -> Reply:
    """The answer to a result that was not streamed."""
    return Reply(200, [("Content-Type", "application/json")], result)


async def url_pieces(stream: Stream, beginning: bytes, pieces: AsyncIterator[bytes]) -> AsyncIterator[bytes]:
    """A response that breaks off breaks its connection off."""
    if beginning:
        yield beginning
    async for piece in pieces:
        yield piece
    if stream.fault is not None:
        raise Unanswered("the response breaks off")


async def url_reply(invocation: Invocation, stream: Stream) -> Reply:
    """Raises Unmappable if its prelude is none. The invocation is left then, as it is if the caller goes meanwhile."""
    try:
        return await begun_reply(invocation, stream)
    except BaseException:
        await invocation.aclose()
        raise


async def begun_reply(invocation: Invocation, stream: Stream) -> Reply:
    """The answer once the status and the headers are known."""
    pieces, beginning = stream.pieces(), b""
    status, headers = 200, [("Content-Type", stream.content_type or DEFAULT_TYPE)]
    if (stream.content_type or "").partition(";")[0].strip().lower() == prelude.CONTENT_TYPE:
        try:
            members, beginning = await prelude.prelude_of(pieces)
        except prelude.NoPrelude as reason:
            raise Unmappable(str(reason)) from None
        status, headers = status_in({"statusCode": 200, **members}), headers_in(members)
        if first(headers, "content-type") is None:
            headers.append(("Content-Type", DEFAULT_TYPE))
        headers += [("Set-Cookie", cookie) for cookie in cookies_in(members)]
    return Reply(status, headers, pieces=BodyOfStream(invocation, url_pieces(stream, beginning, pieces)))


# ---- InvokeWithResponseStream ----------------------------------------------------------------------------------------


async def event_stream(stream: Stream) -> AsyncIterator[bytes]:
    async for piece in stream.pieces():
        yield frames.payload_chunk(piece)
    fault = stream.fault
    yield frames.invoke_complete(fault.kind, fault.body) if fault else frames.invoke_complete()


def whole_event_stream(headers: Headers, result: bytes) -> bytes:
    """A response that was not streamed, in one piece."""
    if first(headers, "x-amz-function-error") is not None:
        return frames.invoke_complete(*fault_of(result))
    return (frames.payload_chunk(result) if result else b"") + frames.invoke_complete()


def stream_headers(identifier: str) -> List[Tuple[str, str]]:
    return [("Content-Type", frames.CONTENT_TYPE), ("X-Amz-Executed-Version", "$LATEST"),
            ("x-amzn-RequestId", identifier)]


async def invoke_with_response_stream(client: Client, streams: Streams, target: str, headers: Headers,
                                      payload: bytes) -> Reply:
    invocation = Invocation(client, streams, target, headers, payload)
    start = await invocation.first()
    if isinstance(start, Start):
        return Reply(200, stream_headers(start.identifier), pieces=BodyOfStream(invocation, event_stream(start.stream)))
    await invocation.aclose()
    status, headers, result = start
    if status != 200:
        return refusal_by_service(status, headers, result)
    identifier = first(headers, "x-amzn-requestid") or ""
    return Reply(200, stream_headers(identifier), whole_event_stream(headers, result))
