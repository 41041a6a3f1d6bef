"""The log type Tail: an answer with the end of what its invocation printed (API reference, "Invoke")."""
import asyncio
from typing import Awaitable, Callable, Optional, Protocol, TypeVar

from .http import Reply, first

LOG_TYPE, LOG_RESULT = "x-amz-log-type", "X-Amz-Log-Result"
LONGEST_SECONDS = 5.0  # until it is known
PREPARE_SECONDS = 15.0  # until what a function prints is divided
T = TypeVar("T")
Tell = Callable[[str], None]


class Tails(Protocol):
    """Knows what invocations print."""

    async def result_of(self, function: str, identifier: str) -> Optional[str]:
        """The log result of an invocation that was answered just now; none if nothing is known of it."""

    def is_prepared(self, function: str) -> bool:
        """Whether what an invocation of it prints will be known. Does not wait."""

    async def prepare(self, function: str) -> None:
        """Sees to that, before it is invoked."""


async def with_tail(tails: Tails, function: str, invoke: Callable[[], Awaitable[Reply]], tell: Tell) -> Reply:
    """The answer of `invoke` with the end of the log; without it if that is not known in time."""
    if not tails.is_prepared(function):
        await in_time(tails.prepare(function), tell, PREPARE_SECONDS)
    reply = await invoke()
    identifier = first(reply.headers, "x-amzn-requestid")
    if reply.status != 200 or identifier is None:
        return reply
    try:
        result = await in_time(tails.result_of(function, identifier), tell)
    except BaseException:  # (its caller has gone)
        if reply.pieces is not None:
            await reply.pieces.aclose()
        raise
    return reply if result is None else reply._replace(headers=[*reply.headers, (LOG_RESULT, result)])


async def in_time(work: Awaitable[T], tell: Tell, seconds: float = LONGEST_SECONDS) -> Optional[T]:
    """Returns what this gives; none if it takes long, or has a fault, which is told: the answer of an invocation does
    not depend on its log."""
    try:
        return await asyncio.wait_for(work, seconds)
    except asyncio.TimeoutError:
        return None
    except Exception as fault:
        tell(f"the log of an invocation cannot be had: {fault!r}"[:300])
        return None
