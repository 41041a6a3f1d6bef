"""A moment of the service's clock, as tasks wait for it."""
import asyncio
import contextlib
from typing import Iterator, Optional

from ..clock.followed import Clock
from .bell import call_soon, settle


@contextlib.contextmanager
def due(clock: Clock, moment: Optional[int]) -> "Iterator[asyncio.Future[None]]":
    """Is done once the clock has come to this moment, in milliseconds; if it is none, never."""
    loop = asyncio.get_running_loop()
    future: "asyncio.Future[None]" = loop.create_future()
    timer = None if moment is None else clock.at(moment, lambda: call_soon(loop, settle, future, None))
    try:
        yield future
    finally:
        if timer:
            timer.cancel()
