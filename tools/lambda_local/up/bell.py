"""What tasks of a loop wait for, and any thread rings."""
import asyncio
import contextlib
from typing import Any, Callable, Collection, Coroutine, Optional, Set, TypeVar

Given = TypeVar("Given")


def settle(future: "asyncio.Future[Given]", value: Given) -> None:
    if not future.done():
        future.set_result(value)


def is_in(loop: asyncio.AbstractEventLoop) -> bool:
    """Whether this is called by what the loop runs."""
    try:
        return asyncio.get_running_loop() is loop
    except RuntimeError:
        return False


def call_soon(loop: asyncio.AbstractEventLoop, call: Callable[..., object], *given: object) -> None:
    """Has a loop call this, unless it has ended. For any thread."""
    with contextlib.suppress(RuntimeError):
        loop.call_soon_threadsafe(call, *given)


def hear(loop: asyncio.AbstractEventLoop, descriptor: int, come: Callable[[], bool]) -> None:
    """Has a loop call this when there is something to read, until it says that there will be no more. For any thread.
    """
    def look() -> None:
        if not come():
            loop.remove_reader(descriptor)
    call_soon(loop, loop.add_reader, descriptor, look)


def called(loop: asyncio.AbstractEventLoop, work: Coroutine[Any, Any, Given], seconds: float) -> Given:
    """What a coroutine gives, for a thread that waits for it at most so long. TimeoutError of `concurrent.futures` if
    it takes longer, RuntimeError if the loop has ended."""
    try:
        return asyncio.run_coroutine_threadsafe(work, loop).result(seconds)
    except RuntimeError:
        work.close()
        raise


async def first_of(futures: "Collection[asyncio.Future[None]]",
                   seconds: Optional[float]) -> "Set[asyncio.Future[None]]":
    """Those that are done once the first is, or so many seconds are over."""
    done, _ = await asyncio.wait(futures, timeout=seconds, return_when=asyncio.FIRST_COMPLETED)
    return done


async def done_within(future: "asyncio.Future[None]", seconds: Optional[float]) -> None:
    """Waits until a future that nobody else waits for is done, which it is after so many seconds. (`asyncio.wait` takes
    three times as long.)"""
    timer = None if seconds is None else future.get_loop().call_later(seconds, settle, future, None)
    try:
        await future
    finally:
        if timer:
            timer.cancel()


class Bell:
    """It stays rung until it is cleared. `set`, `is_set` and `clear` may be called by any thread."""

    def __init__(self, loop: asyncio.AbstractEventLoop) -> None:
        self.loop = loop
        self._is_set = False
        self._waiting: "Set[asyncio.Future[None]]" = set()

    def set(self) -> None:
        if not self._is_set:
            self._is_set = True
            if is_in(self.loop):
                self._wake()
            else:
                call_soon(self.loop, self._wake)

    def _wake(self) -> None:
        for future in self._waiting:
            settle(future, None)

    def is_set(self) -> bool:
        return self._is_set

    def clear(self) -> None:
        self._is_set = False

    async def wait(self, seconds: Optional[float] = None) -> bool:
        """Whether it is rung within so many seconds."""
        return await self.comes(seconds=seconds)

    async def comes(self, *others: "asyncio.Future[None]", seconds: Optional[float] = None) -> bool:
        """Whether it is rung before one of these others is done."""
        if self._is_set:
            return True
        future: "asyncio.Future[None]" = self.loop.create_future()
        self._waiting.add(future)
        try:
            await (first_of([future, *others], seconds) if others else done_within(future, seconds))
        finally:
            self._waiting.discard(future)
        return self._is_set
