"""Processes below the guard, for tasks: their loop goes on while the guard starts or ends one."""
import asyncio
from typing import List, Mapping, Optional, Tuple

from .. import guard_process
from ..guard import GUARD, PATIENCE, Answer, Channel, NoAnswer, Process, request
from .bell import call_soon, settle


async def asked(channel: Channel, message: object, handles: Tuple[int, ...] = ()) -> Answer:
    """The answer to a request. OSError if the guard has gone."""
    loop = asyncio.get_running_loop()
    future: "asyncio.Future[Optional[Answer]]" = loop.create_future()
    channel.send(message, handles, lambda answer: call_soon(loop, settle, future, answer))
    try:
        return channel.given(await asyncio.wait_for(future, PATIENCE))
    except asyncio.TimeoutError:
        raise NoAnswer() from None


class Guarded:
    """Those of one loop, one request at a time: so none waits for room in the guard's socket."""

    def __init__(self) -> None:
        self.turn: Optional[asyncio.Lock] = None

    async def _asked(self, channel: Channel, message: object, handles: Tuple[int, ...] = ()) -> Answer:
        self.turn = self.turn or asyncio.Lock()
        async with self.turn:
            return await asked(channel, message, handles)

    async def start(self, words: List[str], directory: str, variables: Mapping[str, str], output: int,
                    forks: bool = False) -> Process:
        """As the guard's own."""
        channel = GUARD.begin()
        answer = await self._asked(channel, request(words, directory, variables, forks), (output,))
        return GUARD.known(channel, words, answer)

    async def kill(self, started: Process) -> None:
        """Kills it, its group, and all below it."""
        channel = GUARD.channel
        try:
            if channel is None:
                raise ConnectionResetError
            await self._asked(channel, {"end": started.pid})
            channel.forget(started.pid)
        except OSError:  # (the guard has gone: what it had started is below this process)
            guard_process.kill_tree(started.pid)

    @staticmethod
    async def status(started: Process) -> int:
        """Once it has ended; -9 if the guard has gone, which knows it."""
        loop = asyncio.get_running_loop()
        known: "asyncio.Future[None]" = loop.create_future()
        started.when_ended = lambda: call_soon(loop, settle, known, None)
        if not started.has_ended.is_set():
            await asyncio.wait({known}, timeout=PATIENCE)
        return -9 if started.returncode is None else started.returncode
