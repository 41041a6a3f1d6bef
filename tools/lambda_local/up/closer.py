"""The log of an invocation, asked for by a caller (the log type Tail), of a function whose environments were started
without the relay: they are started again with it, each as soon as it is idle."""
import asyncio
import contextlib
import threading
import time
from typing import Iterable, List, Optional, Set

from ..exchange.of_tasks import ask
from ..service import Service
from ..telemetry.sidecars import Sidecars
from .environments import Environment
from .log import Log
from .watch import Watch

LONGEST_SECONDS = 10.0  # for the first of them
BETWEEN_LOOKS = 0.02


class Closer:
    """Those of all functions; `environments` are what `up` starts."""

    def __init__(self, sidecars: Sidecars, service: Service, watch: Watch, log: Log, stopping: threading.Event):
        self.sidecars, self.service, self.watch, self.log, self.stopping = sidecars, service, watch, log, stopping
        self.environments: List[Environment] = []
        self.turn: Optional[asyncio.Lock] = None  # of whoever prepares
        self.told: Set[str] = set()  # functions

    def is_divided(self, function: str) -> bool:
        """Whether what each of its environments prints is divided. Does not wait."""
        return all(is_divided(each) for each in self.environments
                   if each.function.name == function and each.is_started)

    async def prepare(self, function: str) -> None:
        """Waits until what the function's environments print is divided. One that is busy is left for the next caller,
        unless there is no other."""
        end = time.monotonic() + LONGEST_SECONDS
        self.turn = self.turn or asyncio.Lock()
        async with self.turn:
            whole = [each for each in self.environments if each.function.name == function]
            for environment in whole:
                self.sidecars.divide(environment.number)
            asked: Set[Environment] = set()
            while time.monotonic() < end and not self.stopping.is_set():
                due = [each for each in whole if each.is_started and not is_divided(each)]
                if due and function not in self.told:
                    self.tell(function)
                asked.update(await self.spun_down(each for each in due if each not in asked))
                begins = any(not self.is_over_init(each) for each in due if each not in asked)
                if all(map(self.is_ready, asked)) and not begins and (asked or len(due) < len(whole)):
                    return
                await asyncio.sleep(BETWEEN_LOOKS)

    def is_ready(self, environment: Environment) -> bool:
        """Whether one that was spun down has been started again, if it is to be."""
        return not environment.is_started or is_divided(environment) and self.is_over_init(environment)

    def is_over_init(self, environment: Environment) -> bool:
        return self.watch.environment(environment.number).generation.is_ready

    def tell(self, function: str) -> None:
        self.told.add(function)
        self.log("up", f"restarting {function}: a caller wants the log of an invocation (\"logs\": \"exact\" starts "
                       "it so)")

    async def spun_down(self, due: Iterable[Environment]) -> List[Environment]:
        """Those that are idle, and end now."""
        found = []
        with contextlib.suppress(OSError):  # (the service has ended)
            for environment in due:
                path = f"/_local/env/{environment.number}/spindown"
                if (await ask(self.service.port, "POST", path))[0] == 202:
                    found.append(environment)
        return found


def is_divided(environment: Environment) -> bool:
    """Whether what its processes print is divided, one way or another."""
    return environment.beside.divides or not environment.function.is_unmarked
