"""Environments beyond a function's least number: each is started once an invocation is bound to it, and ends after a
while without work."""
from typing import Dict, Iterable, Tuple

from .. import life
from ..exchange.of_tasks import ask
from ..service import Service
from .environments import Environment
from .watch import Watch

# Seconds between two looks, if there are environments that may have to be started.
BETWEEN_LOOKS = 0.03
Work = Tuple[life.Generation, int]  # with how many invocations it was given


class Scaling:
    """Looks after the environments of all functions that have a least number and a greater one."""

    def __init__(self, environments: Iterable[Environment], watch: Watch, service: Service) -> None:
        self.environments = [environment for environment in environments if environment.is_extra]
        self.watch, self.service = watch, service
        self.last: Dict[Environment, Tuple[Work, int]] = {}  # and since which moment

    async def look(self) -> None:
        now = self.watch.clock.now()
        for environment in self.environments:
            here = self.watch.environment(environment.number)
            if not environment.is_started:
                self.last.pop(environment, None)
                if here.is_bound:
                    environment.begin()
            elif here.generation.is_ready:
                await self.look_at_idle(environment, here, now)

    async def look_at_idle(self, environment: Environment, here: life.Environment, now: int) -> None:
        """One that had no work for long enough is spun down; if it works just now, the service refuses (409)."""
        work = (here.generation, here.generation.deliveries)
        seen, since = self.last.get(environment, (None, now))
        if seen != work or not await self.watch.clock.reached_later(
                since + 1000 * (environment.function.idle or 0)):
            self.last[environment] = (work, since if seen == work else now)
            return
        self.last[environment] = (work, now)
        if (await ask(self.service.port, "POST", f"/_local/env/{environment.number}/spindown"))[0] == 202:
            environment.say(f"stopping: idle for {environment.function.idle} s")
