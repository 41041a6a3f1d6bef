"""What a FAIL shows of its scenario: what the connections show that is wrong, and what went on, from the first call of
its check to the last one."""
import math
import time
from typing import TYPE_CHECKING, Iterator, List, NamedTuple

from .environment import Environment
from .exchanges import Exchange
from .kit import Seen

if TYPE_CHECKING:
    from .stage import Stage

BEHIND = 3  # lines of what the connections show
MALFORMED = (400, 404, 405, 411, 414, 431, 501, 505)  # statuses of requests that are wrong in whatever state
WITHOUT = "telemetry"  # a kind of request that the service has no route for, and refuses however right it is
TWO_POLLS = "there is a second Next while one waits"
WRITTEN = 10  # lines of what the program wrote last


class Part(NamedTuple):
    """A part of a scenario, between two moments of `time.monotonic`."""
    begin: float
    end: float

    def has(self, exchange: Exchange) -> bool:
        """Whether some of the exchange is in it."""
        return exchange.begun <= self.end and exchange.end >= self.begin

    def milliseconds(self, moment: float) -> float:
        """On the axis of a history, whose clock is the time of day."""
        return 1000 * (moment + time.time() - time.monotonic())


def seen(stage: "Stage", part: Part) -> Seen:
    """What is to be shown of this part."""
    exchanges = [one for environment in stage.environments for one in list(environment.proxy.exchanges)
                 if part.has(one)]
    polls_twice = any(has_two_polls(environment, stage.poll_kind, part) for environment in stage.environments)
    environment = stage.environment
    return Seen(None, tuple(acts(exchanges)), tuple(on_the_wire(exchanges, polls_twice)),
                stage.cause(shown_cause(exchanges, polls_twice)), math.floor(part.milliseconds(part.begin)),
                math.ceil(part.milliseconds(part.end)),
                tuple(environment.process.last_lines(WRITTEN)) if environment.is_started else (), stage.last_event)


def acts(exchanges: List[Exchange]) -> Iterator[str]:
    """What the proxies did in the service's place, as lines."""
    for exchange in exchanges:
        if exchange.by_rule:
            yield f"{exchange.method} {exchange.path}: the kit {exchange.by_rule.did(exchange)}"


def shown_cause(exchanges: List[Exchange], polls_twice: bool) -> str:
    """What a FAIL comes from, whatever its check is about, in words; none if the connections do not show it."""
    if any(exchange.behind for exchange in exchanges):
        return "a body is longer than its length says"
    malformed = next((one for one in exchanges if one.status in MALFORMED and not one.by_rule and one.kind != WITHOUT),
                     None)
    if malformed:
        return f"{malformed.kind} is answered {malformed.status}"
    return TWO_POLLS if polls_twice else ""


def has_two_polls(environment: Environment, kind: str, part: Part) -> bool:
    """Whether it asks while a Next of its waits."""
    polls = environment.proxy.of(kind)
    return any(other.begun < one.end and part.has(other) for one, other in zip(polls, polls[1:]))


def on_the_wire(exchanges: List[Exchange], polls_twice: bool) -> Iterator[str]:
    """What the connections show that may be the cause of a FAIL, and the last exchange that is over, as lines."""
    yield from [fault for exchange in exchanges for fault in exchange.faults()][:BEHIND]
    if polls_twice:
        yield TWO_POLLS
    over = [exchange for exchange in exchanges if exchange.ended]
    refused = [exchange for exchange in over if exchange.refused]
    for name, found in (("refused", refused), ("last", over)):
        if found and (name == "last" or found[-1] is not over[-1]):
            yield f"{name}: {max(found, key=lambda one: one.end)}"
