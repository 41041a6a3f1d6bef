"""What the service's log tells of requests that it refuses before they are calls (docs/formats.md), as lines of the
environments whose processes sent them: the first of each kind, then how many came since. (A proxy, or the relay, tells
all that is refused of its environment's; a caller sees the answer.) Of those that come to the port of a Function URL or
an API, the first of each kind."""
import re
from typing import Any, Callable, List, Mapping, Match

from ..service import Service
from ..telemetry.refusals import IDENTIFIED, sentence, shortened, type_of
from ..telemetry.sidecars import Sidecars

REJECTED = re.compile(r"\[INFO +lambda_local::rejected\] (\d{3}) (.*)")
FIRST = re.compile(r"(?:(?P<method>\S+) (?P<target>\S*) at )?port (?P<port>\d+)(?:, (?P<why>\{.*\}|.+?))?: "
                   r"(?P<advice>.+)")
MORE = re.compile(r"at an environment's port: (?P<count>\d+) more since; (?P<advice>.+)")
NO_ROUTE, OTHER_METHOD = 404, 405


class Rejected:
    """`look` is called now and then, and after the end of the service. `functions` have the names of environments'
    functions, by the environments' numbers."""

    def __init__(self, service: Service, sidecars: Sidecars, environments: Mapping[int, Any],
                 log: Callable[..., None]) -> None:
        self.service, self.sidecars, self.environments, self.log = service, sidecars, environments, log
        ports: List[int] = [port for function in service.configuration["functions"] for port in function["ports"]]
        self.numbers = {port: number for number, port in enumerate(ports, 1)}
        self.owners = {port: owner for owner, port in service.handled.items()}
        self.read = 0  # lines of the service's log

    def look(self) -> None:
        """Tells what the log says by now."""
        lines = self.service.lines
        while self.read < len(lines):
            line, self.read = lines[self.read], self.read + 1
            if found := REJECTED.fullmatch(line):
                self._take(int(found[1]), found[2])

    def _take(self, status: int, told: str) -> None:
        if first := FIRST.fullmatch(told):
            number, owner = self.numbers.get(int(first["port"])), self.owners.get(int(first["port"]))
            if owner is not None:
                self.log("up", f"{owner}: {told_of(first)}: {status}, {first['advice']}", level="error", kind="http")
            if number is not None and not self.sidecars.is_heard(number):
                here = self.environments[number]
                self.log(here.name, f"-- {words_of(status, first)}", level="warning", kind="refused",
                         function=here.function)
        elif (more := MORE.fullmatch(told)) and not all(map(self.sidecars.is_heard, self.numbers.values())):
            # (of which environments they are the log does not say)
            self.log("service", f"-- requests at environments' ports: {status}, {int(more['count']):,} more; "
                     f"{more['advice']}", level="warning", kind="refused")


def told_of(first: Match[str]) -> str:
    """A request, by its method and path."""
    path = (first["target"] or "").partition("?")[0]
    return f"{first['method']} {shortened(path)}" if first["method"] else "what came is refused"


def words_of(status: int, first: Match[str]) -> str:
    """A request that was refused, and what to do, as a proxy says it if it has a sentence for it."""
    if first["method"] is None:
        return f"{told_of(first)}: {status}, {first['advice']}"
    path = first["target"].partition("?")[0]
    kind = type_of((first["why"] or "").encode())
    is_known = bool(kind) or status in (NO_ROUTE, OTHER_METHOD)
    told = sentence(first["method"], IDENTIFIED.sub("ID", path), status, kind, None, "") if is_known else (
        first["advice"])
    return f"{told_of(first)}: {status}, {told}"
