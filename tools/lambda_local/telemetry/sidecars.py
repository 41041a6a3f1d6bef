"""Which environments of lambda_local up have something beside them. All others have their own ports, at no cost.

A proxy in this process is in front of one whose function's extensions may subscribe to telemetry, or whose responses
are streamed. The relay is in front of one whose processes do not mark what they print, once that is to be divided:
always if its function says so (`"logs": "exact"`) or has an `init`, with `--report`, and while it is debugged; from its
next generation on if a caller wants the log of an invocation (`up.closer`), or if a generation ended early, since the
relay also tells what the service refuses."""
from typing import Any, Callable, Container, Dict, Iterable, List, Mapping, NamedTuple, Set

from ..front.front import Other
from ..service import free_listener
from ..streaming.pairing import Pairing
from ..streaming.streams import Streams
from .beside import Beside, Printed


class Place(NamedTuple):
    """An environment whose processes do not mark what they print."""
    function: Any
    name: str
    port: int


class Sidecars:
    """Those of all environments, by their numbers. `streaming` are the functions whose responses may be streamed;
    `divides` has all that is printed divided from the start, `when_lost` is called if the relay has ended, and `hear`
    has a loop take what it tells."""

    def __init__(self, functions: Iterable[Any], streaming: Container[str], path: str, log: Callable[..., None],
                 divides: bool, when_lost: Callable[[], None], hear: Callable[[int, Callable[[], bool]], None]):
        self.functions, self.streaming, self.path, self.log = list(functions), streaming, path, log
        self.divides, self.when_lost, self.hear = divides, when_lost, hear
        self.streams = Streams()
        self.streaming_environments: Set[int] = set()  # by their numbers
        self.found: Dict[int, Beside] = {}
        self.unmarked: Dict[int, Place] = {}
        self.by_hand: Dict[int, Place] = {}  # those whose runtimes are started by hand
        self.relay: Any = None  # once one is needed

    def serve(self, configuration: Mapping[str, Any], printed: Mapping[int, Printed]) -> List[Other]:
        """Makes the proxies of a service with this configuration, whose environments' processes print this; its front
        runs them."""
        number, proxies = 0, []
        for function, part in zip(self.functions, configuration["functions"]):
            for place, port in enumerate(part["ports"], 1):
                number += 1
                name = f"{function.name}/{place}"
                if function.has_telemetry or function.name in self.streaming:
                    proxies.append(self._proxy(function, name, port, number, printed))
                elif function.is_unmarked:
                    self.unmarked[number] = Place(function, name, port)
                    # (an Init that may take long is not to be made again for a log)
                    if self.divides or function.has_exact_logs or function.debug or function.init is not None:
                        self.divide(number)
                elif function.command is None:
                    self.by_hand[number] = Place(function, name, port)
        return proxies

    def pairing(self, call: Callable[..., None]) -> Pairing:
        """What takes the history's entries for the streams, in whose loop `call` has a function called soon."""
        return Pairing(self.streams, self.streaming_environments, call)

    def _proxy(self, function: Any, name: str, port: int, number: int, printed: Mapping[int, Printed]) -> Other:
        from .ears import OfStreams
        from .with_proxy import made
        streams = OfStreams()  # (of another function each result comes in one piece)
        if function.name in self.streaming:
            streams = OfStreams(self.streams, number)
            self.streaming_environments.add(number)
        self.found[number] = one = made(function, name, port, self.path, printed[number], streams, self.log)
        return one.proxy

    def of(self, number: int, port: int) -> Beside:
        """What the next generation of an environment has beside it."""
        return self.found.get(number) or Beside(port)

    def is_divided(self, number: int) -> bool:
        """Whether what its next generation prints is divided, one way or another."""
        return number not in self.unmarked or number in self.found

    def is_heard(self, number: int) -> bool:
        """Whether all requests of its processes are heard."""
        return number in self.found

    def is_unheard(self, number: int) -> bool:
        """Whether nothing hears the requests of an environment whose runtime is not a bundled one."""
        return number in self.by_hand or number in self.unmarked and number not in self.found

    def divide(self, number: int) -> None:
        """From its next generation on, what an environment prints is divided, and what the service refuses of it
        told."""
        if self.is_divided(number):
            return
        from .relay import BehindRelay, Relay
        if self.relay is None:
            self.relay = Relay(self.tell, self.when_lost, self.hear)
        place = self.unmarked[number]
        self.found[number] = BehindRelay(self.relay, number, free_listener(f"proxy of {place.name}", self.path),
                                         place.port)

    def tell(self, number: int, kind: str, text: str) -> None:
        """A line about the processes of an environment."""
        place = self.unmarked.get(number) or self.by_hand[number]
        self.log(place.name, f"-- {text}", level="warning", kind=kind, function=place.function.name)

    def end(self) -> None:
        """Once all processes have ended."""
        if self.relay is not None:
            self.relay.end()
