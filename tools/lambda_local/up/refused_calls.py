"""What the service refuses of runtimes that have their environments' own ports, as far as its history has it: calls
that it knows. (A proxy, or the relay, sees all that is refused.)"""
from typing import Any, Callable, Dict, Mapping, Tuple

from ..history.entries import Entry, request_identifier
from ..history.words import FAILURE, NEXT, RESPONSE, RESPONSE_TOO_LARGE, Word
from ..service import RUNTIME
from ..telemetry.refusals import Refusals
from ..telemetry.sidecars import Sidecars

# The statuses and types of the service's refusals (docs/formats.md).
ANSWERS: Dict[str, Tuple[int, str]] = {
    "State": (403, "InvalidStateTransition"), "Replaced": (403, "InvalidStateTransition"),
    "BadId": (400, "InvalidRequestID"), "TooLarge": (413, "RequestEntityTooLarge")}
ROUTES = {NEXT: ("GET", "invocation/next"), RESPONSE: ("POST", "invocation/{}/response"),
          RESPONSE_TOO_LARGE: ("POST", "invocation/{}/response"), FAILURE: ("POST", "invocation/{}/error")}


class RefusedCalls:
    """Takes the entries of the history. `tell` is called with the number of an environment, a kind and a line."""

    def __init__(self, configuration: Mapping[str, Any], sidecars: Sidecars, tell: Callable[[int, str, str], None]):
        self.salt: int = configuration["salt"]
        self.sidecars, self.tell = sidecars, tell
        numbers = [number for number, part in enumerate(configuration["functions"], 1) for _ in part["ports"]]
        self.functions = dict(enumerate(numbers, 1))  # the number of its function, by that of an environment
        self.of: Dict[int, Refusals] = {}

    def take(self, entry: Entry) -> None:
        call, own = entry.call, entry.own
        if own is None or own.word is not Word.REFUSED or own.reason not in ANSWERS:
            return
        if call.kind not in ROUTES or call.environment is None or not self.sidecars.is_unheard(call.environment):
            return
        number, (status, kind), (method, path) = call.environment, ANSWERS[own.reason], ROUTES[call.kind]
        if number not in self.of:
            self.of[number] = Refusals(lambda text: self.tell(number, "refused", text))
        identifier = "" if call.id is None else request_identifier(self.salt, self.functions[number], call.id)
        self.of[number].answered(method, RUNTIME + path.format(identifier), status, kind)

    def end(self) -> None:
        """The last numbers."""
        for refusals in self.of.values():
            refusals.end()
