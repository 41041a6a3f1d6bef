"""Sends recorded invocations to a service, as many at once as were in flight when they were recorded."""
import threading
import time
from typing import Callable, List, Mapping, NamedTuple, Optional, Sequence, Tuple
from urllib.parse import quote

from ..exchange.of_threads import sent
from ..program import Fault
from .record import Invocation

LATE = 30  # seconds beyond a function's timeout, after which the service does not answer
THROTTLED = 10  # seconds for which an invocation that was admitted when it was recorded is tried again
PAUSE, LOOKS = 0.05, 40


class Sent(NamedTuple):
    """What came of an invocation: the status, the request identifier if it was admitted, and the body."""
    status: int
    identifier: Optional[str]
    body: bytes
    seconds: float


class Attempt(threading.Thread):
    """One invocation. `is_sent` is set once the service has it, so that the next one comes after it."""

    def __init__(self, port: int, invocation: Invocation, timeout: float) -> None:
        super().__init__(daemon=True)
        self.port, self.invocation, self.timeout = port, invocation, timeout
        self.is_sent = threading.Event()
        self.sent: Optional[Sent] = None
        self.fault: Optional[str] = None

    def run(self) -> None:
        begun = time.monotonic()
        try:
            status, identifier, body = self.invoke()
            while status == 429 and time.monotonic() - begun < THROTTLED:
                time.sleep(PAUSE)
                status, identifier, body = self.invoke()
            self.sent = Sent(status, identifier, body, time.monotonic() - begun)
        except Exception as fault:  # (which is told by the one that waits for it)
            self.fault = str(fault) or type(fault).__name__
        finally:
            self.is_sent.set()

    def invoke(self) -> Tuple[int, Optional[str], bytes]:
        path = f"/2015-03-31/functions/{quote(self.invocation.function)}/invocations"
        if self.invocation.qualifier:
            path += "?Qualifier=$LATEST"
        headers = {} if self.invocation.trace is None else {"X-Amzn-Trace-Id": self.invocation.trace}
        with sent(self.port, "POST", path, self.invocation.payload, headers, self.timeout) as connection:
            self.is_sent.set()
            answer = connection.answered("POST")
            return answer.status, answer.headers.get("x-amzn-requestid"), answer.whole()


def play(port: int, invocations: Sequence[Invocation], timeouts: Mapping[str, int], one_by_one: bool = False,
         is_over: Callable[[], bool] = lambda: False) -> List[Sent]:
    """Sends the invocations in their order, each once those are answered that were answered before it came, or once all
    are answered that came before it. Gives what came of each. `is_over` says that the service has gone."""
    running: List[Attempt] = []
    done: List[Attempt] = []
    for invocation in invocations:
        for attempt in [other for other in running
                        if one_by_one or (other.invocation.end or 0) < invocation.ticket]:
            wait(attempt, is_over)
            running.remove(attempt)
        attempt = Attempt(port, invocation, timeouts.get(invocation.function, 0) + LATE)
        attempt.start()
        attempt.is_sent.wait()
        running.append(attempt)
        done.append(attempt)
    for attempt in running:
        wait(attempt, is_over)
    return [attempt.sent for attempt in done if attempt.sent]


def wait(attempt: Attempt, is_over: Callable[[], bool]) -> None:
    """Until it is answered. If the service does not answer, it may have ended, which is known a moment later."""
    words, looks = f"call {attempt.invocation.ticket} of {attempt.invocation.function}", 0
    while attempt.is_alive() or (attempt.fault and looks < LOOKS):
        attempt.join(PAUSE)
        if attempt.fault:
            looks += 1
            time.sleep(PAUSE)
        if is_over():
            raise Fault(2, f"the service ended while {words} was sent again")
    if attempt.fault:
        raise Fault(2, f"the service does not answer {words}: {attempt.fault}")
