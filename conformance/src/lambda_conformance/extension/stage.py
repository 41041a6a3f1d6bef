"""The stage of an extension: the kit plays the runtime, and the extension is the command behind the proxy."""
import contextlib
import http.client
import socket
import threading
import time
from typing import Any, Dict, List, Optional, Tuple

from lambda_local.service import EXTENSION, RUNTIME, ask

from ..clock import CLOCK
from ..environment import IDENTIFIED, report_failure
from ..kit import Jury, Missing, Scenario
from ..exchanges import Exchange, Rule
from ..parked import parked
from ..stage import SILENT, Answer, Event, Stage, Tools, shown
from ..watch import OwnTime
from .delivery import NothingListens, end_of, subscribed
from .telemetry import Telemetry

NAMED = "Lambda-Extension-Name"
SHUTDOWN_SECONDS = 2  # that Lambda's Shutdown phase has
SETTLES = 2  # seconds in which it asks again if its Next is refused
SPARE = 0.15  # seconds in which an end is noticed
TAKES = 1.0  # seconds in which it has taken the end of an invocation, if it takes batches at all
COMPANION = "conformance.companion"
STATUSES = {"Function.Timeout": "timeout"}  # of platform.runtimeDone, by the service's errors
ANOTHER_EVENT = (b'{"eventType":"INVOKE","deadlineMs":4102444800000,"requestId":"00000000-0000-4000-8000-00000000d00d",'
                 b'"invokedFunctionArn":"arn:aws:lambda:us-east-1:123456789012:function:f",'
                 b'"tracing":{"type":"X-Amzn-Trace-Id","value":""}}')


class PlayedRuntime(threading.Thread):
    """A runtime of one generation: returns each event, and hangs if that is "hang"."""

    def __init__(self, port: int) -> None:
        super().__init__(daemon=True)
        self._connection, self._has_to_end = http.client.HTTPConnection("127.0.0.1", port), False
        self.start()

    def end(self) -> None:
        """Ends its connection, so that it asks for nothing in the next generation, however late it comes to that."""
        self._has_to_end, connected = True, self._connection.sock
        if connected:
            with contextlib.suppress(OSError):
                connected.shutdown(socket.SHUT_RDWR)
        self.join(SETTLES)

    def run(self) -> None:
        connection = self._connection
        try:
            while not self._has_to_end:
                connection.request("GET", RUNTIME + "invocation/next")
                answer = connection.getresponse()
                event = answer.read()
                if answer.status != 200 or event == b'"hang"':
                    return
                connection.request(
                    "POST", f"{RUNTIME}invocation/{answer.getheader('Lambda-Runtime-Aws-Request-Id')}/response", event)
                connection.getresponse().read()
        except (OSError, http.client.HTTPException):
            pass  # (the stage has ended)
        finally:
            connection.close()


class Companion:
    """A second extension, of the kit: it fails on request, so that the tested one receives SHUTDOWN for FAILURE."""

    def __init__(self, port: int) -> None:
        self._port = port
        _, headers, _ = ask(port, "POST", EXTENSION + "register", '{"events":[]}', {NAMED: COMPANION})
        self._me = {IDENTIFIED: headers["lambda-extension-identifier"]}
        self._poll = http.client.HTTPConnection("127.0.0.1", port)
        self._poll.request("GET", EXTENSION + "event/next", headers=self._me)

    def fail(self) -> None:
        report_failure(self._port, self._me[IDENTIFIED], "the kit's companion fails as it is asked to")
        self._poll.close()


class ExtensionStage(Stage):
    """A stage whose environment has the extension; `begin` starts a generation of it."""
    poll_kind, first_kind = "event", "register"

    def __init__(self, tools: Tools, scenario: Scenario, jury: Jury, telemetry: bool = True, companion: bool = False,
                 **settings: Any) -> None:
        super().__init__(tools, scenario, jury, start=False, **settings)
        self._wants_companion = companion
        self.companion: Optional[Companion] = None
        self._runtime: Optional[PlayedRuntime] = None
        self.telemetry, self._is_deaf = Telemetry(self), False
        if telemetry:  # (this service has none, which one scenario alone is about)
            self.environment.proxy.always["telemetry"] = Rule("telemetry", decide=self.telemetry.decide)
        self.environment.proxy.on_answer = self._hold_after_shutdown

    def prepare(self) -> None:
        """(Each scenario begins by itself.)"""

    def _hold_after_shutdown(self, exchange: Exchange) -> None:
        """One that has understood its SHUTDOWN may ask once more, to say that it is done, and ends whatever the answer
        is: here another INVOKE. One that asks again for that waits for ever, as in Lambda."""
        if self.body_of(exchange).get("eventType") == "SHUTDOWN":
            proxy = self.environment.proxy
            proxy.rule = Rule("event", reply=(200, ANOTHER_EVENT), headers=[("Lambda-Extension-Event-Identifier", "1")])
            proxy.then = Rule("event", holds=True)

    def cause(self, shown_there: str) -> str:
        own = ("event", "extension_init_error", "extension_exit_error")
        is_unknown = any(one.status == 403 and not one.by_rule and b"Unknown" in one.came
                         for one in self.environment.proxy.of(*own))
        if len(self.names()) > 1:
            return "it registers under several names"
        return super().cause(shown_there) or ("its identifier is not known" if is_unknown else "")

    def names(self) -> List[str]:
        """Those under which it has registered."""
        taken = [one for one in self.environment.proxy.of("register") if one.status == 200]
        return sorted({one.request.headers.get("lambda-extension-name", "") for one in taken})

    def start(self) -> None:
        """Starts the extension's process."""
        self.environment.start()

    def register(self) -> None:
        """Starts it, and waits for its registration; Missing if that does not come, or is refused."""
        before = len(self.environment.proxy.of("register"))
        self.start()
        asked = self.environment.asked(before + 1, kind="register")
        if not asked or self.environment.saw("register", 5, before + 1) is None:
            raise Missing(self.lacks("it did not register"))
        registered = self.environment.proxy.of("register")[before]
        if registered.status != 200:
            raise Missing(f"its registration was answered {registered.status} {shown(registered.came)}")

    def forget(self) -> None:
        """Ends the process and its generation, so that another one can begin."""
        self.environment.kill()
        self._end_runtime()
        self.environment.end_extensions()

    def begin(self) -> None:
        """A generation: the extension registers and asks for its first event, then come the kit's companion and
        runtime."""
        environment = self.environment
        self._end_runtime()
        environment.proxy.always.pop("event", None)
        environment.proxy.then = None
        if self.events("SHUTDOWN"):  # (of the generation before)
            environment.proxy.rule = None
        before, polls = len(environment.proxy.of("register")), len(environment.proxy.of("event"))

        def goes_on_without() -> bool:
            """(A single poll may be the last one of the process before.)"""
            return len(environment.proxy.of("event")) > polls + 1
        self.start()
        asked = environment.asked(before + 1, kind="register", in_vain=goes_on_without)
        if (not (asked or self.starts_plainly(environment))
                or environment.saw("register", 5, before + 1) is None):
            raise Missing(self.lacks("it did not register"))
        registered = environment.proxy.of("register")[before]
        if registered.status != 200:
            raise Missing(f"its registration was answered {registered.status} {shown(registered.came)}")
        if not environment.asked(polls + 1, kind="event"):
            raise Missing(self.lacks("it did not ask for an event"))
        if self._wants_companion:  # (the service gives an Init ten seconds from its first call on)
            self.companion = Companion(self.environment.service_port)
        self.play()

    def play(self) -> None:
        """Plays the runtime of this generation."""
        self._end_runtime()
        self._runtime = PlayedRuntime(self.environment.service_port)

    def _end_runtime(self) -> None:
        """Ends the runtime of the generation before."""
        if self._runtime:
            self._runtime.end()
            self._runtime = None

    def invoke(self, event: Event, qualified: bool = False, trace: Optional[str] = None) -> Answer:
        """Invokes the function, and sends the extension the end of that, for which it may wait before it asks again."""
        answer = super().invoke(event, qualified, trace)
        found = None if self._is_deaf else subscribed(self)
        if found and found.takes_platform:
            status = "success" if not answer.failed else STATUSES.get(str(answer.report.get("errorType")), "error")
            batch = end_of(answer.headers["x-amzn-requestid"], status, found.is_of_logs)
            try:
                self._is_deaf = found.fault_first(batch, TAKES) is not None
            except NothingListens:
                self._is_deaf = True
        return answer

    # -- what it registered for

    @property
    def registration(self) -> Exchange:
        """The last exchange in which it registered; Missing if there is none."""
        found = [one for one in self.environment.proxy.of("register") if one.status == 200]
        if not found:
            raise Missing(self.lacks("it did not register"))
        return found[-1]

    @property
    def identifier(self) -> str:
        return self.registration.told["lambda-extension-identifier"]

    def registered_for(self, event: str) -> bool:
        asked = self.registration.json()
        return isinstance(asked, dict) and event in (asked.get("events") or [])

    # -- events

    def events(self, kind: str) -> List[Exchange]:
        """The exchanges that brought it an event of a kind."""
        return [one for one in self.environment.proxy.of("event")
                if self.body_of(one).get("eventType") == kind]

    @staticmethod
    def body_of(exchange: Exchange) -> Dict[str, Any]:
        """The event that an exchange brought; empty if it brought none."""
        found = exchange.reply_json() if exchange.kind == "event" and exchange.status == 200 else None
        return found if isinstance(found, dict) else {}

    def event(self, kind: str, count: int = 1, seconds: float = 5) -> Exchange:
        """The count-th exchange that brought it an event of a kind; Missing if that does not come."""
        end = CLOCK.now() + seconds
        while len(self.events(kind)) < count:
            if CLOCK.now() > end:
                raise Missing(self.lacks(f"it did not take its event {kind}"))
            self.environment.proxy.wait(lambda: False, 0.02)
        return self.events(kind)[count - 1]

    def polls_after(self, exchange: Exchange) -> List[Exchange]:
        return [one for one in self.environment.proxy.of("event") if one.begun >= exchange.end]

    def shut_down(self) -> Tuple[Exchange, bool, OwnTime]:
        """Waits for its SHUTDOWN, and whether its process ends in time: the exchange, whether it did, and its own time.
        Then all is ended as Lambda ends it, and the service knows."""
        exchange, process = self.event("SHUTDOWN"), self.environment.process
        ended = process.wait(SHUTDOWN_SECONDS + SPARE, exchange.end)
        self.environment.kill()
        ask(self.environment.service_port, "GET", EXTENSION + "event/next", headers={IDENTIFIED: self.identifier})
        return exchange, ended, process.own

    def idle(self) -> None:
        """Waits until the runtime and the extension wait."""
        own, end = OwnTime(self.environment.process.number), CLOCK.now() + SILENT
        while True:
            runtimes, extensions = parked(self.service.port)
            if runtimes and extensions.get(1, 0) >= (2 if self.companion else 1):
                return
            polls = self.environment.proxy.of("event")
            if polls and polls[-1].refused and own.real > SETTLES:
                raise Missing(polls[-1].finding("its Next is refused"))
            if self.waits() and CLOCK.now() < end:  # (the service does not know of it yet, or the runtime is late)
                own = OwnTime(self.environment.process.number)
            if own.look() > SILENT or self.environment.process.ended:
                raise Missing(self.lacks("it does not wait for an event"))
            time.sleep(0.02)
