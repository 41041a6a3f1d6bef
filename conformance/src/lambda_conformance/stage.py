"""The stage of a scenario: its own service with one function, a proxy in front of each environment, the tested command
behind the proxy, and callers."""
import argparse
import concurrent.futures
import http.client
import itertools
import json
import math
import os
import time
from typing import Any, Callable, Dict, List, NamedTuple, Optional, Sequence, Union

from lambda_local.executables import what_is_wrong
from lambda_local.service import Fault, Service, ask

from . import evidence
from .clock import CLOCK
from .environment import LOOK, Environment
from .exchanges import as_json, read_json
from .kit import FAIL, NOTE, PASS, SHOULD, Came, EndedEarly, Finding, Jury, Missing, Scenario, Seen
from .parked import parked
from .process import Processes, cut, program_of
from .watch import OwnTime
Event = Union[bytes, Dict[str, Any]]  # as its bytes, or as a value

KITS_HANDLER = "conformance.handler"
ACCOUNT, REGION = "123456789012", "us-east-1"
PATIENCE = 10  # seconds beyond twice an Init's limit: one check alone is about that limit
ANSWERED_WITHIN = 10  # seconds that a caller waits beyond the function's timeout
SHOWN = 200  # letters of what came
SILENT = 12  # seconds of its own after which a process that has to answer, or to ask, does not do so any more
GONE_ON = 6  # seconds of its own in which a process that asks for its next invocation answers its last one all the same
UNANSWERED = "the caller received no answer, and the next invocation is asked for"
NOT_STARTED = (126, 127)  # statuses with which a shell ends in place of a program that cannot be started
REFUSED = 3  # polls that are refused for what they are, after which it is not waited for another one
RESTARTS = "its command starts other processes in place of those that have ended"
OF_LAMBDA = ("Function.Timeout", "Sandbox.Timedout", "Runtime.ExitError")  # errors of what sends no answer
LONGEST_NAME = 64  # letters of a function's name
LONG_NAME = "_of_a_function_whose_name_has_as_many_letters_as_Lambda_allows"
STAGES = itertools.count()


class Tools(NamedTuple):
    """What all scenarios of a run have in common."""
    command: List[str]
    program: Optional[str]  # the service
    processes: Processes
    options: argparse.Namespace


class Answer(NamedTuple):
    """What a caller received."""
    status: int
    headers: Dict[str, str]
    body: bytes

    @property
    def failed(self) -> bool:
        return "x-amz-function-error" in self.headers

    @property
    def value(self) -> Any:
        """The body as JSON; Missing if it is none."""
        try:
            return read_json(self.body)
        except ValueError:
            raise Missing(self.came(f"the caller received what is not JSON: {shown(self.body)}")) from None

    @property
    def report(self) -> Dict[str, Any]:
        """Returns the error report; an empty one if it is not a JSON object."""
        value = as_json(self.body)
        return value if isinstance(value, dict) else {}

    def came(self, words: str = "", lead: str = "the caller received") -> Finding:
        """What the caller received, in these words, or behind this lead: something that the program sent, unless it
        sent nothing in time."""
        is_late = self.failed and self.report.get("errorType") in OF_LAMBDA
        error = f"{lead} {self.report.get('errorType')}: {self.report.get('errorMessage')}" if self.failed else ""
        return Finding(words or f"{lead} {shown(self.body)}", not is_late, like="" if words else error)


def shown(value: Any) -> str:
    """A value as a line that is not too long."""
    text = value.decode(errors="replace") if isinstance(value, (bytes, bytearray)) else value
    text = str(text) if isinstance(text, str) else json.dumps(text, ensure_ascii=False)
    return cut(text, SHOWN, f".. ({len(value) if isinstance(value, (str, bytes, bytearray)) else 'more'} in all)")


def compact(event: Event) -> bytes:
    """The bytes of an event: compact, members in their order, text as it is."""
    return event if isinstance(event, bytes) else json.dumps(event, ensure_ascii=False, separators=(",", ":")).encode()


def told(event: Event) -> str:
    """What a handler is asked for by an event, in a word."""
    value = as_json(event) if isinstance(event, bytes) else event
    return str(value.get("do", "")) if isinstance(value, dict) else ""


class Stage:
    """Opened for one scenario, and ended with it in any case."""
    poll_kind = "next"  # of the requests with which it asks for what is to be done
    first_kind = "next"  # of its first request

    def __init__(self, tools: Tools, scenario: Scenario, jury: Jury, environments: int = 1, timeout: int = 30,
                 handler: str = KITS_HANDLER, start: bool = True, extensions: Sequence[str] = (), lasts: int = 0,
                 drawn: bool = True, first: bool = False, variables: Optional[Dict[str, str]] = None,
                 judged: str = FAIL, has_long_name: bool = False, collects_early: bool = False) -> None:
        self.tools, self.scenario, self.jury, self.variables = tools, scenario, jury, dict(variables or {})
        self.collects_early = collects_early
        # (the service's clock is the real one: on a busy machine a function has more of it)
        self.is_long, self.is_first = timeout > SILENT, first  # (no handler takes as long)
        self.is_brief = timeout < GONE_ON  # (its timeout says it sooner, on a busy machine too)
        self.timeout = timeout = math.ceil(timeout * CLOCK.slowness())
        self.patience = 2 * tools.options.init_seconds + PATIENCE
        self.name = (scenario.name + LONG_NAME)[:LONGEST_NAME] if has_long_name else scenario.name
        self._cause = self.last_event = ""
        self.acted = time.monotonic()  # when the kit has begun anything last
        function = {"name": self.name, "handler": handler, "timeout": timeout, "ports": [0] * environments,
                    "extensions": list(extensions)}
        configuration = {"account": ACCOUNT, "region": REGION, "salt": salt(), "functions": [function]}
        with tools.processes.opening():
            self.service = Service(configuration, tools.program)
        self.function = self.service.configuration["functions"][0]
        self.arn = f"arn:aws:lambda:{REGION}:{ACCOUNT}:function:{self.name}"
        self.environments = [Environment(self, number, port) for number, port in enumerate(self.function["ports"], 1)]
        self.environment = self.environments[0]
        self._callers, self._asking = (concurrent.futures.ThreadPoolExecutor(16),
                                       concurrent.futures.ThreadPoolExecutor(16))
        try:
            if start:
                for environment in self.environments:
                    environment.start()
        except BaseException:
            self.end()
            raise

    def prepare(self) -> None:
        """Waits for the first Next of each process, since the service's limit for an Init is not what most scenarios
        are about. (One whose Init cannot succeed has another handler.)"""
        if self.function["handler"] != KITS_HANDLER:
            return
        for environment in self.environments:
            if not environment.asked(in_vain=self.misdirected) and not self.starts_plainly(environment):
                if self.is_first:
                    self.refuse_if_it_ended()
                raise Missing(self.misdirected() or self.lacks(f"no Next within {self.patience:g} s"))
        self.idle()  # (the service knows of it too)

    def starts_plainly(self, environment: Environment) -> bool:
        """Whether a process that has ended before it asked for anything, as one does that does not know the options
        that have collectors work early, asks for its first invocation without these."""
        if not self.collects_early or not environment.process.ended or environment.proxy.exchanges:
            return False
        self.collects_early = False
        environment.kill()
        environment.start()
        return environment.asked(in_vain=self.misdirected, kind=self.first_kind)

    def __enter__(self) -> "Stage":
        return self

    def __exit__(self, *_: Any) -> None:
        self.end()

    def end(self) -> None:
        if self.is_first and self.environment.is_started:
            self.tools.processes.ports = self.environment.process.chosen_ports()
        for environment in self.environments:
            environment.kill()
        self.service.kill()
        for environment in self.environments:
            environment.proxy.close()
        self._callers.shutdown()
        self._asking.shutdown()

    def refuse_if_it_ended(self) -> None:
        """A command that ends before it asks for anything is none that can be tested."""
        environment = self.environment
        if environment.process.ended and not environment.proxy.exchanges:
            program, status = program_of(self.tools.command), environment.process.status
            why = what_is_wrong(program, False) if status in NOT_STARTED else None
            if why:
                raise Fault(2, f"{self.tools.command[0]} {why}")
            words = (f"{' '.join(self.tools.command)}: {environment.process.how_it_ended()} before it asked for "
                     f"anything")
            raise EndedEarly(words, environment.process.last_lines(evidence.WRITTEN))

    def misdirected(self) -> Optional[Finding]:
        """Says that a request is refused that is of no route, or none at all, if there is one."""
        refused = [one for one in self.environment.proxy.of("other") if one.refused and not one.by_rule]
        return refused[-1].finding("its request is refused") if refused else None

    # -- judging

    def check(self, name: str, passed: Any, came: Optional[Came], measured: str = "") -> None:
        """A PASS, with what was measured, or a FAIL, with what came."""
        self.jury.judge(name, PASS if passed else FAIL, measured if passed else came or "")

    def note(self, name: str, came: Came) -> None:
        self.jury.judge(name, NOTE, came)

    def should(self, name: str, came: Came) -> None:
        """What the pages recommend is not done, as clients of AWS's own do not either."""
        self.jury.judge(name, SHOULD, came)

    def in_time(self, name: str, passed: Any, own: OwnTime, limit: float, came: Came, measured: str = "") -> None:
        """Judges what has a limit in seconds: a program is late by its own time alone, and in time by the real one."""
        if not passed and own.has_others():
            self._cause = RESTARTS
        if passed and own.real > limit:
            return self.note(name, f"after {own.real:.1f} s, of {limit:g}: in time only because this machine is busy "
                                   f"with other things")
        return self.check(name, passed, came, measured)

    # -- calling

    def invoke(self, event: Event, qualified: bool = False, trace: Optional[str] = None) -> Answer:
        """Invokes the function, and again if no environment is free yet. Returns what its caller received."""
        self.acted, self.last_event = time.monotonic(), told(event)
        headers = {"X-Amzn-Trace-Id": trace} if trace else {}
        path = f"/2015-03-31/functions/{self.name}/invocations" + ("?Qualifier=$LATEST" if qualified else "")
        end, own = CLOCK.now() + ANSWERED_WITHIN, OwnTime(self.environment.process.number)
        while True:
            answer = self._received(path, compact(event), headers)
            if answer.status == 200:
                return answer
            if answer.status != 429:
                raise Missing(Finding(f"the caller received {answer.status} {shown(answer.body)}", True))
            if own.look() > ANSWERED_WITHIN and CLOCK.now() > end:
                raise Missing(self.lacks(f"it did not ask for its next invocation within {ANSWERED_WITHIN} s"))
            time.sleep(0.05)

    def _received(self, path: str, body: bytes, headers: Dict[str, str]) -> Answer:
        """What the caller receives; Missing if the tested process ends without an answer, as Lambda would notice
        too."""
        begun = time.monotonic()
        waiting = self._asking.submit(ask, self.service.port, "POST", path, body, headers,
                                      self.timeout + self.patience + ANSWERED_WITHIN)
        own = OwnTime(self.environment.process.number) if self.environment.is_started else None
        gone_on: Optional[OwnTime] = None  # since it does not answer any more
        while not waiting.done():
            if concurrent.futures.wait([waiting], LOOK).done:
                break
            if all(environment.is_started and environment.process.ended for environment in self.environments):
                concurrent.futures.wait([waiting], 0.5)
                break
            gone_on = (gone_on or OwnTime(self.environment.process.number)) if self.has_gone_on(begun) else None
            if gone_on and gone_on.look() > GONE_ON and not self.is_brief:
                raise Missing(self.lacks(UNANSWERED))
            if own and self.waits():
                own = OwnTime(self.environment.process.number)
            if self.is_long and own and own.look() > SILENT:
                raise Missing(self.lacks(f"the caller received no answer within {SILENT} s"))
        if not waiting.done():
            raise Missing(self.lacks("the caller received no answer"))
        try:
            return Answer(*waiting.result())
        except (OSError, http.client.HTTPException) as fault:
            raise Missing(f"the caller received no answer: {fault}") from None

    def waits(self) -> bool:
        """Whether each tested process waits for what it has asked for: until that comes it is not late."""
        polls = [environment.proxy.of(self.poll_kind)[-1:] for environment in self.environments]
        return all(last and not last[0].ended for last in polls)

    def has_gone_on(self, since: float) -> bool:
        """Whether each tested process has asked for its next invocation and not answered the last one, which was
        delivered since this moment."""
        return all(environment.has_gone_on(since) for environment in self.environments)

    def ended(self) -> str:
        """How the tested process ended. (What it wrote last, a FAIL shows.)"""
        return self.environment.process.how_it_ended()

    def lacks(self, what: str) -> Finding:
        """What did not come, and how the process ended."""
        return Finding(f"{what}: {self.ended()}", like=f"{what}: {self.environment.process.kind_of_end()}")

    def later(self, call: Callable[..., Any], *arguments: Any, **named: Any) -> concurrent.futures.Future[Any]:
        """Does that in a thread of its own: `.result()` waits for it."""
        return self._callers.submit(call, *arguments, **named)

    def output(self, event: Event, **named: Any) -> Any:
        """Returns what the handler returned for this event, as JSON; Missing if that is not an output."""
        answer = self.invoke(event, **named)
        if answer.failed:
            raise Missing(answer.came(lead="in place of an output the caller received the error"))
        return answer.value

    def spin_down(self, environment: Optional[Environment] = None) -> None:
        """Shuts an environment down as soon as it is idle."""
        number, self.acted = (environment or self.environment).number, time.monotonic()
        end = CLOCK.now() + self.patience
        while ask(self.service.port, "POST", f"/_local/env/{number}/spindown")[0] != 202:
            if CLOCK.now() > end:
                raise Missing("the environment did not become idle")
            time.sleep(0.02)

    def idle(self) -> None:
        """Waits until each environment's runtime waits for an invocation."""
        own, end = OwnTime(self.environment.process.number), CLOCK.now() + SILENT
        while len(parked(self.service.port).runtimes) < len(self.environments):
            if self.waits() and CLOCK.now() < end:  # (the service does not know of it yet)
                own = OwnTime(self.environment.process.number)
            refused = [one for one in self.environment.proxy.of("next") if one.refused and one.status not in (403, 500)]
            if (own.look() > SILENT or len(refused) > REFUSED
                    or any(environment.is_started and environment.process.ended for environment in self.environments)):
                raise Missing(f"it does not wait for an invocation ({self.environment.process.how_it_ended()})")
            time.sleep(0.02)

    def idle_or_ended(self) -> None:
        """The same, or until its process has ended."""
        try:
            self.idle()
        except Missing:
            if not self.environment.process.ended:
                raise

    # -- what a FAIL shows

    def has_acted_since(self, moment: float) -> bool:
        """Whether an invocation, a process or a shutdown was begun since then."""
        return self.acted > moment

    def seen(self, begin: float, end: float) -> Seen:
        return evidence.seen(self, evidence.Part(begin, end))

    def cause(self, shown_there: str) -> str:
        """What a FAIL comes from, by what the connections show there, or by what is known of the program."""
        return shown_there or self._cause

    def history(self) -> Optional[str]:
        try:
            return self.service.history()
        except (OSError, http.client.HTTPException):
            return None


def salt() -> int:
    """One of its own for each stage, so that no other one has its identifiers. (Of its last 16 bits, four are not the
    caller's.)"""
    return (int(1000 * time.time()) << 16) + next(STAGES) % 4096


def patient() -> None:
    """How long the service may hold back an Invoke while its environment is about to ask again."""
    os.environ["LAMBDA_LOCAL_PATIENCE_MS"] = "2000"
