"""A service whose handlers run in this process: what the pytest plugin gives to a test, and usable without pytest.

    with LambdaLocal(greet=handler) as service:
        service.invoke("greet", {"name": "Ada"})

A function has one environment, or as many as its member `environments` says: its handler then runs in as many threads.
A handler takes the event, or the event and its context, as Lambda calls it; `context.headers` are those of the
invocation. Until the end, the process has the variables of a function, dummy credentials and the service's address: a
client of Lambda calls the service, and no client of boto3 reaches AWS. `keep_credentials=True` lets them."""
import contextlib
import functools
import json
import os
import sys
import threading
import time
from typing import TYPE_CHECKING, Any, Callable, Dict, List, Mapping, Optional, Tuple, Union
from urllib.parse import quote, urlsplit

from .clock.asked import SETTLED
from .clock.own import OwnClock
from .configuration import OF_FUNCTION, Kind, Members, is_whole, mistakes_of
from .held import HELD
from .paths import bundled_module
from .sandbox import Changes, Sandbox
from .service import RUNTIME, Service, ask
from .storm import Storm, given_storm
from .troubles import CRASH, Troubled
from .variables import OF_FUNCTION as VARIABLES
from .variables import of_function, text_of

if TYPE_CHECKING:
    from .front.front import Front
    from .in_storm import InMaker, InOrder

Handler = Callable[..., Any]

OWN = {"variables": VARIABLES,
       "environments": Kind(lambda value: is_whole(value, 257) and value != 0, "a whole number from 1 to 256"),
       "memory": Kind(lambda value: is_whole(value, 1 << 32), "a whole number of MB")}
MEMBERS = {**{name: kind for name, kind in OF_FUNCTION.items() if name != "name"}, **OWN,
           "ports": Kind(lambda value: isinstance(value, list) and all(is_whole(port, 1 << 16) for port in value),
                         "a list of ports, 0 for a free one")}
LONGEST_SECONDS = 86_400  # for an answer: a debugger may stand in a handler
DRAIN_SECONDS = 5  # for events at the end
FAULTS_KEPT = 100  # the newest of those that no invoke has asked for
RESERVED = b"ReservedFunctionConcurrentInvocationLimitExceeded"
PAUSE = 0.02  # seconds, until an environment that was reset is asked again


class FunctionError(Exception):
    """What the function, or the service for it, reported to its caller: `.report` is the body. Its `__cause__` is what
    the handler raised."""

    def __init__(self, report: object) -> None:
        super().__init__(f"{report.get('errorType')}: {report.get('errorMessage')}" if isinstance(report, dict)
                         else str(report))
        self.report = report


def function_of(name: str, members: object, handler: Optional[Handler]) -> Tuple[Members, str]:
    """A function's part of the configuration, with free ports, and its memory."""
    where = f"function {name}"
    if handler is not None and not callable(handler):
        raise ValueError(
            f"{where}: its handler is {handler!r}: give a function of an event, or of an event and its context")
    if not isinstance(members, dict):
        raise ValueError(f"{where}: its members are {members!r}: give a dict, such as {{\"timeout\": 5}}")
    if not isinstance(members.get("handler", ""), str):
        raise ValueError(f"{where}: handler is a name, which nothing calls here: give the function itself, as "
                         f"start({name}=..)")
    for mistake in mistakes_of(members, MEMBERS, f"{where}: "):
        raise ValueError(mistake)
    if "environments" in members and "ports" in members:
        raise ValueError(f"{where}: it has ports and environments: leave one of the two out")
    part = {member: value for member, value in members.items() if member not in OWN}
    return {"name": name, "ports": [0] * members.get("environments", 1), **part}, str(members.get("memory", 128))


def variables_of(members: Mapping[str, Members]) -> Dict[str, str]:
    """The variables of handlers that share one process: their own, and what a function alone reads about itself."""
    found: Dict[str, str] = {}
    owners: Dict[str, str] = {}
    if len(members) == 1:
        name, = members
        found.update(of_function(name, members[name].get("memory", 128)))
    for name, own in members.items():
        for variable, value in own.get("variables", {}).items():
            owner = owners.setdefault(variable, name)
            if owner != name and found[variable] != text_of(value):
                raise ValueError(
                    f"function {name}: its variable {variable} is {text_of(value)!r}, and that of function {owner} is "
                    f"{found[variable]!r}: handlers share the variables of one process: give both the same, or start "
                    "each in a LambdaLocal of its own")
            found[variable] = text_of(value)
    return found


class Runtime(threading.Thread):
    """The runtime of one environment: examples/runtime.py, but for what handlers need that share their test's
    process."""

    def __init__(self, owner: "LambdaLocal", function: str, number: int, port: int, handler: Handler,
                 memory: str) -> None:
        super().__init__(name=f"lambda_local {port}", daemon=True)
        self.function, self.number, self.port = function, number, port  # of its environment
        self.is_new = True  # it has had no invocation
        self.owner, self.memory, self.code = owner, memory, bundled_module("runtime.py")
        self.handler = self.code.with_context(handler)
        self.context = type("Context", (self.code.Context,), {"clock": staticmethod(self.now)})
        self.environment = self.code.Environment(f"127.0.0.1:{port}")

    def run(self) -> None:
        """Handles invocations until the environment closes; it then begins anew."""
        try:
            while not self.owner.has_ended():
                with contextlib.suppress(OSError, self.code.WrongAnswer):
                    self.owner.hold_init(self.function, self.number)
                    self.is_new = True
                    if self.owner.maker and (order := self.owner.maker.holds(self.function, self.number)):
                        self.fail(order)
                        continue
                    self.code.serve(self.environment, self.handler, self.begin, self.outcome,
                                    sets_trace=len(self.owner.runtimes) == 1)
                if not self.owner.has_ended():
                    time.sleep(PAUSE)
        finally:
            self.environment.close()

    def fail(self, order: "InOrder") -> None:
        """Reports that its Init fails."""
        status, _, body = ask(self.port, "POST", RUNTIME + "init/error", json.dumps(CRASH),
                              {"Lambda-Runtime-Function-Error-Type": CRASH["errorType"]})
        order.end(status == 202, why=f"the service answers {status} {body[:100].decode(errors='replace')}")

    def trouble(self, headers: Mapping[str, str]) -> Optional[str]:
        """What the invocation is to meet in place of its handler."""
        is_new, self.is_new = self.is_new, False
        deadline = int(headers["Lambda-Runtime-Deadline-Ms"])
        trouble = self.owner.kind_of(self.function)
        if trouble == "timeout":
            self.owner.time_out(deadline)
        elif trouble is None and self.owner.maker:
            trouble = self.owner.maker.take(self.function, self.number, headers["Lambda-Runtime-Aws-Request-Id"],
                                            deadline, is_new)
        return trouble

    def begin(self, request: str) -> None:
        if self.owner.sandbox:
            self.owner.sandbox.begin(request)

    def now(self) -> int:
        """What the clock reads by which invocations time out: the machine's, if the service does not say it."""
        try:
            return self.owner.clock.now()
        except (OSError, RuntimeError):
            return int(1000 * time.time())

    def context_of(self, headers: Mapping[str, str]) -> Any:
        """Lambda's context, of this function alone, and the headers."""
        context = self.context(headers)
        context.function_name, context.memory_limit_in_mb = context.invoked_function_arn.split(":")[6], self.memory
        context.log_group_name, context.headers = f"/aws/lambda/{context.function_name}", headers
        return context

    def outcome(self, handler: Handler, payload: bytes, headers: Mapping[str, str]) -> Tuple[str, str, Dict[str, str]]:
        """What an invocation comes to: "response" or "error", and the body and headers to post."""
        trouble = self.trouble(headers)
        if trouble == "timeout":
            raise ConnectionError("its time is over")  # (the runtime begins anew, as one that was killed)
        if trouble == "crash":
            self.owner.crash(self.function, self.number)
            return "error", json.dumps(CRASH), {"Lambda-Runtime-Function-Error-Type": CRASH["errorType"]}
        try:
            return "response", self.code.text_of(handler(self.code.read(payload), self.context_of(headers))), {}
        except BaseException as fault:  # also pytest.fail and sys.exit: who invoked it is to see them
            frame = fault.__traceback__
            while frame and frame.tb_frame.f_code.co_filename == __file__:
                frame = frame.tb_next
            request = headers["Lambda-Runtime-Aws-Request-Id"]
            is_of_runtime = isinstance(fault, self.code.RuntimeFault) and fault.__context__ is not None
            self.owner.keep(request, fault.__context__ if is_of_runtime and fault.__context__ else fault)
            failure: Tuple[str, str, Dict[str, str]] = self.code.failure(fault.with_traceback(frame), request)
            return failure


def front_of(asynchronous: Union[None, bool, Members], members: Mapping[str, Members],
             keeps_credentials: bool, storm: Optional[Storm]) -> "Optional[Front]":
    """What takes invocations of the type Event, by the members of UP.json's "asynchronous", and those that a storm may
    give trouble; None if none is wanted."""
    takes_events = asynchronous is not None and asynchronous is not False
    if not takes_events and storm is None:
        return None
    from .front.front import Front  # (asyncio takes a while to import, and few tests need it)
    from .front.asynchronous import asynchronous_of, mistakes, refused
    from .front.outbox import Outbox
    from .front.settings import Settings
    if takes_events and asynchronous is not True and not isinstance(asynchronous, dict):
        raise ValueError(f"asynchronous must be True, or a dict such as {{\"retries\": 0}}, not {asynchronous!r}")
    given = asynchronous if isinstance(asynchronous, dict) else {}
    for mistake in mistakes(given, members, "asynchronous: "):
        raise ValueError(mistake)
    settings = asynchronous_of(given) if takes_events else None
    for mistake in refused(settings, {}, keeps_credentials) if settings else ():
        raise ValueError(mistake)
    functions = tuple({"name": name, **own} for name, own in members.items())
    made = Settings(0, settings, urls={}, apis={}, functions=functions, folder=os.getcwd())
    return Front(made, DRAIN_SECONDS, tell_of_events, Outbox(keeps_credentials), is_stormy=storm is not None)


def tell_of_events(who: str, text: str, level: str = "info", kind: str = "up", always: bool = False,
                   **_members: object) -> None:
    """What is lost or goes wrong with events."""
    if level in ("warning", "error"):
        print(f"[{who}] {text}", file=sys.stderr)


class LambdaLocal(Troubled):
    """A service of these functions: `timeout`, `reserved`, `environments`, `variables` .. of a function by `functions`.
    `patches` is pytest's MonkeyPatch, or what makes the same changes and undoes them."""

    service: Optional[Service] = None
    sandbox: Optional[Sandbox] = None
    front: "Optional[Front]" = None
    endpoint_url: Optional[str] = None
    stopped, log = False, ""
    salt: Optional[int] = None  # of request identifiers; the service's own if there is none
    storm: Union[None, int, str, Storm] = None  # that a test begins in: a seed, or SEED:RATE
    maker: "Optional[InMaker]" = None  # of its trouble

    def __init__(self, functions: Optional[Mapping[str, Members]] = None, program: Optional[str] = None,
                 patches: Optional[Changes] = None, keep_credentials: bool = False,
                 asynchronous: Union[None, bool, Members] = None, **handlers: Handler) -> None:
        super().__init__()
        self.program, self.patches = program, patches
        self.clock = OwnClock(lambda: str(self.started().endpoint_url), self._settle)
        self.runtimes: List[Runtime] = []
        self.faults: Dict[str, BaseException] = {}
        if functions or handlers:
            self.start(functions, keep_credentials, asynchronous, **handlers)

    def start(self, functions: Optional[Mapping[str, Members]] = None, keep_credentials: bool = False,
              asynchronous: Union[None, bool, Members] = None, **handlers: Handler) -> "LambdaLocal":
        """`asynchronous` is True, or a dict with the members of UP.json's: invocations of the type Event are taken."""
        if self.service:
            raise RuntimeError("it has been started: name all functions in one start(), or make another LambdaLocal()")
        members: Dict[str, Members] = {**{name: {} for name in handlers}, **(functions or {})}
        if not members:
            raise ValueError("start() needs a function: start(NAME=handler)")
        parts = [function_of(name, member, handlers.get(name)) for name, member in members.items()]
        storm = given_storm(self.storm)
        variables, front = variables_of(members), front_of(asynchronous, members, keep_credentials, storm)
        configuration: Members = {"account": "123456789012", "region": "us-east-1",
                                  "functions": [part for part, _ in parts]}
        if self.salt is not None:
            configuration["salt"] = self.salt
        self.service = Service(configuration, self.program, handled=front.wanted if front else {})
        if front:
            front.serve(self.service, weather=self.weather(storm, list(handlers)))
            self.front = front
            if (gate := front.gate) and self.maker:
                self.maker.still, self.maker.sent = functools.partial(gate.still_for, front.loop), gate.unanswered
        self.endpoint_url = self.service.endpoint_url
        self.sandbox = Sandbox(self.service, variables, keep_credentials, self.patches)
        for (_, memory), part in zip(parts, self.service.configuration["functions"]):
            if handler := handlers.get(part["name"]):
                self.runtimes += [Runtime(self, part["name"], number, port, handler, memory)
                                  for number, port in zip(self.numbers_of(part["name"]), part["ports"])]
        for runtime in self.runtimes:
            runtime.start()
        HELD.begin(self.clock)
        return self

    def weather(self, storm: Optional[Storm], handlers: List[str]) -> "Optional[Tuple[Storm, InMaker]]":
        """A storm, with what makes its trouble."""
        if storm is None:
            return None
        from .in_storm import InMaker
        self.maker = InMaker(self, handlers)
        return storm, self.maker

    def numbers_of(self, name: str) -> List[int]:
        number, numbers = 1, {}
        for part in self.started().configuration["functions"]:
            numbers[part["name"]] = list(range(number, number + len(part["ports"])))
            number += len(part["ports"])
        if name not in numbers:
            raise ValueError(f"there is no function {name!r}: there are {', '.join(numbers)}")
        return numbers[name]

    def has_ended(self) -> bool:
        return self.stopped or self.service is not None and self.service.process.poll() is not None

    def keep(self, request: str, fault: BaseException) -> None:
        """What a handler raised, until its caller asks."""
        self.faults[request] = fault
        if len(self.faults) > FAULTS_KEPT:
            self.faults.pop(next(iter(self.faults)), None)

    def started(self) -> Service:
        """The service; a fault that says what to do if there is none."""
        if self.service is None:
            raise RuntimeError("no function is started yet: call start(NAME=handler) first")
        if self.has_ended():
            raise RuntimeError("the service was stopped" if self.stopped
                               else f"the service has ended: {self.service.lines[-1:]}")
        return self.service

    def invoke(self, name: str, event: object = None, patience: float = 2.0) -> Any:
        """What the handler gave; FunctionError if it failed. An environment that has answered and not yet asked again
        is busy: for `patience` seconds a throttle by it is tried again."""
        if self.endpoint_url is None or self.stopped:
            self.started()
        path = f"/2015-03-31/functions/{quote(name, safe=':$')}/invocations"
        end = time.monotonic() + patience
        while True:
            try:
                status, headers, text = ask(urlsplit(str(self.endpoint_url)).port or 80, "POST", path,
                                            json.dumps(event), timeout=LONGEST_SECONDS)
            except OSError:
                if self.service:
                    self.started()
                raise
            if status == 200:
                body = json.loads(text or b"null")
                if "x-amz-function-error" in headers:
                    raise FunctionError(body) from self.faults.pop(headers.get("x-amzn-requestid", ""), None)
                return body
            if status != 429 or time.monotonic() > end or "throttle" in self.troubles.get(name, ()) or (
                    self.maker and RESERVED in text):
                raise FunctionError({"errorType": headers.get("x-amzn-errortype"),
                                     "errorMessage": text.decode(errors="replace")})
            time.sleep(0.005)

    def client(self, **words: object) -> Any:
        """A boto3 client of this service."""
        if self.endpoint_url is None:
            self.started()
        try:
            import boto3  # type: ignore[import]
        except ImportError:
            raise RuntimeError("boto3 is not installed: `pip install boto3`, or use .invoke()") from None
        settings: Dict[str, object] = {
            "endpoint_url": self.endpoint_url, "region_name": "us-east-1", "aws_access_key_id": "local",
            "aws_secret_access_key": "local", **words}
        return boto3.client("lambda", **settings)

    def stats(self) -> Dict[str, int]:
        return self.started().stats()

    def history(self) -> str:
        return self.service.history() if self.service and not self.stopped else self.log

    def settled(self, seconds: float = 5) -> bool:
        """Waits until nothing is in flight and no event is left, but for those that wait for a clock that is paused;
        whether it came to that."""
        end = time.monotonic() + seconds
        while self._events() or self.stats()["inFlight"] or self._events():
            if time.monotonic() > end:
                return False
            time.sleep(0.005)
        return True

    def _settle(self) -> None:
        """Waits until the front has taken what came before this, and begun what is due."""
        if self.front and self.service:
            ask(self.service.port, *SETTLED)

    def _events(self) -> int:
        """Those that are left and are not waiting for a clock that is paused."""
        if not self.front or not self.front.queue:
            return 0
        return self.front.queue.count - (self.front.queue.waiting if self.front.clock.is_paused else 0)

    def stop(self) -> None:
        """Stops it, and checks its counts and that its history replays to itself."""
        if self.service is None or self.stopped:
            return
        HELD.end(self.clock)
        with contextlib.suppress(OSError, RuntimeError):
            self.clock.resume()  # (in a pause an environment that shuts down would be waited for)
        if self.front:
            self.front.drain(self.has_ended)
            self.front.end()
            if self.front.gate:
                tell_of_events("up", self.front.gate.tally.summary(), "warning")
        try:
            self.log, stats = self.service.history(), self.service.stats()
        except OSError:
            self.stopped = True
            self.service.kill()
            self.leave_sandbox()
            raise AssertionError(f"the service has ended: {self.service.lines[-1:]}") from None
        self.stopped = True
        status, counts = self.service.stop()
        for runtime in self.runtimes:
            runtime.join(2)  # (a handler that hangs is a daemon, and is left)
        self.leave_sandbox()
        words = counts.split()
        told = [int(word) for word in words[1::2]]
        assert status == 0, f"the service ended with {status}: {self.service.lines[-1:]}"
        # (what is in flight at the stop fails)
        assert (words[::2] == ["admitted", "throttled", "failed"]
                and told[:2] == [stats["admitted"], stats["throttled"]]), (counts, stats)
        assert told[2] >= stats["failed"], (counts, stats)
        assert self.service.replays(self.log), "the history does not replay to its own answers"

    def leave_sandbox(self) -> None:
        if self.sandbox:
            self.sandbox.close()

    def __enter__(self) -> "LambdaLocal":
        return self

    def __exit__(self, *_: object) -> None:
        self.stop()
