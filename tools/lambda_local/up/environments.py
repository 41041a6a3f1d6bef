"""The processes of one environment: one generation of them after the other, as the service says.

lambda_local up is an extension of the environment, registered for SHUTDOWN alone: so it is notified of the end of a
generation, and can report the end of a process."""
import asyncio
import contextlib
import json
import math
import threading
import time
from typing import Awaitable, Callable, Dict, List, Optional, Tuple

from ..exchange.of_tasks import Wire, answered, ask, sent
from ..life import Generation
from ..reports import kind_in
from ..service import EXTENSION, RUNTIME, Fault, Service
from ..telemetry.sidecars import Sidecars
from . import surroundings, unseen
from .bell import Bell, first_of
from .due import due
from .invocation_lines import Printed
from .invocation_log import MB
from .log import Log
from .members import NAME, Function
from .pause import Pause
from .processes import Process, reason_of
from .restarts import Restarts
from .supervised import told
from .tasks import Tasks
from .watch import Watch

FAULT = "Extension.Fault"  # how a fault of this tool itself is reported
SHUTDOWN_SECONDS = 2  # an environment's, for its extensions
SPARE = 100  # milliseconds of them, for lambda_local up itself
TICKED = 5  # milliseconds after which the service has taken note of a deadline
MEMORY_SECONDS = 0.05  # between two looks at the memory of a function that may have no more than is said
TERM_SECONDS = 0.5  # for a runtime that is spun down
LATEST = 1.0  # seconds within which a shutdown that the service has told is in its history here
SHORT = 0.05  # seconds in which the service says that an environment closes whose runtime has ended by that
SOON = 1.0  # a runtime that ends within this many seconds of its start, without an invocation, ended early


async def holds_nothing(environment: "Environment") -> bool:
    return False


class Environment:
    """Its task is begun with the others, or once it is wanted. `begin`, `wake` and `pause.hurry` are for any thread."""

    def __init__(self, service: Service, watch: Watch, function: Function, number: int, port: int,
                 variables: Dict[str, str], restarts: Restarts, stopping: threading.Event, log: Log,
                 printed: Printed, sidecars: Sidecars, tasks: Tasks) -> None:
        self.number, self.function, self.port, self.variables = number, function, port, variables
        self.service, self.watch, self.stopping, self.log, self.printed = service, watch, stopping, log, printed
        self.clock = watch.clock  # by which limits, pauses and deadlines are counted; what processes take is real time
        self.name, self.tasks, self.sidecars = watch.environment(number).name, tasks, sidecars
        self.beside = sidecars.of(number, port)  # what is between the processes of this generation and its port
        self.runtime: Optional[Process] = None
        self.extensions: List[Tuple[str, Process]] = []  # each with the name by which it registers
        self.generation = 0
        self.identifier: Optional[str] = None  # of lambda_local up in this generation
        self.restarts, self.pause = restarts, Pause(Bell(tasks.loop))
        self.reported: Optional[Generation] = None  # the last one that ended by this tool's own report
        # One beyond the function's least number is started once it is wanted, and its task with it.
        self.is_extra = watch.environment(number).place > function.least
        self.is_started, self.wanted = not self.is_extra, Bell(tasks.loop)
        # Asked before each generation: waits while it is held, and says whether its Init is to fail.
        self.holds: Callable[["Environment"], Awaitable[bool]] = holds_nothing

    def say(self, line: str, level: str = "info", kind: str = "up", **members: object) -> None:
        self.log(self.name, f"-- {line}", level, kind, False, **members)

    def start(self) -> None:
        """Begins its task."""
        self.tasks.begin(self.name, self.run())

    async def run(self) -> None:
        try:
            while not self.stopping.is_set() and await self.one_guarded_generation():
                pass
        except OSError as fault:
            if self.service.process.poll() is None and not self.stopping.is_set():
                self.say(f"lost the service: {fault}", level="error")
        finally:
            await self.end()

    async def one_guarded_generation(self) -> bool:
        """Whether another one follows. A fault of this tool in one generation is reported, and the next is begun."""
        try:
            return await self.one_generation()
        except OSError:
            raise
        except Exception as fault:
            self.say(f"lambda_local up could not go on with this generation: {told(fault)}", level="error",
                     kind="fault")
            await self.end()
            if self.identifier is not None:
                await ask(self.port, "POST", EXTENSION + "exit/error", self.remember("lambda_local up failed", FAULT),
                          {**self.me(), "Lambda-Extension-Function-Error-Type": FAULT})
            self.restarts.note(True)
            return True

    # ---- a generation ------------------------------------------------------------------------------------------------

    async def one_generation(self) -> bool:
        """Whether another one follows."""
        await self.wait_until_wanted()
        await self.wait_out_pause()
        self.identifier, is_to_fail = None, await self.holds(self)
        self.look_beside()
        self.printed.divide()
        self.beside.begins()
        if self.stopping.is_set() or self.begins_unseen and not is_to_fail and not await unseen.begin(self):
            return not self.stopping.is_set()
        self.identifier = await self.register()
        if self.identifier is None:
            return False
        waiting = await sent(self.port, "GET", EXTENSION + "event/next", headers=self.me())
        try:
            if is_to_fail:
                return await self.fail()
            try:
                await self.start_extensions()
                if not self.begins_unseen:
                    await self.start_runtime()
            except OSError as fault:
                await self.ended_by(f"Runtime could not be started: {fault}", "Runtime.ExitError",
                                    str(self.identifier))
                return await self.close(self.in_shutdown())
            return await self.attend(waiting)
        finally:
            waiting.close()

    async def fail(self) -> bool:
        """Trouble that was called for: as a runtime that exits in its Init; the next generation is as any other."""
        await self.ended_by(reason_of(1), "Runtime.ExitError", str(self.identifier))
        await self.close(self.in_shutdown())
        self.restarts.note(False)
        return True

    def look_beside(self) -> None:
        """After a generation that ended early, what the service refuses of the next one is told."""
        if self.restarts.early:
            try:
                self.sidecars.divide(self.number)
            except (OSError, Fault) as fault:
                self.say(f"refusals of its requests cannot be reported: {fault}", level="warning")
        self.beside = self.sidecars.of(self.number, self.port)
        self.variables.update(surroundings.address_of(self.function, self.beside.port))

    @property
    def begins_unseen(self) -> bool:
        """Whether its Init may take longer than the service allows: the service hears of it once it is over."""
        return self.function.debug or self.function.init is not None

    async def wait_until_wanted(self) -> None:
        if not self.is_extra:
            return
        self.is_started = False
        await self.wanted.wait()
        self.wanted.clear()
        self.is_started = True

    def begin(self, why: str = "all other environments are busy") -> None:
        """An invocation is bound to it, or it is to be there for one."""
        self.say(f"starting: {why}")
        self.is_started = True
        self.wanted.set()
        if not self.tasks.has(self.name):
            self.start()

    def wake(self) -> None:
        """At the end it waits for nothing any more."""
        self.pause.hurry.set()
        self.wanted.set()

    def me(self) -> Dict[str, str]:
        return {"Lambda-Extension-Identifier": str(self.identifier)}

    async def register(self) -> Optional[str]:
        """This generation's identifier; none after the end."""
        told = None
        while True:
            status, headers, body = await ask(self.port, "POST", EXTENSION + "register", '{"events":["SHUTDOWN"]}',
                                              {"Lambda-Extension-Name": NAME})
            if status == 200:
                return headers["lambda-extension-identifier"]
            if status == 500 and b"ContainerError" in body:
                return None
            if status == 500 and body != told:
                self.say("cannot restart: the service answers " + body.decode(errors="replace"), level="error")
                told = body
            # (403: an extension that is started by hand still shuts down)
            if await self.watch.over.wait(1 if status == 500 else 0.1):
                return None

    async def start_extensions(self) -> None:
        """Before the runtime: once it and all that came have asked, no extension can register. (With a debugger, after
        it: the first to register starts Init's clock, and this tool is awaited too.)"""
        for name, words in self.function.extensions.items():
            if words:
                process = Process(f"{self.name} {name}", self.tasks, self.printed, marker=self.beside.marker)
                await process.start(words, self.function.directory, self.variables)
                self.extensions.append((name, process))

    async def start_runtime(self) -> Process:
        assert self.function.command is not None  # (what has none is started by hand)
        self.generation += 1
        self.printed.begins()
        runtime = Process(self.name, self.tasks, self.printed, self.function.is_bundled and not self.beside.divides,
                          self.beside.marker)
        await runtime.start(self.function.command, self.function.directory, self.variables, self.function.forks)
        self.runtime = runtime
        return runtime

    async def attend(self, waiting: Wire) -> bool:
        """Until the service says that the environment closes, or a process ends."""
        runtime = self.runtime
        assert runtime is not None
        processes = [runtime] + [process for _, process in self.extensions]
        told = asyncio.ensure_future(waiting.came())
        try:
            while not await first_of([told, *(process.gone for process in processes)], self.look):
                await self.enforce_memory(runtime)
            if not told.done():
                # A runtime that is notified of the end can exit before this tool is notified: a short wait tells.
                await first_of([told], SHORT)
            if told.done():
                return await self.shut_down(waiting)
        finally:
            told.cancel()
        gone = next(process for process in processes if process.gone.done())
        return await (self.runtime_exited(runtime) if gone is runtime else self.extension_exited(gone, waiting))

    @property
    def look(self) -> Optional[float]:
        """For how many seconds it attends without a look at the memory; none if it need not look."""
        return MEMORY_SECONDS if self.function.enforces_memory else None

    async def enforce_memory(self, runtime: Process) -> None:
        """As Lambda's system does, kills a runtime that has used more memory, with those beside it, than there is."""
        most = self.function.memory
        if self.look and not runtime.has_ended() and self.printed.is_above(most * MB):
            self.say(f"killed: it has used {math.ceil(self.printed.peak() / MB)} MB of {most} MB (enforceMemory)",
                     level="error", kind="limit", function=self.function.name, limit="memory")
            await runtime.kill()

    async def runtime_exited(self, runtime: Process) -> bool:
        await self.ended_by(reason_of(await runtime.status()), "Runtime.ExitError", str(self.identifier))
        return await self.close(self.in_shutdown())

    async def extension_exited(self, process: Process, waiting: Wire) -> bool:
        """It is reported in its own name, so that its shutdown isn't waited for, and the service says that all
        closes."""
        name = next(name for name, other in self.extensions if other is process)
        await self.watch.refreshed()  # (it may have registered just before)
        generation = await self.here()
        found = generation.named(name) if generation else None
        reason = reason_of(await process.status(), "Extension")
        await self.ended_by(reason, "Extension.Crash", str(found.identifier if found else self.identifier),
                            process.name)
        return await (self.shut_down(waiting) if found else self.close(self.in_shutdown()))

    async def ended_by(self, reason: str, kind: str, identifier: str, who: Optional[str] = None) -> None:
        """The service's caller hears at once that a process has ended."""
        self.beside.fails(kind)
        await self.watch.reported(identifier, ask(
            self.port, "POST", EXTENSION + "exit/error", self.remember(reason, kind),
            {"Lambda-Extension-Identifier": identifier, "Lambda-Extension-Function-Error-Type": kind}))
        generation = await self.here()
        init = "" if generation and generation.is_ready else "Init failed: "
        self.say(f"{init}{who + ': ' if who else ''}{reason}", level="error", kind="exit", function=self.function.name,
                 errorType=kind)

    def remember(self, reason: str, kind: str) -> bytes:
        """The body of a report, which callers get in a pause as well."""
        self.pause.last_report = json.dumps({"errorMessage": reason, "errorType": kind}).encode()
        return self.pause.last_report

    # ---- its end -----------------------------------------------------------------------------------------------------

    async def shut_down(self, waiting: Wire) -> bool:
        status, _, body = await answered(waiting, "GET")
        if status != 200:
            await self.end()
            return True
        event = json.loads(body)
        reason, deadline = event["shutdownReason"], event["deadlineMs"]
        self.beside.closes(reason)
        if not self.stopping.is_set():
            self.say(f"shuts down, {reason}")
        return await self.close(deadline, reason == "SPINDOWN", asks=True)

    async def here(self) -> Optional[Generation]:
        """This generation, if it is known."""
        return None if self.identifier is None else await self.watch.generation(self.number, self.identifier)

    def in_shutdown(self) -> int:
        """The moment at which a shutdown that begins now is over."""
        return self.clock.now() + 1000 * SHUTDOWN_SECONDS

    async def close(self, deadline: int, spins_down: bool = False, asks: bool = False) -> bool:
        """Ends all processes, says that this generation is done, and waits for the end of its Closing."""
        lived = time.monotonic() - self.runtime.begun if self.runtime else 0.0
        self.beside.closes("FAILURE")  # (unless the service has said why)
        await self.end(min(deadline, self.in_shutdown()) - SPARE, spins_down)
        if asks:
            await ask(self.port, "GET", EXTENSION + "event/next", headers=self.me())
        generation = await self.here()
        if generation:
            await self.wait_for_end(generation, deadline + TICKED)
        if generation and generation.report:
            self.pause.last_report = generation.report
        elif generation and not generation.is_ready:
            self.remember("Init timed out", "Init.Timeout")
        is_early = lived < SOON if generation is None else (
            not generation.deliveries and (not generation.is_ready or lived < SOON))
        self.restarts.note(is_early and not spins_down)
        return True

    async def wait_for_end(self, closing: Generation, deadline: int) -> None:
        """Waits until a generation has ended, up to this moment."""
        with due(self.clock, deadline) as over:
            while not (closing.is_over or self.stopping.is_set() or self.watch.is_lost or over.done()):
                await self.watch.news(over)

    async def end(self, deadline: int = 0, gently: bool = False) -> None:
        """Ends all processes: the runtime at once or gently, extensions by themselves up to this moment."""
        has_time = deadline > self.clock.now()
        if self.runtime:
            runtime, self.runtime = self.runtime, None
            await runtime.end(TERM_SECONDS if gently and has_time else 0)
        while self.extensions:
            name, process = self.extensions.pop()
            if has_time:
                with due(self.clock, deadline) as over:
                    await first_of([process.gone, over], None)
            await process.end()
            if has_time:
                await self.say_done(name)
        self.beside.ends()

    async def say_done(self, name: str) -> None:
        """Asks in the name of an extension that has gone. If it was not yet notified of the end, the first request does
        that; a request after it says that the extension is done."""
        generation = await self.here()
        if generation is None:
            return
        closing = generation
        await self.watch.comes(lambda: closing.closes, LATEST)
        extension = closing.named(name) if closing.closes else None
        if extension is None or not extension.shutdown or extension.is_done:
            return
        me = {"Lambda-Extension-Identifier": extension.identifier}
        with contextlib.suppress(OSError):
            if (await ask(self.port, "GET", EXTENSION + "event/next", headers=me, seconds=SHUTDOWN_SECONDS))[0] == 200:
                await ask(self.port, "GET", EXTENSION + "event/next", headers=me, seconds=SHUTDOWN_SECONDS)

    # ---- between two generations -------------------------------------------------------------------------------------

    async def wait_out_pause(self) -> None:
        """After generations that ended early. A caller who comes meanwhile hears why at once."""
        if self.restarts.needs_a_change or self.restarts.pause:
            async with self.pause.answering() as hurry:
                if self.restarts.needs_a_change:
                    self.say("failed three times: restarting when a file changes", level="warning")
                    await hurry.wait()
                else:
                    self.say(f"restarting in {self.restarts.pause} s: it keeps exiting right after it starts",
                             level="warning")
                    if self.function.debug:  # (its clock is paused: it would never be over)
                        await hurry.wait(self.restarts.pause)
                    else:
                        with due(self.clock, self.clock.now() + 1000 * self.restarts.pause) as over:
                            await hurry.comes(over)
        if self.pause.was_hurried():
            self.restarts.note(False)

    async def answer_callers(self) -> None:
        """In a pause: ends the Init that an invocation may be bound to, with what was reported last."""
        await self.pause.answer(lambda: self.watch.without_runtime(self.function.name), self.fail_init)

    async def fail_init(self, report: bytes) -> None:
        """Reports a failed Init for the runtime, which its caller receives; prints no line."""
        kind = kind_in(report, "Runtime.ExitError")
        await self.watch.reported(self.number, ask(self.port, "POST", RUNTIME + "init/error", report,
                                                   {"Lambda-Runtime-Function-Error-Type": kind}))
