"""One run of lambda_local up: all is started, the command is run or a signal waited for, and all is stopped in
order."""
import asyncio
import contextlib
import os
import signal
import time
from typing import Callable, List, Optional, Sequence, Tuple, TypeVar

from ..exchange.connection import Unanswered
from ..guard_process import end_all_below
from ..outgoing import written
from ..reports import Report
from ..service import Fault
from ..variables import of_callers
from .bell import settle
from .environments import Environment
from .lines import Lines
from .parts import Parts
from .run import Run
from .supervised import BROKEN, told

Given = TypeVar("Given")

REPORT = "report"  # the name of its task
SAVED = "lambda_local.history.txt"
NAMED = 8  # environments in one line
FAILED_STARTS = 3  # of an environment in a row, after which a command is not waited for any more
LAST_SECONDS = 20.0  # for all threads at the end


class Session(Parts):
    def begin(self) -> None:
        """Begins the tasks, and the threads beside them."""
        self.tasks.begin("watch", self.watch.follow())
        self.tasks.begin("looks", self.looks.run())
        self.tasks.begin("service", self.note_end())
        for environment in self.environments:
            if not environment.is_extra:  # (it is started once it is wanted)
                environment.start()
        if self.report:
            self.tasks.begin(REPORT, self.report.run())
        for thread in self.threads:
            thread.start()

    async def note_end(self) -> None:
        """Of the service."""
        loop = asyncio.get_running_loop()
        with contextlib.suppress(ProcessLookupError):  # (it has ended already)
            handle, ended = os.pidfd_open(self.service.process.pid), loop.create_future()
            loop.add_reader(handle, settle, ended, None)
            try:
                await ended
            finally:
                loop.remove_reader(handle)
                os.close(handle)
        self.happened.set()

    def wait(self) -> None:
        """Until something happens. (The system may give a signal to any thread, and Python runs its handler in this
        one: only when it comes out of a wait.)"""
        while not self.happened.wait(0.1):
            pass

    def run(self) -> int:
        status = 0
        self.say(f"callers: AWS_ENDPOINT_URL_LAMBDA={self.service.endpoint_url}", kind="address",
                 always=not self.options.command, endpoint=self.service.endpoint_url)
        if self.front.gate:
            self.say(self.front.gate.tally.announcement(), "warning", "storm")
        for function, text, url in self.front.addresses():
            self.say(text, kind="address", always=not self.options.command, function=function, endpoint=url)
        self.begin()
        try:
            if self.wait_until_ready():
                for thread in (self.clients, *self.sources):
                    thread.start()
                self.schedules.begin()
                self.event_sources.wait_until_begun(self.happened.is_set)
                if self.options.command:
                    status = self.run_command()
                else:
                    self.wait()
            if self.signals and self.options.command and self.command is None:
                status = 128 + self.signal_number
        except Fault as fault:
            self.say(str(fault), level="error")
            status = fault.status
        finally:
            served = self.finish(failed=status != 0 or self.supervisor.is_broken)
        return BROKEN if self.supervisor.is_broken else status or served

    # ---- ready -------------------------------------------------------------------------------------------------------

    def late(self) -> Tuple[List[Environment], List[Environment]]:
        """The environments whose Init is not over, and those of them that are waited for: if no command is to be run,
        one that is debugged and one that a changed file must mend may take any time."""
        late = [environment for environment in self.environments if not environment.is_extra
                and not self.watch.environment(environment.number).generation.is_ready]
        if self.options.command:
            return late, [environment for environment in late
                          if not (self.options.allow_unready and environment.restarts.early)]
        return late, [environment for environment in late
                      if not (environment.function.debug or environment.restarts.needs_a_change)]

    def wait_until_ready(self) -> bool:
        """Whether all that is waited for is ready before time is over or something else happens."""
        begun, tell_at = time.monotonic(), 2
        while not self.happened.wait(0.05):
            (late, awaited), passed = self.late(), time.monotonic() - begun
            if not awaited:
                self.say(f"ready, except {self.names(late)}" if late else "ready", kind="ready",
                         level="warning" if late and self.options.command else "info")
                return True
            hurried = [environment for environment in awaited if not environment.function.debug]
            failing = [environment for environment in hurried if environment.restarts.early >= FAILED_STARTS]
            if self.options.command and failing and not self.options.allow_unready:
                raise Fault(5, f"not ready: {'; '.join(map(self.lateness, failing[:NAMED]))}; --only leaves a function "
                               "out, --allow-unready runs the command all the same")
            if hurried and passed > self.patience:
                said = f"not ready after {self.patience:g} s: " + "; ".join(map(self.lateness, hurried[:NAMED]))
                if not self.options.allow_unready:
                    raise Fault(5, said)
                self.say(said, level="warning", kind="ready")
                return True
            if passed > tell_at:
                tell_at = 2 * tell_at
                debugged = "" if hurried else ", which is being debugged"
                self.say(f"waiting for {self.names(hurried or awaited)}{debugged}")
        return False

    @staticmethod
    def names(environments: Sequence[Environment]) -> str:
        return ", ".join(environment.name
                         for environment in environments[:NAMED]) + (" .." if len(environments) > NAMED else "")

    def lateness(self, environment: Environment) -> str:
        """Why an environment is not ready."""
        if environment.restarts.early:
            return (f"{environment.name}, whose Init fails: "
                    f"{Report(environment.pause.last_report, environment.function.directory)}")
        here = self.watch.environment(environment.number)
        return f"{environment.name}, {Lines.waited_for(here, here.generation)}"

    # ---- the command -------------------------------------------------------------------------------------------------

    def run_command(self) -> int:
        variables = {**of_callers(self.service, self.options.keep_credentials), **self.front.variables()}
        self.command = Run(self.options.command, variables, self.loop, self.happened.set)
        self.wait()
        if not self.command.is_over() and self.signal_number == signal.SIGINT:
            self.say("waiting up to 10 s for the command to end: press Ctrl-C again to kill it")
            self.command.interrupt(lambda: self.signals > 1)
        if not self.command.is_over():
            self.say("ending the command" + ("" if self.signals or self.supervisor.is_broken
                                             else ": the service has ended"))
            self.command.end()
        return self.command.status

    # ---- the end -----------------------------------------------------------------------------------------------------

    def save(self) -> bool:
        """Saves the history; whether it is there, whole."""
        path = self.options.history or SAVED
        try:
            with written(path) as file:
                self.service.save_history(file)
        except Unanswered as fault:
            self.say(f"the history could not be saved: {fault}", level="error")
            return False
        except OSError as fault:
            self.say(f"the history could not be saved: {path}: {fault.strerror or fault}", level="error")
            return False
        self.say(f"the history is in {path}")
        return True

    def step(self, what: str, done: Callable[[], Given], otherwise: Optional[Given] = None) -> Optional[Given]:
        """What a step of the end gives. A fault in it is reported, and the next step is made."""
        try:
            return done()
        except Exception as fault:
            self.supervisor.is_broken = True
            self.say(f"{what} failed: {told(fault)}", level="error", kind="fault")
            return otherwise

    def finish(self, failed: bool) -> int:
        """Stops the service and all processes in order; the service's status, or 4 if the history is not saved. It is
        saved if that is asked, or the command failed."""
        self.ending.set()
        self.step("letting the clock go on", self.watch.clock.go_on)
        self.step("waiting for events", lambda: self.front.drain(lambda: self.service.process.poll() is not None))
        self.step("looking at limits", lambda: self.tasks.call(self.limits.look_at_the_end(), LAST_SECONDS))
        gone = self.service.process.poll() is not None
        is_saved: Optional[bool] = True
        self.step("reading the history", self.watch.refresh)
        if (self.options.history or self.options.command and failed) and not gone:
            is_saved = self.step("saving the history", self.save, False)
        self.stopping.set()
        self.watch.end()
        for environment in self.environments:
            environment.wake()
        status, counts = self.step("the stop", self.service.stop) or (4, "")
        self.join_tasks()
        self.step("the end of the front", self.front.end)
        self.join()
        self.step("the end of streams", self.event_sources.end)
        self.step("the end of the relay", self.sidecars.end)
        self.step("the end of those that were asked for their versions", self.clients.end)
        self.refused.end()
        self.step("telling what the service has refused", self.rejected.look)
        if self.report:
            self.step("the end of the log", self.report.close)
        if gate := self.front.gate:
            self.say(gate.tally.summary(), "warning", "storm", False, **gate.tally.members())
        self.step("counting", lambda: self.watch.lines.tell_throttled(at_the_end=True))
        if status == 0 and gone:
            self.say("the service was stopped by POST /_local/stop")
        elif gone or status:
            self.say(f"the service ended with status {status}: {' '.join(self.service.lines[-1:])}", level="error")
        if counts:
            self.say(counts, kind="counts")
        self.service.kill()
        if not self.has_guard:
            self.step("the end of all processes", end_all_below)
        return status or (0 if is_saved else 4) if status >= 0 else 4

    def join_tasks(self) -> None:
        """Waits for all tasks: the guard ends what one leaves that does not end. What they print is reported last."""
        end = time.monotonic() + LAST_SECONDS
        late = self.tasks.late(end, self.front.is_alive, (REPORT, ))
        if self.report:
            self.report.stop()
        for name in late or self.tasks.late(end, self.front.is_alive):
            self.say(f"the task {name} did not end in time, and was left", level="error", kind="fault")

    def join(self) -> None:
        """Waits for all threads: the guard ends what one leaves that does not end."""
        end = time.monotonic() + LAST_SECONDS
        for thread in [*self.threads, *self.sources]:
            if thread.ident is not None:
                thread.join(max(0.0, end - time.monotonic()))
                if thread.is_alive() and not getattr(thread, "is_held", False):
                    self.say(f"the thread {thread.name} did not end in time, and was left", level="error", kind="fault")
