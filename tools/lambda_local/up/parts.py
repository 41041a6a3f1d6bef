"""The parts of a run of lambda_local up, in the order in which they are made: the functions, what is in front of them,
the service, what follows it, the environments, the sources of events."""
import argparse
import asyncio
import functools
import os
import signal
import threading
import time
from typing import Dict, Iterator, List, Optional

from ..configuration import Members
from ..event_sources.checkpoints import Checkpoints
from ..event_sources.sources import Sources, prepare
from ..front import asynchronous
from ..front.front import Front
from ..front.outbox import Outbox
from ..guard import GUARD, Channel
from ..life import Begun, Ended, Throttled
from ..service import Fault, Service
from ..telemetry.sidecars import Sidecars
from . import patience, surroundings
from .attached import Attached
from .bell import hear
from .closer import Closer
from .environments import Environment
from .following import REST
from .invocation_lines import Line, Printed
from .invocation_log import Invocations, Tails
from .invocation_report import InvocationReport
from .lines import Lines
from .limits import Limits
from .log import OUTPUT, Log
from .looks import Hook, Looks
from .members import load
from .project import Project, project_by
from .queues import pollers_of
from .refused_calls import RefusedCalls
from .rejected import Rejected
from .reload import Reload
from .restarts import Restarts
from .run import Run
from .scaling import BETWEEN_LOOKS, Scaling
from .schedules import Schedules
from .signal_event import SignalEvent
from .sources import queues_of, refuse_aws
from .supervised import Supervisor
from .tasks import Tasks
from .troubles import Troubles
from .unnamed import Unnamed
from .watch import Watch

READY_SECONDS = 60  # for all environments, if no other time is asked for
DRAIN_SECONDS = 5  # for events at the end, so


class Parts:
    """All that a run consists of, made and not started yet, and what is told of it meanwhile."""
    sends_on = True  # what has ended goes to the queues and topics that are named for it

    def __init__(self, options: argparse.Namespace, log: Log, project: Optional[Project] = None) -> None:
        """`project` is what the options name, if it has been read already."""
        self.options, self.log = options, log
        self.command: Optional[Run] = None
        self.is_served = False
        self.happened, self.stopping = SignalEvent(), threading.Event()  # something to look at; all is to end
        self.ending = threading.Event()  # no further event is to be made
        self.signals, self.signal_number, self.kills_at = 0, 0, 2
        self.supervisor = Supervisor(log, self.happened.set)
        self.loop = asyncio.new_event_loop()
        GUARD.follow = self.hear_guard
        GUARD.adopt_orphans(self.guard_lost)
        self.has_guard = True
        if options.storm and options.debug:
            raise Fault(2, "--storm and --debug: a debugger would be in the midst of it: leave one of the two out")
        self.project = project or project_by(options, lambda line: log("up", line, kind="template"))
        options.up = self.project.path
        configuration, self.functions, self.settings = load(
            options.up, options.debug, options.salt, options.only, options.allow_unready, self.project.whole,
            options.patient)
        if options.storm:
            configuration.pop("invokePort", None)  # (the storm has it)
        for note in self.functions[0].notes_of_all:
            self.say(note)
        self.queues = queues_of(self.settings.functions)
        self.positions = self.positions_of_streams()
        self.make_front()
        self.start_service(configuration)
        self.follow_service()
        self.serve()
        self.environments = list(self.make_environments())
        self.look_after_environments()
        self.make_threads()

    def positions_of_streams(self) -> List[Optional[Checkpoints]]:
        """Where streams are read from. Raises a Fault if a queue, a topic or a stream is at AWS itself."""
        path, keeps_credentials = self.options.up, self.options.keep_credentials
        refuse_aws(path, self.queues, keeps_credentials)
        for fault in asynchronous.refused(self.settings.asynchronous, self.settings.of_functions, keeps_credentials):
            raise Fault(2, f"{path}: {fault}")
        return prepare(path, self.settings.functions, keeps_credentials)

    def make_front(self) -> None:
        """Makes what answers the requests that the service hands over."""
        options, ready = self.options, self.options.patient * READY_SECONDS
        self.patience = options.ready or max([ready, *(function.init + ready / 2 for function in self.functions
                                                       if function.init)])
        drain = options.patient * DRAIN_SECONDS if options.drain is None else options.drain
        outbox = Outbox(options.keep_credentials) if self.sends_on else None
        self.front = Front(self.settings, drain, self.log, outbox, self.loop, is_stormy=options.storm is not None)
        self.tasks = Tasks(self.loop, self.supervisor.broken, self.is_short)
        self.streaming = {name for name, address in self.settings.urls.items() if address.streams}
        self.sidecars = Sidecars(self.functions, self.streaming, options.up, self.log, options.report, self.relay_lost,
                                 functools.partial(hear, self.loop))

    def start_service(self, configuration: Members) -> None:
        options, log = self.options, self.log
        if options.salt is None and "salt" not in configuration:
            configuration["salt"] = int(1000 * time.time()) << 16  # so that no two runs have the same identifiers
        # From here on a signal ends it in order; a second one kills.
        for number in (signal.SIGTERM, signal.SIGINT, signal.SIGHUP):
            signal.signal(number, self.signalled)
        self.service = Service(configuration, options.program, lambda line: log("service", line, kind="service"),
                               options.up, patience.of_service(options.patient), self.hear_service,
                               self.front.wanted)
        self.is_served = True

    def follow_service(self) -> None:
        """Makes what follows the service's entries: lines, logs of invocations, limits."""
        log, options = self.log, self.options
        self.watch = Watch(self.service, log, self.loop)
        self.clock_file = os.path.join(self.service.folder, "clock")
        self.watch.clock.share(self.clock_file)
        if any(function.debug for function in self.functions):
            self.watch.clock.pause()
        if self.streaming or options.storm:  # (whose callers wait until an entry is taken)
            self.watch.following.pace.longest = REST
        self.looks = Looks(self.watch)
        self.printed = {number: Printed() for number in self.watch.life.environments}
        self.invocations = self.make_invocations()
        self.watch.life.tells_begun = bool(options.report)  # (else trouble alone needs that)
        self.watch.give(self.invocations.take, Ended)
        self.report = self.make_report(self.invocations) if options.report else None
        self.watch.lines = Lines(log, self.functions, self.printed)
        self.watch.lines.tells_outputs = not log.quiet
        self.limits = Limits(self.functions, self.streaming, self.watch, self.printed, log, options.patient)
        self.watch.give(self.limits.take, Ended)
        self.looks.hooks.append(Hook("look at the limits of functions", self.limits.look))
        if self.report:
            self.watch.lines.log = self.report.tell

    def serve(self) -> None:
        """Has the front answer, and the proxies with it."""
        self.closer = Closer(self.sidecars, self.service, self.watch, self.log, self.stopping)
        storm = self.options.storm
        self.troubles = Troubles(self.functions, self.watch, self.log, self.stopping)
        self.front.serve(self.service, Tails(self.invocations, self.watch, self.closer),
                         self.sidecars.serve(self.service.configuration, self.printed), self.sidecars.streams,
                         self.watch.clock, (storm, self.troubles) if storm else None)
        if self.streaming:
            self.watch.takers.append(self.sidecars.pairing(self.front.call).take)
            self.watch.following.give_whole()
        self.refused = RefusedCalls(self.service.configuration, self.sidecars, self.sidecars.tell)
        self.watch.takers.append(self.refused.take)
        self.rejected = Rejected(self.service, self.sidecars, self.watch.life.environments, self.log)
        self.looks.hooks.append(Hook("tell what the service has refused", self.rejected.look))

    def look_after_environments(self) -> None:
        """Says what is looked at again and again while the environments run."""
        troubles = self.troubles
        troubles.look_after(self.environments)
        if gate := self.front.gate:
            troubles.still, troubles.sent = gate.still, gate.unanswered
        self.front.port.trouble = troubles.order
        self.watch.give(troubles.take, Begun, Ended, Throttled)
        self.closer.environments += self.environments
        unnamed = Unnamed(self.watch.life.environments.values(),
                          lambda name, line: self.log(name, f"-- {line}", level="warning", kind="init"))
        attached = Attached(self.environments, self.printed, self.watch.clock, self.clock_file,
                            lambda name, line, level: self.log(name, f"-- {line}", level=level, kind="debugger"))
        self.looks.hooks += [Hook("see whether a debugger is attached", attached.look),
                             Hook("look after trouble that was called for", troubles.look),
                             Hook("look for extensions under another name", unnamed.look),
                             *(Hook("answer a caller in a pause", environment.answer_callers)
                               for environment in self.environments)]
        if any(environment.is_extra for environment in self.environments):
            self.looks.hooks.append(Hook("start or end further environments",
                                         Scaling(self.environments, self.watch, self.service).look))
            self.looks.between = BETWEEN_LOOKS

    def make_threads(self) -> None:
        """Makes the threads that run until the end beside the loop, and those that read sources of events."""
        options, log, functions = self.options, self.log, self.settings.functions
        self.threads: List[threading.Thread] = []
        self.clients = surroundings.Clients(log, self.stopping)
        self.schedules = Schedules(list(functions), self.service, self.watch.clock, self.ending, log)
        self.event_sources = Sources(self.positions, functions, self.service, self.watch.clock,
                                     options.keep_credentials, self.ending, log)
        self.sources: List[threading.Thread] = [
            *pollers_of(self.queues, self.service, self.watch.clock, options.keep_credentials, self.ending, log),
            *self.event_sources.threads]
        if options.reload:
            self.threads.append(Reload(self.environments, self.service, self.stopping, log, self.project.watched))

    def is_short(self) -> bool:
        """Whether there is little room for more of what processes print."""
        return self.report.is_short() if self.report else self.log.is_short()

    def show(self, line: Line) -> None:
        """A line that a process printed."""
        self.log(line.source, line.text, kind=OUTPUT)

    def say(self, line: str, level: str = "info", kind: str = "up", always: bool = False, **members: object) -> None:
        self.log("up", line, level, kind, always, **members)

    def make_invocations(self) -> Invocations:
        here = self.watch.life.environments
        numbers: Dict[str, List[int]] = {}
        for number, environment in here.items():
            numbers.setdefault(environment.function, []).append(number)

        def measure() -> None:
            for number, environment in here.items():
                invocations.measure(number, environment.generation.is_ready)
        invocations = Invocations({function.name: function for function in self.functions}, self.printed, numbers)
        self.looks.hooks.append(Hook("measure memory", measure))
        return invocations

    def make_report(self, invocations: Invocations) -> InvocationReport:
        """With --report, what environments print goes through it; else it is shown as it comes."""
        report = InvocationReport(invocations, self.log, self.loop)
        for number, here in self.watch.life.environments.items():
            report.hold(number, here.name, here.function, here.place, self.printed[number])
        self.watch.give(report.take, Begun, Ended)
        self.watch.readers.append(report.know)
        return report

    def make_environments(self) -> Iterator[Environment]:
        number = 0
        for function, part in zip(self.functions, self.service.configuration["functions"]):
            if function.debug:
                is_paused = self.watch.clock.is_paused
                why = ("and the clock is paused, for the debugger: lambda_local clock resume lets it go on" if is_paused
                       else "and its timeout as it is, since the service's clock cannot be paused")
                self.say(f"{function.name}: one environment, {why}", level="info" if is_paused else "warning")
            if function.debugger:
                self.say(f"{function.name}: {function.debugger.said}", always=True, kind="debugger",
                         level="warning" if function.debugger.port is None else "info", port=function.debugger.port)
            for note in function.notes:
                self.say(f"{function.name}: {note}", level="warning")
            for port in part["ports"]:
                number += 1
                here, beside = self.watch.environment(number), self.sidecars.of(number, port)
                if not function.command or self.log.form == "json":
                    todo = "" if function.command else ", start its runtime yourself"
                    self.say(f"{here.name}: 127.0.0.1:{beside.port}{todo}", kind="address", function=function.name,
                             environment=here.place, port=beside.port)
                if self.report is None:
                    self.printed[number].follow(self.show)
                if function.command:
                    own = {"LAMBDA_LOCAL_CLOCK": self.clock_file} if function.is_bundled else {}
                    variables = surroundings.of_environment(self.service, function, number, beside.port,
                                                            self.options.keep_credentials,
                                                            {**self.front.variables(), **own})
                    restarts = Restarts(self.options.reload)
                    yield Environment(self.service, self.watch, function, number, port, variables, restarts,
                                      self.stopping, self.log, self.printed[number], self.sidecars, self.tasks)

    def signalled(self, number: int, _frame: object) -> None:
        if not self.is_served:  # it is being built, or does not listen yet: nothing has to end in order
            raise SystemExit(128 + number)
        self.signals, self.signal_number = self.signals + 1, number
        if self.signals == 1 and number == signal.SIGINT and self.command:
            self.kills_at = 3  # (the second one is for the command)
        self.happened.set()
        if self.signals >= self.kills_at and self.service.process.poll() is None:
            # (it ends, and with it each environment's task, which kills its processes)
            self.service.process.kill()

    def hear_service(self, service: Service) -> None:
        """Has the loop take what the service says once it listens."""
        def come() -> bool:
            if service.come():
                return True
            service.close_said()
            return False
        hear(self.loop, service.said.fileno(), come)

    def hear_guard(self, channel: Channel) -> None:
        """Has the loop take what the guard says."""
        hear(self.loop, channel.socket.fileno(), channel.come)

    def guard_lost(self) -> None:
        """The guard has been killed: all that it had started is below this process now, and ends with it."""
        self.has_guard = False
        self.supervisor.broken("its guard process has ended")

    def relay_lost(self) -> None:
        if not self.stopping.is_set():
            self.supervisor.broken("its relay has ended")
