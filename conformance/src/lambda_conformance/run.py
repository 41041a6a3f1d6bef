"""What the subcommands that start a command have in common: their arguments, their course, and their end."""
import argparse
import os
import signal
import sys
import time
from typing import Any, Callable, List, NoReturn, Tuple, cast

from lambda_local import usage
from lambda_local.guard import GUARD
from lambda_local.program import Fault, NoProgram
from lambda_local.usage import parser_of as parser_of_tool

from . import kit
from .clock import CLOCK
from .kit import FAIL, EndedEarly, Jury, OpenStage, Scenario, Verdict
from .process import Processes, program_of
from .report import Report
from .sometimes import run_alone
from .stage import Stage, Tools, patient
from .watch import OLDER

BUSY = 2  # times as long as usual a little work takes, from which on what is late may be late for that reason
ENOUGH = 5  # scenarios that have failed by themselves, after which what has failed beside others is believed


class Parser(usage.Parser):
    """Wrong usage is one line and status 2."""

    def error(self, message: str) -> NoReturn:
        raise Fault(2, f"{message} (`{self.prog} --help` lists the options)")


def parser_of(name: str, description: str, options: str, usual: str) -> Parser:
    """`usual` is how many invocations there are unless --invocations says how many."""
    parser = cast(Parser, parser_of_tool(f"conformance {name}", description, f"{options} -- COMMAND ..", Parser))
    parser.add_argument("--init-seconds", metavar="S", type=seconds, default=10, help="how long an Init may take (10)")
    parser.add_argument("--idle-seconds", metavar="S", type=seconds, default=5,
                        help="how long a Next has to wait without a timeout (5)")
    parser.add_argument("--invocations", metavar="N", type=many,
                        help=f"after how many invocations what the process holds is compared ({usual})")
    parser.add_argument("--only", metavar="NAME", action="append", default=[],
                        help="a scenario or a check; may stand several times")
    parser.add_argument("--strict", action="store_true", help="a SHOULD is a failure too")
    parser.add_argument("--list", action="store_true",
                        help="list the scenarios and checks, each with its page, and start nothing")
    parser.add_argument("--junit", metavar="FILE", help="write the verdicts there as JUnit XML")
    parser.add_argument("--markdown", metavar="FILE", help="write the verdicts there as a page in Markdown")
    parser.add_argument("--badge", metavar="FILE", help="write an SVG there that says how many checks have passed")
    parser.add_argument("--pictures", metavar="DIR",
                        help="draw the timeline of each scenario with a FAIL there, as SVG")
    parser.add_argument("--program", metavar="P",
                        help="the service (default: LAMBDA_LOCAL_PROGRAM, else the repository's ./lambda_local)")
    return parser


def seconds(text: str) -> float:
    value = float(text)
    if not 0 < value <= 3600:
        raise argparse.ArgumentTypeError(f"{text} is not a number of seconds up to 3600")
    return value


def many(text: str) -> int:
    value = int(text)
    if not 10 <= value <= 1_000_000:
        raise argparse.ArgumentTypeError(f"{text} is not a number from 10 to 1,000,000")
    return value


def split(words: List[str]) -> Tuple[List[str], List[str]]:
    """Returns the options, and the command after `--`."""
    if "--" not in words:
        return words, []
    place = words.index("--")
    return words[:place], words[place + 1:]


def check_arguments(options: argparse.Namespace, command: List[str], registry: List[Scenario]) -> None:
    unknown = sorted(set(options.only) - kit.names_of(registry))
    if unknown:
        raise Fault(2, f"--only {unknown[0]}: there is no such scenario or check (--list has their names)")
    if not command and not options.list:
        raise Fault(2, "write the command that is tested after --")
    if command:
        program_of(command)


def listed(registry: List[Scenario]) -> int:
    for scenario in registry:
        for check in scenario.checks:
            print(f"{scenario.name:<28}{check.name:<22}{check.expected}\n{'':<50}{check.page}")
    return 0


def ended_by_signal(number: int, _frame: Any) -> None:
    raise SystemExit(128 + number)


def play(name: str, registry: List[Scenario], options: argparse.Namespace, command: List[str], title: str,
         stage: Callable[..., Stage] = Stage) -> int:
    """Runs the chosen scenarios: the exit status. If the first of all shows that nothing else can be judged, that is
    all; it raises a Fault if the command is none that can be tested."""
    patient()
    for number in (signal.SIGTERM, signal.SIGINT, signal.SIGHUP):
        signal.signal(number, ended_by_signal)
    CLOCK.start()
    OLDER.note()
    processes = Processes()
    try:
        tools = Tools(command, options.program, processes, options)
        report, begun = Report(name, options), time.monotonic()
        report.title = title
        report.write(title)
        chosen, only = kit.chosen(registry, options.only), options.only

        def open_stage(scenario: Scenario, jury: Jury) -> Stage:
            return stage(tools, scenario, jury, **scenario.settings)
        first = kit.run(registry[0], open_stage)
        if any(verdict.stops for verdict in first) and CLOCK.slowness() > BUSY:  # (nothing else would be judged)
            first = kit.run(registry[0], open_stage)
        if any(verdict.stops for verdict in first):
            report.write("it does not come so far that the other checks can judge it:")
            chosen, only = [], []
        if chosen[:1] == registry[:1] or not chosen:
            report.add_all(first, only)
        if processes.ports and len(chosen) > 1:
            report.write(f"it listens on port {processes.ports[0]}: one scenario is played after the other")
        judge_others([one for one in chosen if one is not registry[0]], open_stage, report, only,
                     1 if processes.ports else at_once())
        return report.finish(time.monotonic() - begun)
    except (EndedEarly, NoProgram):
        raise
    except Fault as fault:
        raise Fault(2, str(fault)) from None
    except SystemExit as end:  # by a signal: nothing is left running, and no scenario is waited for
        processes.close()
        processes.settle()
        GUARD.end()
        sys.stdout.flush()
        os._exit(int(end.code or 0))
    finally:
        processes.close()


def judge_others(scenarios: List[Scenario], open_stage: OpenStage, report: Report, only: List[str],
                 beside: int) -> None:
    """Plays this many scenarios beside one another, and each that has failed once more, unless that would say nothing
    new."""
    failed: List[Tuple[Scenario, List[Verdict]]] = []
    for scenario, verdicts in kit.run_all(scenarios, open_stage, beside):
        if kit.has_failed(verdicts) and min(len(scenarios), beside) > 1:
            failed.append((scenario, verdicts))
        else:
            report.add_all(verdicts, only)
    confirmed = 0
    later: List[List[Verdict]] = []  # of what by itself fails in what another scenario is about
    for scenario, verdicts in sorted(failed, key=lambda one: fails_later(one[1])):  # (the cause comes first)
        if confirmed < ENOUGH and report.tells(verdicts):
            verdicts, before = run_alone(scenario, open_stage, verdicts), verdicts
            confirmed += kit.has_failed(verdicts)
            if kit.has_failed(verdicts) and fails_later(verdicts) and not fails_later(before):
                later.append(verdicts)
                continue
        report.add_all(verdicts, only)
    for verdicts in later:
        report.add_all(verdicts, only)


def fails_later(verdicts: List[Verdict]) -> bool:
    """Whether what failed is something that another scenario is about."""
    return all(verdict.found.about or verdict.found.is_later for verdict in verdicts if verdict.outcome == FAIL)


def at_once() -> int:
    """How many scenarios run beside one another: most of them wait most of the time, but for those of a busy
    machine."""
    processors = len(os.sched_getaffinity(0))
    return max(4, processors, round(3 * processors / CLOCK.slowness()))
