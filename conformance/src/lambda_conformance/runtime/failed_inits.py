"""Inits that cannot succeed: what is reported, and what becomes of the process."""
from typing import List, Optional

from .. import pages
from ..clock import CLOCK
from ..exchanges import Exchange
from ..kit import FAIL, SHOULD, Scenario, scenarios_of
from ..stage import Stage, shown

SCENARIOS: List[Scenario] = []
scenario = scenarios_of(SCENARIOS)

ENDS = 3  # seconds in which a process that has to end promptly has ended
REPORTED = 5  # seconds beyond an Init's limit


def init_fails(stage: Stage, report_check: str, late: str = FAIL) -> Optional[Exchange]:
    """An Init that cannot succeed is reported: that report's exchange; None, with the check judged, if there is none.
    `late` is what it is if each invocation fails instead."""
    environment = stage.environment
    process, proxy = environment.process, environment.proxy
    end = CLOCK.now() + stage.tools.options.init_seconds + REPORTED
    while not (process.ended or proxy.of("next")
               or any(one.ended for one in proxy.of("init_error"))) and CLOCK.now() < end:
        proxy.wait(lambda: any(one.kind == "next" or one.answered for one in proxy.exchanges), 0.05)
    exchange = environment.saw("init_error", 1)
    if exchange:
        report = exchange.json()
        report = report if isinstance(report, dict) else {}
        right = bool(report.get("errorMessage")) and bool(report.get("errorType")) and exchange.status == 202
        stage.check(report_check, right, f"{exchange.status} for {shown(exchange.request.body)}")
        return exchange
    if proxy.of("next"):
        answer = stage.invoke({"do": "echo", "value": 1})
        if answer.failed:
            stage.jury.judge(report_check, late,
                             f"it asked for an invocation, and only that one failed: {shown(answer.body)}")
        elif answer.body.strip() != b"1":
            stage.check(report_check, False, answer.came(f"no Init fails, and for the value 1 the caller received "
                                                         f"{shown(answer.body)}"))
        else:
            stage.note(report_check, "no Init fails here: its handler is compiled in, or it does not look at _HANDLER")
    else:
        stage.check(report_check, False, f"no request to init/error; {stage.ended()}")
    return None


@scenario(
    ("init_error", pages.INIT_ERROR,
     "an error while the handler is loaded is sent to init/error with \"errorMessage\" and \"errorType\""),
    ("init_error_ends", pages.INITIALIZATION_TASKS, "after init/error the process exits"), handler="failing.handler")
def failing_init(stage: Stage) -> None:
    exchange = init_fails(stage, "init_error")
    process = stage.environment.process
    if exchange:
        ended = process.wait(ENDS)
        if (count := len(stage.environment.proxy.of("init_error"))) > 1:
            stage.should("init_error", f"it reports its Init {count} times")
        return stage.in_time("init_error_ends", ended, process.own, ENDS,
                             f"{ENDS} s after its report {process.how_it_ended()}")
    if "init_error" in stage.jury.verdicts and stage.environment.proxy.of("next"):
        return stage.note("init_error_ends", "no Init failed")
    return stage.note("init_error_ends", f"not judged: it sent no init/error ({process.how_it_ended()})")


@scenario(
    ("missing_handler", pages.INIT_ERROR, "a handler that cannot be found is an error of the Init, sent to init/error"),
    handler="missing.handler")
def handler_that_is_missing(stage: Stage) -> None:
    init_fails(stage, "missing_handler")


@scenario(
    ("missing_function", pages.INIT_ERROR,
     "a handler whose file has no such function is an error of the Init, sent to init/error; that each invocation "
     "fails instead is a SHOULD"),
    handler="conformance.missing")
def function_that_is_missing(stage: Stage) -> None:
    init_fails(stage, "missing_function", SHOULD)


@scenario(
    ("broken_handler", pages.INIT_ERROR, "a handler that does not compile is an error of the Init, sent to init/error"),
    handler="broken.handler")
def handler_that_is_broken(stage: Stage) -> None:
    init_fails(stage, "broken_handler")
