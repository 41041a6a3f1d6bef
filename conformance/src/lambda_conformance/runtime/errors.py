"""Errors of an invocation."""
import re
from typing import Any, Dict, List

from .. import pages
from ..again import MESSAGE, TYPE, context_fault, context_fault_after, fault_after, usable
from ..exchanges import Exchange
from ..kit import Scenario, scenarios_of
from ..stage import Stage, shown

SCENARIOS: List[Scenario] = []
scenario = scenarios_of(SCENARIOS)

HEADER = "lambda-runtime-function-error-type"
REPORTED = 5  # seconds in which a report has come
# Messages of characters that encoders treat in their own ways. (A NUL ends a text in some languages.)
MESSAGES = {
    "quotes": "it said \"no\", and 'no' again",
    "line ends": "first line\nsecond line\r\nthird line, \"quoted\"",
    "backslashes": "C:\\temp\\new, a\\\"b",
    "control characters": "a tab\t, an escape \u001b[31m, a bell \u0007, a delete \u007f",
    "other letters": "Gr\u00fc\u00dfe, \u4e16\u754c, \U0001f680, e\u0301, \u2028",
    "braces": "{\"errorMessage\": \"inner\"}, ${HOME}, %s %d, <b>&amp;</b>",
    "spaces at its ends": "  two before and after  ",
    "a number": "404",
    "a long one": "cheese " * 400,
    "nothing": "",
}
DELETE, AS_SENT = "\x7f", "%7F"  # as AWS's client for Node writes it, since no header may have one
TRACES = ("Root=1-5759e98a-bd862e3fe1be46a994272793;Parent=53995c3f42cd8ad8;Sampled=1",
          "Root=1-5759e98b-bd862e3fe1be46a994272793;Parent=53995c3f42cd8ad8;Sampled=1",
          "Root=1-5759e98c-bd862e3fe1be46a994272793;Parent=53995c3f42cd8ad8;Sampled=0",
          "Root=1-5759e98d-bd862e3fe1be46a994272793;Parent=53995c3f42cd8ad8;Sampled=1")


@scenario(
    ("error_reported", pages.INVOKE_ERROR, "an error of the handler is sent to invocation/ID/error, not to response"),
    ("error_message", pages.INVOKE_ERROR, "its report has the error's message as \"errorMessage\""),
    ("error_type", pages.INVOKE_ERROR, "its report has the error's type as \"errorType\", or as a word of it"),
    ("stack_trace", pages.INVOKE_ERROR, "\"stackTrace\" is a list; without it, a NOTE"),
    ("error_header", pages.INVOKE_ERROR,
     "Lambda-Runtime-Function-Error-Type names a category and a reason; Lambda accepts any text: without it, or with "
     "another type, a NOTE"))
def errors(stage: Stage) -> None:
    answer = stage.invoke({"do": "fail", "type": TYPE, "message": MESSAGE})
    report, came = answer.report, answer.came()
    proxy = stage.environment.proxy
    proxy.wait(lambda: any(one.kind in ("error", "response") and one.ended for one in proxy.exchanges), REPORTED)
    exchange = stage.environment.saw("error", 0)
    reported = exchange is not None and answer.failed
    others = ", ".join(f"{one.method} {one.path}" for one in proxy.of("response"))
    stage.check("error_reported", reported, "error" if exchange else f"no request to invocation/ID/error, but {others}")
    if not reported or exchange is None:  # (one cause, one FAIL)
        return stage.jury.rest("NOTE", "no error is reported")
    stage.check("error_message", report.get("errorMessage") == MESSAGE, came)
    stage.check("error_type", names_the_type(report.get("errorType")), came)
    judge_trace(stage, report)
    return judge_header(stage, exchange)


def names_the_type(value: Any) -> bool:
    """Whether the type is a word of this: languages name it with its module, or in brackets."""
    words = re.split(r"[^A-Za-z0-9_]+", value) if isinstance(value, str) else []
    return any(word in (TYPE, TYPE + "Error", TYPE + "Exception") for word in words)


def judge_trace(stage: Stage, report: Dict[str, Any]) -> None:
    trace = report.get("stackTrace")
    if trace is None:
        others = sorted(name for name in report if "trace" in name.lower() and report[name])
        return stage.note("stack_trace", f"it reports {others[0]} in its place" if others else "it reports none")
    return stage.check("stack_trace", isinstance(trace, list) and all(isinstance(line, (str, dict)) for line in trace),
                       shown(trace))


def judge_header(stage: Stage, exchange: Exchange) -> None:
    value = exchange.request.headers.get(HEADER)
    if not value:
        return stage.note("error_header", "it sends none")
    if not names_the_type(value):
        return stage.note("error_header", f"{value}, for an error of type {TYPE}")
    return stage.check("error_header", True, "")


@scenario(
    ("error_texts", pages.INVOKE_ERROR,
     f"a message with {', '.join(MESSAGES)} in it reaches the caller as it is, each as an error of its own; a delete "
     f"that comes as {AS_SENT}, as from AWS's client for Node, is a NOTE"), lasts=2)
def error_texts(stage: Stage) -> None:
    escaped = False
    for name, message in MESSAGES.items():
        usable(stage)
        answer = stage.invoke({"do": "fail", "type": TYPE, "message": message})
        came = answer.report.get("errorMessage")
        if answer.failed and came == message.replace(DELETE, AS_SENT) != message:
            escaped = True
            continue
        fits = came == message or (not message and came in (None, TYPE))  # (some languages have no empty message)
        if not answer.failed or not fits:
            came = answer.came(f"{name}: {shown(message)} came as {shown(answer.body)}")
            return stage.check("error_texts", False, came)
    if escaped:
        return stage.note("error_texts", f"a delete comes as {AS_SENT}")
    return stage.check("error_texts", True, "")


@scenario(
    ("after_error", pages.INVOKE_ERROR,
     "after an error of the handler the next invocations have their own outputs, errors, identifiers, deadlines and "
     "traces"),
    ("same_process", pages.INVOKE_ERROR,
     "it is the same process that takes the next invocation after an error; one that ends, and is replaced by Lambda, "
     "is a SHOULD"))
def error_then_output(stage: Stage) -> None:
    before = [context_fault(stage, trace) for trace in TRACES[:2]]
    answer, process = stage.invoke({"do": "fail", "type": TYPE, "message": MESSAGE}), stage.environment.process
    fault = None if any(before) else context_fault_after(stage, TRACES[3])  # (of the very next one)
    fault = fault or fault_after(stage, "after the error")
    if process.ended:
        stage.should("same_process", f"after it has reported the error {process.how_it_ended()}")
    elif not answer.failed:
        stage.note("same_process", "not judged: it reports no error")
    else:
        stage.check("same_process", True, "")
    fault = fault or (context_fault(stage, TRACES[2]) if not any(before) else None)
    return stage.check("after_error", not fault, fault)
