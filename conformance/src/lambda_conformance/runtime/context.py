"""What the handler may know of its invocation."""
import time
from typing import Any, List, Optional

from .. import pages
from ..again import SLACK, remaining_fault
from ..kit import Scenario, deed, scenarios_of
from ..stage import Stage, shown

SCENARIOS: List[Scenario] = []
scenario = scenarios_of(SCENARIOS)

TIMEOUT = 20  # seconds
SLEEP = 60  # milliseconds between the two looks at the remaining time
APART = SLACK / 1000 + 0.3  # seconds between the invocations, so that their deadlines differ
TRACES = ("Root=1-5759e988-bd862e3fe1be46a994272793;Parent=53995c3f42cd8ad8;Sampled=1",
          "Root=1-5759e989-0123456789abcdef01234567;Parent=0123456789abcdef;Sampled=0")


@scenario(
    ("request_id", pages.NEXT,
     "the handler sees the request identifier of each invocation, as Lambda-Runtime-Aws-Request-Id has it"),
    ("function_arn", pages.NEXT,
     "the handler sees the ARN that was invoked, as Lambda-Runtime-Invoked-Function-Arn has it, of a function with the "
     "longest name"),
    ("deadline", pages.NEXT,
     "the remaining time is what is left until Lambda-Runtime-Deadline-Ms, in Unix milliseconds"),
    ("remaining_time", pages.PROCESSING_TASKS, "the remaining time gets less while the handler works"),
    ("trace_id", pages.PROCESSING_TASKS,
     "_X_AMZN_TRACE_ID has the value of Lambda-Runtime-Trace-Id while the handler works"),
    ("trace_renewed", pages.PROCESSING_TASKS, "_X_AMZN_TRACE_ID is renewed for each invocation"), timeout=TIMEOUT,
    has_long_name=True)
def context(stage: Stage) -> None:
    for place, trace in enumerate(TRACES):
        time.sleep(APART * place)
        event, qualified = {"do": "context", "value": SLEEP}, place == 0
        answer = stage.invoke(event, qualified=qualified, trace=trace)
        seen = answer.value if isinstance(answer.value, dict) else {}
        request = answer.headers.get("x-amzn-requestid")
        stage.check("request_id", seen.get("requestId") == request,
                    deed(f"{shown(seen.get('requestId'))} in place of {request}"))
        arn = stage.arn + (":$LATEST" if qualified else "")
        stage.check("function_arn", seen.get("functionArn") == arn,
                    deed(f"{shown(seen.get('functionArn'))} in place of {arn}"))
        judge_time(stage, seen.get("remaining"), request)
        judge_trace(stage, place, seen.get("traceId"))


def judge_time(stage: Stage, remaining: Any, request: Optional[str]) -> None:
    """Two looks at the remaining time, in milliseconds."""
    numbers = isinstance(remaining,
                         list) and len(remaining) == 2 and all(isinstance(each, (int, float)) for each in remaining)
    came = f"remaining milliseconds before and after {SLEEP} ms: {shown(remaining)}, of {stage.timeout * 1000}"
    fault = remaining_fault(stage, remaining, request)
    stage.check("deadline", numbers and not fault, fault or came)
    stage.check("remaining_time", numbers and remaining[0] - remaining[1] >= SLEEP - 5, came)


def judge_trace(stage: Stage, place: int, seen: Optional[str]) -> None:
    if place == 0:
        return stage.check("trace_id", seen == TRACES[0], deed(f"{shown(seen)} in place of {TRACES[0]}"))
    return stage.check("trace_renewed", seen == TRACES[1],
                       deed(f"in the second invocation {shown(seen)} in place of {TRACES[1]}"))
