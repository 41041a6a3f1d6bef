"""The handler that `./lambda_local conformance runtime` expects, for a Python runtime: _HANDLER=conformance.handler."""
import os
import time


def handler(event, context):
    do = event.get("do") if isinstance(event, dict) else None
    if do is None:
        return event
    return ACTIONS[do](event, context)


def fail(event, context):
    raise type(event["type"], (Exception,), {})(event["message"])


def sleep(event, context):
    time.sleep(event["value"] / 1000)
    return event["value"]


def seen(event, context):
    first = context.get_remaining_time_in_millis()
    sleep(event, context)
    return {"requestId": context.aws_request_id, "functionArn": context.invoked_function_arn,
            "remaining": [first, context.get_remaining_time_in_millis()], "traceId": os.environ.get("_X_AMZN_TRACE_ID")}


def show(event, context):
    print(event["value"], flush=True)


ACTIONS = {
    "echo": lambda event, context: event.get("value"),
    "bytes": lambda event, context: list(event["value"].encode()),
    "large": lambda event, context: "x" * event["value"],
    "stream": lambda event, context: "".join(event["value"]),
    "sleep": sleep,
    "context": seen,
    "print": show,
    "fail": fail,
    "exit": lambda event, context: os._exit(event["value"]),
    "hang": lambda event, context: time.sleep(1000),
}
