"""The function that `lambda_local conformance service --endpoint` asks: deploy it as `probe.handler`, and once more as
`probe.missing`, whose Init fails. It stores nothing and reaches nothing."""
import os
import time
from typing import Any

VERSION = 1


def handler(event: Any, context: Any) -> Any:
    do = event.get("do") if isinstance(event, dict) else None
    if do == "who":
        return {"probe": VERSION}
    if do == "trace":
        return {"trace": os.environ.get("_X_AMZN_TRACE_ID", "")}
    if do == "large":
        return "x" * event["value"]
    if do == "fail":
        raise ValueError(event["value"])
    if do == "hang":
        time.sleep(900)
    return event
