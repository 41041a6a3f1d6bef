"""What is sent to `onFailure` about records that are given up: where they are, and not what they are (Developer Guide,
"Configuring on-failure destinations" of Kinesis and of DynamoDB)."""
import json
from datetime import datetime, timezone
from typing import Any, Dict, NamedTuple, Optional, Sequence

from .members import KINESIS
from .servers import Record


class Invoked(NamedTuple):
    """The last invocation with a batch."""
    request: str
    status: int
    error: Optional[str]  # such as "Unhandled", if the function has failed


def moment_of(milliseconds: float, has_fraction: bool) -> str:
    """As AWS writes it."""
    moment = datetime.fromtimestamp(max(0.0, min(milliseconds / 1000, 2.5e11)), timezone.utc)
    fraction = f".{moment.microsecond // 1000:03}" if has_fraction else ""
    return f"{moment:%Y-%m-%dT%H:%M:%S}{fraction}Z"


def record_of(service: str, function_arn: str, stream_arn: str, shard: str, records: Sequence[Record], condition: str,
              invocations: int, last: Optional[Invoked], now: int, request: str) -> str:
    """The text of the message. `request` is an identifier for records with which nothing was invoked."""
    is_kinesis = service == KINESIS
    first, end = records[0], records[-1]
    whole: Dict[str, Any] = {
        "requestContext": {"requestId": last.request if last else request, "functionArn": function_arn,
                           "condition": condition, "approximateInvokeCount": invocations}}
    if last is not None:
        whole["responseContext"] = {"statusCode": last.status, "executedVersion": "$LATEST",
                                    "functionError": last.error}
    whole.update({"version": "1.0", "timestamp": moment_of(now, True)})
    whole["KinesisBatchInfo" if is_kinesis else "DDBStreamBatchInfo"] = {
        "shardId": shard, "startSequenceNumber": first.sequence, "endSequenceNumber": end.sequence,
        "approximateArrivalOfFirstRecord": moment_of(first.arrived, is_kinesis),
        "approximateArrivalOfLastRecord": moment_of(end.arrived, is_kinesis),
        "batchSize": len(records), "streamArn": stream_arn}
    return json.dumps(whole)
