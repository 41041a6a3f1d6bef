"""One asynchronous invocation, and what is sent of one that has ended: its record, and of one that failed its payload
with attributes (Developer Guide, "Capturing records of Lambda asynchronous invocations")."""
import json
import re
from typing import Dict, Mapping, Optional
from urllib.parse import unquote

from ..clock.asked import time_of
from ..configuration import Members
from ..history.entries import request_identifier
from ..http1 import Headers, first
from ..json_reader import members_of

NAMED = re.compile(r"(?:.*:)?function:([^:]+)(?::[^:]+)?|([^:]+)(?::[^:]+)?")
PATH = re.compile(r"/2015-03-31/functions/([^/?]+)/invocations(?:\?.*)?")

TYPE, TRACE = "X-Amz-Invocation-Type", "X-Amzn-Trace-Id"
HALF = re.compile(rb"\\u[dD][89a-fA-F]")  # what may be one


def target_of(function: str) -> str:
    return f"/2015-03-31/functions/{function}/invocations"


def function_of(target: str) -> Optional[str]:
    """Returns the name of the function in an Invoke's target, in one of its forms; None if it is not an Invoke."""
    path = PATH.fullmatch(target)
    named = NAMED.fullmatch(unquote(path[1])) if path else None
    return (named[1] or named[2]) if named else None


def trace_of(headers: Headers) -> Headers:
    """What is passed on of the head of a request that is an invocation. If it is there twice, the first counts."""
    return [(TRACE, value) for value in [first(headers, TRACE.lower())] if value is not None]


class Identifiers:
    """The identifiers of events: as those of requests, with a 9 in place of the 8 (docs/formats.md)."""

    def __init__(self, configuration: Members) -> None:
        self.salt: int = configuration.get("salt", 0)
        self.counts: Dict[str, int] = {}
        self.numbers = {function["name"]: number for number, function in enumerate(configuration["functions"], 1)}

    def next(self, function: str) -> str:
        count = self.counts[function] = self.counts.get(function, 0) + 1
        made = request_identifier(self.salt, self.numbers.get(function, 0), count)
        return f"{made[:19]}9{made[20:]}"


MOST_MESSAGE = 1024  # bytes of an error's message that a dead letter has
THROTTLED = (429, "Rate Exceeded.")


class Event:
    def __init__(self, identifier: str, function: str, target: str, headers: Headers, payload: bytes,
                 since: int, depth: int = 0) -> None:
        """`since` is the moment at which it is taken; `depth` how many records led to it, each the event of the
        next."""
        self.identifier, self.function, self.target, self.headers = identifier, function, target, headers
        self.payload, self.since, self.attempts, self.throttles = payload, since, 0, 0
        self.depth = depth
        # What the function returned or reported at the last attempt, if its record needs it and it is kept
        self.result: Optional[bytes] = None
        self.is_running = self.has_failed = self.has_returned = False
        self.error = THROTTLED  # of a dead letter
        self.is_sent = False  # to where it goes in the end
        self.waits = False  # for its next attempt to be due

    @property
    def size(self) -> int:
        """The bytes that are held for it."""
        return len(self.payload) + len(self.result or b"")

    def record(self, condition: str, arn: str, moment: int) -> bytes:
        """What the destination gets. Payload and result stand in it as they are: it is hardly longer than both."""
        members = {"version": json.dumps("1.0").encode(), "timestamp": json.dumps(time_of(moment)).encode(),
                   "requestContext": json.dumps({"requestId": self.identifier, "functionArn": arn,
                                                 "condition": condition,
                                                 "approximateInvokeCount": self.attempts}).encode(),
                   "requestPayload": in_json(self.payload)}
        if self.has_failed or self.has_returned:
            unhandled = {"functionError": "Unhandled"} if self.has_failed else {}
            members["responseContext"] = json.dumps({"statusCode": 200, "executedVersion": "$LATEST",
                                                     **unhandled}).encode()
        if self.result is not None:
            members["responsePayload"] = in_json(self.result)
        return b"{" + b", ".join(b'"%b": %b' % (name.encode(), value) for name, value in members.items()) + b"}"

    def attributes(self) -> Mapping[str, object]:
        """Those of its dead letter."""
        code, message = self.error
        return {"RequestID": self.identifier, "ErrorCode": code, "ErrorMessage": message}


def in_json(body: bytes) -> bytes:
    """A body as it stands if it is JSON, else its text as JSON has it. Halves of surrogate pairs, which the service
    does not take, are replaced."""
    try:
        value = json.loads(body.decode(), parse_constant=refuse)
        return json.dumps(value, ensure_ascii=False).encode(errors="replace") if HALF.search(body) else body
    except (ValueError, RecursionError):
        return json.dumps(body.decode(errors="replace"), ensure_ascii=False).encode()


def message_in(report: bytes) -> str:
    """The beginning of the message that a function reported of its failure, else of the whole report."""
    said = (members_of(report) or {}).get("errorMessage")
    text = said if isinstance(said, str) else report.decode(errors="replace")
    return text.encode(errors="replace")[:MOST_MESSAGE].decode(errors="ignore")


def refuse(constant: str) -> object:
    """NaN and Infinity, which Python reads, are not JSON."""
    raise ValueError(constant)
