"""What is asked of a remote Lambda: for each, the point of docs/differences.md that it settles, and what the answer
shows of it, in words."""
import json
from typing import Any, Callable, Dict, List, NamedTuple

LIMIT = 6_291_456  # bytes of a response, by the quota
LONGEST = 300  # letters of an error
QUOTES = 2  # bytes around a text of JSON
TRACE = "x-amzn-trace-id"


class Reply(NamedTuple):
    status: int
    headers: Dict[str, str]  # by names in lower case
    body: bytes

    def member(self, name: str) -> Any:
        """A member of the body, if that is a JSON object."""
        try:
            value = json.loads(self.body)
        except ValueError:
            return None
        return value.get(name) if isinstance(value, dict) else None


class Asked(NamedTuple):
    """A request: of an Invoke the function and the event."""
    function: str
    event: bytes
    headers: Dict[str, str] = {}
    query: str = ""


class Question(NamedTuple):
    point: str  # as docs/differences.md has it
    ask: Asked
    here: str  # what `serve` answers
    show: Callable[[Reply], str]


def event(do: str, value: Any = None) -> bytes:
    return json.dumps({"do": do} if value is None else {"do": do, "value": value}).encode()


def header(name: str) -> Callable[[Reply], str]:
    return lambda reply: "present" if name in reply.headers else "absent"


def refusal(reply: Reply) -> str:
    """A status, with the type of what refuses."""
    return f"{reply.status} {reply.headers.get('x-amzn-errortype', '').partition(':')[0]}".strip()


def report(reply: Reply) -> str:
    """An error without the identifier of its request."""
    own = reply.headers.get("x-amzn-requestid") or "ID"
    return f"{reply.member('errorType')}: {reply.member('errorMessage')}"[:LONGEST].replace(own, "ID")


def size(reply: Reply) -> str:
    return f"error {report(reply)}" if "x-amz-function-error" in reply.headers else f"{len(reply.body):,} bytes"


def trace(reply: Reply) -> str:
    root = str(reply.member("trace") or "").partition("Root=")[2].partition(";")[0]
    return "none" if not root else "a root of zeros" if not root.split("-", 1)[-1].strip("0-") else "a root of its own"


def questions(function: str, failing: str) -> List[Question]:
    """Those of a function that is the probe, and of one that has its missing handler, if that is named."""
    too_large = f"error Function.ResponseSizeTooLarge: ID Response exceeds {LIMIT} bytes"
    found = [
        Question("`X-Amzn-Trace-Id` of the answer", Asked(function, event("who")), "absent", header(TRACE)),
        Question("`Lambda-Runtime-Trace-Id` if the caller gave none", Asked(function, event("trace")),
                 "a root of zeros", trace),
        Question("request identifier of a refusal before the call", Asked(f"{function}-none", event("who")), "absent",
                 header("x-amzn-requestid")),
        Question("a route of the runtime interface emulator", Asked("function", event("who")),
                 "404 ResourceNotFoundException", refusal),
        Question("`InvocationType` `Event`, `DryRun`",
                 Asked(function, event("who"), {"X-Amz-Invocation-Type": "DryRun"}),
                 "400 InvalidParameterValueException", refusal),
        Question("a version, an alias", Asked(function, event("who"), query="?Qualifier=17"),
                 "404 ResourceNotFoundException", refusal),
        Question("the greatest response", Asked(function, event("large", LIMIT - QUOTES)), f"{LIMIT:,} bytes", size),
        Question("the greatest response, one byte more", Asked(function, event("large", LIMIT - QUOTES + 1)), too_large,
                 size),
        Question("the greatest response, 100 bytes more", Asked(function, event("large", LIMIT - QUOTES + 100)),
                 too_large, size),
        Question("the greatest response, 101 bytes more", Asked(function, event("large", LIMIT - QUOTES + 101)),
                 too_large, size),
        Question("`LogType` `Tail`", Asked(function, event("who"), {"X-Amz-Log-Type": "Tail"}), "absent",
                 header("x-amz-log-result")),
        Question("a timeout", Asked(function, event("hang")),
                 "Function.Timeout: ID Task timed out after 3 seconds", report),
    ]
    if failing:
        found.append(Question("a failed Init", Asked(failing, event("who")), "the Init's own report", report))
    return found
