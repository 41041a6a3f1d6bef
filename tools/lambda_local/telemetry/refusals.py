"""What the service refuses of an environment's processes, as lines: the first request of each kind in full, with what
to do, and later ones as their number. (Lambda Developer Guide, "Using the Lambda runtime API for custom runtimes" and
"Using the Lambda Extensions API"; docs/formats.md has the service's answers.)"""
import difflib
import re
from typing import Callable, Dict, NamedTuple, Optional

from ..http1 import CutShort, Malformed, Request, Response, first
from ..json_reader import members_of
from ..service import EXTENSION, RUNTIME
from .subscription import LOGS, TELEMETRY

ROUTES = {  # with the identifier of an invocation left open
    RUNTIME + "invocation/next": "GET", RUNTIME + "invocation/ID/response": "POST",
    RUNTIME + "invocation/ID/error": "POST", RUNTIME + "init/error": "POST", EXTENSION + "register": "POST",
    EXTENSION + "event/next": "GET", EXTENSION + "init/error": "POST", EXTENSION + "exit/error": "POST",
    TELEMETRY: "PUT", LOGS: "PUT"}
IDENTIFIED = re.compile(r"(?<=/invocation/)(?!next\b)[^/]+")
LIKE, MORE_LIKE = 0.6, 0.75  # of a route's letters, that are in one that is meant: of the same method, and of any
MOST_KINDS = 20  # that are told for an environment
LONGEST = 160  # letters of a path, or of bytes that are none of HTTP
SHORT = 4096  # bytes of an answer that is looked at
Tell = Callable[[str], None]

# What to do, by the service's types of refusals.
SENTENCES = {
    "InvalidRequestID": "no invocation that was delivered here has this identifier: write that of "
                        "Lambda-Runtime-Aws-Request-Id, letter by letter",
    "InvalidRequestFormat": "its body cannot be read",
    "InvalidEventType": "\"events\" has INVOKE, SHUTDOWN, or both",
    "RequestEntityTooLarge": "its body has more than 6,291,456 bytes: send an error in its place",
    "Extension.UnknownIdentifier": "Lambda-Extension-Identifier must be the one that the answer to its registration "
                                   "had",
    "Extension.AlreadyRegistered": "an extension of this name is registered already",
    "Extension.TooManyExtensions": "ten extensions are registered already",
    "InvalidHost": "its Host is malformed",
    "AccessDenied": "a web page, or a foreign host, may not call this port",
}
# So, of what comes in another phase, by the request.
LATE = {
    "GET " + RUNTIME + "invocation/next": "another Next of this environment waits, or its Init has failed",
    "POST " + RUNTIME + "invocation/ID/response": "its invocation is over, by an answer or by its timeout",
    "POST " + RUNTIME + "invocation/ID/error": "its invocation is over, by an answer or by its timeout",
    "POST " + RUNTIME + "init/error": "the Init is over: from the first Next on, report invocation/ID/error",
    "POST " + EXTENSION + "register": "extensions register before the Init is over",
    "POST " + EXTENSION + "init/error": "the Init is over: from the first Next on, report exit/error",
}
HEADERS = {EXTENSION + "register": "Lambda-Extension-Name"}
FUNCTION_ERROR = "Lambda-Extension-Function-Error-Type"


class Kind(NamedTuple):
    """What requests have in common of which only the first is told in full."""
    status: int
    request: str
    reason: str


class Refusals:
    """Those of one environment. `tell` takes lines."""

    def __init__(self, tell: Tell) -> None:
        self.tell = tell
        self.counts: Dict[Kind, int] = {}
        self.told: Dict[Kind, int] = {}
        self.others = 0  # of further kinds

    def refused(self, head: Request, answer: Response, body: bytes) -> None:
        """A request was answered with a status of 400 or more, and this body."""
        self.answered(head.method, head.parts.path, answer.status, type_of(body), first(answer.headers, "allow"),
                      answer.reason)

    def answered(self, method: str, whole_path: str, status: int, kind: str, allowed: Optional[str] = None,
                 phrase: str = "") -> None:
        """The same, by the type in the body, the method that is allowed, and the reason phrase."""
        path = IDENTIFIED.sub("ID", whole_path)
        told = sentence(method, path, status, kind, allowed, phrase)
        self._count(Kind(status, f"{method} {shortened(path)}", kind), f"{method} {shortened(whole_path)}: {status}, "
                                                                       f"{told}")

    def unreadable(self, fault: Malformed, head: Optional[Request], begun: bytes) -> None:
        """What came is no request, or the end of its connection came within one."""
        if head is not None:
            request = f"{head.method} {shortened(head.parts.path)}"
            why = ("its body is cut short: the connection ended within it" if isinstance(fault, CutShort)
                   else f"its body is malformed: {fault.reason}")
            return self._count(Kind(fault.status, request, why), f"{request}: {why}")
        if isinstance(fault, CutShort) and not begun.strip():
            return None
        shown = shortened(begun.split(b"\n")[0].decode("latin-1").rstrip("\r"))
        return self._count(Kind(fault.status, "", "unreadable"),
                           f"what came is not an HTTP/1.1 request: {fault.reason}" + (f": {shown}" if shown else ""))

    def _count(self, kind: Kind, words: str) -> None:
        if kind not in self.counts and len(self.counts) == MOST_KINDS:
            self.others += 1
            if self.others == 1:
                self.tell(f"{MOST_KINDS} kinds of refused requests are reported; further kinds are not")
            return
        count = self.counts[kind] = self.counts.get(kind, 0) + 1
        if count == 1:
            self.told[kind] = 1
            self.tell(words)
        elif count == 10 * self.told[kind]:
            self._tell_count(kind)

    def _tell_count(self, kind: Kind) -> None:
        self.told[kind] = self.counts[kind]
        self.tell(f"{kind.request or 'not an HTTP/1.1 request'}: {kind.status}, {self.counts[kind]:,} times so far")

    def end(self) -> None:
        """The last numbers."""
        for kind, count in self.counts.items():
            if count > self.told[kind]:
                self._tell_count(kind)


def type_of(body: bytes) -> str:
    """The service's type of a refusal; nothing if the body has none."""
    value = (members_of(body[:SHORT]) or {}).get("errorType")
    return value if isinstance(value, str) else ""


def sentence(method: str, path: str, status: int, reason: str, allowed: Optional[str], phrase: str) -> str:
    """What is wrong with a request that was answered so, and what to do. The path has no identifier."""
    if status == 404:
        return missing(method, path)
    if status == 405:
        return f"this route has the method {allowed or ROUTES.get(path, 'another')}"
    if reason == "MissingHeader":
        return f"it needs the header {HEADERS.get(path, FUNCTION_ERROR)}"
    if reason == "InvalidRequestFormat" and path == EXTENSION + "register":
        return 'its body must be {"events": [..]}, in JSON'
    if reason == "InvalidStateTransition":
        return LATE.get(f"{method} {path}", "it comes too early or too late")
    return SENTENCES.get(reason) or f"it is refused ({reason or phrase})"


def missing(method: str, path: str) -> str:
    """There is no such route, with the one that may be meant."""
    if path in (TELEMETRY, LOGS):
        return 'there is no Telemetry API here: write "telemetry": true at the function'
    of_method = [route for route, its in ROUTES.items() if its == method and its != "PUT"]
    found = difflib.get_close_matches(path, of_method, 1, LIKE) or difflib.get_close_matches(path, ROUTES, 1, MORE_LIKE)
    return "there is no such route" + (f": did you mean {ROUTES[found[0]]} {found[0]}?" if found else "")


def shortened(text: str) -> str:
    return text if len(text) <= LONGEST else f"{text[:LONGEST]}.."
