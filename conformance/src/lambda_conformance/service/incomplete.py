"""Requests that Lambda's pages refuse: those of an environment that lack what their page requires, and Invokes of what
there is not, or with a payload that cannot be one. Each is refused, and changes nothing. A replay knows none of them,
since they are refused before they are a call."""
from typing import Iterable, Iterator, List, NamedTuple, Optional, Tuple

from lambda_local.service import EXTENSION

from ..pages import EXTENSION_EXIT_ERROR, EXTENSION_INIT_ERROR, EXTENSION_NEXT, REGISTER, Page
from .course import Course
from .judge import INVOKE_ERRORS, shown
from .oracle import FRESH
from .tested import ERROR_TYPE, TOO_LARGE, Tested

REFUSALS = (400, 403)  # that the pages of an environment's requests have
NAME, TYPE = ("Lambda-Extension-Name", "incomplete"), ("Lambda-Extension-Function-Error-Type", ERROR_TYPE)
IDENTIFIER = "Lambda-Extension-Identifier"
ITS_OWN = (IDENTIFIER, "")  # the identifier of an extension that is registered
NO_FUNCTION, NO_VERSION = "no-such-function-in-this-account", "4711"


class Incomplete(NamedTuple):
    call: str
    lacks: str  # or what is wrong with it
    method: str
    route: str
    headers: Tuple[Tuple[str, str], ...]
    body: Optional[bytes]
    page: Page
    refusals: Tuple[int, ...] = REFUSALS


class NotRefused(NamedTuple):
    """A difference: it is not refused as the page has it."""
    words: Tuple[str, str, str]
    theirs: str
    page: Page
    refusals: Tuple[int, ...]


REQUESTS = (
    Incomplete("register", "without-name", "POST", "register", (), b'{"events": []}', REGISTER),
    Incomplete("register", "without-events", "POST", "register", (NAME,), b"events", REGISTER),
    Incomplete("register", "unknown-event", "POST", "register", (NAME,), b'{"events": ["SLEEP"]}', REGISTER),
    Incomplete("ext-next", "without-identifier", "GET", "event/next", (), None, EXTENSION_NEXT),
    Incomplete("ext-init-failure", "without-identifier", "POST", "init/error", (TYPE,), b"{}", EXTENSION_INIT_ERROR),
    Incomplete("ext-init-failure", "without-error-type", "POST", "init/error", (ITS_OWN,), b"{}", EXTENSION_INIT_ERROR),
    Incomplete("ext-exit-failure", "without-identifier", "POST", "exit/error", (TYPE,), b"{}", EXTENSION_EXIT_ERROR),
    Incomplete("ext-exit-failure", "without-error-type", "POST", "exit/error", (ITS_OWN,), b"{}", EXTENSION_EXIT_ERROR))


def invokes(tested: Tested) -> List[Incomplete]:
    """Those of a caller: InvalidRequestContentException, RequestTooLargeException, InvalidParameterValueException and
    ResourceNotFoundException."""
    functions, _, _ = tested.path.removesuffix("/invocations").rpartition("/")
    unknown = ("X-Amz-Invocation-Type", "Sometimes")
    greater = b'"' + b"x" * (TOO_LARGE - 2) + b'"'

    def one(what: str, refusal: int, body: bytes = b"1", path: str = tested.path,
            headers: Tuple[Tuple[str, str], ...] = ()) -> Incomplete:
        return Incomplete("invoke", what, "POST", path, headers, body, INVOKE_ERRORS, (refusal,))
    return [one("not-json", 400, b'{"n":'), one("too-large", 413, greater),
            one("unknown-type", 400, headers=(unknown,)),
            one("unknown-version", 404, path=f"{tested.path}?Qualifier={NO_VERSION}"),
            one("unknown-function", 404, path=f"{functions}/{NO_FUNCTION}/invocations")]


def not_refused_by(course: Course, requests: Iterable[Incomplete]) -> Iterator[NotRefused]:
    """Those that are not refused."""
    tested = course.tested
    for one in requests:
        course.bring(FRESH)
        headers = one.headers
        if ITS_OWN in headers:
            headers = ((IDENTIFIER, course.register()),)
        address, path = (tested.invoke, one.route) if one.call == "invoke" else (tested.runtime, EXTENSION + one.route)
        exchange = course.answer_to(address, one.method, path, headers, one.body)
        if ITS_OWN in one.headers or exchange.status not in one.refusals:
            course.state = None
        if exchange.status in one.refusals:
            continue
        respect = "refusal" if 400 <= exchange.status < 500 else "status" if exchange.status else "connection"
        if not course.known.accepts(words := (one.call, one.lacks, respect)):
            yield NotRefused(words, shown(exchange), one.page, one.refusals)
