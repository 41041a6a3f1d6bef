"""Which invocations of a history were made by functions themselves. The SDKs of AWS send the trace of the invocation in
which they run with each call; a bundled runtime that is given none makes a root of its own of the request identifier,
and for others the front of `lambda_local up` makes one, with a word that says so."""
import re
from typing import Dict, List, NamedTuple, Optional

ROOT = re.compile(r"(?:^|;)[ \t]*Root=([^;]*)")
OF_UP = re.compile(r"(?:^|;)From=lambda_local(?:;|$)")
NO_ROOT = "1-00000000-000000000000000000000000"  # what the service gives a runtime for a caller that gave none


def root_of(trace: Optional[str]) -> Optional[str]:
    found = ROOT.search(trace or "")
    return found[1].strip() if found else None


def own_root(request: str) -> str:
    """The root that a bundled runtime makes of a request identifier."""
    digits = request.replace("-", "")
    return f"1-{digits[:8]}-{digits[8:]}"


class Made(NamedTuple):
    """An invocation was made by a function, in the invocation with this ticket if that is known."""
    by: Optional[int]


class Roots:
    """Follows the Invokes of a history."""

    def __init__(self) -> None:
        self.own: Dict[str, int] = {}  # tickets, by the roots that runtimes make, and that `up` made
        self.given: Dict[str, List[int]] = {}  # those in flight, by the roots that callers gave
        self.open: Dict[int, Optional[str]] = {}  # the roots of all in flight

    def begin(self, ticket: int, request: Optional[str], trace: Optional[str]) -> Optional[Made]:
        """An Invoke. Whether a function has made it: its root is that of an earlier invocation's identifier, or that of
        one in flight, or none that a caller sends."""
        root = root_of(trace)
        made = self.maker_of(root)
        self.open[ticket] = root
        if request is not None:
            self.own.setdefault(own_root(request), ticket)
        if root is not None and made is None and OF_UP.search(trace or ""):
            self.own[root] = ticket
        if root is not None and made is None:
            self.given.setdefault(root, []).append(ticket)
        return made

    def maker_of(self, root: Optional[str]) -> Optional[Made]:
        if root is None:
            return None
        if root == NO_ROOT:
            return Made(None)
        if root in self.own:
            return Made(self.own[root])
        return Made(self.given[root][0]) if root in self.given else None

    def end(self, ticket: int) -> None:
        root = self.open.pop(ticket, None)
        if root is not None and ticket in self.given.get(root, []):
            self.given[root].remove(ticket)
            if not self.given[root]:
                del self.given[root]
