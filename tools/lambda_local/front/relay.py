"""The port of a storm, which is that of callers: each invocation passes the storm on its way to the service's own port.
All is asked of the service in words of its own, and its answers go on as they come."""
import contextlib
from typing import AsyncIterator, Callable

from ..exchange.client import Client
from ..exchange.connection import Answer
from ..service import AGAIN
from .aliases import Aliases
from .errors import of_user
from .events import TRACE, TYPE
from .http import LONGEST_BODY, Headers, Reply, Request, first
from .origins import FROM_PAGE, PAGE_ADVICE, is_from_page
from .storm import Gate
from .tail import LOG_TYPE

LONGEST_PATH = 160  # letters, in a line


def headers_to_send(headers: Headers) -> Headers:
    """The headers that the service and its handler read, but for those by which a request is refused: by these it has
    been judged already. If one comes twice, the first counts."""
    return [(name, value) for name in (TYPE, TRACE, LOG_TYPE, AGAIN)
            for value in [first(headers, name.lower())] if value is not None]


class StormPort:
    """An invocation whose caller wants its log passes the storm once the service has handed it over. `tell` gets a line
    about the first request of a web page, as the service has one of what it refuses at its own port."""

    def __init__(self, client: Client, gate: Gate, aliases: Aliases, tell: Callable[[str], None]) -> None:
        self.client, self.beside, self.aliases, self.tell = client, gate.beside, aliases, tell
        self.has_told = False

    async def handle(self, given: Request) -> Reply:
        """A Reply whose body is the service's, while it is read. What breaks off there breaks off here."""
        if is_from_page(given.headers):
            self.tell_of_page(given)
            return of_user(FROM_PAGE.status, FROM_PAGE.kind, FROM_PAGE.message)
        request = self.aliases.without(given)
        client = self.beside if first(request.headers, LOG_TYPE) == "Tail" else self.client
        is_again = first(request.headers, AGAIN.lower()) is not None
        payload = request.body(LONGEST_BODY)
        async with contextlib.AsyncExitStack() as stack:
            answer = await stack.enter_async_context(client.exchange(
                request.method, request.target, headers_to_send(request.headers), len(payload), payload, is_again))
            if answer.is_here:
                return Reply(answer.status, answer.headers, await answer.whole())
            reply = Reply(answer.status, answer.headers, pieces=Passed(answer, stack.pop_all()))
        return reply

    def tell_of_page(self, request: Request) -> None:
        if not self.has_told:
            self.has_told, path = True, request.path
            shown = path if len(path) <= LONGEST_PATH else f"{path[:LONGEST_PATH]}.."
            self.tell(f"{request.method} {shown}: {FROM_PAGE.status}, {PAGE_ADVICE}")


class Passed:
    """The body of an answer as it comes. Its connection is given back, or closed, at its end."""

    def __init__(self, answer: Answer, stack: contextlib.AsyncExitStack) -> None:
        self.answer, self.stack = answer, stack

    async def __aiter__(self) -> AsyncIterator[bytes]:
        async for piece in self.answer.pieces():
            yield piece

    async def aclose(self) -> None:
        await self.stack.aclose()
