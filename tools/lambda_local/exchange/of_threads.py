"""A request to a port of this machine, on a connection of its own, and its answer: for threads, and without asyncio,
which takes longer to import than a command has. A thread blocks in each of its steps."""
import contextlib
import socket
from typing import Coroutine, Dict, Iterator, Mapping, Optional, Tuple, TypeVar, Union, cast

from .connection import LOCAL, Answer, Connection, Silent

AT_ONCE = 1 << 16  # bytes
Given = TypeVar("Given")


def done(work: Coroutine[object, None, Given]) -> Given:
    """What a coroutine gives that waits for connections of threads alone: so it is never suspended."""
    try:
        work.send(None)
    except StopIteration as end:
        return cast(Given, end.value)
    raise AssertionError("it waits for something else than a thread's connection")


class Socket(Connection):
    """A connection of a thread, which has so many seconds for each of its steps."""

    def __init__(self, port: int, silence: float, host: str = LOCAL) -> None:
        """OSError if there is none."""
        super().__init__(f"{host}:{port}", silence)
        try:
            self.socket = socket.create_connection((host, port), silence)
        except socket.timeout:
            raise Silent(f"no connection within {silence:g} s") from None
        self.socket.setsockopt(socket.IPPROTO_TCP, socket.TCP_NODELAY, 1)

    async def more(self) -> None:
        try:
            self.reader.receive(self.socket.recv(AT_ONCE))
        except socket.timeout:
            raise Silent(f"no answer within {self.silence:g} s") from None

    async def write(self, data: bytes) -> None:
        self.put(data)

    def put(self, data: bytes) -> None:
        self.socket.sendall(data)

    def close(self) -> None:
        self.socket.close()

    def end(self) -> None:
        """Ends what waits for it, in whichever thread."""
        with contextlib.suppress(OSError):
            self.socket.shutdown(socket.SHUT_RDWR)

    def answered(self, method: str) -> "Answered":
        return Answered(done(self.answer(method)))


class Answered:
    """An answer whose head is here. Names of its headers are in lower case; of one that is there twice the last counts.
    """

    def __init__(self, answer: Answer) -> None:
        self.status, self._answer = answer.status, answer
        self.headers: Dict[str, str] = {name.lower(): value for name, value in answer.headers}

    def pieces(self) -> Iterator[bytes]:
        """Its body as it comes."""
        while piece := done(self._answer.piece()):
            yield piece

    def whole(self, most: Optional[int] = None) -> bytes:
        """All of its body, as `Answer.whole` has it."""
        return done(self._answer.whole(most))


@contextlib.contextmanager
def sent(port: int, method: str, target: str, body: Union[None, str, bytes] = None, headers: Mapping[str, str] = {},
         timeout: float = 30, host: str = LOCAL) -> Iterator[Socket]:
    """The connection on which a request was sent, with these headers in place of its own. OSError if it cannot be sent.
    """
    data = body.encode() if isinstance(body, str) else body or b""
    with contextlib.closing(Socket(port, timeout, host)) as connection:
        connection.put(connection.request(method, target, list(headers.items()), len(data)))
        connection.put(data)
        yield connection


@contextlib.contextmanager
def asked(port: int, method: str, target: str, body: Union[None, str, bytes] = None, headers: Mapping[str, str] = {},
          timeout: float = 30, host: str = LOCAL) -> Iterator[Answered]:
    """The answer to a request, while it is read. OSError if none comes."""
    with sent(port, method, target, body, headers, timeout, host) as connection:
        yield connection.answered(method)


def ask(port: int, method: str, target: str, body: Union[None, str, bytes] = None, headers: Mapping[str, str] = {},
        timeout: float = 30) -> Tuple[int, Dict[str, str], bytes]:
    """Status, headers (names in lower case) and body of the answer to a request. OSError if it does not come whole."""
    with asked(port, method, target, body, headers, timeout) as answer:
        return answer.status, answer.headers, answer.whole()
