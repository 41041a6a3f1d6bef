"""A handler of a service's requests, and requesters of what it is handed: each has a connection of its own. Test cases
with a service."""
import http.client
import json
import socket
import threading
import time
from typing import Any, Dict, Optional, Sequence, Tuple

from lambda_local.service import Service, ask
from tests.library.cases import Case

CONFIGURATION = {"account": "123456789012", "region": "us-east-2", "functions": [{"name": "f", "ports": [0]}]}
NEXT = "/_local/requests/next"
INVOKE = "/2015-03-31/functions/%s/invocations"
LONGEST = 6291456
PATIENCE = 60  # seconds until something has to come, on a machine that does much else
Fields = Sequence[Tuple[str, str]]


class Handler:
    """A handler: one connection."""

    def __init__(self, service: Service) -> None:
        self.connection = http.client.HTTPConnection("127.0.0.1", service.port, timeout=PATIENCE)

    def ask(self) -> None:
        self.connection.request("GET", NEXT)

    def taken(self) -> Tuple[Dict[str, Any], bytes]:
        answer = self.connection.getresponse()
        line, _, body = answer.read().partition(b"\n")
        assert answer.status == 200, (answer.status, line)
        return json.loads(line), body

    def next(self) -> Tuple[Dict[str, Any], bytes]:
        self.ask()
        return self.taken()

    def post(self, path: str, fields: Fields = (("Lambda-Local-Status", "200"),), body: bytes = b"") -> Tuple[int, str]:
        """The status, and the type of the fault if there is one."""
        status, answer = self.posted(path, fields, body)
        return status, answer.get("errorType", "")

    def posted(self, path: str, fields: Fields, body: bytes = b"") -> Tuple[int, Dict[str, str]]:
        self.connection.putrequest("POST", f"/_local/requests/{path}")
        for name, value in fields:
            self.connection.putheader(name, value)
        self.connection.putheader("Content-Length", str(len(body)))
        self.connection.endheaders(body)
        answer = self.connection.getresponse()
        text = answer.read()
        return answer.status, json.loads(text) if text else {}

    def answer(self, head: Dict[str, Any], body: bytes = b"",
               fields: Fields = (("Lambda-Local-Status", "200"),)) -> Tuple[int, str]:
        return self.post(f"{head['id']}/response", fields, body)

    def begin(self, head: Dict[str, Any], fields: Fields = (("Lambda-Local-Status", "200"),),
              length: Optional[int] = None) -> None:
        """Begins to post an answer: in chunks, unless its length is given."""
        self.connection.putrequest("POST", f"/_local/requests/{head['id']}/response")
        for name, value in fields:
            self.connection.putheader(name, value)
        framing = ("Transfer-Encoding", "chunked") if length is None else ("Content-Length", str(length))
        self.connection.putheader(*framing)
        self.connection.endheaders()

    def chunk(self, piece: bytes) -> None:
        self.connection.send(b"%x\r\n%s\r\n" % (len(piece), piece))

    def end(self) -> Tuple[int, str]:
        """Ends a post in chunks."""
        self.connection.send(b"0\r\n\r\n")
        return self.outcome()

    def outcome(self) -> Tuple[int, str]:
        answer = self.connection.getresponse()
        text = answer.read()
        return answer.status, json.loads(text)["errorType"] if text else ""

    def close(self) -> None:
        self.connection.close()


class Reader:
    """A requester that reads its answer as it comes."""

    def __init__(self, service: Service, request: bytes) -> None:
        self.socket = socket.create_connection(("127.0.0.1", service.port), PATIENCE)
        self.socket.sendall(request)
        self.came = b""

    def until(self, end: bytes) -> bytes:
        """What has come, once it ends so or the connection does."""
        while not self.came.endswith(end) and (piece := self.socket.recv(65536)):
            self.came += piece
        return self.came

    def rest(self) -> bytes:
        """All that comes until the connection ends, or is reset."""
        try:
            while piece := self.socket.recv(1048576):
                self.came += piece
        except ConnectionResetError:
            pass
        return self.came

    def close(self) -> None:
        self.socket.close()


class Requester(threading.Thread):
    """A request on a thread of its own: its answer once it has ended."""

    def __init__(self, service: Service, method: str, path: str, headers: Dict[str, str] = {},
                 body: Any = None, port: int = 0) -> None:
        super().__init__()
        self.asked = (port or service.port, method, path, body, headers, PATIENCE)
        self.seen: Tuple[int, Dict[str, str], bytes] = (0, {}, b"")
        self.start()

    def run(self) -> None:
        self.seen = ask(*self.asked)

    def answer(self) -> Tuple[int, Dict[str, str], bytes]:
        self.join(PATIENCE)
        return self.seen


class Herald(Requester):
    """A request that is sent again while no handler is here."""

    def run(self) -> None:
        end = time.monotonic() + PATIENCE
        while (seen := ask(*self.asked))[0] == 404 and time.monotonic() < end:
            time.sleep(0.02)
        self.seen = seen


def handler_of(service: Service) -> Handler:
    """A handler that is here."""
    handler = Handler(service)
    handler.ask()
    herald = Herald(service, "GET", "/here")
    handler.answer(handler.taken()[0])
    herald.answer()
    return handler


def plain(answer: Tuple[int, Dict[str, str], bytes]) -> Tuple[int, Dict[str, str], bytes]:
    """An answer without what differs from second to second."""
    return answer[0], {name: value for name, value in answer[1].items() if name != "date"}, answer[2]


def status_of(port: int, request: bytes) -> int:
    """That of the answer to these bytes."""
    with socket.create_connection(("127.0.0.1", port), PATIENCE) as connection:
        connection.sendall(request)
        return int(connection.makefile("rb").readline().split()[1])


def fault_of(answer: Tuple[int, Dict[str, str], bytes]) -> Tuple[int, str, str]:
    """The status of an answer in the form of the Lambda API, its type and its message."""
    said = json.loads(answer[2])
    return answer[0], answer[1].get("x-amzn-errortype", ""), said.get("message", "") or said["Message"]


class WithService(Case):
    def setUp(self) -> None:
        self.service = Service(CONFIGURATION)

    def tearDown(self) -> None:
        self.service.kill()

    def asked(self, method: str, path: str, headers: Dict[str, str] = {},
              body: Any = None) -> Tuple[int, Dict[str, str], bytes]:
        return plain(ask(self.service.port, method, path, body, headers, PATIENCE))

    def handler(self) -> Handler:
        return handler_of(self.service)
