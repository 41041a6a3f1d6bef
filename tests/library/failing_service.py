"""A front over a service that does what a check asks for: it answers, breaks its connection off, or says something
else than HTTP. The service has a further port, that of a storm, in which no invocation meets trouble."""
import contextlib
import itertools
import json
import queue
import re
import socket
import threading
from types import SimpleNamespace
from typing import Any, List, Tuple, cast

from lambda_local.front.front import Front
from lambda_local.front.settings import settings_of
from lambda_local.outgoing import Log
from lambda_local.storm import Storm
from tests.library.events_kit import Caller

PATIENCE = 60  # seconds, on a machine that does much else
STOPPED = b'{"Message":"Service is stopped","Type":"Service"}'
NO_MEMORY = b'{"Message":"Out of memory","Type":"Service"}'


def answer(status, body, *headers):
    return "\r\n".join([f"HTTP/1.1 {status} X", f"Content-Length: {len(body)}", *headers, "", ""]).encode() + body


def head_in(stream):
    """The lines of a head; nothing at the end."""
    return b"".join(itertools.takewhile(lambda line: line not in (b"\r\n", b""), iter(stream.readline, None)))


MUCH = 64 << 10  # bytes of a result
# What the service sends for an Invoke, and whether it keeps the connection then.
DEEDS = {
    "ok": (answer(200, b"1"), True),
    "ok, and closes": (answer(200, b"1"), False),
    "fails": (answer(200, b'{"errorType":"E"}', "X-Amz-Function-Error: Unhandled"), True),
    "throttles": (answer(429, b"{}"), True),
    "has no memory": (answer(500, NO_MEMORY, "Connection: close"), False),
    "is stopped": (answer(500, STOPPED), True),
    "closes": (b"", False),
    "breaks off in the head": (b"HTTP/1.1 200 OK\r\nConte", False),
    "breaks off in the body": (answer(200, b"1")[:-1], False),
    "answers no HTTP": (b"hello\r\n\r\n", False),
    "answers twice": (answer(200, b"1") + answer(200, b'"another\'s"'), True),
    "fails with much": (answer(200, b'{"errorType":"' + b"x" * MUCH + b'"}', "X-Amz-Function-Error: Unhandled"),
                        True),
    "never answers": (b"", True),
}


class Handed:
    """A request that waits for a handler, and its answer."""

    def __init__(self, head, body, port):
        method, target = head.split(b" ")[:2]
        fields = [[name.decode(), value.strip().decode()]
                  for name, _, value in (line.partition(b":") for line in head.splitlines()[1:])]
        self.members = {"port": port, "method": method.decode(), "target": target.decode(), "headers": fields}
        self.body, self.answer, self.is_over = body, b"", threading.Event()

    def given(self, number):
        content = json.dumps({"id": number, **self.members}).encode() + b"\n" + self.body
        return answer(200, content)

    def posted(self, head, body):
        status = int(re.findall(rb"Lambda-Local-Status: (\d+)", head)[0]) if b"Lambda-Local-Status" in head else 502
        self.answer = answer(status, body, *(one.decode() for one in re.findall(rb"Lambda-Local-Header: (.*)\r", head)))
        self.is_over.set()


class Service(threading.Thread):
    """Does these deeds with its Invokes, one after the other, and then answers each. It notes each that it takes. It
    hands over events, what is no Invoke, and all that comes to its further port."""

    def __init__(self, *deeds: str) -> None:
        super().__init__(daemon=True)
        self.deeds, self.connections, self.closed = list(deeds), 0, 0
        self.runs: List[Tuple[int, str]] = []  # the number of each event, and the deed
        self.heads: List[bytes] = []
        self.payloads: List[Any] = []
        self.waiting: "queue.SimpleQueue[Handed]" = queue.SimpleQueue()
        self.listener, self.further = (socket.create_server(("127.0.0.1", 0)) for _ in range(2))
        self.port, self.further_port = (one.getsockname()[1] for one in (self.listener, self.further))
        threading.Thread(target=self.hand_over, daemon=True).start()
        self.start()

    def run(self):
        with contextlib.suppress(OSError):
            while True:
                peer, _ = self.listener.accept()
                self.connections += 1
                threading.Thread(target=self.serve, args=(peer,), daemon=True).start()

    def hand_over(self):
        with contextlib.suppress(OSError):
            while True:
                peer, _ = self.further.accept()
                threading.Thread(target=self.hand_over_of, args=(peer,), daemon=True).start()

    def hand_over_of(self, peer):
        with peer, peer.makefile("rb") as stream, contextlib.suppress(OSError):
            while head := head_in(stream):
                length = int((re.findall(rb"(?i)content-length: (\d+)", head) or [0])[0])
                peer.sendall(self.answered(Handed(head, stream.read(length), self.further_port)))

    def answered(self, handed):
        """What is posted for it, once it is."""
        self.waiting.put(handed)
        handed.is_over.wait()
        return handed.answer

    def serve(self, peer):
        is_closed = self.answer(peer)
        self.closed += is_closed

    def answer(self, peer):
        """Whether it is this side that has closed the connection, once it has."""
        with peer, peer.makefile("rb") as stream, contextlib.suppress(OSError):
            while head := head_in(stream):
                self.heads.append(head)
                length = int((re.findall(rb"(?i)content-length: (\d+)", head) or [0])[0])
                body = stream.read(length)
                if len(body) < length:
                    break
                if b"/_local/requests/next" in head:
                    handed = self.waiting.get()
                    peer.sendall(handed.given(self.connections))
                    continue
                if b"/_local/requests/" in head:
                    handed.posted(head, body)
                    peer.sendall(answer(202, b""))
                    continue
                if b"/_local/handler" in head or b"Invocation-Type: Event" in head:
                    peer.sendall(self.answered(Handed(head, body, self.port)))
                    continue
                if b"/_local/" in head or b"/concurrency" in head:
                    peer.sendall(answer(200, b"{}"))
                    continue
                deed = self.deeds.pop(0) if self.deeds else "ok"
                payload = json.loads(body)  # (of an event, or its record)
                self.runs.append((payload.get("requestPayload", payload)["number"], deed))
                self.payloads.append(payload)
                content, keeps = DEEDS[deed]
                peer.sendall(content)
                if not keeps:
                    return True
        return False

    def close(self):
        for listener in (self.listener, self.further):
            listener.shutdown(socket.SHUT_RDWR)
            listener.close()


class Reports(List[Any]):
    """What a front reports of events; `lines` are all that it reports."""

    def __init__(self) -> None:
        super().__init__()
        self.lines: List[str] = []


@contextlib.contextmanager
def front_of(service, **members):
    """A front over this service, a caller of it, and its Reports."""
    whole = {"functions": [{"name": "f"}, {"name": "sink"}],
             "asynchronous": {"delays": [0.05], "onFailure": "sink", **members}}
    told = Reports()

    def log(_who, text, **members):
        told.lines.append(text)
        if members.get("kind") == "event":
            told.append(SimpleNamespace(text=text, **members))

    front = Front(settings_of(whole), 5, cast(Log, log), is_stormy=True)
    configuration = {"region": "us-east-1", "account": "123456789012",
                     "functions": [{"name": name, "ports": [1]} for name in ("f", "sink")]}
    made: Any = SimpleNamespace(port=service.port, configuration=configuration,
                                handled={"invokePort": service.further_port})
    no_trouble: Any = SimpleNamespace(kinds_of=lambda function: ())
    front.serve(made, weather=(Storm(1), no_trouble))
    service.heads.clear()
    try:
        with Caller(made.endpoint_url) as caller:
            yield front, caller, told
    finally:
        front.end()


def statuses(told, function="f"):
    """What was reported of the events of a function, in order."""
    return [line.status for line in told if line.function == function]


def answer_to(front, data, seconds=PATIENCE):
    """The status and body of the answer to these bytes."""
    with socket.create_connection(("127.0.0.1", front.service.through), timeout=seconds) as peer:
        peer.sendall(data)
        with peer.makefile("rb") as stream:
            status = 100
            while status == 100:
                status = int((stream.readline() or b"HTTP/1.1 0").split(b" ")[1])
                head = head_in(stream) if status else b""
            length = re.search(rb"(?i)content-length: (\d+)", head)
            return status, stream.read(int(length[1])) if length else b""
