"""Checks what the log of a service tells of requests that it refuses before they are calls: the first of each kind in
full with what to do, then counts, and nothing of requests that are fine; and that a stop ends a service whose clock is
paused. The program is LAMBDA_LOCAL_PROGRAM, else ./lambda_local. Ends with 'N passed, M failed'."""
import socket
import threading
import time
from typing import List, Tuple

from lambda_local.service import RUNTIME, Service, ask, wait_for
from tests.library.cases import Case

CONFIGURATION = {"account": "123456789012", "region": "us-east-2", "functions": [{"name": "f", "ports": [0]}]}
MARK = "lambda_local::rejected] "
NO_ROUTE = "no such route of the Runtime API or the Extensions API; docs/formats.md lists them"
NEEDS = "docs/formats.md says what each route needs"
LOCAL = "Host: a\r\n"
# The end of a head with a body of 6,291,457 bytes, and one whose body is cut off.
TOO_LONG, CUT = f"{LOCAL}Content-Length: 6291457\r\n\r\n", f"{LOCAL}Content-Length: 9\r\n\r\nx"
# Whether a request comes to the environment's port, its bytes, and the line that is told of it: PORT is its port.
TOLD: Tuple[Tuple[bool, str, str], ...] = (
    (True, f"GET {RUNTIME}invocation/nxt?a=%20b HTTP/1.1\r\n{LOCAL}\r\n",
     f"404 GET {RUNTIME}invocation/nxt?a=%20b at port PORT: {NO_ROUTE}"),
    (True, f"POST {RUNTIME}invocation/next HTTP/1.1\r\n{LOCAL}\r\n",
     f"405 POST {RUNTIME}invocation/next at port PORT: this route does not have this method; the response's Allow "
     "lists those that it has"),
    (True, f"POST {RUNTIME}invocation/7/response HTTP/1.1\r\n{LOCAL}\r\n",
     f"400 POST {RUNTIME}invocation/7/response at port PORT, "
     '{"errorMessage":"Not the open invocation","errorType":"InvalidRequestID"}: ' + NEEDS),
    (True, f"GET /2020-01-01/extension/event/next HTTP/1.1\r\n{LOCAL}\r\n",
     "403 GET /2020-01-01/extension/event/next at port PORT: no extension is registered here with this "
     "Lambda-Extension-Identifier; send the one that the response to its registration had"),
    (True, f"POST {RUNTIME}init/error HTTP/1.1\r\n{CUT}",
     f"400 POST {RUNTIME}init/error at port PORT: the body ended early, or is not chunked as HTTP has it; send as many "
     "bytes as Content-Length says"),
    (True, "hello\r\n\r\n", "400 port PORT: these bytes are not a request of HTTP/1.1; send HTTP, without TLS, with a "
     "head of at most 64 KiB"),
    (True, "GET / HTTP/1.1\r\nHost: evil.example.com\r\n\r\n", "403 GET / at port PORT: the host is neither local nor "
     "listed; list its name in LAMBDA_LOCAL_HOSTS if it is yours"),
    (False, f"GET /_local/nothing HTTP/1.1\r\n{LOCAL}\r\n", "404 GET /_local/nothing at port PORT: no such route or "
     "function; docs/formats.md lists the routes, the configuration has the functions"),
    (False, f"POST /2015-03-31/functions/f/invocations HTTP/1.1\r\n{TOO_LONG}",
     "413 POST /2015-03-31/functions/f/invocations at port PORT: the payload is longer than 6291456 bytes; send a "
     "shorter one"),
    (False, f"GET /_local/stats HTTP/1.1\r\n{LOCAL}Origin: http://a.example\r\n\r\n",
     "403 GET /_local/stats at port PORT: web pages may not call this service; call it from a program"),
)
AGAIN = 40  # requests of a kind that was told
PATIENCE = 60  # seconds until something has to come, on a machine that does much else


def sent(port: int, text: str) -> bytes:
    """Sends bytes and no more, and returns what is answered until the end."""
    with socket.create_connection(("127.0.0.1", port), PATIENCE) as peer:
        peer.sendall(text.encode())
        peer.shutdown(socket.SHUT_WR)
        answer = b""
        while True:
            piece = peer.recv(65536)
            if not piece:
                return answer
            answer += piece


def told(service: Service) -> List[str]:
    """What the log told so far of requests that were refused."""
    return [line.split(MARK, 1)[1] for line in list(service.lines) if MARK in line]


def told_first(service: Service, wanted: int) -> List[str]:
    """What is told once this many lines are, or after a while."""
    end = time.monotonic() + PATIENCE
    while len(told(service)) < wanted and time.monotonic() < end:
        time.sleep(0.02)
    return told(service)


class ServiceRefusals(Case):
    def test_the_log_tells_each_kind_of_refused_request(self) -> None:
        service = Service(CONFIGURATION)
        try:
            ports = {True: service.configuration["functions"][0]["ports"][0], False: service.port}
            self.check("a request that is fine", ask(service.port, "GET", "/_local/stats")[0], 200)
            for number, (side, text, line) in enumerate(TOLD):
                answer = sent(ports[side], text)
                self.check(f"the status of {line[:40]}", answer.split(b" ")[1:2], [line[:3].encode()])
                self.check(f"told of {line[:40]}", told_first(service, number + 1)[number:],
                           [line.replace("PORT", str(ports[side]))])
            for _ in range(AGAIN):
                ask(ports[True], "GET", "/again")
            self.check("those that follow are counted", len(told(service)), len(TOLD))
            service.stop()
            self.check("the count at the end", told(service)[len(TOLD):],
                       [f"404 at an environment's port: {AGAIN} more since; {NO_ROUTE}"])
        finally:
            service.kill()

    def test_the_log_tells_of_bodies_that_are_not_handed_over(self) -> None:
        """At a port whose requests go to a handler, while one asks for them."""
        service = Service(CONFIGURATION, handled={"an API": 0})
        try:
            port = service.handled["an API"]
            handler = threading.Thread(target=ask, args=(service.port, "GET", "/_local/requests/next"),
                                       kwargs={"timeout": PATIENCE})
            handler.start()
            end = time.monotonic() + PATIENCE
            while sent(port, f"POST /x HTTP/1.1\r\n{TOO_LONG}").split(b" ")[1:2] == [b"503"]:  # (before it has asked)
                self.check("the handler asks", time.monotonic() < end, True)
            self.check("a body that is too long", told_first(service, 1),
                       [f"413 POST /x at port {port}: the payload is longer than 6291456 bytes; send a shorter one"])
            self.check("the status of one that is cut off", sent(port, f"POST /x HTTP/1.1\r\n{CUT}").split(b" ")[1:2],
                       [b"400"])
            self.check("one that is cut off", told_first(service, 2)[1:],
                       [f"400 POST /x at port {port}: the body ended early, or is not chunked as HTTP has it; send as "
                        "many bytes as Content-Length says"])
            service.stop()
            handler.join(PATIENCE)
        finally:
            service.kill()

    def test_what_the_log_shows_of_a_request_is_escaped(self) -> None:
        """What a client sent makes no line of its own, and no long one."""
        service = Service(CONFIGURATION)
        try:
            sent(service.port, f"GET /{'a' * 400} HTTP/1.1\r\n{LOCAL}\r\n")
            self.check("200 bytes of a target", told_first(service, 1)[0].split(" at port")[0], "404 GET /" + "a" * 199)
        finally:
            service.kill()

    def test_a_stop_lets_a_paused_clock_go_on(self) -> None:
        """An extension that registered for SHUTDOWN and does not end has two seconds, of a clock that was paused."""
        service = Service({**CONFIGURATION, "functions": [{"name": "f", "ports": [0], "extensions": ["e"]}]})
        try:
            port = service.configuration["functions"][0]["ports"][0]
            headers = ask(port, "POST", "/2020-01-01/extension/register", b'{"events":["SHUTDOWN"]}',
                          {"Lambda-Extension-Name": "e"})[1]
            known = {"Lambda-Extension-Identifier": headers["lambda-extension-identifier"]}
            polls = [threading.Thread(target=ask, args=(port, "GET", path, None, own), kwargs={"timeout": PATIENCE})
                     for path, own in ((RUNTIME + "invocation/next", {}), ("/2020-01-01/extension/event/next", known))]
            for number, poll in enumerate(polls):
                poll.start()
                while service.stats()["entries"] < number + 2:
                    time.sleep(0.01)
            ask(service.port, "POST", "/_local/clock/pause")
            begun = time.monotonic()
            ask(service.port, "POST", "/_local/stop")
            status, seconds = wait_for(service.process, PATIENCE), time.monotonic() - begun
            self.check("a stop in a pause ends the service", (status, 1.5 < seconds < PATIENCE / 2), (0, True))
            for poll in polls:
                poll.join(PATIENCE)
        finally:
            service.kill()
