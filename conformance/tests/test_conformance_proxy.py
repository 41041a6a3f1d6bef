"""Checks the proxy of lambda_local conformance: a client and a service meet through it what they meet without it,
however one of the two ends the connection, and it records what was asked and answered."""
import socket
import struct
import threading
import time
from typing import Callable, List, Optional, Tuple

from lambda_conformance.exchanges import Rule
from lambda_conformance.manners import Manner
from lambda_conformance.proxy import Proxy
from tests.library.cases import Case

LARGE = 20_000_000  # bytes: more than all buffers on the way hold
TOO_LARGE = b"HTTP/1.1 413 Payload Too Large\r\nContent-Length: 3\r\n\r\n413"
CLOSES = b"HTTP/1.1 413 Payload Too Large\r\nConnection: close\r\nContent-Length: 3\r\n\r\n413"
FINE = b"HTTP/1.1 202 Accepted\r\nContent-Length: 2\r\n\r\nok"
BAD = b"HTTP/1.1 400 Bad Request\r\nContent-Length: 0\r\n\r\n"
GO_ON = b"HTTP/1.1 100 Continue\r\n\r\n"
NEXT = b"GET /2018-06-01/runtime/invocation/next HTTP/1.1\r\nHost: x\r\n\r\n"
SECONDS = 60  # after which a side that waits has failed


def response(body):
    return (b"POST /2018-06-01/runtime/invocation/1/response HTTP/1.1\r\nHost: x\r\n"
            b"Content-Length: %d\r\n\r\n" % len(body) + body)


def recorded_plainly(exchange):
    return exchange.kind, exchange.status, len(exchange.request.body), exchange.left is None


def recorded_faults(exchange):
    return exchange.kind, exchange.status, list(exchange.faults())


class Side:
    """A connected socket, and what it has met."""

    def __init__(self, connection):
        self.connection, self.received, self.met = connection, 0, []
        connection.settimeout(SECONDS)

    def send(self, data):
        try:
            self.connection.sendall(data)
        except ConnectionError:
            self.met.append("sends in vain")

    def read(self, count):
        """Returns this many bytes, or fewer if they end before."""
        data = bytearray()
        while len(data) < count:
            try:
                part = self.connection.recv(min(262_144, count - len(data)))
            except ConnectionError:
                self.met.append("a reset")
                break
            if not part:
                self.met.append("the end")
                break
            data += part
        return bytes(data)

    def takes(self, count):
        """Reads this many bytes, and notes them."""
        self.met.append(self.read(count))

    def counts(self, count):
        self.met.append(len(self.read(count)))

    def ends_its_side(self):
        self.connection.shutdown(socket.SHUT_WR)

    def resets(self):
        self.connection.setsockopt(socket.SOL_SOCKET, socket.SO_LINGER, struct.pack("ii", 1, 0))
        self.connection.close()


def played(service, client, proxied, rule=None, told=recorded_plainly, manner=None):
    """What the two meet, and what the proxy between them records, as it is told, if there is one."""
    with socket.create_server(("127.0.0.1", 0)) as listener:
        proxy = Proxy(listener.getsockname()[1]) if proxied else None
        met = []

        def serve():
            with listener.accept()[0] as connection:
                side = Side(connection)
                service(side)
                met.extend(side.met)
        serving = threading.Thread(target=serve, daemon=True)
        serving.start()
        if proxy:
            proxy.rule, proxy.manner = rule, manner
        with socket.create_connection(("127.0.0.1", proxy.port if proxy else listener.getsockname()[1])) as connection:
            side = Side(connection)
            client(side)
        serving.join(SECONDS)
        if not proxy:
            return side.met, met
        exchanges = proxy.exchanges
        proxy.wait(lambda: all(one.ended for one in exchanges), SECONDS)
        recorded = [told(one) for one in exchanges]
        proxy.close()
        return side.met, met, recorded


def answers_early(reply):
    """As the service answers what is declared to be too large: its end follows, and what comes is thrown away."""
    def service(side):
        side.read(200)
        side.send(reply)
        side.ends_its_side()
        side.counts(2 * LARGE)
    return service


def sends_all_then_reads(side):
    side.send(response(b"x" * LARGE))
    side.takes(1000)


def answers_early_and_resets(side):
    side.read(200)
    side.send(TOO_LARGE)
    side.connection.close()


def sends_much_then_reads(side):
    side.send(response(b"x" * LARGE))
    side.takes(len(TOO_LARGE))


def answers_early_and_goes_on(side):
    side.read(200)
    side.send(TOO_LARGE)
    side.counts(len(response(b"x" * LARGE)) - 200)
    side.counts(len(NEXT))
    side.send(FINE)
    side.takes(1)


def sends_all_and_asks_again(side):
    side.send(response(b"x" * LARGE))
    side.takes(len(TOO_LARGE))
    side.send(NEXT)
    side.takes(len(FINE))


def answers_and_ends(side):
    side.counts(len(response(b"{}")))
    side.send(FINE)
    side.ends_its_side()
    side.counts(1000)


def asks_on_what_has_ended(side):
    side.send(response(b"{}"))
    side.takes(1000)
    side.send(NEXT)


def cuts_its_reply(side):
    side.counts(len(NEXT))
    side.send(FINE[:-1])


def asks_once(side):
    side.send(NEXT)
    side.takes(1000)


def answers_after_the_end(side):
    side.counts(1000)
    side.send(FINE)


def ends_its_side_first(side):
    side.send(NEXT)
    side.ends_its_side()
    side.takes(1000)


def waits_in_vain(side):
    side.counts(len(NEXT))
    side.counts(1)


def gives_up(side):
    side.send(NEXT)


def resets_at_once(side):
    side.send(NEXT)
    side.resets()


def asks_twice_at_once(side):
    side.send(NEXT + NEXT)
    side.takes(2 * len(FINE))


def refuses_what_is_no_http(side):
    side.counts(5)
    side.send(BAD)


def is_no_http(side):
    side.send(b"GET x\r\nno colon\r\n\r\n")
    side.takes(1000)


Conduct = Callable[[Side], None]
Recorded = Tuple[str, Optional[int], int, bool]  # kind, status, bytes of the request, whether none are left over
# A name, the service's conduct, the client's, and what is recorded.
WAYS: Tuple[Tuple[str, Conduct, Conduct, List[Recorded]], ...] = (
    ("an early answer, and the service throws the rest away", answers_early(TOO_LARGE), sends_all_then_reads,
     [("response", 413, LARGE, True)]),
    ("the same with Connection: close", answers_early(CLOSES), sends_all_then_reads, [("response", 413, LARGE, True)]),
    ("an early answer, and the service goes on", answers_early_and_goes_on, sends_all_and_asks_again,
     [("response", 413, LARGE, True), ("next", 202, 0, True)]),
    ("an answer, the service's end, and a request behind it", answers_and_ends, asks_on_what_has_ended,
     [("response", 202, 2, True)]),
    ("an end within the answer", cuts_its_reply, asks_once, [("next", None, 0, False)]),
    ("an answer after the client's end", answers_after_the_end, ends_its_side_first, [("next", 202, 0, False)]),
    ("a client that gives up", waits_in_vain, gives_up, [("next", None, 0, False)]),
    ("a client that resets", waits_in_vain, resets_at_once, [("next", None, 0, False)]),
    ("what is no HTTP", refuses_what_is_no_http, is_no_http, [("other", 400, 0, True)]),
)


class ConformanceProxy(Case):
    def test_each_way(self):
        for name, service, client, wanted in WAYS:
            direct, (*through, recorded) = played(service, client, False), played(service, client, True)
            self.check(f"{name}: both meet the same through the proxy", tuple(through), direct)
            self.check(f"{name}: it is recorded", recorded, wanted)

    def test_a_request_that_cannot_be_read_goes_on_and_is_told(self):
        """The service judges it, and what is wrong is a line; what comes behind a body is told of that body."""
        path, post = "/2018-06-01/runtime/invocation/", response(b"").split(b"\r\n")[0] + b"\r\n"
        two = post + b"Host: x\r\nContent-Length: 1\r\nContent-Length: 2\r\n\r\n12"
        chunked = post + b"Host: x\r\nTransfer-Encoding: chunked\r\n\r\n"
        unread = "it cannot be read as HTTP/1.1"
        cases: Tuple[Tuple[str, List[bytes], str, str], ...] = (
            ("lines that end with LF", [NEXT.replace(b"\r\n", b"\n")], "next",
             f"GET {path}next: {unread}: each line of a head must end with CR LF"),
            ("two lengths", [two], "response", f"POST {path}1/response: {unread}: Content-Length must be one number"),
            ("a chunk without a size", [chunked, b"no size\r\n"], "response", f"POST {path}1/response: {unread}: "),
            ("no HTTP", [b"\x16\x03\x01 hello\r\n\r\n"], "other", f": {unread}: "))
        for name, parts, kind, fault in cases:
            def service(side, parts=parts):
                side.takes(sum(map(len, parts)))
                side.send(BAD)

            def client(side, parts=parts):
                for part in parts:
                    side.send(part)
                    time.sleep(0.05)
                side.takes(len(BAD))
            came, went, recorded = played(service, client, True, told=recorded_faults)
            self.check(f"{name}: the service gets all of it, and the client the answer", (came, went),
                       ([BAD], [b"".join(parts)]))
            (*seen, faults), = recorded
            self.check(f"{name}: what is wrong is told", (*seen, len(faults), fault in faults[0]), (kind, 400, 1, True))

    def test_what_comes_behind_a_body_is_told_of_that_body(self):
        sent = response(b"{}") + b"}"

        def service(side):
            side.counts(len(sent) - 1)
            side.send(FINE)
            side.takes(1)
            side.send(BAD)

        def client(side):
            side.send(sent)
            side.takes(len(FINE))
            side.ends_its_side()
            side.takes(1000)
        _, went, recorded = played(service, client, True, told=recorded_faults)
        (kind, status, faults), = recorded
        self.check("the byte goes on", went, [len(sent) - 1, b"}"])
        seen = (kind, status, len(faults), "of Content-Length 2, come the bytes }" in faults[0])
        self.check("and is told of the body before it", seen, ("response", 202, 1, True))

    def test_an_answer_before_the_answer_is_not_held(self):
        """A client that waits for 100 Continue gets it at once, also if the answer is to be written anew."""
        waits = response(b"{}")[:-len(b"\r\n{}")] + b"Expect: 100-continue\r\n\r\n"

        def service(side):
            side.counts(len(waits))
            side.send(GO_ON)
            side.takes(2)
            side.send(FINE)

        def client(side):
            side.send(waits)
            side.takes(len(GO_ON))
            side.send(b"{}")
            side.takes(len(FINE))
        came, _, recorded = played(service, client, True, manner=Manner(named=str.upper))
        self.check("it comes, and then the answer in its manner", came, [GO_ON, FINE.replace(b"Content-Length",
                                                                                          b"CONTENT-LENGTH")])
        self.check("of which the second is recorded", recorded, [("response", 202, 2, True)])

    def test_a_reset(self):
        """(What else one meets that sends into a reset depends on when it comes.)"""
        for proxied in (False, True):
            client = played(answers_early_and_resets, sends_much_then_reads, proxied)[0]
            self.check(f"an early answer, and the service resets{', through the proxy' * proxied}", client,
                       ["sends in vain", TOO_LARGE])

    def test_pipelined(self):
        """(The proxy forwards one request at a time.)"""
        def answers_one_by_one(side):
            for _ in range(2):
                side.counts(len(NEXT))
                side.send(FINE)
            side.takes(1)
        client, service, recorded = played(answers_one_by_one, asks_twice_at_once, True)
        self.check("two requests at once have two answers", (client, service),
                   ([FINE + FINE], [len(NEXT), len(NEXT), "the end", b""]))
        self.check("and are recorded", recorded, [("next", 202, 0, True)] * 2)

    def test_rules(self):
        def is_not_asked(side):
            side.takes(1)
        rule = Rule("next", reply=(500, b"{}"))
        with socket.create_server(("127.0.0.1", 0)) as listener:
            proxy = Proxy(listener.getsockname()[1])
            proxy.rule = rule
            with socket.create_connection(("127.0.0.1", proxy.port)) as connection:
                side = Side(connection)
                side.send(NEXT)
                side.takes(len(rule.bytes()))
            self.check("a rule answers in the service's place", side.met, [rule.bytes()])
            proxy.close()
        client, _, recorded = played(answers_and_ends, asks_on_what_has_ended, True, Rule("response", close=True))
        self.check("a rule closes the connection after the answer", (client, recorded),
                   (["the end", FINE], [("response", 202, 2, True)]))
