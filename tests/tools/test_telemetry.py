"""Checks the parts of tools/lambda_local/telemetry between a runtime and its service, without processes: what passes
stays byte for byte what it was, and subscriptions are as AWS's pages have them."""
import asyncio
import json
import random
from typing import Dict, List, Tuple, Union
from unittest import mock

from lambda_local.configuration import Members
from lambda_local.exchange.of_tasks import Wire
from lambda_local.telemetry import sender
from lambda_local.telemetry.conversation import Answer, Conversation, Ears, Exchange
from lambda_local.telemetry.desk import Desk
from lambda_local.telemetry.sender import NotTaken, OverHttp
from lambda_local.telemetry.story import About
from lambda_local.telemetry.subscription import (LOGS, TELEMETRY, Buffering, Destination, Refused,
                                                 subscription_of)
from tests.library import http_mutants
from tests.library.cases import Case

SEEDS, MUTANTS = 20261128, 3000
NEXT = b"GET /2018-06-01/runtime/invocation/next HTTP/1.1\r\nHost: a\r\n\r\n"
RESPONSE = b"POST /2018-06-01/runtime/invocation/7/response HTTP/1.1\r\nHost: a\r\nContent-Length: 2\r\n\r\n{}"
CHUNKED = (b"POST /2018-06-01/runtime/invocation/7/response HTTP/1.1\r\nHost: a\r\nTransfer-Encoding: chunked\r\n\r\n"
           b"3;x=y\r\nabc\r\n0\r\nLambda-Runtime-Function-Error-Type: X\r\n\r\n")
OTHER_PUT = b"PUT /2020-01-01/other HTTP/1.1\r\nHost: a\r\nContent-Length: 1\r\n\r\nx"
OWN = b"PUT /2022-07-01/telemetry HTTP/1.1\r\nHost: a\r\nContent-Length: 4\r\n\r\nbody"
OK = b"HTTP/1.1 200 OK\r\nContent-Type: application/json\r\nContent-Length: 2\r\n\r\nOK"
ANSWERS = (b"HTTP/1.1 200 OK\r\nA: 1\r\nContent-Length: 3\r\n\r\nabc",
           b"HTTP/1.1 202 Accepted\r\nContent-Length: 0\r\n\r\n")


class Answering(asyncio.Transport):
    """It gives this answer once something is written, and then ends."""

    def __init__(self, wire, answer):
        super().__init__()
        self.wire, self.answer = wire, answer

    def write(self, data):
        while self.answer:
            place = self.wire.get_buffer(-1)
            here, self.answer = self.answer[:len(place)], self.answer[len(place):]
            place[:len(here)] = here
            self.wire.buffer_updated(len(here))
        self.wire.eof_received()

    def pause_reading(self):
        pass

    resume_reading = abort = pause_reading


class Noted(Exchange):
    def __init__(self, head, seen):
        super().__init__(head)
        self.seen, self.body, self.content, self.status = seen, b"", b"", None

    def sent(self, data):
        self.body += data

    def answered(self, head):
        self.status = head.status

    def came(self, data):
        self.content += data

    def all_came(self):
        self.seen.append((self.head.method, self.head.parts.path, self.body, self.status, self.content))


class NotedEars(Ears):
    def __init__(self):
        self.seen, self.own = [], []

    def exchange(self, head):
        return Noted(head, self.seen)

    def is_own(self, head):
        return head.method == "PUT" and head.parts.path == "/2022-07-01/telemetry"

    def answer(self, head, body):
        self.own.append(body)
        return Answer(200, "OK", b"OK")


def refusal_of(body):
    """Why a subscription is refused; nothing if it is taken."""
    try:
        subscription_of(TELEMETRY, body)
    except Refused as reason:
        return str(reason)
    return ""


def in_pieces(data, size):
    return [data[at:at + size] for at in range(0, len(data), size)]


def passed(requests, answers, size):
    """What goes to the service and to the client, if both come in pieces of this size; and what was heard."""
    ears = NotedEars()
    talk, service, client = Conversation(ears), b"", b""
    for piece in in_pieces(requests, size):
        talk.client_sent(piece)
        service, client = service + bytes(talk.to_service), client + bytes(talk.to_client)
        talk.to_service.clear()
        talk.to_client.clear()
    for piece in in_pieces(answers, size):
        talk.service_sent(piece)
        client += bytes(talk.to_client)
        talk.to_client.clear()
    return service, client, ears, talk


URI = "http://sandbox.localdomain:8080/path?x=1"
RIGHT: Members = {"schemaVersion": "2022-12-13", "types": ["platform", "function"],
                  "destination": {"protocol": "HTTP", "URI": URI}}
WRONG: Dict[str, Tuple[Union[bytes, Members], str]] = {
    "no JSON": (b"{", "the body is not JSON"), "a list": (b"[]", "the body is not a JSON object"),
    "no schema": ({"schemaVersion": None}, "schemaVersion must be one of 2022-07-01, 2022-12-13, 2025-01-29, not null"),
    "a schema of the Logs API": ({"schemaVersion": "2020-08-15"}, "schemaVersion must be one of"),
    "no types": ({"types": []}, "types should not be empty"),
    "an unknown type": ({"types": ["platform", "x"]}, "types must be a list of some of platform, function, extension"),
    "999 items": ({"buffering": {"maxItems": 999}}, "maxItems must be a number from 1000 to 10000, not 999"),
    "10,001 items": ({"buffering": {"maxItems": 10_001}}, "maxItems must be a number from 1000 to 10000"),
    "262,143 bytes": ({"buffering": {"maxBytes": 262_143}}, "maxBytes must be a number from 262144 to 1048576"),
    "1,048,577 bytes": ({"buffering": {"maxBytes": 1_048_577}}, "maxBytes must be a number from 262144 to 1048576"),
    "24 ms": ({"buffering": {"timeoutMs": 24}}, "timeoutMs must be a number from 25 to 30000, not 24"),
    "30,001 ms": ({"buffering": {"timeoutMs": 30_001}}, "timeoutMs must be a number from 25 to 30000"),
    "true for a number": ({"buffering": {"timeoutMs": True}}, "timeoutMs must be a number"),
    "a buffering that is a list": ({"buffering": []}, "buffering must be an object"),
    "no destination": ({"destination": None}, "destination must be an object, not null"),
    "another protocol": ({"destination": {"protocol": "UDP"}}, "protocol must be HTTP or TCP"),
    "a TCP without a port": ({"destination": {"protocol": "TCP"}}, "port must be a number from 1 to 65535"),
    "Lambda's own port": ({"destination": {"protocol": "TCP", "port": 9001}}, "port 9001 is Lambda's own"),
    "no URI": ({"destination": {"protocol": "HTTP"}}, "URI must be http://sandbox.localdomain:PORT/.."),
    "a URI without a port": ({"destination": {"protocol": "HTTP", "URI": "http://sandbox/x"}},
                             "URI port is not provided"),
    "a foreign host": ({"destination": {"protocol": "HTTP", "URI": "http://192.0.2.1:80/"}}, "URI must be http://"),
    "a user in it": ({"destination": {"protocol": "HTTP", "URI": "http://sandbox:1@192.0.2.1:80/"}},
                     "URI must be http://"),
    "a user before it": ({"destination": {"protocol": "HTTP", "URI": "http://x@sandbox:80/"}}, "URI must be http://"),
    "https": ({"destination": {"protocol": "HTTP", "URI": "https://sandbox:80/"}}, "URI must be http://"),
    "a line feed in it": ({"destination": {"protocol": "HTTP", "URI": "http://sandbox:80/\r\nX: y"}},
                          "URI must be http://"),
    "a port of 99999": ({"destination": {"protocol": "HTTP", "URI": "http://sandbox:99999/"}}, "URI is malformed"),
    "half a bracket": ({"destination": {"protocol": "HTTP", "URI": "http://[:80/"}}, "URI is malformed"),
    "another method": ({"destination": {"protocol": "HTTP", "URI": URI, "method": "GET"}},
                       "method must be POST or PUT"),
    "another encoding": ({"destination": {"protocol": "HTTP", "URI": URI, "encoding": "XML"}}, "encoding must be JSON"),
}


class Telemetry(Case):
    def test_all_passes_byte_for_byte_and_is_heard(self):
        requests, answers = NEXT + RESPONSE + CHUNKED + OTHER_PUT, ANSWERS[0] + ANSWERS[1] * 3
        heard = [("GET", "/2018-06-01/runtime/invocation/next", b"", 200, b"abc"),
                 ("POST", "/2018-06-01/runtime/invocation/7/response", b"{}", 202, b""),
                 ("POST", "/2018-06-01/runtime/invocation/7/response", b"abc", 202, b""),
                 ("PUT", "/2020-01-01/other", b"x", 202, b"")]
        for size in (1, 2, 3, 7, 50, 1000):
            service, client, ears, _ = passed(requests, answers, size)
            self.check(f"in pieces of {size} all passes as it is", (service, client), (requests, answers))
            self.check(f"in pieces of {size} it is heard", ears.seen, heard)
        talk = Conversation(NotedEars())
        talk.client_sent(b"GET /2018")
        self.check("half a head goes on at once", bytes(talk.to_service), b"GET /2018")
        talk = Conversation(NotedEars())
        talk.client_sent(b"PU")
        self.check("unless it may be one that is answered here", (bytes(talk.to_service), talk.is_held), (b"", True))
        talk.client_sent(b"RGE / HTTP/1.1\r\n")
        self.check("it goes on once it cannot be one", (bytes(talk.to_service), talk.is_held), (b"PURGE / HTTP/1.1\r\n",
                                                                                                False))

    def test_what_is_malformed_passes_unchanged(self):
        """Mutants of requests go on unchanged, whatever reads them beside that."""
        chosen, wrong = random.Random(SEEDS), []
        for number in range(MUTANTS):
            data = http_mutants.mutant(chosen)
            service, _, ears, talk = passed(data, b"", chosen.choice((1, 5, 1000)))
            talk.client_sent(b"")
            if service + bytes(talk.to_service) != data and not ears.own and not talk.closes:
                wrong.append(data)
        self.check(f"{MUTANTS} malformed requests pass byte for byte", wrong[:1], [])
        garbage = b"\x00\xff" * 1000
        service, client, _, _ = passed(garbage, garbage, 100)
        self.check("what is no HTTP passes too, both ways", (service, client), (garbage, garbage))
        service, client, _, _ = passed(NEXT, b"HTTP/1.1 2000 x\r\n\r\n" + garbage, 9)
        self.check("an answer that is no HTTP passes", client, b"HTTP/1.1 2000 x\r\n\r\n" + garbage)
        service, client, _, _ = passed(b"", b"HTTP/1.1 408 x\r\nContent-Length: 0\r\n\r\n", 9)
        self.check("an answer that nobody asked for passes", client, b"HTTP/1.1 408 x\r\nContent-Length: 0\r\n\r\n")

    def test_subscriptions_are_answered_here_and_in_their_turn(self):
        for size in (1, 3, 1000):
            service, client, ears, _ = passed(OWN + NEXT, ANSWERS[0], size)
            self.check(f"in pieces of {size} a subscription goes no further", (service, client, ears.own),
                       (NEXT, OK + ANSWERS[0], [b"body"]))
            service, client, ears, _ = passed(NEXT + OWN + RESPONSE, ANSWERS[0] + ANSWERS[1], size)
            self.check(f"in pieces of {size} its answer waits for those before it", (service, client),
                       (NEXT + RESPONSE, ANSWERS[0] + OK + ANSWERS[1]))
        expects = OWN.replace(b"Content-Length", b"Expect: 100-continue\r\nContent-Length")
        self.check("one that waits to be asked is", passed(expects, b"", 1000)[1], b"HTTP/1.1 100 Continue\r\n\r\n"
                   + OK)
        closing = OWN.replace(b"Host: a", b"Host: a\r\nConnection: close")
        _, client, _, talk = passed(closing, b"", 1000)
        self.check("the connection is closed if it asks for that", (b"Connection: close" in client, talk.closes),
                   (True, True))
        long = OWN.replace(b"Content-Length: 4", b"Content-Length: 9999999")[:-4] + b"x" * 300_000
        _, _, ears, talk = passed(long, b"", 5000)
        self.check("a body that is too long is read no further", (ears.own, talk.closes), ([None], True))
        _, client, _, talk = passed(NEXT + OWN * 200, b"", 1000)
        self.check("a hundred requests wait at most on a connection", (client, talk.closes), (b"", True))

    def test_a_subscription_is_read_strictly(self):
        found = subscription_of(TELEMETRY, json.dumps(RIGHT).encode())
        self.check("the defaults are the page's", found.buffering, Buffering(10_000, 262_144, 1.0))
        self.check("a destination", found.destination, Destination("HTTP", 8080, "sandbox.localdomain", "/path?x=1",
                                                                   "POST"))
        for name, least, most in (("maxItems", 1000, 10_000), ("maxBytes", 262_144, 1_048_576),
                                  ("timeoutMs", 25, 30_000)):
            for value in (least, most):
                given = {**RIGHT, "buffering": {name: value}}
                scale = 1000 if name == "timeoutMs" else 1
                taken = dict(zip(("maxItems", "maxBytes", "timeoutMs"),
                                 subscription_of(TELEMETRY, json.dumps(given).encode()).buffering))[name]
                self.check(f"{name} may be {value}", round(scale * taken), value)
        logs = subscription_of(LOGS, json.dumps({**RIGHT, "schemaVersion": None}).encode())
        self.check("the Logs API's schema is 2020-08-15 if none is said", (logs.schema, logs.is_of_logs),
                   ("2020-08-15", True))
        for name, (change, wanted) in WRONG.items():
            body = change if isinstance(change, bytes) else json.dumps({**RIGHT, **change}).encode()
            self.check(f"a subscription with {name} is refused", refusal_of(body)[:len(wanted)], wanted)
        two = {**RIGHT, "types": [], "destination": {"protocol": "HTTP", "URI": "http://sandbox.localdomain/"}}
        self.check("two faults are told in one message", refusal_of(json.dumps(two).encode()),
                   "types should not be empty; URI port is not provided")

    def test_any_body_is_a_subscription_or_refused(self):
        """Whatever comes, it is a subscription or is refused."""
        chosen = random.Random(SEEDS)
        values: List[object] = [None, True, 0, -1, 1e300, 10**40, "", "x", "\ud83d", [], [[]], {}, URI, "http://[",
                                {"protocol": "HTTP"}]
        raised = []
        for _ in range(5000):
            given = {name: chosen.choice([value, *values]) for name, value in RIGHT.items()}
            given["buffering"] = {chosen.choice(["maxItems", "maxBytes", "timeoutMs"]): chosen.choice(values)}
            if isinstance(given["destination"], dict) and chosen.random() < 0.7:
                given["destination"] = {name: chosen.choice([chosen.choice(values), 80, "HTTP", "TCP", URI])
                                        for name in ("protocol", "URI", "port", "method", "encoding")}
            body = json.dumps(given).encode()
            cut = body[:chosen.randrange(len(body))] if chosen.random() < 0.2 else body
            try:
                subscription_of(chosen.choice([TELEMETRY, LOGS]), cut)
            except Refused:
                pass
            except Exception as fault:
                raised.append((cut, repr(fault)))
        self.check("5,000 bodies are taken or refused, and raise nothing else", raised[:1], [])

    def test_of_a_receivers_answer_only_its_status_is_read(self):
        """What of a receiver's answer is read, and how it counts."""
        async def answered(data, repeats):
            """How an answer counts, and whether much of it was left."""
            receiver, wire = OverHttp(Destination("HTTP", 1)), Wire("localhost:1")
            receiver.wire = wire
            wire.connection_made(Answering(wire, data * repeats))
            try:
                await receiver.send([b"{}"])
                seen = "taken"
            except NotTaken as reason:
                seen = str(reason)
            return seen, len(wire.reader.buffer) > 64 << 10
        goes_on, length = b"HTTP/1.1 100 Continue\r\n\r\n", b"HTTP/1.1 200 OK\r\nContent-Length: "
        for name, data, repeats, wanted in (
                ("200", length + b"0\r\n\r\n", 1, ("taken", False)),
                ("500", b"HTTP/1.1 500 No\r\nContent-Length: 0\r\n\r\n", 1, ("it answers 500", False)),
                ("100 before 200", goes_on * 3 + length + b"2\r\n\r\nok", 1, ("taken", False)),
                ("100 without end", goes_on, 20_000, ("it has sent 1000 responses of 1xx and no other", True)),
                ("a body without end", length + b"900000\r\n\r\n" + bytes(900_000), 1, ("taken", True)),
                ("a head that ends early", b"HTTP/1.1 200", 1,
                 ("its answer is not HTTP/1.1: the connection ends within a message", False))):
            self.check(f"an answer of {name}", asyncio.run(answered(data, repeats)), wanted)

    def test_a_batch_that_a_receiver_is_silent_about_is_not_sent_anew_at_once(self):
        async def sent():
            """Why it is not taken, and whether another connection was made."""
            receiver, wire = OverHttp(Destination("HTTP", 1)), Wire("localhost:1")
            receiver.wire, receiver.is_kept = wire, True
            wire.connection_made(mock.Mock(spec=asyncio.Transport))
            with mock.patch.object(sender, "ACKNOWLEDGED_SECONDS", 0.1), \
                    mock.patch.object(sender, "connected", side_effect=OSError) as again:
                with self.assertRaises(NotTaken) as caught:
                    await receiver.send([b"{}"])
                return str(caught.exception), again.called
        self.check("it is told", asyncio.run(sent()), ("it has not answered within 0.1 s", False))

    def test_a_desk_takes_subscriptions_in_init_alone(self):
        said: List[str] = []
        desk = Desk(About("f", 128, "i"), said.append)

        def status(identifier, body=json.dumps(RIGHT).encode(), path=TELEMETRY):
            answer = desk.subscribe(identifier, path, body)
            return answer.status, json.loads(answer.body).get("errorType") if answer.status != 200 else None
        self.check("before a generation", status("1"), (403, "Extension.UnknownIdentifier"))
        desk.begins()
        self.check("before registration", status("1"), (403, "Extension.UnknownIdentifier"))
        desk.registers("1", "x", ["INVOKE"])
        self.check("a bad body", status("1", b"{"), (400, "ValidationError"))
        self.check("a body that is too long", status("1", None), (413, "RequestEntityTooLarge"))
        desk.extension_asks("1")
        desk.runtime_asks()
        self.check("after Init", status("1"), (403, "Telemetry.SubscriptionClosed"))
        self.check("in the Logs API's words", status("1", path=LOGS), (403, "Logs.SubscriptionClosed"))
        desk.begins()
        self.check("in the next generation it must register anew", status("1"), (403, "Extension.UnknownIdentifier"))
