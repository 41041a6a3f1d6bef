"""Checks the handlers of a service's requests over sockets: without one nothing changes; one gets what may be handed
over, and nothing else, byte for byte; the requester gets what was posted for its own request; each fault by name; a
handler that dies with a request, one that comes back, and requesters that go away; and further ports, all of whose
requests are handed over. The program is LAMBDA_LOCAL_PROGRAM, else ./lambda_local. Ends with 'N passed, M failed'."""
import http.client
import json
import socket
import threading
import time
from typing import Dict, List, Optional, Tuple

from lambda_local.service import RUNTIME, Fault, Service, ask, free_ports
from tests.library.handler_kit import (CONFIGURATION, INVOKE, LONGEST, NEXT, PATIENCE, Fields, Handler, Requester,
                                       WithService, fault_of, status_of)

EVENT = {"X-Amz-Invocation-Type": "Event"}
MANY, HANDLERS = 60, 3
MOST_BYTES = 64 << 20  # of bodies that wait for a handler
# What is answered as ever, whether a handler is here or not.
OWN: Tuple[Tuple[str, str, Dict[str, str], Optional[str]], ...] = (
    ("GET", "/_local/version", {}, None),
    ("PUT", "/_local/version", {}, None),
    ("GET", "/_local/requests/other", {}, None),
    ("POST", NEXT, {}, ""),
    ("GET", "/_local/requests/1/response", {}, None),
    ("POST", "/_local/requests/01/response", {}, ""),
    ("GET", INVOKE % "f", {}, None),
    ("POST", INVOKE % "f", {}, "no JSON"),
    ("POST", INVOKE % "a%20b", {}, "{}"),
    ("GET", "/2019-09-30/functions/other/concurrency", {}, None),
    ("GET", "/_local/history?from=x", {}, None),
    ("GET", "/nothing", {"Host": "evil.example.com"}, None),
    ("GET", "/nothing", {"Origin": "http://a.example"}, None),
    ("GET", NEXT, {"Origin": "http://a.example"}, None),  # (no page is a handler)
    ("GET", NEXT, {"Host": "evil.example.com"}, None),
    ("POST", "/_local/requests/0/response", {"Sec-Fetch-Site": "cross-site"}, "x"),
)
# What is handed over while a handler is here, with its answer while none is.
HANDED: Tuple[Tuple[str, str, Dict[str, str], bytes, int], ...] = (
    ("GET", "/nothing?a=%20b", {"X-Mine": "\xe9"}, b"", 404),
    ("DELETE", "/a/b", {}, bytes(range(256)), 404),
    ("POST", INVOKE % "f", EVENT, b'{"a":1}', 400),
    ("POST", INVOKE % "f:live", {}, b"{}", 404),
    ("POST", INVOKE % "other", {}, b"{}", 404),
)
TAIL = {"X-Amz-Log-Type": "Tail"}
# What a further port hands over as well: what is the service's own at its invoke port, and what pages send.
AT_HANDLED: Tuple[Tuple[str, str, Dict[str, str], bytes], ...] = (
    ("GET", "/_local/version", {}, b""),
    ("GET", NEXT, {}, b""),
    ("POST", "/_local/requests/1/response", {"Lambda-Local-Status": "200"}, b"x"),
    ("POST", "/_local/stop", {}, b""),
    ("POST", INVOKE % "f", {}, b"{}"),
    ("GET", f"{RUNTIME}invocation/next", {}, b""),
    ("OPTIONS", "/a?b=c", {"Origin": "http://a.example", "Access-Control-Request-Method": "PUT"}, b""),
    ("PUT", "/a", {"Origin": "null", "Sec-Fetch-Site": "cross-site"}, bytes(range(256))),
    ("POST", "/a", {"Host": "localhost:1"}, b"a=b"),
)
NO_HANDLER = (503, "ServiceException", "No handler is here")
# The fields of a post, and the message of its fault.
WRONG: Tuple[Tuple[Fields, str], ...] = (
    ((), "Lambda-Local-Status is missing"),
    ((("Lambda-Local-Status", "200"), ("Lambda-Local-Status", "200")), "Lambda-Local-Status is there more than once"),
    ((("Lambda-Local-Status", "ok"),), "Lambda-Local-Status is not a number"),
    ((("Lambda-Local-Status", "199"),), "Lambda-Local-Status is not from 200 to 599"),
    ((("Lambda-Local-Status", "600"),), "Lambda-Local-Status is not from 200 to 599"),
    ((("Lambda-Local-Status", "200"), ("Lambda-Local-Header", "a")), "A Lambda-Local-Header has no colon"),
    ((("Lambda-Local-Status", "200"), ("Lambda-Local-Header", "a b: c")), "A Lambda-Local-Header names no field"),
    ((("Lambda-Local-Status", "200"), ("Lambda-Local-Header", "Content-Length: 5")),
     "A Lambda-Local-Header names a field that the service sets itself"),
)


class Handlers(WithService):
    def all_own(self) -> List[Tuple[int, Dict[str, str], bytes]]:
        return [self.asked(method, path, headers, body) for method, path, headers, body in OWN]

    def test_without_a_handler_nothing_is_handed_over(self) -> None:
        for method, path, headers, body, status in HANDED:
            self.check(f"{method} {path} is {status}", self.asked(method, path, headers, body)[0], status)
        handler = Handler(self.service)
        self.check("no request has the identifier of a post", handler.post("0/response"), (404, "UnknownRequest"))
        self.check("nor of a failure", handler.post("7/error"), (404, "UnknownRequest"))
        refused = [status for status, _, _ in self.all_own()[-3:]]
        self.check("a page is refused, and so is a foreign host", refused, [403, 403, 403])
        self.check("who has only posted is no handler", self.asked("GET", "/nothing")[0], 404)
        handler.close()

    def test_a_handler_gets_what_may_be_handed_over_alone(self) -> None:
        before = self.all_own()
        stats = self.asked("GET", "/_local/stats")
        handler = self.handler()
        handler.ask()
        for method, path, headers, body, _ in HANDED:
            requester = Requester(self.service, method, path, headers, body or None)
            head, came = handler.taken()
            self.check(f"the handler gets {method} {path}", (head["port"], head["method"], head["target"], came),
                       (self.service.port, method, path, body))
            self.check("and its fields", all([name.lower(), value] in head["headers"]
                                             for name, value in headers.items()))
            fields = (("Lambda-Local-Status", "207"), ("Lambda-Local-Header", "X-One: 1"),
                      ("Lambda-Local-Header", "x-two:\t2 "))
            self.check("it answers", handler.answer(head, b"echo " + came, fields), (202, ""))
            answer = requester.answer()
            self.check("and that is the answer", (answer[0], answer[1].get("x-one"), answer[1].get("x-two"), answer[2]),
                       (207, "1", "2", b"echo " + came))
            handler.ask()
        self.check("what is the service's own is answered as ever", self.all_own(), before)
        self.check("and none of it counts", self.asked("GET", "/_local/stats"), stats)
        port = self.service.configuration["functions"][0]["ports"][0]
        self.check("an environment's port hands nothing over", ask(port, "GET", f"{RUNTIME}nothing")[0], 404)
        handler.close()

    def test_an_invocation_is_handed_over_only_with_its_log(self) -> None:
        handler = self.handler()
        handler.ask()
        caller = Requester(self.service, "POST", INVOKE % "f", TAIL, b'{"a":1}')
        head, came = handler.taken()
        self.check("a caller who asks for the log", came, b'{"a":1}')
        handler.answer(head)
        self.check("is answered by the handler", caller.answer()[0], 200)
        handler.ask()
        caller = Requester(self.service, "POST", INVOKE % "f", {}, b'{"b":1}')
        port = self.service.configuration["functions"][0]["ports"][0]
        _, fields, event = ask(port, "GET", f"{RUNTIME}invocation/next", timeout=PATIENCE)
        ask(port, "POST", f"{RUNTIME}invocation/{fields['lambda-runtime-aws-request-id']}/response", b'"own"')
        self.check("any other is an invocation", (event, caller.answer()[2]), (b'{"b":1}', b'"own"'))
        handler.close()

    def test_bodies_are_whole_up_to_the_limit(self) -> None:
        handler = self.handler()
        handler.ask()
        body = bytes(range(256)) * (LONGEST // 256)
        requester = Requester(self.service, "POST", "/long", {}, body)
        head, came = handler.taken()
        self.check("the longest body comes whole", came == body)
        self.check("and goes back", handler.answer(head, body), (202, ""))
        self.check("whole", requester.answer()[2] == body)
        longer = ask(self.service.port, "POST", "/long", body + b"x", timeout=PATIENCE)
        self.check("a longer one is refused", fault_of(longer),
                   (413, "RequestTooLargeException", f"Payload exceeds {LONGEST} bytes"))
        pieces = iter([body, b"x"])
        connection = http.client.HTTPConnection("127.0.0.1", self.service.port, timeout=PATIENCE)
        connection.request("POST", "/long", pieces, {"Transfer-Encoding": "chunked"}, encode_chunked=True)
        self.check("in chunks as well", connection.getresponse().status, 413)
        connection.close()
        requester = Requester(self.service, "HEAD", "/head")
        head, _ = handler.next()
        handler.answer(head, b"ten bytes.")
        self.check("HEAD has no body", (requester.answer()[0], requester.answer()[2]), (200, b""))
        handler.close()  # (it has ended already if its body came behind its head)
        handler = self.handler()
        requester = Requester(self.service, "GET", "/204")
        head, _ = handler.next()
        handler.answer(head, b"", (("Lambda-Local-Status", "204"),))
        self.check("nor has 204", (requester.answer()[0], requester.answer()[2]), (204, b""))
        handler.close()

    def test_each_fault_has_its_name(self) -> None:
        handler, other = self.handler(), Handler(self.service)
        handler.ask()
        requester = Requester(self.service, "GET", "/nothing")
        head, _ = handler.taken()
        for fields, message in WRONG:
            self.check(message, handler.posted(f"{head['id']}/response", fields),
                       (400, {"errorMessage": message, "errorType": "InvalidResponse"}))
        self.check("another connection may not answer", other.answer(head), (409, "RequestOfAnother"))
        waiting = Requester(self.service, "GET", "/waiting")
        until = time.monotonic() + PATIENCE
        while other.post(f"{head['id'] + 1}/response") != (409, "RequestNotTaken") and time.monotonic() < until:
            time.sleep(0.02)
        refused = other.post(f"{head['id'] + 1}/error")
        self.check("nor one that still waits be answered", refused, (409, "RequestNotTaken"))
        self.check("no request has this identifier", handler.post(f"{2 ** 64 - 1}/error"), (404, "UnknownRequest"))
        self.check("none of it has ended the request", handler.answer(head, b"ok"), (202, ""))
        self.check("which is answered", requester.answer()[2], b"ok")
        self.check("once", handler.answer(head, b"again"), (409, "RequestIsOver"))
        head, _ = handler.next()
        self.check("a handler lets one fail", handler.post(f"{head['id']}/error"), (202, ""))
        self.check("which is a 502", fault_of(waiting.answer()),
                   (502, "ServiceException", "The handler of the request has failed"))
        self.check("a body that is too long", handler.answer(head, bytes(LONGEST + 1)), (413, "RequestEntityTooLarge"))
        handler.close()
        other.close()

    def test_the_bytes_that_wait_are_bounded(self) -> None:
        """What is at a handler does not count among them. Then there is room again."""
        handler = self.handler()
        handler.ask()
        first = Requester(self.service, "POST", "/first", {}, bytes(LONGEST))
        head, _ = handler.taken()
        count = MOST_BYTES // LONGEST
        waiting = [Requester(self.service, "POST", f"/{number}", {}, bytes(LONGEST)) for number in range(count + 1)]
        end = time.monotonic() + PATIENCE
        while all(one.is_alive() for one in waiting) and time.monotonic() < end:
            time.sleep(0.02)
        refused = [one for one in waiting if not one.is_alive()]
        self.check("one is refused at once", [fault_of(one.answer()) for one in refused],
                   [(503, "ServiceException", "Too many requests wait for a handler")])
        self.check("the handler goes on", (handler.answer(head), first.answer()[0]), ((202, ""), 200))
        for _ in range(count):
            handler.answer(handler.next()[0])
        self.check("all others are answered", [one.answer()[0] for one in waiting if one not in refused], [200] * count)
        again = Requester(self.service, "POST", "/again", {}, bytes(LONGEST))
        handler.answer(handler.next()[0])
        self.check("and a further one", again.answer()[0], 200)
        handler.close()

    def test_a_handler_that_dies_fails_what_it_has_taken(self) -> None:
        handler, other = self.handler(), Handler(self.service)
        requester = None
        handler.ask()
        requester = Requester(self.service, "GET", "/first")
        handler.taken()
        other.ask()
        handler.close()
        self.check("its request is a 502", requester.answer()[0], 502)
        requester = Requester(self.service, "GET", "/second")
        head, _ = other.taken()
        other.answer(head)
        self.check("and the next one is another's", requester.answer()[0], 200)
        other.close()

    def test_a_handler_that_comes_back_finds_what_waits(self) -> None:
        handler = self.handler()
        handler.ask()
        requester = Requester(self.service, "GET", "/first")
        handler.answer(handler.taken()[0])
        self.check("answered", requester.answer()[0], 200)
        handler.close()
        requester = Requester(self.service, "GET", "/waits")
        time.sleep(0.5)
        handler = Handler(self.service)
        head, _ = handler.next()
        handler.answer(head, b"back")
        self.check("what came meanwhile is answered", requester.answer()[2], b"back")
        handler.close()
        requester = Requester(self.service, "GET", "/waits")
        self.check("if none comes back, it fails", requester.answer()[0], 502)
        self.check("after the grace", self.asked("GET", "/nothing")[0], 404)

    def test_a_requester_that_goes_away_is_passed_over(self) -> None:
        handler = self.handler()
        handler.ask()
        requester = Requester(self.service, "GET", "/first")
        first, _ = handler.taken()
        with socket.create_connection(("127.0.0.1", self.service.port)) as gone:
            gone.sendall(b"GET /gone HTTP/1.1\r\nHost: a\r\n\r\n")
            time.sleep(0.5)
        time.sleep(0.5)
        third = Requester(self.service, "GET", "/third")
        handler.answer(first)
        self.check("the first is answered", requester.answer()[0], 200)
        head, _ = handler.next()
        self.check("the handler gets the third", head["target"], "/third")
        third_answered = handler.answer(head)
        self.check("and answers it", (third_answered, third.answer()[0]), ((202, ""), 200))
        handler.ask()
        with socket.create_connection(("127.0.0.1", self.service.port)) as gone:
            gone.sendall(b"GET /gone HTTP/1.1\r\nHost: a\r\n\r\n")
            head, _ = handler.taken()
        time.sleep(1)
        self.check("one that leaves later is told at the answer", handler.answer(head), (409, "RequestIsOver"))
        handler.close()

    def test_each_request_gets_its_own_answer_once(self) -> None:
        seen: List[str] = []
        def handle() -> None:
            handler = Handler(self.service)
            while True:
                head, _ = handler.next()
                seen.append(head["target"])
                if head["target"] == "/end":
                    handler.answer(head)
                    return handler.close()
                handler.answer(head, head["target"].encode())
        handlers = [threading.Thread(target=handle) for _ in range(HANDLERS)]
        for one in handlers:
            one.start()
        until = time.monotonic() + PATIENCE
        while self.asked("GET", "/here")[0] == 404 and time.monotonic() < until:
            time.sleep(0.02)
        requesters = [Requester(self.service, "GET", f"/{number}") for number in range(MANY)]
        answers = [one.answer()[2] for one in requesters]
        self.check("each has its own", answers, [f"/{number}".encode() for number in range(MANY)])
        for _ in handlers:
            self.asked("GET", "/end")
        for one in handlers:
            one.join(PATIENCE)
        self.check("and was handed over once", sorted(one for one in seen if one not in ("/end", "/here")),
                   sorted(f"/{number}" for number in range(MANY)))

    def test_the_end_of_the_service_is_not_held_up(self) -> None:
        handler, other = self.handler(), Handler(self.service)
        handler.ask()
        requester = Requester(self.service, "GET", "/first")
        handler.taken()
        other.ask()
        self.asked("POST", "/_local/stop", {}, "")
        try:
            answer = other.connection.getresponse()
            told = (answer.status, json.loads(answer.read())["errorType"])
        except (http.client.RemoteDisconnected, ConnectionResetError):
            told = (503, "ServiceEnded")  # (its connection may end before it is told)
        self.check("a handler that waits is told, or its connection ends", told, (503, "ServiceEnded"))
        self.check("what is at a handler fails", requester.answer()[0], 502)
        self.check("and the service ends", self.service.stop(PATIENCE)[0], 0)
        handler.close()
        other.close()


class HandledPorts(WithService):
    def setUp(self) -> None:
        self.ports = free_ports(2, ())
        listed = ",".join(str(port) for port in self.ports)
        self.service = Service(CONFIGURATION, variables={"LAMBDA_LOCAL_HANDLED": listed})

    def test_without_a_handler_each_request_is_refused(self) -> None:
        for port in self.ports:
            for method, path, headers, body in AT_HANDLED:
                refused = ask(port, method, path, body or None, headers, PATIENCE)
                self.check(f"{method} {path}", fault_of(refused), NO_HANDLER)
        connection = http.client.HTTPConnection("127.0.0.1", self.ports[0], timeout=PATIENCE)
        for body in (b"", bytes(1000), b"x"):
            connection.request("POST", "/a", body)
            answer = connection.getresponse()
            self.check("its connection stays", (answer.status, json.loads(answer.read())["Type"]), (503, "Service"))
        connection.close()
        self.check("the service goes on", self.asked("GET", "/_local/version")[0], 200)

    def test_each_request_is_handed_over_with_its_port(self) -> None:
        stats = self.asked("GET", "/_local/stats")
        handler = self.handler()
        for port in self.ports:
            for method, path, headers, body in AT_HANDLED:
                requester = Requester(self.service, method, path, headers, body or None, port)
                head, came = handler.next()
                self.check(f"the handler gets {method} {path}", (head["port"], head["method"], head["target"], came),
                           (port, method, path, body))
                self.check("and its fields", all([name.lower(), value] in head["headers"]
                                                 for name, value in headers.items()))
                self.check("it answers", handler.answer(head, b"from %d" % port), (202, ""))
                self.check("and that is the answer", requester.answer()[2], b"from %d" % port)
        requester = Requester(self.service, "GET", "/nothing")
        head, _ = handler.next()
        handler.answer(head)
        self.check("the invoke port's have its number", (head["port"], requester.answer()[0]), (self.service.port, 200))
        self.check("and none of it counts", self.asked("GET", "/_local/stats"), stats)
        handler.close()

    def test_the_guard_stays(self) -> None:
        handler = self.handler()
        port = self.ports[0]
        for site in ("none", "cross-site"):  # (no page, and one, which an invoke port would refuse first)
            foreign = ask(port, "GET", "/a", None, {"Host": "evil.example.com", "Sec-Fetch-Site": site}, PATIENCE)
            self.check(f"a foreign host is refused, of the site {site}", fault_of(foreign),
                       (403, "AccessDeniedException", "Host is neither local nor in LAMBDA_LOCAL_HOSTS"))
        page = ask(self.service.port, "GET", "/a", None, {"Origin": "http://a.example"}, PATIENCE)
        self.check("a page at the invoke port as well", fault_of(page),
                   (403, "AccessDeniedException", "Web pages may not call this service"))
        coded = b"POST /a HTTP/1.1\r\nHost: localhost\r\nTransfer-Encoding: gzip, chunked\r\n\r\n0\r\n\r\n"
        self.check("and a foreign coding", status_of(port, coded), 501)
        longer = ask(port, "POST", "/a", bytes(LONGEST + 1), timeout=PATIENCE)
        self.check("a body is within the limit", fault_of(longer),
                   (413, "RequestTooLargeException", f"Payload exceeds {LONGEST} bytes"))
        handler.close()

    def test_requests_of_all_ports_wait_in_one_line(self) -> None:
        handler = self.handler()
        requesters = []
        for number in range(MANY):
            requesters.append(Requester(self.service, "GET", f"/{number}", {}, None, self.ports[number % 2]))
        for _ in requesters:
            head, _ = handler.next()
            handler.answer(head, b"%d%s" % (head["port"], head["target"].encode()))
        self.check("each has its own answer", [one.answer()[2] for one in requesters],
                   [b"%d/%d" % (self.ports[number % 2], number) for number in range(MANY)])
        handler.close()

    def test_a_port_that_is_taken_ends_the_start(self) -> None:
        taken = {"LAMBDA_LOCAL_HANDLED": str(self.ports[0])}
        with self.assertRaises(Fault) as failed:
            Service(CONFIGURATION, variables=taken)
        self.check("by the fault of the network", (failed.exception.status, "network: failed" in str(failed.exception)),
                   (4, True))
