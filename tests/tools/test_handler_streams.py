"""Checks the answers that a handler posts as a stream, over sockets: the requester sees each piece as it comes, whole
and in order, and a slow one holds the post; what breaks off on either side ends the other; answers that have no body,
and posts that are refused. The program is LAMBDA_LOCAL_PROGRAM, else ./lambda_local. Ends with 'N passed, M failed'."""
import http.client
import threading
import time
from typing import List, Optional, Tuple

from tests.library.handler_kit import LONGEST, PATIENCE, Fields, Handler, Reader, Requester, WithService

STREAMS = 50


class Streams(WithService):
    def begun(self, handler: Handler, request: bytes, fields: Fields = (("Lambda-Local-Status", "200"),),
              length: Optional[int] = None) -> Reader:
        """Who reads the answer that a handler has begun to post."""
        reader = Reader(self.service, request)
        head, _ = handler.next()
        handler.begin(head, fields, length)
        return reader

    def test_a_stream_is_seen_piece_by_piece(self) -> None:
        handler = self.handler()
        fields = (("Lambda-Local-Status", "201"), ("Lambda-Local-Header", "X-One: 1"))
        reader = self.begun(handler, b"GET /a HTTP/1.1\r\nHost: a\r\n\r\n", fields)
        head = reader.until(b"\r\n\r\n").lower()
        self.check("the head comes first", (head[:12], b"\r\nx-one: 1\r\n" in head), (b"http/1.1 201", True))
        self.check("it is in chunks", b"\r\ntransfer-encoding: chunked\r\n" in head)
        for piece in (b"one", b"two", bytes(70000)):
            handler.chunk(piece)
            end = piece[-3:] + b"\r\n"
            self.check(f"{len(piece)} bytes are seen", reader.until(end).endswith(end))
        self.check("the post is accepted", handler.end(), (202, ""))
        self.check("and then is the end", reader.until(b"\r\n0\r\n\r\n").endswith(b"\r\n0\r\n\r\n"))
        reader.close()
        handler.close()

    def test_a_reader_that_is_slow_holds_the_post(self) -> None:
        handler = self.handler()
        reader = self.begun(handler, b"GET /a HTTP/1.0\r\nHost: a\r\n\r\n")
        whole = bytes(range(256)) * 4096
        sent = 0
        handler.connection.sock.settimeout(2)
        try:
            while sent < 64:
                handler.chunk(whole)
                sent += 1
        except TimeoutError:
            pass
        self.check("the post is held", 0 < sent < 64)
        reader.close()
        handler.close()

    def test_a_stream_may_be_long(self) -> None:
        handler = self.handler()
        reader = self.begun(handler, b"GET /a HTTP/1.0\r\nHost: a\r\n\r\n")
        whole = bytes(range(256)) * 4096
        came: List[bytes] = []
        reading = threading.Thread(target=lambda: came.append(reader.rest()))
        reading.start()
        for _ in range(24):
            handler.chunk(whole)
        self.check("the post is accepted", handler.end(), (202, ""))
        reading.join(PATIENCE)
        head, _, body = came[0].partition(b"\r\n\r\n")
        self.check("an old requester gets no chunks", b"chunked" not in head.lower())
        self.check("and each byte, up to the connection's end", body == whole * 24)
        handler.close()

    def test_a_length_is_kept(self) -> None:
        handler = self.handler()
        whole = bytes(range(256)) * 4096
        requester = Requester(self.service, "GET", "/a")
        head, _ = handler.next()
        handler.begin(head, length=len(whole))
        for at in range(0, len(whole), 100003):
            handler.connection.send(whole[at:at + 100003])
        self.check("the post is accepted", handler.outcome(), (202, ""))
        answer = requester.answer()
        self.check("the answer has its length", (answer[1].get("content-length"), "transfer-encoding" in answer[1]),
                   (str(len(whole)), False))
        self.check("and its bytes", answer[2] == whole)
        handler.close()

    def test_a_post_that_breaks_off_cuts_the_answer(self) -> None:
        for length in (None, 10):
            handler = self.handler()
            reader = self.begun(handler, b"GET /a HTTP/1.1\r\nHost: a\r\n\r\n", length=length)
            if length is None:
                handler.chunk(b"one")
            else:
                handler.connection.send(b"one")
            reader.until(b"one" if length else b"one\r\n")
            handler.close()
            self.check("the requester's connection ends", reader.rest().endswith(b"one" if length else b"one\r\n"))
            reader.close()

    def test_a_requester_that_goes_away_ends_the_post(self) -> None:
        handler = self.handler()
        reader = self.begun(handler, b"GET /a HTTP/1.1\r\nHost: a\r\n\r\n")
        handler.chunk(b"one")
        reader.until(b"one\r\n")
        reader.close()
        self.check("while it has more to post", handler.outcome(), (409, "RequestIsOver"))
        handler.close()
        handler = self.handler()
        reader = self.begun(handler, b"GET /a HTTP/1.1\r\nHost: a\r\n\r\n", length=LONGEST)
        ended = threading.Timer(2, reader.close)
        ended.start()
        try:
            handler.connection.send(bytes(LONGEST - 1))
        except ConnectionError:
            pass
        self.check("and while it is held", handler.outcome(), (409, "RequestIsOver"))
        handler.close()

    def test_some_answers_have_no_body(self) -> None:
        """A body that comes behind the head of its post then comes when the request is over."""
        for method, status in (("HEAD", 200), ("GET", 204), ("GET", 304)):
            handler, connection = self.handler(), http.client.HTTPConnection("127.0.0.1", self.service.port,
                                                                             timeout=PATIENCE)
            connection.request(method, "/a")
            body = b"body" if status != 204 else b""
            said = handler.answer(handler.next()[0], body, (("Lambda-Local-Status", str(status)),))
            self.check(f"{method} {status}: its post is over", said in ((202, ""), (409, "RequestIsOver")))
            answer = connection.getresponse()
            self.check("it has no body", (answer.status, answer.read()), (status, b""))
            handler.close()
            handler = self.handler()
            connection.request("GET", "/b")
            head, _ = handler.next()
            handler.begin(head)
            handler.chunk(b"b")
            self.check("the connection goes on", handler.end(), (202, ""))
            self.check("with the next answer", connection.getresponse().read(), b"b")
            connection.close()
            handler.close()

    def test_a_reset_is_answered_only_without_content(self) -> None:
        """A response of 205 has none (RFC 9110, section 15.3.6), so a post that can bring some fails its requester."""
        for length, status in ((0, 205), (4, 500), (None, 500)):
            handler = self.handler()
            reader = self.begun(handler, b"GET /a HTTP/1.1\r\nHost: a\r\nConnection: close\r\n\r\n",
                                (("Lambda-Local-Status", "205"),), length)
            head, _, content = reader.rest().partition(b"\r\n\r\n")
            self.check(f"a post of length {length}: the connection ends after {status}", (head[:12], content),
                       (b"HTTP/1.1 %d" % status, b""))
            self.check("its response says that it is empty", b"\r\ncontent-length: 0" in head.lower())
            reader.close()
            handler.close()

    def test_a_refused_stream_leaves_the_request(self) -> None:
        handler = self.handler()
        requester = Requester(self.service, "GET", "/a")
        head, _ = handler.next()
        handler.begin(head, (("Lambda-Local-Status", "99"),))
        handler.chunk(bytes(1000))
        time.sleep(0.2)
        handler.chunk(bytes(1000))
        self.check("its status is none", handler.end(), (400, "InvalidResponse"))
        handler.begin({"id": head["id"] + 1})
        handler.chunk(bytes(1000))
        self.check("another is not there", handler.end(), (404, "UnknownRequest"))
        self.check("the request is", handler.answer(head, b"ok"), (202, ""))
        self.check("and is answered", requester.answer()[2], b"ok")
        handler.close()

    def test_many_streams_at_once(self) -> None:
        def handle() -> None:
            handler = Handler(self.service)
            head, _ = handler.next()
            handler.begin(head)
            for number in range(20):
                handler.chunk(b"%s %d " % (head["target"].encode(), number) * 500)
            outcomes.append(handler.end())
            handler.close()
        outcomes: List[Tuple[int, str]] = []
        first = self.handler()
        handlers = [threading.Thread(target=handle) for _ in range(STREAMS)]
        requesters = [Requester(self.service, "GET", f"/{number}") for number in range(STREAMS)]
        for one in handlers:
            one.start()
        answers = [one.answer()[2] for one in requesters]
        self.check("each requester has its own, whole and in order", answers == [
            b"".join(b"/%d %d " % (number, piece) * 500 for piece in range(20)) for number in range(STREAMS)])
        for one in handlers:
            one.join(PATIENCE)
        self.check("each post is accepted", outcomes, [(202, "")] * STREAMS)
        first.close()
