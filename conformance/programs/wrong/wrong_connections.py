"""Runtimes that understand the answers of one service alone, or lose themselves when a connection ends. A class is
named after its mistake, and `check` is the check that catches it; `also` are others that cannot but catch it too."""
import base64
import json
import os
import select
import signal
import socket
import sys

from connection import Connection
from shared_mistakes import is_scenario
from sound_runtime import Runtime


class WritesTheIdentifierInCapitals(Runtime):
    check = "identifier_as_given"

    def ask(self, method, path, body=None, headers=None):
        if path.startswith("invocation/") and path != "invocation/next":
            before, request, after = path.split("/")
            path = f"{before}/{request.upper()}/{after}"
        return super().ask(method, path, body, headers)


# ---- other answers ---------------------------------------------------------------------------------------------------

class ReadsItsOwnCase(Runtime):
    """Names of headers in lower case alone, as this service writes them."""
    check = "header_names"

    class Exact(Connection):
        def _until(self, end):
            data = super()._until(end)
            lines = data.split(b"\r\n")
            framing = (b"content-length", b"transfer-encoding", b"http/")
            return b"\r\n".join(line for line in lines if b":" not in line or line.split(b":")[0].islower()
                                or line.lower().startswith(framing))

    connected = Exact

    def one_invocation(self):
        answer = self.next()
        if answer.status == 200 and not answer.headers["Lambda-Runtime-Aws-Request-Id"]:
            sys.exit("there is no request identifier")
        self.next = lambda: answer
        try:
            super().one_invocation()
        finally:
            del self.next


class CannotReadChunks(Runtime):
    check, also = "chunked_answers", {"long_refusal"}

    class ByLength(Connection):
        def body(self, status, headers):
            return self._take(int(headers["Content-Length"] or 0))

    connected = ByLength


class ReadsEachAnswerAsJson(Runtime):
    check = "empty_answers"

    def sent(self, answer, request, output):
        json.loads(answer.body)
        super().sent(answer, request, output)


class HasRoomForFewHeaders(Runtime):
    check = "more_headers"

    class Small(Connection):
        def _until(self, end):
            data = super()._until(end)
            if len(data) > 2048:
                sys.exit("the head of an answer is too long")
            return data

    connected = Small


class TakesAnyAnswerForTheLast(Runtime):
    check, outcome = "continue_first", "SHOULD"

    class First(Connection):
        def answer(self):
            head = self._until(b"\r\n\r\n")
            if head.split(b" ")[1] == b"100":
                sys.exit("100 is not 200")
            self.received[:0] = head
            return super().answer()

    connected = First


class DecodesTheClientContext(Runtime):
    """From the base64 in which a caller sends it."""
    check = "client_context"

    def context(self, headers):
        context = super().context(headers)
        if headers["Lambda-Runtime-Client-Context"]:
            context.client_context = json.loads(base64.b64decode(headers["Lambda-Runtime-Client-Context"]))
        return context


class NeedsATrace(Runtime):
    check = "without_trace"

    def call(self, event, headers):
        os.environ["_X_AMZN_TRACE_ID"] = headers["Lambda-Runtime-Trace-Id"].strip()
        return super().call(event, headers)


class GivesUpWithinAnAnswer(Runtime):
    """Waits as long as it takes for the first byte, and hardly for the others."""
    check, also = "slow_answers", {"cut_event"}

    class Hasty(Connection):
        def _receive(self):
            is_another = is_scenario("another_lambda") or is_scenario("yet_another_lambda")
            if is_another and self.received and not select.select([self.sock], [], [], 0.01)[0]:
                sys.exit("the answer does not come")
            super()._receive()

    connected = Hasty


class IgnoresConnectionClose(Runtime):
    check = "closing_answers"

    class Kept(Connection):
        def answer(self):
            answer = super().answer()
            if self.sock is None:
                sys.exit("the connection is gone")
            return answer

    connected = Kept


# ---- connections that end --------------------------------------------------------------------------------------------

class WaitsForTheRest(Runtime):
    """Of an answer whose connection has ended."""
    check = "cut_event"

    class Patient(Connection):
        def _take(self, count):
            try:
                return super()._take(count)
            except ConnectionResetError:
                if self.received:
                    signal.pause()
                raise

    connected = Patient


class TakesWhatHasCome(Runtime):
    """Completes an event that is cut short."""
    check, outcome = "cut_event", "SHOULD"

    class Short(Connection):
        def _take(self, count):
            try:
                return super()._take(count)
            except ConnectionResetError:
                taken = bytes(self.received)
                self.received.clear()
                if not taken:
                    raise
                return taken

    connected = Short

    def read(self, payload):
        try:
            return super().read(payload)
        except ValueError:
            return super().read(payload + b'"}')


class WaitsOnADeadConnection(Runtime):
    check, also = "lost_poll", {"connection_end"}

    def next(self):
        self.connection.request("GET", self.next_path)
        try:
            return self.connection.answer()
        except ConnectionError:
            signal.pause()
            raise


class GivesUpAtAReset(Runtime):
    """Asks again if the connection of its Next ends, and ends itself if that is reset."""
    check, outcome = "lost_poll", "SHOULD"

    def next(self):
        self.connection.request("GET", self.next_path)
        try:
            self.connection.sock.recv(1, socket.MSG_PEEK)
        except ConnectionResetError:
            sys.exit("the connection was reset")
        return self.connection.answer()


class GivesUpAtAnEnd(Runtime):
    """Ends itself if the connection of its Next ends."""
    check, outcome = "lost_poll", "SHOULD"

    def next(self):
        self.connection.request("GET", self.next_path)
        try:
            if is_scenario("lost_poll") and not self.connection.sock.recv(1, socket.MSG_PEEK):
                sys.exit("the connection has ended")
        except ConnectionResetError:
            pass
        return self.connection.answer()


class NeverConnectsAgain(Runtime):
    """Counts on the connection that it has."""
    check, also = "connection_end", {"closing_answers"}
    opened = 0

    class Once(Connection):
        opened = False

        def connect(self):
            if self.sock is None and self.opened:
                sys.exit("the connection has ended")
            self.opened = True
            super().connect()

    connected = Once


class ReadsSizesInDecimal(Runtime):
    """Of chunks."""
    check = "chunked_answers"

    class InDecimal(Connection):
        def _chunks(self):
            parts = []
            while size := int(self._until(b"\r\n"), 10):
                parts.append(self._take(size))
                self._until(b"\r\n")
            self._until(b"\r\n")
            return b"".join(parts)

    connected = InDecimal


class KnowsStatusLines(Runtime):
    """Compares the whole line with those that the service writes if all is well."""
    check, outcome = "reason_phrase", "SHOULD"

    class ByLines(Connection):
        def _until(self, end):
            data = super()._until(end)
            line = data.split(b"\r\n")[0]
            if line.startswith(b"HTTP/1.1 20") and line not in (b"HTTP/1.1 200 OK", b"HTTP/1.1 202 Accepted"):
                sys.exit(f"another status line: {line.decode()}")
            return data

    connected = ByLines
