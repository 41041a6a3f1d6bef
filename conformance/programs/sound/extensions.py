#!/usr/bin/env python3
"""Extensions in the shapes of those that there are: what they send is what those send, and in the same order. A class
is named after what it does otherwise than most.

usage: extensions.py SHAPE"""
import http.client
import json
import os
import signal
import socket
import subprocess
import sys
import threading
import time

sys.path.insert(0, os.path.join(os.path.dirname(os.path.dirname(os.path.realpath(__file__))), "wrong"))
from clients import AbsoluteForm, ByteByByte, HeadApart, Http10, NoSpaces  # noqa: E402
from connection import Answer, Headers  # noqa: E402
from sound_extension import PATH, Extension  # noqa: E402


class Library(Extension):
    """By http.client, a connection for each request."""

    def ask(self, method, path, body=None, headers=None):
        connection = http.client.HTTPConnection(self.address)
        connection.request(method, path, body and json.dumps(body), {**self.headers(), **(headers or {})})
        answer, values = connection.getresponse(), Headers()
        for name, value in answer.getheaders():
            values[name] = value
        body = answer.read()
        connection.close()
        return Answer(answer.status, values, body)


class Telemetry(Extension):
    """Listens for telemetry in a thread, subscribes to all of it, and flushes at its end."""

    def initialize(self):
        self.listener = socket.create_server(("127.0.0.1", 0))
        threading.Thread(target=self.listen, daemon=True).start()
        super().initialize()

    def subscribe(self):
        self.ask("PUT", "/2022-07-01/telemetry", {
            "schemaVersion": "2022-12-13", "types": ["platform", "function", "extension"],
            "buffering": {"timeoutMs": 1000, "maxBytes": 262144, "maxItems": 1000},
            "destination": {"protocol": "HTTP", "URI": "http://sandbox.localdomain:4243/events"}})

    def listen(self):
        while True:
            self.listener.accept()[0].close()

    def shut_down(self, reason):
        time.sleep(0.3)
        if reason in ("SPINDOWN", "TIMEOUT", "FAILURE"):  # (as the page writes them)
            super().shut_down(reason)


class WaitsForTheEnd(Extension):
    """As collectors do: it asks for the next event only once it has been sent the end of the invocation."""

    def begin(self):
        self.ended, self.taking = set(), threading.Condition()

    def taken(self, batch):
        with self.taking:
            self.ended.update(event["record"]["requestId"] for event in batch
                              if event["type"] == "platform.runtimeDone")
            self.taking.notify_all()
        return super().taken(batch)

    def subscribed(self, answer):
        self.takes = answer.status == 200

    def invoked(self, event):
        super().invoked(event)
        with self.taking:
            self.taking.wait_for(lambda: event["requestId"] in self.ended or not self.takes)
            self.ended.discard(event["requestId"])


class LogsApi(Extension):
    """The older API."""

    def subscribe(self):
        self.ask("PUT", "/2020-08-15/logs", {"types": ["platform", "function"], "destination": {
            "protocol": "TCP", "port": 8080}})


class AsksForTheAccount(Extension):
    def register(self):
        answer = self.ask("POST", PATH + "register", {"events": self.events()}, {
            "Lambda-Extension-Name": self.name(), "Lambda-Extension-Accept-Feature": "accountId",
            "Content-Type": "application/json"})
        self.identifier = answer.headers["Lambda-Extension-Identifier"]

    def shut_down(self, reason):
        if reason.lower() in ("spindown", "timeout", "failure"):
            super().shut_down(reason)


class SaysThatItIsDone(Extension):
    """Asks once more after its SHUTDOWN, and ends when it is answered, or soon."""

    def shut_down(self, reason):
        signal.signal(signal.SIGALRM, lambda *_: os._exit(0))
        signal.setitimer(signal.ITIMER_REAL, 0.5)
        self.next()
        super().shut_down(reason)


class EndsAtSigterm(Extension):
    """By a handler of its own."""

    def begin(self):
        signal.signal(signal.SIGTERM, lambda *_: sys.exit(0))


class WorksInAThread(Extension):
    """Takes events in one thread, and does its work in another."""

    def begin(self):
        self.work = []

    def invoked(self, event):
        super().invoked(event)
        thread = threading.Thread(target=self.work.append, args=(event["requestId"],))
        thread.start()
        thread.join()
        del self.work[:-5]


class CollectsAtItsLimit(Extension):
    """Leaves garbage that is collected when its heap is full, as large as the machine's memory lets it be, or as
    JAVA_TOOL_OPTIONS says."""

    def begin(self):
        said = os.environ.get("JAVA_TOOL_OPTIONS", "").rpartition("-XX:MaxRAM=")[2]
        megabytes = int(said.rstrip("m") or 24_000)
        self.heap, self.limit = [], megabytes * 1_000_000 // 64

    def invoked(self, event):
        super().invoked(event)
        self.heap.append(os.urandom(16_000))
        if 16_000 * len(self.heap) > self.limit:
            self.heap.clear()


class KnowsNoOptions(Extension):
    """In a language whose version does not start with options that it does not know."""

    def begin(self):
        if "JAVA_TOOL_OPTIONS" in os.environ:
            sys.exit("Unrecognized VM option")


class Supervised(Extension):
    """A script that starts the one that works, and ends as it has ended."""

    def run(self):
        if len(sys.argv) > 2:
            return super().run()
        return sys.exit(subprocess.run([sys.executable, "-S", *sys.argv, "works"]).returncode)


class RegistersUntilItMay(Extension):
    def register(self):
        super().register()
        tries = 0
        while not self.identifier and tries < 3:
            time.sleep(0.2)
            super().register()
            tries += 1


class GoesOnWithoutAnAnswer(Extension):
    """Asks again if its connection ends while it waits, as often as that is so."""

    def next(self):
        while True:
            try:
                return super().next()
            except ConnectionError:
                time.sleep(0.05)


class WritesHeadAndBodyApart(Extension):
    connected = HeadApart.connected


class WritesByteByByte(Extension):
    connected = ByteByByte.connected


class WritesNoSpaces(Extension):
    connected = NoSpaces.connected


class WritesAbsoluteForms(Extension):
    connected = AbsoluteForm.connected


class SpeaksHttp10(Extension):
    connected = Http10.connected


SHAPES = {name: shape for name, shape in list(globals().items())
          if isinstance(shape, type) and issubclass(shape, Extension) and shape is not Extension}

if __name__ == "__main__":
    SHAPES[sys.argv[1]]().run()
