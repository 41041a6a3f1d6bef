#!/usr/bin/env python3
"""An extension that does all that lambda_local conformance checks, in methods that the wrong ones override one by
one."""
import json
import os
import socket
import sys
import threading
import time

from connection import Client

PATH = "/2020-01-01/extension/"
NAME = "sound"


class Failed(Exception):
    """What CONFORMANCE_FAILS asks for."""


class Extension(Client):
    next_path, telemetry_path, schema = PATH + "event/next", "/2022-07-01/telemetry", "2022-12-13"

    def __init__(self):
        super().__init__()
        self.identifier, self.fails_at = None, os.environ.get("CONFORMANCE_FAILS")

    def run(self):
        self.begin()
        self.register()
        if not self.identifier:
            self.registration_refused()
        try:
            self.initialize()
        except Failed as fault:
            self.report("init/error", fault)
            self.end(1)
        try:
            while True:
                self.one_event()
        except Failed as fault:
            self.report("exit/error", fault)
            self.end(1)

    def begin(self):
        """Before anything else."""

    def name(self):
        return NAME

    def events(self):
        return ["INVOKE", "SHUTDOWN"]

    def register(self):
        answer = self.ask("POST", PATH + "register", {"events": self.events()}, {"Lambda-Extension-Name": self.name()})
        self.identifier = answer.headers["Lambda-Extension-Identifier"]

    def registration_refused(self):
        self.end(1)

    def initialize(self):
        self.subscribe()
        if self.fails_at == "init":
            raise Failed("it fails in its Init as it is asked to")

    def subscribe(self):
        """To telemetry, if there is any."""
        listener = socket.create_server(("127.0.0.1", 0))
        threading.Thread(target=self.receive, args=(listener, ), daemon=True).start()
        address = f"http://sandbox.localdomain:{listener.getsockname()[1]}"
        wanted = {"schemaVersion": self.schema, "types": ["platform"],
                  "destination": {"protocol": "HTTP", "URI": address}}
        self.subscribed(self.ask("PUT", self.telemetry_path, wanted))

    def subscribed(self, answer):
        pass

    def receive(self, listener):
        """One batch after the other, each on a connection of its own."""
        while True:
            with listener.accept()[0] as peer, peer.makefile("rb") as came:
                length = 0
                for line in iter(came.readline, b"\r\n"):
                    if line.lower().startswith(b"content-length:"):
                        length = int(line.split(b":")[1])
                peer.sendall(self.taken(self.batch_of(came.read(length))))

    def batch_of(self, body):
        return json.loads(body)

    def taken(self, batch):
        """What a batch is answered."""
        return b"HTTP/1.1 200 OK\r\nContent-Length: 0\r\nConnection: close\r\n\r\n"

    def one_event(self):
        answer = self.next()
        if answer.status == 500:
            return self.at_500()
        if answer.status != 200:
            time.sleep(0.1)
        event = json.loads(answer.body) if answer.status == 200 else {}
        kind = event.get("eventType")
        if kind == "INVOKE":
            return self.invoked(event)
        if kind == "SHUTDOWN":
            return self.shut_down(event["shutdownReason"])
        return self.unknown(event)

    def next(self):
        return self.ask("GET", self.next_path)

    def at_500(self):
        self.end(1)

    def invoked(self, event):
        if self.fails_at == "exit":
            raise Failed("it fails at its first event as it is asked to")

    def shut_down(self, reason):
        self.end(0)

    def unknown(self, event):
        pass

    def end(self, status):
        sys.exit(status)

    def report(self, path, fault):
        body = {"errorMessage": str(fault), "errorType": "Extension.Failed", "stackTrace": []}
        self.ask("POST", PATH + path, body, self.report_headers())

    def report_headers(self):
        return {"Lambda-Extension-Function-Error-Type": "Extension.Failed"}

    def headers(self):
        return {"Lambda-Extension-Identifier": self.identifier} if self.identifier else {}

    def ask(self, method, path, body=None, headers=None):
        return super().ask(method, path, body and json.dumps(body).encode(), headers)


if __name__ == "__main__":
    Extension().run()
