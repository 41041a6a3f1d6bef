#!/usr/bin/env python3
"""Sound extensions that subscribe to telemetry in each way there is, and take what comes until they end, a second after
their SHUTDOWN.

usage: subscribers.py SHAPE"""
import json
import os
import socket
import sys
import threading
import time

sys.path.insert(0, os.path.join(os.path.dirname(os.path.dirname(os.path.realpath(__file__))), "wrong"))
from sound_extension import Extension  # noqa: E402


class TakesItToTheEnd(Extension):
    """Over HTTP, in the schema of the Telemetry API."""
    leaves_open = {"takes_logs"}  # what does not apply to it

    def shut_down(self, reason):
        time.sleep(1)
        super().shut_down(reason)


class TakesLogs(TakesItToTheEnd):
    """In that of the Logs API."""
    telemetry_path, schema, leaves_open = "/2020-08-15/logs", "2021-03-18", set()


class TakesLines(TakesItToTheEnd):
    """Over TCP."""
    leaves_open = {"takes_logs", "takes_empty_batch"}

    def subscribe(self):
        listener = socket.create_server(("127.0.0.1", 0))
        threading.Thread(target=self.receive, args=(listener, ), daemon=True).start()
        self.subscribed(self.ask("PUT", self.telemetry_path, {
            "schemaVersion": self.schema, "types": ["platform", "function"],
            "destination": {"protocol": "TCP", "port": listener.getsockname()[1]}}))

    def receive(self, listener):
        while True:
            with listener.accept()[0] as peer, peer.makefile("rb") as came:
                for line in came:
                    json.loads(line)["record"]


class TakesLinesOfLogs(TakesLines):
    telemetry_path, schema, leaves_open = "/2020-08-15/logs", "2020-08-15", {"takes_empty_batch"}


SHAPES = {shape.__name__: shape for shape in (TakesItToTheEnd, TakesLogs, TakesLines, TakesLinesOfLogs)}

if __name__ == "__main__":
    SHAPES[sys.argv[1]]().run()
