"""Mistakes that both a runtime and an extension can make: classes to be put before Runtime or Extension."""
import os
import select
import signal
import socket
import sys

from connection import Connection

TOO_LONG = 6  # seconds, for an Init that may take two of its own


def temporary():
    """The folder for temporary files. (Importing `tempfile` takes longer than all else.)"""
    return os.environ.get("TMPDIR", "/tmp")


def everyones():
    """A folder of this machine, whichever environment asks."""
    return os.environ.get("EVERYONES_FOLDER", "/tmp")


class PollsTwice:
    """Asks on a second connection too, if nothing comes at once."""

    def next(self):
        older = Connection(self.address)
        older.request("GET", self.next_path, headers=self.headers())
        if select.select([older.sock], [], [], 0.5)[0]:
            self.connection.close()  # (what it does not ask on may end meanwhile)
            return older.answer()
        newer, first = super().next(), older.answer()
        return newer if first.status == 403 else first


class DiesWithItsConnection:
    check = "connection_end"

    def connection_ended(self):
        sys.exit(1)


def is_scenario(name):
    """Whether it is started for this scenario. (What takes too long by itself does so in one scenario: on a busy
    machine it would be too long in others too.)"""
    return os.environ["AWS_LAMBDA_FUNCTION_NAME"] == name


class LeavesAnAlarm:
    """That it sets for a while after an invocation, and that ends it while it waits."""
    check, settings = "next_without_timeout", {"idle-seconds": 3}

    def set_alarm(self):
        if is_scenario("idle_for_long"):
            signal.alarm(1)


class GivesNextUp:
    """Has a timeout of three seconds on all requests."""
    check, settings = "next_without_timeout", {"idle-seconds": 5}

    def begin(self):
        if is_scenario("idle_for_long"):
            self.connection.timeout = 3

    def ask(self, *arguments, **named):
        while True:
            try:
                return super().ask(*arguments, **named)
            except socket.timeout:
                pass
