"""Followers of a running service's trace that come, stall and leave, for the chaos of tests/hours."""
import json
import socket
import time

HEAD = "GET /_local/trace?follow=1{} HTTP/1.1\r\nHost: 127.0.0.1\r\n\r\n"
LONGEST_LINE = 1 << 20


class Follower:
    """One connection to the trace, from a ticket on."""

    def __init__(self, port, query=""):
        self.connection = socket.create_connection(("127.0.0.1", port), timeout=30)
        self.connection.sendall(HEAD.format(query).encode())
        self.file = self.connection.makefile("rb")
        self.status = int((self.file.readline(LONGEST_LINE) or b"- 0").split()[1])
        while self.file.readline(LONGEST_LINE).strip():
            pass

    def tickets(self, seconds):
        """Those of the lines that come within this time, in their order. (A chunk of the body may have some lines, or a
        part of one.)"""
        end, rest, found = time.monotonic() + seconds, b"", []
        self.connection.settimeout(max(0.1, seconds))
        try:
            while time.monotonic() < end and (size := int(self.file.readline(LONGEST_LINE) or b"0", 16)):
                *lines, rest = (rest + self.file.read(size)).split(b"\n")
                self.file.readline(LONGEST_LINE)
                found += [json.loads(line)["ticket"] for line in lines]
        except OSError:  # (nothing more has come within that time)
            pass
        return found

    def leave(self):
        self.file.close()
        self.connection.close()


def come_and_go(port, chosen, goes_on, note):
    """Until it does not go on: some read, some stall, and each leaves; what comes is in order, without a gap."""
    while goes_on():
        query = chosen.choice(["", "&bodies=none", f"&from={chosen.randrange(1000)}"])
        try:
            one = Follower(port, query)
        except (OSError, IndexError, ValueError):
            note("followers that did not come")
            time.sleep(0.2)
            continue
        note(f"follower {one.status}")
        if one.status == 200:
            if chosen.random() < 0.5:
                time.sleep(chosen.uniform(0, 3))  # (it stalls; then it reads, or leaves)
            seen = one.tickets(chosen.uniform(0, 2)) if chosen.random() < 0.8 else []
            note("lines followed", len(seen))
            if any(two != before + 1 for before, two in zip(seen, seen[1:])):
                note("followers with a gap")
        one.leave()
        time.sleep(chosen.uniform(0, 0.3))
