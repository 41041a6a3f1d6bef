"""What a refused request costs: memory, and the CPU of the calls that come after it."""
import os
import socket
from typing import Any

from tests.library.clients.kit import INVOKE, PORT, Service, later
from tests.library.counted import check

HEADS, PEERS = 1_200, 200
CALLS, TRIES = 10_000, 5
# In kB: what 1,200 declared bodies of 7 MB may add to the peak, and in shares: what a refusal may add to a call's CPU
# (3%, with room for a machine that does other work; a service that is slower for good takes 1.5 to 2 times as much).
MOST_MEMORY, MOST_CPU = 8_192, 1.15


def peak(process):
    """The peak of its resident memory, in kB, but for the stacks and buffers of connections, which it had before."""
    with open(f"/proc/{process}/status", encoding="ascii") as file:
        return next(int(line.split()[1]) for line in file if line.startswith("VmHWM"))


def cpu(process):
    with open(f"/proc/{process}/stat", encoding="ascii") as file:
        return sum(map(int, file.read().rsplit(")", 1)[1].split()[11:13])) / os.sysconf("SC_CLK_TCK")


def heads(connections, rounds, length, status):
    """Sends heads that declare a body of this length, none of which follows; gives how many had this status."""
    head = b"POST /nothing HTTP/1.1\r\nHost: localhost\r\nContent-Length: %d\r\n\r\n" % length
    right = 0
    for _ in range(rounds):
        for at, connection in enumerate(connections):
            connection.sendall(head)
            right += connection.recv(4096)[9:12] == status
            if length:  # (the body stays unread, so the connection ends)
                connection.close()
                connections[at] = socket.create_connection(("127.0.0.1", PORT))
    return right


def declared_bodies():
    """A declared body that is too long takes no memory: it is refused by its head."""
    with Service([("f", 1, {"reserved": 0})]) as service:
        connections = [socket.create_connection(("127.0.0.1", PORT)) for _ in range(PEERS)]
        heads(connections, 1, 0, b"404")
        before = peak(service.process.pid)
        parts = [later(heads, connections[at::8], HEADS // PEERS, 7_000_000, b"404") for at in range(8)]
        check(f"{HEADS} requests with a long body are refused by their heads", sum(part() for part in parts), HEADS)
        grown = peak(service.process.pid) - before
        check("and memory grows by at most 8 MB", grown <= MOST_MEMORY, shown=f"({grown} kB)")
        for connection in connections:
            connection.close()


def load():
    """Makes calls that are throttled, by one connection that stays open."""
    call = f"POST {INVOKE % 'f'} HTTP/1.1\r\nHost: localhost\r\nContent-Length: 2\r\n\r\n{{}}".encode()
    with socket.create_connection(("127.0.0.1", PORT)) as connection:
        for _ in range(CALLS):
            connection.sendall(call)
            connection.recv(4096)


def cost(process):
    """The CPU seconds of two loads at once, the least of three."""
    def once():
        before, loads = cpu(process), [later(load) for _ in range(2)]
        for each in loads:
            each()
        return cpu(process) - before
    return min(once() for _ in range(3))


def refused(port, line, *fields):
    with socket.create_connection(("127.0.0.1", port)) as connection:
        connection.sendall("\r\n".join([f"{line} HTTP/1.1", "Host: localhost", *fields, "", ""]).encode())
        return connection.recv(12).decode()


def later_calls():
    """A request that is refused changes nothing: each call after it takes what it took before."""
    fields: Any
    for name, port, line, fields, status in (
            ("a stop that a page sends", 0, "POST /_local/stop", ["Origin: http://example.com"], "403"),
            ("a stop by another method", 0, "GET /_local/stop", [], "405"),
            ("a stop at an environment's port", 1, "POST /_local/stop", [], "404"),
            ("a path that there is not", 0, "GET /_local/stops", [], "404")):
        with Service([("f", 1, {"reserved": 0})]) as service:
            cost(service.process.pid)
            before = cost(service.process.pid)
            check(f"{name} is refused", refused(PORT + port, line, *fields), f"HTTP/1.1 {status}")
            after = cost(service.process.pid)
            for _ in range(TRIES):  # (what else the machine does only adds to it)
                if after > before * MOST_CPU:
                    after = min(after, cost(service.process.pid))
            check("and calls cost what they did", after <= before * MOST_CPU, shown=f"({after / before:.2f} times)")
