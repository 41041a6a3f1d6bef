"""Many connections, few descriptors, and connections that are kept, idle or paced."""
import http.client
import json
import os
import resource
import socket
import subprocess
import tempfile
import threading
import time

from lambda_local.service import ask
from tests.library.clients.kit import INVOKE, NEXT, PORT, PROGRAM, Service, later, raw, replay_of, until
from tests.library.counted import check


def idle_connections():
    with Service([("f", 1, {})]) as service:
        connections = [raw(PORT, b"GET /_local/stats HTTP/1.1\r\nHost: h\r\n\r\n") for _ in range(20)]
        check("twenty connections are answered", [connection.recv(12) for connection in connections],
              [b"HTTP/1.1 200"] * 20)
        begun = time.time()
        status, ended, _output = service.stop()
        # (the half second is for exchanges that have begun; an idle connection is ended before)
        check("a stop with idle connections alone takes no half second", (status, ended, time.time() - begun < 0.45),
              (202, 0, True))


def many_calls():
    with Service([("f", 8, {"timeout": 30})]) as service:
        stopping = threading.Event()

        def serve(port):
            connection = http.client.HTTPConnection("127.0.0.1", port, timeout=60)
            while not stopping.is_set():
                connection.request("GET", NEXT)
                answer = connection.getresponse()
                payload = answer.read()
                if answer.status != 200:
                    return
                connection.request("POST", "/2018-06-01/runtime/invocation/"
                                           f"{answer.getheader('Lambda-Runtime-Aws-Request-Id')}/response", payload)
                connection.getresponse().read()

        def invoke(number):
            connection, good = http.client.HTTPConnection("127.0.0.1", PORT, timeout=60), 0
            for turn in range(200):
                while True:
                    connection.request("POST", INVOKE % "f", str(number * 1000 + turn))
                    answer = connection.getresponse()
                    payload = answer.read()
                    if answer.status != 429:
                        break
                    time.sleep(0.001)
                good += answer.status == 200 and payload == str(number * 1000 + turn).encode()
            return good

        runtimes = [later(serve, PORT + 1 + environment) for environment in range(8)]
        callers = [later(invoke, number) for number in range(8)]
        check("eight callers get their own 1,600 answers from eight runtimes",
              sum(caller() or 0 for caller in callers), 1600)
        stopping.set()
        history = service.history()
        check("the history of all that, streamed from blocks, replays to its own answers", *replay_of(history))
        check("and is that long", history.count("\n") > 2 * 1024, True)
        status, ended, output = service.stop()
        check("the service settles after them", (status, ended, output.startswith("admitted 1600 throttled ")),
              (202, 0, True))
        for runtime in runtimes:
            runtime()


def threads_that_are_kept():
    """A connection's thread serves the next ones, and ends by itself if none comes; then another is started."""
    with Service([("f", 1, {})]) as service:
        def threads():
            return len(os.listdir(f"/proc/{service.process.pid}/task"))

        before = threads()
        for _ in range(200):
            ask(PORT, "GET", "/_local/stats")
        check("few threads serve 200 connections, one after the other", before <= threads() <= before + 8, True)
        together = [socket.create_connection(("127.0.0.1", PORT)) for _ in range(30)]
        check("each of 30 connections at once has a thread", until(lambda: threads() >= 30), True)
        for connection in together:
            connection.close()
        check("threads for which no connection comes end by themselves", until(lambda: threads() <= before, 15), True)
        check("and others serve then", ask(PORT, "GET", "/_local/stats")[0], 200)
        check("a service whose threads wait ends at once, and settles", service.stop(),
              (202, 0, "admitted 0 throttled 0 failed 0\n"))


def few_descriptors():
    def has_ended(connection):
        connection.settimeout(0.2)
        try:
            return connection.recv(1) == b""
        except OSError as error:
            return not isinstance(error, TimeoutError)

    with Service([("f", 1, {})], descriptors=48) as service:
        idle = [socket.create_connection(("127.0.0.1", PORT)) for _ in range(20)]
        ended = sum(map(has_ended, idle))
        check("where descriptors run out newcomers are closed", 0 < ended < 20, True)
        for connection in idle:
            connection.close()

        def is_served():
            try:
                return ask(PORT, "GET", "/_local/stats")[0] == 200
            except (OSError, http.client.HTTPException):
                return False

        check("and those after them are served", until(is_served), True)
        check("the service settles after want of descriptors", service.stop(),
              (202, 0, "admitted 0 throttled 0 failed 0\n"))


def too_few_descriptors():
    """A service that could serve no one does not start, and says why."""
    def started(descriptors, ports):
        with tempfile.TemporaryDirectory() as folder:
            path = os.path.join(folder, "config.json")
            with open(path, "w") as file:
                json.dump({"account": "123456789012", "region": "us-east-2", "invokePort": PORT,
                           "functions": [{"name": "f", "ports": list(range(PORT + 1, PORT + 1 + ports))}]}, file)
            done = subprocess.run(
                [PROGRAM, "serve", path], capture_output=True, text=True, timeout=20,
                preexec_fn=lambda: resource.setrlimit(resource.RLIMIT_NOFILE, (descriptors, descriptors)))
            return done.returncode, done.stderr

    told = (4, "network: too few descriptors (ulimit -n)\n")
    check("with too few descriptors for its ports a service says so", started(40, 60), told)
    check("and with too few for one connection", started(9, 1), told)


def refused_polls():
    """A poll that is refused is followed by a pause, so that a poller which loops on it fills no journal."""
    with Service([("f", 1, {"timeout": 30})]) as service:
        caller = later(ask, PORT, "POST", INVOKE % "f", b"1")
        connection = http.client.HTTPConnection("127.0.0.1", PORT + 1, timeout=20)
        connection.request("GET", NEXT)
        delivered = connection.getresponse()
        delivered.read()
        begun, answers = time.monotonic(), []
        while time.monotonic() - begun < 2:
            connection.request("GET", NEXT)
            answer = connection.getresponse()
            answer.read()
            answers.append(answer.status)
        check("a poll that is refused again and again is answered a hundred times a second at most",
              (set(answers), 2 <= len(answers) <= 210), ({403}, True))
        connection.request("POST", "/2018-06-01/runtime/invocation/"
                                   f"{delivered.getheader('Lambda-Runtime-Aws-Request-Id')}/response", b"2")
        check("and its connection serves a response then", (connection.getresponse().status, caller()[2]), (202, b"2"))
        service.stop()


def leaked_connections():
    """Callers that never close their connections keep no one out."""
    most = resource.getrlimit(resource.RLIMIT_NOFILE)[1]
    resource.setrlimit(resource.RLIMIT_NOFILE, (most, most))
    with Service([("f", 1, {})]) as service:
        leaked = []
        for _ in range(1040):
            leaked.append(raw(PORT, b"GET /_local/stats HTTP/1.1\r\nHost: h\r\n\r\n"))
            leaked[-1].recv(12)
        check("a caller is answered beside 1,040 connections that ask nothing",
              ask(PORT, "GET", "/_local/stats")[0], 200)
        check("and an environment's port", ask(PORT + 1, "GET", "/")[0], 404)
        check("and a stop", service.stop()[:2], (202, 0))
        for connection in leaked:
            connection.close()
