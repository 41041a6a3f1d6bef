"""What a client still sends after its answer: it is read and thrown away, within bounds, so that the answer arrives."""
import http.client
import json
import os
import resource
import shutil
import subprocess
import tempfile
import threading
import time
from typing import Any, List

from lambda_local.service import ask
from tests.library.clients.kit import INVOKE, PORT, PROGRAM, Service, later, raw, until
from tests.library.counted import check

STOP = "/_local/stop"
LONG = 20_000_000  # bytes: far more than a request may have, and than a socket holds


def uploaded(method, path, size, **headers):
    """The status and whether the connection ends, for an ordinary client with a body of this size."""
    connection = http.client.HTTPConnection("127.0.0.1", PORT, timeout=20)
    try:
        connection.request(method, path, b"x" * size, headers)
        answer = connection.getresponse()
        answer.read()
        return answer.status, answer.getheader("connection")
    except OSError as fault:
        return repr(fault), None
    finally:
        connection.close()


def stops_with_a_body():
    """A stop with a body gets its answer, however long the body is."""
    for size in (5_000_000, 7_000_000, LONG, LONG):
        with Service([("f", 1, {})]) as service:
            begun = time.time()
            answer = uploaded("POST", STOP, size)
            ended, _ = service.process.communicate(timeout=20)
            check(f"a stop with a body of {size} bytes is answered, and the service ends soon",
                  (answer[0], service.process.returncode, ended, time.time() - begun < 5),
                  (202, 0, "admitted 0 throttled 0 failed 0\n", True))


def answers_before_a_body():
    """Each answer that is given before its body has come arrives: while the service runs, and while it ends."""
    with Service([("f", 1, {})]) as service:
        check("a body that is too long gets its answer", uploaded("POST", INVOKE % "f", LONG), (413, "close"))
        check("and a request that is refused by its head",
              uploaded("POST", INVOKE % "f", LONG, Origin="http://example.com"), (403, "close"))
        uploads, is_stopping = [half_sent() for _ in range(4)], threading.Event()
        ends = [later(continued, upload, is_stopping) for upload in uploads]
        is_stopping.set()
        check("a stop that comes while four send the rest of theirs", service.stop()[:2], (202, 0))
        check("cuts none of them off", [end() for end in ends], [True] * 4)


def half_sent(sent=b""):
    """A connection whose request was answered by its head, of whose long body only this much was sent."""
    connection = raw(PORT, b"POST " + (INVOKE % "f").encode() + b" HTTP/1.1\r\nHost: h\r\nContent-Length: %d\r\n\r\n"
                     % LONG + sent)
    assert connection.recv(12) == b"HTTP/1.1 413", "no answer"
    return connection


def continued(connection, begins):
    """Sends the rest of the body once it may begin, as a client does that reads only then; gives whether it could."""
    begins.wait()
    try:
        connection.sendall(b"x" * LONG)
        return b"Payload exceeds" in connection.recv(65536)
    except OSError:
        return False
    finally:
        connection.close()


def trickled(connection, is_over):
    """Sends a byte now and then until the peer has gone; gives whether it has."""
    while not is_over.is_set():
        try:
            connection.sendall(b"x")
        except OSError:
            return True
        time.sleep(0.05)
    return False


def peers_that_do_not_end():
    """A stop waits neither for a peer that sends no more, nor for ever for one that does."""
    with Service([("f", 1, {})]) as service:
        silent = half_sent()
        begun = time.time()
        check("a stop beside an answered peer that sends nothing", service.stop()[:2], (202, 0))
        check("takes less than a second", time.time() - begun < 1.2, True)
        silent.close()
    with Service([("f", 1, {})]) as service:
        is_over = threading.Event()
        trickling = later(trickled, half_sent(), is_over)
        begun = time.time()
        check("a stop beside one that sends on and on", service.stop()[:2], (202, 0))
        check("takes two seconds", 1.5 < time.time() - begun < 4, True)
        check("and its connection ends then", trickling(), True)
        is_over.set()


def places_of_those_that_linger():
    """A connection that lingers makes room for a newcomer, as an idle one does."""
    most = resource.getrlimit(resource.RLIMIT_NOFILE)[1]
    resource.setrlimit(resource.RLIMIT_NOFILE, (most, most))
    with Service([("f", 1, {})]) as service:
        lingering: List[Any] = []
        is_over = threading.Event()

        def trickle():  # (each would be closed after two seconds of silence)
            while not is_over.is_set():
                for connection in list(lingering):
                    try:
                        connection.send(b"x")
                    except OSError:
                        pass
                time.sleep(1)

        ends = later(trickle)
        for _ in range(1024):
            lingering.append(half_sent())
        served = [ask(PORT, "GET", "/_local/stats")[0] for _ in range(20)]
        check("callers are answered beside 1,024 connections that linger", set(served), {200})
        is_over.set()
        ends()
        for connection in lingering:
            connection.close()
        check("and a stop", service.stop()[:2], (202, 0))


def too_few_threads():
    """A service that could serve no one for want of threads does not start, and says why."""
    other = 54_321  # a user whose processes are counted (the superuser's are not), and who has none

    def as_other(threads):
        if os.getuid() == 0:
            os.setresuid(other, other, other)
        resource.setrlimit(resource.RLIMIT_NPROC, (threads, threads))

    def started(threads, path, program):
        process = subprocess.Popen(
            [program, "serve", path], stderr=subprocess.PIPE, stdout=subprocess.PIPE, text=True,
            preexec_fn=lambda: as_other(threads))
        try:
            until(lambda: process.poll() is not None or is_stopped())
            _, told = process.communicate(timeout=20)
            return process.returncode, told.splitlines()[0]
        finally:
            process.kill()

    def is_stopped():
        try:
            return ask(PORT, "POST", STOP)[0] == 202
        except (OSError, http.client.HTTPException):
            return False

    with tempfile.TemporaryDirectory() as folder:
        os.chmod(folder, 0o755)
        path, program = os.path.join(folder, "config.json"), os.path.join(folder, "program")
        shutil.copy(PROGRAM, program)
        os.chmod(program, 0o755)
        with open(path, "w") as file:
            json.dump({"account": "123456789012", "region": "us-east-2", "invokePort": PORT,
                       "functions": [{"name": "f", "ports": [PORT + 1]}]}, file)
        for threads in (1, 2, 3) if os.getuid() == 0 else (1,):
            check(f"with {threads} threads a service says that there are too few", started(threads, path, program),
                  (4, "too few threads (ulimit -u)"))
        if os.getuid() == 0:
            check("with its own four it serves", started(4, path, program)[0], 0)
