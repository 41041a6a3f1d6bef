"""What a service does with its configuration and its clock, with Invokes that come too early, and with its log."""
import http.client
import json
import os
import shutil
import socket
import subprocess
import tempfile
import time
from typing import Dict, List, Tuple

from lambda_local.service import ask
from tests import ROOT
from tests.library.clients.kit import (INVOKE, NEXT, PORT, PROGRAM, Service, later, raw, replay_of, runtime_once,
                                       until)
from tests.library.counted import check


def left_of(headers):
    """How many milliseconds are left to a deadline, by the machine's time of day."""
    return int(headers["lambda-runtime-deadline-ms"]) - int(1000 * time.time())


def sleep_of_the_machine():
    """The time of day runs ahead of the monotonic clock, as after a machine has slept: what a runtime is given follows
    it once no deadline is running, and not before."""
    compiler = shutil.which("cc")
    if not compiler:
        return print("skip a machine that sleeps: there is no C compiler")
    with tempfile.TemporaryDirectory() as folder:
        library, ahead = os.path.join(folder, "day.so"), os.path.join(folder, "ahead")
        subprocess.run([compiler, "-shared", "-fPIC", "-o", library, os.path.join(ROOT, "tests", "library", "day.c"),
                        "-ldl"], check=True)

        def sleep(seconds):
            with open(ahead + ".new", "w") as file:
                file.write(str(seconds))
            os.replace(ahead + ".new", ahead)

        sleep(0)
        with Service([("f", 1, {"timeout": 3})], variables={"LD_PRELOAD": library, "DAY_AHEAD": ahead}) as service:
            before = later(ask, PORT + 1, "GET", NEXT)
            service.entries(1)
            first = later(ask, PORT, "POST", INVOKE % "f", b"1")
            _, headers, _ = before()
            sleep(3600)  # while the invocation runs
            time.sleep(0.3)
            path = f"/2018-06-01/runtime/invocation/{headers['lambda-runtime-aws-request-id']}/response"
            check("an invocation that runs while the clock is set forward does not time out",
                  (ask(PORT + 1, "POST", path, b"2")[0], first()[2]), (202, b"2"))
            entries = service.stats()["entries"]
            after = later(ask, PORT + 1, "GET", NEXT)
            check("the clock follows within moments, by a tick", service.entries(entries + 2), True)
            second = later(ask, PORT, "POST", INVOKE % "f", b"1")
            _, headers, _ = after()
            left = left_of(headers) - 3_600_000
            check("a deadline after an hour's sleep is three seconds ahead of the time of day",
                  1500 < left <= 3100, shown=left)
            path = f"/2018-06-01/runtime/invocation/{headers['lambda-runtime-aws-request-id']}/response"
            check("and is kept", (ask(PORT + 1, "POST", path, b"3")[0], second()[2]), (202, b"3"))
            check("the history of a service whose clock was set forward replays", *replay_of(service.history()))
            check("and the service settles", service.stop(), (202, 0, "admitted 2 throttled 0 failed 0\n"))


def unread_log():
    """A log that no one reads keeps no one waiting."""
    reading, writing = os.pipe()
    os.set_blocking(writing, False)
    try:
        while True:
            os.write(writing, b"x" * 4096)
    except BlockingIOError:
        pass
    os.set_blocking(writing, True)
    with tempfile.TemporaryDirectory() as folder:
        path = os.path.join(folder, "config.json")
        with open(path, "w") as file:
            json.dump({"account": "123456789012", "region": "us-east-2", "invokePort": PORT,
                       "functions": [{"name": "f", "ports": [PORT + 1]}]}, file)
        process = subprocess.Popen([PROGRAM, "serve", path], stdout=subprocess.PIPE, stderr=writing, text=True)
        assert process.stdout is not None

        def answers():
            try:
                return ask(PORT, "GET", "/_local/stats", timeout=2)[0] == 200
            except (OSError, http.client.HTTPException):
                return False
        try:
            check("a service whose log no one reads answers", until(answers), True)
            ask(PORT, "POST", "/_local/stop", timeout=2)
            check("and settles", (process.wait(10), process.stdout.read()), (0, "admitted 0 throttled 0 failed 0\n"))
        except (OSError, http.client.HTTPException, subprocess.TimeoutExpired) as fault:
            check("and settles", repr(fault), "it ends")
        finally:
            process.kill()
            process.wait()
            process.stdout.close()
            os.close(reading)
            os.close(writing)


def salt_and_room():
    with Service([("f", 1, {})], salt=0x123456789ABCDEF0, maxEntries=50) as service:
        setup = json.loads(service.history().splitlines()[1])
        check("a service tells its salt and its room", (setup["salt"], setup["maxEntries"]), (0x123456789ABCDEF0, 50))
        waiting = later(runtime_once, PORT + 1)
        service.entries(1)
        answer = ask(PORT, "POST", INVOKE % "f", b"1")
        check("identifiers have the salt", (answer[1]["x-amzn-requestid"], waiting()),
              ("12345678-9abc-8ef0-8001-000000000001",) * 2)
        service.stop()


def invoke(function="f"):
    """Status of an invocation, and after how many seconds it came."""
    start = time.monotonic()
    return ask(PORT, "POST", INVOKE % function, b"1")[0], time.monotonic() - start


def patience():
    """An Invoke that comes while its environment has answered and not asked again."""
    one: List[Tuple[str, int, Dict[str, int]]] = [("f", 1, {})]
    with Service(one) as service:
        def paused():
            for _ in range(10):
                runtime_once(PORT + 1)
                time.sleep(0.03)
        serving = later(paused)
        service.entries(1)
        check("a caller who is alone is never throttled by its runtime's pause", [invoke()[0] for _ in range(10)],
              [200] * 10)
        serving()
        check("nothing was throttled", service.stats()["throttled"], 0)
        status, seconds = invoke()
        check("a runtime that doesn't come back is waited for 100 ms", (status, 0.1 <= seconds < 2), (429, True))
        service.stop()
    with Service(one, patience=0) as service:
        serving = later(runtime_once, PORT + 1)
        service.entries(1)
        check("with no patience a call in the pause is throttled", (invoke()[0], serving() and invoke()[0]),
              (200, 429))
        service.stop()
    with Service([("f", 1, {"reserved": 1}), ("g", 1, {})], patience=2000) as service:
        serving = later(ask, PORT + 1, "GET", NEXT)
        service.entries(1)
        first = later(invoke)
        identifier = serving()[1]["lambda-runtime-aws-request-id"]
        status, seconds = invoke()
        check("a call whose environments are all at work is throttled at once", (status, seconds < 1), (429, True))
        ask(PORT + 1, "POST", f"/2018-06-01/runtime/invocation/{identifier}/response", b"1")
        first()
        held = later(invoke)
        gone = raw(PORT, b"POST " + (INVOKE % "f").encode() + b" HTTP/1.1\r\nHost: l\r\nContent-Length: 1\r\n\r\n2")
        time.sleep(0.2)
        gone.close()
        before = service.stats()["entries"]
        concurrency = "/2017-10-31/functions/f/concurrency"
        ask(PORT, "PUT", concurrency, b'{"ReservedConcurrentExecutions":0}')
        check("where the reservation falls to 0 a held call is throttled", (held()[0], before), (429, 4))
        check("a held call whose caller has gone is submitted too", service.entries(before + 3), True)
        status, seconds = invoke()
        check("a reservation of 0 throttles at once", (status, seconds < 1), (429, True))
        ask(PORT, "DELETE", concurrency)
        held = later(invoke)
        time.sleep(0.2)
        service.stop()
        status, seconds = held()
        check("a stop ends what is held", (status, seconds < 1.5), (500, True))


def faults():
    def run(*words, **variables):
        done = subprocess.run([PROGRAM, *words], capture_output=True, text=True, timeout=30,
                              env={**os.environ, **variables})
        return done.returncode, done.stdout, done.stderr
    with tempfile.TemporaryDirectory() as folder:
        def config(text):
            path = os.path.join(folder, "config.json")
            with open(path, "w") as file:
                file.write(text)
            return path
        good = {"account": "123456789012", "region": "us-east-2", "invokePort": PORT,
                "functions": [{"name": "f", "ports": [PORT + 1]}]}
        check("arguments that ask for nothing", run("serve"), (2, "", "usage: lambda_local [replay | serve PATH]\n"))
        for patience in ("", "x", "-1", "2001", "1 "):
            usage = 2, "", "usage: lambda_local [replay | serve PATH]\n"
            check(f"a patience of {patience!r}",
                  run("serve", config(json.dumps(good)), LAMBDA_LOCAL_PATIENCE_MS=patience), usage)
        for hosts in ("a b", ",", "a,", "a, b", "a:80", "h\u00e4"):
            usage = 2, "", "usage: lambda_local [replay | serve PATH]\n"
            check(f"hosts of {hosts!r}", run("serve", config(json.dumps(good)), LAMBDA_LOCAL_HOSTS=hosts), usage)
        for ports in ("x", "0", "65536", "09100", "+9100", "9100,", ",9100", "9100, 9101", "9100,9100", "9100;9101",
                      ",".join(str(port) for port in range(9000, 9065))):
            check(f"handled ports of {ports[:12]!r}",
                  run("serve", config(json.dumps(good)), LAMBDA_LOCAL_HANDLED=ports), usage)
        for port in (PORT, PORT + 1):
            check("a handled port that is the configuration's",
                  run("serve", config(json.dumps(good)), LAMBDA_LOCAL_HANDLED=f"9100,{port}"),
                  (2, "", "LAMBDA_LOCAL_HANDLED: DuplicatePort\n"))
        check("a configuration that is not there", run("serve", os.path.join(folder, "none")),
              (4, "", "input: failed\n"))
        check("a configuration that is no JSON", run("serve", config("{")), (2, "", "configuration: NotJson\n"))
        check("a configuration with a fault", run("serve", config(json.dumps({**good, "region": "US"}))),
              (2, "", "configuration: BadRegion\n"))
        check("too few entries", run("serve", config(json.dumps({**good, "maxEntries": 1}))),
              (2, "", "configuration: EntriesOutOfRange\n"))
        taken = socket.socket()
        taken.setsockopt(socket.SOL_SOCKET, socket.SO_REUSEADDR, 1)
        taken.bind(("127.0.0.1", PORT))
        taken.listen()
        check("a port that is taken", run("serve", config(json.dumps(good))), (4, "", "network: failed\n"))
        taken.close()
