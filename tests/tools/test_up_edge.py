"""Checks that lambda_local up leaves nothing behind when one of its processes is killed, and goes on without free
ports, memory or descriptors. The program is LAMBDA_LOCAL_PROGRAM, else ./lambda_local."""
import asyncio
import errno
import http.client
import json
import os
import resource
import signal
import threading
import time
import urllib.request
from typing import List, Union
from unittest import mock

from lambda_local.life import Throttled
from lambda_local.service import Fault, Service, ask
from lambda_local.up.surroundings import Clients
from lambda_local.up.watch import Watch
from tests.library.cases import Case
from tests.library.fake_trace import HEAD, LAST, Fake, chunks, line
from tests.library.pipe_log import pipe_log
from tests.library.ports import free_range
from tests.library.up_kit import RUNTIME, Up, children, command_of, lives, until

# A module that starts processes in sessions of their own: one below it, and one whose parent has ended.
LEAVING = """import os, subprocess, time
subprocess.Popen(["sleep", "991"], start_new_session=True)
subprocess.run(["sh", "-c", "setsid sleep 992 >/dev/null 2>&1 & setsid sleep 993 >/dev/null 2>&1 & sleep 0.2"])
def run(event):
    if event.get("do") == "hang":
        subprocess.Popen(["sleep", "994"], start_new_session=True, env={})
        time.sleep(600)
    if event.get("do") == "crash": os._exit(7)
    return os.getpid()
"""


def with_word(word):
    """The processes that have this word in their command line."""
    found = []
    for pid in filter(str.isdigit, os.listdir("/proc")):
        try:
            with open(f"/proc/{pid}/cmdline") as file:
                if word in file.read().split("\0") and lives(pid):
                    found.append(int(pid))
        except OSError:
            pass
    return found


def value_of(pid, name):
    """A variable of a process."""
    with open(f"/proc/{pid}/environ") as file:
        return dict(part.split("=", 1) for part in file.read().split("\0") if "=" in part).get(name)


# A command that starts a process in a session of its own, and one whose parent has ended.
COMMAND = ["--", "sh", "-c", "setsid sleep 995 >/dev/null 2>&1 & (setsid sleep 996 >/dev/null 2>&1 &); "
           "echo begun >&2; exec sleep 997"]


def address_space(pid):
    with open(f"/proc/{pid}/statm") as file:
        return resource.getpagesize() * int(file.read().split()[0])


def kill(pid):
    try:
        os.kill(pid, signal.SIGKILL)
    except ProcessLookupError:
        pass


def end_by(up, pid):
    """The status and what is left of lambda_local up, a few seconds after a process was killed."""
    kill(pid)
    until(lambda: up.process.poll() is not None, 30)
    until(lambda: not any(map(up.is_here, filter(str.isdigit, os.listdir("/proc")))), 10)
    return up.end(None)


class Watching:
    """A watch, in a loop of its own in a thread."""

    def __init__(self, service, log):
        self.loop = asyncio.new_event_loop()
        self.thread = threading.Thread(target=self.loop.run_forever, daemon=True)
        self.thread.start()
        self.watch = Watch(service, log, self.loop)

    def begin(self):
        self.task = asyncio.run_coroutine_threadsafe(self.watch.follow(), self.loop)

    def is_over(self):
        return self.task.done()

    def end(self):
        self.task.result(60)
        self.loop.call_soon_threadsafe(self.loop.stop)
        self.thread.join(60)
        self.loop.close()


class UpEdge(Case):
    def leaving(self):
        up = Up(functions=[{"name": "f", "runtime": "python", "handler": "app.run", "timeout": 2}], app=LEAVING)
        up.until("[up] ready")
        here = [pid for word in ("991", "992", "993") for pid in with_word(word) if up.is_here(pid)]
        self.check("a module has left three processes", len(here), 3)
        return up

    def test_what_a_runtime_has_started_ends_with_it_whatever_its_session(self):
        up = self.leaving()
        first = up.invoke()[0]
        self.check("a handler that hangs times out", up.invoke(do="hang")[0], "Function.Timeout")
        self.check("and another process serves", until(lambda: up.invoke()[0] not in (first, "Function.Timeout"), 10),
                   True)
        self.check("what it had below it is gone, whatever session that is in",
                   until(lambda: not [pid for pid in with_word("994") if up.is_here(pid)], 5), True)
        self.check("after TERM nothing is left", up.end(), (0, []))

    def test_what_a_crash_has_left_ends_and_others_go_on(self):
        """What a runtime that has crashed has left in sessions of its own ends with it, and what the other environment
        has goes on; a fresh one, and one that was forked."""
        up = Up(functions=[{"name": name, "runtime": "python", "handler": "app.run", "timeout": 5} for name in "fg"],
                app=LEAVING)
        up.until("[up] ready")
        of_g = {int(up.invoke("g")[0])}
        for what in ("fresh", "forked"):
            words = ("991", "992", "993")
            until(lambda: len([pid for word in words for pid in with_word(word) if up.is_here(pid)]) == 6, 20)
            before = {pid for word in words for pid in with_word(word) if up.is_here(pid)}
            mine = {pid for pid in before if value_of(pid, "AWS_LAMBDA_FUNCTION_NAME") == "f"}
            self.check(f"{what}: a module has left three processes of each function", (len(before), len(mine)), (6, 3))
            self.check(f"{what}: a crash", up.invoke(do="crash", patience=10)[0], "Runtime.ExitError")
            self.check(f"{what}: what it has left is gone", until(lambda: not any(map(lives, mine)), 10), True)
            self.check(f"{what}: what another has left is not", [pid for pid in before - mine if not lives(pid)], [])
        self.check("the other one goes on", {int(up.invoke("g")[0])}, of_g)
        self.check("after TERM nothing is left", up.end(), (0, []))

    def test_after_kill_9_of_up_nothing_is_left(self):
        """kill -9 of each process of lambda_local up, but those of functions."""
        up = self.leaving()
        self.check("after kill -9 of lambda_local up nothing is left", end_by(up, up.process.pid), (-9, []))

    def test_after_kill_9_of_its_guard_nothing_is_left(self):
        up = self.leaving()
        guard = next(pid for pid in children(up.process.pid) if "guard_process.py" in command_of(pid))
        self.check("after kill -9 of its guard nothing is left", end_by(up, guard), (70, []))
        self.check("which it tells", up.has("stopping: its guard process has ended"), True)

    def test_after_kill_9_of_its_service_nothing_is_left(self):
        up = self.leaving()
        service = next(pid for pid in children(up.process.pid) if "serve" in command_of(pid).split("\0"))
        self.check("after kill -9 of its service nothing is left", end_by(up, service), (4, []))

    def test_after_kill_9_of_all_but_its_guard_nothing_is_left(self):
        up = self.leaving()
        everyone = children(up.process.pid)
        for pid in everyone:
            if "guard_process.py" not in command_of(pid):
                kill(pid)
        self.check("after kill -9 of lambda_local up and all but its guard nothing is left", end_by(up, up.process.pid),
                   (-9, []))

    def test_after_kill_9_nothing_is_left_of_its_command(self):
        """What the command of a killed lambda_local up has started ends too, whatever session that is in."""
        for everyone in (False, True):
            up = Up(command=COMMAND)
            up.until("begun")
            until(lambda: all(with_word(word) for word in ("995", "996", "997")), 10)
            here = [pid for word in ("995", "996", "997") for pid in with_word(word) if up.is_here(pid)]
            self.check("a command has started three processes", len(here), 3)
            for pid in here if everyone else ():
                if "997" in command_of(pid):  # (what the shell waits for: the command ends at the same time)
                    kill(pid)
            self.check(f"after kill -9 of lambda_local up{' and of its command' if everyone else ''} nothing is left",
                       end_by(up, up.process.pid), (-9, []))

    def test_what_a_command_that_has_ended_leaves_behind_stays(self):
        up = Up(command=["--", "sh", "-c", "setsid sleep 998 >/dev/null 2>&1 &"])
        until(lambda: up.process.poll() is not None, 60)
        status, left = up.end(None)
        self.check("what a command that has ended leaves behind stays", (status, len(left)), (0, 1))
        for pid in left:
            kill(int(pid))

    def test_a_saved_history_is_for_its_user_alone(self):
        """A saved history has payloads: its user alone may read it."""
        up = Up("--history", "saved", command=["--", "true"], functions=[{"name": "f"}])
        until(lambda: up.process.poll() is not None, 60)
        path = os.path.join(up.at, "saved")
        seen = (oct(os.stat(path).st_mode & 0o777), open(path).read()[:7])
        up.end(None)
        self.check("a saved history is its user's", seen, ("0o600", "form 2\n"))

    def test_twelve_services_have_six_ports_by_turns(self):
        """Services one after the other on few ports, whose connections have ended a moment ago."""
        first = free_range(6)
        os.environ["LAMBDA_LOCAL_PORTS"] = f"{first}-{first + 5}"
        seen: List[Union[int, str]] = []
        try:
            for _ in range(12):
                service = Service({"account": "123456789012", "region": "us-east-1",
                                   "functions": [{"name": "f", "ports": [0]}]})
                # (the service closes these connections, so that its ends of them wait)
                for port in (service.port, service.configuration["functions"][0]["ports"][0]):
                    ask(port, "GET", "/nowhere", headers={"Connection": "close"})
                seen.append(service.stop()[0])
        except Fault as fault:
            seen.append(str(fault))
        finally:
            del os.environ["LAMBDA_LOCAL_PORTS"]
        self.check("twelve services have six ports by turns", seen, [0] * 12)

    def test_a_lack_of_memory_is_told_and_TERM_ends_it(self):
        """What a limit of memory does to lambda_local up: it is told, and TERM ends it."""
        up = Up("--drain", "0", functions=[{"name": "f", "command": ["./slow"], "timeout": 900}],
                files={"slow": "#!/bin/sh\nulimit -v unlimited; exec " + " ".join(RUNTIME) + "\n"},
                whole={"asynchronous": True}, app="import time\ndef run(event):\n    time.sleep(600)\n")
        # (before, its threads are started, which need address space too)
        self.check("it is ready", up.until("[up] ready"))
        resource.prlimit(up.process.pid, resource.RLIMIT_AS, (address_space(up.process.pid) + (24 << 20), -1))
        payload = json.dumps("x" * 1_000_000).encode()
        for _ in range(60):
            request = urllib.request.Request(up.endpoint + "/2015-03-31/functions/f/invocations", payload,
                                             {"X-Amz-Invocation-Type": "Event"})
            try:
                urllib.request.urlopen(request, timeout=5).close()
            except (OSError, http.client.HTTPException):
                pass
        self.check("nine tenths of the allowed memory are told",
                   up.until("MB are used of its address space (ulimit -v)"), shown=up.lines)
        begun = time.monotonic()
        status, left = up.end()
        self.check("TERM ends it, and nothing is left", (status != "hangs", time.monotonic() - begun < 35, left),
                   (True, True, []))

    def test_without_descriptors_it_goes_on_once_there_are_some(self):
        """lambda_local up without descriptors goes on once there are some, also with limits that it reads from
        files."""
        up = Up(functions=[{"name": "f", "command": ["./slow"], "timeout": 60}],
                files={"slow": "#!/bin/sh\nexec " + " ".join(RUNTIME) + "\n"})
        up.until("[up] ready")
        up.invoke()
        pid = up.process.pid
        resource.prlimit(pid, resource.RLIMIT_AS, (address_space(pid) + (1 << 30), -1))
        limits = resource.prlimit(pid, resource.RLIMIT_NOFILE)
        resource.prlimit(pid, resource.RLIMIT_NOFILE, (3, limits[1]))
        time.sleep(3)
        resource.prlimit(pid, resource.RLIMIT_NOFILE, limits)
        answer, _ = up.invoke(patience=60.0)
        self.check("once there are descriptors again it serves", type(answer), int)
        self.check("and tells of it", until(lambda: up.count(" ok ") == 2, 60), True)
        self.check("its threads go on", up.has("cannot go on"), False)
        self.check("and it ends as always", up.end(), (0, []))

    def test_a_look_for_old_clients_waits_for_nothing(self):
        """Without a descriptor, also for an import, or a process, no old client is found, and all else goes on."""
        for fault in (OSError(errno.EMFILE, "no descriptor"), ImportError("no module"), ProcessLookupError("reaped")):
            with mock.patch("lambda_local.up.surroundings.own_boto3", side_effect=fault), mock.patch(
                    "lambda_local.up.surroundings.is_python_of_path", return_value=True):
                Clients(mock.Mock(), threading.Event()).run()
                self.check(f"{fault!r} ends nothing", True)

    def test_there_are_three_threads_however_many_environments_there_are(self):
        """Its threads are the main one, the loop's and the log's, however many environments there are."""
        for count in (1, 32):
            up = Up(functions=[{"name": "f", "runtime": "python", "handler": "app.run", "environments": count}])
            self.check("it is ready", up.until("[up] ready"))
            tasks = f"/proc/{up.process.pid}/task"
            # (one looks for old clients on PATH, and ends)
            self.check(f"threads with {count}", until(lambda: len(os.listdir(tasks)) == 3, 20),
                       shown=len(os.listdir(tasks)))
            self.check("it serves", type(up.invoke()[0]), int)
            self.check("nothing is left of it", up.end(), (0, []))

    def test_without_descriptors_the_history_is_read_once_there_are_some(self):
        """What reads the history needs a descriptor if its connection has ended."""
        service = Service({"account": "123456789012", "region": "us-east-1",
                           "functions": [{"name": "f", "ports": [0]}]})
        log, stream = pipe_log()
        watching = Watching(service, log)
        watch = watching.watch
        watching.begin()

        def reserve(count):
            ask(service.port, "PUT", "/2017-10-31/functions/f/concurrency",
                json.dumps({"ReservedConcurrentExecutions": count}))
        reserve(0)
        watch.refresh()
        self.check("what the service has is here", watch.taken, 1)
        limits = resource.getrlimit(resource.RLIMIT_NOFILE)
        resource.setrlimit(resource.RLIMIT_NOFILE, (3, limits[1]))
        try:
            trace = watch.following._trace
            assert trace
            watching.loop.call_soon_threadsafe(trace.close)
            self.check("without a descriptor it is lost", until(lambda: "descriptors" in watch.warnings, 60))
            time.sleep(1)
        finally:
            resource.setrlimit(resource.RLIMIT_NOFILE, limits)
        reserve(1)
        self.check("with one it takes what has come", until(lambda: watch.following.next == 2, 60))
        self.check("it goes on", not watching.is_over())
        service.process.kill()
        self.check("and ends with the service", until(watching.is_over, 60))
        watching.end()
        log.close()
        log.writer.join(10)
        log.stream.close()
        lines = stream.read().decode().splitlines()
        self.check("what it lacks is told once", [line.count("no file descriptor is left to read") for line in lines],
                   [1])
        service.kill()

    def test_what_is_up_to_date_was_given_to_all_who_follow_once(self):
        """What is up to date was given to all who follow, however long these take, and once to each."""
        service = Service({"account": "123456789012", "region": "us-east-1",
                           "functions": [{"name": "f", "ports": [0]}]})
        log, stream = pipe_log()
        watching, seen = Watching(service, log), []
        watch = watching.watch

        def follow(event):
            time.sleep(0.3)
            seen.append(type(event).__name__)
        watch.give(follow, Throttled)
        watching.begin()
        ask(service.port, "PUT", "/2017-10-31/functions/f/concurrency", '{"ReservedConcurrentExecutions":0}')
        for count in (1, 2):
            self.check("it is throttled", ask(service.port, "POST", "/2015-03-31/functions/f/invocations", "{}")[0],
                       429)
            watch.refresh()
            self.check("its event was given", seen, ["Throttled"] * count)
        service.stop()
        watching.end()
        log.close()
        log.writer.join(10)
        log.stream.close()
        stream.close()
        service.kill()

    def test_a_service_without_a_history_is_asked_again_and_that_is_told_once(self):
        """A service that gives no history is asked again, and that is told once."""
        service = Service({"account": "123456789012", "region": "us-east-1",
                           "functions": [{"name": "f", "ports": [0]}]})
        other = Fake(*[HEAD + chunks(b"{}\n") + LAST] * 2, *[b""] * 7, HEAD + chunks(line(0)) + LAST)
        log, stream = pipe_log()
        watching = Watching(service, log)
        following = watching.watch.following
        following.port = other.port
        watching.begin()
        self.check("it goes on until it has its entry", (until(watching.is_over, 60), following.next), (True, 1))
        watching.end()
        log.close()
        log.writer.join(10)
        log.stream.close()
        told = stream.read().decode()
        self.check("each cause is told once", [told.count(words) for words in (
            "the service's history cannot be read: NotTrace: entry 0 of the trace: {} is not an entry",
            "the service does not give its history: it has closed the connection: it is asked again")], [1, 1],
            shown=told)
        other.close()
        service.kill()
