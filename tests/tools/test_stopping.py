"""Checks that a service ends at once when it is stopped, and sleeps while it is idle; how tools/lambda_local/service.py
waits for the end of what it has started: at once, and no longer than it is told, with descriptors of processes and
without; and that the guard ends what is held, and no process of others. The program is LAMBDA_LOCAL_PROGRAM, else
./lambda_local. Ends with 'N passed, M failed'."""
import glob
import os
import socket
import statistics
import subprocess
import sys
import tempfile
import threading
import time
from typing import List, Set, Tuple, Union
from unittest import mock

from lambda_local import guard, guard_process
from lambda_local.service import RUNTIME, Fault, Service, ask, wait_for
from lambda_local.up.signal_event import SignalEvent
from tests.library.cases import Case
from tests.library.trees import write

CONFIGURATION = {"account": "123456789012", "region": "us-east-2", "functions": [{"name": "f", "ports": [0]}]}


def ended(seconds, limit):
    """What a wait says of a process that ends after this many seconds with status 3."""
    with subprocess.Popen([sys.executable, "-c", f"import time; time.sleep({seconds}); exit(3)"]) as child:
        try:
            return wait_for(child, limit)
        except subprocess.TimeoutExpired:
            return "goes on"
        finally:
            child.kill()


def seconds_to_the_end():
    """From the answer to a stop until the end of the service."""
    service = Service(CONFIGURATION)
    try:
        ask(service.port, "POST", "/_local/stop")
        begun = time.monotonic()
        wait_for(service.process, 20)
        return time.monotonic() - begun
    finally:
        service.kill()


def wakes(pid):
    """How often the threads of a process have gone to sleep so far."""
    counts = 0
    for path in glob.glob(f"/proc/{pid}/task/*/status"):
        with open(path) as file:
            counts += sum(int(line.split()[1]) for line in file if line.startswith("voluntary_ctxt_switches"))
    return counts


def wakes_in(service, seconds):
    before = wakes(service.process.pid)
    time.sleep(seconds)
    return wakes(service.process.pid) - before


class Stopping(Case):
    def test_it_waits_for_the_status_of_a_process(self):
        self.check("the status of a process that ends", ended(0.1, 30), 3)
        self.check("a process that goes on", ended(30, 0.1), "goes on")
        with subprocess.Popen(["true"]) as child:
            child.wait()
            self.check("a process whose status was taken already", wait_for(child, 1), 0)

    def test_it_waits_without_descriptors_too(self):
        """As on a system before Linux 5.3."""
        opens = getattr(os, "pidfd_open", None)
        if opens:
            del os.pidfd_open
        try:
            self.test_it_waits_for_the_status_of_a_process()
        finally:
            if opens:
                os.pidfd_open = opens

    def test_it_waits_beside_another_thread(self):
        """lambda_local up has a thread that waits for the service as well."""
        seen: Set[Union[int, str]] = set()
        for _ in range(30):
            with subprocess.Popen(["sleep", "0.02"]) as child:
                other = threading.Thread(target=child.wait)
                other.start()
                try:
                    seen.add(wait_for(child, 30))
                except subprocess.TimeoutExpired:
                    seen.add("goes on")
                other.join()
        self.check("a process that another thread waits for too", seen, {0})

    def test_the_guard_ends_no_process_that_has_got_a_number_later(self):
        """(As if the one that was held had begun at another moment.)"""
        for kind in ("group", "process"):
            for begun, status in (("", None), ("1", None), (None, -9)):
                with subprocess.Popen(["sleep", "60"], start_new_session=True) as child:
                    it = guard_process.Guard(socket.socket())
                    it.held.append((kind, str(child.pid)))
                    it.begun[str(child.pid)] = guard_process.begun_at(child.pid) if begun is None else begun
                    with mock.patch.object(guard_process, "end_all_below", lambda: None):
                        it.end()
                    try:
                        seen = child.wait(0.3 if status is None else 20)
                    except subprocess.TimeoutExpired:
                        seen = None
                    child.kill()
                self.check(f"a {kind} that began {'as it was held' if begun is None else 'later'}", seen, status)

    def test_a_folder_is_held_before_it_exists(self):
        said: List[Tuple[str, object]] = []
        with tempfile.TemporaryDirectory() as room, mock.patch.object(tempfile, "tempdir", room):
            it = guard.Guard()
            held = mock.patch.object(it, "hold", lambda path: said.append((path, os.path.exists(path))))
            released = mock.patch.object(it, "release", lambda path: said.append((path, "released")))
            with held, released:
                self.look_at_new_folders(it, room, said)

    def look_at_new_folders(self, it: guard.Guard, room: str, said: List[Tuple[str, object]]) -> None:
        path = it.new_folder()
        self.check("it is there, and was held before", (os.listdir(room), said), ([os.path.basename(path)],
                                                                                 [(path, False)]))
        said.clear()
        with mock.patch.object(tempfile, "tempdir", os.path.join(room, "nowhere")):
            self.assertRaises(FileNotFoundError, it.new_folder)
        self.check("one that cannot be made is not held any more", [it for _, it in said], [False, "released"])
        said.clear()
        names = iter([bytes.fromhex(path[-16:]), bytes(8)])
        with mock.patch.object(os, "urandom", lambda _: next(names)):
            other = it.new_folder()
        self.check("nor one of others", said, [(path, True), (path, "released"), (other, False)])

    def test_a_service_stops_in_order_with_its_counts(self):
        service = Service(CONFIGURATION)
        begun = time.monotonic()
        status, counts = service.stop()
        self.check("a service that is stopped in order", (status, counts.startswith("admitted")), (0, True))
        print(f"      (it took {1000 * (time.monotonic() - begun):.0f} ms)")

    def test_a_signal_is_heard_at_each_point_of_a_wait(self):
        """Its handler runs in the thread that waits, also while that has the lock of the event."""
        event = SignalEvent()
        with event.condition:
            event.set()
        self.check("it is set", event.wait(0), True)

    def test_a_program_that_never_starts_is_ended(self):
        """A program that closes its standard error and goes on is no service: it is ended."""
        with tempfile.TemporaryDirectory() as folder:
            program = os.path.join(folder, "program")
            write(program, f"#!/bin/sh\necho $$ >{folder}/pid\nexec sleep 1000 2>&-\n".encode(), 0o755)
            with self.assertRaises(Fault) as raised:
                Service(CONFIGURATION, program=program)
            self.check("it says that it did not start", str(raised.exception).partition(":")[0],
                       "the service did not start")
            with open(os.path.join(folder, "pid")) as file:
                self.check("and leaves nothing", os.path.exists(f"/proc/{file.read().strip()}"), False)

    def test_a_service_ends_at_once_after_its_stop(self):
        """It takes a few milliseconds; the bound is for a busy machine. A service that looks whether it is over takes
        50 ms and more, and less only by chance."""
        taken = statistics.median(seconds_to_the_end() for _ in range(15))
        self.check("a service ends at once after the answer to its stop", taken < 0.03)
        print(f"      (it took {1000 * taken:.1f} ms, as the median of 15)")

    def test_an_idle_service_does_not_wake(self):
        service = Service(CONFIGURATION)
        try:
            time.sleep(1)
            self.check("an idle service does not wake", wakes_in(service, 3), 0)
            environment = service.configuration["functions"][0]["ports"][0]
            with socket.create_connection(("127.0.0.1", environment)) as runtime:
                runtime.sendall(f"GET {RUNTIME}invocation/next HTTP/1.1\r\nHost: h\r\n\r\n".encode())
                time.sleep(1)
                woken = wakes_in(service, 3)
                self.check("with a connection it wakes once a second", woken in (2, 3, 4), True)
                print(f"      ({woken} times in 3 s)")
        finally:
            service.kill()
