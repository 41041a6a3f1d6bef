"""Checks how files are written: whole or not at all, beside what is there and never over anything else, by the function
that all tools share and by each tool that has it. The program is LAMBDA_LOCAL_PROGRAM, else ./lambda_local."""
import contextlib
import json
import os
import resource
import socket
import subprocess
import sys
import tempfile
import threading
from typing import Any, Iterator

from lambda_local import junit
from lambda_local.clock.followed import Shared
from lambda_local.outgoing import renew, written
from lambda_local.rerun.record import Invocation
from lambda_local.rerun.report import EQUAL, Result, write_junit
from tests import ROOT
from tests.library.cases import Case
from tests.library.rerun_kit import fault_of

LAUNCHER = os.path.join(ROOT, "lambda_local")
SMALL, LONG = 8192, 100_000  # bytes of the largest file, and of one that is too large
SCRIPT = os.path.join(ROOT, "examples", "timeout.txt")
TEMPLATE = {"Resources": {f"F{number}": {"Type": "AWS::Serverless::Function", "Properties": {
    "Handler": "app.run", "Runtime": "python3.12", "Environment": {"Variables": {"A": "a" * 1000}}}}
    for number in range(20)}}


@contextlib.contextmanager
def small_files(most: int = SMALL) -> Iterator[None]:
    """No file may be larger: what writes it is refused, as by a disk that is full."""
    limits = resource.getrlimit(resource.RLIMIT_FSIZE)
    resource.setrlimit(resource.RLIMIT_FSIZE, (most, limits[1]))
    try:
        yield
    finally:
        resource.setrlimit(resource.RLIMIT_FSIZE, limits)


def write(path, text="new", **members):
    with written(path, **members) as file:
        file.write(text)


def fault_in(call, *arguments):
    try:
        call(*arguments)
    except OSError as fault:
        return fault.strerror
    return "none"


def content(path):
    with open(path, encoding="utf-8") as file:
        return file.read()


HISTORY = "\u00e9" * (1 << 19)  # a mebibyte, which the readings of a socket cut in mid-letter
SAVES = """
import resource, sys
from lambda_local.outgoing import written
from lambda_local.service import Service
service = Service.__new__(Service)
service.port = int(sys.argv[1])
with open("/proc/self/statm") as file:
    size = int(file.read().split()[0]) * resource.getpagesize()
resource.setrlimit(resource.RLIMIT_AS, (size + (16 << 20),) * 2)
with written(sys.argv[2]) as file:
    service.save_history(file)
"""


def give_history(listener: socket.socket, head: str, parts: int, ends: bytes) -> None:
    """Answers one request with chunks, or what the head says."""
    peer, _ = listener.accept()
    with peer:
        peer.recv(4096)
        chunk = HISTORY.encode()
        with contextlib.suppress(OSError):
            peer.sendall(f"HTTP/1.1 {head}\r\n\r\n".encode())
            for _ in range(parts):
                peer.sendall(b"%x\r\n%b\r\n" % (len(chunk), chunk) if "chunked" in head else chunk)
            peer.sendall(ends)


class Files(Case):
    def test_what_fails_leaves_the_file_as_it_was(self):
        """What fails leaves what was there, and nothing beside it."""
        with tempfile.TemporaryDirectory() as folder:
            path = os.path.join(folder, "f")
            write(path, "old")
            with small_files():
                self.check("a disk that is full is a fault", fault_in(write, path, "x" * LONG), "File too large")
            self.check("what was there is whole", (content(path), os.listdir(folder)), ("old", ["f"]))
            with contextlib.suppress(KeyboardInterrupt):
                with written(path) as file:
                    file.write("half")
                    raise KeyboardInterrupt
            self.check("what is given up changes nothing", (content(path), os.listdir(folder)), ("old", ["f"]))
            with written(path) as file:
                file.write("x" * LONG)
                file.flush()
                self.check("until it is whole the old one is there", content(path), "old")
            self.check("then it is the new one", content(path) == "x" * LONG)
            write(path, "\udcff\ud83d \u00e9")
            self.check("what is no character is escaped", content(path), "\\udcff\\ud83d \u00e9")
            self.check("a folder is a fault", fault_in(write, folder), "Is a directory")
            self.check("so is a folder that is not there", fault_in(write, f"{folder}/no/f"),
                       "No such file or directory")

    def test_links_lead_where_they_led_and_names_beside_stay(self):
        """Links lead where they led; names beside it stay."""
        with tempfile.TemporaryDirectory() as folder:
            target, link = os.path.join(folder, "target"), os.path.join(folder, "link")
            write(target, "old")
            os.symlink("target", link)
            for name in ("link.partial", "target.partial", "link.new", "target.tmp"):
                os.symlink("/nowhere/else", os.path.join(folder, name))
            names = sorted(os.listdir(folder))
            write(link)
            self.check("a link stays one", (os.readlink(link), content(target)), ("target", "new"))
            self.check("no name beside it was touched", sorted(os.listdir(folder)), names)
            os.symlink("nothing", os.path.join(folder, "broken"))
            self.check("a link to nothing is a fault", fault_in(write, os.path.join(folder, "broken")),
                       "No such file or directory")
            self.check("and stays one", os.readlink(os.path.join(folder, "broken")), "nothing")

    def test_a_pipe_and_stdout_are_written_as_they_are(self):
        with tempfile.TemporaryDirectory() as folder:
            pipe = os.path.join(folder, "pipe")
            os.mkfifo(pipe)
            reading = subprocess.Popen(["cat", pipe], stdout=subprocess.PIPE, text=True)
            write(pipe)
            self.check("a pipe is written as it is", (reading.communicate(timeout=10)[0], os.path.isfile(pipe)),
                       ("new", False))
            with open(os.path.join(folder, "out"), "w") as out:
                code = "from lambda_local.outgoing import written\nwith written('/dev/stdout') as f: f.write('new')"
                subprocess.run([sys.executable, "-c", code], stdout=out, check=True, timeout=20,
                               env={**os.environ, "PYTHONPATH": os.path.join(ROOT, "tools")})
            self.check("so is /dev/stdout", content(os.path.join(folder, "out")), "new")

    def test_a_renewed_file_writes_to_nothing_that_a_function_puts_there(self):
        """A small file that others read, in a folder in which a function writes too: nothing that it puts there is
        written to, or waited for."""
        with tempfile.TemporaryDirectory() as folder:
            path, other = os.path.join(folder, "clock"), os.path.join(folder, "other")
            write(other, "kept")
            for name in ("clock", "clock.new"):
                os.symlink("other", os.path.join(folder, name))
            renew(path, "1\n")
            self.check("a link is replaced, and does not lead on",
                       (os.path.islink(path), content(path), content(other)), (False, "1\n", "kept"))
            for name in ("clock", "clock.new"):
                os.unlink(os.path.join(folder, name))
                os.mkfifo(os.path.join(folder, name))
            renew(path, "2\n")
            self.check("so is a pipe", (os.path.isfile(path), content(path)), (True, "2\n"))
            os.unlink(path)
            os.mkdir(path)
            self.check("a folder is a fault", fault_in(renew, path, "3\n"), "Is a directory")
            self.check("and nothing is left beside", sorted(os.listdir(folder)), ["clock", "clock.new", "other"])

    def test_the_shared_clock_is_written_at_once_beside_pipes(self):
        """The clock that runtimes read is put there so: a function stops nobody by what it puts beside it."""
        with tempfile.TemporaryDirectory() as folder:
            path = os.path.join(folder, "clock")
            for name in ("clock", "clock.new"):
                os.mkfifo(os.path.join(folder, name))
            noting = threading.Thread(target=Shared(path).note, args=(5, 1.0, False), daemon=True)
            noting.start()
            noting.join(10)
            self.check("it is written at once", (noting.is_alive(), os.path.isfile(path) and content(path)),
                       (False, "5 1000000000 0\n"))

    def test_a_file_with_payloads_is_its_users_alone(self):
        with tempfile.TemporaryDirectory() as folder:
            mask = os.umask(0o022)
            try:
                modes = {}
                members: Any
                for name, before, members in (("payloads", None, {}), ("none", None, {"has_payloads": False}),
                                              ("kept", 0o640, {}), ("open", 0o666, {"has_payloads": False})):
                    path = os.path.join(folder, name)
                    if before is not None:
                        write(path, "old")
                        os.chmod(path, before)
                    write(path, **members)
                    modes[name] = oct(os.stat(path).st_mode & 0o777)
            finally:
                os.umask(mask)
            self.check("modes", modes, {"payloads": "0o600", "none": "0o644", "kept": "0o640", "open": "0o666"})

    def test_a_report_on_a_full_disk_is_a_fault(self):
        with tempfile.TemporaryDirectory() as folder:
            path, suite = os.path.join(folder, "report.xml"), junit.Suite("s")
            suite.case("g", "n", output="x" * LONG)
            with small_files():
                said = fault_of(suite.write, path)
            self.check("a report on a full disk", (said, os.listdir(folder)), (
                f"2: --junit {path}: File too large: name a file in a folder that can be written", []))

    def test_a_report_with_events_is_its_users(self):
        with tempfile.TemporaryDirectory() as folder:
            path = os.path.join(folder, "report.xml")
            then = Invocation(1, "f", 1, False, None, b"{}", "output", b"1", 2)
            write_junit(path, [Result(then, EQUAL, [], 0.1)])
            self.check("a report with events is its user's", oct(os.stat(path).st_mode & 0o777), "0o600")

    def test_each_tool_on_a_full_disk_says_a_line_and_leaves_what_was_there(self):
        """Each tool that writes: one line and its status if the disk is full, and what was there stays."""
        with tempfile.TemporaryDirectory() as folder:
            template, up = os.path.join(folder, "template.json"), os.path.join(folder, "up.json")
            with open(template, "w") as file:
                json.dump(TEMPLATE, file)
            with open(up, "w") as file:
                json.dump({"functions": [{"name": "f", "runtime": "python", "handler": "app.run"}]}, file)
            write(os.path.join(folder, "app.py"), "def run(event, context): return 1\n")
            invoke = ["sh", "-c", f"printf '\"%0{LONG}d\"' 1 | {LAUNCHER} invoke f -"]
            names = sorted([*os.listdir(folder), "__pycache__"])
            for name, words, status, line in (
                ("timeline", ["timeline", "--html", "-o", "out", SCRIPT], 4, "timeline: out: File too large"),
                ("from_template", ["from_template", "template.json", "--force", "-o", "out"], 4,
                 "from_template: out: File too large"),
                ("up", ["up", "--history", "out", "up.json", "--", *invoke], 4,
                 "the history could not be saved: out: File too large"),
            ):
                for before in (None, "old"):
                    if before:
                        write(os.path.join(folder, "out"), before)
                    with small_files():
                        done = subprocess.run([LAUNCHER, *words], cwd=folder, capture_output=True, text=True,
                                              stdin=subprocess.DEVNULL, timeout=60)
                    told = any(each.endswith(line) for each in done.stderr.splitlines())
                    self.check(f"{name} on a full disk, {before or 'nothing'} before", (done.returncode, told),
                               (status, True), shown=done.stderr)
                    seen = sorted({*os.listdir(folder), "__pycache__"})
                    self.check("what was there stays", seen, sorted([*names, *(["out"] if before else [])]))
                    if before:
                        self.check("as it was", content(os.path.join(folder, "out")), before)
                        os.unlink(os.path.join(folder, "out"))

    def test_a_history_is_saved_by_pieces_or_not_at_all(self) -> None:
        """`up` saves a history of 32 MiB in 16 MiB of memory, and one that does not come whole not at all."""
        chunked = "200 OK\r\nTransfer-Encoding: chunked"
        for name, head, parts, ends, is_whole in (
                ("32 MiB by chunks", chunked, 32, b"0\r\n\r\n", True),
                ("32 MiB of a length", "200 OK\r\nContent-Length: 33554432", 32, b"", True),
                ("broken off by chunks", chunked, 3, b"", False),
                ("broken off of a length", "200 OK\r\nContent-Length: 33554432", 3, b"", False),
                ("refused", "503 Service Unavailable\r\nContent-Length: 0", 0, b"", False)):
            with tempfile.TemporaryDirectory() as folder, socket.create_server(("127.0.0.1", 0)) as listener:
                path = os.path.join(folder, "history.txt")
                write(path, "old")
                giver = threading.Thread(target=give_history, args=(listener, head, parts, ends), daemon=True)
                giver.start()
                ran = subprocess.run([sys.executable, "-c", SAVES, str(listener.getsockname()[1]), path],
                                     env={**os.environ, "PYTHONPATH": os.path.join(ROOT, "tools")},
                                     stderr=subprocess.PIPE, text=True, timeout=120)
                giver.join(10)
                self.check(f"{name}: it ends", (ran.returncode == 0) is is_whole, shown=ran.stderr[-300:])
                self.check(f"{name}: the file", content(path) == (HISTORY * parts if is_whole else "old"))
                self.check(f"{name}: nothing is beside it", os.listdir(folder), ["history.txt"])
