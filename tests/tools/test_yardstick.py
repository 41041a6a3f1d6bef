"""Checks that bench/serve/plain.c, with which the service's speed is compared, does the same work: what bench/serve's
load asks is answered with the same bytes by both, and what is refused is refused by both. And that bench/serve/calls,
which counts the system calls of both, counts what an invocation cannot do without, and says what is in its way."""
import os
import re
import shutil
import socket
import subprocess
import sys
import tempfile
import time
import unittest
from typing import Any, Dict, List, Tuple

from tests.library.cases import Case

ROOT = os.path.dirname(os.path.dirname(os.path.dirname(os.path.realpath(__file__))))
sys.path.insert(0, os.path.join(ROOT, "bench", "serve"))
import services  # type: ignore[import]
import strace  # type: ignore[import]

ANSWERS = 60  # seconds
INVOKE = "POST /2015-03-31/functions/f/invocations"
RUNTIME = "/2018-06-01/runtime/invocation/"
NEXT = f"GET {RUNTIME}next"
STATS = "GET /_local/stats"
RIGHT = (b"", b"1", b" [1, -2.5e+3, 0.1] ", b'{"a":{"b":[null,true,false]}}', b'"\\u00e9\\n\\ud83d\\ude00"',
         '"\u00e4\u20ac\U0001f600 and more"'.encode(), b"[" * 100 + b"]" * 100, b'"' + b"x" * 4095 + b'"')
WRONG = (b"x", b'"', b"01", b"1.", b"[1,]", b'{"a"}', b'{"a":1,}', b"{1:2}", b"nul", b"1 2", b'"\\x"', b'"a\nb"',
         b'"\xff"', b'"\xc0\xaf"', b'"\xed\xa0\x80"', b'"\\ud800"', b'"\\udc00x"', b'"abcdefg\x1fhijkl"', b"[" * 2000)
HEADS = ("GET /_local/stats HTTP/1.1\r\n\r\n", "GET /_local/stats HTTP/1.1\r\nHost : localhost\r\n\r\n",
         "GET /_local/stats HTTP/1.1\r\nHost: localhost\r\nContent-Length: 1\r\nContent-Length: 2\r\n\r\n",
         "GET /_local/stats HTTP/1.1\r\nHost: localhost\r\nContent-Length: x\r\n\r\n",
         "GET /_local/stats HTTP/1.1\r\nHost: localhost\r\nA\0: b\r\n\r\n",
         f"{INVOKE} HTTP/1.1\r\nHost: localhost\r\nContent-Length: 6291457\r\n\r\n")


class Talk:
    """A connection that stays open."""

    def __init__(self, port: int) -> None:
        self.socket = socket.create_connection(("127.0.0.1", port), ANSWERS)

    def ask(self, line: str, body: bytes = b"") -> "Talk":
        """As load.c does."""
        head = f"{line} HTTP/1.1\r\nHost: localhost\r\nContent-Length: {len(body)}\r\n\r\n"
        self.socket.sendall(head.encode() + body)
        return self

    def hear(self) -> bytes:
        """A whole answer."""
        data = b""
        while b"\r\n\r\n" not in data:
            data += self.more()
        head, _, body = data.partition(b"\r\n\r\n")
        found = re.search(rb"\r\ncontent-length: (\d+)", head)
        while found and len(body) < int(found[1]):
            body += self.more()
        return head + b"\r\n\r\n" + body

    def more(self) -> bytes:
        got = self.socket.recv(1 << 20)
        if not got:
            raise ConnectionError("the connection ends in mid-answer")
        return got


def told(answer: bytes) -> bytes:
    """An answer without what no two runs have in common."""
    return re.sub(rb"(deadline-ms: )\d{13}", rb"\1NUMBER", answer)


def identifier_in(answer: bytes) -> str:
    found = re.search(rb"\r\nlambda-runtime-aws-request-id: (\S+)", answer)
    return found[1].decode() if found else "none"


class Run:
    """What a service answers to one order of requests. It has as many environments as runtimes."""

    def __init__(self, service: Any, environments: int) -> None:
        self.port: int = service.port
        self.seen: List[Tuple[str, bytes]] = []
        self.caller, self.other = Talk(self.port), Talk(self.port)
        self.runtimes = [Talk(self.port + number) for number in range(1, environments + 1)]
        self.entries = 0

    def note(self, what: str, talk: Talk) -> bytes:
        answer = talk.hear()
        self.seen.append((what, told(answer)))
        return answer

    def await_entries(self, count: int) -> None:
        """Until so many calls more are entered."""
        self.entries += count
        end = time.monotonic() + ANSWERS
        while f'"entries":{self.entries},'.encode() not in self.other.ask(STATS).hear():
            if time.monotonic() > end:
                raise TimeoutError(f"{self.entries} entries")
            time.sleep(0.01)

    def park(self, number: int) -> Talk:
        self.runtimes[number].ask(NEXT)
        self.await_entries(1)
        return self.runtimes[number]

    def invocation(self, what: str, payload: bytes, output: bytes) -> None:
        """One that a parked runtime answers, from the first environment on."""
        runtime = self.park(0)
        self.caller.ask(INVOKE, payload)
        given = self.note(f"{what}: its delivery", runtime)
        runtime.ask(f"POST {RUNTIME}{identifier_in(given)}/response", output)
        self.note(f"{what}: its response", runtime)
        self.note(f"{what}: its output", self.caller)
        self.entries += 2


def loaded(run: Run) -> None:
    """What load.c does, and a caller who comes while all are busy."""
    run.note("the counts of a new service", run.caller.ask(STATS))
    for size in (100, 100_000, 3_000_000):
        payload = b'"' + b"x" * (size - 2) + b'"'
        run.invocation(f"{size} bytes", payload, payload)
    for number in (1, 0):
        run.park(number)
    callers = [Talk(run.port), Talk(run.port)]
    given = []
    for number, caller in enumerate(callers):
        caller.ask(INVOKE, f'"{number}"'.encode())
        run.await_entries(1)
        given.append(run.note(f"the invocation {number} goes to the environment {number}", run.runtimes[number]))
    run.note("a caller is throttled", run.caller.ask(INVOKE, b"1"))
    for number in (1, 0):
        run.runtimes[number].ask(f"POST {RUNTIME}{identifier_in(given[number])}/response", f"[{number}]".encode())
        run.note(f"the response {number}", run.runtimes[number])
        run.note(f"the output {number}", callers[number])
    run.note("the counts then", run.other.ask(STATS))


def odd(run: Run) -> None:
    """What a runtime should not do, and what is not there."""
    older, newer = run.park(0), Talk(run.port + 1)
    newer.ask(NEXT)
    run.note("a newer Next replaces one", older)
    run.caller.ask(INVOKE, b"{}")
    given = run.note("and is given what comes", newer)
    run.note("the response to another one", newer.ask(f"POST {RUNTIME}{identifier_in(given)[:-1]}9/response", b"1"))
    run.note("its own", newer.ask(f"POST {RUNTIME}{identifier_in(given)}/response", b"no JSON"))
    run.note("its output", run.caller)
    run.note("a response again", newer.ask(f"POST {RUNTIME}{identifier_in(given)}/response", b"1"))
    run.note("no such path", run.caller.ask("GET /nothing"))
    run.note("nor for a runtime", newer.ask("GET /nothing"))


def payloads(run: Run) -> None:
    for payload in WRONG:
        run.note(f"wrong: {payload[:20]!r}", run.caller.ask(INVOKE, payload))
    for payload in RIGHT:
        run.invocation(f"right: {payload[:20]!r}", payload, b"")


def heads(run: Run) -> None:
    for head in HEADS:
        talk = Talk(run.port)
        talk.socket.sendall(head.encode())
        run.note(f"refused: {head[:70]!r}", talk)
        run.seen.append(("its connection ends", talk.socket.recv(100)))


def is_traced() -> bool:
    """Whether strace is here, and may trace a program."""
    return bool(shutil.which("strace")) and not subprocess.run(["strace", "-o", os.devnull, "true"],
                                                               stderr=subprocess.DEVNULL).returncode


HAS_COMPILER = any(map(shutil.which, ("cc", "gcc", "clang")))


@unittest.skipUnless(HAS_COMPILER, "there is no C compiler")
class Yardstick(Case):
    folder: Any
    kinds: Dict[str, Any]

    @classmethod
    def setUpClass(cls) -> None:
        cls.folder = tempfile.TemporaryDirectory()
        cls.kinds = {"ours": services.Kind("lambda_local", os.environ["LAMBDA_LOCAL_PROGRAM"], True),
                     "plain": services.Kind("plain C", services.compile_c(cls.folder.name, "plain"), False)}

    @classmethod
    def tearDownClass(cls) -> None:
        cls.folder.cleanup()

    def both(self, order: Any, environments: int) -> None:
        found: Dict[str, List[Tuple[str, bytes]]] = {}
        for name, kind in self.kinds.items():
            with services.Service(kind, environments) as service:
                run = Run(service, environments)
                order(run)
                found[name] = run.seen
        self.check(f"{order.__name__}: as many answers", len(found["plain"]), len(found["ours"]))
        for (what, plain), (_, ours) in zip(found["plain"], found["ours"]):
            self.check(what, plain, ours)

    def test_the_load_gets_the_bytes_of_the_service(self) -> None:
        self.both(loaded, 2)

    def test_odd_requests_get_the_bytes_of_the_service(self) -> None:
        self.both(odd, 1)

    def test_payloads_are_judged_as_by_the_service(self) -> None:
        self.both(payloads, 1)

    def test_heads_are_judged_as_by_the_service(self) -> None:
        self.both(heads, 1)


# As strace's manual shows it, with a call that failed and two threads that were ended within a call.
TITLES = "% time     seconds  usecs/call     calls    errors syscall\n"
RULE = "------ ----------- ----------- --------- --------- ----------------\n"
ROWS = (" 89.76    0.008016           4      1912           getdents64\n"
        " 10.24    0.000914         304         3         1 newfstatat\n")
SUM = "100.00    0.008930           4      1915         1 total\n"
TABLE = TITLES + RULE + ROWS + RULE + SUM
ENDED = "71 ???( <unfinished ...>\n70 futex(0x7f, FUTEX_WAIT, 2, NULL <detached ...>\n"
UNLIKE = {"nothing": "", "no table": "strace: Process 7 attached\n", "cut short": TABLE[:-7],
          "no sum": TABLE[:-len(SUM)], "no titles": RULE + ROWS + RULE + SUM,
          "another column": TABLE.replace("errors", "faults"), "another sum": TABLE.replace("1915", "1916"),
          "a call twice": TITLES + RULE + ROWS + ROWS + RULE + SUM,
          "no number": TABLE.replace("1912", "19x2"), "a line behind it": TABLE + "more\n"}
READS, SENDS = ("read", "readv", "recvfrom", "recvmsg"), ("write", "writev", "sendto", "sendmsg")


def is_refused(text: str) -> bool:
    try:
        strace.read(text)
    except strace.Unreadable:
        return True
    return False


class Counting(Case):
    def test_what_strace_writes_is_read_strictly(self) -> None:
        older = TABLE.replace(SUM, "100.00    0.008930                  1915         1 total\n")
        for what, text in (("a table", TABLE), ("a table behind threads that were ended", ENDED + TABLE),
                           ("an older strace's, whose sum has no time for each call", older)):
            self.check(what, strace.read(text), {"getdents64": 1912, "newfstatat": 3})
        for what, text in UNLIKE.items():
            self.check(f"{what}: it is refused", is_refused(text))

    def counted(self, program: str, *options: str, **variables: str) -> "subprocess.CompletedProcess[str]":
        """What bench/serve/calls prints and says."""
        return subprocess.run([sys.executable, os.path.join(ROOT, "bench", "serve", "calls"), *options, program],
                              stdout=subprocess.PIPE, stderr=subprocess.PIPE, text=True, timeout=300,
                              env={**os.environ, **variables})

    def test_without_strace_it_says_so(self) -> None:
        made = self.counted(os.environ["LAMBDA_LOCAL_PROGRAM"], PATH="/nowhere")
        self.check("status", made.returncode, 1)
        self.check("what to install", "apt-get install strace" in made.stderr, shown=made.stderr)

    @unittest.skipUnless(HAS_COMPILER and is_traced(), "there is no C compiler, or no strace that may trace")
    def test_an_invocation_takes_a_read_and_a_send_for_each_request(self) -> None:
        made = self.counted(os.environ["LAMBDA_LOCAL_PROGRAM"], "--quick", "--runs", "1")
        self.check("status", made.returncode, 0, shown=made.stderr)
        titles, _, *rows = [[it.strip(" `") for it in line.split("|")[1:-1]] for line in made.stdout.splitlines()]
        names = titles[4:-1]
        self.check("rows", [tuple(it[:3]) for it in rows],
                   [(load, environments, service) for load in ("round", "closed") for environments in ("1", "8")
                    for service in ("lambda_local", "plain C")])
        for row in rows:
            of_all, *each = map(float, row[3:])
            self.check(f"{row[:3]}: the columns are all", abs(sum(each) - of_all) < 0.2, shown=row)
            for what, kinds in (("reads", READS), ("sends", SENDS)):
                # (the Next, the Invoke and the response)
                found = sum(count for name, count in zip(names, each) if name in kinds)
                self.check(f"{row[:3]}: three {what}, and no twice as many", 2.9 < found < 6, shown=row)

    @unittest.skipUnless(HAS_COMPILER and is_traced(), "there is no C compiler, or no strace that may trace")
    def test_a_program_that_ends_at_once_is_a_failure(self) -> None:
        made = self.counted(shutil.which("false") or "", "--quick")
        self.check("status", made.returncode, 1)
        self.check("why", "lambda_local ended with status 1 before it listened" in made.stderr, shown=made.stderr)
        self.check("no table", made.stdout, "")


if __name__ == "__main__":
    unittest.main()
