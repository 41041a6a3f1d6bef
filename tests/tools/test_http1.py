"""Checks the reader of HTTP/1.1: a table of RFC 9112's cases, requests that are nearly HTTP, which the service and
`h11` read too, and what small pieces cost. Needs Debian's python3-h11 for one of them. The program is
LAMBDA_LOCAL_PROGRAM, else ./lambda_local.

Variables: HTTP1_COUNT is how many requests are made (10000), HTTP1_SEED their seed (another one each time)."""
import concurrent.futures
import json
import os
import random
import re
import subprocess
import tempfile
import time
from collections import Counter

from lambda_local.front.origins import refusal_of
from lambda_local.http1 import (NEED_DATA, CutShort, Data, Malformed, Request, RequestReader, Response,
                                ResponseReader, Unwritable, request_head, response_head)
from lambda_local.service import free_ports
from tests import ROOT
from tests.library.cases import Case
from tests.library.h11_beside import compared
from tests.library.http_mutants import BROKEN, TAKEN, answers_to, messages_of, mutants, outcome_of, own_outcome

COUNT = int(os.environ.get("HTTP1_COUNT", "10000"))
SEED = int(os.environ.get("HTTP1_SEED") or random.randrange(1 << 32))
AT_ONCE = 8  # connections to the service
MOST_SHOWN = 5


def cases():
    """The table: a name, the bytes, and what a server makes of them."""
    with open(os.path.join(ROOT, "tests", "library", "rfc9112.txt")) as file:
        blocks = [block.splitlines() for block in file.read().split("\n\n")]
    for name, data, wanted in (block for block in blocks if not block[0].startswith("#")):
        yield name, data.strip().encode().decode("unicode_escape").encode("latin-1"), wanted.strip()[1:].strip()


def made_of(data, sizes):
    """What our reader makes of these bytes in pieces of these sizes, in the table's words."""
    words = []
    for request, body in messages_of(data, sizes):
        refused = refusal_of(request, ()) if request else None
        if refused:
            words.append(str(refused.status))
        elif request:
            line = f"{request.method} {request.parts.origin_form}"
            words.append(BROKEN if isinstance(body, Malformed) else f"{line} {body.decode()}".strip())
        elif not isinstance(body, CutShort):
            words.append(str(body.status))
    return ", ".join(words)


class Serving:
    """The service alone, with one function."""

    def __enter__(self):
        self.folder = tempfile.TemporaryDirectory()
        self.port, port = free_ports(2, ())
        path = os.path.join(self.folder.name, "configuration.json")
        with open(path, "w") as file:
            json.dump({"account": "123456789012", "region": "us-east-1", "invokePort": self.port,
                       "functions": [{"name": "f", "ports": [port]}]}, file)
        program = os.environ.get("LAMBDA_LOCAL_PROGRAM") or os.path.join(ROOT, "lambda_local")
        self.process = subprocess.Popen([program, "serve", path], stderr=subprocess.PIPE, stdout=subprocess.DEVNULL)
        assert self.process.stderr
        self.said = self.process.stderr
        while (line := self.said.readline()) and not line.endswith(b" listening\n"):
            pass
        return self

    def __exit__(self, *_):
        self.process.kill()
        self.process.wait()
        self.said.close()
        self.folder.cleanup()

    def outcomes(self, requests):
        with concurrent.futures.ThreadPoolExecutor(AT_ONCE) as pool:
            yield from pool.map(lambda data: outcome_of(answers_to(self.port, data)), requests)


# What the service takes, and our reader refuses, with its reason.
OF_THE_SERVICE = (
    ("more than 16 KiB of zeros and blanks around the sizes of chunks: a line has a longest length",
     lambda data: re.search(rb"[0 \t]{1000}", data)),
)


def read_response(method, data, size):
    reader, body, at = ResponseReader(), b"", 0
    reader.method = method
    try:
        while True:
            event = reader.next_event()
            if event is NEED_DATA:
                reader.receive(data[at:at + size])
                at += size
            elif isinstance(event, Response):
                response = event
            elif isinstance(event, Data):
                body += event.data
            else:
                return response.status, body, response.keeps_alive
    except Malformed:
        return "malformed"


def refuses(head):
    try:
        head()
    except Unwritable:
        return True
    return False


def seconds_to_read(data, size):
    """The processor time in which our reader reads these bytes, in pieces of this size."""
    begun, reader = time.process_time(), RequestReader()
    for at in range(0, len(data), size):
        reader.receive(data[at:at + size])
        while isinstance(reader.next_event(), (Request, Data)):
            pass
    return time.process_time() - begun


class Http1(Case):
    def test_each_case_of_the_table_is_read_whole_and_in_pieces(self):
        for name, data, wanted in cases():
            seen = {made_of(data, sizes) for sizes in ((len(data),), (1,), (2, 3), (7, 1))}
            self.check(f"{name}, whole and in pieces", seen, {wanted})

    def test_the_service_makes_of_each_case_what_the_table_says(self):
        """The service makes of each case of the table what it says."""
        with Serving() as service:
            names = list(cases())
            for (name, data, _), seen in zip(names, service.outcomes([data for _, data, _ in names])):
                self.check(f"the service: {name}", seen, own_outcome(data))

    def test_the_service_and_our_reader_take_the_same_of_mutants(self):
        """The service and our reader take the same of them, and refuse the same with the same status."""
        counts: Counter[str] = Counter()
        requests, wrong = mutants(COUNT, SEED), []
        with Serving() as service:
            for data, seen in zip(requests, service.outcomes(requests)):
                own = own_outcome(data)
                listed = own != seen and next((reason for reason, applies in OF_THE_SERVICE if applies(data)), None)
                counts["differ, listed" if listed else "differ" if own != seen else "taken" if own[:1] == [TAKEN]
                       else "refused" if own else "cut"] += 1
                if own != seen and not listed:
                    wrong.append((data, own, seen))
        print(f"     {COUNT} requests, seed {SEED}: {dict(counts)}", flush=True)
        self.check("the service and our reader agree", (len(wrong), wrong[:MOST_SHOWN]), (0, []))
        self.check("both kinds are among them", min(counts["taken"], counts["refused"]) > COUNT / 10)

    def test_h11_and_our_reader_agree_but_for_what_is_listed(self):
        try:
            import h11
        except ImportError:
            self.skipTest("there is no h11 (Debian: python3-h11)")
        counts: Counter[str] = Counter()
        wrong = []
        for data in mutants(COUNT, SEED + 2):
            own, seen, listed = compared(h11, data)
            counts[listed or ("differ" if own != seen else "taken" if own else "refused")] += 1
            if own != seen and not listed:
                wrong.append((data, own, seen))
        print(f"     {COUNT} requests, seed {SEED + 2}: {counts.pop('taken')} taken, {counts.pop('refused')} refused, "
              f"of both; the others: {json.dumps(counts, indent=1)}", flush=True)
        self.check("h11 and our reader agree, but for what is listed", (len(wrong), wrong[:MOST_SHOWN]), (0, []))

    def test_responses_are_read_by_their_framing(self):
        for name, method, data, wanted in (
                ("a length", "GET", b"HTTP/1.1 200 OK\r\nContent-Length: 2\r\n\r\nhi", (200, b"hi", True)),
                ("chunks", "GET", b"HTTP/1.1 200\r\nTransfer-Encoding: chunked\r\n\r\n2\r\nhi\r\n0\r\n\r\n",
                 (200, b"hi", True)),
                ("until the end", "GET", b"HTTP/1.1 200 OK\r\n\r\nhi", (200, b"hi", False)),
                ("no content", "GET", b"HTTP/1.1 204 No Content\r\n\r\n", (204, b"", True)),
                ("to a HEAD", "HEAD", b"HTTP/1.1 200 OK\r\nContent-Length: 5\r\n\r\n", (200, b"", True)),
                ("after 100 Continue", "GET",
                 b"HTTP/1.1 100 Continue\r\n\r\nHTTP/1.1 200 OK\r\nContent-Length: 0\r\n\r\n", (200, b"", True)),
                ("one that ends the connection", "GET",
                 b"HTTP/1.1 200 OK\r\nConnection: close\r\nContent-Length: 0\r\n\r\n",
                 (200, b"", False)),
                ("HTTP/1.0", "GET", b"HTTP/1.0 200 OK\r\nContent-Length: 0\r\n\r\n", (200, b"", False)),
                ("cut in its body", "GET", b"HTTP/1.1 200 OK\r\nContent-Length: 5\r\n\r\nhi", "malformed"),
                ("no status", "GET", b"HTTP/1.1 OK\r\n\r\n", "malformed"),
                ("another protocol", "GET", b"SSH-2.0-OpenSSH_9.2\r\n\r\n", "malformed"),
                ("a switch of protocols", "GET", b"HTTP/1.1 101 Switching\r\nUpgrade: h2c\r\n\r\n", "malformed")):
            self.check(f"a response: {name}", {read_response(method, data, size) for size in (len(data), 1)}, {wanted})

    def test_what_would_be_two_headers_or_no_request_is_not_written(self):
        for name, value in (("X", "a\r\nY: b"), ("X", "a\nb"), ("X", "\0"), ("X\r\nY", "a"), ("X Y", "a"), ("", "a"),
                            ("X", "a\r\n\r\nHTTP/1.1 200 OK"), ("X: a\r\nY", "b")):
            for head in (lambda: request_head("GET", "/", [("Host", "a"), (name, value)]),
                         lambda: response_head("HTTP/1.1", 200, "OK", [(name, value), ("Content-Length", "0")])):
                self.check(f"{name!r}: {value!r} is not written", refuses(head))
        for method, target in (("G T", "/"), ("GET", "/ HTTP/1.1\r\nX: y"), ("GET", ""), ("GET", "/a b"), ("", "/")):
            self.check(f"{method!r} {target!r} is not written", refuses(lambda: request_head(method, target, [])))
        self.check("what can be is", request_head("GET", "/x?y", [("Host", "a"), ("X", "\xe9")]),
                   b"GET /x?y HTTP/1.1\r\nHost: a\r\nX: \xe9\r\n\r\n")

    def test_limits_of_heads_extensions_and_trailers_are_those_of_the_service(self):
        """Those of the service: a head of 65,536 bytes and 100 fields; 16 KiB of extensions, and of trailers."""
        line, chunked = b"GET /x HTTP/1.1\r\n", b"POST /x HTTP/1.1\r\nHost: a\r\nTransfer-Encoding: chunked\r\n\r\n"

        def long(size):
            return line + b"Host: a\r\nX: " + b"x" * (size - len(line) - len(b"Host: a\r\nX: \r\n\r\n")) + b"\r\n\r\n"

        cases = [
            ("a head of 65,536 bytes", long(65536), TAKEN), ("one byte more", long(65537), "431"),
            ("a head that does not end", long(70000)[:-4], "431"),
            ("100 fields", line + b"Host: a\r\n" + b"X: y\r\n" * 99 + b"\r\n", TAKEN),
            ("101 fields", line + b"Host: a\r\n" + b"X: y\r\n" * 100 + b"\r\n", "431"),
            ("a request line that does not end", b"GET /" + b"x" * 65536, "414"),
            ("one that is too long", b"GET /" + b"x" * 65536 + b" HTTP/1.1\r\nHost: a\r\n\r\n", "414"),
            ("empty lines without end", b"\r\n" * 40000, "414"),
            ("16 KiB of extensions", chunked + b"1;" + b"x" * 16384 + b"\r\nx\r\n0\r\n\r\n", TAKEN),
            ("one byte more of them", chunked + b"1;" + b"x" * 16384 + b"\r\nx\r\n0;y\r\n\r\n", BROKEN),
            ("16 KiB of trailers", chunked + b"0\r\nX: " + b"x" * (16384 - 7) + b"\r\n\r\n", TAKEN),
            ("one byte more of those", chunked + b"0\r\nX: " + b"x" * (16384 - 6) + b"\r\n\r\n", BROKEN),
            ("101 trailers", chunked + b"0\r\n" + b"X: y\r\n" * 101 + b"\r\n", BROKEN)]
        with Serving() as service:
            for (name, data, wanted), seen in zip(cases, service.outcomes([data for _, data, _ in cases])):
                self.check(name, (own_outcome(data), seen), ([wanted], [wanted]))
        self.check("17 KiB of zeros before a size, which the service takes",
                   own_outcome(chunked + b"0" * 17000 + b"1\r\nx\r\n0\r\n\r\n"), [BROKEN])

    def test_chunks_that_are_lines_are_those_that_come_byte_by_byte(self):
        """Also with a chunk among them that is written in another way, is none, or has line ends in it."""
        head = b"HTTP/1.1 200 OK\r\nTransfer-Encoding: chunked\r\n\r\n"
        lines = [b"x" * count + b"\n" for count in (98, 200, 449)]
        whole = [b"%x\r\n%s\r\n" % (len(line), line) for line in lines]
        body, last = b"".join(lines), b"0\r\n\r\n"
        for name, other, wanted in (
                ("none", b"", body * 2),
                ("an upper-case size", b"4F\r\n" + b"y" * 79 + b"\r\n", body + b"y" * 79 + body),
                ("a zero before it", b"03\r\nyyy\r\n", body + b"yyy" + body),
                ("an extension", b"3;a=b\r\nyyy\r\n", body + b"yyy" + body),
                ("line ends", b"9\r\n\r\n3\r\nab\r\n\r\n", body + b"\r\n3\r\nab\r\n" + body),
                ("what looks like two", b"b\r\n3\r\nabc\r\n3\r\n\r\n", body + b"3\r\nabc\r\n3\r\n" + body),
                ("the last one", last, body),
                ("one too short", b"4\r\nyyy\r\n", None), ("one too long", b"2\r\nyyy\r\n", None),
                ("no size", b"\r\nyyy\r\n", None), ("a blank before a size", b" 3\r\nyyy\r\n", None),
                ("an underscore", b"0_3\r\nyyy\r\n", None), ("a prefix", b"0x3\r\nyyy\r\n", None)):
            data = head + b"".join(whole) + other + b"".join(whole) + last
            seen = [read_response("GET", data, size) for size in (1, 7, 500, 1 << 20)]
            self.check(f"{name}: in pieces of any size", seen[1:], seen[:1] * 3)
            self.check(f"{name}: its body", seen[0], "malformed" if wanted is None else (200, wanted, True))

    def test_four_times_as_much_takes_some_four_times_as_long(self):
        """Four times as much takes some four times as long, whatever comes, and in the smallest pieces."""
        chunked = b"POST /x HTTP/1.1\r\nHost: a\r\nTransfer-Encoding: chunked\r\n\r\n"
        for name, made, count, size in (
                ("chunks of one byte", lambda count: chunked + b"1\r\nx\r\n" * count, 50_000, 65536),
                ("chunks of one and two bytes", lambda count: chunked + b"1\r\nx\r\n2\r\nyy\r\n" * count, 3_000, 65536),
                ("chunks with an extension by turns", lambda count: chunked + (
                    b"c8\r\n" + b"x" * 200 + b"\r\nc8;a\r\n" + b"x" * 200 + b"\r\n") * count, 300, 65536),
                ("chunks that come byte by byte", lambda count: chunked + b"1\r\nx\r\n" * count, 500, 1),
                ("a long header byte by byte", lambda count: b"GET / HTTP/1.1\r\nX: " + b"x" * count, 3_000, 1),
                ("empty headers byte by byte", lambda count: b"GET / HTTP/1.1\r\n" + b"a:\r\n" * count, 24, 1),
                ("blanks in a header", lambda count: b"GET / HTTP/1.1\r\nHost: a\r\nX: a" + b" " * count + b"b\r\n\r\n",
                 15_000, 65536),
                ("empty lines byte by byte", lambda count: b"\r\n" * count, 1_000, 1)):
            small, large = (min(seconds_to_read(made(times * count), size) for _ in range(3)) for times in (1, 4))
            self.check(f"{name}: {small * 1000:.1f} ms, four times as much {large * 1000:.1f} ms", large < 10 * small
                       + 0.01)
