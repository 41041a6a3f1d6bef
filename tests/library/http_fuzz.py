"""HTTP/1.1 for tests/tools/test_fuzz.py: heads, framings and bodies that go through `lambda_local.http1` whole and in
pieces, and through `h11` where it is installed; bodies in chunks beside a reading that looks at one line after the
other; and heads that are written and read again. Each reader takes bytes; a difference is an AssertionError."""
import random
import re
from typing import List

from tests.library.h11_beside import compared
from tests.library.http_mutants import HEAD, SEEDS, WORDS, messages_of, mutant
from lambda_local.http1 import (CLOSED, Data, EndOfMessage, Malformed, Request, RequestReader, Response,
                                ResponseReader, Unwritable, request_head, response_head)

try:
    import h11
except ImportError:
    h11 = None  # type: ignore[assignment]
RESPONSE = b"HTTP/1.1 200 OK\r\nContent-Length: 2\r\n\r\nhiHTTP/1.1 204 No\r\n\r\nHTTP/1.1 502\r\n\r\nrest"
CHUNKED = HEAD + b"Transfer-Encoding: chunked\r\n\r\n"
CHUNKS = CHUNKED + b"1\r\nx\r\n" * 9 + b"5;a=b\r\nhello\r\n0 \r\nA: b\r\n\r\n"
WRITTEN = b"GET /a?b\nHost: a\nX:  y\xe9\n"
# As the field's standard has it, over a whole line (RFC 9112, sections 5 and 7.1), and within the service's limits.
SIZE = re.compile(rb"0*([0-9A-Fa-f]{1,16})[ \t]*(?:;[\t -~\x80-\xff]*)?")
FIELD = re.compile(rb"[!#$%&'*+.^_`|~0-9A-Za-z-]+:[\t -~\x80-\xff]*")
LIMIT = 16 << 10


def cuts_of(data):
    """Sizes of pieces: single bytes, and some that depend on the data."""
    chosen = random.Random(data)
    yield (1,)
    yield tuple(chosen.randrange(1, 9) for _ in range(5))
    yield tuple(chosen.choice((1, 2, 60, 500)) for _ in range(7))


def without_reasons(messages):
    """What is said of a fault depends on how much had come when it was seen; its kind and status do not."""
    return [(request, (type(body), body.status) if isinstance(body, Malformed) else body) for request, body in messages]


def of_requests(data):
    """Pieces change nothing; and h11 reads the same, or it is listed why not."""
    whole = without_reasons(messages_of(data))
    for sizes in cuts_of(data):
        assert without_reasons(messages_of(data, sizes)) == whole, (sizes, whole)
    if h11:
        own, seen, listed = compared(h11, data)
        assert own == seen or listed, (own, seen)


def responses_of(data, sizes):
    """The responses with their bodies, to a GET and a HEAD in turn; and the fault at which they end."""
    reader, at, turn, body = ResponseReader(), 0, 0, b""
    found: List[object] = []
    while True:
        try:
            event = reader.next_event()
        except Malformed as fault:
            return [*found, (type(fault), fault.status)]
        if event is CLOSED:
            return found
        if isinstance(event, Response):
            found.append(event)
            body = b""
        elif isinstance(event, Data):
            body += event.data
        elif isinstance(event, EndOfMessage):
            found.append((body, event.trailers))
            reader.method = "HEAD" if reader.method == "GET" else "GET"
            reader.next_message()
        else:
            size = sizes[turn % len(sizes)]
            reader.receive(data[at:at + size])
            at, turn = at + size, turn + 1


def of_responses(data):
    whole = responses_of(data, (1 << 30,))
    for sizes in cuts_of(data):
        assert responses_of(data, sizes) == whole, (sizes, whole)


def by_lines(data):
    """The bytes that a body in chunks has, and how many bytes it takes; None if it is not one, or not whole."""
    at, body, extensions = 0, b"", 0
    while True:
        end = data.find(b"\r\n", at)
        found = SIZE.fullmatch(data[at:end]) if end >= 0 else None
        if not found:
            return None
        size = int(found[1], 16)
        extensions += end - at - len(found[1].lstrip(b"0") or b"0")
        at = end + 2
        if size == 0:
            break
        body += data[at:at + size]
        if data[at + size:at + size + 2] != b"\r\n":
            return None
        at += size + 2
    begun = at
    while (end := data.find(b"\r\n", at)) > at:
        if not FIELD.fullmatch(data[at:end]):
            return None
        at = end + 2
    is_within = extensions <= LIMIT and end + 2 - begun <= LIMIT and data.count(b"\r\n", begun, at) <= 100
    return (body, end + 2) if end == at and is_within else None


def of_chunks(data):
    """A body in chunks has the bytes that a reader of one line after the other finds."""
    of_requests(data)
    if not data.startswith(CHUNKED):
        return
    wanted, rest = by_lines(data[len(CHUNKED):]), data[len(CHUNKED):]
    _, body = next(iter(messages_of(data)))
    own = body if isinstance(body, bytes) else None
    assert own == (wanted and wanted[0]), (own, wanted)
    if wanted:  # (what follows is the next request, and not a part of this one)
        after = messages_of(data)[1:]
        assert without_reasons(after) == without_reasons(messages_of(rest[wanted[1]:])), after


def of_written(data):
    """What is written is read again as it was, as one message; or it is not written."""
    first, *lines = data.decode("latin-1").split("\n") if data else [""]
    method, _, target = first.partition(" ")
    headers = [(name, value) for name, _, value in (line.partition(":") for line in lines)]
    headers = [("Host", "a"), ("Content-Length", "0"), *(one for one in headers if one[0].lower() not in (
        "host", "content-length", "transfer-encoding", "connection", "expect"))]
    plain = [(name, value.strip(" \t")) for name, value in headers]
    for written, reader, kind in ((lambda: request_head(method, target, headers), RequestReader(), Request),
                                  (lambda: response_head("HTTP/1.1", 200, first, headers), ResponseReader(), Response)):
        try:
            head = written()
        except Unwritable:
            continue
        reader.receive(head)
        try:
            event = reader.next_event()
        except Malformed as fault:  # (a limit, or what the service takes for no target; it is refused, not misread)
            assert kind is Request or fault.status == 431, fault
            continue
        assert isinstance(event, kind) and isinstance(event, (Request, Response)), (event, head)
        assert event.headers == plain, (event, head)
        assert isinstance(reader.next_event(), EndOfMessage) and reader.is_silent, head
        assert isinstance(event, Response) or (event.method, event.target) == (method, target), event


# ---- what they are given ---------------------------------------------------------------------------------------------


def random_mutants(some):
    return some.integers(0, 1 << 60).map(lambda number: mutant(random.Random(number)))


def bodies_in_chunks(some):
    """Runs of chunks of one size, which are read at once, and what may stand between them."""
    run = some.tuples(some.integers(1, 20), some.integers(1, 70), some.sampled_from(
        [b"", b"", b"", b";a", b" ", b"\t;b=c", b" ;", b"\r", b";\n"]), some.binary(min_size=1, max_size=1))
    end = some.sampled_from([b"0\r\n\r\n", b"0\r\n\r\n", b"000 ;x\r\nA: b\r\n\r\n", b"0\r\nA\r\n\r\n", b"0\r\n", b"",
                             b"0\r\n\r\n" + SEEDS[0], b"0\r\n\r\n\r\n" + CHUNKS])

    def made(parts):
        runs, last = parts
        return CHUNKED + b"".join((b"%x" % size + extension + b"\r\n" + letter * size + b"\r\n") * count
                                  for size, count, extension, letter in runs) + last
    return some.tuples(some.lists(run, max_size=5), end).map(made)


def parts(some, mutated):
    """Each part's name: its reader, what is right, and what it is given. `mutated` makes an original others with
    words."""
    return {
        "requests": (of_requests, SEEDS[1], some.one_of(
            some.sampled_from(SEEDS).flatmap(lambda seed: mutated(seed, WORDS)), random_mutants(some),
            some.binary(max_size=200))),
        "responses": (of_responses, RESPONSE, some.one_of(mutated(RESPONSE, WORDS), mutated(RESPONSE, WORDS),
                                                          some.binary(max_size=200))),
        "chunks": (of_chunks, CHUNKS, some.one_of(
            mutated(CHUNKS, WORDS), bodies_in_chunks(some),
            bodies_in_chunks(some).flatmap(lambda body: mutated(body, WORDS)))),
        "written": (of_written, WRITTEN, some.one_of(mutated(WRITTEN, WORDS), some.binary(max_size=100)))}
