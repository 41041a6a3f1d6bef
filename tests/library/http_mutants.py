"""Requests that are nearly HTTP/1.1, and what readers of it make of them: ours, the service's, and that of `h11`."""
import contextlib
import random
import re
import socket
from typing import List, Optional, Tuple

from lambda_local.front.origins import refusal_of
from lambda_local.http1 import CLOSED, CutShort, Data, EndOfMessage, Malformed, Request, RequestReader

LONGEST = 6 << 20  # bytes of a body that the service reads
TAKEN, BROKEN = "taken", "broken body"
HEAD = b"POST /x HTTP/1.1\r\nHost: a\r\n"
SEEDS = (
    b"GET /x HTTP/1.1\r\nHost: a\r\n\r\n",
    HEAD + b"Content-Length: 5\r\n\r\nhello",
    HEAD + b"Transfer-Encoding: chunked\r\n\r\n5\r\nhello\r\n0\r\n\r\n",
    HEAD + b"Transfer-Encoding: chunked\r\nTrailer: A\r\n\r\n3;a=b\r\nabc\r\n0002\r\nde\r\n0\r\nA: b\r\n\r\n",
    HEAD + b"Content-Length: 2\r\nContent-Length: 2\r\nContent-Type: application/json\r\n\r\n{}",
    b"GET /x HTTP/1.0\r\n\r\n",
    b"POST /x HTTP/1.0\r\nConnection: keep-alive\r\nContent-Length: 1\r\n\r\nx",
    b"GET http://localhost:80/x?y=z HTTP/1.1\r\nHost: b\r\n\r\n",
    b"OPTIONS * HTTP/1.1\r\nHost: a\r\n\r\n",
    b"CONNECT a:80 HTTP/1.1\r\nHost: a:80\r\n\r\n",
    b"GET /x HTTP/1.1\r\nHost: a\r\nConnection: content-length, close\r\n\r\n",
    b"\r\nGET /one HTTP/1.1\r\nHost: a\r\n\r\n" + HEAD + b"Content-Length: 1\r\n\r\nx",
    HEAD + b"Content-Length: 44\r\n\r\nPOST /y HTTP/1.1\r\nHost: a\r\nContent-Length: 0\r\n\r\n",
    HEAD + b"X-A:\t b c \t\r\nx-b:\r\nAccept: */*\r\nContent-Length: 0\r\n\r\n",
)
BYTES = b"\r\n \t\0\x01\x0b\x0c\x1f\x7f\x80\x85\xa0\xe9\xff:,;=\"'/?#%@[]<>|*+-._~0159afxAFX"
WORDS = (
    b"\r\n",
    b"\n", b"\r", b"\r\n\r\n", b"\r\n ", b"\r\n\t", b"  ", b"\n\n", b"Host: a\r\n", b"Host: b\r\n", b"Host:\r\n",
    b"host : a\r\n", b"Content-Length: 5\r\n", b"Content-Length: 4\r\n", b"Content-Length: +5\r\n",
    b"Content-Length: 5, 5\r\n", b"Content-Length: 005\r\n", b"Content-Length: 5\xa0\r\n", b"Content-Length:\r\n",
    b"Content-Length : 5\r\n", b"content-length: 18446744073709551616\r\n", b"Content-Length: 9999999\r\n",
    b"Transfer-Encoding: chunked\r\n", b"Transfer-Encoding: CHUNKED\r\n", b"Transfer-Encoding: gzip, chunked\r\n",
    b"Transfer-Encoding: chunked, gzip\r\n", b"Transfer-Encoding: chunked, chunked\r\n", b"Transfer-Encoding:\r\n",
    b"Transfer-Encoding: ,chunked\r\n", b"Transfer-Encoding: chunked,\r\n", b"Transfer-Encoding: \x0bchunked\r\n",
    b"Transfer-Encoding: chunked\xa0\r\n", b"Transfer-Encoding : chunked\r\n", b"Transfer-Encoding: identity\r\n",
    b"transfer-encoding: xchunked\r\n", b"Connection: close\r\n", b"Connection: Keep-Alive\r\n",
    b"Connection: transfer-encoding, host\r\n", b"Upgrade: h2c\r\n", b"Origin: x\r\n", b"Sec-Fetch-Site: none\r\n",
    b"X: y\r\n z\r\n", b"X\r\n", b": y\r\n", b"X y: z\r\n", b"X: \x00\r\n", b"HTTP/1.0", b"HTTP/1.1", b"HTTP/2.0",
    b"http/1.1", b"HTTP/1.2", b"HTTP/1.1 ", b"CONNECT ", b"HEAD ", b"http://a/", b"://", b"a:80", b"user@a", b"%zz",
    b"0\r\n\r\n",
    b"0\r\n", b"5\r\nhello\r\n", b"1;a=\"b\r\n", b"1 ;x\r\nx\r\n", b"1\t\r\nx\r\n", b"00000000000000001\r\nx\r\n",
    b"fffffffffffffffff\r\n", b"-1\r\n", b"0x1\r\n", b"1\n", b"A: b\r\n", b"A\r\n",
)


def mutant(chosen):
    """A seed with one to three changes."""
    data = chosen.choice(SEEDS)
    for _ in range(chosen.choice((1, 1, 1, 2, 2, 3))):
        change = chosen.choice((replaced, inserted, dropped, word_inserted, word_inserted, line_moved, cased))
        data = change(data, chosen)
    return data


def replaced(data, chosen):
    at = chosen.randrange(len(data))
    return data[:at] + bytes([chosen.choice(BYTES)]) + data[at + 1:]


def inserted(data, chosen):
    at = chosen.randrange(len(data) + 1)
    return data[:at] + bytes([chosen.choice(BYTES)]) + data[at:]


def dropped(data, chosen):
    at = chosen.randrange(len(data))
    return data[:at] + data[at + chosen.choice((1, 1, 2, 5)):] or b"x"


def word_inserted(data, chosen):
    """At the beginning of a line, or anywhere."""
    places = [found.end() for found in re.finditer(b"\n", data)] + [0]
    at = chosen.choice(places) if chosen.random() < 0.7 else chosen.randrange(len(data) + 1)
    return data[:at] + chosen.choice(WORDS) + data[at:]


def line_moved(data, chosen):
    lines = data.splitlines(keepends=True)
    line = chosen.choice(lines)
    if chosen.random() < 0.5:
        lines.remove(line)
    lines.insert(chosen.randrange(len(lines) + 1), line)
    return b"".join(lines)


def cased(data, chosen):
    at = chosen.randrange(len(data))
    return data[:at] + data[at:at + chosen.randrange(1, 12)].swapcase() + data[at + 12:]


def mutants(count, seed):
    chosen = random.Random(seed)
    return [mutant(chosen) for _ in range(count)]


# ---- what is made of them --------------------------------------------------------------------------------------------


def events_of(data, sizes=(1 << 30,)):
    """What our reader gives for these bytes, which come in pieces of these sizes in turn; at last perhaps a fault."""
    reader, at, turn = RequestReader(), 0, 0
    while True:
        try:
            event = reader.next_event()
        except Malformed as fault:
            yield fault
            return
        if isinstance(event, (Request, Data, EndOfMessage)):
            yield event
        elif event is CLOSED:
            return
        elif at < len(data) or not reader.ended:
            reader.receive(data[at:at + sizes[turn % len(sizes)]])
            at, turn = at + sizes[turn % len(sizes)], turn + 1
        if isinstance(event, EndOfMessage):
            reader.next_message()


def messages_of(data, sizes=(1 << 30,)):
    """The requests with their bodies: (request, body); a fault at which they end is in place of a body, or alone."""
    request: Optional[Request] = None
    found: List[Tuple[Optional[Request], object]] = []
    body = b""
    for event in events_of(data, sizes):
        if isinstance(event, Request):
            request, body = event, b""
        elif isinstance(event, Data):
            body += event.data
        elif isinstance(event, EndOfMessage):
            found.append((request, body))
            if request is None or not request.keeps_alive:
                return found
            request = None
        else:
            found.append((request, event))
    return found


def own_outcome(data):
    """What a server that follows our reader and the service's rules answers, message by message."""
    words: List[str] = []
    for request, body in messages_of(data):
        refused = refusal_of(request, ()) if request else None
        if refused:
            return [*words, str(refused.status)]
        if request and request.length is not None and request.length > LONGEST:
            return [*words, TAKEN]
        if isinstance(body, bytes):
            words.append(TAKEN)
        elif request:
            words.append(BROKEN)
        elif isinstance(body, Malformed) and not isinstance(body, CutShort):
            words.append(str(body.status))
    return words


ANSWER = re.compile(rb"HTTP/1\.[01] ([0-9]{3}) [^\r\n]*\r\n(.*?)\r\n\r\n", re.S)


def answers_to(port, data):
    """What the service, or a front, answers to these bytes, after which their sender ends its side."""
    with socket.create_connection(("127.0.0.1", port), timeout=20) as peer:
        with contextlib.suppress(BrokenPipeError, ConnectionResetError):
            peer.sendall(data)
            peer.shutdown(socket.SHUT_WR)
        found = b""
        with contextlib.suppress(ConnectionResetError):
            while part := peer.recv(65536):
                found += part
    return found


def outcome_of(answers):
    """The answers that the service's bytes are, in the same words."""
    words: List[str] = []
    at = 0
    while found := ANSWER.match(answers, at):
        status, head, at = found[1].decode(), found[2].lower(), found.end()
        length = re.search(rb"content-length: ([0-9]+)", head)
        body = b"" if answers[at:at + 7] == b"HTTP/1." else answers[at:at + int(length[1] if length else 0)]
        at += len(body)
        if status == "100":
            continue
        if b"Body is malformed" in body:
            return [*words, BROKEN]
        if b"content-type" not in head or status in ("403", "501") or b"Host is malformed" in body:
            return [*words, status]
        words.append(TAKEN)
    return words
