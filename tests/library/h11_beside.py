"""What `h11` reads in the same bytes, and where it differs from our reader, each with the reason."""
import re
import sys

from tests.library.http_mutants import messages_of

sys.dont_write_bytecode = True


def head_of(data):
    return re.split(rb"\r?\n\r?\n", data, maxsplit=1)[0] + b"\r\n"


def values(data, name):
    return [line.partition(b":")[2].strip(b" \t") for line in re.split(rb"\r?\n", head_of(data))[1:]
            if line.lower().startswith(name + b":")]


OF_H11 = (
    ("h11 takes a line that ends with LF alone", lambda data: re.search(rb"(?<!\r)\n", data)),
    ("h11 joins folded headers", lambda data: re.search(rb"\n[ \t]", data)),
    ("h11 lets Transfer-Encoding stand with Content-Length",
     lambda data: values(data, b"transfer-encoding") and values(data, b"content-length")),
    ("h11 takes Transfer-Encoding in HTTP/1.0",
     lambda data: values(data, b"transfer-encoding") and b"HTTP/1.0" in head_of(data)),
    ("h11 lets CONNECT have content", lambda data: data.startswith(b"CONNECT ")),
    ("h11 takes a list in Content-Length, and compares texts: 005 is not 5",
     lambda data: any(re.search(rb",|^0.", value) for value in values(data, b"content-length"))),
    ("h11 refuses each other coding with the head; here the front does, in the service's order",
     lambda data: [value.lower() for value in values(data, b"transfer-encoding")] not in ([], [b"chunked"])),
    ("h11 takes other versions", lambda data: not re.search(rb" HTTP/1\.[01]\r\n", head_of(data))),
    ("h11 takes control characters in values and extensions",
     lambda data: re.search(rb"[\x01-\x08\x0b\x0c\x0e-\x1f\x7f]|\r(?!\n)", data)),
    ("h11 takes each visible byte in a target and no other; the service reads a URI",
     lambda data: not re.match(rb"\S+ (?:\*|/[!$-;=@-_a-z|~?]*|http://[a-z0-9*]+(?::[0-9]+)?(?:/[!$-;=@-_a-z|~?]*)?|"
                               rb"[a-z0-9]+:[0-9]+) ", data)),
    ("h11 takes no blank before an extension (RFC 9112, section 7.1.1: BWS)",
     lambda data: re.search(rb"\n[0-9A-Fa-f]+[ \t]+;", data)),
    ("h11 reads the framing of trailers, which have none",
     lambda data: values(data, b"transfer-encoding") and re.search(rb"(?i)\n0\r\n.*(transfer-encoding|content-length)",
                                                                   data, re.S)),
)


def by_h11(h11, data):
    """The first request with its body, as h11 reads it; None if it takes none."""
    connection, request, body = h11.Connection(h11.SERVER, max_incomplete_event_size=1 << 16), None, b""
    try:
        connection.receive_data(data)
        connection.receive_data(b"")
        while True:
            event = connection.next_event()
            if isinstance(event, h11.Request):
                request = event
            elif isinstance(event, h11.Data):
                body += bytes(event.data)
            elif isinstance(event, h11.EndOfMessage) and request is not None:
                return request.method, request.target, body
            else:
                return None
    except h11.RemoteProtocolError:
        return None


def compared(h11, data):
    """What our reader makes of the first request, and what h11 does; and the reason, if they differ for one that is
    listed."""
    data = re.sub(rb"^(?:\r\n)+", b"", data)  # (h11 takes no empty line before a request: RFC 9112, section 2.2)
    request, body = next(iter(messages_of(data)), (None, None))
    own = None
    if request is not None and isinstance(body, bytes):
        own = request.method.encode(), request.target.encode("latin-1"), body
    seen = by_h11(h11, data)
    return own, seen, own != seen and next((reason for reason, applies in OF_H11 if applies(data)), None)
