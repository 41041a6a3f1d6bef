"""The connection of a sound runtime or extension to its environment's port, in methods that the wrong ones override.

Thousands of these programs start in a test, and importing `http.client` takes longer than all else that they do: so
they speak the little HTTP that they need by themselves."""
import os
import select
import socket


class Headers(dict):
    """Values by names in any case; None for what is absent."""

    def __getitem__(self, name):
        return self.get(name.lower())

    def __setitem__(self, name, value):
        super().__setitem__(name.lower(), value)


class Answer:
    def __init__(self, status, headers, body):
        self.status, self.headers, self.body = status, headers, body


class Connection:
    """Opened by its first request, and by the next one after it was closed."""

    def __init__(self, address):
        self.address, self.sock, self.timeout, self.received = address, None, None, bytearray()

    def request(self, method, path, body=None, headers=None):
        """Sends a request; a body that is not bytes is a sequence of parts, each of which becomes a chunk if there is
        something in it."""
        self.connect()
        lines = [f"{method} {path} HTTP/1.1", f"Host: {self.address}"]
        lines += [f"{name}: {value}" for name, value in (headers or {}).items()]
        if body is None or isinstance(body, bytes):
            lines += [f"Content-Length: {len(body or b'')}"] if method != "GET" else []
            data = body or b""
        else:
            lines.append("Transfer-Encoding: chunked")
            data = b"".join(b"%x\r\n%b\r\n" % (len(part), part) for part in (*filter(None, body), b""))
        self.sock.sendall("\r\n".join(lines).encode() + b"\r\n\r\n" + data)

    def connect(self):
        if self.sock is None:
            host, _, port = self.address.rpartition(":")
            self.sock = socket.create_connection((host, int(port)), self.timeout)
            self.sock.setsockopt(socket.IPPROTO_TCP, socket.TCP_NODELAY, 1)

    def answer(self):
        head = self._until(b"\r\n\r\n").decode("latin-1").split("\r\n")
        while head[0].split(" ")[1].startswith("1"):  # (an answer before the final one)
            head = self._until(b"\r\n\r\n").decode("latin-1").split("\r\n")
        headers = Headers()
        for line in head[1:-2]:
            name, _, value = line.partition(":")
            headers[name] = value.strip()
        body = self.body(int(head[0].split(" ")[1]), headers)
        if (headers["Connection"] or "").lower() == "close":
            self.close()
        return Answer(int(head[0].split(" ")[1]), headers, body)

    def body(self, status, headers):
        return self._chunks() if headers["Transfer-Encoding"] else self._take(int(headers["Content-Length"] or 0))

    def close(self):
        if self.sock:
            self.sock.close()
        self.sock, self.received = None, bytearray()

    def _chunks(self):
        parts = []
        while size := int(self._until(b"\r\n"), 16):
            parts.append(self._take(size))
            self._until(b"\r\n")
        self._until(b"\r\n")
        return b"".join(parts)

    def _until(self, end):
        """What comes up to this end, and the end itself."""
        while end not in self.received:
            self._receive()
        return self._take(self.received.index(end) + len(end))

    def _take(self, count):
        while len(self.received) < count:
            self._receive()
        taken = bytes(self.received[:count])
        del self.received[:count]
        return taken

    def _receive(self):
        data = self.sock.recv(1_048_576)
        if not data:
            raise ConnectionResetError("the peer has ended the connection")
        self.received += data


class Client:
    connected = Connection

    def __init__(self):
        self.address = os.environ["AWS_LAMBDA_RUNTIME_API"]
        self.connection = self.connected(self.address)

    def headers(self):
        """Those of each request."""
        return {}

    def ask(self, method, path, body=None, headers=None):
        """The answer. If the connection has ended meanwhile there is a new one; a poll that finds that out only on its
        way is sent again."""
        if self.connection.sock and select.select([self.connection.sock], [], [], 0)[0]:
            self.connection.close()
            self.connection_ended()
        headers = {**self.headers(), **(headers or {})}
        for attempt in (1, 2):
            try:
                self.connection.request(method, path, body, headers)
                return self.connection.answer()
            except (ConnectionError, socket.timeout):
                self.connection.close()
                if method != "GET" or attempt == 2:
                    raise
                self.connection_ended()
        raise AssertionError

    def connection_ended(self):
        """The service has ended the connection."""
