"""A service that gives its trace otherwise than the program does: in any pieces, broken off, or not at all."""
import socket
import threading

HEAD = b"HTTP/1.1 200 OK\r\ncontent-type: application/x-ndjson\r\ntransfer-encoding: chunked\r\n\r\n"
LAST = b"0\r\n\r\n"


def line(ticket):
    """The line of an entry of a trace."""
    return (f'{{"answers":[],"call":{{"environment":1,"kind":"next"}},"moment":{ticket},"phases":[],"released":[],'
            f'"ticket":{ticket}}}\n').encode()


def failed(ticket, report=None):
    """That of one in which a failure is reported, with or without its bodies."""
    body = "" if report is None else f'"body":"{report}",'
    return (f'{{"answers":[{{"answer":"error",{body}"source":{ticket},"ticket":0}},{{"answer":"accepted",'
            f'"ticket":{ticket}}}],"call":{{{body}"environment":1,"id":1,"kind":"failure"}},"moment":{ticket},'
            f'"phases":[],"released":[],"ticket":{ticket}}}\n').encode()


def chunks(body, size=1 << 20):
    return b"".join(b"%x\r\n%b\r\n" % (len(part), part)
                    for part in (body[at:at + size] for at in range(0, len(body), size)))


class Fake:
    """A service that gives each connection the next of these answers, in pieces of so many bytes. It closes the
    connection after it, or, if it is to be silent, at its end."""

    def __init__(self, *answers, pieces=1 << 20, silent=False):
        self.answers, self.pieces, self.silent = answers, pieces, silent
        self.asked, self.held = [], []
        self.listener = socket.create_server(("127.0.0.1", 0))
        self.port = self.listener.getsockname()[1]
        self.thread = threading.Thread(target=self.serve)
        self.thread.start()

    def serve(self):
        for answer in self.answers:
            connection, _ = self.listener.accept()
            head = b""
            while b"\r\n\r\n" not in head:
                head += connection.recv(1 << 16)
            self.asked.append(head.split(b" ")[1].decode())
            for at in range(0, len(answer), self.pieces):
                connection.sendall(answer[at:at + self.pieces])
            if self.silent:
                self.held.append(connection)
            else:
                connection.close()

    def close(self):
        self.thread.join(10)
        for connection in (self.listener, *self.held):
            connection.close()
