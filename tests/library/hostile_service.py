"""Services that hand over what a check says, in whatever way, and go on, or read no answer."""
import contextlib
import socket
import threading
from typing import Tuple

from lambda_local.front.handler import HERE
from tests.library.failing_service import PATIENCE, answer, head_in


class Hostile(threading.Thread):
    """A service that does these deeds, one on each connection: it sends this to a `next`, this to the post, and closes
    the connection. What it was sent is kept."""
    reads = 1  # how often it reads on after it has said that

    def __init__(self, *deeds: Tuple[bytes, bytes]) -> None:
        super().__init__(daemon=True)
        self.deeds, self.posts, self.connections, self.open = list(deeds), [b""] * 0, 0, 0
        self.listener, self.is_over = socket.create_server(("127.0.0.1", 0)), threading.Event()
        self.port = self.listener.getsockname()[1]
        self.start()

    def run(self) -> None:
        with contextlib.suppress(OSError):
            while True:
                peer, _ = self.listener.accept()
                self.connections += 1
                threading.Thread(target=self.serve, args=(peer, ), daemon=True).start()

    def serve(self, peer: socket.socket) -> None:
        with peer, peer.makefile("rb") as stream, contextlib.suppress(OSError):
            if HERE.encode() in head_in(stream):
                return peer.sendall(answer(204, b""))
            given, said = self.deeds.pop(0) if self.deeds else (b"", b"")
            if not given:
                peer.recv(1)  # (it waits)
                return
            peer.sendall(given)
            self.posts.append(head_in(stream))
            peer.sendall(said)
            for _ in range(self.reads if said else 0):
                self.posts.append(stream.read1(1 << 16))

    def close(self) -> None:
        self.listener.shutdown(socket.SHUT_RDWR)
        self.listener.close()


class Deaf(Hostile):
    """One that reads no post."""

    def __init__(self, *deeds: Tuple[bytes, bytes]) -> None:
        super().__init__(*deeds)
        self.listener.setsockopt(socket.SOL_SOCKET, socket.SO_RCVBUF, 4096)

    def serve(self, peer: socket.socket) -> None:
        with peer, peer.makefile("rb") as stream, contextlib.suppress(OSError):
            if HERE.encode() in head_in(stream):
                return peer.sendall(answer(204, b""))
            peer.sendall(self.deeds.pop(0)[0] if self.deeds else b"")
            self.is_over.wait(PATIENCE)

    def close(self) -> None:
        self.is_over.set()
        super().close()
