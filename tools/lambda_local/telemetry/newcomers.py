"""Connections that come to a listener, also while there is no descriptor for a further one."""
import asyncio
import errno
import socket
from typing import Callable

AT_ONCE = 16  # newcomers that are accepted before others have their turn
WITHOUT_ROOM = (errno.EMFILE, errno.ENFILE, errno.ENOBUFS, errno.ENOMEM)
PAUSE = 0.1  # seconds, after a newcomer for whom there is no descriptor


class Newcomers:
    """`welcome` is given the socket of each. If there is no descriptor for one, `when_short` is called, and the
    listener is looked at again after a pause. (The loop's own way reports each of these, some thousand times a second.)
    """

    def __init__(self, listener: socket.socket, welcome: Callable[[socket.socket], None],
                 when_short: Callable[[], None]) -> None:
        self.listener, self.welcome, self.when_short = listener, welcome, when_short

    def begin(self) -> None:
        self.loop = asyncio.get_running_loop()
        self.listener.setblocking(False)
        self.loop.add_reader(self.listener, self.accept)

    def end(self) -> None:
        if self.listener.fileno() >= 0:
            self.loop.remove_reader(self.listener)
        self.listener.close()

    def accept(self) -> None:
        for _ in range(AT_ONCE):
            try:
                peer, _ = self.listener.accept()
            except (BlockingIOError, InterruptedError, ConnectionAbortedError):
                return
            except OSError as fault:
                if fault.errno not in WITHOUT_ROOM:
                    raise
                self.pause()
                return
            peer.setblocking(False)
            self.welcome(peer)

    def pause(self) -> None:
        self.when_short()
        self.loop.remove_reader(self.listener)
        self.loop.call_later(PAUSE, self.go_on)

    def go_on(self) -> None:
        if self.listener.fileno() >= 0:
            self.loop.add_reader(self.listener, self.accept)
