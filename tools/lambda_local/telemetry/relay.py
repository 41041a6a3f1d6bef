"""What stands before environments whose runtimes do not mark what they print, in a process of its own
(`relay_process`): the loop of lambda_local up would share one interpreter with it, and each invocation would wait for
what else is done there."""
import contextlib
import json
import os
import socket
import struct
import subprocess
import sys
from typing import Callable, Dict, Optional

from ..paths import PACKAGE
from .beside import Beside, Marker

LONGEST_MESSAGE = 64 << 10  # bytes
SEND_SECONDS = 20  # for it to take a message
END_SECONDS = 10.0  # for it to end
START = "import sys; sys.path.insert(0, sys.argv.pop(1)); from lambda_local.telemetry.relay_process import main; " \
        "main(int(sys.argv[1]))"
Hear = Callable[[int, Callable[[], bool]], None]  # has this called when there is something to read, until it says no
Tell = Callable[[int, str, str], None]  # the number of an environment, a kind, a line


class Relay:
    """The process, and what it tells, which is heard by a loop. `when_lost` is called if it ends before it is to."""

    def __init__(self, tell: Tell, when_lost: Callable[[], None], hear: Hear) -> None:
        self.tell, self.when_lost = tell, when_lost
        self.count = 0  # of processes whose output it was given
        self.ends = False
        self.channel, its = socket.socketpair(socket.AF_UNIX, socket.SOCK_SEQPACKET)
        self.channel.setsockopt(socket.SOL_SOCKET, socket.SO_SNDTIMEO, struct.pack("ll", SEND_SECONDS, 0))
        with its:
            # In a session of its own, since a terminal's signals are not for it. It ends once this socket closes.
            self.process = subprocess.Popen(
                [sys.executable or "python3", "-I", "-S", "-c", START, os.path.dirname(PACKAGE), str(its.fileno())],
                stdin=subprocess.DEVNULL, cwd="/", stdout=subprocess.DEVNULL, start_new_session=True,
                pass_fds=[its.fileno()])
        hear(self.channel.fileno(), self.come)

    def listen(self, number: int, port: int, listener: socket.socket) -> None:
        """From now on it accepts what comes to this listener, for the environment with this port."""
        with listener:
            self._send({"what": "listen", "environment": number, "port": port}, listener.fileno())

    def prints(self, number: int, output: int, mark: str) -> int:
        """A process of an environment, which is started next, prints into this pipe. Returns its number."""
        self.count += 1
        count = self.count
        # (opened anew, since whether a write waits is a matter of the opening, which the process would share)
        marking = os.open(f"/proc/self/fd/{output}", os.O_WRONLY | os.O_NONBLOCK)
        try:
            self._send({"what": "prints", "environment": number, "process": count, "mark": mark}, marking)
        finally:
            os.close(marking)
        return count

    def ended(self, number: int, process: int) -> None:
        """A process has ended: its pipe has an end now."""
        with contextlib.suppress(OSError):
            self._send({"what": "ended", "environment": number, "process": process})

    def _send(self, message: Dict[str, object], descriptor: Optional[int] = None) -> None:
        """OSError if it has ended, or does not take it in time."""
        data = json.dumps(message).encode()
        socket.send_fds(self.channel, [data], [] if descriptor is None else [descriptor])

    def come(self) -> bool:
        """Takes what it tells next, which is waited for; whether there can be more."""
        data = b""
        with contextlib.suppress(OSError):
            data = self.channel.recv(LONGEST_MESSAGE)
        if data:
            said = json.loads(data)
            self.tell(said["environment"], said["kind"], said["text"])
        elif not self.ends:
            self.when_lost()
        return bool(data)

    def end(self) -> None:
        """Once all that it stands before has ended, and the loop: its last lines are told."""
        self.ends = True
        with contextlib.suppress(OSError):
            self.channel.shutdown(socket.SHUT_WR)
        self.channel.settimeout(END_SECONDS)
        while self.come():
            pass
        try:
            self.process.wait(END_SECONDS)
        except subprocess.TimeoutExpired:
            self.process.kill()
            self.process.wait()
        self.channel.close()


class OfEnvironment(Marker):
    """Has what the processes of an environment print marked."""

    def __init__(self, relay: Relay, number: int):
        self.relay, self.number = relay, number

    def begins(self, output: int, mark: str) -> int:
        return self.relay.prints(self.number, output, mark)

    def ended(self, process: int) -> None:
        self.relay.ended(self.number, process)


class BehindRelay(Beside):
    divides = True

    def __init__(self, relay: Relay, number: int, listener: socket.socket, port: int):
        super().__init__(listener.getsockname()[1])
        relay.listen(number, port, listener)
        self.marker = OfEnvironment(relay, number)
