"""What a process prints, in lines of a bounded length."""
import array
import asyncio
import codecs
import fcntl
import os
import termios
import time
from typing import Callable, List, Optional, Tuple

from .bell import settle

LONGEST_LINE = 256 << 10  # characters; a longer line is written in parts of that length (as Lambda's log does)
PIECE = 8 << 10  # bytes that a loop reads at once: lines of them fit into the room that there is
SOME = 256  # bytes of them that are taken between two looks at the time
SLICE = 0.002  # seconds
PATIENCE = 1.0  # seconds: as long a process that prints waits for room
BETWEEN_LOOKS = 0.01  # seconds, for room
OF_IDENTIFIER = 36  # characters of an invocation's, after a mark


class Splitter:
    """Gives each line of the bytes that it is fed to `take`, without its end. Keeps no more than a line's greatest
    length: what has no line feed costs no memory."""

    def __init__(self, take: Callable[[str], None]):
        self.take = take
        self.decoder = codecs.getincrementaldecoder("utf-8")("replace")
        self.parts: List[str] = []
        self.length = 0
        self.since = 0.0  # when the first part came, by the time of day
        self.ends = True  # whether the last byte was a line's end, so that nothing of a line is kept

    def feed(self, data: bytes) -> None:
        """Nothing is the end."""
        self.ends = data[-1:] in (b"\n", b"")
        *whole, rest = self.decoder.decode(data, not data).split("\n")
        for line in whole:
            self.take(self._joined(line).rstrip("\r"))
        if rest:
            self.since = self.since if self.parts else time.time()
            self.parts.append(rest)
            self.length += len(rest)
        if self.length >= LONGEST_LINE:
            self.take(self._joined())
        if self.parts and not data:
            self.take(self._joined().rstrip("\r"))

    def _joined(self, last: str = "") -> str:
        line = "".join([*self.parts, last])
        self.parts, self.length = [], 0
        return line

    @property
    def unfinished(self) -> Tuple[float, str]:
        """What has come of a line whose end has not, and since when."""
        return self.since, "".join(self.parts)

    def cut(self) -> None:
        """What has come of a line whose end has not is a line."""
        if not self.ends:
            Splitter.feed(self, b"")


class MarkedSplitter(Splitter):
    """What a bundled runtime prints: before an invocation a mark, which nothing else begins with, the identifier and a
    line feed. `divide` is given the identifier, between the lines before it and those after it."""

    def __init__(self, take: Callable[[str], None], divide: Callable[[str], None], mark: bytes):
        super().__init__(take)
        self.divide, self.mark = divide, mark
        self.held = b""  # what may be the beginning of a mark

    def feed(self, data: bytes) -> None:
        rest, *begun = (self.held + data).split(self.mark)
        self.held = self.mark + begun.pop() if begun and len(begun[-1]) <= OF_IDENTIFIER else b""
        for each in begun:
            self._pass(rest)
            self.cut()
            self.divide(each[:OF_IDENTIFIER].decode("ascii", "replace"))
            rest = each[OF_IDENTIFIER + 1:]
        if not data:
            self._pass(rest + self.held)
            self.held = b""
            return self.cut()
        if rest and not self.held:
            whole = self._before_half_a_mark(rest)
            rest, self.held = rest[:whole], rest[whole:]
        self._pass(rest)

    def _pass(self, data: bytes) -> None:
        if data:
            super().feed(data)

    def _before_half_a_mark(self, data: bytes) -> int:
        """How many bytes come before what the mark may begin with at their end."""
        place = data.rfind(self.mark[:1], max(0, len(data) - len(self.mark) + 1))
        return place if place >= 0 and self.mark.startswith(data[place:]) else len(data)


class Pace:
    """Of all readers of a loop: what is printed takes up to half of its time, in turns of SLICE seconds."""

    def __init__(self) -> None:
        self.free = 0.0  # when as long has passed again as what was printed has taken


class Reader:
    """Reads what comes from a pipe, as it comes, until its end, in the running loop. While there `is_short` of room for
    more, whoever prints waits, up to PATIENCE for each piece."""

    def __init__(self, descriptor: int, splitter: Splitter, is_short: Callable[[], bool], pace: Pace) -> None:
        self.descriptor, self.splitter, self.is_short, self.pace = descriptor, splitter, is_short, pace
        self.ahead = b""  # what was read and not taken
        self.loop = asyncio.get_running_loop()
        self.over: "asyncio.Future[None]" = self.loop.create_future()  # done once all was read
        self.short_since: Optional[float] = None
        os.set_blocking(descriptor, False)
        self.loop.add_reader(descriptor, self._come)

    def _come(self) -> None:
        now = self.loop.time()
        debt = self.pace.free - now
        if (waits := self._waits(now)) or debt > SLICE / 2:
            return self._pause(max(debt, BETWEEN_LOOKS if waits else 0.0))
        if not self.ahead and self._read() == 0:
            self.splitter.feed(b"")
            self.loop.remove_reader(self.descriptor)
            os.close(self.descriptor)
            return settle(self.over, None)
        took = 0.0
        while self.ahead and took < SLICE:
            self._take()
            took = self.loop.time() - now
        self.pace.free += 2 * took - min(debt, 0.0)
        if self.ahead:  # (nothing may come any more)
            self._pause(took)

    def _pause(self, seconds: float) -> None:
        self.loop.remove_reader(self.descriptor)
        self.loop.call_later(seconds, self._go_on)

    def _waits(self, now: float) -> bool:
        if not self.is_short():
            self.short_since = None
            return False
        if self.short_since is None:
            self.short_since = now
        if now - self.short_since < PATIENCE:
            return True
        self.short_since = now
        return False

    def _go_on(self) -> None:
        if not self.over.done():
            self.loop.add_reader(self.descriptor, self._come)
            if self.ahead:
                self._come()

    def settle(self, cuts: bool = False) -> Tuple[float, str]:
        """Takes all that was written by now; what has come of the line that is not whole yet, and since when. If it
        cuts, that is a line as well."""
        left = 0 if self.over.done() else len(self.ahead) + self._unread()
        while left > 0 and (self.ahead or self._read() > 0):
            left -= self._take()
        if cuts:
            self.splitter.cut()
        return self.splitter.unfinished

    def _take(self) -> int:
        """Takes some of what was read; how many bytes."""
        some, self.ahead = self.ahead[:SOME], self.ahead[SOME:]
        self.splitter.feed(some)
        return len(some)

    def _read(self) -> int:
        """How many bytes it has read: 0 at the end, and less if nothing is here."""
        try:
            self.ahead = os.read(self.descriptor, PIECE)
        except BlockingIOError:  # (`settle` has taken it)
            return -1
        return len(self.ahead)

    def _unread(self) -> int:
        """How many bytes wait in the pipe."""
        count = array.array("i", [0])
        fcntl.ioctl(self.descriptor, termios.FIONREAD, count)
        return count[0]
