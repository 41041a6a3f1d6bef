"""The lines of lambda_local up on standard error: who says it and when, as text or as JSON.

What reads them may be slow, or may not read at all. Whoever has a line puts it into a queue, which is bounded, and a
thread writes. While there is little room, no more is read of what processes print. Without room, a line is left out and
counted, and the log says so once there is room."""
import json
import os
import select
import sys
import threading
import time
from collections import deque
from datetime import datetime, timezone
from typing import Deque, Dict, Optional, TextIO

from ..outgoing import printable, printable_output, several

OUTPUT = "output"  # the kind of a line that a process wrote
COLOURS = {"error": "31", "warning": "33", "ok": "32"}
NAMES = ("36", "35", "34", "96", "95", "94")  # by turns, so that functions can be distinguished
MOST_WAITING = 4 << 20  # bytes of lines that wait to be written
AT_ONCE = 64 << 10  # bytes, in one write
ROOM = 2 << 20  # bytes of them that are left for a piece of what a process prints
PATIENCE = 1.0  # seconds: as long a process that prints waits for a reader, and as long an end waits for it
LAST_SECONDS = 10.0  # of an end, for a reader that is slow


class Writer(threading.Thread):
    """Writes bytes to a descriptor, however slow its reader is: those that put them here do not wait."""

    def __init__(self, descriptor: int):
        super().__init__(name="log", daemon=True)
        self.descriptor = descriptor
        self.changed = threading.Condition()
        self.waiting: Deque[bytes] = deque()
        self.size = 0  # of what waits or is being written
        self.moved = time.monotonic()  # when the reader last took some
        self.left_out = self.bytes_left_out = 0
        self.is_closed = self.is_broken = False

    @property
    def is_short(self) -> bool:
        """Whether there is little room, and the reader still reads: what processes print is to wait."""
        return self.size > MOST_WAITING - ROOM and not self.is_closed and time.monotonic() < self.moved + PATIENCE

    def wait_for_room(self, seconds: float) -> None:
        """Waits while it is short, at most so long."""
        end = time.monotonic() + seconds
        with self.changed:
            while self.is_short and (left := min(end, self.moved + PATIENCE) - time.monotonic()) > 0:
                self.changed.wait(left)

    def put(self, line: bytes, note: "Note") -> None:
        """Takes a line if there is room. `note` makes the line that says how many were left out before this one."""
        with self.changed:
            if self.is_closed or self.is_broken:
                return
            if self.size and self.size + len(line) > MOST_WAITING:
                self.left_out += 1
                self.bytes_left_out += len(line)
                return
            self._take(self._noted(note) + line)

    def _noted(self, note: "Note") -> bytes:
        count, size, self.left_out, self.bytes_left_out = self.left_out, self.bytes_left_out, 0, 0
        return note(count, size) if count else b""

    def _take(self, data: bytes) -> None:
        if not self.size:
            self.moved = time.monotonic()
        self.waiting.append(data)
        self.size += len(data)
        self.changed.notify_all()

    def close(self, note: "Note") -> None:
        """Takes no further line, and waits until all are written or the reader reads no more."""
        end = time.monotonic() + LAST_SECONDS
        with self.changed:
            if self.left_out and not self.is_closed:
                self._take(self._noted(note))
            self.is_closed = True
            self.changed.notify_all()
            while (self.size and not self.is_broken and self.is_alive()
                   and (left := min(end, self.moved + PATIENCE) - time.monotonic()) > 0):
                self.changed.wait(left)

    def run(self) -> None:
        while data := self._next():
            left = memoryview(data)
            try:
                while left:
                    written = self._write(left[:AT_ONCE])
                    left = left[written:]
                    with self.changed:
                        self.size -= written
                        self.moved = time.monotonic()
                        self.changed.notify_all()
            except OSError:  # what reads it has gone; the functions go on
                with self.changed:
                    self.is_broken, self.size = True, 0
                    self.waiting.clear()
                    self.changed.notify_all()
                return

    def _next(self) -> bytes:
        """Some of what waits; nothing after the end."""
        with self.changed:
            while not self.waiting and not self.is_closed:
                self.changed.wait()
            taken = []
            size = 0
            while self.waiting and size < AT_ONCE:
                taken.append(self.waiting.popleft())
                size += len(taken[-1])
            return taken[0] if len(taken) == 1 else b"".join(taken)

    def _write(self, data: memoryview) -> int:
        try:
            return os.write(self.descriptor, data)
        except BlockingIOError:  # (whoever shares it has made it so)
            waiting = select.poll()
            waiting.register(self.descriptor, select.POLLOUT)
            waiting.poll(1000)
            return 0


class Note:
    """Makes the line that says how many were left out."""

    def __init__(self, log: "Log"):
        self.log = log

    def __call__(self, count: int, size: int) -> bytes:
        text = (f"{several(count, 'line')} ({several(size, 'byte')}) {'is' if count == 1 else 'are'} left out here: "
                "what reads the log did not take them in time")
        return self.log.line("up", text, "warning", "log", {"count": count, "bytes": size})


class Log:
    """`form` is "text" or "json". If it is quiet, prints only what processes write, warnings and errors."""

    def __init__(self, form: str = "text", quiet: bool = False, stream: Optional[TextIO] = None):
        self.form, self.quiet, self.stream = form, quiet, stream or sys.stderr  # (kept, so that it stays open)
        self.is_coloured = (form == "text" and self.stream.isatty() and not os.environ.get("NO_COLOR")
                            and os.environ.get("TERM", "dumb") != "dumb")
        self.colours: Dict[str, str] = {}
        self.second = 0, ""  # of the last line, and as the log has it
        self.note = Note(self)
        self.stream.flush()
        self.writer = Writer(self.stream.fileno())
        self.writer.start()

    def __call__(self, who: str, text: str, level: str = "info", kind: str = "up", always: bool = False,
                 **members: object) -> None:
        """`level` is "info", "ok", "warning" or "error"; `members` are those of a line's object in JSON alone."""
        if self.quiet and level in ("info", "ok") and kind != OUTPUT and not always:
            return
        self.writer.put(self.line(who, text, level, kind, members), self.note)

    def wait_for_room(self) -> None:
        """For a thread that has a line of a process: waits while there is little room, up to PATIENCE."""
        self.writer.wait_for_room(PATIENCE)

    def is_short(self) -> bool:
        """Whether there is little room for more of what processes print, which is to wait."""
        return self.writer.is_short

    def line(self, who: str, text: str, level: str, kind: str, members: Dict[str, object]) -> bytes:
        now = time.time()
        if self.form == "json":
            moment = datetime.fromtimestamp(now, timezone.utc).isoformat(timespec="milliseconds").replace("+00:00", "Z")
            level = "info" if level == "ok" else level
            line = json.dumps({"time": moment, "level": level, "kind": kind, "source": who, "text": text, **members})
        else:
            line = self.as_text(now, printable(who), (printable_output if kind == OUTPUT else printable)(text), level)
        return (line + "\n").encode(errors="backslashreplace")

    def as_text(self, now: float, who: str, text: str, level: str) -> str:
        second, (known, time_of_day) = int(now), self.second
        if second != known:
            time_of_day = datetime.fromtimestamp(second).strftime("%H:%M:%S")
            self.second = second, time_of_day
        stamp = f"{time_of_day}.{int(1000 * (now - second)):03}"
        if not self.is_coloured:
            return f"{stamp} [{who}] {text}"
        name = who.partition("/")[0]
        colour = self.colours.setdefault(name, NAMES[len(self.colours) % len(NAMES)])
        if level in COLOURS:
            text = f"\x1b[{COLOURS[level]}m{text}\x1b[0m"
        return f"\x1b[2m{stamp}\x1b[0m \x1b[{colour}m[{who}]\x1b[0m {text}"

    def close(self) -> None:
        """Writes what waits, unless nobody reads it."""
        self.writer.close(self.note)
