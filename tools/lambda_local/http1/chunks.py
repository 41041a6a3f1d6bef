"""Bodies in chunks (RFC 9112, section 7.1)."""
import re
from typing import List, Optional

from .syntax import Malformed

LINE = re.compile(rb"([0-9A-Fa-f]+)([ \t]*)(?:;([\t -~\x80-\xff]*))?\r\n")
BEGUN_LINE = re.compile(rb"(?:[0-9A-Fa-f]+[ \t]*(?:;[\t -~\x80-\xff]*)?\r?)?")
PLAIN_LINE = re.compile(rb"([1-9A-Fa-f][0-9A-Fa-f]{0,7})\r\n")
MOST_DIGITS = 16  # without leading zeros
AT_ONCE = 128 << 10  # bytes of a body that are read before others have their turn
MOST_EXTENSIONS = 16 << 10  # bytes, of all chunks of a body
LEAST_MEAN = 64  # bytes between two CR LF, if chunks are read all at once


class Chunks:
    """The position in such a body. `extensions` is how many bytes of extensions, blanks and leading zeros are still
    taken."""

    def __init__(self) -> None:
        self.extensions = MOST_EXTENSIONS
        self.left: Optional[int] = None  # bytes of the present chunk that are still to come; none before its size
        self.is_over = False  # the last chunk has come, and the trailers follow

    def take(self, buffer: bytearray) -> bytes:
        """Takes chunks off the buffer, or a part of one, up to the last one. Returns their data; none if more bytes are
        needed."""
        parts: List[bytes] = []
        with memoryview(buffer) as view:
            text, at, begun, has_tried = bytes(view[:AT_ONCE]), 0, -1, False
        while at > begun and not self.is_over:
            begun = at
            if self.left is None:
                at = self._plain(text, at if has_tried else all_at_once(text, at, parts), parts)
                has_tried = True
                at = self._size(text, at, len(buffer) > len(text))
            elif self.left:
                data = text[at:at + self.left]
                at, self.left = at + len(data), self.left - len(data)
                parts.append(data)
            else:
                at = self._end(text, at)
        del buffer[:at]
        return b"".join(parts)

    @staticmethod
    def _plain(text: bytes, at: int, parts: List[bytes]) -> int:
        """Takes the whole chunks from here on whose lines are nothing but a size. Returns the place after them."""
        while line := PLAIN_LINE.match(text, at):
            size, start = int(line[1], 16), line.end()
            if text[start + size:start + size + 2] != b"\r\n":
                break
            parts.append(text[start:start + size])
            at = start + size + 2
        return at

    def _size(self, text: bytes, at: int, is_cut: bool) -> int:
        """The place after the line of a chunk's size; the same one if the line is not whole."""
        line = LINE.match(text, at)
        if not line:
            self._look_at(text, at, is_cut)
            return at
        digits, blanks, extension = line.groups(b"")
        significant = digits.lstrip(b"0")
        if len(significant) > MOST_DIGITS:
            raise Malformed(400, "the size of a chunk is too large")
        self.extensions -= len(extension) + len(blanks) + len(digits) - max(1, len(significant))
        if self.extensions < 0:
            raise Malformed(400, "the extensions of the chunks are too long")
        self.left = int(significant or b"0", 16)
        self.is_over = self.left == 0
        return line.end()

    def _look_at(self, text: bytes, at: int, is_cut: bool) -> None:
        """Malformed if what has come of a line cannot become one."""
        if text.find(b"\n", at) >= 0 or not BEGUN_LINE.fullmatch(text, at):
            raise Malformed(400, "the size of a chunk is not a hexadecimal number on a line")
        if len(text) - at > self.extensions + MOST_DIGITS + len(";\r\n") or is_cut and at == 0:
            raise Malformed(400, "the extensions of the chunks are too long")

    def _end(self, text: bytes, at: int) -> int:
        """The place after a chunk's CR LF; the same one if it has not come."""
        line_end = text[at:at + 2]
        if not b"\r\n".startswith(line_end):
            raise Malformed(400, "a chunk is longer than its size")
        if len(line_end) < 2:
            return at
        self.left = None
        return at + 2


def all_at_once(text: bytes, at: int, parts: List[bytes]) -> int:
    """Takes the whole chunks from here on, if none of them has CR LF in its data and the lines are what most servers
    write: so a text that comes line by line takes half of the time. Returns the place after them."""
    if LEAST_MEAN * text.count(b"\r\n", at) > len(text) - at:
        return at
    pieces = text[at:].split(b"\r\n")  # a size, its data, and so on
    data = pieces[1:-1:2]
    count = 2 * len(data)
    sizes = " ".join(map(hex, map(len, data))).encode()
    if b"" in data or sizes != b"0x" + b" 0x".join(pieces[:count:2]):
        return at
    parts += data
    return len(text) - len(b"\r\n".join(pieces[count:]))
