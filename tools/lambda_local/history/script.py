"""A script that is given as a file or by standard input. A history is a script with its own answers in it: lines
`# ENTRY TICKET WORDS` (docs/formats.md)."""
import functools
import io
import os
import re
import sys
import tempfile
from typing import IO, BinaryIO, Iterator, Optional
from urllib.parse import unquote_to_bytes

from ..program import Fault
from .opening import Configuration, read_configuration

LONGEST_LINE = 20_000_000
FORM_2 = b"form 2"
ANSWER = re.compile(rb"# ([0-9]{1,18} [0-9]{1,18} .+)", re.DOTALL)
BLOCK = 1 << 16


def opened(name: str, of: str = "a history or a script") -> BinaryIO:
    """A file to be read; `-` is standard input."""
    try:
        stream = sys.stdin.buffer if name == "-" else open(name, "rb")
        if isinstance(stream, io.BufferedReader):
            stream.peek(1)  # (a folder is found to be none)
        return stream
    except OSError as fault:
        raise Fault(2, f"{name}: {fault.strerror}: name a file with {of}") from None


def without_end(line: bytes) -> bytes:
    """A line without its end."""
    if line.endswith(b"\n"):
        return line[:-2] if line.endswith(b"\r\n") else line[:-1]
    return line


def decoded(field: str) -> bytes:
    """The bytes of a text field `=TEXT`; a `%` without two hexadecimal digits is itself, and so is a byte that is not
    ASCII and was read as half of a surrogate pair (PEP 383)."""
    return unquote_to_bytes(field[1:].encode("utf-8", "surrogateescape"))


class Script:
    """A script in a file, which the program can read: what is not a file is copied into one."""

    def __init__(self, name: str, data: Optional[bytes] = None, of: str = "a history or a script") -> None:
        self.name = name
        self.copy: Optional[IO[bytes]] = None
        if data is not None:
            self._copy(io.BytesIO(data))
        elif name == "-" or not os.path.isfile(name):
            with opened(name, of) as stream:
                self._copy(stream)
        else:
            opened(name, of).close()

    @property
    def path(self) -> str:
        return self.copy.name if self.copy else self.name

    def _copy(self, stream: BinaryIO, size: Optional[int] = None) -> None:
        before, self.copy = self.copy, tempfile.NamedTemporaryFile(prefix="lambda_local-")
        while (size is None or size > 0) and (block := stream.read(BLOCK if size is None else min(size, BLOCK))):
            self.copy.write(block)
            size = None if size is None else size - len(block)
        self.copy.flush()
        if before:
            before.close()

    @functools.cached_property
    def configuration(self) -> Configuration:
        """Fault if it has none."""
        with open(self.path, "rb") as file:
            lines = [without_end(file.readline(LONGEST_LINE + 2)) for _ in range(2)]
        form_2 = lines[0] == FORM_2
        return read_configuration(lines[form_2], form_2)

    def leave_out_cut_line(self) -> Optional[int]:
        """A last line that has no end may be cut off, and is left out. Returns its number, if there is one."""
        with open(self.path, "rb") as file:
            end = at = file.seek(0, os.SEEK_END)
            tail = b""
            while at and b"\n" not in tail:
                at = max(0, at - BLOCK)
                file.seek(at)
                tail = file.read(min(BLOCK, end - at))
            if not tail or end == at + tail.rfind(b"\n") + 1:
                return None
            file.seek(0)
            self._copy(file, at + tail.rfind(b"\n") + 1)
        return sum(1 for _ in self.lines()) + 1

    def lines(self) -> Iterator[bytes]:
        """All lines, the opening ones as well, each without its end."""
        with open(self.path, "rb") as file:
            while line := file.readline(LONGEST_LINE + 2):
                yield without_end(line)

    def line(self, number: int) -> Optional[bytes]:
        """The line with this number, from 1; none if it is not there."""
        return next((line for at, line in enumerate(self.lines(), 1) if at == number), None)

    def close(self) -> None:
        if self.copy:
            self.copy.close()
