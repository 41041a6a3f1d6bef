"""The program over a script: its trace, and the answers of its replay."""
import subprocess
import tempfile
from typing import IO, Iterator, Optional

from ..program import Fault, NoProgram
from ..reasons import sentence
from .entries import Entry
from .reader import entries_of, lines_of
from .script import Script
from .shapes import NotTrace

BROKEN_PIPE = -13  # it wrote to one who reads no more
USAGE = "usage: "


class Run:
    """The program, reading a script. It reads the file itself, so that neither side waits for the other."""

    def __init__(self, program: str, script: Script, word: str) -> None:
        self.program, self.script, self.word, self.said = program, script, word, tempfile.TemporaryFile()
        self.process: "Optional[subprocess.Popen[bytes]]" = None
        try:
            with open(script.path, "rb") as file:
                self.process = subprocess.Popen([program, word], stdin=file, stdout=subprocess.PIPE, stderr=self.said)
        except OSError as fault:
            raise NoProgram(f"{program} could not be run: {fault.strerror}: name a program by --program or "
                            "LAMBDA_LOCAL_PROGRAM") from None

    @property
    def output(self) -> IO[bytes]:
        assert self.process is not None and self.process.stdout is not None
        return self.process.stdout

    def finish(self) -> None:
        """Raises the program's own fault, if it has one."""
        assert self.process is not None
        self.output.close()
        status = self.process.wait()
        if status in (0, BROKEN_PIPE):
            return
        self.said.seek(0)
        lines = self.said.read().decode("utf-8", "replace").strip().splitlines() or ["nothing was said"]
        if status == 2 and not lines[-1].startswith(USAGE):
            raise Fault(2, f"{self.script.name}: {sentence(lines[-1], self.script.line, self.program)}")
        raise Fault(4, f"{self.program} {self.word} ended with status {status}: {lines[-1]}")

    def kill(self) -> None:
        if self.process and self.process.poll() is None:
            self.process.kill()
            self.process.wait()
        if self.process and self.process.stdout:
            self.process.stdout.close()
        self.said.close()


class Traced:
    """The entries of a script, as the program traces them; or as a file has them that it wrote."""

    def __init__(self, script: Script, program: str = "", trace: Optional[IO[bytes]] = None) -> None:
        self.run = None if trace else Run(program, script, "trace")
        self.lines = lines_of(trace or self.output())
        self.environments = len(script.configuration.owners)

    def output(self) -> IO[bytes]:
        assert self.run is not None
        return self.run.output

    def __iter__(self) -> Iterator[Entry]:
        """The entries, the oldest first; Fault if the program has one, or writes what is no trace."""
        try:
            yield from entries_of(self.lines, self.environments)
        except NotTrace as fault:
            raise Fault(3, str(fault)) from None
        if self.run:
            self.run.finish()

    def rest(self) -> Iterator[bytes]:
        """The lines after that of the last entry, as they are; Fault if the program has one."""
        yield from self.lines
        if self.run:
            self.run.finish()

    def close(self) -> None:
        if self.run:
            self.run.kill()


def entries_of_script(script: Script, program: str) -> Iterator[Entry]:
    """The entries of a script by this program, which has ended when they have."""
    traced = Traced(script, program)
    try:
        yield from traced
    finally:
        traced.close()
