"""What leaves the tools, by one function for each way out: a line that a person reads, the value of an HTTP header,
a variable and a word of a process, a path, a file. (`variables` has what keeps a client from AWS and from proxies.)

Texts of functions, callers, files and variables go through these, whatever is in them."""
import contextlib
import os
import re
import stat
import sys
from typing import Iterator, Optional, Protocol, TextIO

# Control characters but the tab, separators of lines, what turns the direction of writing, and halves of characters.
UNSAFE = re.compile("[\x00-\x08\x0a-\x1f\x7f-\x9f\u2028\u2029\u202a-\u202e\u2066-\u2069\ud800-\udfff]")
COLOUR = re.compile("(\x1b\\[[0-9;:]*m)")  # also bold, underlined ..: a terminal does nothing else with it
PLAIN = "\x1b[0m"
SHORT = {"\n": "\\n", "\r": "\\r"}
HEADER_VALUE = re.compile("[!-~](?:[ -~]*[!-~])?")
ESCAPED = "backslashreplace"  # what is not of UTF-8, in a file


class Log(Protocol):
    """Takes lines for the log of a run, as `up.log.Log` does."""

    def __call__(self, who: str, text: str, level: str = "info", kind: str = "up", always: bool = False,
                 **members: object) -> None:
        ...


def _escaped(found: "re.Match[str]") -> str:
    letter = found[0]
    return SHORT.get(letter) or (f"\\x{ord(letter):02x}" if ord(letter) < 256 else f"\\u{ord(letter):04x}")


def printable(text: str) -> str:
    """A text for a person, in one line: it begins no line of its own, and does nothing to a terminal."""
    if text.isprintable():
        return text  # (no character of which is unsafe)
    return UNSAFE.sub(_escaped, text)


def several(count: int, what: str) -> str:
    """A number of things, such as `1 call` and `2,000 calls`."""
    return f"{count:,} {what}{'' if count == 1 else 's'}"


def printable_output(text: str) -> str:
    """The same for what a function prints, which may have colours; they end with its line."""
    if "\x1b" not in text:
        return printable(text)
    parts = COLOUR.split(text)
    parts[::2] = map(printable, parts[::2])
    return "".join(parts) + (PLAIN if len(parts) > 1 and parts[-2] != PLAIN else "")


def tell(text: str, stream: Optional[TextIO] = None) -> None:
    """Prints a line of a tool on standard error."""
    print(printable(text), file=stream or sys.stderr, flush=True)


def printable_lines(text: str) -> str:
    """A text of several lines, which may have colours, for a terminal."""
    return "\n".join(map(printable_output, text.split("\n")))


def header_value(text: str, otherwise: str, most: int = 1000) -> str:
    """A text as the value of an HTTP header if it is printable ASCII, else another one."""
    return text if len(text) <= most and HEADER_VALUE.fullmatch(text) else otherwise


def is_for_the_system(text: str) -> bool:
    """Whether the system takes a text as a path, a word of a command or the value of a variable."""
    try:
        return b"\0" not in os.fsencode(text)
    except UnicodeEncodeError:
        return False


def is_name_of_variable(text: str) -> bool:
    return text != "" and "=" not in text and is_for_the_system(text)


@contextlib.contextmanager
def written(path: str, has_payloads: bool = True) -> Iterator[TextIO]:
    """A text file that replaces what is there once it is complete, and not at all if writing it fails or is given up;
    OSError says why. It is written beside it, under a name that nothing has. A link stays, and leads to the new file;
    what is not a file, such as a pipe, is written as it is. A file keeps its mode; a new one that has payloads can be
    read by its user alone."""
    if is_written_in_place(path):
        with open(path, "w", encoding="utf-8", errors=ESCAPED) as file:
            yield file
        return
    place, before = os.path.realpath(path), of_file(path)
    beside = os.path.join(os.path.dirname(place), f".lambda_local.{os.urandom(8).hex()}")
    number = os.open(beside, os.O_WRONLY | os.O_CREAT | os.O_EXCL | os.O_CLOEXEC, 0o600 if has_payloads else 0o666)
    try:
        with open(number, "w", encoding="utf-8", errors=ESCAPED) as file:
            yield file
            file.flush()
            if before is not None:
                with contextlib.suppress(OSError):
                    os.fchown(number, before.st_uid, before.st_gid)
                os.fchmod(number, stat.S_IMODE(before.st_mode))
            os.fsync(number)  # (some systems find only now that they have no room)
        os.replace(beside, place)
    except BaseException:
        with contextlib.suppress(OSError):
            os.unlink(beside)
        raise


def renew(path: str, text: str) -> None:
    """Puts a small file that others read in the place of what is there, whatever that is: no one finds half of it.
    OSError if it cannot be."""
    beside = f"{path}.{os.urandom(8).hex()}"
    number = os.open(beside, os.O_WRONLY | os.O_CREAT | os.O_EXCL | os.O_CLOEXEC, 0o600)
    try:
        with open(number, "w", encoding="utf-8") as file:
            file.write(text)
        os.replace(beside, path)
    except BaseException:
        with contextlib.suppress(OSError):
            os.unlink(beside)
        raise


def is_written_in_place(path: str) -> bool:
    """Whether this is no regular file, or a name by which the system gives what is open, such as /dev/stdout."""
    if os.path.abspath(path).startswith(("/dev/", "/proc/")):
        return True
    return os.path.exists(path) and not os.path.isfile(path)


def of_file(path: str) -> Optional[os.stat_result]:
    """The owner and the mode of a file that is there. (It is opened for that: the system may refuse to have it
    written, or to follow a link in a folder of everyone.)"""
    if not os.path.lexists(path):
        return None
    number = os.open(path, os.O_WRONLY | os.O_CLOEXEC)
    try:
        return os.fstat(number)
    finally:
        os.close(number)
