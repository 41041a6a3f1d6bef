"""Reads what `strace -c` writes when it ends: how often each system call was made. The form is of strace's manual,
option -c: a table whose columns stand below one another, with a line of their sum at its end. A thread that
its process ended within a call has a line of its own before the table."""
import re

TITLES = ["% time", "seconds", "usecs/call", "calls", "errors", "syscall"]
RULE = re.compile(r"-+(?: -+){5}")
NOTE = re.compile(r"\d+ .* <(?:detached|unfinished) \.\.\.>")


class Unreadable(Exception):
    """What is not as strace writes it, in words."""


def is_whole(text):
    """Whether the line of the sum is written."""
    return text.endswith(" total\n")


def read(text):
    """The numbers of calls, by their names."""
    lines = text.split("\n")
    while NOTE.fullmatch(lines[0]):
        del lines[0]
    if len(lines) < 5 or not RULE.fullmatch(lines[1]) or lines[-3] != lines[1] or lines[-1]:
        raise Unreadable(f"not a table between two lines of dashes: {text[:300]!r}")
    columns = [it.span() for it in re.finditer("-+", lines[1])]
    if cells(lines[0], columns) != TITLES:
        raise Unreadable(f"other columns: {lines[0]!r}")
    found = {}
    for line in lines[2:-3]:
        name, count = row(line, columns)
        if name in found:
            raise Unreadable(f"{name} stands there twice")
        found[name] = count
    if row(lines[-2], columns) != ("total", sum(found.values())):
        raise Unreadable(f"the calls are {sum(found.values())} together, and the last line is {lines[-2]!r}")
    return found


def cells(line, columns):
    """What stands in each column; the last one has the rest of the line."""
    return [line[begin:end].strip() for begin, end in columns[:-1]] + [line[columns[-1][0]:].strip()]


def row(line, columns):
    """A call's name and number."""
    *_, count, _errors, name = cells(line, columns)
    if not re.fullmatch(r"[0-9]+", count) or not re.fullmatch(r"\w+", name):
        raise Unreadable(f"not a system call and its number: {line!r}")
    return name, int(count)
