"""Sentences for the lines by which the program refuses a configuration or a script (docs/formats.md)."""
import re
from typing import Callable, List, Optional

from .configuration import explained, says
from .json_reader import NotJson, read_json
from .program import place_of_fault

SCRIPT = re.compile(r"script: line ([1-9][0-9]{0,9})")
CONFIGURATION = re.compile(r"configuration: (\w+)")
FORM_2 = b"form 2"
SHOWN = 80  # characters of a line
CALLS = ("invoke", "next", "response", "failure", "response-too-large", "init-failure", "register", "ext-next",
         "ext-init-failure", "ext-exit-failure", "tick", "withdraw", "spindown", "stop", "reserve")


def shown(line: bytes, most: int = SHOWN) -> str:
    """A line of bytes for a person, cut short: what cannot be printed is a question mark."""
    text = line[:4 * most].decode(errors="replace")
    text = "".join(letter if letter.isprintable() else "?" for letter in text)
    return f"`{text if len(text) <= most else text[:most] + '..'}`"


def of_line(line: bytes, form_2: bool) -> str:
    """What may be wrong with a line of a script."""
    words = line.decode(errors="replace").split(" ")
    if not re.fullmatch(r"0|[1-9][0-9]{0,15}", words[0]):
        return "it must begin with its moment, a whole number of milliseconds"
    if len(words) == 1 or words[1] not in CALLS:
        return f"after its moment it must have one of {', '.join(CALLS)}"
    if words[1] == "reserve" and not form_2:
        return "only form 2 has reserve: its first line is `form 2`"
    return f"docs/formats.md has the fields of {words[1]}"


# A line of a script by its number, from 1 on; none if it is not there.
LineOf = Callable[[int], Optional[bytes]]


def among(lines: List[bytes]) -> LineOf:
    return lambda number: lines[number - 1] if number <= len(lines) else None


def of_call(number: int, line_of: LineOf) -> str:
    """A sentence for a line of a script that is not a call."""
    line, said = line_of(number), f"script: line {number}"
    if line is None:
        return said
    return (f"line {number} is not a call: {shown(line)}: {of_line(line, line_of(1) == FORM_2)} "
            f"(the program says {said})")


def sentence(said: str, line_of: LineOf, program: str) -> str:
    """A sentence for what this program said about these lines; the program's own words if none is known."""
    found = SCRIPT.fullmatch(said)
    if found:
        return of_call(int(found[1]), line_of)
    found = CONFIGURATION.fullmatch(said)
    at = 2 if line_of(1) == FORM_2 else 1
    line = line_of(at) if found else None
    if found and line is not None:
        try:
            place = place_of_fault(program, line)
            told = explained(found[1], read_json(line), place)
        except NotJson as fault:
            told = f"this is not JSON: {fault}"
        if told:
            return f"line {at}, the configuration: {told} (the program {says(found[1], place)})"
    return said
