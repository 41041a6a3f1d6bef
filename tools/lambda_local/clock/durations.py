"""A time as a command line has it: `90s`, `15m`, `2h`, `1d`, `500ms`, or several of these, `1h30m`."""
import re

UNITS = {"ms": 1, "s": 1000, "m": 60_000, "h": 3_600_000, "d": 86_400_000}
PART = re.compile(r"([0-9]{1,16})(?:\.([0-9]{1,3}))?(ms|s|m|h|d)")
EXPECTED = "write a number with a unit, such as 500ms, 90s, 15m, 2h, 1d or 1h30m"
LONGEST = 2 ** 53 - 1  # milliseconds: no moment of a service is later


class NotDuration(ValueError):
    """Why a text is none."""


def milliseconds_in(text: str) -> int:
    """The milliseconds, from 1 to LONGEST."""
    parts = list(PART.finditer(text))
    if not parts or "".join(part[0] for part in parts) != text:
        raise NotDuration(EXPECTED)
    total, before = 0, LONGEST
    for whole, thousandths, unit in (part.groups() for part in parts):
        if UNITS[unit] >= before:
            raise NotDuration(f"{EXPECTED}, each unit once and the longest first")
        before = UNITS[unit]
        value = int(whole + (thousandths or "").ljust(3, "0")) * before
        if value % 1000:
            raise NotDuration(f"{EXPECTED}: there is no part of a millisecond")
        total += value // 1000
    if not 0 < total <= LONGEST:
        raise NotDuration(f"{EXPECTED}, from 1 to {LONGEST} milliseconds in all")
    return total
