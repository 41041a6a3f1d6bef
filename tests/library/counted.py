"""Checks that are printed one by one and counted: the last line is 'N passed, M failed'. Tests of tools are unittest
cases, which check in the same way (tests/library/cases.py)."""
import re
from typing import Callable, Optional

passed = failed = 0


class NotBoolean(TypeError):
    """A check was given a value where it asks whether something holds: `1 == True`, and `cond or value` is a value."""


def difference(name: str, seen: object, wanted: object = True, shown: object = None) -> Optional[str]:
    """What was seen and what was wanted, unless they agree. If True or False is wanted, what was seen has to be one of
    the two, and `shown` is said where it is the other; a value is compared with a value."""
    if isinstance(wanted, bool) and not isinstance(seen, bool):
        raise NotBoolean(f"{name}: {seen!r} is not a Boolean: give the condition and shown=, or what is wanted")
    if seen is wanted if isinstance(wanted, bool) else not isinstance(seen, bool) and seen == wanted:
        return None
    return f"seen   {seen!r}" + ("" if shown is None else f" {shown}") + f"\nwanted {wanted!r}"


def check(name: str, seen: object, wanted: object = True, *, shown: object = None) -> None:
    """Prints whether what was seen is what is expected, and counts it."""
    fault = difference(name, seen, wanted, shown)
    check_sound(name, fault and fault.replace("\n", "\n     "))


def check_sound(name: str, fault: Optional[str]) -> None:
    """Prints what is wrong, if anything, and counts it."""
    global passed, failed
    passed, failed = passed + (not fault), failed + bool(fault)
    print("FAIL" if fault else "ok  ", name + (f"\n     {fault}" if fault else ""), flush=True)


def check_run(name: str, output: str) -> None:
    """Prints what another run of checks has printed, and counts its checks with these. A run whose last line does not
    say how many they were has not come to its end."""
    global passed, failed
    *lines, last = output.splitlines() or [""]
    print("\n".join(lines))
    found = re.fullmatch(r"(\d+) passed, (\d+) failed", last)
    if found:
        passed, failed = passed + int(found[1]), failed + int(found[2])
    check_sound(name, None if found else last or "it says nothing")


def end() -> bool:
    """Prints how many checks passed and failed. Returns the exit status."""
    print(f"{passed} passed, {failed} failed", flush=True)
    return failed != 0


def run(*parts: Callable[[], None]) -> bool:
    """Runs parts one after the other; one that raises has failed, and the next begins. The exit status."""
    for part in parts:
        try:
            part()
        except Exception as fault:
            check_sound(f"{part.__name__} runs to its end", repr(fault))
    return end()
