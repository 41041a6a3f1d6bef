"""What all forms say of moments, lengths, calls and those who make them."""
import functools
from datetime import datetime, timezone
from typing import Optional

from ..history.opening import Configuration
from ..history.words import FAILURE, REGISTER, RESERVE, RESPONSE, RESPONSE_TOO_LARGE, WITHDRAW
from .call import Call

# moments of the clock, to the year 9999; others are a script's
WALL_CLOCK = range(100_000_000_000, 253_402_300_800_000)


def moment_words(moment: int) -> str:
    if moment not in WALL_CLOCK:
        return f"{moment} ms"
    return f"{second_words(moment // 1000)}.{moment % 1000:03}Z"


def axis_words(moment: int, first: int) -> str:
    """A moment as the axis has it, and --from takes it: in seconds after the first entry, or a script's own."""
    return f"+{(moment - first) / 1000:.3f} s" if moment in WALL_CLOCK else f"{moment:,} ms"


def since_words(moment: int, first: Optional[int]) -> str:
    """A moment on both axes: on the clock, and in seconds after the first entry; a script's on its only one."""
    if first is None or moment not in WALL_CLOCK or moment < first:
        return f"{moment:,} ms"
    return f"{moment_words(moment)} (+{(moment - first) / 1000:.3f} s)"


@functools.lru_cache(maxsize=64)
def second_words(second: int) -> str:
    return datetime.fromtimestamp(second, timezone.utc).strftime("%Y-%m-%dT%H:%M:%S")


def who(configuration: Configuration, call: Call) -> str:
    lane = call.lane
    if lane[0] == "caller":
        return f"caller {lane[1]}"
    if lane[0] == "account":
        return "account"
    place = configuration.place(lane[1])
    return place if lane[0] == "environment" else f"{place}, " + (
        "runtime" if lane[0] == "runtime" else extension_words(lane[2]))


def extension_words(name: Optional[str]) -> str:
    return "unknown extension" if name is None else f"extension {name}"


def what(configuration: Configuration, call: Call) -> str:
    """A call's name with what it names."""
    function = None if call.function is None else configuration.names[call.function]
    return call_words(call.kind, function, call.count, call.events)


def call_words(kind: str, function: Optional[str], count: Optional[int], events: str) -> str:
    words = [kind]
    if function is not None:
        words.append(function)
    if kind == RESERVE:
        words.append("-" if count is None else str(count))
    elif kind in (RESPONSE, FAILURE, RESPONSE_TOO_LARGE):
        words.append(f"to request {count}")
    elif kind == WITHDRAW:
        words.append(f"call {count}")
    elif kind == REGISTER:
        named = [word for letter, word in (("i", "INVOKE"), ("s", "SHUTDOWN")) if letter in events]
        words.append(f"for {' and '.join(named) or 'no event'}")
    return " ".join(words)


def length_words(milliseconds: int) -> str:
    return f"{milliseconds:,} ms" if milliseconds < 10_000 else f"{milliseconds / 1000:,.1f} s"


def payload_words(call: Call) -> str:
    if call.body is None:
        return ""
    return f"{call.size:,} byte{'' if call.size == 1 else 's'}: {call.body}" if call.size else "0 bytes"
