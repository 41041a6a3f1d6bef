"""How two outputs differ, member by member. Places in them are JSON pointers (RFC 6901)."""
import json
import math
from decimal import Decimal
from itertools import zip_longest
from typing import Dict, Iterator, List, NamedTuple, Sequence, Tuple, Union

from ..service import Fault

Pointer = List[object]  # its parts: texts, and ANY
ABSENT = object()
ANY = object()  # the part of a pointer that any member fits
SHOWN, BEFORE = 100, 20  # letters of a value; of these before the first one that differs


class Difference(NamedTuple):
    pointer: str
    then: object
    now: object

    def __str__(self) -> str:
        if self.then is ABSENT:
            return f"{self.pointer or 'the whole'}: only now: {shown(self.now)}"
        if self.now is ABSENT:
            return f"{self.pointer or 'the whole'}: only then: {shown(self.then)}"
        return f"{self.pointer or 'the whole'}: {both(self.then, self.now)}"


def text_of(value: object) -> str:
    """A value as a text that a terminal can show."""
    text = (value.decode("utf-8", "backslashreplace") if isinstance(value, bytes)
            else json.dumps(value, ensure_ascii=False, default=str))
    return "".join(letter if letter.isprintable() else letter.encode("unicode_escape", "surrogatepass").decode()
                   for letter in text)


def shown(value: object, most: int = SHOWN) -> str:
    text = text_of(value)
    return text if len(text) <= most else text[:most] + ".."


def both(then: object, now: object) -> str:
    """Two values that differ, each shown from a little before the first letter in which they do."""
    one, other = text_of(then), text_of(now)
    place = next((place for place, (here, there) in enumerate(zip(one, other)) if here != there), 0)
    if place < SHOWN // 2 or max(len(one), len(other)) <= SHOWN:
        return f"{shown(then)} -> {shown(now)}"
    begin = place - BEFORE
    parts = [text[begin:begin + SHOWN] + (".." if len(text) > begin + SHOWN else "") for text in (one, other)]
    return f"from letter {begin} on, ..{parts[0]} -> ..{parts[1]}"


def pointer_of(text: str) -> Pointer:
    """The parts of a pointer, in which `*` stands for any member, and `~*` for the member of that name."""
    if text and not text.startswith("/"):
        raise Fault(2, f"--ignore {text}: a JSON pointer begins with /, such as /time or /items/*/id")
    return [part_of(part, text) for part in text.split("/")[1:]]


def part_of(part: str, text: str) -> object:
    if part == "*":
        return ANY
    if part == "~*":
        return "*"
    if "~" in part.replace("~0", "").replace("~1", ""):
        raise Fault(2, f"--ignore {text}: ~ is written ~0, / within a name ~1, and the member * alone ~*")
    return part.replace("~1", "/").replace("~0", "~")


def escaped(part: object) -> str:
    return str(part).replace("~", "~0").replace("/", "~1")


def is_ignored(path: Sequence[object], pointers: Sequence[Pointer]) -> bool:
    """Whether this place, or one that it lies in, is ignored."""
    return any(len(pointer) <= len(path) and all(part is ANY or part == str(own) for part, own in zip(pointer, path))
               for pointer in pointers)


def differences(then: bytes, now: bytes, pointers: Sequence[Pointer] = ()) -> List[Difference]:
    """How the outputs differ (bytes), but for the places that are ignored. Outputs that are not both JSON differ as a
    whole."""
    if then == now:
        return []
    try:
        then_value, now_value = read(then), read(now)
    except (ValueError, RecursionError):
        return [Difference("", then, now)]
    return list(of_values(then_value, now_value, pointers))


def read(text: bytes) -> object:
    """The value of a JSON text; ValueError if an object has a name twice, of which no one knows which one counts."""
    value: object = json.loads(text, parse_float=number_of, object_pairs_hook=object_of)
    return value


def number_of(text: str) -> Union[float, Decimal]:
    """A number beyond binary64 as it is."""
    value = float(text)
    return value if math.isfinite(value) else Decimal(text)


def object_of(pairs: List[Tuple[str, object]]) -> Dict[str, object]:
    made = dict(pairs)
    if len(made) < len(pairs):
        raise ValueError
    return made


def of_reports(then: bytes, now: bytes, pointers: Sequence[Pointer] = ()) -> List[Difference]:
    """How two error reports differ: in type and message, if both have these; the rest, such as a stack or an
    identifier, differs from run to run."""
    try:
        then_value, now_value = read(then), read(now)
    except (ValueError, RecursionError):
        return differences(then, now, pointers)
    if not all(isinstance(value, dict) and "errorType" in value for value in (then_value, now_value)):
        return differences(then, now, pointers)
    told = [{name: value[name] for name in ("errorType", "errorMessage") if name in value}
            for value in (then_value, now_value) if isinstance(value, dict)]
    return list(of_values(told[0], told[1], pointers))


def of_values(then: object, now: object, pointers: Sequence[Pointer]) -> Iterator[Difference]:
    """(With a list of what is still to be compared, since outputs may be nested deeper than calls may.)"""
    left: List[Tuple[List[object], object, object]] = [([], then, now)]
    while left:
        path, one, other = left.pop()
        if is_ignored(path, pointers):
            continue
        if isinstance(one, dict) and isinstance(other, dict):
            keys = [*one, *(key for key in other if key not in one)]
            left += [([*path, key], one.get(key, ABSENT), other.get(key, ABSENT)) for key in reversed(keys)]
        elif isinstance(one, list) and isinstance(other, list):
            pairs = list(zip_longest(one, other, fillvalue=ABSENT))
            left += [([*path, at], *pairs[at]) for at in reversed(range(len(pairs)))]
        elif not is_same(one, other):
            yield Difference("".join(f"/{escaped(part)}" for part in path), one, other)


def is_same(one: object, other: object) -> bool:
    """Whether two values that are not both objects or both lists are the same: true is not 1, and NaN is NaN."""
    return isinstance(one, bool) == isinstance(other, bool) and (one == other or one != one and other != other)
