"""Sample events, as services of AWS send them (examples/events), and payloads in which single values are set."""
import difflib
import glob
import json
import os
import re
from typing import Any, Dict, Iterator, List, Sequence, Tuple, Union

from .json_reader import NotJson, read_json
from .paths import bundled
from .program import Fault

MOST_BYTES = 6 << 20  # of a payload
MOST_NAMED = 12  # members in a sentence
# A step of a path: a name, or the number of an item; a name with dots and brackets is in quotation marks
STEP = re.compile(r'\[(\d{1,9})\]|\["((?:[^"\\]|\\["\\])*)"\]|(?:^|\.)([^.\[\]]+)')
Step = Union[int, str]


def samples() -> Dict[str, str]:
    """The path of each sample event by its kind."""
    folder = os.path.dirname(bundled("events/s3.json") or "")
    paths = sorted(glob.glob(os.path.join(glob.escape(folder), "*.json")))
    return {os.path.basename(path)[:-5]: path for path in paths}


def sample(kind: str) -> bytes:
    files = samples()
    if kind not in files:
        near = difflib.get_close_matches(kind, files, 1, 0.5)
        raise Fault(2, f"--sample {kind}: " + (f"did you mean {near[0]}? " if near else "") + "there are "
                    + ", ".join(files))
    with open(files[kind], "rb") as file:
        return file.read()


# ---- values that are set ---------------------------------------------------------------------------------------------


def steps_of(path: str, option: str) -> List[Step]:
    """The steps of a path, such as `Records[0].body`."""
    steps: List[Step] = []
    place = 0
    while place < len(path):
        found = STEP.match(path, place)
        if found is None or found.end() == place:
            break
        number, quoted, name = found.groups()
        steps.append(int(number) if number else name if name is not None else re.sub(r"\\(.)", r"\1", quoted))
        place = found.end()
    if place < len(path) or not steps:
        raise Fault(2, f"{option}: write the path as NAME.NAME[0].NAME, with [\"a.b\"] for a name with dots")
    return steps


def split(option: str) -> Tuple[str, str]:
    """The path and the value: a `=` in quotation marks is of the path."""
    quoted = False
    for place, letter in enumerate(option):
        if letter == '"' and option[place - 1:place] != "\\":
            quoted = not quoted
        if letter == "=" and not quoted:
            return option[:place], option[place + 1:]
    raise Fault(2, f"--set {option[:80]}: write it as PATH=VALUE, such as Records[0].body='\"text\"'")


def what_is_there(value: Any) -> str:
    if isinstance(value, dict):
        names = list(map(str, value))
        return ("there are " + ", ".join(names[:MOST_NAMED]) + (" .." if len(names) > MOST_NAMED else "")
                if names else "it has no members")
    if isinstance(value, list):
        return f"it has {len(value)} item{'' if len(value) == 1 else 's'}, from [0] on" if value else "it has no items"
    return "it has no members, since it is " + (
        "null" if value is None else "a string" if isinstance(value, str) else "true or false"
        if isinstance(value, bool) else "a number")


def shown(steps: Sequence[Step]) -> str:
    """A path as it is written; what is before the first step is the event."""
    text = ""
    for step in steps:
        text += f"[{step}]" if isinstance(step, int) else f".{step}" if re.fullmatch(r"[^.\[\]\"]+", step) else (
            f"[{json.dumps(step)}]")
    return text.lstrip(".") or "the event"


def has(value: Any, step: Step) -> bool:
    return (isinstance(value, dict) and isinstance(step, str) and step in value
            or isinstance(value, list) and isinstance(step, int) and step < len(value))


def holder_of(event: Any, steps: Sequence[Step], option: str) -> Any:
    """The object or list that has the last step. A path that is not there is a Fault that names what is."""
    value = event
    for place, step in enumerate(steps):
        if not has(value, step):
            raise Fault(2, f"{option}: {shown(steps[:place])} has no {step if isinstance(step, str) else f'[{step}]'}: "
                           f"{what_is_there(value)}")
        if place < len(steps) - 1:
            value = value[step]
    return value


def changes_of(options: Sequence[str]) -> Iterator[Tuple[str, List[Step], object]]:
    for text in options:
        path, written = split(text)
        option = f"--set {path[:80]}"
        try:
            value = read_json(os.fsencode(written), longest=MOST_BYTES)
        except NotJson as fault:
            example = json.dumps(written[:40])
            raise Fault(2, f"{option}: the value is not JSON: {fault}: a text is written as '{example}'") from None
        yield option, steps_of(path, option), value


def with_values(payload: bytes, options: Sequence[str]) -> bytes:
    """A payload with these values, each of which was there, set in this order."""
    if not options:
        return payload
    try:
        event = read_json(payload)
    except NotJson as fault:
        raise Fault(2, f"--set: the payload cannot be changed: {fault}") from None
    for option, steps, value in changes_of(options):
        holder_of(event, steps, option)[steps[-1]] = value
    made = json.dumps(event, ensure_ascii=False).encode(errors="surrogatepass")
    if len(made) > MOST_BYTES:
        raise Fault(2, f"--set: the payload has {len(made)} bytes then, and Lambda takes {MOST_BYTES} at most")
    return made
