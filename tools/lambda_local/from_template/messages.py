"""What is said of a template: by from_template on standard error, by `up` in its log."""
import contextlib
from typing import Callable, Dict, Iterator, List

from .. import outgoing

VALUES = "lambda_local.json"  # where users write what a template does not say


LONGEST_LINE = 2000  # characters of what is said
MOST_LINES = 500  # of one project


class Fault(Exception):
    """A message that says what to do; the status is 2."""

    def __init__(self, line: str) -> None:
        super().__init__(cut(line, LONGEST_LINE))


def cut(text: str, longest: int) -> str:
    return text if len(text) <= longest else text[:longest - 2] + ".."


def tell_plainly(line: str) -> None:
    outgoing.tell(f"from_template: {line}")


TAKERS: List[Callable[[str], None]] = [tell_plainly]  # the last of them gets the lines


@contextlib.contextmanager
def told_to(take: Callable[[str], None]) -> Iterator[None]:
    """Lines go there meanwhile."""
    TAKERS.append(take)
    try:
        yield
    finally:
        TAKERS.pop()


def tell(line: object) -> None:
    TAKERS[-1](cut(str(line), LONGEST_LINE))


@contextlib.contextmanager
def limited() -> Iterator[None]:
    """Says the first lines of a project, and at the end how many there were that it did not say."""
    count, take = 0, TAKERS[-1]

    def counted(line: str) -> None:
        nonlocal count
        count += 1
        if count <= MOST_LINES:
            take(line)
    try:
        with told_to(counted):
            yield
    finally:
        if count > MOST_LINES:
            take(f"{count - MOST_LINES:,} further lines are not shown")


class LineGroups:
    """Lines about functions and resources: what is the same of several is said once, with their names."""

    most_names = 30

    def __init__(self, form: str = "{names}: {line}") -> None:
        self.form = form
        self.names: Dict[str, Dict[str, None]] = {}

    def add(self, name: str, line: str) -> None:
        self.names.setdefault(line, {})[name] = None

    def say(self) -> None:
        """Says what was added, in the order in which it came first."""
        for line, names in self.names.items():
            shown = list(names)[:self.most_names]
            more = f" and {len(names) - len(shown):,} more" if len(shown) < len(names) else ""
            tell(self.form.format(names=", ".join(shown) + more, line=line))
        self.names = {}


def excerpt(value: object) -> str:
    """Returns a value for a sentence, cut short. No more of it is looked at than is shown."""
    parts: List[str] = []
    for part in [value[:1000]] if isinstance(value, str) else pieces(value):
        parts.append(part)
        if len(parts) > 400 or sum(map(len, parts)) > 400:
            break
    return cut(" ".join("".join(parts).split()), 80)


def pieces(value: object) -> Iterator[str]:
    """What `repr` gives of JSON, piece by piece."""
    if isinstance(value, dict):
        for number, (name, inner) in enumerate(value.items()):
            yield ("{" if number == 0 else ", ")
            yield from pieces(name)
            yield ": "
            yield from pieces(inner)
        yield "}" if value else "{}"
    elif isinstance(value, list):
        yield "["
        for number, inner in enumerate(value):
            yield ", " * bool(number)
            yield from pieces(inner)
        yield "]"
    else:
        yield repr(value[:400] if isinstance(value, str) else value)[:400]
