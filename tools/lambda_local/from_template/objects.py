"""An object of a template whose members are handed out one by one; at the end it says which nobody has asked for."""
from typing import Callable, Container, Dict, Iterable, Iterator, List, Optional, Set, Tuple

from ..configuration import Members
from .messages import excerpt
from .values import NO_VALUE, Scope, is_scalar, text_of, type_of

Tell = Callable[[str], object]


class Object:
    """`where` is how a sentence names it, such as `its event Orders`."""

    def __init__(self, members: object, where: str, scope: Scope, tell: Tell) -> None:
        self.where, self.scope, self.tell = where, scope, tell
        given = scope.chosen(members)
        self.members: Members = given if isinstance(given, dict) else {}
        self.asked: Set[str] = set()
        if given is not None and given is not NO_VALUE and not isinstance(given, dict):
            tell(f"ignores {where}: it must be an object, not {excerpt(given)}")

    def raw(self, name: str) -> object:
        """A member as the template has it, by the conditions around it; None if it is not there."""
        self.asked.add(name)
        given = self.scope.chosen(self.members.get(name))
        return None if given is NO_VALUE else given

    def value(self, name: str) -> object:
        """A member's value; None if it is absent, or unknown, which is told. A placeholder is unknown."""
        given = self.raw(name)
        if given is None:
            return None
        value, placeholders = self.scope.evaluate_or_reason(given)
        if placeholders:
            self.tell(f"ignores {name} of {self.where}: it needs {' and '.join(placeholders)}")
            return None
        return None if value is NO_VALUE else value

    def text(self, name: str) -> Optional[str]:
        value = self.value(name)
        if value is None or is_scalar(value):
            return None if value is None else text_of(value)
        self.tell(f"ignores {name} of {self.where}: it must be a string, not {excerpt(value)}")
        return None

    def whole(self, name: str, least: int, most: int) -> Optional[int]:
        """A whole number within these bounds; what is none, or outside, is told."""
        value = self.value(name)
        if value is None:
            return None
        text = text_of(value) if is_scalar(value) and not isinstance(value, bool) else ""
        if text.isascii() and text.isdigit() and len(text) < 10 and least <= int(text) <= most:
            return int(text)
        self.tell(f"ignores {name} of {self.where}: it must be a whole number from {least} to {most}, not "
                  f"{excerpt(value)}")
        return None

    def without_meaning(self, names: Iterable[str]) -> None:
        """These have no meaning here, and are not told."""
        self.asked.update(names)

    def left(self) -> List[str]:
        return sorted(str(name) for name in set(self.members) - self.asked)

    def close(self) -> None:
        """Says what nobody has asked for."""
        if left := self.left():
            self.tell(f"ignores {', '.join(left)} of {self.where}")


def members_by_key(given: object, scope: Scope) -> Dict[str, Members]:
    """The objects that an object has, by their keys, without those that a condition ignores."""
    chosen = scope.chosen(given)
    if not isinstance(chosen, dict):
        return {}
    found = {str(key): scope.chosen(member) for key, member in chosen.items()}
    return {key: {**member, "Type": type_of(member) or excerpt(member.get("Type"))} if isinstance(member, dict)
            else {"Type": excerpt(member)} for key, member in found.items() if member is not NO_VALUE}


def events_of_sam(given: object, kinds: Container[str], scope: Scope, tell: Tell) -> Iterator[Tuple[str, Object]]:
    """The events of these kinds that a function of SAM has: the kind of each, and its properties."""
    for key, event in members_by_key(given, scope).items():
        if event["Type"] in kinds:
            yield event["Type"], Object(event.get("Properties"), f"its event {key}", scope, tell)
