"""What the tools need of the configuration with which a history or a script begins; the program checks the rest."""
from typing import Any, List, Mapping, Optional

from ..configuration import Members, is_list_of, is_text, is_whole
from ..json_reader import NotJson, read_json
from ..program import Fault

MOST_ENVIRONMENTS = 256


def functions_of(members: Members) -> List[Members]:
    """What a configuration says of its functions, if all of it has the types that the program gives it."""
    functions: List[Members] = members["functions"]
    for function in functions:
        timeout, ports, extensions = function.get("timeout", 3), function["ports"], function.get("extensions", [])
        reserved = function.get("reserved", 0)
        if not (is_text(function["name"]) and is_whole(timeout, 1 << 32) and isinstance(ports, list)
                and len(ports) <= MOST_ENVIRONMENTS and is_list_of(is_text)(extensions)
                and (reserved is None or is_whole(reserved, 1 << 32))):
            raise TypeError
    return functions


class Configuration:
    """The functions of a configuration by their numbers, from 0; environments have numbers from 1."""

    def __init__(self, members: Mapping[str, Any], form_2: bool = True) -> None:
        try:
            functions = functions_of(dict(members))
            self.names: List[str] = [function["name"] for function in functions]
            self.numbers = {name: f for f, name in enumerate(self.names)}
            self.owners = [f for f, function in enumerate(functions) for _ in function["ports"]]
            self.timeouts: List[int] = [1000 * function.get("timeout", 3) for function in functions]
            self.expected: List[List[str]] = [list(function.get("extensions", [])) for function in functions]
            self.reserved: List[Optional[int]] = [function.get("reserved") for function in functions]
            self.most: int = members.get("maxEntries", 1_000_000)
            self.salt: int = members.get("salt", 0)
            self._places = [f"environment {e} ({self.names[f]})" for e, f in enumerate(self.owners, 1)]
            for name in self.names:
                name.encode()  # (half a character is no name)
            if not (is_whole(self.most, 1 << 64) and is_whole(self.salt, 1 << 64)):
                raise TypeError
        except (KeyError, TypeError, AttributeError, ValueError):
            raise Fault(
                2, "configuration: BadShape: a member is missing or of another type; docs/formats.md lists them"
            ) from None
        # The service writes every member, a person few of them: that distinguishes a history from a script.
        self.is_of_a_history = form_2 and members.keys() >= {
            "account", "accountLimit", "functions", "invokePort", "leastRemainder", "maxEntries", "region", "salt"
        } and all(f.keys() >= {"extensions", "handler", "name", "ports", "timeout"} for f in functions)

    def place(self, e: int) -> str:
        return self._places[e - 1]


def read_configuration(line: bytes, form_2: bool) -> Configuration:
    """The configuration in a line."""
    try:
        members = read_json(line)
    except NotJson:
        raise Fault(2, "configuration: NotJson: the first line of a script is its configuration, or 'form 2' with "
                       "the configuration in the second one; docs/formats.md has both") from None
    if not isinstance(members, dict):
        raise Fault(2, "configuration: BadShape: a member is missing or of another type; docs/formats.md lists them")
    return Configuration(members, form_2)
