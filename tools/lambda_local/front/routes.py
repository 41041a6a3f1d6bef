"""The routes of an HTTP API: which of them takes a request, and the parameters that its path has (API Gateway Developer
Guide, "Routes for HTTP APIs")."""
import re
from typing import TYPE_CHECKING, Dict, List, Mapping, Optional, Tuple
from urllib.parse import unquote

from ..http1 import is_token

if TYPE_CHECKING:
    from .settings import Target

DEFAULT = "$default"
Part = Tuple[str, str]  # text, one parameter or the rest; and the text or the name
PARAMETER = re.compile(r"\{([^{}/+]+)(\+?)\}")


class WrongRoute(Exception):
    """Why a route cannot be read."""


def parts_of(path: str) -> List[str]:
    return path.strip("/").split("/") if path.strip("/") else []


class Route:
    """`key` is `METHOD /path/{parameter}/{rest+}`, with `ANY` for each method, or `$default`; `target` is what it leads
    to."""

    def __init__(self, key: str, target: "Optional[Target]" = None) -> None:
        self.key, self.target = key, target
        if key == DEFAULT:
            self.method, self.parts = "ANY", None
            return
        method, _, path = key.partition(" ")
        if (not path.startswith("/") or not is_token(method) or method != method.upper()
                or re.search(r"\s|\?", path)):
            raise WrongRoute('write it as METHOD /path, such as "GET /orders/{id}", or $default')
        self.method, self.parts = method, [self.part_of(part) for part in parts_of(path)]
        if any(kind == "rest" for kind, _ in self.parts[:-1]):
            raise WrongRoute("{NAME+} must be the last part of its path")

    @staticmethod
    def part_of(part: str) -> Part:
        parameter = PARAMETER.fullmatch(part)
        if not parameter and re.search("[{}]", part):
            raise WrongRoute(f"a parameter is a whole part of the path, {{NAME}}, not {part}")
        return ("rest" if parameter[2] else "one", parameter[1]) if parameter else ("text", part)

    @property
    def shape(self) -> Tuple[str, Optional[Tuple[Part, ...]]]:
        """What it takes, whatever its parameters are called."""
        return self.method, None if self.parts is None else tuple(
            (kind, name if kind == "text" else "") for kind, name in self.parts)

    @property
    def rank(self) -> Tuple[bool, List[int], bool]:
        """By which the most specific of several is found: text before a parameter, that before the rest, and a method
        before ANY."""
        order = {"text": 0, "one": 1, "rest": 2}
        return self.parts is None, [order[kind] for kind, _ in self.parts or []], self.method == "ANY"

    def match(self, method: str, path: str) -> Optional[Dict[str, str]]:
        """The parameters of a request that it takes; none if it does not."""
        if self.method not in ("ANY", method):
            return None
        if self.parts is None:
            return {}
        parameters: Dict[str, str] = {}
        given = parts_of(path)
        for number, (kind, name) in enumerate(self.parts):
            if kind == "rest" and len(given) > number:
                return {**parameters, name: unquote("/".join(given[number:]))}
            if number >= len(given) or kind == "text" and unquote(given[number]) != name or kind == "rest":
                return None
            if kind == "one":
                parameters[name] = unquote(given[number])
        return parameters if len(given) == len(self.parts) else None


class Routes:
    def __init__(self, routes: "Mapping[str, Target]") -> None:
        self.routes = sorted((Route(key, target) for key, target in routes.items()), key=lambda route: route.rank)

    def find(self, method: str, path: str) -> Optional[Tuple[Route, Dict[str, str]]]:
        """The route that takes a request, and its parameters; none if none does."""
        for route in self.routes:
            parameters = route.match(method, path)
            if parameters is not None:
                return route, parameters
        return None
