"""The aliases of functions: a request that names one is asked of its function, which has one version here."""
import re
from typing import Mapping, Sequence
from urllib.parse import parse_qsl, quote, unquote

from .http import Request

NAMED = re.compile(r"(/20\d\d-\d\d-\d\d/functions/)([^/]+)(.*)", re.DOTALL)
# A name, or an ARN whole or in part, with a qualifier
QUALIFIED = re.compile(r"((?:.*:)?function:([^:]+)|(?:[0-9]{12}:)?([^:]+)):([^:]+)")
NAME = re.compile(r"(?:.*:)?([^:]+)")


class Aliases:
    """`aliases` has those of each function that has any."""

    def __init__(self, aliases: Mapping[str, Sequence[str]]) -> None:
        self.aliases = aliases

    def without(self, request: Request) -> Request:
        """The request of the function itself, if it names an alias, behind the name or as Qualifier."""
        found = NAMED.fullmatch(request.path) if self.aliases else None
        if found is None:
            return request
        name, query = unquote(found[2]), request.head.parts.query
        qualified = QUALIFIED.fullmatch(name)
        if qualified and qualified[4] in self.aliases.get(qualified[2] or qualified[3], ()):
            name = qualified[1]
        function = NAME.fullmatch(name)
        own = self.aliases.get(function[1], ()) if function else ()
        pairs = parse_qsl(query or "", keep_blank_values=True)
        if any(key == "Qualifier" and value in own for key, value in pairs):
            query = "&".join(f"{quote(key)}={quote(value)}" for key, value in pairs if key != "Qualifier") or None
        path = found[1] + (quote(name, safe=":$") if name != unquote(found[2]) else found[2]) + found[3]
        parts = request.head.parts._replace(path=path, query=query)
        return request._replace(head=request.head._replace(parts=parts))
