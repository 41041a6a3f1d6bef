"""Resources by their types, and functions by their names, ARNs, and URIs of integrations."""
import re
from typing import Iterator, List, Optional, Tuple

from ..configuration import Members
from ..front.events import NAMED
from .cloudformation import is_wanted
from .values import Scope, members_of

INVOKED = re.compile(r"functions/(.+)/invocations")  # the function in the URI of an integration


def resources_of(kind: str, scope: Scope) -> Iterator[Tuple[str, Members]]:
    """Those of this type that are to be there: the logical id and the properties of each."""
    for key, resource in scope.resources.items():
        if isinstance(resource, dict) and resource.get("Type") == kind and is_wanted(key, resource, scope):
            yield str(key), members_of(resource, "Properties")


def name_of_function(target: object) -> Optional[str]:
    """The name of the function that a name, an ARN or the URI of an integration names; None if it is none of these."""
    if not isinstance(target, str):
        return None
    invoked = INVOKED.search(target)
    match = NAMED.fullmatch(invoked[1] if invoked else target)
    return (match[1] or match[2]) if match else None


def function_of(target: object, functions: List[Members], scope: Scope) -> Optional[Members]:
    """The function that a name or an ARN names; none if none has that name."""
    name = name_of_function(target)
    return next((made for made in functions if name is not None and made["name"] == name), None)
