"""`--only F,G`: UP.json with these functions alone, and with what leads to them."""
import difflib
from typing import Sequence

from ..configuration import Members
from ..front.asynchronous import OF_RECORDS, is_elsewhere
from ..service import Fault


def limited(whole: Members, names: Sequence[str], path: str) -> Members:
    there = [member["name"] for member in whole["functions"]]
    for name in names:
        if name not in there:
            near = difflib.get_close_matches(name, there, 1, 0.6)
            raise Fault(2, f"--only {name}: {path} has no such function" + (
                f", did you mean {near[0]}?" if near else f"; there are {', '.join(there)}"))
    found: Members = {**whole, "functions": [{**member} for member in whole["functions"]
                                            if member["name"] in names]}
    if "routes" in whole:
        found["routes"] = routes_to(names, whole["routes"], whole.get("api", {}))
    if "apis" in whole:
        found["apis"] = {name: {**api, "routes": routes_to(names, api["routes"], api)}
                         for name, api in whole["apis"].items()}
    for member in (found, *found["functions"]):
        if isinstance(member.get("asynchronous"), dict):
            member["asynchronous"] = among(names, member["asynchronous"])
    return found


def among(names: Sequence[str], given: Members) -> Members:
    """Such an object without the functions that are left out."""
    return {name: value for name, value in given.items()
            if name not in OF_RECORDS or is_elsewhere(value) or value in names}


def routes_to(names: Sequence[str], routes: Members, api: Members) -> Members:
    """The routes that lead to these functions; a Fault if another one authorizes them."""
    found: Members = {}
    for route, given in routes.items():
        of = given if isinstance(given, dict) else {"function": given}
        if of["function"] not in names:
            continue
        authorizer = of["authorizer"] if "authorizer" in of else api.get("authorizer")
        by = authorizer.get("function", names[0]) if isinstance(authorizer, dict) else names[0]
        if by not in names:
            raise Fault(2, f"--only {','.join(names)}: the authorizer of {route} is {by}: name it too")
        found[route] = given
    return found
