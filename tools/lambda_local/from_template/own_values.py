"""What users write of their own beside a template: lambda_local.json, merged over what the template says, with the
members of UP.json."""
import difflib
import os
from typing import Any, Dict, List, Optional

from ..configuration import Members
from ..json_reader import NotJson, read_json
from .files import Folder, text_in
from .messages import VALUES, Fault, excerpt

MOST_BYTES = 16 << 20
AUTHORIZER = "authorizer"  # which is one's own as a whole


def path_beside(path: str) -> Optional[str]:
    """The file beside a template, if it is there. A link out of the folder is not followed: nobody has named it."""
    folder = path if os.path.isdir(path) else os.path.dirname(path)
    beside = os.path.join(folder, VALUES)
    if not os.path.isfile(beside):
        return None
    try:
        Folder(folder or ".").inside(folder, VALUES)
    except Fault:
        raise Fault(f"{beside} leads to {os.path.realpath(beside)}, outside of the template's folder: --values takes "
                    "it") from None
    return beside


def merged(base: Any, own: Any) -> Any:
    """Objects member by member; anything else is one's own."""
    if isinstance(base, dict) and isinstance(own, dict):
        return {**base, **{name: merged(base[name], value) if name in base and name != AUTHORIZER else value
                           for name, value in own.items()}}
    return own


def read(path: str) -> Members:
    try:
        whole = read_json(text_in(path, MOST_BYTES, "--values"))
    except NotJson as fault:
        raise Fault(f"{path}: this is not JSON: {fault}") from None
    if not isinstance(whole, dict):
        raise Fault(f"{path}: it must be an object with the members of UP.json, not {excerpt(whole)}")
    functions = whole.get("functions", [])
    if isinstance(functions, dict):  # (by their names)
        functions = [{"name": name, **member} if isinstance(member, dict) else member
                     for name, member in functions.items()]
    for number, member in enumerate(functions if isinstance(functions, list) else [functions], 1):
        if not isinstance(member, dict) or not isinstance(member.get("name"), str):
            raise Fault(f"{path}: functions: number {number} must be an object with the \"name\" of a function, not "
                        f"{excerpt(member)}")
    return {**whole, "functions": functions}


def merge(made: Members, path: str, keys: Dict[str, str]) -> Members:
    """UP.json with what the file says. A function goes by its name, or by its logical id (`keys`). Paths of the file
    are as seen from its own folder."""
    own, folder = read(path), os.path.dirname(os.path.abspath(path))
    by_name: Dict[str, Members] = {function["name"]: function for function in made["functions"]}
    for member in own["functions"]:
        name = keys.get(member["name"], member["name"]) if member["name"] not in by_name else member["name"]
        if name not in by_name:
            there = [*by_name, *keys]
            near = difflib.get_close_matches(member["name"], there, 1, 0.6)
            raise Fault(f"{path}: there is no function {excerpt(member['name'])}" + (
                f", did you mean {near[0]}?" if near else f"; there are {', '.join(by_name)}"))
        by_name[name] = merged_function(by_name[name], {**member, "name": name}, folder)
    functions: List[Members] = list(by_name.values())
    api = own.get("api")
    if isinstance(api, dict) and AUTHORIZER in api:  # (what is wrong with another value is said of the whole)
        made = {**made, "routes": {route: without_authorizer(given) for route, given in made.get("routes", {}).items()}}
    rest = {name: value for name, value in own.items() if name != "functions"}
    return {**merged({name: value for name, value in made.items() if name != "functions"}, rest),
            "functions": functions}


def without_authorizer(given: Any) -> Any:
    """A route, whose API has one's own authorizer."""
    if not isinstance(given, dict):
        return given
    left = {name: value for name, value in given.items() if name != AUTHORIZER}
    return left if len(left) > 1 else left["function"]


def merged_function(made: Members, own: Members, folder: str) -> Members:
    """A command takes the place of a runtime, and the other way round; so do ports and environments."""
    base = dict(made)
    for one, other in (("command", "runtime"), ("runtime", "command"), ("ports", "environments"),
                       ("environments", "ports"), ("inline", "directory"), ("directory", "inline")):
        if one in own and other not in own:
            base.pop(other, None)
    own = dict(own)
    if isinstance(own.get("directory"), str):
        own["directory"] = os.path.join(folder, own["directory"])
    if isinstance(own.get("layers"), list):
        own["layers"] = [os.path.join(folder, layer) if isinstance(layer, str) else layer for layer in own["layers"]]
    whole = merged(base, own)
    assert isinstance(whole, dict)
    return whole
