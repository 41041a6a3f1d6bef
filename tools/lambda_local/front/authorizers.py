"""The member `authorizer` of an API or a route: who a caller is, as its function is told (API Gateway Developer Guide,
"Use API Gateway Lambda authorizers", "Control access to HTTP APIs with JWT authorizers")."""
import re
from typing import Dict, Iterator, List, NamedTuple, Optional, Tuple

from ..configuration import Kind, Members, is_list_of, is_text, is_whole, mistakes_of, shown

DEFAULT_TTL, LONGEST_TTL = 300, 3600  # seconds; the default is that of a REST API, an HTTP API has 0
# In either of AWS's notations: `method.request.header.Auth` of a REST API, `$request.header.Auth` of an HTTP API
SOURCE = re.compile(r"(?:method\.|\$)?request\.(header|querystring)\.([!-~]{1,256})"
                    r"|\$?(context|stageVariables)\.([!-~]{1,256})")
KINDS = ("claims", "lambda", "jwt", "function")


class Source(NamedTuple):
    """Where a part of a caller's identity is."""
    place: str  # "header", "querystring", "context" or "stageVariables"
    name: str


AUTHORIZATION = Source("header", "Authorization")


def source_of(text: str) -> Optional[Source]:
    found = SOURCE.fullmatch(text)
    return Source(found[1] or found[3], found[2] or found[4]) if found else None


def is_source(value: object) -> bool:
    return isinstance(value, str) and source_of(value) is not None


def is_expression(value: object) -> bool:
    try:
        return isinstance(value, str) and re.compile(value) is not None
    except re.error:
        return False


OBJECT = Kind(lambda value: isinstance(value, dict), "an object")
TEXTS = Kind(is_list_of(is_text), "a list of strings")
OF_JWT = {"issuer": Kind(is_text, "a string"), "audience": TEXTS}
OF_AUTHORIZER = {
    "claims": OBJECT, "lambda": OBJECT, "jwt": OBJECT,
    "function": Kind(is_text, "a string: the name of a function"),
    "scopes": TEXTS,
    "type": Kind(lambda value: value in ("TOKEN", "REQUEST"), '"TOKEN" or "REQUEST"'),
    "identity": Kind(lambda value: is_list_of(is_source)(value) and value != [],
                     'a list of sources, such as "$request.header.Authorization" or "$request.querystring.token"'),
    "validation": Kind(is_expression, "a string: a regular expression"),
    "ttl": Kind(lambda value: is_whole(value, LONGEST_TTL + 1), "a whole number of seconds, from 0 to 3600"),
    "payload": Kind(lambda value: value in ("1.0", "2.0"), '"1.0" or "2.0"'),
    "simple": Kind(lambda value: isinstance(value, bool), "true or false"),
}
# Which members go with which of KINDS
GOES_WITH: Dict[str, Tuple[str, ...]] = {
    "scopes": ("claims", "jwt"), "identity": ("jwt", "function"),
    **{member: ("function",) for member in ("type", "validation", "ttl", "payload", "simple")}}


class Authorizer(NamedTuple):
    kind: str  # one of KINDS
    values: Members = {}  # the claims, the members that a Lambda authorizer gives, or what a token must have
    scopes: Optional[Tuple[str, ...]] = None
    function: str = ""
    is_token: bool = False  # it is given the token alone
    identity: Tuple[Source, ...] = ()
    validation: Optional[str] = None  # what a token must look like
    ttl: int = 0  # seconds for which an answer counts
    version: str = "1.0"  # of the event that its function gets
    is_simple: bool = False  # its function answers without a policy


def mistakes(given: Members, names: List[str], is_rest: bool, where: str) -> Iterator[str]:
    """What is wrong with an authorizer of a REST API, or an HTTP API."""
    found = list(mistakes_of(given, OF_AUTHORIZER, where))
    yield from found
    kinds = [kind for kind in KINDS if kind in given]
    if len(kinds) != 1:
        yield (f"{where}it has {' and '.join(kinds) or 'none of them'}: write one of \"claims\", \"lambda\", "
               "\"jwt\" and \"function\"")
    if found or len(kinds) != 1:
        return
    for name, others in GOES_WITH.items():
        if name in given and kinds[0] not in others:
            yield f"{where}{name} goes with {' or '.join(others)}, and not with {kinds[0]}: leave it out"
            return
    if kinds[0] == "jwt":
        yield from mistakes_of(given["jwt"], OF_JWT, f"{where}jwt: ")
    if kinds[0] == "function":
        yield from mistakes_of_function(given, names, is_rest, where)


def mistakes_of_function(given: Members, names: List[str], is_rest: bool, where: str) -> Iterator[str]:
    if given["function"] not in names:
        yield f"{where}there is no function {shown(given['function'])}"
    is_token, identity = given.get("type") == "TOKEN", given.get("identity", [])
    if is_token and not is_rest:
        yield f'{where}type: TOKEN is of a REST API: an HTTP API has "REQUEST" alone'
    if is_rest and (given.get("payload") == "2.0" or given.get("simple")):
        yield f"{where}a REST API asks in format 1.0 and is answered with a policy: leave payload and simple out"
    if given.get("simple") and given.get("payload") == "1.0":
        yield f'{where}simple: a simple response goes with "payload": "2.0"'
    if is_token and (len(identity) > 1 or any(source_of(text).place != "header"  # type: ignore[union-attr]
                                              for text in identity)):
        yield f"{where}identity: TOKEN has one header, such as [\"$request.header.Authorization\"]"
    if "validation" in given and not is_token:
        yield f'{where}validation goes with "type": "TOKEN": leave it out'
    if given.get("ttl") and not is_token and not identity:
        yield f"{where}ttl: an answer is kept by its \"identity\": write that, or leave ttl out"


def authorizer_of(given: Optional[Members], is_rest: bool) -> Optional[Authorizer]:
    """That of a valid member; none if a route has none."""
    if given is None:
        return None
    kind = next(kind for kind in KINDS if kind in given)
    identity = tuple(source for source in map(source_of, given.get("identity", ())) if source)
    scopes = None if "scopes" not in given else tuple(given["scopes"])
    if kind != "function":
        return Authorizer(kind, given[kind], scopes, identity=identity or (AUTHORIZATION,))
    is_token = given.get("type") == "TOKEN"
    identity = identity or ((AUTHORIZATION,) if is_token else ())
    ttl = given.get("ttl", DEFAULT_TTL if is_rest and identity else 0)
    version = given.get("payload", "1.0" if is_rest else "2.0")
    return Authorizer(kind, {}, None, given["function"], is_token, identity, given.get("validation"), ttl, version,
                      given.get("simple", False))
