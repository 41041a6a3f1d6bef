"""Routes that a template has, the APIs that they are of, and what UP.json says of both."""
import re
from typing import Any, Dict, List, NamedTuple, Optional, Sequence, Set, Tuple

from ..configuration import Members
from ..front import settings
from ..front.http import NO_STAGE
from ..front.routes import DEFAULT, Route, WrongRoute
from .cors import cors_of, rest_cors_of
from .messages import excerpt, tell
from .values import NO_VALUE, Scope, is_scalar, text_of

# The APIs of events that name none
IMPLICIT, IMPLICIT_REST = "ServerlessHttpApi", "ServerlessRestApi"
OF_SERVERLESS, REST_OF_SERVERLESS = "provider.httpApi", "provider.apiGateway"
MULTIPLE = "alb, multiValueHeaders"  # the payload of rules whose target group has them
UNNAMED = {IMPLICIT, IMPLICIT_REST, OF_SERVERLESS, REST_OF_SERVERLESS}
# What is taken of an API's properties, or has no meaning here
READ_OF_HTTP = {"Auth", "authorizers", "StageName", "StageVariables", "CorsConfiguration", "Name", "DefinitionBody",
                "DefinitionUri", "Description", "Tags"}
READ_OF_REST = {"Auth", "StageName", "Variables", "BinaryMediaTypes", "Cors", "Name", "DefinitionBody", "DefinitionUri",
                "Description", "Tags", "EndpointConfiguration", "OpenApiVersion", "AlwaysDeploy", "PropagateTags"}


class Of(NamedTuple):
    """The API that a route is of."""
    key: str  # its logical id
    is_rest: bool = False
    payload: str = "2.0"

    @property
    def name(self) -> str:
        if self.payload.startswith(settings.BALANCER):
            return f"the rules of {self.key}"
        return f"the {'REST' if self.is_rest else 'HTTP'} API {self.key}"


class FunctionRoute(NamedTuple):
    """One route of a function. `cors` is what its own event says of other sites."""
    key: str
    of: Of
    cors: Optional[Dict[str, Any]] = None
    auth: Optional[Members] = None  # what its event of SAM says of its authorizer, which its API has
    authorizer: Optional[Members] = None  # as UP.json has it


def key_of(method: object, path: object) -> str:
    """The key of a route; WrongRoute if it is none. One without a method and a path takes everything else."""
    key = DEFAULT
    if (method is not None or path is not None) and str(path or "").strip("/") != DEFAULT:
        method = str(method or "ANY").upper().replace("*", "ANY").replace("X-AMAZON-APIGATEWAY-ANY-METHOD", "ANY")
        key = f"{method} /{str(path or '').lstrip('/')}"
    return check_key(key)


def check_key(key: str) -> str:
    """The key of a route that is written as UP.json has it; WrongRoute if it is none."""
    try:
        Route(key)
    except WrongRoute as fault:
        raise WrongRoute(f"{excerpt(key)}: {fault}") from None
    return key


Found = Dict[str, Tuple[str, FunctionRoute]]  # each route by its key, with its function's name


def take_routes(functions: List[Members]) -> Found:
    """Takes the routes out of the functions. Of two of one API that take the same requests the first counts, and so
    does one of two that is written in both ways: an API whose routes are another's too has a port of its own."""
    found: List[Tuple[str, FunctionRoute]] = [(made["name"], mapped) for made in functions
                                              for mapped in made.pop("routes", ())]
    routes: Found = {}
    shapes: Dict[object, str] = {}
    for name, mapped in found:
        shape = Route(mapped.key).shape
        if shape in shapes:
            tell(f"{name}: ignores the route {mapped.key}, since {routes[shapes[shape]][0]} has {shapes[shape]}")
        else:
            routes[mapped.key], shapes[shape] = (name, mapped), mapped.key
    return routes


def apart(functions: List[Members]) -> List[str]:
    """The APIs that have a route which one before them has too: they cannot share its port."""
    seen: Dict[object, str] = {}
    found: Dict[str, None] = {}
    for mapped in (mapped for made in functions for mapped in made.get("routes", ())):
        other = seen.setdefault(Route(mapped.key).shape, mapped.of.key)
        if other != mapped.of.key and other not in found:
            found[mapped.of.key] = None
    return list(found)


class Apis:
    """What UP.json has of the APIs of a template. `properties` are those of each by its logical id, in the names that
    SAM has for them."""

    def __init__(self, properties: Dict[str, Members], scope: Scope) -> None:
        self.properties, self.scope = properties, scope
        self.is_told: Set[str] = set()

    def members(self, functions: List[Members]) -> Members:
        """The members `routes`, `api` and `apis` of UP.json, without those that are empty; takes routes out of the
        functions."""
        others = {}
        for key in apart(functions):
            own = [{"name": made["name"], "routes": [mapped for mapped in made["routes"] if mapped.of.key == key]}
                   for made in functions if "routes" in made]
            for made in functions:
                made["routes"] = [mapped for mapped in made.get("routes", ()) if mapped.of.key != key]
            of_api = self.of_port(own)
            others[re.sub(r"[^A-Za-z0-9_-]", "-", key)] = {"routes": of_api["routes"], **of_api.get("api", {})}
        made = self.of_port(functions)
        for key in set(self.properties) - self.is_told - UNNAMED:
            if key.rpartition("/")[2] not in UNNAMED:
                tell(f"ignores {key}: no route belongs to it")
        return {**made, **({"apis": others} if others else {})}

    def of_port(self, functions: List[Members]) -> Members:
        """The members `routes` and `api` of what has one port."""
        found = take_routes(functions)
        used = list(dict.fromkeys(mapped.of for _, mapped in found.values()))
        integrations = {of: self.integration(of) for of in used}
        self.is_told.update(of.key for of in used)
        alike = len({repr(each) for each in integrations.values()}) == 1
        by = [mapped.authorizer for _, mapped in found.values()]
        common = by[0] if by and all(authorizer == by[0] for authorizer in by) else None
        api = {**(integrations[used[0]] if alike else {}), **({} if common is None else {"authorizer": common}),
               **self.cors(found, used)}
        routes: Members = {}
        for key, (name, mapped) in found.items():
            own = {} if alike else integrations[mapped.of]
            if mapped.authorizer is not None and common is None:
                own = {**own, "authorizer": mapped.authorizer}
            routes[key] = {"function": name, **own} if own else name
        return {**({"routes": routes} if routes else {}), **({"api": api} if api else {})}

    def value(self, of: Of, name: str) -> object:
        """A property's value; None if it is absent, or unknown, which is reported."""
        given = self.properties.get(of.key, {}).get(name)
        if given is None:
            return None
        value, placeholders = self.scope.evaluate_or_reason(given)
        if placeholders:
            tell(f"ignores {name} of {of.name}: it needs {' and '.join(placeholders)}")
            return None
        return None if value is NO_VALUE else value

    def integration(self, of: Of) -> Members:
        """The members that say how requests become events."""
        if of.payload.startswith(settings.BALANCER):
            return {"payload": settings.BALANCER, **({"multiValueHeaders": True} if of.payload == MULTIPLE else {})}
        read = READ_OF_REST if of.is_rest else READ_OF_HTTP
        if left := sorted(str(name) for name in set(self.properties.get(of.key, {})) - read):
            tell(f"ignores {', '.join(left)} of {of.name}")
        integration: Members = {"stage": self.stage(of), "stageVariables": self.variables(of)}
        if of.is_rest:
            integration = {"payload": "1.0", **integration, "binaryMediaTypes": self.binary(of)}
        elif of.payload == "1.0":
            integration = {"payload": "1.0", "type": "HTTP", **integration}
        return {name: value for name, value in integration.items() if value}

    def stage(self, of: Of) -> Optional[str]:
        """The stage; none for that of an HTTP API which is in no path."""
        given = self.value(of, "StageName")
        if given is None or not of.is_rest and given == NO_STAGE:
            return None
        if given == NO_STAGE or not settings.OF_INTEGRATION["stage"].accepts(given):
            tell(f"ignores StageName of {of.name}: {excerpt(given)}")
            return None
        return str(given)

    def variables(self, of: Of) -> Optional[Dict[str, str]]:
        name = "Variables" if of.is_rest else "StageVariables"
        given = self.value(of, name) or {}
        if not isinstance(given, dict):
            tell(f"ignores {name} of {of.name}: they must be an object, not {excerpt(given)}")
            return None
        return {str(name): text_of(value) for name, value in given.items() if is_scalar(value)}

    def binary(self, of: Of) -> Optional[List[str]]:
        given = self.value(of, "BinaryMediaTypes") or []
        if not isinstance(given, list) or not settings.TEXTS.accepts(given):
            tell(f"ignores BinaryMediaTypes of {of.name}: they must be a list of strings, not {excerpt(given)}")
            return None
        return [re.sub("~1", "/", kind) for kind in given]  # (which is how SAM writes it)

    def cors(self, routes: Dict[str, Tuple[str, FunctionRoute]], used: Sequence[Of]) -> Members:
        """The member `cors`: all routes have one port here."""
        if not used:
            return {}
        given = {of.key: self.cors_of_api(of) for of in used}
        for _, mapped in routes.values():
            given[mapped.of.key] = given[mapped.of.key] or mapped.cors
        first = next(iter(given))
        if any(cors != given[first] for cors in given.values()):
            names = {of.key: of.name for of in used}
            tell(f"all routes have one port here, with the Cors of {names[first]}, and not those of "
                 f"{', '.join(list(given)[1:])}")
        return {"cors": given[first]} if given[first] else {}

    def cors_of_api(self, of: Of) -> Optional[Members]:
        properties = self.properties.get(of.key, {})
        if of.is_rest:
            return rest_cors_of(properties.get("Cors"), of.name, self.scope, tell)
        return cors_of(properties.get("CorsConfiguration"), of.name, self.scope, tell)
