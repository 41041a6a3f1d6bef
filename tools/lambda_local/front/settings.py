"""The members of UP.json that say what is in front of the functions."""
import re
from typing import Any, Dict, Iterator, List, Mapping, NamedTuple, Optional, Tuple

from ..configuration import PORT, Kind, Members, is_list_of, is_text, is_whole, mistakes_of, shown
from ..http1 import is_token
from . import asynchronous, authorizers
from .asynchronous import Asynchronous, asynchronous_of
from .authorizers import Authorizer, authorizer_of
from .http import NO_STAGE
from .routes import Route, WrongRoute

YES = Kind(lambda value: isinstance(value, bool), "true or false")
TEXTS = Kind(is_list_of(is_text), "a list of strings")
NAMES = Kind(is_list_of(lambda value: isinstance(value, str) and is_token(value)),
             "a list of names, such as x-name or *")
ORIGINS = Kind(is_list_of(lambda value: isinstance(value, str) and re.fullmatch("[!-+.-~-]+", value) is not None),
               "a list of origins, such as https://shop.example or *")
OF_CORS = {
    "allowCredentials": YES, "allowHeaders": NAMES, "allowMethods": NAMES, "allowOrigins": ORIGINS,
    "exposeHeaders": NAMES,
    "maxAge": Kind(lambda value: is_whole(value, 86401), "a whole number of seconds, up to 86400"),
}
OBJECT = Kind(lambda value: isinstance(value, dict), "an object")
OF_ADDRESS = {"port": PORT, "cors": OBJECT}
OF_URL = {**OF_ADDRESS, "invoke": Kind(lambda value: value in ("BUFFERED", "RESPONSE_STREAM"),
                                       '"BUFFERED" or "RESPONSE_STREAM"')}
STAGE = re.compile(r"[A-Za-z0-9_-]{1,128}|\$default")
BALANCER = "alb"  # the payload of an Application Load Balancer
OF_INTEGRATION = {
    "payload": Kind(lambda value: value in ("1.0", "2.0", BALANCER), '"1.0", "2.0" or "alb"'),
    "multiValueHeaders": YES,
    "type": Kind(lambda value: value in ("REST", "HTTP"), '"REST" or "HTTP"'),
    "stage": Kind(lambda value: isinstance(value, str) and STAGE.fullmatch(value) is not None,
                  "a string of 1 to 128 letters, digits, - and _, or $default"),
    "stageVariables": Kind(lambda value: isinstance(value, dict) and all(map(is_text, value.values())),
                           "an object of strings"),
    "binaryMediaTypes": TEXTS,
    "authorizer": Kind(lambda value: value is None or isinstance(value, dict),
                       'an object with "claims", "lambda", "jwt" or "function", or null'),
}
OF_API = {**OF_ADDRESS, **OF_INTEGRATION, "stageInPath": YES}
OF_ROUTE = {"function": Kind(is_text, "a string: the name of a function"), **OF_INTEGRATION}
SWITCH = Kind(lambda value: isinstance(value, (bool, dict)), "true, or an object")
AT_THE_TOP = {
    "asynchronous": SWITCH,
    "routes": Kind(lambda value: isinstance(value, dict) and all(isinstance(of, (str, dict)) for of in value.values()),
                   'an object: for each route, such as "GET /orders/{id}", the name of a function, or an object with '
                   '"function"'),
    "api": OBJECT,
    "apis": Kind(lambda value: isinstance(value, dict) and all(isinstance(of, dict) for of in value.values()),
                 'an object: for each further API its "routes", and what "api" may have'),
}
ALIAS = re.compile("(?![0-9]+$)[A-Za-z0-9_-]{1,128}")
OF_FUNCTION = {
    "url": SWITCH,
    "aliases": Kind(is_list_of(lambda value: isinstance(value, str) and ALIAS.fullmatch(value) is not None),
                    "a list of names, each of 1 to 128 letters, digits, - and _, such as \"live\""),
    "asynchronous": OBJECT,
}


class Cors(NamedTuple):
    origins: Tuple[str, ...] = ()
    methods: Tuple[str, ...] = ()
    headers: Tuple[str, ...] = ()
    exposed: Tuple[str, ...] = ()
    credentials: bool = False
    seconds: Optional[int] = None


class Address(NamedTuple):
    """Where HTTP requests come in."""
    port: int = 0
    cors: Optional[Cors] = None
    streams: bool = False  # a function's response is passed on as it comes
    stage_in_path: bool = False  # a request's path begins with the stage of its route


class Integration(NamedTuple):
    """How the requests of a route become events, and results answers."""
    version: str = "2.0"  # of the payload format
    is_rest: bool = False
    stage: str = NO_STAGE
    variables: Optional[Dict[str, str]] = None
    binary: Tuple[str, ...] = ()  # media types of a REST API, in lower case
    authorizer: Optional[Authorizer] = None
    is_multiple: bool = False  # headers and parameters of a load balancer are lists


class Target(NamedTuple):
    """What a route leads to."""
    function: str
    integration: Integration


class RoutedApi(NamedTuple):
    """An API: a port with its routes."""
    address: Address
    routes: Dict[str, Target]

    def prefix(self, target: Target) -> str:
        """What the path of a request to a target begins with."""
        has_none = not self.address.stage_in_path or target.integration.stage == NO_STAGE
        return "" if has_none else f"/{target.integration.stage}"

    def below(self, url: str) -> str:
        """The address that all routes are below."""
        prefixes = set(map(self.prefix, self.routes.values()))
        return url + prefixes.pop() if len(prefixes) == 1 else url


class Settings(NamedTuple):
    invoke_port: int
    asynchronous: Optional[Asynchronous]
    urls: Dict[str, Address]  # by function
    apis: Dict[str, RoutedApi]  # by name; that of `routes` and `api` has none
    functions: Tuple[Dict[str, Any], ...] = ()  # as UP.json has them
    folder: str = ""  # of UP.json, from which their folders are seen
    of_functions: Dict[str, Asynchronous] = {}  # those with settings of their own for asynchronous invocations

    @property
    def aliases(self) -> Dict[str, Tuple[str, ...]]:
        """The aliases of each function that has any."""
        return {member["name"]: tuple(member["aliases"]) for member in self.functions if member.get("aliases")}


def mistakes(whole: Members) -> Iterator[str]:
    """What is wrong inside these members, whose own types have been looked at."""
    names = [member["name"] for member in whole["functions"]]
    given = whole.get("asynchronous")
    if isinstance(given, dict):
        yield from asynchronous.mistakes(given, names, "asynchronous: ")
    for member in whole["functions"]:
        where = f"function {member['name']}: "
        if isinstance(member.get("url"), dict):
            yield from mistakes_of_address(member["url"], f"{where}url: ", OF_URL)
        yield from asynchronous.mistakes(member.get("asynchronous", {}), names, f"{where}asynchronous: ")
        if "asynchronous" in member and whole.get("asynchronous") is False:
            yield f'{where}asynchronous: "asynchronous": false refuses all: leave one of the two out'
    yield from mistakes_of_api(whole, names)
    for name, given in whole.get("apis", {}).items():
        where = f"apis: {shown(name)}: "
        api = {member: value for member, value in given.items() if member != "routes"}
        if not isinstance(given.get("routes"), dict) or not AT_THE_TOP["routes"].accepts(given["routes"]):
            yield f"{where}routes must be {AT_THE_TOP['routes'].expected}, not {shown(given.get('routes'))}"
            continue
        yield from (f"{where}{mistake}" for mistake in mistakes_of_api({"routes": given["routes"], "api": api}, names))


def mistakes_of_api(whole: Members, names: List[str]) -> Iterator[str]:
    """What is wrong with the members `routes` and `api`."""
    api = whole.get("api", {})
    yield from mistakes_of_address(api, "api: ", OF_API)
    yield from mistakes_of_integration(api, api, "api: ")
    yield from mistakes_of_authorizer(api, api, names, "api: ")
    if "api" in whole and "routes" not in whole:
        yield "api: there are no routes: write \"routes\", or leave it out"
    yield from mistakes_of_routes(whole.get("routes", {}), names, api)


def mistakes_of_address(given: Members, where: str, kinds: Mapping[str, Kind] = OF_ADDRESS) -> Iterator[str]:
    yield from mistakes_of(given, kinds, where)
    if isinstance(given.get("cors"), dict):
        yield from mistakes_of(given["cors"], OF_CORS, f"{where}cors: ")


def mistakes_of_integration(given: Members, whole: Members, where: str) -> Iterator[str]:
    """What does not go together; `whole` also has what a route has from its API."""
    kind = kind_of(whole)
    if kind == BALANCER:
        for name in sorted({"type", "stage", "stageVariables", "binaryMediaTypes", "authorizer"} & set(given)):
            if given[name] is not None:
                yield f'{where}{name} is of an API, and not of "payload": "alb": leave it out'
        return
    if "multiValueHeaders" in given:
        yield f'{where}multiValueHeaders is of "payload": "alb": leave it out'
    if kind == "REST" and whole.get("payload") == "2.0":
        yield f'{where}the events of a REST API have "payload": "1.0": write that, or "type": "HTTP"'
    if kind == "REST" and given.get("stage") == NO_STAGE:
        yield f'{where}the stage {NO_STAGE} is of an HTTP API: write another one, or "type": "HTTP"'
    if kind == "HTTP" and "binaryMediaTypes" in given:
        yield f'{where}binaryMediaTypes is of a REST API: leave it out, or write "type": "REST"'


def mistakes_of_authorizer(given: Members, whole: Members, names: List[str], where: str) -> Iterator[str]:
    """Also of one that a route has from its API, if it says of which kind it is itself."""
    authorizer = whole.get("authorizer")
    if isinstance(authorizer, dict) and kind_of(whole) != BALANCER and {"authorizer", "type", "payload"} & set(given):
        yield from authorizers.mistakes(authorizer, names, kind_of(whole) == "REST", f"{where}authorizer: ")


def mistakes_of_routes(routes: Mapping[str, object], names: List[str], api: Members) -> Iterator[str]:
    seen: Dict[object, str] = {}
    for key, given in routes.items():
        where = f"routes: {shown(key)}: "
        if isinstance(given, dict):
            yield from mistakes_of(given, OF_ROUTE, where, ["function"])
            yield from mistakes_of_integration(given, {**api, **given}, where)
            yield from mistakes_of_authorizer(given, {**api, **given}, names, where)
        name = given.get("function") if isinstance(given, dict) else given
        if is_text(name) and name not in names:
            yield f"{where}there is no function {shown(name)}"
        try:
            shape = Route(key).shape
        except WrongRoute as fault:
            yield f"{where}{fault}"
            continue
        if shape in seen:
            yield f"{where}it takes the same requests as {shown(seen[shape])}: leave one of the two out"
        seen[shape] = key


def cors_of(given: Optional[Members]) -> Optional[Cors]:
    if given is None:
        return None
    return Cors(tuple(given.get("allowOrigins", ())), tuple(given.get("allowMethods", ())),
                tuple(given.get("allowHeaders", ())),
                tuple(given.get("exposeHeaders", ())), given.get("allowCredentials", False), given.get("maxAge"))


def address_of(given: object) -> Address:
    given = given if isinstance(given, dict) else {}
    return Address(given.get("port", 0), cors_of(given.get("cors")), given.get("invoke") == "RESPONSE_STREAM",
                   given.get("stageInPath", False))


def kind_of(given: Members) -> str:
    if given.get("payload") == BALANCER:
        return BALANCER
    return given.get("type", "REST" if given.get("payload") == "1.0" else "HTTP")


def target_of(given: object, api: Members) -> Target:
    """What a route leads to; what it does not say, the API does."""
    given = given if isinstance(given, dict) else {"function": given}
    whole = {**api, **given}
    is_rest = kind_of(whole) == "REST"
    variables = whole.get("stageVariables") or None
    if kind_of(whole) == BALANCER:
        return Target(given["function"], Integration(BALANCER, is_multiple=whole.get("multiValueHeaders", False)))
    authorizer = authorizer_of(whole.get("authorizer"), is_rest)
    if not is_rest:
        return Target(given["function"], Integration(whole.get("payload", "2.0"), False, whole.get("stage", NO_STAGE),
                                                     variables, authorizer=authorizer))
    binary = tuple(kind.lower() for kind in whole.get("binaryMediaTypes", ()))
    return Target(given["function"], Integration("1.0", True, whole.get("stage", "local"), variables, binary,
                                                 authorizer))


def settings_of(whole: Members, folder: str = "") -> Settings:
    """Returns the settings in a valid UP.json, which is in this folder."""
    asynchronous = asynchronous_of(whole.get("asynchronous", True))
    urls = {member["name"]: address_of(member["url"]) for member in whole["functions"]
            if member.get("url") or member.get("url") == {}}
    apis = {name: api_of({"routes": given["routes"], "api": given})
            for name, given in (("", whole.get("routes") and {"routes": whole["routes"], **whole.get("api", {})}),
                                *whole.get("apis", {}).items()) if given and given["routes"]}
    common = whole.get("asynchronous")
    own = {member["name"]: asynchronous_of({**(common if isinstance(common, dict) else {}), **member["asynchronous"]})
           for member in whole["functions"] if "asynchronous" in member}
    return Settings(whole.get("invokePort", 0), asynchronous, urls, apis, tuple(whole["functions"]), folder,
                    {name: given for name, given in own.items() if given is not None})


def api_of(whole: Members) -> RoutedApi:
    return RoutedApi(address_of(whole["api"]), {key: target_of(given, whole["api"])
                                                for key, given in whole["routes"].items()})
