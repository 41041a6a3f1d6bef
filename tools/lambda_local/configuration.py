"""What a service's configuration may contain (docs/formats.md), and in words what is wrong with one that is refused.

`mistakes` finds members that are unknown or have another type. All else the program decides, and says where:
`explained` has a sentence for one of its faults, such as `BadTimeout`, at its place, such as `functions[3].timeout`."""
import difflib
import json
import re
from collections import Counter
from typing import Any, Callable, Dict, Hashable, Iterable, Iterator, List, Mapping, NamedTuple, Optional, Sequence


Members = Dict[str, Any]  # of an object of JSON that has been looked at: what they may be is said where that is done


class Kind(NamedTuple):
    """The type of a member."""
    accepts: Callable[[object], bool]
    expected: str  # in words, after "must be"


def is_whole(value: object, below: int) -> bool:
    return isinstance(value, int) and not isinstance(value, bool) and 0 <= value < below


def is_text(value: object) -> bool:
    return isinstance(value, str)


def is_list_of(accepts: Callable[[object], bool]) -> Callable[[object], bool]:
    return lambda value: isinstance(value, list) and all(map(accepts, value))


TEXT = Kind(is_text, "a string")
PORT = Kind(lambda value: is_whole(value, 1 << 16), "a port: a whole number from 1 to 65535")
NUMBER = Kind(lambda value: is_whole(value, 1 << 32), "a whole number")
LONG_NUMBER = Kind(lambda value: is_whole(value, 1 << 64), "a whole number below 2^64")
OF_SERVICE = {"account": TEXT, "region": TEXT, "functions": Kind(is_list_of(lambda value: True), "a list of objects"),
              "accountLimit": NUMBER, "leastRemainder": NUMBER, "invokePort": PORT, "salt": LONG_NUMBER,
              "maxEntries": LONG_NUMBER}
OF_FUNCTION = {"name": TEXT, "ports": Kind(is_list_of(PORT.accepts), "a list of ports, one for each environment"),
               "handler": TEXT, "timeout": Kind(NUMBER.accepts, "a whole number of seconds, from 1 to 900"),
               "reserved": NUMBER, "extensions": Kind(is_list_of(is_text), "a list of names")}
REQUIRED = ("account", "region", "functions")
REQUIRED_OF_FUNCTION = ("name", "ports")


# What others call a member, where no name is near.
MEANT = {"environment": "variables", "env": "variables", "envVars": "variables", "code": "directory",
         "codeUri": "directory", "layer": "layers", "memorySize": "memory", "concurrency": "reserved",
         "reservedConcurrency": "reserved"}
UNLIKE = ("events",)  # which are near to what is not meant


def nearest(name: str, value: object, kinds: Mapping[str, Kind]) -> List[str]:
    """The member that is meant by one that there is not; none if that cannot be said."""
    meant = "environments" if name == "environment" and is_whole(value, 1 << 32) else MEANT.get(name)
    if meant is not None and meant in kinds:
        return [meant]
    return [] if name in UNLIKE else difflib.get_close_matches(name, kinds, 1, 0.6)


def shown(value: object) -> str:
    """A value as its file has it, cut short."""
    text = json.dumps(value, ensure_ascii=False)
    return text if len(text) <= 60 else text[:57] + ".."


def named(name: str) -> str:
    """A name in a sentence, cut short."""
    return name if len(name) <= 60 else name[:57] + ".."


def mistakes_of(members: Mapping[str, object], kinds: Mapping[str, Kind], where: str,
                required: Sequence[str] = ()) -> Iterator[str]:
    """What is wrong with the names and types of an object's members, one sentence each."""
    for name, value in members.items():
        if name not in kinds:
            near = nearest(name, value, kinds)
            yield f"{where}unknown member {named(name)}" + (
                f", did you mean {near[0]}?" if near else f"; there are {', '.join(sorted(kinds))}")
        elif not kinds[name].accepts(value):
            yield f"{where}{name} must be {kinds[name].expected}, not {shown(value)}"
    for name in required:
        if name not in members:
            yield f"{where}there is no {name}, which must be {kinds[name].expected}"


def mistakes_within(members: Members, kinds: Mapping[str, Kind], where: str, required: Sequence[str],
                    further: Callable[[Members, str], Iterator[str]]) -> Iterator[str]:
    """The same, and if there are none, what `further` finds at this place."""
    wrong = list(mistakes_of(members, kinds, where, required))
    yield from wrong or further(members, where)


def place_of(member: Members, number: int) -> str:
    """Returns how a sentence names the function at this place of the list, from 1."""
    name = member.get("name")
    return f"function {named(name)}: " if isinstance(name, str) else f"function number {number}: "


def mistakes(configuration: object, of_service: Mapping[str, Kind] = OF_SERVICE,
             of_function: Mapping[str, Kind] = OF_FUNCTION, required: Sequence[str] = REQUIRED,
             required_of_function: Sequence[str] = REQUIRED_OF_FUNCTION) -> Iterator[str]:
    """Returns what is wrong with the names and types of a configuration's members, in their order."""
    if not isinstance(configuration, dict):
        yield f"it must be an object with a list of \"functions\", not {shown(configuration)}"
        return
    yield from mistakes_of(configuration, of_service, "", required)
    functions = configuration.get("functions")
    for number, member in enumerate(functions if isinstance(functions, list) else [], 1):
        if isinstance(member, dict):
            yield from mistakes_of(member, of_function, place_of(member, number), required_of_function)
        else:
            yield f"function number {number} must be an object, not {shown(member)}"


def is_label(text: str) -> bool:
    """1 to 128 printable bytes."""
    return re.fullmatch(r"[ -~]{1,128}", text) is not None


def repeated(values: Iterable[Hashable]) -> Optional[Hashable]:
    return next((value for value, count in Counter(values).items() if count > 1), None)


class Refused(NamedTuple):
    """A configuration, its functions, and the function that its fault is about."""
    whole: Members
    functions: List[Members]
    number: Optional[int]  # from 0; none if it is about the account

    @property
    def function(self) -> Members:
        if self.number is None:
            raise IndexError
        return self.functions[self.number]

    @property
    def where(self) -> str:
        """The function's name in a sentence."""
        return f"function {self.function['name']}: "


def bad_least_remainder(of: Refused) -> str:
    limit, least = of.whole.get("accountLimit", 1000), of.whole.get("leastRemainder", 100)
    by_default = "" if "leastRemainder" in of.whole else ", the default"
    return f"leastRemainder must be at most accountLimit, which is {limit}, not {least}{by_default}"


def bad_handler(of: Refused) -> str:
    return f"{of.where}handler must have 1 to 128 printable ASCII characters, not {shown(of.function['handler'])}"


def too_many_environments(of: Refused) -> str:
    most = max(of.functions, key=lambda member: len(member["ports"]))
    of_most = f"{len(most['ports'])} of them of function {most['name']}"
    return f"{environments_of(of.functions)} environments in all, {of_most}: 256 is the most"


def environments_of(functions: List[Members]) -> int:
    return sum(len(member["ports"]) for member in functions)


def owners_of(port: int, of: Refused) -> List[str]:
    """Returns the owners of a port: the callers, or functions."""
    return (["invokePort"] if of.whole.get("invokePort", 9000) == port else []) + [
        f"function {member['name']}" for member in of.functions for other in member["ports"] if other == port]


def bad_port(of: Refused) -> str:
    owner = "invokePort" if of.number is None else f"function {of.function['name']}"
    return f"{owner}: 0 is not a port: write one from 1 to 65535"


def duplicate_port(of: Refused) -> str:
    ports = [of.whole.get("invokePort", 9000), *(port for member in of.functions for port in member["ports"])]
    port = next(port for port, count in Counter(ports).items() if count > 1)
    return f"port {port} appears twice: {' and '.join(owners_of(port, of)[:2])} have it"


def bad_extension(of: Refused) -> str:
    name = next(name for name in of.function["extensions"] if not is_label(name))
    return f"{of.where}the name of an extension has 1 to 128 printable ASCII characters, not {shown(name)}"


def reservation_above_environments(of: Refused) -> str:
    return (f"{of.where}it reserves {of.function['reserved']} and has {len(of.function['ports'])} environments: "
            "reserve at most as many, or give it more")


def remainder_too_small(of: Refused) -> str:
    reserved = sum(member.get("reserved", 0) for member in of.functions)
    limit, least = of.whole.get("accountLimit", 1000), of.whole.get("leastRemainder", 100)
    return (f"the functions reserve {reserved} of accountLimit {limit}: leastRemainder {least} must stay unreserved; "
            "reserve less, or write another accountLimit or leastRemainder")


def entries_out_of_range(of: Refused) -> str:
    least = environments_of(of.functions) + 1
    return (f"maxEntries must be from {least}, one more than there are environments, to {1 << 32}, "
            f"not {of.whole.get('maxEntries')}")


SENTENCES: Dict[str, Callable[[Refused], str]] = {
    "BadAccount": lambda of: f"account must be 12 digits, not {shown(of.whole['account'])}",
    "BadRegion": lambda of: f"region must have 1 to 32 of a-z, 0-9 and -, not {shown(of.whole['region'])}",
    "BadAccountLimit": lambda of: f"accountLimit must be from 1 to 1000000, not {of.whole['accountLimit']}",
    "BadLeastRemainder": bad_least_remainder,
    "TooManyFunctions": lambda of: f"{len(of.functions)} functions: 64 are the most",
    "BadName": lambda of: f"function {shown(of.function['name'])}: a name has 1 to 64 of A-Z, a-z, 0-9, - and _",
    "DuplicateName": lambda of: f"two functions have the name {of.function['name']}: each must have its own",
    "BadHandler": bad_handler,
    "BadTimeout": lambda of: f"{of.where}timeout must be from 1 to 900 seconds, not {of.function['timeout']}",
    "NoEnvironment": lambda of: of.where + "it has no environment: give it at least one port",
    "TooManyEnvironments": too_many_environments,
    "BadPort": bad_port,
    "DuplicatePort": duplicate_port,
    "TooManyExtensions": lambda of: f"{of.where}{len(of.function['extensions'])} extensions: ten are the most",
    "BadExtension": bad_extension,
    "DuplicateExtension":
        lambda of: f"{of.where}the extension {shown(repeated(of.function['extensions']))} appears twice",
    "ReservationAboveEnvironments": reservation_above_environments,
    "RemainderTooSmall": remainder_too_small,
    "EntriesOutOfRange": entries_out_of_range,
    "BadShape": lambda of: next(mistakes(of.whole)),
}
OF_FUNCTION_AT = re.compile(r"functions\[([0-9]{1,9})\](\.\w+)?")


def explained(name: str, configuration: Any, place: str = "") -> str:
    """A sentence on what the program means by this name of a fault, at the place that it gives; nothing if this page
    knows no reason, or would need the place of it."""
    found = OF_FUNCTION_AT.fullmatch(place)
    try:
        return SENTENCES[name](Refused(configuration, configuration["functions"], int(found[1]) if found else None))
    except (KeyError, IndexError, StopIteration, TypeError, ValueError, AttributeError):
        return ""


def says(name: str, place: str) -> str:
    """What the program says of a fault, in a sentence."""
    return f"says {name} at {place}" if place else f"says {name}"
