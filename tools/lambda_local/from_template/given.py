"""What a user gives for a template: values of its parameters, a stage, variables of its functions."""
import difflib
import re
import shlex
from typing import Dict, Iterator, Mapping, NamedTuple, Optional, Sequence, Tuple

from ..json_reader import NotJson, read_json
from ..outgoing import is_for_the_system, is_name_of_variable
from ..toml_reader import NotToml, read_toml, table_in
from .env_file import read_env
from .files import text_in
from .messages import Fault, excerpt

MOST_BYTES = 1 << 20  # of a file of parameters or variables
PAIR = re.compile(r"ParameterKey=(?P<key>[^,]+),ParameterValue=(?P<value>.*)", re.S)
OVERRIDES = "parameter_overrides"
COMMANDS = ("global", "deploy", "local_start_api", "local_invoke")  # of a samconfig.toml, the last of which is stronger
ALL = ""  # in the place of a function's name: all functions


class Given(NamedTuple):
    parameters: Mapping[str, str] = {}
    stage: Optional[str] = None
    variables: Mapping[str, Mapping[str, str]] = {}  # by a function's name or logical id; ALL
    environment: Mapping[str, str] = {}  # what `${env:..}` has beside the variables of this process

    def of_function(self, *names: str) -> Dict[str, str]:
        """The variables that are given to the function of these names."""
        found: Dict[str, str] = {}
        for name in (ALL, *names):
            found.update(self.variables.get(name, {}))
        return found


NOTHING = Given()


# ---- parameters ------------------------------------------------------------------------------------------------------

def pair_of(word: str, where: str) -> Tuple[str, str]:
    """NAME=VALUE, also as the AWS CLI writes it."""
    found = PAIR.fullmatch(word)
    name, equals, value = (found["key"], "=", found["value"]) if found else word.partition("=")
    if not equals or not name:
        raise Fault(f"{where}: {excerpt(word)} must be NAME=VALUE")
    return name.strip(), unquoted(value)


def unquoted(text: str) -> str:
    return text[1:-1] if len(text) > 1 and text[0] == text[-1] and text[0] in "\"'" else text


def pairs_in(text: str, where: str) -> Iterator[Tuple[str, str]]:
    """Those of the form of `sam --parameter-overrides`: words NAME=VALUE, quoted as in a shell."""
    try:
        words = shlex.split(text)
    except ValueError as fault:
        raise Fault(f"{where}: {excerpt(text)}: {fault}") from None
    return (pair_of(word, where) for word in words)


def parameters_of(words: Sequence[str], files: Sequence[str]) -> Dict[str, str]:
    """Those of files, in their order, and then those of the command line."""
    found: Dict[str, str] = {}
    for path in files:
        found.update(parameters_in(path))
    for word in words:
        found.update([pair_of(word, "--parameter")] if word.count("=") == 1 or PAIR.fullmatch(word)
                     else pairs_in(word, "--parameter"))
    return found


def parameters_in(path: str) -> Dict[str, str]:
    """Those of a samconfig.toml, or of JSON in one of the forms that AWS's tools read."""
    text = text_in(path, MOST_BYTES, "--parameters")
    if path.endswith(".toml"):
        return of_samconfig(text, path)
    try:
        whole = read_json(text)
    except NotJson as fault:
        raise Fault(f"--parameters {path}: this is not JSON: {fault}") from None
    if isinstance(whole, dict):
        whole = whole.get("Parameters", whole)
    if isinstance(whole, dict) and all(isinstance(value, (str, int, float)) for value in whole.values()):
        return {str(name): plain(value) for name, value in whole.items()}
    if isinstance(whole, list) and all(map(is_pair, whole)):
        return dict(pair_of(one, f"--parameters {path}") if isinstance(one, str)
                    else (one["ParameterKey"], plain(one["ParameterValue"])) for one in whole)
    raise Fault(f"--parameters {path}: it must be an object of names and values, a list of objects with ParameterKey "
                "and ParameterValue, or a samconfig.toml")


def is_pair(one: object) -> bool:
    return isinstance(one, str) or isinstance(one, dict) and isinstance(one.get("ParameterKey"), str) and isinstance(
        one.get("ParameterValue"), (str, int, float))


def plain(value: object) -> str:
    return ("true" if value else "false") if isinstance(value, bool) else str(value)


def of_samconfig(text: str, path: str) -> Dict[str, str]:
    """`parameter_overrides` of a samconfig.toml: of `deploy`, or of all commands, in the environment `default`."""
    pairs: Dict[str, str] = {}
    is_found = False
    try:
        default = read_toml(text).get("default")
    except NotToml as fault:
        raise Fault(f"--parameters {path}: this is not TOML: {fault}") from None
    for command in COMMANDS:
        parameters = table_in(table_in(default, command), "parameters")
        if OVERRIDES in parameters:
            is_found = True
            words = parameters[OVERRIDES]
            for text in words if isinstance(words, list) else [words]:
                if not isinstance(text, str):
                    raise Fault(f"--parameters {path}: {OVERRIDES} of {command} must be a string, or a list of "
                                f"strings, not {excerpt(text)}")
                pairs.update(pairs_in(text, f"--parameters {path}"))
    if not is_found:
        raise Fault(f"--parameters {path}: it has no {OVERRIDES} in [default.deploy.parameters] or "
                    "[default.global.parameters]")
    return pairs


def check_names(parameters: Mapping[str, str], there: Mapping[str, object], path: str) -> None:
    """Refuses a parameter that the template does not have, and a value that it does not allow."""
    for name, value in parameters.items():
        if name not in there:
            near = difflib.get_close_matches(name, map(str, there), 1, 0.6)
            raise Fault(f"--parameter {name}: {path} has no such parameter" + (
                f", did you mean {near[0]}?" if near else
                f"; there are {', '.join(map(str, there))}" if there else ", and none at all"))
        parameter = there[name]
        allowed = parameter.get("AllowedValues") if isinstance(parameter, dict) else None
        if isinstance(allowed, list) and value not in map(plain, allowed):
            raise Fault(f"--parameter {name}: it must be one of {', '.join(map(plain, allowed))}, not {excerpt(value)}")


# ---- variables -------------------------------------------------------------------------------------------------------

def of_env_file(path: str, option: str = "--env-file") -> Dict[str, str]:
    """The variables of a file of lines NAME=VALUE."""
    return read_env(text_in(path, MOST_BYTES, option), f"{option} {path}")


def of_env_vars(path: str) -> Tuple[Dict[str, Dict[str, str]], Dict[str, str]]:
    """The variables of `sam local`: by function, and under Parameters those of all."""
    try:
        whole = read_json(text_in(path, MOST_BYTES, "--env-vars"))
    except NotJson as fault:
        raise Fault(f"--env-vars {path}: this is not JSON: {fault}") from None
    if not isinstance(whole, dict) or not all(isinstance(value, dict) for value in whole.values()):
        whole = {ALL: whole} if isinstance(whole, dict) and not any(
            isinstance(value, (dict, list)) for value in whole.values()) else None
    if whole is None:
        raise Fault(f"--env-vars {path}: it must be an object: for each function, or for Parameters, an object of "
                    "variables")
    by_function = {str(name): {str(variable): plain(value) for variable, value in variables.items()
                               if value is not None} for name, variables in whole.items()}
    for name, variables in by_function.items():
        for variable, text in variables.items():
            if not is_name_of_variable(variable) or not is_for_the_system(text):
                raise Fault(f"--env-vars {path}: {name or 'all functions'}: {excerpt(variable)}: no variable has a "
                            "NUL, or half a character, and no name of one a =")
    return by_function, by_function.pop("Parameters", {})


def given_by(parameters: Sequence[str] = (), parameter_files: Sequence[str] = (), stage: Optional[str] = None,
             env_files: Sequence[str] = (), env_vars: Optional[str] = None) -> Given:
    """What the options of a command line give."""
    environment: Dict[str, str] = {}
    for path in env_files:
        environment.update(of_env_file(path))
    by_function, of_all = of_env_vars(env_vars) if env_vars else ({}, {})
    every = {**environment, **by_function.pop(ALL, {}), **of_all}
    return Given(parameters_of(parameters, parameter_files), stage,
                 {**({ALL: every} if every else {}), **by_function}, environment)
