"""UP.json: a service's configuration in which each function says how its processes are started."""
import itertools
import os
import shlex
import shutil
import sys
from typing import Dict, Iterator, List, Optional, Sequence, Tuple, Union

from ..configuration import (OF_FUNCTION, OF_SERVICE, TEXT, Kind, Members, is_list_of, is_text, is_whole, mistakes,
                             mistakes_of, named, shown)
from ..executables import why_not_found
from ..front import settings
from ..json_reader import NotJson, read_json
from ..outgoing import is_for_the_system, is_name_of_variable, several
from ..paths import bundled
from ..service import Fault
from ..variables import OF_FUNCTION as VARIABLES
from ..variables import text_of
from . import code, debuggers, layers, programs, room, sources
from .only import limited
from .patience import told, with_patience
from .processes import program_of

NAME = "lambda_local.up"  # under which lambda_local up registers
LONGEST = 16 << 20  # bytes of UP.json
MOST_EXTENSIONS = 9  # the tenth is lambda_local up
LONGEST_INIT = 900  # seconds
IDLE_SECONDS = 60  # after which an environment beyond the least number ends


def is_command(value: object) -> bool:
    return isinstance(value, str) and value.strip() != "" or value != [] and is_list_of(is_text)(value)


def is_extensions(value: object) -> bool:
    if isinstance(value, dict):
        return all(command is None or is_command(command) for command in value.values())
    return is_list_of(is_text)(value)


def is_count(value: object) -> bool:
    return is_whole(value, 257) and value != 0


def is_unicode(text: str) -> bool:
    """Whether a file can have it: no half of a character."""
    return not any("\ud800" <= letter <= "\udfff" for letter in text)


OF_ENVIRONMENTS = {
    "min": Kind(lambda value: is_whole(value, 257), "a whole number from 0 to 256"),
    "max": Kind(is_count, "a whole number from 1 to 256"),
    "idle": Kind(lambda value: is_whole(value, 86401) and value != 0, "a whole number of seconds, from 1 to 86400"),
}
OWN = {
    "command": Kind(is_command, "a string, or a list of strings"),
    "runtime": Kind(programs.is_runtime, '"python" or "node" (another language has a "command")'),
    "python": Kind(lambda value: is_text(value) and value != "", "a string: a Python interpreter"),
    "environments": Kind(lambda value: is_count(value) or isinstance(value, dict),
                         "a whole number from 1 to 256, or an object with \"min\" and \"max\""),
    "init": Kind(lambda value: is_whole(value, LONGEST_INIT + 1) and value != 0,
                 "a whole number of seconds, from 1 to 900"),
    "layers": Kind(is_list_of(is_text), "a list of folders and .zip files"),
    "variables": VARIABLES,
    "directory": Kind(is_text, "a string: a folder, or a .zip file"),
    "inline": Kind(lambda value: isinstance(value, str) and is_unicode(value), "a string: code"),
    "memory": Kind(lambda value: is_whole(value, 1 << 32), "a whole number of MB"),
    "enforceMemory": Kind(lambda value: isinstance(value, bool), "true or false"),
    "watch": Kind(is_list_of(is_text), "a list of files and folders"),
    "extensions": Kind(is_extensions,
                       "an object: the name by which each registers, and its command, or null if you start it"),
    "telemetry": Kind(lambda value: isinstance(value, bool), "true or false"),
    "logs": Kind(lambda value: value == "exact", "\"exact\", or is left out"),
}
MEMBERS = {**OF_FUNCTION, **OWN, **settings.OF_FUNCTION, **sources.OF_FUNCTION}
AT_THE_TOP = {**OF_SERVICE, **settings.AT_THE_TOP, "fromTemplate": TEXT}


def words_of(command: Union[str, List[str]], where: str) -> List[str]:
    try:
        return shlex.split(command) if isinstance(command, str) else command
    except ValueError as fault:
        raise Fault(2, f"{where}: {shown(command)}: {fault}") from None


class Function:
    """A function of UP.json, and its part of the service's configuration. If it may be unready, what cannot be started
    is a note in place of a fault."""

    def __init__(self, member: Members, path: str, wanted: Optional[debuggers.Wanted] = None,
                 may_be_unready: bool = False) -> None:
        self.name: str = member["name"]
        self.wanted = wanted if wanted is not None and wanted.function == self.name else None  # a debugger
        self.debug, self.may_be_unready = self.wanted is not None, may_be_unready
        self.debugger: Optional[debuggers.Started] = None
        self.notes: List[str] = []
        self.notes_of_all: List[str] = []  # what is to be said of all functions
        self.where, base = f"{path}: function {self.name}", os.path.dirname(os.path.abspath(path))
        self.directory = code.folder_of(member, base, self.where)
        if not os.path.isdir(self.directory):
            self._refuse(2, f"directory: there is no folder {self.directory}")
        for name in ("watch", "layers"):
            for path in member.get(name, []):
                if not is_for_the_system(path):
                    raise Fault(2, f"{self.where}: {name}: {shown(path)}: no path has a NUL, or half a character")
        self.init: Optional[int] = member.get("init")
        self.layers = layers.folders_of(member.get("layers", []), base, self.where)
        self.variables = self._variables(member.get("variables", {}))
        self.memory: int = member.get("memory", 128)
        self.enforces_memory: bool = member.get("enforceMemory", False)
        # (a layer that is a .zip file is unpacked once)
        own = [os.path.join(base, name) for name in member.get("layers", [])]
        self.watch = [*(os.path.join(self.directory, name) for name in member.get("watch", ["."])),
                      *filter(os.path.isdir, own)]
        # Whether its runtime is the bundled one of Python. (A debugger may look at the interpreter from its start.)
        self.forks = programs.is_of_python(member.get("runtime")) and not self.debug
        self.is_bundled = "runtime" in member
        if self.is_bundled and "handler" not in member and not self._has_index():
            self.notes.append("there is no \"handler\", and no module index for index.handler, which is taken then: "
                              "write one, such as \"app.handler\"")
        self.handler: str = member.get("handler", "index.handler")
        self.member = member
        self.command = self._command(member)
        self.extensions = self._extensions(member.get("extensions", {}))
        self.expected = list(self.extensions) + ([NAME] if self.command else [])
        # Whether what an invocation prints is known only by what stands in front of its environment; and whether it is
        # to be known from the start.
        self.has_exact_logs = "logs" in member
        self.is_unmarked = self.command is not None and (not self.is_bundled or any(self.extensions.values()))
        self._look()
        self.has_telemetry = self._telemetry(member)
        self.part = self._part(member)
        self._scale(member)
        if self.layers:
            self.variables.update(layers.variables_of(self.layers, self.variables, self._versions(member)))

    def _has_index(self) -> bool:
        """Whether there may be a module of the default handler."""
        there = os.listdir(self.directory) if os.path.isdir(self.directory) else []
        return any(name.partition(".")[0] == "index" for name in there)

    def _refuse(self, status: int, sentence: str) -> None:
        """What cannot be started now, and may be mended while all else runs."""
        if not self.may_be_unready:
            raise Fault(status, f"{self.where}: {sentence}")
        self.notes.append(sentence)

    def _variables(self, given: Members) -> Dict[str, str]:
        variables = {name: text_of(value) for name, value in given.items()}
        for name, text in variables.items():
            if not is_name_of_variable(name):
                raise Fault(2, f"{self.where}: variables: {shown(name)} is not the name of a variable: it has letters, "
                               "and no = or NUL")
            if not is_for_the_system(text):
                raise Fault(2, f"{self.where}: variables: {named(name)}: {shown(text)}: no variable has a NUL, or half "
                               "a character")
        return variables

    def _command(self, member: Members) -> Optional[List[str]]:
        if "runtime" not in member:
            if "python" in member:
                raise Fault(2, f"{self.where}: python is for \"runtime\": \"python\": leave it out")
            return words_of(member["command"], f"{self.where}: command") if "command" in member else None
        if "command" in member:
            raise Fault(2, f"{self.where}: it has a runtime and a command: leave one of the two out")
        file = programs.FILES[programs.language_of(member["runtime"])]
        path, what = bundled(file), f'"runtime": "{member["runtime"]}"'
        if path is None:
            raise Fault(4, f"{self.where}: {what} needs {file}, which is not in the examples that come with "
                           "lambda_local up: write a command")
        program, note = programs.program_of_runtime(member["runtime"], member.get("python"), self.directory, self.where)
        self.notes += [note] if note else []
        if not shutil.which(program_of(program, self.directory)):
            self._refuse(4, f"{what} needs the program {program}, which is not on PATH: install it, or write a command")
        elif self.wanted:
            self.debugger = debuggers.started(member["runtime"], (program, path), self.wanted.port,
                                              self.variables.get("NODE_OPTIONS", ""))
            return self.debugger.words
        return [program, path]

    def _versions(self, member: Members) -> Dict[str, str]:
        """The versions of the interpreters, for the folders of layers that have them in their names."""
        of = {language: (program, language) for language, program in (("python", sys.executable), ("node", "node"))}
        if "runtime" in member and self.command:
            language = programs.language_of(member["runtime"])
            of[language] = (program_of(self.command[0], self.directory), language)
        return {language: programs.version_of(*words) for language, words in of.items()}

    def _extensions(self, given: Union[List[str], Members]) -> Dict[str, Optional[List[str]]]:
        """Returns the words of each extension's command by its name; None for one that is started by hand."""
        commands = dict.fromkeys(given) if isinstance(given, list) else given
        return {name: words_of(command, f"{self.where}: extension {name}") if command else None
                for name, command in commands.items()}

    def _telemetry(self, member: Members) -> bool:
        """Whether its extensions may subscribe to telemetry."""
        if member.get("telemetry") and not (self.extensions and self.command):
            raise Fault(2, f"{self.where}: telemetry is for its extensions: " + (
                "write \"extensions\", or leave it out" if self.command
                else "you start its runtime yourself, so leave it out"))
        return bool(member.get("telemetry"))

    def _look(self) -> None:
        """Whether its extensions can be, and the programs of its commands are there."""
        if self.command and (NAME in self.extensions or len(self.extensions) > MOST_EXTENSIONS):
            raise Fault(2, f"{self.where}: extensions: at most nine, none of them {NAME}: the tenth is lambda_local up")
        for words in filter(None, [self.command, *self.extensions.values()]):
            for word in words:
                if not is_for_the_system(word):
                    raise Fault(2, f"{self.where}: {shown(word)}: no word of a command has a NUL, or half a character")
            if words is not self.command or "runtime" not in self.member:
                program = program_of(words[0], self.directory)
                if not shutil.which(program):
                    looked_for = f"is not a program (looked for in {self.directory if '/' in words[0] else 'PATH'})"
                    self._refuse(4, f"{words[0]} {why_not_found(program) or looked_for}")

    def _scale(self, member: Members) -> None:
        """How many environments are started at once, and after which time without work a further one ends. All others
        are started once an invocation waits for one."""
        given = member.get("environments")
        self.least = len(self.part["ports"])
        self.idle: Optional[int] = None  # seconds
        if not isinstance(given, dict):
            return
        if not self.command:
            raise Fault(2, f"{self.where}: environments: you start its runtimes yourself: write a number")
        most = room.most_of(given)
        self.least, self.idle = min(given.get("min", 1), len(self.part["ports"])), given.get("idle", IDLE_SECONDS)
        if given.get("min", 1) > most:
            raise Fault(2, f"{self.where}: environments: min is {given['min']}, which is more than max, {most}")

    def _part(self, member: Members) -> Members:
        part = {name: value for name, value in member.items() if name in OF_FUNCTION}
        count = room.most_of(member.get("environments", 1))
        part.setdefault("ports", [0] * count)
        if "environments" in member and count != len(part["ports"]):
            raise Fault(2, f"{self.where}: {several(len(part['ports']), 'port')} for {several(count, 'environment')}: "
                           "leave one of the two out")
        if self.debug:
            part.update(ports=part["ports"][:1])
            if part.get("reserved", 0) > 1:
                part["reserved"] = 1
        part["extensions"] = self.expected
        return part


def read(path: str) -> Members:
    """What the file says, whose members have been looked at."""
    try:
        with open(path, "rb") as file:
            whole = read_json(file.read(LONGEST + 1), longest=LONGEST)
    except OSError as fault:
        usage = "lambda_local up --help"
        raise Fault(2, f"{path}: {fault.strerror}: name a file as `{usage}` describes it") from None
    except NotJson as fault:
        raise Fault(2, f"{path}: this is not JSON: {fault}") from None
    return looked_at(whole, path)


def looked_at(whole: object, path: str) -> Members:
    """The members of UP.json, or a Fault."""
    for mistake in mistakes(whole, AT_THE_TOP, MEMBERS, ["functions"], ["name"]):
        raise Fault(2, f"{path}: {mistake}")
    assert isinstance(whole, dict)
    for mistake in itertools.chain(mistakes_inside(whole), settings.mistakes(whole), sources.mistakes(whole)):
        raise Fault(2, f"{path}: {mistake}")
    return whole


def mistakes_inside(whole: Members) -> Iterator[str]:
    if not whole["functions"]:
        yield "functions: there is no function: write at least one"
    for member in whole["functions"]:
        if isinstance(member.get("environments"), dict):
            where = f"function {member['name']}: environments: "
            yield from mistakes_of(member["environments"], OF_ENVIRONMENTS, where)


def load(path: str, debug: Optional[str] = None, salt: Optional[int] = None, only: Optional[Sequence[str]] = None,
         may_be_unready: bool = False, whole: Optional[Members] = None,
         times: float = 1) -> Tuple[Members, List[Function], settings.Settings]:
    """Returns the service's configuration, the functions of UP.json, one of which may be for a debugger, and what is in
    front of them. `whole` is what it says, if that is known. Their limits are so many times as long."""
    whole = read(path) if whole is None else whole
    if only is not None:
        whole = limited(whole, only, path)
    placed, notes = room.with_environments(whole["functions"])
    whole = {**whole, "functions": placed}
    wanted = debuggers.wanted_of(debug) if debug else None
    functions = [Function(with_patience(member, times), path, wanted, may_be_unready) for member in whole["functions"]]
    functions[0].notes_of_all = [*([told(whole["functions"], times)] if times != 1 else []), *notes]
    if debug and not any(function.debug and function.command for function in functions):
        raise Fault(2, f"--debug {debug[:100]}: {path} has no such function with a command")
    own = {name: value for name, value in whole.items() if name in OF_SERVICE}
    configuration: Members = {"account": "123456789012", "region": "us-east-1", **own,
                              "functions": [function.part for function in functions]}
    front = settings.settings_of(whole, os.path.dirname(os.path.abspath(path)))
    if salt is not None:
        configuration["salt"] = salt
    return configuration, functions, front
