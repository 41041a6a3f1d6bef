"""Checks what lambda_local up says about an invalid UP.json: one line that names file, function and member, status 2,
and nothing left behind. The program is LAMBDA_LOCAL_PROGRAM, else ./lambda_local."""
import glob
import json
import os
import subprocess
import tempfile
from typing import Dict, Tuple

from lambda_local.configuration import SENTENCES, explained
from lambda_local.configuration import Members
from lambda_local.program import place_of_fault
from tests import ROOT
from tests.library.cases import Case
from tests.library.up_kit import LAUNCHER


def told(text, folder, *options):
    """Status and lines of lambda_local up over an UP.json with this text."""
    with open(os.path.join(folder, "up.json"), "w") as file:
        file.write(text if isinstance(text, str) else json.dumps(text))
    done = subprocess.run([LAUNCHER, "up", *options, "up.json", "--", "true"], cwd=folder,
                          capture_output=True, text=True, timeout=60, env={**os.environ, "TMPDIR": folder})
    return done.returncode, done.stderr.splitlines()


# Members of the function greet, whose command is `true`, and what is said after "up: up.json: function greet: ".
MEMBERS = ("aliases, asynchronous, command, directory, enforceMemory, environments, extensions, handler, init, "
           "inline, layers, logs, memory, name, ports, python, queue, reserved, runtime, schedule, stream, telemetry, "
           "timeout, topic, url, variables, watch")
ENVIRONMENTS = 'environments must be a whole number from 1 to 256, or an object with "min" and "max", not '
OF_FUNCTION: Dict[str, Tuple[Members, str]] = {
    "a member that nobody knows": ({"timeuot": 5}, "unknown member timeuot, did you mean timeout?"),
    "one that is like no other": ({"zzz": 1}, f"unknown member zzz; there are {MEMBERS}"),
    "what others call it": ({"environment": {"A": "x"}}, "unknown member environment, did you mean variables?"),
    "a number by another name": ({"environment": 2}, "unknown member environment, did you mean environments?"),
    "what a template has": ({"events": []}, f"unknown member events; there are {MEMBERS}"),
    "a text for a number": ({"timeout": "5"}, 'timeout must be a whole number of seconds, from 1 to 900, not "5"'),
    "a broken number": ({"memory": 1.5}, "memory must be a whole number of MB, not 1.5"),
    "logs that are not exact": ({"logs": "all"}, 'logs must be "exact", or is left out, not "all"'),
    "a number for true": ({"enforceMemory": 1}, "enforceMemory must be true or false, not 1"),
    "true for a number": ({"reserved": True}, "reserved must be a whole number, not true"),
    "a text for environments": ({"environments": "2"}, ENVIRONMENTS + '"2"'),
    "no environment": ({"environments": 0}, ENVIRONMENTS + "0"),
    "a billion environments": ({"environments": 10**9}, ENVIRONMENTS + "1000000000"),
    "a list for an object": ({"variables": ["A=1"]},
                             'variables must be an object of strings, numbers, true or false, not ["A=1"]'),
    "a variable that is null": ({"variables": {"A": None}},
                                'variables must be an object of strings, numbers, true or false, not {"A": null}'),
    "a command of numbers": ({"command": [1]}, "command must be a string, or a list of strings, not [1]"),
    "an empty command": ({"command": ""}, 'command must be a string, or a list of strings, not ""'),
    "an open quote": ({"command": "a 'b"}, 'command: "a \'b": No closing quotation'),
    "another runtime": ({"runtime": "ruby"}, 'runtime must be "python" or "node" (another language has a "command"), '
                                             'not "ruby"'),
    "a runtime and a command": ({"runtime": "python"}, "it has a runtime and a command: leave one of the two out"),
    "an extension without a command": ({"extensions": {"x": 5}},
                                       "extensions must be an object: the name by which each registers, and its "
                                                                 'command, or null if you start it, not {"x": 5}'),
    "ten extensions": ({"extensions": [f"x{n}" for n in range(10)]},
                       "extensions: at most nine, none of them lambda_local.up: the tenth is lambda_local up"),
    "ports that are texts": ({"ports": ["9001"]},
                             'ports must be a list of ports, one for each environment, not ["9001"]'),
    "ports and environments": ({"ports": [0, 0], "environments": 3},
                               "2 ports for 3 environments: leave one of the two out"),
    # What the system takes neither as a variable nor as a word of a command.
    "a variable with a NUL": ({"variables": {"A": "a\0b"}},
                              'variables: A: "a\\u0000b": no variable has a NUL, or half a character'),
    "half a character in a variable": ({"variables": {"A": "\ud83d"}},
                                       'variables: A: "\\ud83d": no variable has a NUL, or half a character'),
    "a variable with = in its name": ({"variables": {"A=B": "1"}},
                                      'variables: "A=B" is not the name of a variable: it has letters, and no = or '
                                      'NUL'),
    "a variable without a name": ({"variables": {"": 1}},
                                  'variables: "" is not the name of a variable: it has letters, and no = or NUL'),
    "a NUL in a variable's name": ({"variables": {"A\0": 1}},
                                   'variables: "A\\u0000" is not the name of a variable: it has letters, and no = or '
                                   'NUL'),
    "a NUL in a command": ({"command": ["true", "a\0b"]},
                           '"a\\u0000b": no word of a command has a NUL, or half a character'),
    "half a character in an extension's command": ({"extensions": {"x": ["true", "\ude00"]}},
                                                   '"\\ude00": no word of a command has a NUL, or half a character'),
    "a NUL in a path": ({"watch": ["a\0"]}, 'watch: "a\\u0000": no path has a NUL, or half a character'),
    # These the service refuses, and its word for it is explained.
    "a long timeout": ({"timeout": 1000},
                       "timeout must be from 1 to 900 seconds, not 1000 (the service says BadTimeout at "
                       "functions[0].timeout)"),
    "a reservation": ({"reserved": 5, "environments": 4},
                      "it reserves 5 and has 4 environments: reserve at most as many, or give it more "
                      "(the service says ReservationAboveEnvironments at functions[0].reserved)"),
    "a handler": ({"handler": ""},
                  'handler must have 1 to 128 printable ASCII characters, not "" (the service says BadHandler at '
                  'functions[0].handler)'),
}
# What UP.json says instead of one function `a`, and what is said after "up: up.json: ".
OF_SERVICE: Dict[str, Tuple[Members, str]] = {
    "a member that is nearly one": ({"acount": "123456789012"}, "unknown member acount, did you mean account?"),
    "a function without a name": ({"functions": [{"command": ["true"]}]},
                                  "function number 1: there is no name, which must be a string"),
    "a function that is a text": ({"functions": ["greet"]}, 'function number 1 must be an object, not "greet"'),
    "functions by name": ({"functions": {"greet": {}}}, 'functions must be a list of objects, not {"greet": {}}'),
    "a name with a space": ({"functions": [{"name": "a b"}]},
                            'function "a b": a name has 1 to 64 of A-Z, a-z, 0-9, - and _ (the service says BadName at '
                            'functions[0].name)'),
    "a name twice": ({"functions": [{"name": "a"}, {"name": "a"}]},
                     "two functions have the name a: each must have its own (the service says DuplicateName at "
                     "functions[1].name)"),
    "an account": ({"account": "12"}, 'account must be 12 digits, not "12" (the service says BadAccount at account)'),
    "a region": ({"region": "EU"},
                 'region must have 1 to 32 of a-z, 0-9 and -, not "EU" (the service says BadRegion at region)'),
    "a small account": ({"accountLimit": 50},
                        "leastRemainder must be at most accountLimit, which is 50, not 100, the default "
                        "(the service says BadLeastRemainder at leastRemainder)"),
    "a small history": ({"maxEntries": 1},
                        "maxEntries must be from 2, one more than there are environments, to 4294967296, not 1 "
                        "(the service says EntriesOutOfRange at maxEntries)"),
}


# Of each fault of docs/formats.md a configuration that has it, and words that the sentence must have.
FAULTS: Dict[str, Tuple[Members, str]] = {
    "BadAccount": ({"account": "1"}, "12 digits"),
    "BadRegion": ({"region": ""}, "region"),
    "BadAccountLimit": ({"accountLimit": 0}, "1 to 1000000"),
    "BadLeastRemainder": ({"accountLimit": 10, "leastRemainder": 11}, "at most accountLimit, which is 10, not 11"),
    "TooManyFunctions": ({"functions": [{"name": f"f{n}", "ports": [1 + n]} for n in range(65)]}, "65 functions: 64"),
    "BadName": ({"functions": [{"name": "a.b", "ports": [1]}]}, '"a.b"'),
    "DuplicateName": ({"functions": [{"name": "a", "ports": [1]}, {"name": "a", "ports": [2]}]}, "name a"),
    "BadHandler": ({"functions": [{"name": "a", "ports": [1]}, {"name": "b", "ports": [2], "handler": "\t"}]},
                   "function b: handler"),
    "BadTimeout": ({"functions": [{"name": "a", "ports": [1]}, {"name": "b", "ports": [2], "timeout": 901}]},
                   "function b: timeout"),
    "NoEnvironment": ({"functions": [{"name": "a", "ports": []}]}, "function a: it has no environment"),
    "TooManyEnvironments": ({"functions": [{"name": "a", "ports": list(range(1, 256))},
                                           {"name": "b", "ports": [300, 301]}]},
                            "257 environments in all, 255 of them of function a"),
    "BadPort": ({"functions": [{"name": "a", "ports": [0]}]}, "function a: 0 is not a port"),
    "DuplicatePort": ({"functions": [{"name": "a", "ports": [7]}], "invokePort": 7},
                      "port 7 appears twice: invokePort and function a"),
    "TooManyExtensions": ({"functions": [{"name": "a", "ports": [1], "extensions": list("abcdefghijk")}]},
                          "function a: 11 extensions: ten"),
    "BadExtension": ({"functions": [{"name": "a", "ports": [1], "extensions": ["é"]}]}, 'not "é"'),
    "DuplicateExtension": ({"functions": [{"name": "a", "ports": [1], "extensions": ["x", "x"]}]},
                           'function a: the extension "x" appears twice'),
    "ReservationAboveEnvironments": ({"functions": [{"name": "a", "ports": [1], "reserved": 2}]},
                                     "function a: it reserves 2 and has 1"),
    "RemainderTooSmall": ({"accountLimit": 2, "leastRemainder": 2,
                           "functions": [{"name": "a", "ports": [1], "reserved": 1}]},
                          "reserve 1 of accountLimit 2: leastRemainder 2"),
    "EntriesOutOfRange": ({"maxEntries": 0}, "maxEntries must be from 2"),
    "BadShape": ({"functions": [{"name": "a", "ports": [1], "timeout": "5"}]},
                 "function a: timeout must be a whole number"),
}
# Where they are.
PLACES = {
    "BadAccount": "account", "BadRegion": "region", "BadAccountLimit": "accountLimit",
    "BadLeastRemainder": "leastRemainder", "TooManyFunctions": "functions[64]", "BadName": "functions[0].name",
    "DuplicateName": "functions[1].name", "BadHandler": "functions[1].handler", "BadTimeout": "functions[1].timeout",
    "NoEnvironment": "functions[0].ports", "TooManyEnvironments": "functions[1].ports",
    "BadPort": "functions[0].ports", "DuplicatePort": "functions[0].ports",
    "TooManyExtensions": "functions[0].extensions", "BadExtension": "functions[0].extensions",
    "DuplicateExtension": "functions[0].extensions", "ReservationAboveEnvironments": "functions[0].reserved",
    "RemainderTooSmall": "functions[0].reserved", "EntriesOutOfRange": "maxEntries", "BadShape": ""}


class UpMembers(Case):
    def test_mistakes_of_members_are_told_in_a_line(self):
        with tempfile.TemporaryDirectory() as folder:
            for name, (members, line) in OF_FUNCTION.items():
                seen = told({"functions": [{"name": "greet", "command": ["true"], **members}]}, folder)
                self.check(name, seen, (2, [f"up: up.json: function greet: {line}"]))
            for name, (members, line) in OF_SERVICE.items():
                self.check(name, told({"functions": [{"name": "a"}], **members}, folder), (2, [f"up: up.json: {line}"]))
            self.check("no functions", told({}, folder),
                       (2, ["up: up.json: there is no functions, which must be a list of objects"]))
            self.check("a list", told([1], folder),
                       (2, ['up: up.json: it must be an object with a list of "functions", not [1]']))
            self.check("no JSON is told with line and column", told('{"functions": [}', folder),
                       (2, ["up: up.json: this is not JSON: Expecting value: line 1 column 16 (char 15)"]))

    def test_deep_JSON_is_refused_in_a_line(self):
        with tempfile.TemporaryDirectory() as folder:
            for name, text in {"a million brackets": "[" * 1_000_000, "101 levels": "[" * 101 + "]" * 101}.items():
                status, lines = told(text, folder)
                self.check(f"{name} are told in a line",
                           (status, [line.startswith("up: up.json: this is not JSON: it is nested too deep")
                                     for line in lines]),
                           (2, [True]))
            self.check("nothing is left of them", sorted(os.listdir(folder)), ["up.json"])

    def test_what_is_absent_is_told_in_a_line(self):
        one = {"functions": [{"name": "greet", "command": ["./none"]}]}
        with tempfile.TemporaryDirectory() as folder:
            self.check("an absent program", told(one, folder),
                       (4, [f"up: up.json: function greet: ./none is not a program (looked for in {folder}/)"]))
            one["functions"][0].update(command=["true"], directory="none")
            self.check("an absent folder", told(one, folder),
                       (2, [f"up: up.json: function greet: directory: there is no folder {folder}/none"]))
            del one["functions"][0]["directory"]
            self.check("--debug of none", told(one, folder, "--debug", "x"),
                       (2, ["up: --debug x: up.json has no such function with a command"]))
            status, lines = told(one, folder, "--salt", "x")
            self.check("a salt that is none", (status, lines[-1]),
                       (2, "lambda_local up: error: argument --salt: invalid whole number below 2^64 value: 'x'"))
            status, lines = told(one, folder, "--relaod")
            self.check("an option that is none", (status, "there is no option --relaod" in lines[-1]), (2, True))
            os.remove(os.path.join(folder, "up.json"))
            words = [LAUNCHER, "up", "none.json"]
            done = subprocess.run(words, cwd=folder, capture_output=True, text=True)
            self.check("an absent file", (done.returncode, done.stderr),
                       (2, "up: none.json: No such file or directory: name a file as `lambda_local up --help` "
                           "describes it\n"))
            done = subprocess.run([*words, "--log", "json"], cwd=folder, capture_output=True, text=True)
            self.check("a fault in JSON", (json.loads(done.stderr)["status"], json.loads(done.stderr)["level"]),
                       (2, "error"))
            self.check("nothing is left of those", os.listdir(folder), [])

    def test_faults_of_the_service_are_explained_with_their_places(self):
        """The service gives each of these names to a configuration that has it, and each is explained."""
        # (the program itself: the launcher explains what it refuses)
        program = subprocess.run([LAUNCHER, "path"], stdout=subprocess.PIPE, text=True, check=True).stdout.rstrip("\n")
        with tempfile.TemporaryDirectory() as folder:
            for name, (members, words) in FAULTS.items():
                whole = {"account": "123456789012", "region": "us-east-1", "functions": [{"name": "a", "ports": [1]}],
                         **members}
                path = os.path.join(folder, "service.json")
                with open(path, "w") as file:
                    json.dump(whole, file)
                done = subprocess.run([program, "serve", path], capture_output=True, text=True, timeout=60)
                self.check(f"the service says {name}", done.stderr.splitlines()[-1:], [f"configuration: {name}"])
                with open(path, "rb") as file:
                    place = place_of_fault(program, file.read())
                told = explained(name, whole, place)
                self.check(f"{name} is explained", words in told, shown=told)
                self.check(f"{name} has its place", place, PLACES[name])
        self.check("all of them", set(FAULTS), set(SENTENCES))
        self.check("a name that nobody knows is not explained", explained("Other", {"functions": []}), "")

    def test_each_UP_json_of_the_examples_runs(self):
        for path in glob.glob(os.path.join(ROOT, "examples", "**", "up*.json"), recursive=True):
            with tempfile.TemporaryDirectory() as folder:
                done = subprocess.run([LAUNCHER, "up", path, "--", "true"], cwd=folder, capture_output=True,
                                      text=True, timeout=60)
                self.check(f"{os.path.relpath(path, ROOT)} runs", done.returncode, 0)
