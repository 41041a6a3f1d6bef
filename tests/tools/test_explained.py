"""Checks that `serve`, `replay` and `trace` say in a sentence why the program refuses with status 2, in a checkout and
as an installed package has them, and that what they print, their signals and their status are the program's own. The
program is LAMBDA_LOCAL_PROGRAM, else what ./lambda_local finds."""
import json
import os
import pty
import signal
import subprocess
import sys
import tempfile
import time
from typing import Dict, List, Tuple

from lambda_local.configuration import Members
from lambda_local.service import free_ports
from tests import ROOT
from tests.library.cases import Case
from tests.library.trees import plain, program
from tests.library.up_kit import children, command_of, until

PROGRAM = program()
LAUNCHERS = {"the launcher": [os.path.join(ROOT, "lambda_local")],
             "the package": [sys.executable, os.path.join(ROOT, "tools")]}
CONFIGURATION: Members = {"account": "123456789012", "region": "us-east-1",
                          "functions": [{"name": "f", "ports": [19001], "timeout": 3}], "invokePort": 19000}
WAYS: Tuple[List[str], ...] = ([], ["replay"], ["trace"])


def environ(**more):
    return plain(LAMBDA_LOCAL_PROGRAM=PROGRAM, **more)


def ended(words, stdin, **more):
    """Status, output, and the lines on standard error."""
    done = subprocess.run(words, stdin=stdin, stdout=subprocess.PIPE, stderr=subprocess.PIPE, env=environ(**more))
    return done.returncode, done.stdout, done.stderr.decode().splitlines()


def take_signals():
    """Also if the tests run in the background, where a shell has these ignored, and can catch none of them."""
    for number in (signal.SIGINT, signal.SIGHUP):
        signal.signal(number, signal.SIG_DFL)


class Explained(Case):
    def setUp(self):
        folder = tempfile.TemporaryDirectory()
        self.addCleanup(folder.cleanup)
        self.folder = folder.name

    def test_a_refused_line_of_a_script_is_explained(self):
        opening, path = json.dumps(CONFIGURATION), os.path.join(self.folder, "script.txt")
        bad = {**CONFIGURATION, "functions": [{**CONFIGURATION["functions"][0], "timeout": 0}]}
        for name, text, line, told in (
                ("a line that is not a call", f"{opening}\n0 next 1\n5 invoke f - - =1\nhello\n", "script: line 4",
                 "line 4 is not a call: `hello`: it must begin with its moment"),
                ("a call that is none", f"{opening}\n0 nextt 1\n", "script: line 2",
                 "line 2 is not a call: `0 nextt 1`: after its moment it must have one of invoke, next"),
                ("a configuration", json.dumps(bad) + "\n0 next 1\n", "configuration: BadTimeout",
                 "line 1, the configuration: function f: timeout must be from 1 to 900 seconds, not 0 (the program "
                 "says BadTimeout at functions[0].timeout)")):
            with open(path, "w") as file:
                file.write(text)
            with open(path) as file:
                own = ended([PROGRAM], file)
            for launcher, words in LAUNCHERS.items():
                for more in WAYS:
                    with open(path) as file:
                        status, output, said = ended([*words, *more], file)
                    self.check(f"{launcher} {' '.join(more)}: {name}", (
                        status, output == (b"" if more == ["trace"] else own[1]), said[0] if said else None, len(said),
                        told in (said[-1] if said else "")), (2, True, line, 2, True))
                piped = subprocess.run(words, input=text.encode(), capture_output=True, env=environ())
                said = piped.stderr.decode().splitlines()
                self.check(f"{launcher}: {name}, through a pipe", (piped.returncode, piped.stdout == own[1], said[:-1],
                                                                   told in (said[-1] if said else "")),
                           (2, True, own[2], True))
        self.long_pipes(opening)

    def test_explain_is_the_programs_own(self):
        """`explain` is the program's own."""
        bad = {**CONFIGURATION, "functions": [{**CONFIGURATION["functions"][0], "timeout": 0}]}
        for launcher, words in LAUNCHERS.items():
            for name, given, wanted in (
                    ("a fault", json.dumps(bad, indent=1), (2, "configuration: BadTimeout\nfunctions[0].timeout\n")),
                    ("none", json.dumps(CONFIGURATION), (0, "")), ("no JSON", "{", (2, "configuration: NotJson\n")),
            ):
                done = subprocess.run([*words, "explain"], input=given, capture_output=True, env=environ(), text=True)
                self.check(f"{launcher}: explain: {name}", (done.returncode, done.stderr, done.stdout), (*wanted, ""))

    def long_pipes(self, opening):
        """A fault far behind what is kept of the beginning, and a script without one."""
        ticks = "".join(f"{moment} tick\n" for moment in range(1_200_000))
        opening = json.dumps({**json.loads(opening), "maxEntries": 10_000_000})
        for launcher, words in LAUNCHERS.items():
            done = subprocess.run(words, input=f"{opening}\n{ticks}hello\n{ticks}".encode(), stdout=subprocess.DEVNULL,
                                  stderr=subprocess.PIPE, env=environ())
            said = done.stderr.decode().splitlines()
            self.check(f"{launcher}: a line far behind", (done.returncode, said[0],
                                                          "line 1200002 is not a call: `hello`"
                                                          in said[-1]), (2, "script: line 1200002", True))
            child = subprocess.Popen(words, stdin=subprocess.PIPE, stdout=subprocess.PIPE, stderr=subprocess.PIPE,
                                     env=environ())
            assert child.stdin and child.stdout and child.stderr
            child.stdin.write(f"{opening}\n0 next 1\n5 invoke f - - =1\n".encode())
            child.stdin.flush()
            child.stdin.close()
            self.check(f"{launcher}: what a pipe gives is answered", b"deliver" in child.stdout.readline())
            self.check(f"{launcher}: and its end is the end", (child.wait(20), child.stderr.read()), (0, b""))

    def test_a_right_script_is_answered_as_the_program_does(self):
        path = os.path.join(self.folder, "right.txt")
        with open(path, "w") as file:
            file.write(json.dumps(CONFIGURATION) + "\n" + "".join(f"{moment} tick\n" for moment in range(1000))
                       + "1000 next 1\n1001 invoke f - - =1\n1002 response 1 1 =2\n")
        with open(path) as file:
            own = ended([PROGRAM], file)
        self.check("a script is answered", (own[0], own[1].count(b"\n") > 2, own[2]), (0, True, []))
        for launcher, words in LAUNCHERS.items():
            with open(path) as file:
                self.check(f"{launcher}: a script in a file is answered as the program does", ended(words, file), own)
            with open(path) as file:
                child = subprocess.Popen(words, stdin=file, stdout=subprocess.PIPE, stderr=subprocess.PIPE,
                                         env=environ())
                assert child.stdout and child.stderr
                child.stdout.close()
                child.wait()
                self.check(f"{launcher}: a reader that has gone", child.returncode, 4)
                child.stderr.close()

    def test_a_configuration_that_serve_refuses_is_explained(self):
        path = os.path.join(self.folder, "service.json")
        bad = {**CONFIGURATION, "invokePort": 19001}
        refused: Tuple[Tuple[str, str, Dict[str, str], str, str], ...] = (
            ("a port twice", json.dumps(bad, indent=2), {}, "configuration: DuplicatePort", "19001"),
            ("no JSON", "{", {}, "configuration: NotJson", "this is not JSON"),
            ("a patience that is no number", json.dumps(CONFIGURATION), {"LAMBDA_LOCAL_PATIENCE_MS": "abc"},
             "usage: ", "LAMBDA_LOCAL_PATIENCE_MS=abc: write a whole number of milliseconds from 0 to 2000"),
            ("a host with a port", json.dumps(CONFIGURATION), {"LAMBDA_LOCAL_HOSTS": "a:80"}, "usage: ",
             "LAMBDA_LOCAL_HOSTS=a:80: write names of letters"),
            ("a handled port twice", json.dumps(CONFIGURATION), {"LAMBDA_LOCAL_HANDLED": "9100,9100"}, "usage: ",
             "LAMBDA_LOCAL_HANDLED=9100,9100: write up to 64 ports from 1 to 65535, each once"))
        for name, text, more, line, told in refused:
            with open(path, "w") as file:
                file.write(text)
            for launcher, words in LAUNCHERS.items():
                status, output, said = ended([*words, "serve", path], subprocess.DEVNULL, **more)
                self.check(f"{launcher} serve: {name}", (status, output, len(said), said[0].startswith(line) if said
                                                         else None,
                                                         told in (said[-1] if said else "")), (2, b"", 2, True, True))

    def test_serve_names_a_file_that_is_not_there(self):
        for launcher, words in LAUNCHERS.items():
            status, _, said = ended([*words, "serve", "/nowhere"], subprocess.DEVNULL)
            self.check(f"{launcher} serve: a file that is not there", (status, said), (4, ["input: failed"]))

    def test_signals_reach_what_serves_and_end_a_replay(self):
        """What serves is the process itself; a replay of a file ends with it."""
        invoke_port, port = free_ports(2, ())
        path, long = os.path.join(self.folder, "service.json"), os.path.join(self.folder, "long.txt")
        with open(path, "w") as file:
            json.dump({**CONFIGURATION, "invokePort": invoke_port,
                       "functions": [{"name": "f", "ports": [port], "timeout": 3}]}, file)
        with open(long, "w") as file:
            file.write(json.dumps({**CONFIGURATION, "maxEntries": 10_000_000}) + "\n"
                       + "".join(f"{moment} tick\n" for moment in range(300_000)))
        for launcher, words in LAUNCHERS.items():
            child = subprocess.Popen([*words, "serve", path], stderr=subprocess.PIPE, env=environ())
            assert child.stderr
            listening = any(b"listening" in line for line in iter(child.stderr.readline, b""))
            self.check(f"{launcher} serve is the program", (listening, command_of(child.pid).split("\0")[0]),
                       (True, PROGRAM))
            child.send_signal(signal.SIGTERM)
            self.check(f"{launcher} serve: SIGTERM", child.wait(10), -signal.SIGTERM)
            child.stderr.close()
            for number in (signal.SIGTERM, signal.SIGINT, signal.SIGHUP):
                waiting, kept = os.pipe()  # (nothing comes through it)
                child = subprocess.Popen(words, stdin=waiting, stdout=subprocess.DEVNULL, stderr=subprocess.PIPE,
                                         env=environ())
                until(lambda: any(command_of(pid).startswith(PROGRAM) for pid in children(child.pid)), 20)
                time.sleep(0.1)
                child.send_signal(number)
                assert child.stderr
                self.check(f"{launcher} replay of a pipe: {number.name}", (child.wait(10), child.stderr.read()),
                           (-number, b""))
                child.stderr.close()
                os.close(waiting)
                os.close(kept)
                unread, full = os.pipe()  # (so it does not end by itself)
                with open(long) as file:
                    child = subprocess.Popen(words, stdin=file, stdout=full, stderr=subprocess.PIPE, env=environ(),
                                             preexec_fn=take_signals)
                until(lambda: any(command_of(pid).startswith(PROGRAM) for pid in children(child.pid)), 20)
                below = children(child.pid)
                time.sleep(0.1)
                child.send_signal(number)
                assert child.stderr
                self.check(f"{launcher} replay: {number.name}", (child.wait(10), child.stderr.read(), len(below) > 0,
                                                                 [pid for pid in below if command_of(pid)]),
                           (-number, b"", True, []))
                child.stderr.close()
                os.close(unread)
                os.close(full)

    def test_alone_on_a_terminal_the_help_is_printed(self):
        """Alone on a terminal there is nothing to replay: the help is printed."""
        for launcher, words in LAUNCHERS.items():
            above, below = pty.openpty()
            done = subprocess.run(words, stdin=below, capture_output=True, text=True, timeout=20, env=environ())
            os.close(above)
            os.close(below)
            self.check(f"{launcher} alone on a terminal",
                       (done.returncode, done.stdout.startswith("usage: lambda_local serve")),
                       (0, True))
            for word, wanted in (("help", "usage: lambda_local serve"), ("version", "lambda_local"),
                                 ("-v", "lambda_local"),
                                 ("-V", "lambda_local")):
                done = subprocess.run([*words, word], capture_output=True, text=True, timeout=20, env=environ())
                self.check(f"{launcher} {word}", (done.returncode, done.stdout.startswith(wanted)), (0, True))
