"""Checks how lambda_local up begins and ends: its command and Ctrl-C, credentials, identifiers, ports, a full history,
and that nothing outlives it. The program is LAMBDA_LOCAL_PROGRAM, else ./lambda_local. Ends with 'N passed, M
failed'."""
import errno
import importlib.metadata
import json
import os
import pty
import re
import signal
import socket
import subprocess
import sys
import tempfile
import time
import urllib.error
from typing import List, Tuple
from unittest import mock

from lambda_local.up import surroundings
from tests.library.cases import Case
from tests.library.up_kit import LAUNCHER, RUNTIME, TOOLS, Up, children, lives, until

# A command with a teardown that takes a while.
TIDY = '''import sys, time
try:
    open("running", "w").close()
    time.sleep(60)
except KeyboardInterrupt:
    time.sleep(0.7)
    open("torn_down", "w").close()
    sys.exit(2)
'''
STUBBORN = ("import signal, time\nsignal.signal(signal.SIGINT, signal.SIG_IGN)\n"
            "open('running', 'w').close()\ntime.sleep(60)\n")
PRINTS = "import json, os; print(json.dumps(dict(os.environ)))"


def is_there(up, name):
    return os.path.exists(os.path.join(up.at, name))


def running(script):
    up = Up(command=["--", sys.executable, "tidy.py"], files={"tidy.py": script})
    until(lambda: is_there(up, "running"), 30)
    return up


def command_of(pid):
    try:
        with open(f"/proc/{pid}/cmdline") as file:
            return file.read().split("\0")
    except OSError:
        return []


def variables_of(options, real):
    """The variables of a command, and those of a function."""
    invoke = 'curl -s -d \'{"do":"variables"}\' $AWS_ENDPOINT_URL_LAMBDA/2015-03-31/functions/f/invocations'
    up = Up(*options,
            command=["--", "sh", "-c", f'"$0" -c "{PRINTS}"; {invoke}', sys.executable],
            whole={"region": "us-west-2"},
            environ={**os.environ, **real},
            variables={"T": True, "N": 1.5, "X": "x"})
    up.process.wait(60)
    up.end(None)
    own, function = up.output.split("\n", 1)
    return json.loads(own), json.loads(function)


def is_answered(up):
    """Whether an invocation gets its output: once the history is full it gets 500, or waits for the stop."""
    try:
        up.get("/2015-03-31/functions/f/invocations", b"{}", timeout=3)
    except urllib.error.HTTPError as fault:
        fault.close()
        return fault.code == 429
    except OSError:
        return False
    return True


class UpCommand(Case):
    def test_CtrlC_lets_the_command_end_by_itself(self):
        for name, send in (("its group is interrupted", os.killpg), ("it alone is interrupted", os.kill)):
            up = running(TIDY)
            send(up.process.pid, signal.SIGINT)
            up.process.wait(30)
            torn_down = is_there(up, "torn_down")
            self.check(f"if {name}, the command ends by itself", (up.end(None), torn_down), ((2, []), True))

    def test_a_second_CtrlC_kills_a_command_that_goes_on(self):
        up = running(STUBBORN)
        up.process.send_signal(signal.SIGINT)
        up.until("Ctrl-C again to kill it")
        time.sleep(0.5)
        self.check("a command that goes on is waited for", up.process.poll(), None)
        self.check("a second Ctrl-C ends it", up.end(signal.SIGINT), (128 + signal.SIGTERM, []))

    def test_in_a_terminal_CtrlC_leaves_time_for_the_commands_end(self):
        up = Up(command=["--", "true"], files={"tidy.py": TIDY})  # (for its folder)
        up.process.wait(30)
        child, terminal = pty.fork()
        if child == 0:
            os.chdir(up.at)
            os.execv(LAUNCHER, [LAUNCHER, "up", "up.json", "--", sys.executable, "tidy.py"])
        until(lambda: is_there(up, "running"), 30)
        os.write(terminal, b"\x03")
        try:
            while os.read(terminal, 4096):
                pass
        except OSError:
            pass  # (the end of a terminal)
        _, status = os.waitpid(child, 0)
        os.close(terminal)
        self.check("in a terminal Ctrl-C leaves time for the command's end",
                   (os.WEXITSTATUS(status), is_there(up, "torn_down")), (2, True))
        self.check("nothing is left of it", up.end(None), (0, []))

    def test_kill_9_leaves_no_process_and_no_file(self):
        for name, words in (("while it serves", []), ("while a command runs", ["--", sys.executable, "tidy.py"])):
            up = Up(command=words,
                    files={"tidy.py": TIDY, "x": "#!/bin/sh\nsleep 1000 & sleep 1000\n"},
                    environments=2,
                    extensions={"x": ["./x"]})
            until(lambda: len(children(up.process.pid)) >= 9, 30)
            below = children(up.process.pid)
            folder = next(word for pid in below for word in command_of(pid) if word.endswith("configuration.json"))
            self.check(f"kill -9 {name}: there are processes and a file to leave",
                       (len(below) >= 9, os.path.exists(folder)),
                       (True, True))
            up.process.kill()
            gone = until(lambda: not any(map(lives, below)), 5)
            self.check(f"kill -9 {name} leaves no process", gone, shown=[command_of(pid) for pid in below
                                                                         if lives(pid)])
            self.check(f"kill -9 {name} leaves no file", until(lambda: not os.path.exists(os.path.dirname(folder)), 5))
            up.end(None)

    def test_the_command_and_the_function_have_dummy_credentials(self):
        real = {
            "AWS_ACCESS_KEY_ID": "real", "AWS_SECRET_ACCESS_KEY": "real", "AWS_SESSION_TOKEN": "real",
            "AWS_PROFILE": "production",
            "AWS_REGION": "eu-west-1", "AWS_DEFAULT_REGION": "eu-west-1", "AWS_IGNORE_CONFIGURED_ENDPOINT_URLS": "true"
        }
        seen = variables_of([], real)
        for who, values in zip(("the command", "the function"), seen):
            self.check(f"{who} has dummy credentials",
                       (values.get("AWS_ACCESS_KEY_ID"), values.get("AWS_SECRET_ACCESS_KEY"),
                        values.get("AWS_PROFILE")),
                       ("local", "local", None))
            self.check(f"{who} has no real token", values.get("AWS_SESSION_TOKEN") != "real")
            self.check(f"{who} has the configuration's region", (values.get("AWS_REGION"),
                                                                 values.get("AWS_DEFAULT_REGION")),
                       ("us-west-2", "us-west-2"))
            self.check(f"{who} is led here",
                       ("127.0.0.1" in values["AWS_ENDPOINT_URL_LAMBDA"],
                        values.get("AWS_IGNORE_CONFIGURED_ENDPOINT_URLS")),
                       (True, "false"))
        self.check("true, numbers and texts are variables as in JSON", [seen[1].get(name) for name in "TNX"],
                   ["true", "1.5", "x"])

    def test_credentials_are_kept_if_that_is_asked(self):
        real = {
            "AWS_ACCESS_KEY_ID": "real", "AWS_SECRET_ACCESS_KEY": "real", "AWS_SESSION_TOKEN": "real",
            "AWS_PROFILE": "production",
            "AWS_REGION": "eu-west-1", "AWS_DEFAULT_REGION": "eu-west-1", "AWS_IGNORE_CONFIGURED_ENDPOINT_URLS": "true"
        }
        for who, values in zip(("the command", "the function"), variables_of(["--keep-credentials"], real)):
            self.check(f"{who} keeps credentials if asked",
                       [values.get(name) for name in ("AWS_ACCESS_KEY_ID", "AWS_SESSION_TOKEN", "AWS_PROFILE")],
                       ["real", "real", "production"])
            self.check(f"{who} has the region all the same", values.get("AWS_REGION"), "us-west-2")

    def test_a_proxy_of_the_shell_is_passed_by(self):
        """A proxy that the shell names gets no payload: curl, as most clients, would send it there."""
        real = {"http_proxy": "http://127.0.0.1:9", "HTTP_PROXY": "http://127.0.0.1:9", "no_proxy": "example.org"}
        for who, values in zip(("the command", "the function"), variables_of([], real)):
            self.check(f"{who} passes a proxy by", (values.get("no_proxy"), values.get("NO_PROXY")),
                       2 * ("example.org,127.0.0.1,localhost",))

    def test_clients_that_do_not_read_the_endpoint_are_told(self):
        clients: Tuple[Tuple[Tuple[str, str], List[str]], ...] = (
            (("2.9.19", "1.26.27"), ["aws 2.9 ignores", "boto3 1.26 ignores"]),
            (("1.22.34", "1.28.0"), ["aws 1.22 ignores"]), (("2.13.0", "1.43.1"), []))
        for versions, wanted in clients:
            with tempfile.TemporaryDirectory() as folder:
                with open(os.path.join(folder, "aws"), "w") as file:
                    file.write(f"#!/bin/sh\necho aws-cli/{versions[0]} Python/3.11.2 Linux/6.1 source/x86_64\n")
                os.chmod(os.path.join(folder, "aws"), 0o755)
                os.mkdir(os.path.join(folder, f"boto3-{versions[1]}.dist-info"))
                with open(os.path.join(folder, f"boto3-{versions[1]}.dist-info", "METADATA"), "w") as file:
                    file.write(f"Metadata-Version: 2.1\nName: boto3\nVersion: {versions[1]}\n")
                up = Up(environ={**os.environ, "PATH": folder + os.pathsep + os.environ["PATH"], "PYTHONPATH": folder})
                up.until("[up] ready")
                for words in wanted:
                    up.until(words, 10)
                time.sleep(0 if wanted else 2)
                self.check(f"aws {versions[0]} and boto3 {versions[1]}",
                           sorted(re.findall(r"\b(?:aws|boto3) [0-9.]+ ignores", "\n".join(up.lines))), wanted)
                up.end()

    def test_a_client_whose_version_cannot_be_read_is_none(self):
        """(It is looked for in a thread, whose end by an exception would end all.)"""
        for name, fault in (("without descriptors", OSError(errno.EMFILE, "Too many open files")),
                            ("not installed", importlib.metadata.PackageNotFoundError("boto3")),
                            ("without a version", KeyError("Version"))):
            with mock.patch.object(importlib.metadata, "version", side_effect=fault):
                self.check(name, surroundings.own_boto3(), None)
        with mock.patch.object(importlib.metadata, "version", return_value=None):
            self.check("without a version, as older Pythons tell it", surroundings.own_boto3(), None)

    def test_two_runs_have_other_identifiers_unless_a_salt_is_given(self):
        seen = []
        for options, whole in (((), {}), ((), {}), (("--salt", str(0x0123456789ABCDEF)), {"salt": 7}),
                               ((), {"salt": 7})):
            up = Up(*options,
                    whole=whole,
                    command=["--", "sh", "-c",
                             'curl -s -d "{}" $AWS_ENDPOINT_URL_LAMBDA/2015-03-31/functions/f/invocations'])
            up.end(None)
            seen.append(next(re.findall(r"\[f/1\] (\S+) ok", line)[0] for line in up.lines if " ok " in line))
        self.check("two runs have other identifiers", seen[0] != seen[1])
        self.check("--salt gives them again", seen[2], "01234567-89ab-8def-8001-000000000001")
        self.check("so does UP.json", seen[3], "00000000-0000-8007-8001-000000000001")

    def test_a_taken_port_is_named(self):
        with socket.socket() as listener:
            listener.bind(("127.0.0.1", 0))
            listener.listen()
            port = listener.getsockname()[1]
            for name, whole, ports in (("invokePort", {"invokePort": port}, [0]), ("function f", {}, [0, port])):
                up = Up(whole=whole, ports=ports)
                status = up.end(None)
                self.check(f"a taken port of {name} is named", (status, up.lines),
                           ((4, []),
                            [f"up: up.json: port {port} ({name}): another program listens there: "
                             "leave the port out, and a free one is used"]))

    def test_a_history_that_is_nearly_full_is_told_and_a_full_one_ends_in_order(self):
        up = Up(whole={"maxEntries": 600})
        up.until("[up] ready")
        until(lambda: not is_answered(up), 60)
        self.check("a history that is nearly full is told", up.until("of its 600 entries", 5))
        self.check("so is a full one", up.until("answered 500 `Journal is full`", 5))
        self.check("each of them once", (up.count("of its 600 entries"), up.count("answered 500 `Journal is full`")),
                   (1, 1))
        self.check("and all ends in order", up.end(), (0, []))

    def test_a_stop_from_outside_is_no_fault(self):
        up = Up()
        up.until("[up] ready")
        up.get("/_local/stop", b"", "POST")
        self.check("a stop from outside is no fault",
                   (up.end(None), up.has("the service was stopped by POST /_local/stop")),
                   ((0, []), True))

    def test_a_command_without_its_dashes_is_told(self):
        up = Up(command=["pytest", "-x"])
        self.check("a command without -- is told", (up.end(None), up.lines),
                   ((2, []), ["up: write -- before the command: lambda_local up up.json -- pytest -x"]))

    def test_what_is_not_ready_is_told_with_who_is_waited_for_and_why(self):
        up = Up("--ready", "1", command=["--", "true"], extensions={"late": ["sleep", "100"]})
        self.check("what is not ready is told with who is waited for",
                   (up.end(None)[0], up.has("not ready after 1 s: f/1, which waited for its extension late, which must "
                                            "register by this name")),
                   (5, True))
        up = Up("--ready", "10", command=["--", "true"],
                functions=[{"name": "f", "command": [*RUNTIME[:2], "nothing.run"]}])
        self.check("and with why its Init fails",
                   (up.end(None)[0], up.has("not ready: f/1, whose Init fails: Runtime.ImportModuleError")),
                   (5, True))

    def test_a_bundled_runtime_serves_by_its_name(self):
        node = "export const run = async (event, context) => ({ name: context.functionName, hello: event.name });\n"
        python = "def run(event, context):\n    return {'name': context.function_name, 'hello': event['name']}\n"
        functions = [{"name": "snake", "runtime": "python", "handler": "app.run"},
                     {"name": "node", "runtime": "node", "handler": "index.run"}]
        up = Up(functions=functions, app=python, files={"index.mjs": node})
        up.until("[up] ready")
        for name in ("snake", "node"):
            self.check(f"the bundled runtime of {name}", up.invoke(name, name="Ada")[0], {"name": name, "hello": "Ada"})
        self.check("nothing is left of bundled runtimes", up.end(), (0, []))

    def test_a_node_that_is_not_here_is_named(self):
        functions = [{"name": "snake", "runtime": "python", "handler": "app.run"},
                     {"name": "node", "runtime": "node", "handler": "index.run"}]
        with tempfile.TemporaryDirectory() as folder:
            path = os.path.join(folder, "up.json")
            with open(path, "w") as file:
                json.dump({"functions": functions[1:]}, file)
            done = subprocess.run([sys.executable, TOOLS, "up", path],
                                  env={**os.environ, "PATH": folder},
                                  capture_output=True,
                                  text=True)
            self.check("a node that is not here is named", (done.returncode, done.stderr),
                       (4, f'up: {path}: function node: "runtime": "node" needs the program node, which is '
                        "not on PATH: install it, or write a command\n"))
