"""Checks lambda_local rerun as a command: what it says of functions that have changed, updates, the marker of the
pytest plugin, and bad input. The program is LAMBDA_LOCAL_PROGRAM, else ./lambda_local."""
import contextlib
import glob
import json
import os
import re
import resource
import socket
import subprocess
import sys
import tempfile
import threading
import xml.etree.ElementTree as ElementTree
from unittest import mock

from lambda_local.configuration import Members
from lambda_local.rerun import command
from lambda_local.service import Service, ask
from tests import ROOT, with_tools
from tests.library.cases import Case
from tests.library.rerun_kit import fault_of

TOOL = [os.path.join(ROOT, "lambda_local"), "rerun"]
RUNTIME = '''import http.client, json, os, urllib.request
path, mode = "/2018-06-01/runtime/invocation/", os.environ["MODE"]
assert mode != "exit"
connection = http.client.HTTPConnection(os.environ["AWS_LAMBDA_RUNTIME_API"])
while True:
    connection.request("GET", path + "next")
    answer = connection.getresponse()
    event = json.loads(answer.read())
    if answer.status != 200:
        break
    if mode == "stop":
        urllib.request.urlopen(os.environ["AWS_ENDPOINT_URL_LAMBDA"] + "/_local/stop", b"")
    fails = event["fails"] == mode
    body = {"n": event["n"], "mode": mode, "parts": [{"id": os.getpid()}]}
    if fails:
        body = {"errorType": "E", "errorMessage": mode}
    identifier = answer.headers["Lambda-Runtime-Aws-Request-Id"]
    connection.request("POST", path + identifier + ("/error" if fails else "/response"), json.dumps(body))
    connection.getresponse().read()
'''


SALT = 77


def recorded_history():
    """What a service of one function answers whose runtime is this process, and may be a while asking again."""
    with mock.patch.dict(os.environ, LAMBDA_LOCAL_PATIENCE_MS="2000"):
        service = Service(
            {"account": "123456789012", "region": "us-east-1", "salt": SALT,
             "functions": [{"name": "f", "ports": [0], "timeout": 900}]})
    port = service.configuration["functions"][0]["ports"][0]
    path = "/2018-06-01/runtime/invocation/"

    def serve():
        for place in range(3):
            _, headers, body = ask(port, "GET", path + "next", timeout=600)
            event = json.loads(body)
            fails = event["fails"] == "old"
            answer: Members = {"errorType": "E", "errorMessage": "old"} if fails else {
                "n": event["n"], "mode": "old", "parts": [{"id": 0}]}
            ask(port, "POST", f"{path}{headers['lambda-runtime-aws-request-id']}/{'error' if fails else 'response'}",
                json.dumps(answer))
    try:
        thread = threading.Thread(target=serve)
        thread.start()
        for place, fails in enumerate(("never", "new", "old")):
            status, _, _ = ask(service.port, "POST", "/2015-03-31/functions/f/invocations",
                               json.dumps({"n": place, "fails": fails}), timeout=600)
            assert status == 200, f"invocation {place} is answered {status}"
        thread.join()
        return service.history()
    finally:
        service.stop()


def run(*arguments):
    done = subprocess.run([*TOOL, *arguments], stdin=subprocess.DEVNULL, capture_output=True, text=True, timeout=900)
    return done.returncode, done.stdout.splitlines(), done.stderr


def left_running(folder):
    """The processes that have this folder in their words."""
    found = []
    for path in glob.glob("/proc/[0-9]*/cmdline"):
        with contextlib.suppress(OSError), open(path, "rb") as file:
            words = file.read().decode(errors="replace").replace("\0", " ")
            if folder in words:
                found.append(words)
    return found


def up_json(folder, mode, **more):
    path = os.path.join(folder, f"{mode}.json")
    runtime = os.path.join(folder, "runtime.py")
    with open(runtime, "w") as file:
        file.write(RUNTIME)
    function = {"name": "f", "command": [sys.executable, "-S", runtime], "variables": {"MODE": mode}, "timeout": 900}
    with open(path, "w") as file:
        json.dump({"functions": [function], **more}, file)
    return path


TESTS = """import pytest

class E(Exception):
    pass

def handler(event):
    if event["fails"] == MODE:
        raise E(MODE)
    return {"n": event["n"], "mode": "old", "parts": [{"id": event["n"]}]}

@pytest.mark.lambda_local_rerun("history.txt", ignore=["/parts/*/id", "/stackTrace", "/requestId"])
def test_same(lambda_local):
    global MODE
    MODE = "old"
    lambda_local.start(f=handler)
    assert lambda_local.service.configuration["salt"] == 77

@pytest.mark.lambda_local_rerun("history.txt", ignore=["/parts", "/stackTrace"], one_by_one=True)
def test_other(lambda_local):
    global MODE
    MODE = "new"
    lambda_local.start(f=handler)

@pytest.mark.lambda_local_rerun("history.txt")
def test_not_started(lambda_local):
    pass

@pytest.mark.lambda_local_rerun("nowhere.txt")
def test_no_history(lambda_local):
    lambda_local.start(f=handler)

@pytest.mark.lambda_local_rerun("history.txt")
def test_that_fails_itself(lambda_local):
    assert False
"""


class RerunCommand(Case):
    def test_functions_are_run_again_and_what_has_changed_is_told(self):
        with tempfile.TemporaryDirectory() as folder:
            history, report_file = os.path.join(folder, "history.txt"), os.path.join(folder, "report.xml")
            with open(history, "w") as file:
                file.write(recorded_history())
            self.check("the same functions", run("--ignore", "/parts/*/id", history, up_json(folder, "old")),
                       (0, ["3 invocations: 3 equal"], ""))
            os.chmod(history, 0o600)
            seen = run("--ignore", "/parts/*/id", "--junit", report_file, "--update", history, up_json(folder, "new"))
            self.check("an updated history stays its user's alone", os.stat(history).st_mode & 0o777, 0o600)
            self.check("changed functions", (seen[0], [line.partition(":")[0] for line in seen[1]], seen[2]),
                       (1, ["changed", "  its event", "failed now", "  its event", "failed then", "  its event",
                            "3 invocations"], ""))
            self.check("what has changed", seen[1][0].partition(", f: ")[2], '/mode: "old" -> "new"')
            self.check("its event", seen[1][1], '  its event: {"n": 0, "fails": "never"}')
            self.check("what fails", seen[1][2].partition(", f: ")[2],
                       'error {"errorType": "E", "errorMessage": "new"}')
            self.check("the counts", seen[1][6], "3 invocations: 1 changed, 1 failed now, 1 failed then")
            cases = list(ElementTree.parse(report_file).iter("testcase"))
            self.check("the report for CI", [(each.get("classname"), each.find("failure") is not None)
                                             for each in cases],
                       [("f", True)] * 3)
            self.check("a case has its event in its name, and below its failure",
                       (re.sub(r"\d+", "N", cases[0].get("name", ""), count=1),
                        cases[0].findtext("failure", "").splitlines()[-1]),
                       ('call N: {"n": 0, "fails": "never"}', 'its event: {"n": 0, "fails": "never"}'))
            seen = run("--one-by-one", "--ignore", "/parts", history, up_json(folder, "new"))
            self.check("the new history", seen, (0, ["3 invocations: 3 equal"], ""))
            self.check("nothing is left running", left_running(folder), [])

    def test_update_writes_the_new_history_whole_or_leaves_the_old_one(self):
        """`--update` writes the new history whole, as private as the old one was, or leaves that as it is."""
        with tempfile.TemporaryDirectory() as folder:
            history, old = os.path.join(folder, "history.txt"), up_json(folder, "old")
            with open(history, "w") as file:
                file.write(recorded_history())
            words = ("--ignore", "/parts/*/id", "--update", history, old)
            for mode in (0o600, 0o644):
                os.chmod(history, mode)
                with open(history) as file:
                    before = file.read()
                self.check(f"--update of a file of mode {mode:o}", run(*words), (0, ["3 invocations: 3 equal"], ""))
                with open(history) as file:
                    self.check("writes a new history", (file.read(7), before == file.read()), ("form 2\n", False))
                self.check("and keeps its mode", f"{os.stat(history).st_mode & 0o777:o}", f"{mode:o}")
            with open(history) as file:
                before = file.read()
            names = sorted(os.listdir(folder))
            # (no file may be larger: what writes it is refused, as by a disk that is full)
            limits = resource.getrlimit(resource.RLIMIT_FSIZE)
            resource.setrlimit(resource.RLIMIT_FSIZE, (len(before) // 2, limits[1]))
            try:
                said = fault_of(command.write, history, before + before)
            finally:
                resource.setrlimit(resource.RLIMIT_FSIZE, limits)
            self.check("a disk that refuses the new one is told", said, f"2: --update: {history}: File too large")
            with open(history) as file:
                self.check("the old one is whole", file.read() == before, True)
            self.check("of its mode", f"{os.stat(history).st_mode & 0o777:o}", "644")
            self.check("and nothing is beside it", sorted(os.listdir(folder)), names)

    def test_faults_are_told_and_nothing_is_left_running(self):
        taken = socket.socket()
        taken.bind(("127.0.0.1", 0))
        taken.listen()
        with tempfile.TemporaryDirectory() as folder:
            history, script = os.path.join(folder, "history.txt"), os.path.join(folder, "script.txt")
            with open(history, "w") as file:
                file.write(recorded_history())
            with open(script, "w") as file:
                file.write('{"account":"123456789012","region":"us-east-1","functions":[]}\n')
            old = up_json(folder, "old")
            other = os.path.join(folder, "other.json")
            with open(other, "w") as file:
                json.dump({"functions": [{"name": "g", "command": "true"}]}, file)
            for name, arguments, words in (
                ("a file that is no history", (script, old),
                 f"{script}: this is not a history"),
                ("no file", ("/nowhere/h", old), "/nowhere/h: No such file or directory"),
                ("no UP.json", (history, "/nowhere/up"), "/nowhere/up: No such file or directory"),
                ("a function that is not there", (history, other),
                 f"{other}: there is no function f, which the history invokes"),
                ("a pointer that is none", ("--ignore", "x", history, old), "--ignore x: a JSON pointer begins with /"),
                ("a command that exits", (history, up_json(folder, "exit")),
                 "exit.json: not ready: f/1, whose Init fails"),
                ("a service that ends", (history, up_json(folder, "stop")), "the service ended "),
                ("a port in use", (history, up_json(folder, "old", invokePort=taken.getsockname()[1])),
                 str(taken.getsockname()[1])),
            ):
                status, output, said = run(*arguments)
                lines = said.splitlines()
                self.check(f"fault: {name}", (status, output, len(lines), lines[0][:len("rerun: ")], words in said),
                           (2, [], 1, "rerun: ", True), shown=said)
            self.check("nothing is left running", left_running(folder), [])
        taken.close()

    def test_the_help_names_each_option(self):
        status, output, said = run("--help")
        options = ("--one-by-one", "--ignore", "--update", "--junit", "--ready")
        self.check("--help", status == 0 and all(word in "\n".join(output) for word in options))

    def test_the_marker_runs_a_history_as_tests(self):
        """In pytest, if it is installed."""
        if subprocess.run([sys.executable, "-m", "pytest", "--version"], capture_output=True).returncode:
            self.skipTest("pytest is not installed")
        with tempfile.TemporaryDirectory() as folder:
            with open(os.path.join(folder, "history.txt"), "w") as file:
                file.write(recorded_history())
            with open(os.path.join(folder, "test_again.py"), "w") as file:
                file.write(TESTS)
            done = subprocess.run([sys.executable, "-m", "pytest", "-q", "--strict-markers", "-p", "no:cacheprovider",
                                   "-p", "pytest_lambda_local", "test_again.py"], cwd=folder,
                                  env={**os.environ, **with_tools()}, capture_output=True, text=True, timeout=900)
            said = done.stdout
            for name, words in (("what differs", "failed now: call "),
                                ("a test that has started nothing", "start the functions in the test"),
                                ("a file that is not there", "nowhere.txt: No such file or directory"),
                                ("what was mended", "failed then: call "), ("a test that fails itself", "assert False"),
                                ("the counts", "4 failed, 1 passed")):
                self.check(f"marker: {name}", words in said, shown=said[-3000:])
