"""One short run of each command of a checkout: what users give, and what must come."""
import json
import os
import sys

from tests.library import trees
from tests.library.trees import ROOT, text_of, write

SERVE_ONCE = os.path.join(ROOT, "tests", "library", "serve_once.py")
GREETING = '{"greeting": "Hello, Ada!"}'
INVOKE = ("import os, urllib.request as u; "
          "print(u.urlopen(os.environ['AWS_ENDPOINT_URL_LAMBDA'] + '/2015-03-31/functions/greet/invocations', "
          "b'{\"name\":\"Ada\"}').read().decode())")
TEST = """def test_greet(lambda_local):
    lambda_local.start(greet=lambda event: {"hello": event["name"]})
    assert lambda_local.invoke("greet", {"name": "Ada"}) == {"hello": "Ada"}
"""
IN_PROCESS = ("from lambda_local.in_process import LambdaLocal\n"
              "with LambdaLocal(f=lambda event: event + 1) as service: print(service.invoke('f', 41))")
TEMPLATE = {"Resources": {"Greet": {"Type": "AWS::Serverless::Function", "Properties": {
    "Handler": "handler.greet", "Runtime": "python3.12", "CodeUri": "."}}}}


class Commands:
    """The commands of the checkout `root`; files that they need or make are in `folder`."""

    def __init__(self, root, folder, user=None, **variables):
        self.root, self.folder, self.user, self.variables = root, folder, user, variables
        self.python = sys.executable if user is None else "/usr/bin/python3"  # (another user's may not be readable)
        self.history = os.path.join(folder, "history.txt")
        self.launcher = os.path.join(root, "lambda_local")

    def cases(self):
        """The name of each, its words, the end of what it must print, and its standard input."""
        launcher, own = self.launcher, os.path.join
        template, page = own(self.folder, "template.json"), own(self.folder, "test_greet.py")
        write(template, json.dumps(TEMPLATE).encode())
        write(page, TEST.encode())
        up, timeout = own(self.root, "examples", "up.json"), own(self.root, "examples", "timeout.txt")
        runtime = own(self.root, "examples", "runtime.py")
        yield "path", [launcher, "path"], "lambda_local\n", ""
        yield "--version", [launcher, "--version"], " passed, 0 failed\n", ""
        yield ("replay", [launcher], text_of(ROOT, "crates", "lambda_local", "stdout"),
               text_of(ROOT, "examples", "first_call.txt"))
        yield ("trace", [launcher, "trace"], '"moment":1200,"phases":[],"released":[],"ticket":2}\n',
               text_of(ROOT, "examples", "first_call.txt"))
        yield "explain", [launcher, "explain"], "", text_of(ROOT, "examples", "service.json")
        yield "serve", [self.python, SERVE_ONCE, launcher, self.folder], "stopped in order\n", ""
        yield "check", [launcher, "check", timeout], " answers\n", ""
        yield "timeline", [launcher, "timeline", timeout], "\n", ""
        yield "from_template", [launcher, "from_template", template], "}\n", ""
        yield ("up", [launcher, "up", "--history", self.history, up, "--", self.python, "-c", INVOKE],
               GREETING + "\n", "")
        yield "rerun", [launcher, "rerun", self.history, up], "1 equal\n", ""
        yield ("conformance", [launcher, "conformance", "runtime", "--only", "escapes", "--", runtime],
               None, "")
        yield "the plugin's service", [self.python, "-c", IN_PROCESS], "42\n", ""
        if python := python_with_pytest(self.python):
            yield ("the pytest plugin", [python, "-m", "pytest", "-q", "-p", "no:cacheprovider", "-p",
                                         "pytest_lambda_local", page], None, "")

    def run(self, words, stdin=""):
        """Runs one: its status, and what it wrote on both streams."""
        cwd = os.path.join(self.root, "examples", "conformance") if "conformance" in words else self.folder
        return trees.run(words, cwd, stdin, self.user, PYTHONPATH=os.path.join(self.root, "tools"), **self.variables)


def python_with_pytest(first):
    """A Python that has pytest, if one is here."""
    for python in (first, "/usr/bin/python3"):
        if os.access(python, os.X_OK) and trees.run([python, "-c", "import pytest"])[0] == 0:
            return python
    return None
