"""Checks that a debugger may stand: the clock is paused at a breakpoint of a test or a handler and goes on after it;
`lambda_local up --debug` starts Node's inspector, or debugpy where it is installed, and the runtime answers once its
debugger lets it go on; and one that attaches by itself pauses the clock until it detaches. Where debugpy is not
installed, a module with pydevd's call, by which a runtime knows of it, is in its place. The program is
LAMBDA_LOCAL_PROGRAM, else ./lambda_local."""
import contextlib
import importlib.util
import json
import os
import shutil
import signal
import subprocess
import sys
import tempfile
import threading
import time
import unittest

from lambda_local.service import free_ports
from tests import with_tools
from tests.library.cases import Case
from tests.library.clock_kit import CLOCK, INVOKE, posted
from tests.library.debugger_kit import Adapter, Inspector
from tests.library.events_kit import READY, READY_SECONDS
from tests.library.trees import write
from tests.library.up_kit import LAUNCHER, Up, children, command_of, until

SCRIPT = '''import time
from lambda_local.in_process import FunctionError, LambdaLocal
def f(event):
    breakpoint()
    return "done"
with LambdaLocal({"f": {"timeout": 60}}, f=f) as service:
    for _ in range(2):
        try:
            print("result", service.invoke("f"))
        except FunctionError as fault:
            print("result", fault.report["errorType"])
        print("paused after it", service.clock.is_paused)
'''
TEST = '''import time
def f(event):
    breakpoint()
    return "done"
def test_f(lambda_local):
    lambda_local.start({"f": {"timeout": 60}}, f=f)
    f.service = lambda_local
    assert lambda_local.invoke("f") == "done"
    assert not lambda_local.clock.is_paused
'''
APP = "def run(event):\n    return 'done'\n"
INDEX = "exports.run = async () => { debugger; return 'done'; };\n"
TAIL = {"X-Amz-Log-Type": "Tail"}
TIMEOUT = 4  # seconds
STANDS = TIMEOUT + 1.5  # so long a debugger stands
# Attaches as debugpy does, when a file says so: with the module by which the runtime knows of it.
PYDEVD = "import os\ndef _is_attached():\n    return os.path.exists('attached')\n"
WAITS = """import time
def run(event):
    import os, pydevd
    open("waits", "w").close()
    while not os.path.exists("over"):
        time.sleep(0.02)
    return "done"
"""
LISTENS = """def run(event):
    import debugpy
    if not debugpy.is_client_connected():
        debugpy.listen(int(event["port"]))
        debugpy.wait_for_client()
        debugpy.breakpoint()
    return "done"
"""
WITH_NODE = unittest.skipUnless(shutil.which("node"), "there is no Node here")
WITH_DEBUGPY = unittest.skipUnless(importlib.util.find_spec("debugpy"), "debugpy is not here")


def run(words, text, **given):
    """What a program prints that is given this text."""
    done = subprocess.run(words, input=text, stdout=subprocess.PIPE, stderr=subprocess.STDOUT, text=True, timeout=240,
                          env={**os.environ, **with_tools()}, **given)
    return done.returncode, done.stdout


def attached_to(port, client):
    """A client, once there is something to attach to."""
    seen = []

    def attach():
        try:
            seen.append(client(port))
        except (OSError, IndexError):
            return False
        return True
    assert until(attach, 240), f"nothing to attach to at {port}"
    return seen[0]


def is_paused(up):
    return not json.loads(up.get(CLOCK))["running"]


def runtime_of(up, name):
    """The number of the process of this bundled runtime."""
    found = [pid for pid in children(up.process.pid) if f"\0{name}" in command_of(pid).replace("/", "\0")]
    return found[0] if found else None


class Breakpoints(Case):
    def check_pauses(self, name, words, **given):
        steps = "p 'at it', {0}.clock.is_paused, {0}.clock.now() - {0}.clock.now()\nc\n"
        return run(words, steps.format(name) + steps.format(name), **given)

    def test_without_pytest_the_clock_is_paused_at_a_breakpoint(self):
        status, output = self.check_pauses("service", [sys.executable, "-c", SCRIPT])
        self.check("at each breakpoint the clock is paused", (status, output.count("('at it', True, 0)")), (0, 2),
                   shown=output)
        self.check("nothing times out", output.count("result done"), 2)
        self.check("and it goes on after it", output.count("paused after it False"), 2)

    def test_a_debugger_that_is_left_lets_the_clock_go_on(self):
        status, output = run([sys.executable, "-c", SCRIPT], "q\nq\n")
        self.check("also if the debugger is left", (status, output.count("result BdbQuit"), output.count(
            "paused after it False")), (0, 2, 2), shown=output)

    def test_a_clock_that_was_paused_stays_so_at_a_breakpoint(self):
        status, output = run([sys.executable, "-c", SCRIPT.replace(
            "with Lambda", "other = LambdaLocal(g=f)\nother.clock.pause()\nwith Lambda") + (
            "print('the other', other.clock.is_paused)\nother.stop()\n")], "c\nc\n")
        self.check("one that was paused stays so", (status, "the other True" in output), (0, True), shown=output)

    @unittest.skipUnless(importlib.util.find_spec("pytest"), "pytest is not here")
    def test_under_pytest_the_clock_is_paused_at_a_breakpoint_and_with_pdb(self):
        with tempfile.TemporaryDirectory() as folder:
            with open(os.path.join(folder, "test_f.py"), "w") as file:
                file.write(TEST)
            words = [sys.executable, "-m", "pytest", "-q", "-p", "no:cacheprovider", "-p", "pytest_lambda_local",
                     "test_f.py"]
            status, output = self.check_pauses("f.service", words, cwd=folder)
            self.check("at a breakpoint in a handler the clock is paused", (status, "('at it', True, 0)" in output,
                                                                            "1 passed" in output), (0, True, True),
                       shown=output)
            with open(os.path.join(folder, "test_f.py"), "w") as file:
                file.write(TEST.replace("    breakpoint()\n", "").replace('== "done"', '== "failed"'))
            status, output = run([*words, "--pdb"], "p 'at it', lambda_local.clock.is_paused\nq\n", cwd=folder)
            self.check("and with --pdb", (status, "('at it', True)" in output), (2, True), shown=output)
            with open(os.path.join(folder, "test_f.py"), "w") as file:
                file.write(TEST.replace("    breakpoint()\n", "").replace("def test_f(lambda_local):\n",
                                                                          "def test_f(lambda_local):\n    pass\n"))
            steps = "n\nn\nn\np 'at it', lambda_local.clock.is_paused\nc\n"
            status, output = run([*words, "--trace"], steps, cwd=folder)
            self.check("and with --trace, from its first line on", (status, "('at it', True)" in output,
                                                                    "1 passed" in output), (0, True, True),
                       shown=output)


class Debugged(Case):
    """What those with a debugger have in common."""

    def function(self, runtime, handler, **members):
        return {"name": "f", "runtime": runtime, "handler": handler, "timeout": TIMEOUT, **members}

    def invoked(self, up, **event):
        """A thread that invokes the function, and the list that has what it gives."""
        got = []
        body = json.dumps(event).encode()
        thread = threading.Thread(target=lambda: got.append(json.loads(up.get(INVOKE.format("f"), body, timeout=300))),
                                  daemon=True)
        thread.start()
        return thread, got

    def check_stands(self, up, thread, got, resume):
        """A handler at which a debugger stands for longer than its timeout answers once that lets it go on."""
        time.sleep(STANDS)
        self.check("nothing times out while it stands", (got, is_paused(up)), ([], True))
        resume()
        thread.join(300)
        self.check("the runtime goes on, and answers", got, ["done"])


class OfUp(Debugged):
    def attached(self, up, client, language):
        self.check("where it is is said", up.until(f"f: attach a debugger of {language} at 127.0.0.1:", READY_SECONDS))
        self.check("it waits", up.until("waiting for a debugger: Init has no time limit until f is invoked",
                                        READY_SECONDS))
        return attached_to(int(up.told(r"attach a debugger of \w+ at 127\.0\.0\.1:(\d+)")), client)

    @WITH_NODE
    def test_Node_is_held_for_its_debugger_at_the_port_that_was_given(self):
        port = free_ports(1, ())[0]
        up = Up("--debug", f"f:{port}", functions=[self.function("node", "index.run")], files={"index.js": INDEX})
        client = self.attached(up, Inspector, "Node")
        self.check("it holds the runtime", client.target["url"].endswith("runtime.mjs"), shown=client.target)
        self.check("which has not begun", '"idle"' in up.get("/_local/environments"), False)
        self.check("at the port that was given", up.has(f"127.0.0.1:{port} "))
        client.begin()
        client.wait("Debugger.paused")
        client.resume()
        self.check("a client has it begin", until(lambda: '"idle"' in up.get("/_local/environments"), 60))
        thread, got = self.invoked(up)
        client.wait("Debugger.paused")
        self.check_stands(up, thread, got, client.resume)
        client.close()
        self.check("the clock stays paused", is_paused(up))
        self.check("without a debugger it answers too", up.invoke()[0], "done")
        self.check("it ends", up.end(), (0, []))

    @WITH_DEBUGPY
    def test_Python_listens_for_its_debugger(self):
        up = Up("--debug", "f", functions=[self.function("python", "app.run")], app=APP, environ={
            **os.environ, "LAMBDA_LOCAL_PROGRAM": os.environ.get("LAMBDA_LOCAL_PROGRAM", "")})
        self.check("what is debugged waits", up.until("waiting for a debugger", READY_SECONDS))
        self.check("the runtime has not begun", '"idle"' in up.get("/_local/environments"), False)
        client = self.attached(up, Adapter, "Python")
        self.check("a client has it begin", until(lambda: '"idle"' in up.get("/_local/environments"), 60))
        self.check("and answer", up.invoke()[0], "done")
        client.close()
        self.check("it ends", up.end(), (0, []))

    def test_a_signal_ends_it_while_callers_wait_for_a_log(self):
        """While callers wait for the log of a runtime that never begins, and another function is debugged."""
        functions = [{"name": "f", "command": ["sleep", "600"], "timeout": TIMEOUT},
                     {"name": "g", "command": ["sleep", "600"], "timeout": TIMEOUT}]
        up = Up("--debug", "g", functions=functions)
        self.check("it waits", up.until("waiting for a debugger", READY_SECONDS))

        def waits():
            with contextlib.suppress(OSError):  # (it ends meanwhile)
                posted(up.endpoint, INVOKE.format("f"), b"{}", TAIL)
        for _ in range(6):
            threading.Thread(target=waits, daemon=True).start()
        self.check("a caller wants the log", up.until("restarting f: a caller wants the log of an invocation",
                                                      READY_SECONDS))
        time.sleep(1)
        begun = time.monotonic()
        self.check("a signal ends it", up.end(), (0, []))
        self.check("in its time", time.monotonic() - begun < 15, shown=time.monotonic() - begun)

    def test_without_debugpy_what_to_install_is_said_and_it_serves(self):
        """An interpreter that has no debugpy: what to do is said, and it is there all the same."""
        with tempfile.TemporaryDirectory() as folder:
            python = os.path.join(folder, "python")
            write(python, b'#!/bin/sh\ncase "$*" in *"import debugpy"*) exit 1;; esac\n'
                          b'exec %b "$@"\n' % os.fsencode(sys.executable), 0o755)
            up = Up("--debug", "f", functions=[{**self.function("python", "app.run"), "python": python}], app=APP)
            self.check("what to install is said", up.until(
                f"f: no debugger is started, since {python} has no debugpy: `{python} -m pip install debugpy`"))
            self.check("it begins", until(lambda: '"idle"' in up.get("/_local/environments"), 60))
            self.check("and answers", up.invoke()[0], "done")
            self.check("it ends", up.end(), (0, []))

    def test_faults_of_the_option_are_told(self):
        with tempfile.TemporaryDirectory() as folder:
            with open(os.path.join(folder, "up.json"), "w") as file:
                json.dump({"functions": [self.function("python", "app.run")]}, file)
            for given, wanted in (("f:x", "write it as F or F:PORT"), ("f:0", "with a port from 1 to 65535"),
                                  ("g:5678", "up.json has no such function with a command")):
                done = subprocess.run([LAUNCHER, "up", "--debug", given, "up.json"], cwd=folder, capture_output=True,
                                      text=True, timeout=60, stdin=subprocess.DEVNULL)
                self.check(f"refused: {given}", (done.returncode, wanted in done.stderr), (2, True),
                           shown=done.stderr)


class ByItself(Debugged):
    """A debugger that attaches without `--debug`."""

    def started(self, *functions, **given):
        up = Up(*READY, functions=list(functions), **given)
        self.check("it is ready", up.until("[up] ready", READY_SECONDS))
        self.check("the clock runs", is_paused(up), False)
        return up

    def check_detached(self, up):
        self.check("the clock goes on once it has detached", until(lambda: not is_paused(up), 20))
        self.check("that is said", up.until("no debugger is attached any more: the clock goes on", 20))
        self.check("it ends", up.end(), (0, []))

    @WITH_NODE
    def test_an_inspector_that_attaches_to_Node_pauses_the_clock(self):
        port = free_ports(1, ())[0]
        up = self.started(self.function("node", "index.run", variables={"NODE_OPTIONS": f"--inspect-port={port}"}),
                          files={"index.js": INDEX})
        self.check("without a debugger it answers", up.invoke()[0], "done")
        os.kill(runtime_of(up, "runtime.mjs"), signal.SIGUSR1)
        self.check("its inspector listens", up.until(f"Debugger listening on ws://127.0.0.1:{port}/"))
        time.sleep(1)
        self.check("which pauses nothing", is_paused(up), False)
        client = attached_to(port, Inspector)
        client.begin()
        self.check("a client pauses the clock", up.until("f/1] -- a debugger has attached: the clock is paused", 30))
        thread, got = self.invoked(up)
        client.wait("Debugger.paused")
        self.check_stands(up, thread, got, client.resume)
        client.close()
        self.check_detached(up)

    def test_a_debugger_that_attaches_to_Python_pauses_the_clock(self):
        """(with a module in the place of pydevd)"""
        up = self.started(self.function("python", "app.run"), app=WAITS, files={"pydevd.py": PYDEVD})
        thread, got = self.invoked(up)
        self.check("it is invoked", until(lambda: os.path.exists(os.path.join(up.at, "waits")), 30))
        up.write("attached", "")
        self.check("a client pauses the clock", up.until("f/1] -- a debugger has attached: the clock is paused", 30))
        self.check_stands(up, thread, got, lambda: up.write("over", ""))
        self.check("it stays paused meanwhile", is_paused(up))
        os.unlink(os.path.join(up.at, "attached"))
        self.check_detached(up)

    def test_a_runtime_that_ends_under_its_debugger_lets_the_clock_go_on(self):
        """A runtime that ends while its debugger is attached, and a clock that was paused before."""
        up = self.started(self.function("python", "app.run"), app=WAITS, files={"pydevd.py": PYDEVD})
        self.invoked(up)
        self.check("it is invoked", until(lambda: os.path.exists(os.path.join(up.at, "waits")), 30))
        up.get(CLOCK + "/pause", b"", "POST")
        up.write("attached", "")
        self.check("that it is paused is said", up.until("attached: the clock is paused already, and stays so", 30))
        os.unlink(os.path.join(up.at, "attached"))
        time.sleep(1)
        self.check("it stays paused", is_paused(up))
        up.get(CLOCK + "/resume", b"", "POST")
        up.write("attached", "")
        self.check("the next one pauses it", up.until("a debugger has attached: the clock is paused until", 30))
        os.kill(runtime_of(up, "runtime.py"), signal.SIGKILL)
        self.check_detached(up)

    @WITH_DEBUGPY
    def test_debugpy_that_attaches_pauses_the_clock(self):
        port = free_ports(1, ())[0]
        up = self.started(self.function("python", "app.run", timeout=60), app=LISTENS, environ={
            **os.environ, "LAMBDA_LOCAL_PROGRAM": os.environ.get("LAMBDA_LOCAL_PROGRAM", "")})
        thread, got = self.invoked(up, port=port)
        client = attached_to(port, Adapter)
        self.check("a client pauses the clock", up.until("f/1] -- a debugger has attached: the clock is paused", 30))
        self.check_stands(up, thread, got, client.resume)
        client.close()
        self.check_detached(up)
