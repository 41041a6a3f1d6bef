"""Checks lambda_local up against real processes. The program is
LAMBDA_LOCAL_PROGRAM, else ./lambda_local."""
import json
import os
import signal
import subprocess
import sys
import tempfile

from tests import ROOT
from tests.library.cases import Case
from tests.library.up_kit import HANDLER, Up, until


def extension_that(seconds):
    """Returns the command of an extension that crashes after this many seconds."""
    return [sys.executable, "-c",
            "import http.client,os,time\nc=http.client.HTTPConnection(os.environ['AWS_LAMBDA_RUNTIME_API'])\n"
            "c.request('POST','/2020-01-01/extension/register','{\"events\":[]}',{'Lambda-Extension-Name':'x'})\n"
            "a=c.getresponse();a.read();i=a.headers['Lambda-Extension-Identifier']\n"
            f"import threading;threading.Timer({seconds},os._exit,[5]).start()\n"
            "c.request('GET','/2020-01-01/extension/event/next',headers={'Lambda-Extension-Identifier':i})\n"
            "c.getresponse().read()"]


class OneRuntime(Case):
    """The tests share one `up`, and each leaves a runtime that serves."""

    up: Up

    @classmethod
    def setUpClass(cls):
        cls.up = Up()
        cls.addClassCleanup(cls.up.end)
        cls.up.until("[up] ready")

    def setUp(self):
        self.check("it is ready", self.up.has("[up] ready"))

    def a_new_one_serves(self, before):
        after = self.up.invoke()[0]
        self.check("a new process serves", isinstance(after, int) and after != before)

    def test_a_runtime_has_its_variables(self):
        self.check("the variables are set", self.up.invoke(do="name")[0], ["f", "index.handler", "hello"])

    def test_a_crash_in_the_handler_is_told_at_once_and_a_new_process_serves(self):
        before = self.up.invoke()[0]
        answer, took = self.up.invoke(do="crash")
        self.check("a crash in the handler is told at once", (answer, took < 0.9), ("Runtime.ExitError", True))
        self.a_new_one_serves(before)

    def test_a_handler_that_hangs_times_out_and_its_process_is_ended(self):
        before = self.up.invoke()[0]
        self.check("a handler that hangs is a timeout", self.up.invoke(do="hang")[0], "Function.Timeout")
        self.a_new_one_serves(before)
        self.check("its process is ended", os.path.exists(f"/proc/{before}"), False)

    def test_an_exit_while_idle_is_seen_and_a_new_process_serves(self):
        before = self.up.invoke()[0]
        self.up.invoke(do="later")
        self.check("an exit while idle is seen", self.up.until("exit status 9", 5))
        self.a_new_one_serves(before)

    def test_a_runtime_that_ends_in_its_init_is_paused_and_its_caller_hears(self):
        open(os.path.join(self.up.at, "broken"), "w").close()
        self.addCleanup(until, lambda: isinstance(self.up.invoke()[0], int), 30)
        self.addCleanup(os.remove, os.path.join(self.up.at, "broken"))
        self.check("the crash is told", self.up.invoke(do="crash")[0], "Runtime.ExitError")
        self.check("a runtime that ends in its Init is paused", self.up.until("restarting in", 15))
        self.check("and its caller hears", self.up.invoke()[0], "Runtime.ExitError")


class UpTest(Case):
    def test_term_stops_in_order_after_a_crash_and_the_counts_are_said(self):
        up = Up()
        self.check("it is ready", up.until("[up] ready"))
        up.invoke(do="crash")
        self.check("TERM stops in order, nothing is left", up.end(), (0, []))
        self.check("counts are said", any("admitted" in line for line in up.lines))

    def test_a_command_that_fails_gives_its_status_and_leaves_its_history(self):
        up = Up(command=["--", "sh", "-c", "test -n \"$AWS_ENDPOINT_URL_LAMBDA\" && exit 7"])
        self.check("the command's status", up.process.wait(40), 7)
        self.check("the history of a command that fails is saved",
                   os.path.exists(os.path.join(up.at, "lambda_local.history.txt")))
        self.check("nothing is left after a command", up.end(None), (7, []))

    def test_a_command_that_succeeds_leaves_nothing(self):
        up = Up(command=["--", "true"])
        self.check("a command that succeeds", up.process.wait(40), 0)
        self.check("leaves no history", os.path.exists(os.path.join(up.at, "lambda_local.history.txt")), False)
        self.check("and nothing else", up.end(None), (0, []))

    def test_term_ends_the_command(self):
        up = Up(command=["--", "sh", "-c", "touch started; exec sleep 100"])
        until(lambda: os.path.exists(os.path.join(up.at, "started")), 60)
        self.check("TERM ends the command", up.end(), (143, []))

    def test_term_ends_it_before_the_service_listens(self):
        with tempfile.TemporaryDirectory() as folder:
            silent = os.path.join(folder, "silent")
            with open(silent, "w") as file:
                file.write('#!/bin/sh\n: > "$0.started"\nexec sleep 100\n')
            os.chmod(silent, 0o755)
            up = Up("--program", silent)
            until(lambda: os.path.exists(silent + ".started"), 60)
            self.check("TERM ends it before the service listens", up.end(), (143, []))

    def test_64_environments_are_ready_and_INT_ends_them(self):
        up = Up(environments=64)
        self.check("64 environments are ready", up.until("[up] ready", 60))
        self.check("INT ends 64", up.end(signal.SIGINT), (0, []))

    def test_an_extension_that_crashes_is_told_and_its_environment_serves_again(self):
        up = Up(extensions={"x": extension_that(1.5)})
        self.check("it is ready with an extension", up.until("[up] ready"))
        self.check("an extension that crashes is told", up.until("Extension exited with error: exit status 5", 10))
        self.check("and its environment serves again", isinstance(up.invoke()[0], int))
        self.check("nothing is left of extensions", up.end(), (0, []))

    def test_a_changed_file_is_served_by_a_new_process(self):
        up = Up("--reload")
        up.until("[up] ready")
        first = up.invoke()[0]
        with open(os.path.join(up.at, "app.py"), "a") as file:
            file.write("# changed\n")
        self.check("a change is seen", up.until("shuts down, SPINDOWN", 10))
        second = up.invoke()[0]
        self.check("a new process serves the changed file", isinstance(second, int) and second != first)
        self.check("nothing is left after a reload", up.end(), (0, []))

    def test_its_own_log_in_a_watched_folder_is_no_change(self):
        with tempfile.TemporaryDirectory() as folder:
            with open(os.path.join(folder, "up.json"), "w") as file:
                json.dump({"functions": [{"name": "f", "command": ["sleep", "100"]}]}, file)
            with open(os.path.join(folder, "log"), "w") as log:
                words = [os.path.join(ROOT, "lambda_local"), "up", "--reload", "up.json"]
                child = subprocess.Popen(words, cwd=folder, stderr=log,
                                         stdout=log)
                try:
                    child.wait(6)
                except subprocess.TimeoutExpired:
                    child.send_signal(signal.SIGTERM)
                status = child.wait(40)
            with open(os.path.join(folder, "log")) as log:
                self.check("its own log in a watched folder begins nothing anew",
                           (status, "restarting f" in log.read()), (0, False))

    def test_a_function_to_debug_has_its_clock_paused_and_no_limit_of_time(self):
        up = Up("--debug", "f")
        self.check("a function to debug begins",
                   up.until("waiting for a debugger: Init has no time limit until f is invoked", 10))
        self.check("its clock is paused, which is said", up.has("f: one environment, and the clock is paused, for the "
                                                                "debugger: lambda_local clock resume lets it go on"))
        self.check("and serves", isinstance(up.invoke()[0], int))
        self.check("longer than its timeout", isinstance(up.invoke(do="long")[0], int))
        self.check("nothing is left of it", up.end(), (0, []))

    def test_a_command_waits_for_a_function_that_is_debugged_for_longer_than_an_init_has(self):
        # As at a breakpoint, for longer than an Init has (10 s) and than others are waited for.
        held = "import time; time.sleep(12)\n"
        up = Up("--debug", "f", "--ready", "5",
                command=["--", "sh", "-c",
                         'curl -s -d "{}" "$AWS_ENDPOINT_URL_LAMBDA/2015-03-31/functions/f/invocations"'],
                extensions={"x": extension_that(1000)}, app=held + HANDLER)
        self.check("a command waits for a function that is debugged",
                   up.until("waiting for f/1, which is being debugged", 20))
        status, left = up.end(None)
        self.check("it runs once that has left its Init, and an extension came after it",
                   (status, left, up.output.isdigit()),
                   (0, [], True))
        self.check("no Init timed out", any("shuts down" in line for line in up.lines), False)
