"""Checks the pytest plugin, by itself and, if a Python on this machine has pytest, under it. The program is
LAMBDA_LOCAL_PROGRAM, else ./lambda_local."""
import contextlib
import decimal
import io
import os
import re
import subprocess
import sys
import tempfile
import threading
import time

from pytest_lambda_local import FunctionError, LambdaLocal
from tests import ROOT, with_tools
from tests.library.cases import Case
from tests.library.threads import together

# What a user's tests may be like: those that are named so fail, the others hold.
TESTS = '''import os, sys, threading, time
import pytest

WORD = "plain"

def greet(event, context):
    return {"hello": event["name"], "word": WORD, "process": os.getpid(),
            "has": 0 < context.get_remaining_time_in_millis() <= 3000}

def test_in_this_process(lambda_local, monkeypatch):
    monkeypatch.setattr(f"{__name__}.WORD", "patched")
    lambda_local.start(greet=greet)
    assert lambda_local.invoke("greet", {"name": "Ada"}) == {
        "hello": "Ada", "word": "patched", "process": os.getpid(), "has": True}

def test_client(lambda_local):
    pytest.importorskip("boto3")
    lambda_local.start(double=lambda event: event * 2)
    client = lambda_local.client()
    seen = [client.invoke(FunctionName="double", Payload=str(n))["Payload"].read() for n in range(3)]
    assert seen == [b"0", b"2", b"4"]

def test_timeout(lambda_local):
    lambda_local.start({"slow": {"timeout": 1}}, slow=lambda event: time.sleep(1.5))
    with pytest.raises(Exception, match="Function.Timeout"):
        lambda_local.invoke("slow")

def test_not_started(lambda_local):
    assert lambda_local.history() == ""

@pytest.fixture(scope="session")
def shop(lambda_local_session):
    return lambda_local_session.start(count=lambda event: len(event))

def test_session_one(shop):
    assert shop.invoke("count", [1, 2]) == 2

def test_session_two(shop, lambda_local):
    lambda_local.start(other=lambda event: "other")
    assert (shop.invoke("count", []), shop.stats()["admitted"], lambda_local.invoke("other")) == (0, 2, "other")

def test_session_that_fails(shop):
    assert shop.invoke("count", []) == 1

def test_that_fails(lambda_local):
    lambda_local.start(double=lambda event: event * 2)
    assert lambda_local.invoke("double", 2) == 5

def raises(event):
    print("said by the handler")
    return event["missing"]

def test_whose_handler_fails(lambda_local):
    lambda_local.start(raises=raises)
    lambda_local.invoke("raises", {})

def test_that_fails_in_its_handler(lambda_local):
    lambda_local.start(strict=lambda event: pytest.fail("not like this"))
    lambda_local.invoke("strict", {})

def test_that_fails_after_many(lambda_local):
    lambda_local.start(double=lambda event: event * 2)
    for number in range(60):
        lambda_local.invoke("double", number)
    assert False

def test_whose_service_dies(lambda_local):
    lambda_local.start(double=lambda event: event * 2)
    lambda_local.service.process.kill()
    lambda_local.service.process.wait()
'''


def fails(event):
    if event == "exit":
        sys.exit(3)
    if event == "decimal":
        return decimal.Decimal("1.5")
    if event == "trace":
        return os.environ["_X_AMZN_TRACE_ID"].startswith("Root=1-")
    if event == "long":
        raise ValueError("x" * 7_000_000)
    return {1, 2} if event == "set" else event["missing"]


def fault_of(call, *words, **named):
    try:
        call(*words, **named)
    except Exception as fault:
        return f"{type(fault).__name__}: {fault}"
    return None


def folder_of(module, python):
    """Returns the folder of a Python's module; nothing if it does not have the module."""
    try:
        done = subprocess.run([python, "-c",
                               f"import os, {module}; print(os.path.dirname(os.path.dirname({module}.__file__)))"],
                              stdout=subprocess.PIPE, stderr=subprocess.DEVNULL, text=True)
        return done.stdout.strip()
    except OSError:
        return ""


def python_with_pytest():
    """Returns a Python that has pytest; none if there is none."""
    return next((python for python in (sys.executable, "/usr/bin/python3") if folder_of("pytest", python)), None)


def pytest_over(python, folder, tests=TESTS, lent=None, **environ):
    """The status and the output of pytest over the tests, and of how many it says what; the folder of a boto3 may be
    lent."""
    if lent is None:  # (to a Python that has none, by this one)
        lent = folder_of("boto3", sys.executable)
        lent = [lent] if lent and not folder_of("boto3", python) else []
    with open(os.path.join(folder, "test_user.py"), "w") as file:
        file.write(tests)
    done = subprocess.run([python, "-m", "pytest", "-p", "lambda_local.pytest_plugin", "-p", "pytest_lambda_local",
                           "-p", "no:cacheprovider", "-rs", "--basetemp", os.path.join(folder, "kept"), folder],
                          cwd=folder, env={**os.environ, **with_tools(*lent), **environ}, stdin=subprocess.DEVNULL,
                          stdout=subprocess.PIPE, stderr=subprocess.STDOUT, text=True, timeout=300)
    counts = {word: int(number)
              for number, word in re.findall(r"(\d+) (passed|failed|error|skipped)", done.stdout.splitlines()[-1])}
    return done.returncode, done.stdout, counts


class Plugin(Case):
    def test_handlers_are_invoked_in_the_tests_process(self):
        with LambdaLocal(double=lambda event: event * 2) as service:
            self.check("handlers in the test's process", [service.invoke("double", number) for number in range(5)],
                       [0, 2, 4, 6, 8])
            self.check("it settles", (service.settled(), service.stats()["admitted"]), (True, 5))
            self.check("the history is there", service.history().startswith("form 2\n"))
            if folder_of("boto3", sys.executable):
                answer = service.client().invoke(FunctionName="double", Payload=b"21")
                self.check("a client of boto3", (answer["StatusCode"], answer["Payload"].read()), (200, b"42"))
            else:
                try:
                    service.client()
                except RuntimeError as fault:
                    self.check("boto3 is not here, and the fault says so", "pip install boto3" in str(fault))
        assert service.service
        self.check("the service has ended", service.service.process.returncode, 0)
        self.check("its history is kept", service.history().startswith("form 2\n"))
        self.check("an invoke after its end", fault_of(service.invoke, "double"),
                   "RuntimeError: the service was stopped")

    def test_what_a_handler_raised_is_reported_as_by_Lambdas_runtime(self):
        """What the handler raised comes as Lambda's Python runtime reports it, and as the cause."""
        with LambdaLocal(fails=fails) as service, contextlib.redirect_stderr(io.StringIO()) as printed:
            try:
                service.invoke("fails", {})
                self.check("a handler's fault is raised", False)
            except FunctionError as fault:
                assert isinstance(fault.report, dict)
                told = dict(fault.report)
                self.check("a handler's fault is raised",
                           (told.pop("errorMessage"), told.pop("errorType"), len(told.pop("requestId"))),
                           ("'missing'", "KeyError", 36))
                # (newer Pythons mark the place)
                stack = [re.sub(r"\n\s+[\^~]+\n", "\n", line) for line in told.pop("stackTrace")]
                line = fails.__code__.co_firstlineno + 9
                self.check("its stack, as traceback.format_list gives it", stack,
                           [f'  File "{__file__}", line {line}, in fails\n    return {{1, 2}} if event == "set" else '
                            f'event["missing"]\n'])
                self.check("no other member", told, {})
                self.check("from what the handler raised", repr(fault.__cause__), "KeyError('missing')")
            self.check("the trace is printed",
                       ("Traceback (most recent call last):" in printed.getvalue(),
                        "in_process.py" in printed.getvalue(),
                                                printed.getvalue().endswith("KeyError: 'missing'\n")),
                       (True, False, True))
            try:
                service.invoke("fails", "set")
            except FunctionError as fault:
                self.check("an output that is no JSON", (str(fault), type(fault.__cause__)),
                           ("Runtime.MarshalError: Unable to marshal response: Object of type set is not JSON "
                            "serializable", TypeError))
            for event, wanted in (("decimal", 1.5), ("trace", True)):
                self.check(f"as a runtime of its own: {event}", service.invoke("fails", event), wanted)
            told = fault_of(service.invoke, "fails", "long")
            self.check("a message that is too long is cut, and told at once", (told[:27], len(told) < 200_000),
                       ("FunctionError: ValueError: ", True), shown=told[:100])
            try:
                service.invoke("fails", "exit")
            except FunctionError as fault:
                self.check("a handler that exits", repr(fault.__cause__), "SystemExit(3)")
            self.check("a function that is not there", fault_of(service.invoke, "other")[:40],
                       "FunctionError: ResourceNotFoundException")

    def test_a_context_has_what_Lambda_gives(self):
        seen = []
        with LambdaLocal({"f": {"memory": 256, "timeout": 60}}, f=lambda event,
                         context: seen.append(context)) as service:
            service.invoke("f")
            context = dict(vars(seen[0]))
            left, request = seen[0].get_remaining_time_in_millis(), context.pop("aws_request_id")
            del context["deadline"]
            self.check("the time that is left, the request and the trace", (0 < left <= 60000, len(request),
                    "Lambda-Runtime-Trace-Id" in context.pop("headers")), (True, 36, True))
            self.check("the identity", vars(context.pop("identity")),
                       {"cognito_identity_id": None, "cognito_identity_pool_id": None})
            self.check("the rest of the context", context, {
                "invoked_function_arn": "arn:aws:lambda:us-east-1:123456789012:function:f", "function_name": "f",
                "function_version": "$LATEST",
                "memory_limit_in_mb": "256", "log_group_name": "/aws/lambda/f", "log_stream_name": "local/[$LATEST]1",
                "client_context": None})

    def test_a_handler_gets_the_context_if_it_takes_one(self):
        with LambdaLocal(one=lambda *given: len(given), two=lambda event, context=None: context is not None) as service:
            self.check("a handler of any arguments gets both, as does one with a default",
                       (service.invoke("one"), service.invoke("two")), (2, True))

    def test_three_environments_run_at_once(self):
        """Three environments are three threads, which run at once."""
        meet = threading.Barrier(3)
        with LambdaLocal({"f": {"environments": 3}},
                         f=lambda event: (meet.wait(10), threading.current_thread().name)[1]) as service:
            names = together(*3 * [lambda: str(service.invoke("f"))])
            self.check("three environments run at once", len(set(names)), 3)

    def test_wrong_uses_are_told(self):
        unstarted = LambdaLocal()
        for name, call in (("invoke", lambda: unstarted.invoke("f")), ("stats", unstarted.stats),
                           ("client", unstarted.client), ("settled", unstarted.settled)):
            self.check(f"{name} before start", fault_of(call),
                       "RuntimeError: no function is started yet: call start(NAME=handler) first")
        self.check("a history before start is empty", unstarted.history(), "")
        self.check("a start without a function", fault_of(unstarted.start),
                   "ValueError: start() needs a function: start(NAME=handler)")
        for members, handler, wanted in (
                ({"timeuot": 5}, fails, "function f: unknown member timeuot, did you mean timeout?"),
                ({"zzz": 5}, fails,
                 "function f: unknown member zzz; there are environments, extensions, handler, memory, ports, "
                 "reserved, timeout, variables"),
                ({"variables": ["A"]}, fails,
                 'function f: variables must be an object of strings, numbers, true or false, not ["A"]'),
                ({"environments": "2"}, fails,
                 "function f: environments must be a whole number from 1 to 256, not \"2\""),
                ({"environments": 0}, fails, "function f: environments must be a whole number from 1 to 256, not 0"),
                ({"environments": 2, "ports": [0, 0]}, fails,
                 "function f: it has ports and environments: leave one of the two out"),
                ({"handler": fails}, None, "function f: handler is a name, which nothing calls here: give the function "
                                           "itself, as start(f=..)"),
                (5, fails, "function f: its members are 5: give a dict, such as {\"timeout\": 5}"),
                ({}, "app.handler", "function f: its handler is 'app.handler': give a function of an event, or of an "
                                    "event and its context")):
            handlers = {"f": handler} if handler else {}
            self.check(f"wrong: {wanted}", fault_of(LambdaLocal, {"f": members}, **handlers), f"ValueError: {wanted}")
        with LambdaLocal(f=fails) as service:
            self.check("a second start", fault_of(service.start, g=fails),
                       "RuntimeError: it has been started: name all functions in one start(), or make another "
                       "LambdaLocal()")

    def test_the_launcher_is_asked_once_for_its_program(self):
        """The launcher is asked once a process for its program."""
        from lambda_local import program as program_module
        own = os.path.join(ROOT, "lambda_local")
        if not os.access(own, os.X_OK):
            self.skipTest("there is no launcher here")
        with tempfile.TemporaryDirectory() as folder:
            # (as the repository's: one that notes each start, and says the program)
            program = os.environ.get("LAMBDA_LOCAL_PROGRAM") or subprocess.run(
                [own, "path"], stdout=subprocess.PIPE, text=True).stdout.strip()
            fake = os.path.join(folder, "lambda_local")
            with open(fake, "w") as file:
                file.write(f'#!/bin/sh\necho "$1" >> "$0.started"\n[ "$1" = path ] && echo {program} && exit\nexec '
                           f'{program} "$@"\n')
            os.chmod(fake, 0o755)
            before, program_module.LAUNCHER = program_module.LAUNCHER, os.path.realpath(fake)
            given = os.environ.pop("LAMBDA_LOCAL_PROGRAM", None)
            try:
                os.environ["LAMBDA_LOCAL_PROGRAM"] = fake
                times = []
                for _ in range(5):
                    begun = time.monotonic()
                    with LambdaLocal(double=lambda event: event * 2) as service:
                        service.invoke("double", 1)
                    times.append(time.monotonic() - begun)
                with open(fake + ".started") as file:
                    self.check("the launcher is asked once", file.read().split(), ["path"])
                print(f"     a service, a call and a stop take {1000 * sorted(times)[2]:.0f} ms (median of five)")
            finally:
                program_module.LAUNCHER = before
                if given:
                    os.environ["LAMBDA_LOCAL_PROGRAM"] = given
                else:
                    del os.environ["LAMBDA_LOCAL_PROGRAM"]

    def test_under_pytest_a_failed_test_has_its_history(self):
        python = python_with_pytest()
        if python is None:
            self.skipTest("no Python here has pytest")
        with tempfile.TemporaryDirectory() as folder:
            status, output, counts = pytest_over(python, folder)
            has_boto3 = bool(folder_of("boto3", sys.executable) or folder_of("boto3", python))
            self.check("which tests pass and fail", (status, counts),
                       (1, {"failed": 5, "error": 1, "passed": 7} if has_boto3
                        else {"failed": 5, "error": 1, "passed": 6, "skipped": 1}), shown=output)
            parts = re.split(r"^_{3,} ((?:ERROR at teardown of )?test_\w+) _{3,}$", output, flags=re.M)
            reports = dict(zip(parts[1::2], parts[2::2]))
            first = reports.get("test_that_fails", "")
            found = re.search(r"-+ lambda_local history: (\S+) -+\nform 2\n.*?\n# \d+ \d+ deliver .*?\n-+ lambda_local "
                              r"timeline: (\S+) -+\n"
                              r"(?=.*caller 1: invoke double)(?=.*: output 4)", first, re.S)
            self.check("the report has the history and its timeline", bool(found), shown=first)
            if found:
                with open(found[1]) as history, open(found[2]) as page:
                    self.check("both stand whole in files",
                               (history.read().startswith("form 2\n"), page.read().startswith("<!DOCTYPE html>")),
                               (True, True))
            many = reports.get("test_that_fails_after_many", "")
            self.check("of a long history the end is shown",
                       bool(re.search(r"\.\. \d+ lines before these: \S+history.txt\n",
                    many)) and ".. " in many.split("timeline:")[-1], shown=many)
            handler = reports.get("test_whose_handler_fails", "")
            self.check("a handler's own exception is shown as the cause", all(text in handler for text in (
                'return event["missing"]', "KeyError: 'missing'", "The above exception was the direct cause",
                "FunctionError: KeyError: 'missing'")), shown=handler)
            self.check("and what it printed", "said by the handler" in handler and "Captured stderr call" in handler)
            self.check("pytest.fail in a handler", "not like this" in reports.get("test_that_fails_in_its_handler", ""))
            self.check("the session's service is in the report",
                       "lambda_local history" in reports.get("test_session_that_fails", ""))
            self.check("each report has its history once",
                       [name for name, text in reports.items() if text.count(" lambda_local history: ") > 1], [])
            self.check("a service that died fails its test",
                       "the service has ended" in reports.get("ERROR at teardown of test_whose_service_dies",
                         ""))
            self.check("a test that passes has no history in the output", "test_in_this_process" not in reports)
