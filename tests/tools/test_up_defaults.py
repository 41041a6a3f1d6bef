"""Checks what lambda_local up does by default, as Lambda does: parallel callers get environments, events are taken; and
aliases, settings of a function's own events, further APIs, code in UP.json and in a .zip file, and the addresses that
the command and functions have. The program is LAMBDA_LOCAL_PROGRAM, else ./lambda_local."""
import json
import os
import sys
import tempfile
import urllib.request
import zipfile
from typing import Any

from lambda_local.configuration import Members
from lambda_local.front.aliases import Aliases
from lambda_local.service import Fault
from lambda_local.up.members import load
from lambda_local.up.room import with_environments
from tests.library.cases import Case
from tests.library.events_kit import Caller, invoke_path
from tests.library.threads import together
from tests.library.up_kit import RUNTIME, Up, until

APP = """import os, time
def run(event, context=None):
    time.sleep(event.get("sleep", 0))
    if event.get("fail"): raise KeyError("x")
    return {"pid": os.getpid(), "routes": os.environ.get("LAMBDA_LOCAL_ROUTES"), "arn": getattr(context,
            "invoked_function_arn", None), "url": os.environ.get("LAMBDA_LOCAL_URL_MY_F")}
"""
PYTHON = {"runtime": "python", "handler": "app.run", "python": sys.executable}


def counts(*members):
    """The most environments of each function, and what is said."""
    made, notes = with_environments([{"name": f"f{number}", **one} for number, one in enumerate(members)])
    return [(one.get("environments", {}).get("max") if isinstance(one.get("environments"), dict)
             else one.get("environments", len(one.get("ports", [])))) for one in made], notes


def status_of(up, path, kind=None, body=b"{}"):
    with Caller(up.endpoint) as caller:
        return caller.ask("POST", path, body, {"X-Amz-Invocation-Type": kind} if kind else {})[0]


def got(url):
    with urllib.request.urlopen(url, timeout=30) as answer:
        return json.load(answer)


class UpDefaults(Case):
    def test_ten_environments_by_default_and_256_in_all(self):
        run: Members = {"command": "x"}
        self.check("ten by default, as many as are reserved, or exactly what is written",
                   counts(run, {**run, "reserved": 3}, {**run, "environments": 2}, {**run, "ports": [1, 2, 3]},
                          {**run, "environments": {"min": 2, "max": 4}}, {}), ([10, 3, 2, 3, 4, 0], []))
        made, notes = counts(*64 * [run])
        self.check("256 in all", (made, notes), (64 * [4], [
            "each function has up to 4 environments, and not 10: 256 are the most in all"]))
        made, notes = counts({**run, "environments": 250}, run, {**run, "reserved": 40})
        self.check("what is reserved is no more than there is", (made, notes), ([250, 3, 3], [
            "each function has up to 3 environments, and not 10: 256 are the most in all",
            "f2 reserves 3, and not 40: 256 environments are the most in all"]))
        self.check("a reservation of none", counts({**run, "reserved": 0})[0], [10])

    def test_the_service_takes_what_is_reserved(self):
        with tempfile.TemporaryDirectory() as folder:
            path = os.path.join(folder, "up.json")
            with open(path, "w") as file:
                json.dump({"functions": [{"name": f"f{number}", "command": "sh", "reserved": 20}
                                         for number in range(20)]}, file)
            configuration, functions, _ = load(path)
            self.check("the service takes it", (sum(len(one["ports"]) for one in configuration["functions"]),
                                                {one["reserved"] for one in configuration["functions"]},
                                                {function.least for function in functions}), (240, {12}, {1}))

    def test_six_callers_at_once_are_answered_and_events_are_taken(self):
        """As on Lambda, six callers at once are answered, and events are taken."""
        functions = [{"name": "f", "environments": {"min": 1, "max": 10}, "timeout": 60, **PYTHON},
                     {"name": "once", "timeout": 60, "environments": 1, **PYTHON}]
        up = Up(functions=functions, app=APP)
        self.check("it is ready", up.until("[up] ready", 60))
        seen = together(*6 * [lambda: up.invoke(patience=0, sleep=2)[0]])
        self.check("six at once", len({one["pid"] for one in seen if isinstance(one, dict)}), 6, shown=seen)
        self.check("events are taken", [status_of(up, invoke_path("f"), kind) for kind in ("Event", "DryRun")],
                   [202, 204])
        together(*3 * [lambda: up.invoke("once", patience=0, sleep=2)])
        self.check("a throttle says what to write", up.until(
            'no environment is free ("environments": {"min": 1, "max": 10} allows 10)', 10))
        self.check("nothing is left", up.end(), (0, []))

    def test_events_are_refused_if_that_is_written(self):
        up = Up(whole={"asynchronous": False}, functions=[{"name": "f", **PYTHON}], app=APP)
        up.until("[up] ready", 60)
        self.check("events are refused if that is written", status_of(up, invoke_path("f"), "Event"), 400)
        up.end()

    def test_an_alias_is_invoked_and_has_the_functions_settings(self):
        arn = "arn:aws:lambda:us-east-1:123456789012:function:f"
        functions = [{"name": "f", "aliases": ["live"], "asynchronous": {"retries": 0}, "timeout": 9, **PYTHON},
                     {"name": "g", "command": RUNTIME, "timeout": 9}]
        up = Up(functions=functions, app=APP, whole={"asynchronous": {"delays": [0]}})
        up.until("[up] ready", 60)
        for name, wanted in (("f:live", 200), (f"{arn}:live", 200), ("f?Qualifier=live", 200), ("f", 200),
                             ("f:other", 404), ("g:live", 404), ("f?Qualifier=other", 404)):
            name, _, query = name.partition("?")
            path = invoke_path(name) + (f"?{query}" if query else "")
            self.check(f"an alias: {path}", status_of(up, path), wanted)
        self.check("an event of an alias", status_of(up, invoke_path("f:live"), "Event"), 202)
        self.check("the function's own settings", (
            status_of(up, invoke_path("f"), "Event", b'{"fail": true}'),
            until(lambda: up.count(r"\[f\] event \S+ failed, attempt 1 of 1: it is dropped"), 20)), (202, 1))
        self.check("and the others'", (status_of(up, invoke_path("g"), "Event", b'{"fail": true}'),
                                       until(lambda: up.count(r"\[g\] event \S+ failed, attempt 3 of 3"), 20)),
                   (202, 1))
        self.check("GetFunction of an alias", got(f"{up.endpoint}/2015-03-31/functions/f:live")[
            "Configuration"]["FunctionName"], "f")
        up.end()
        anything: Any = "anything"
        self.check("without aliases nothing is looked at", Aliases({}).without(anything), anything)

    def test_two_APIs_with_the_same_route_have_ports_of_their_own(self):
        """Two APIs with the same route, each at its own port, whose addresses the command and functions have."""
        functions = [{"name": "my-f", "url": True, "timeout": 9, **PYTHON}, {"name": "g", "timeout": 9, **PYTHON}]
        up = Up(functions=functions, app=APP.replace('return {"pid"', 'event.pop("sleep", 0); return {"pid"'), whole={
            "routes": {"GET /orders": "my-f"}, "apis": {"admin api": {"routes": {"GET /orders": "g"}}}})
        up.until("[up] ready", 60)
        first, second = up.told(r"routes: (\S+)"), up.told(r"routes of admin api: (\S+)")
        seen = got(f"{first}/orders")
        self.check("each answers", (seen["routes"], got(f"{second}/orders")["pid"] != seen["pid"], seen["url"]),
                   (first, True, up.told(r"my-f: its URL is (\S+)")))
        self.check("routes are printed as links", up.has(f"GET {first}/orders -> my-f"))
        up.end()

    def test_a_command_has_the_addresses_of_the_APIs(self):
        functions = [{"name": "my-f", "url": True, "timeout": 9, **PYTHON}, {"name": "g", "timeout": 9, **PYTHON}]
        up = Up(functions=functions, app=APP, whole={"routes": {"GET /": "g"}, "apis": {"x": {"routes": {
            "GET /": "g"}}}}, command=["--", "sh", "-c", "env | grep ^LAMBDA_LOCAL_[RU].*= | cut -d= -f1 | sort"])
        up.end(None)
        self.check("the command has the addresses", up.output.split(), [
            "LAMBDA_LOCAL_ROUTES", "LAMBDA_LOCAL_ROUTES_X", "LAMBDA_LOCAL_RUN", "LAMBDA_LOCAL_URL_MY_F"])

    def test_code_in_UP_json_and_in_a_zip_file_is_served(self):
        """Code in UP.json itself, and in a .zip file."""
        def packed(at):
            with zipfile.ZipFile(os.path.join(at, "code.zip"), "w") as archive:
                archive.writestr("zipped.py", "def run(event, context): return 'zipped'\n")
        up = Up(prepare=packed, functions=[
            {"name": "inline", "runtime": "python", "handler": "index.run",
             "inline": "def run(event, context): return 'inline'\n"},
            {"name": "zip", "runtime": "python", "handler": "zipped.run", "directory": "code.zip"}])
        self.check("it is ready", up.until("[up] ready", 60))
        self.check("they serve", (up.invoke("inline")[0], up.invoke("zip")[0]), ("inline", "zipped"))
        self.check("nothing is left", up.end(), (0, []))

    def test_mistakes_in_UP_json_are_told(self):
        base: Members = {"name": "f", "runtime": "python", "handler": "app.run"}
        for whole, wanted in (
                ({"functions": [{**base, "aliases": ["1"]}]}, "function f: aliases must be a list of names"),
                ({"functions": [{**base, "inline": "x", "directory": "."}]},
                 "function f: it has a directory and inline code: leave one of the two out"),
                ({"functions": [{"name": "f", "command": "sh", "inline": "x"}]},
                 "function f: inline: it needs a \"runtime\""),
                ({"functions": [{**base, "asynchronous": {"onFailure": "g"}}]},
                 'function f: asynchronous: onFailure: there is no function "g"'),
                ({"functions": [{**base, "asynchronous": {"retries": 3}}]},
                 "function f: asynchronous: retries must be a whole number from 0 to 2, not 3"),
                ({"functions": [{**base, "asynchronous": {}}], "asynchronous": False},
                 'function f: asynchronous: "asynchronous": false refuses all'),
                ({"functions": [base], "apis": {"a": {"port": 1}}}, 'apis: "a": routes must be an object'),
                ({"functions": [base], "apis": {"a": {"routes": {"GET /": "g"}}}},
                 'apis: "a": routes: "GET /": there is no function "g"'),
                ({"functions": [{**base, "schedule": {"expression": "rate(1 day)", "timezone": "Mars/Base"}}]},
                 "function f: schedule: \"rate(1 day)\": there is no time zone Mars/Base")):
            with tempfile.TemporaryDirectory() as folder:
                path = os.path.join(folder, "up.json")
                with open(path, "w") as file:
                    json.dump(whole, file)
                try:
                    load(path)
                    self.check(f"wrong: {wanted}", False)
                except Fault as fault:
                    self.check(f"wrong: {wanted}", (fault.status, wanted in str(fault)), (2, True), shown=str(fault))
