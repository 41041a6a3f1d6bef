"""Checks what lambda_local rerun makes of invocations that functions made themselves: they are known by their trace,
not sent, expected and compared. The program is LAMBDA_LOCAL_PROGRAM, else ./lambda_local."""
import json
import os
import re
import subprocess
import sys
import tempfile
from typing import Any, Dict

from lambda_local.rerun.again import matched
from lambda_local.rerun.inner import Made, Roots, own_root, root_of
from lambda_local.rerun.record import Invocation
from lambda_local.rerun.report import of_made, of_new
from tests import ROOT
from tests.library.cases import Case

LAUNCHER = os.path.join(ROOT, "lambda_local")
ENVIRON = {name: value for name, value in os.environ.items() if not name.startswith("AWS_ENDPOINT_URL")}
# A function that invokes another as the SDKs of AWS do: with the trace of the invocation that it handles.
APP = '''import json, os, urllib.request
COUNT = 0
def call(name, event, kind="RequestResponse"):
    url = f"{os.environ['AWS_ENDPOINT_URL_LAMBDA']}/2015-03-31/functions/{name}/invocations"
    headers = {"X-Amz-Invocation-Type": kind, "X-Amzn-Trace-Id": os.environ["_X_AMZN_TRACE_ID"]}
    with urllib.request.urlopen(urllib.request.Request(url, json.dumps(event).encode(), headers)) as answer:
        return json.loads(answer.read() or b"null")
def orders(event, context):
    paid = call("pay", {"of": event["n"], **json.loads(os.environ.get("MORE", "{}"))})
    call("mail", {"of": event["n"]}, "Event")
    return {"n": event["n"], "paid": paid}
def pay(event, context):
    global COUNT
    COUNT += 1
    with open("paid", "a") as file:
        file.write("x")
    if event["of"] == 2 and "TWICE" in os.environ:
        call("mail", {"more": 1})
    return COUNT
def mail(event, context):
    return "sent"
'''
# A runtime that makes no root.
PLAIN = '''import importlib.util, sys
path = sys.argv.pop(1)
spec = importlib.util.spec_from_file_location("runtime", path)
runtime = importlib.util.module_from_spec(spec)
sys.modules["runtime"] = runtime
spec.loader.exec_module(runtime)
runtime.trace_of = lambda request, headers: headers["Lambda-Runtime-Trace-Id"]
runtime.main()
'''
ZEROS = "Root=1-00000000-000000000000000000000000;Sampled=0"
REQUESTS = [f"01a227f0-4e4d-8000-8001-00000000000{number}" for number in range(1, 6)]


def write_up(folder, command=(), **variables):
    """Functions of the bundled runtime, or of these words and a handler."""
    def own(name: str) -> Dict[str, Any]:
        return {"command": [*command, f"app.{name}"]} if command else {"runtime": "python", "handler": f"app.{name}"}
    functions = [{"name": name, "timeout": 20, "variables": variables, **own(name)}
                 for name in ("orders", "pay", "mail")]
    with open(os.path.join(folder, "up.json"), "w") as file:
        json.dump({"asynchronous": True, "functions": functions}, file)


def run(folder, *words):
    done = subprocess.run([LAUNCHER, *words], cwd=folder, stdin=subprocess.DEVNULL, capture_output=True, text=True,
                          timeout=300, env=ENVIRON)
    return done.returncode, done.stdout.splitlines(), done.stderr


class RerunInner(Case):
    def test_roots_tell_which_invokes_are_a_functions_own(self):
        """Which Invokes are a function's own, by a history's course."""
        traces = (None, "", "Root=1-2-3", "Parent=1; Root=4;Sampled=0", "Roots=1", "XRoot=1;Root=")
        self.check("a root", [root_of(text) for text in traces], [None, None, "1-2-3", "4", None, ""])
        roots = Roots()
        own = [f"Root={own_root(request)};Sampled=0" for request in REQUESTS]
        course = (
            ("a caller's", (1, REQUESTS[0], None), None),
            ("one with the root of its identifier", (2, REQUESTS[1], own[0]), Made(1)),
            ("one that this has made with the same root", (3, REQUESTS[2], own[0]), Made(1)),
            ("a caller's with a trace", (4, REQUESTS[3], "Root=1-2-3;Sampled=1"), None),
            ("one with the same root, as long as that is in flight", (5, REQUESTS[4], "Root=1-2-3;Parent=7"), Made(4)),
            ("one with the root of zeros that a service gives", (6, None, ZEROS), Made(None)),
        )
        for name, given, wanted in course:
            self.check(name, roots.begin(*given), wanted)
        for ticket in (1, 2, 3, 4, 5, 6):
            roots.end(ticket)
        self.check("an event that comes when its maker has ended", roots.begin(7, None, own[0]), Made(1))
        roots.end(7)
        self.check("a caller that sends the same trace again", roots.begin(8, None, "Root=1-2-3;Sampled=1"), None)
        roots.end(8)
        once = "Root=1-6a0b-77;Sampled=0;From=lambda_local"
        self.check("a caller's whose root lambda_local up has made", roots.begin(10, REQUESTS[0], once), None)
        roots.end(10)
        self.check("one of that, also later", roots.begin(11, None, "Root=1-6a0b-77;Parent=9"), Made(10))
        roots.end(11)
        self.check("zeros when nothing is in flight, as of an event", roots.begin(9, None, ZEROS), Made(None))

    def test_invokes_are_matched_by_their_makers(self):
        """Those of the same maker first, in their order; then those of which no maker is known; none of another's."""
        def made(ticket, function, by, payload=b"1"):
            return Invocation(ticket, function, ticket, False, None, payload, "output", b"1", ticket + 1, by)
        then = [made(2, "pay", Made(1)), made(4, "pay", Made(3)), made(5, "pay", Made(3)), made(6, "mail", Made(None)),
                made(8, "pay", Made(7))]
        now = [made(12, "pay", Made(13)), made(14, "pay", Made(11)), made(15, "pay", Made(13)),
               made(16, "mail", Made(13)), made(18, "pay", None), made(19, "other", Made(11))]
        seen = {each.ticket: found and found.ticket for each, found in matched(then, now, {1: 11, 3: 13, 7: 17})}
        self.check("what is matched", seen, {2: 14, 4: 12, 5: 15, 6: 16, 8: 18})
        self.check("what is left", [each.ticket for each in now], [19])
        same, other = made(2, "pay", Made(1)), made(3, "pay", Made(1), b"2")
        self.check("verdicts", [of_made(same, one, [])[1:3] for one in (same, other, None)], [
            ("equal", []), ("changed", ["its event: the whole: 1 -> 2"]),
            ("changed", ["recorded, but no function makes it now"])])
        self.check("a failure now", of_made(same, other._replace(kind="timeout", body=None), [])[1:3],
                   ("failed now", ["its event: the whole: 1 -> 2", "timeout"]))
        self.check("a new one", of_new(other)[1:3], ("changed", ["new, a function makes it now: output 1"]))

    def test_what_other_runtimes_invoke_is_known_by_the_services_zeros(self):
        """Those that make no root pass on what the service gives them."""
        with tempfile.TemporaryDirectory() as folder:
            for name, text in (("app.py", APP), ("plain.py", PLAIN)):
                with open(os.path.join(folder, name), "w") as file:
                    file.write(text)
            write_up(folder, [sys.executable, "plain.py", os.path.join(ROOT, "examples", "runtime.py")])
            status, _, said = run(folder, "up", "--history", "h", "up.json", "--", LAUNCHER, "invoke", "orders",
                                  '{"n": 1}')
            with open(os.path.join(folder, "h")) as file:
                traces = re.findall(r"^\d+ invoke \w+ - (\S+) ", file.read(), re.M)
            self.check("two of its invocations have them", (status, sorted(traces)), (0, ["-", *[f"={ZEROS}"] * 2]),
                       shown=said)
            status, output, said = run(folder, "rerun", "h", "up.json")
            self.check("unchanged functions are equal", (status, output, said), (0, ["3 invocations: 3 equal"], ""))

    def test_each_order_is_paid_once_by_each_rerun(self):
        """Three orders that are paid for: once when recorded, once by each rerun, and once in each updated history."""
        with tempfile.TemporaryDirectory() as folder:
            with open(os.path.join(folder, "app.py"), "w") as file:
                file.write(APP)
            write_up(folder)
            paid = lambda: os.path.getsize(os.path.join(folder, "paid"))
            calls = "; ".join(f"{LAUNCHER} invoke orders '{{\"n\":{number}}}'" for number in (1, 2, 3))
            status, _, said = run(folder, "up", "--history", "h", "up.json", "--", "sh", "-c", calls)
            self.check("it is recorded", (status, paid()), (0, 3), shown=said)
            status, output, said = run(folder, "rerun", "--update", "h", "up.json")
            self.check("unchanged functions are equal", (status, output, said), (0, ["9 invocations: 9 equal"], ""))
            self.check("each order is paid once more", paid(), 6)
            write_up(folder, MORE='{"by": "card"}', TWICE="1")
            status, output, _ = run(folder, "rerun", "h", "up.json")
            lines = [re.sub(r"call \d+", "call N", line) for line in output]
            self.check("an inner one with another event, and one more: all others as they were", (status, lines), (1, [
                *[line for number in (1, 2, 3) for line in (
                    'changed: call N, pay: its event: /by: only now: "card"', f'  its event: {{"of": {number}}}')],
                'changed: a new call, mail: new, a function makes it now: output "sent"', '  its event: {"more": 1}',
                "10 invocations: 6 equal, 4 changed"]), shown=output)
            self.check("and paid once more", paid(), 9)
