"""Checks what lambda_local up says of functions that Lambda's limits would have ended, and that "enforceMemory" ends
one as Lambda does. The program is LAMBDA_LOCAL_PROGRAM, else ./lambda_local."""
import json
import os
import signal
import sys
import time
from typing import Any, Dict, List

from lambda_local.configuration import Members
from lambda_local.up.limits import Limits
from lambda_local.up.memory import is_above, peaks_of
from lambda_local.up.patience import of_service, times_of, with_patience
from lambda_local.up.processes import reason_of
from tests.library.cases import Case
from tests.library.threads import together
from tests.library.up_kit import Up, until

APP = """import os, sys, threading, time
if os.environ.get("INIT"): time.sleep(float(os.environ["INIT"]))
def run(event, context=None):
    do = event.get("do")
    if do == "memory": return len(b"x" * (200 << 20))
    if do == "slow": time.sleep(9.2)
    if do == "large": return "x" * 6_000_000
    if do == "left": return context.get_remaining_time_in_millis()
    if do == "past": time.sleep(1.6)
    if do == "behind": threading.Timer(1, print, ["background done"]).start()
    print("in it")
    return "ok"
"""
# A runtime that works after its response, and then asks for the next invocation.
LATE = """import json, os, sys, time, urllib.request
api = f"http://{os.environ['AWS_LAMBDA_RUNTIME_API']}/2018-06-01/runtime/invocation/"
while True:
    with urllib.request.urlopen(api + "next") as given:
        given.read()
        identifier = given.headers["Lambda-Runtime-Aws-Request-Id"]
    urllib.request.urlopen(api + identifier + "/response", b'"ok"').read()
    for number in range(8):
        print("after the response", number, flush=True)
        time.sleep(0.2)
"""
PYTHON = {"runtime": "python", "handler": "app.run", "python": sys.executable, "environments": 1, "timeout": 60}


def forked(count, size):
    """Processes that share what this one has: their numbers."""
    kept, found = b"x" * size, []
    for _ in range(count):
        reading, writing = os.pipe()
        pid = os.fork()
        if not pid:
            os.write(writing, kept[:1])
            time.sleep(600)
            os._exit(0)
        os.read(reading, 1)
        os.close(reading)
        os.close(writing)
        found.append(pid)
    return found


class OfLimits(Case):
    def test_what_is_near_a_limit_is_told_once_for_each_function(self):
        members: Dict[str, Members] = {
            "memory": {"memory": 128}, "enough": {"memory": 1024}, "killed": {"memory": 128, "enforceMemory": True},
            "slow": {"timeout": 10}, "large": {}, "behind": {}, "quiet": {},
            "init": {"init": 60, "variables": {"INIT": "10.5"}}}
        functions: List[Members] = [{"name": name, **PYTHON, **more} for name, more in members.items()]
        functions.append({"name": "late", "command": [sys.executable, "late.py"], "environments": 1, "timeout": 60})
        up = Up("--log", "json", functions=functions, app=APP, files={"late.py": LATE})
        self.check("all are ready", up.until('"text": "ready"', 90))

        def of(function, limit):
            """The lines of this limit of a function."""
            said = [json.loads(line) for line in list(up.lines) if line.startswith("{")]
            return [one for one in said if one["kind"] == "limit" and one["function"] == function
                    and one["limit"] == limit]

        def call(function, do=None):
            return lambda: up.invoke(function, do=do)[0]
        seen = together(call("memory", "memory"), call("enough", "memory"), call("killed", "memory"),
                        call("slow", "slow"), call("large", "large"), call("behind", "behind"), call("quiet"),
                        call("late"))
        self.check("each is answered", seen[:4] + [len(seen[4])] + seen[5:], [
            200 << 20, 200 << 20, "Runtime.ExitError", "ok", 6_000_000, "ok", "ok", "ok"])
        until(lambda: of("behind", "frozen") and of("memory", "memory"), 20)
        time.sleep(2)
        for name, limit, words in (
                ("memory", "memory", ('"memory" is 128', "signal: killed", '"enforceMemory": true')),
                ("killed", "memory", ("killed: it has used", "of 128 MB")),
                ("slow", "timeout", ("of its 10 s", "Lambda ends it")),
                ("large", "response", ("6000002 bytes", "6291456")),
                ("behind", "frozen", ('"background done" after its response', "freezes")),
                ("init", "init", ("its Init took 1", "Lambda ends one after 10 s"))):
            lines = of(name, limit)
            self.check(f"{limit} of {name}: one line", len(lines), 1)
            self.check(f"{limit} of {name}: its words", [word for word in words if word not in lines[0]["text"]], [])
        together(call("memory", "memory"), call("large", "large"), call("behind", "behind"))
        time.sleep(2)
        told = [json.loads(line) for line in list(up.lines) if '"limit"' in line]
        self.check("each is told once, and nothing of the others", sorted(
            (one["function"], one["limit"]) for one in told), sorted([
                ("memory", "memory"), ("killed", "memory"), ("slow", "timeout"), ("large", "response"),
                ("behind", "frozen"), ("init", "init")]))
        self.check("who is killed says so as on Lambda", up.has("Runtime exited with error: signal: killed"))
        self.check("and is there again", up.invoke("killed", patience=20)[0], "ok")
        self.check("its end", up.end(), (0, []))

    def test_memory_is_told_of_a_command_that_ends_at_once(self):
        """A command that ends at once."""
        code = ("import json, os, urllib.request; urllib.request.urlopen(os.environ['AWS_ENDPOINT_URL_LAMBDA'] + "
                "'/2015-03-31/functions/f/invocations', b'{\"do\": \"memory\"}').read()")
        up = Up(functions=[{"name": "f", **PYTHON}], app=APP, command=("--", sys.executable, "-c", code))
        self.check("its end", up.end(0), (0, []))
        self.check("is told", up.count('"memory" is 128'), 1)

    def test_with_patient_deadlines_are_longer_and_no_limit_is_near(self):
        up = Up("--patient", "3.5", functions=[
            {"name": "f", **PYTHON, "timeout": 1, "variables": {"INIT": "10.5"}},
            {"name": "g", **PYTHON, "timeout": 600}], app=APP)
        self.check("says so", up.until("patient: timeouts of 2 functions, Inits and the waits of up are 3.5 times as "
                                       "long, so no time here is Lambda's; but 900 s are the most, for g"))
        self.check("an Init may take longer", up.until("[up] ready", 90))
        self.check("an invocation too", up.invoke(do="past")[0], "ok")
        left = [up.invoke(name, do="left")[0] for name in "fg"]
        self.check("the deadline is the one in force", (2000 < left[0] <= 4000, 800_000 < left[1] <= 900_000),
                   (True, True))
        self.check("its end", up.end(), (0, []))
        self.check("no limit of Lambda's is near", up.count("Lambda ends"), 0)

    def test_patience_multiplies_the_limits_of_time(self):
        several: List[Members] = [{}, {"timeout": 700, "command": "x", "init": 5},
                                  {"timeout": 1000, "runtime": "python", "init": 900}]
        self.check("limits", [with_patience(member, 2.5) for member in several], [
            {"timeout": 8}, {"timeout": 900, "command": "x", "init": 13},
            {"timeout": 1000, "runtime": "python", "init": 900}])
        self.check("as it is", with_patience({"timeout": 3}, 1), {"timeout": 3})
        self.check("of the service", (of_service(1), of_service(3), of_service(30)), (
            {}, {"LAMBDA_LOCAL_PATIENCE_MS": "300"}, {"LAMBDA_LOCAL_PATIENCE_MS": "2000"}))
        for words in ("0.5", "101", "nan", "x", "-1"):
            try:
                times_of(words)
                self.check(f"--patient {words}", "is taken", "is refused")
            except ValueError:
                self.check(f"--patient {words} is refused", True)

    def test_what_several_processes_share_counts_once(self):
        pids = forked(3, 60 << 20)
        try:
            peaks = sum(sum(peaks_of(pid).values()) for pid in pids)
            self.check("what processes share counts once", (peaks > 150 << 20, is_above(pids, 150 << 20)),
                       (True, False))
            self.check("alone, each has it", is_above(pids[:1], 50 << 20))
            self.check("one that has gone has nothing", is_above([1 << 22], 0), False)
        finally:
            for pid in pids:
                os.kill(pid, signal.SIGKILL)
                os.waitpid(pid, 0)

    def test_ends_are_in_Lambdas_words(self):
        self.check("signals as Lambda names them", [reason_of(-number) for number in (9, 11, 6, 64)], [
            f"Runtime exited with error: {words}" for words in (
                "signal: killed", "signal: segmentation fault", "signal: aborted", "signal: real-time signal 30")])
        self.check("an exit", reason_of(3), "Runtime exited with error: exit status 3")

    def test_nine_tenths_of_an_answer_are_told(self):
        told: List[Any] = []
        nothing: Any = None

        def log(*given: Any, **members: Any) -> None:
            told.append(given)
        limits: Any = Limits([], {"streams"}, nothing, {}, log)  # type: ignore[arg-type]
        for function, length in (("f", 5_662_310), ("streams", 6_000_000)):
            limits._look_at_length(function, length)
        self.check("below nine tenths, or streamed", told, [])
        for length in (5_662_311, 6_000_000):
            limits._look_at_length("f", length)
        self.check("nine tenths, once", [given[:3:2] for given in told], [("f", "warning")])
