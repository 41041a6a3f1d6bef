"""Checks environments beyond a function's least number: parallel callers, fan-out, a function that calls itself, an
Init that fails, reserved concurrency, and that idle ones end. The program is LAMBDA_LOCAL_PROGRAM, else
./lambda_local."""
import json
import os

from lambda_local.life import Life
from tests import ROOT
from tests.library.cases import Case
from tests.library.threads import together
from tests.library.up_kit import Up, lives, until
from tests.library.traces import entries_in

RUNTIME = os.path.join(ROOT, "examples", "runtime.sh")  # (which starts soon, also on a busy machine)
# The event is how long it takes, and how often it calls itself; the output names the processes.
APP = r'''test ! -e broken || exit 3
handler() {
  sleep "$(printf %s "$1" | sed 's/.*"sleep": *\([0-9]*\).*/\1/;t;s/.*/0/')"
  depth=$(printf %s "$1" | sed 's/.*"depth": *\([0-9]*\).*/\1/;t;s/.*/0/')
  test "$depth" -gt 0 || { printf '[%s]' $$; return; }
  url=$AWS_ENDPOINT_URL_LAMBDA/2015-03-31/functions/f/invocations
  printf '[%s,%s]' $$ "$(curl -sS -d "{\"depth\": $((depth - 1))}" "$url" | tr -d '[]')"
}
'''


def scaled(environments, timeout=60, environ=None, **members):
    function = {"name": "f", "command": [RUNTIME], "handler": "app.handler", "timeout": timeout,
                "environments": environments, **members}
    return Up(functions=[function], files={"app.sh": APP}, environ=environ)


def settle(up):
    """Waits until each environment that has answered has asked again."""
    until(lambda: json.loads(up.get("/_local/stats"))["inFlight"] == 0, 20)


def at_once(up, count, **event):
    """What this many callers get who come at once."""
    settle(up)
    return together(*count * [lambda: up.invoke(patience=0, **event)[0]])


def processes(answers):
    return {pid for answer in answers if isinstance(answer, list) for pid in answer}


CONFIGURATION = {"account": "123456789012", "region": "us-east-1", "functions": [
    {"name": "f", "ports": [9001, 9002, 9003], "extensions": ["x"]}, {"name": "g", "ports": [9004]}]}
# By the rules of docs/semantics.md: on the lowest-numbered Starting environment without an invocation.
HISTORY = """0 invoke f - - =1
0 invoke g - - =1
0 invoke f - - =2
0 invoke f - - =3
0 invoke f - - =4
# 4 4 throttled LocalEnvironmentLimitExceeded
5 init-failure 2 =no
# 5 2 error =no
# 5 5 accepted
6 invoke f - - =5
"""


class UpScaling(Case):
    def test_callers_at_once_get_processes_of_their_own_that_end_when_idle(self):
        up = scaled({"min": 1, "max": 4, "idle": 4})
        self.check("the least number is ready", up.until("[up] ready", 60))
        self.check("no other is started", (up.has("starting: all other"), up.invoke()[1] < 20), (False, True))
        seen = at_once(up, 4, sleep=3)
        self.check("four callers at once get four processes", len(processes(seen)), 4)
        seen = up.invoke(depth=3)[0]
        self.check("a function that calls itself three times", len(processes([seen])), 4)
        seen = at_once(up, 6, sleep=8)
        self.check("more than there can be are throttled", sorted(answer for answer in seen if isinstance(answer, str)),
                   ["status 429", "status 429"])
        entries = entries_in(up.history())
        self.check("no Init has expired", [entry.call.kind for entry in entries if entry.call.kind == "expire"], [])
        self.check("idle ones end",
                   until(lambda: up.count(r"\[f/[234]\] -- stopping: idle for 4 s") >= 3, 40))
        self.check("but for the least number", up.count(r"\[f/1\] -- stopping"), 0)
        settle(up)
        first = up.invoke()[0][0]
        self.check("their processes go", until(lambda: not [pid for pid in processes(seen) if lives(pid)
                                                            and pid != first], 20))
        self.check("and come again when they are needed", len(processes(at_once(up, 2, sleep=3))), 2)
        self.check("nothing is left of them", up.end(), (0, []))

    def test_one_caller_after_the_other_has_one_process_and_six_at_once_have_six(self):
        # (a shell starts a process to ask again, which on a busy machine takes more than the usual patience)
        up = scaled({"min": 1, "max": 6}, environ={**os.environ, "LAMBDA_LOCAL_PATIENCE_MS": "2000"})
        up.until("[up] ready", 60)
        seen = [up.invoke(patience=0)[0] for _ in range(100)]
        self.check("a caller that invokes again and again stays with one process", len(processes(seen)), 1)
        seen = at_once(up, 6, sleep=3)
        self.check("six callers at once get six processes", len(processes(seen)), 6)
        self.check("nothing is left of the six", up.end(), (0, []))

    def test_with_none_at_the_start_the_first_caller_starts_one(self):
        up = scaled({"min": 0, "max": 2})
        self.check("with none at the start it is ready at once", up.until("[up] ready", 60))
        self.check("the first caller waits for a process, and no longer", isinstance(up.invoke()[0], list))
        settle(up)
        first = up.invoke()[0][0]
        settle(up)
        up.write("broken", "")
        os.kill(first, 9)
        self.check("one whose Init fails", (until(lambda: up.has("Runtime exited with error: signal: killed"), 10),
                                            up.invoke()[0]),
                   (True, "Runtime.ExitError"))
        os.remove(os.path.join(up.at, "broken"))
        self.check("and is mended", until(lambda: isinstance(up.invoke()[0], list), 20))
        self.check("nothing is left of it", up.end(), (0, []))

    def test_reserved_concurrency_is_exact(self):
        up = scaled({"min": 1, "max": 4}, reserved=2)
        up.until("[up] ready", 60)
        seen = at_once(up, 4, sleep=4)
        self.check("reserved concurrency is exact", (len(processes(seen)), seen.count("status 429")), (2, 2))
        self.check("nothing is left of reserved ones", up.end(), (0, []))

    def test_invocations_are_bound_where_the_history_says(self):
        life = Life(CONFIGURATION)
        seen = []
        for entry in entries_in(f"form 2\n{json.dumps(CONFIGURATION)}\n{HISTORY}"):
            list(life.take(entry))
            seen.append([number for number, environment in life.environments.items() if environment.is_bound])
        self.check("where invocations are bound", seen, [[1], [1, 4], [1, 2, 4], [1, 2, 3, 4], [1, 2, 3, 4], [1, 3, 4],
                                                         [1, 2, 3, 4]])
