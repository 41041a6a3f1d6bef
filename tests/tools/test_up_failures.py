"""Checks what lambda_local up says and does when functions fail: a line for each invocation, Inits that fail,
extensions that exit. The program is LAMBDA_LOCAL_PROGRAM, else ./lambda_local."""
import json
import os
import pty
import re
import subprocess
import sys
import threading
import time

from lambda_local.reports import Report
from lambda_local.up.restarts import Restarts
from tests.library.cases import Case
from tests.library.up_kit import LAUNCHER, RUNTIME, Up, until
from tests.library.traces import entries_in

REQUEST = "[0-9a-f]{8}-[0-9a-f]{4}-8[0-9a-f]{3}-8[0-9a-f]{3}-[0-9a-f]{12}"
# Reports a failed Init as Lambda's runtime clients do, and exits.
FAILING = '''#!/bin/sh
test ! -e mended || exec ./failing.mended
date +%s.%N >> starts
curl -s -o answer.$$ -H "Lambda-Runtime-Function-Error-Type: Runtime.ImportModuleError" -d @report.json \\
  http://$AWS_LAMBDA_RUNTIME_API/2018-06-01/runtime/init/error
exit 1
'''
REPORT = {"errorType": "Runtime.ImportModuleError", "errorMessage": "Unable to import module x",
          "stackTrace": ['  File "app.py", line 3, in <module>\n    import x\n']}
# An extension as in Lambda's documents: it registers, waits, and exits once it is notified of the end.
EXITING = '''#!/bin/sh
api=http://$AWS_LAMBDA_RUNTIME_API/2020-01-01/extension
id=$(curl -s -o /dev/null -D - -H "Lambda-Extension-Name: exiting" -d '{"events":["SHUTDOWN"]}' $api/register |
  tr -d '\\r' | sed -n 's/^[Ll]ambda-[Ee]xtension-[Ii]dentifier: //p')
curl -s -H "Lambda-Extension-Identifier: $id" $api/event/next >> told
'''


def mended(up):
    """The runtime that FAILING becomes once its file is mended."""
    up.write("failing.mended", "#!/bin/sh\nexec " + " ".join(f"'{word}'" for word in RUNTIME) + "\n")
    up.write("mended", "")


def starts(up):
    """The moments at which it was started, in seconds."""
    with open(os.path.join(up.at, "starts")) as file:
        return [float(line) for line in file]


def failing(*options, **members):
    function = {"name": "f", "command": ["./failing"], "timeout": 1, **members}
    return Up(*options, functions=[function], files={"failing": FAILING, "report.json": json.dumps(REPORT)})


def on_a_terminal(**variables):
    """What lambda_local up writes to a terminal."""
    master, slave = pty.openpty()
    up = Up(functions=[{"name": "f", "command": RUNTIME}])  # (for its folder)
    up.until("[up] ready")
    invoke = 'curl -s -d "{}" $AWS_ENDPOINT_URL_LAMBDA/2015-03-31/functions/f/invocations >/dev/null'
    environ = {**{name: value for name, value in os.environ.items() if name != "NO_COLOR"}, "TERM": "xterm",
               **variables}
    process = subprocess.Popen([LAUNCHER, "up", "up.json", "--", "sh", "-c", invoke], cwd=up.at,
                               stderr=slave, stdin=subprocess.DEVNULL, env=environ)
    os.close(slave)
    written = []

    def read():
        try:
            while data := os.read(master, 4096):
                written.append(data)
        except OSError:
            pass  # (the end of a terminal)

    reader = threading.Thread(target=read)
    reader.start()
    process.wait(60)
    reader.join(10)
    os.close(master)
    up.end()
    return b"".join(written).decode()


def trace(*frames):
    return {"errorType": "E", "errorMessage": "m", "stackTrace": list(frames)}


# Reports as the runtime clients of these languages make them, of functions in the folder /at, and what a line says of
# them.
REPORTS = {
    "of Python": (trace('  File "/at/app.py", line 2, in run\n    f()\n', '  File "/at/b/c.py", line 9, in f\n'),
                  "E: m (b/c.py:9)"),
    "of a library": (trace('  File "/at/app.py", line 2, in run\n', '  File "/usr/lib/x.py", line 9, in f\n'),
                     "E: m (app.py:2)"),
    "of Node": ({"errorType": "TypeError", "errorMessage": "no",
                 "trace": ["TypeError: no", "    at g (node:fs:1:2)", "    at run (file:///at/app.mjs:3:9)",
                           "    at h (/at/i.js:1:1)"]},
                "TypeError: no (app.mjs:3)"),
    "of Node's modules": (trace("    at f (/at/node_modules/x/i.js:1:1)", "    at run (/at/app.js:3:9)"),
                          "E: m (app.js:3)"),
    "of Go": (trace({"path": "/at/main.go", "line": 12, "label": "main"}), "E: m (main.go:12)"),
    "of Java": (trace("example.Handler.run(Handler.java:7)"), "E: m (Handler.java:7)"),
    "of two lines": ({"errorType": "E", "errorMessage": "a\n  b"}, "E: a b"),
    "of nothing": ({}, "no reason was reported"),
}


# An extension that registers under the name that its first word is.
NAMED = """import os, sys, urllib.request
base = f"http://{os.environ['AWS_LAMBDA_RUNTIME_API']}/2020-01-01/extension/"
def ask(path, body, headers):
    return urllib.request.urlopen(urllib.request.Request(base + path, body, headers))
registered = ask("register", b'{"events":["SHUTDOWN"]}', {"Lambda-Extension-Name": sys.argv[1]})
ask("event/next", None, {"Lambda-Extension-Identifier": registered.headers["Lambda-Extension-Identifier"]}).read()
"""


class UpFailures(Case):
    def test_an_extension_of_another_name_and_a_handler_that_is_not_there_are_told_before_the_init_is_over(self):
        """An extension under another name than UP.json has is told before its Init is over, one that has its own name
        is not; a handler that is not named is told if there is no module for the default."""
        function = {"runtime": "python", "handler": "app.run"}
        up = Up(files={"x.py": NAMED}, functions=[
            {"name": "f", **function, "extensions": {"flush": [sys.executable, "x.py", "flush.sh"]}},
            {"name": "g", **function, "extensions": {"flush": [sys.executable, "x.py", "flush"]}},
            {"name": "h", "runtime": "python"}])
        self.check("it is told", up.until("f/1] -- flush.sh has registered, and flush has not", 30))
        self.check("the Init has not failed yet", up.has("Init failed: timed out"), False)
        self.check("nor is the other one told", up.has("g/1] -- flush"), False)
        self.check("no handler", up.has('h: there is no "handler", and no module index for index.handler'))
        self.check("the end of the Init says it too", up.until("(flush.sh has registered)", 30))
        self.check("nothing is left", up.end(), (0, []))

    def test_a_handler_that_is_not_named_is_told_unless_its_default_is_there(self):
        up = Up(files={"index.py": "handler = lambda event, context: 1\n"},
                functions=[{"name": "h", "runtime": "python"}])
        self.check("one whose default is there", (up.until("[up] ready"), up.has('no "handler"')), (True, False))
        self.check("it serves", up.invoke("h")[0], 1)
        up.end()

    def test_failed_inits_are_told_and_started_again_after_pauses(self):
        late = Up(extensions={"late": ["sleep", "100"]})  # (its Init takes 10 s to fail)
        four, two = failing(environments=4), failing("--reload", environments=2, watch=["mended"])
        self.check("a failed Init is told with type, message and place",
                   until(lambda: four.count(r"\[f/[1-4]\] Init failed Runtime\.ImportModuleError: Unable to import "
                                            r"module x \(app\.py:3\)$"), 40))
        self.check("and with its trace", four.until("import x", 5))
        self.check("it is started again after a pause", four.until("restarting in 1 s", 10))
        answer, took = four.invoke()
        # (Without it, after the Init's 10 s.)
        self.check("a caller in a pause hears the report at once", (answer, took < 5),
                   ("Runtime.ImportModuleError", True))
        self.reload_until_mended(two)
        time.sleep(max(0, starts(four)[0] + 10 - time.time()))
        seen = sum(1 for moment in starts(four) if moment < starts(four)[0] + 10)
        self.check("four environments start at most 20 times in 10 s", 8 <= seen <= 20, shown=seen)
        self.check("nothing is left of failing Inits", four.end(), (0, []))
        self.check("an Init that takes too long names who was waited for",
                   late.until("Init failed: timed out after 10 s, which waited for its extension late, which must "
                              "register by this name", 20))
        self.check("nothing is left of late ones", late.end(), (0, []))

    def reload_until_mended(self, up):
        self.check("with --reload the third failed Init waits for a file",
                   until(lambda: up.count("restarting when a file changes") == 2, 20))
        seen = len(starts(up))
        answer, took = up.invoke()
        self.check("its callers hear the report at once", (answer, took < 5), ("Runtime.ImportModuleError", True))
        time.sleep(1.5)
        self.check("nothing starts until then", (seen, len(starts(up))), (6, 6))
        mended(up)
        self.check("a change starts it again", until(lambda: isinstance(up.invoke()[0], int), 10))
        self.check("nothing is left of mended ones", up.end(), (0, []))

    def test_an_invocation_that_a_stop_ends_is_told_before_the_end(self):
        """What a stop ends is told before the end."""
        up = Up(timeout=60)
        up.until("[up] ready")
        caller = threading.Thread(target=up.invoke, kwargs={"do": "hang"})
        caller.start()
        until(lambda: '"inFlight":1' in up.get("/_local/stats"), 60)
        self.check("a stop ends an invocation", up.end(), (0, []))
        caller.join(60)
        self.check("and that is told", [" ended by the stop" in line for line in up.lines[-2:]], [True, False])

    def test_pauses_grow_behind_early_ends_in_a_row(self):
        restarts, seen = Restarts(False), []
        for _ in range(6):
            restarts.note(True)
            seen.append(restarts.pause)
        self.check("pauses behind early ends in a row", seen, [0, 1, 2, 4, 5, 5])
        restarts.note(False)
        self.check("one that ends well makes no pause", restarts.pause, 0)
        self.check("without --reload no change is waited for", restarts.needs_a_change, False)

    def test_an_extension_that_exits_in_init_is_told_in_one_line_each_time(self):
        up = Up("--ready", "5", command=["--", "true"], extensions={"bad": ["sh", "-c", "exit 4"]})
        self.check("an extension that exits in Init", up.end(None)[0], 5)
        self.check("is told in one line each time",
                   up.count(r"\[f/1\].* bad: Extension exited") == up.count(r"\[f/1\].*Extension exited") > 1)
        self.check("as a failed Init",
                   up.count(r"-- Init failed: f/1 bad: Extension exited with error: exit status 4$") > 1)

    def reset_and_stop(self, **members):
        """The entries of two timeouts of a function with these members, how many milliseconds each reset takes, and how
        many seconds the stop."""
        up = Up(functions=[{"name": "f", "command": RUNTIME, "timeout": 1, **members}], files={"exiting": EXITING})
        up.until("[up] ready")
        seen = [up.invoke(do=do)[0] for do in ("hang", "", "hang", "")]
        self.check("two timeouts are each followed by a new process",
                   (seen[::2], [type(answer) for answer in seen[1::2]]),
                   (2 * ["Function.Timeout"], 2 * [int]))
        entries = entries_in(up.history())
        ends = [number for number, entry in enumerate(entries) if any(answer.word == "timeout"
                                                                      for answer in entry.answers)]
        resets = [entries[end:next(entry.ticket for entry in entries[end:] if entry.call.kind == "register") + 1]
                  for end in ends]
        begun = time.monotonic()
        up.process.terminate()
        up.process.wait(40)
        stop = time.monotonic() - begun
        self.check("nothing is left of them", up.end(None), (0, []))
        return entries, resets, [reset[-1].moment - reset[0].moment for reset in resets], stop

    def test_an_extension_that_exits_at_shutdown_delays_no_reset_and_no_stop(self):
        _, _, plain, plain_stop = self.reset_and_stop()
        entries, resets, took, stop = self.reset_and_stop(extensions={"exiting": ["./exiting"]})
        self.check("the extension is told each end",
                   [answer.word for reset in resets for answer in reset[0].answers].count("shutdown"), 2 * 2)
        self.check("no registration is refused",
                   [entry.own.word for entry in entries if entry.call.kind == "register"].count("refused"), 0)
        self.check("no reset lasts until its deadline",
                   [entry.call.kind for reset in resets for entry in reset[1:]].count("expire"),
                   0)
        # (A machine that does much else is slow without an extension as well.)
        self.check("resets with an extension that exits take under 0.4 s", max(took) < max(400, 8 * max(plain)),
                   shown=(took, plain))
        stops = [(stop, plain_stop)]
        while stops[-1][0] >= max(0.4, 2.5 * stops[-1][1]) and len(stops) < 3:
            stops.append((self.reset_and_stop(extensions={"exiting": ["./exiting"]})[3], self.reset_and_stop()[3]))
        self.check("and so does a stop", stops[-1][0] < max(0.4, 2.5 * stops[-1][1]), shown=stops)

    def test_each_invocation_has_a_line_and_a_burst_of_throttles_has_one(self):
        up = Up(functions=[{"name": "f", "command": RUNTIME, "timeout": 1}, {"name": "none", "ports": [0],
                                                                             "reserved": 0}])
        up.until("[up] ready")
        up.invoke()
        for do in ("fail", "hang", "crash"):
            up.invoke(do=do)
        for _ in range(5):
            up.invoke("none", patience=0)
        wanted = {"an invocation": r"ok \d+ ms", "an error": r"error KeyError: 'missing' \(app\.py:7\)",
                  "a timeout": "timeout after 1 s",
                  "a crash": "error Runtime.ExitError: Runtime exited with error: exit status 7"}
        for name, pattern in wanted.items():
            self.check(f"a line for {name}",
                       until(lambda: up.count(rf"^\d\d:\d\d:\d\d\.\d{{3}} \[f/1\] {REQUEST} {pattern}$"), 5)
                       and up.count(f"{REQUEST} {pattern}"), 1)
        self.check("one line for a burst of throttles", up.until("[none] throttled 5 times: reserved concurrency", 5))
        # (f may be throttled too, on a busy machine: its runtime is started again)
        self.check("and no other", up.count(r"\[none\] throttled"), 1)
        self.check("a line names the request as the history does",
                   re.findall(f"({REQUEST}) ok", "\n".join(up.lines))[0] in up.history())
        self.check("nothing is left of lines", up.end(), (0, []))

    def test_with_log_json_each_line_is_an_object(self):
        up = Up("--log",
                "json",
                functions=[{"name": "f", "command": RUNTIME, "timeout": 1}],
                app="import sys\ndef run(event):\n    print('from here')\n    return {}['x']\n")
        up.until('"ready"')
        up.invoke()
        up.until("from here")
        up.until('"invocation"')
        self.check("nothing is left of JSON", up.end(), (0, []))
        seen = [json.loads(line) for line in up.lines]
        self.check("each line is an object with its time, level, kind, source and text",
                   all({"time", "level", "kind", "source", "text"} <= set(line) for line in seen))
        invocation = next(line for line in seen if line["kind"] == "invocation")
        wanted = {
            "source": "f/1", "level": "error", "function": "f", "environment": 1, "status": "error",
            "errorType": "KeyError", "errorMessage": "'x'", "place": "app.py:4"
        }
        self.check("an invocation has members of its own", {name: invocation.get(name) for name in wanted}, wanted)
        self.check("a time is in UTC", bool(re.fullmatch(r"\d{4}-\d\d-\d\dT\d\d:\d\d:\d\d\.\d{3}Z",
                                                         invocation["time"])))
        self.check("what the function prints",
                   [line["source"] for line in seen if line["kind"] == "output" and line["text"] == "from here"],
                   ["f/1"])

    def test_quietly_only_what_is_printed_and_what_fails_is_told(self):
        up = Up("--quiet",
                functions=[{"name": "f", "command": RUNTIME, "timeout": 1}],
                app="def run(event):\n    print('from here')\n    return event['x']\n")
        up.until("AWS_ENDPOINT_URL_LAMBDA")
        self.check("quietly it serves", up.invoke(x=1)[0], 1)
        up.invoke()
        up.until("error KeyError")
        self.check("nothing is left of the quiet one", up.end(), (0, []))
        self.check("what is printed and what fails is told",
                   (up.has("from here"), up.has("error KeyError: 'x' (app.py:3)")),
                   (True, True))
        self.check("all else is not", [line for line in up.lines if " ok " in line or "ready" in line
                                       or "admitted" in line], [])

    def test_an_ok_is_green_on_a_terminal_unless_NO_COLOR_is_set(self):
        self.check("on a terminal an ok is green", bool(re.search(rf"\x1b\[32m{REQUEST} ok \d+ ms\x1b\[0m",
                                                                  on_a_terminal())))
        self.check("not if NO_COLOR is set", "\x1b" in on_a_terminal(NO_COLOR="1"), False)

    def test_a_report_is_told_by_type_message_and_place(self):
        for name, (body, wanted) in REPORTS.items():
            self.check(f"a report {name}", str(Report(json.dumps(body).encode(), "/at")), wanted)
        self.check("a report that is no JSON", str(Report(b"it broke", "/at")), "it broke")

    def test_the_trace_of_a_failed_init_is_told_once(self):
        """The trace that the bundled runtime has printed of a failed Init is not told again."""
        up = Up("--ready", "60", command=("--", "true"), app='def helper():\n    return {}["missing"]\nhelper()\n',
                functions=[{"name": "f", "runtime": "python", "handler": "app.run"}])
        self.check("three early ends in a row are the end",
                   up.until("not ready: f/1, whose Init fails: KeyError: 'missing'", 120))
        self.check("with the status of what is not ready", up.end(None)[0], 5)
        self.check("a failed Init is told in a line", up.count(r"Init failed KeyError: 'missing' \(app\.py:2\)$") > 0)
        # (a trace that tools/up tells is indented by two more)
        self.check("its trace is the runtime's", (up.count(r"\]     helper\(\)$") > 0,
                                                  up.count(r"\]       helper\(\)$")),
                   (True, 0))
