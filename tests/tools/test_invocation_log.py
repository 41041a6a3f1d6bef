"""Checks the log of an invocation: what Invoke answers with the log type Tail, and the lines of `lambda_local up
--report`, by the forms that AWS's public pages show (Developer Guide, "Viewing CloudWatch logs for Lambda functions";
API reference, "Invoke")."""
import asyncio
import base64
import concurrent.futures
import json
import os
import re
import subprocess
import sys
import time
import urllib.error
import urllib.request
from typing import List

from lambda_local.history.words import Word
from lambda_local.life import Ended, Invocation
from lambda_local.up import processes
from lambda_local.up.guarded import Guarded
from lambda_local.up.invocation_lines import MOST_KEPT, Line, Printed
from lambda_local.up.invocation_log import Figures, Invocations, encoded, report_line
from lambda_local.up.output import MarkedSplitter
from lambda_local.up.tasks import Tasks
from tests import ROOT
from tests.library.cases import Case
from tests.library.speaking import AT_ONCE, OF_NODE, SPEAKING_EXTENSION, SPEAKS
from tests.library.up_kit import Up, until

APP = r'''import os, sys, time
print("imported")
def run(event, context):
    do = event.get("do")
    if do == "nothing": return None
    if do == "many":
        for number in range(event["count"]): print(f"{event['name']} line {number}")
        time.sleep(event.get("seconds", 0))
        return context.aws_request_id
    if do == "part": sys.stdout.write("begun"); sys.stdout.flush(); return 1
    if do == "memory": return len(bytearray(80 << 20))
    if do == "fail": print("before"); return event["missing"]
    if do == "crash": print("before"); os._exit(7)
    if do == "hang": print("before"); time.sleep(60)
    print("to standard output"); print("to standard error", file=sys.stderr)
'''
ID = "[0-9a-f]{8}-[0-9a-f]{4}-[0-9a-f]{4}-[0-9a-f]{4}-[0-9a-f]{12}"
START = f"START RequestId: ({ID}) Version: \\$LATEST"
END = f"END RequestId: ({ID})"
REPORT = (f"REPORT RequestId: ({ID})\tDuration: (\\d+\\.\\d\\d) ms\tBilled Duration: (\\d+) ms\t"
          "Memory Size: (\\d+) MB\tMax Memory Used: (\\d+) MB\t(?:Init Duration: (\\d+\\.\\d\\d) ms\t)?"
          "(?:Status: (\\w+)\t)?(?:Error Type: (\\S+)\t)?")


def up_of(*options, **members):
    function = {"name": "f", "runtime": "python", "handler": "app.run", **members}
    return Up(*options, app=APP, functions=[function])


def tail_of(up, function="f", kind="Tail", **event):
    """The log that an answer has, in lines; none if it has none."""
    request = urllib.request.Request(f"{up.endpoint}/2015-03-31/functions/{function}/invocations",
                                     json.dumps(event).encode(), {"X-Amz-Log-Type": kind} if kind else {})
    with urllib.request.urlopen(request, timeout=30) as answer:
        answer.read()
        result = answer.headers["X-Amz-Log-Result"]
    return None if result is None else base64.b64decode(result, validate=True).decode()


def parts(log):
    """What is between START and END, and the fields of REPORT; nothing if the log has another form, or another
    invocation's line."""
    lines = (log or "").split("\n")
    start, end = re.fullmatch(START, lines[0]), re.fullmatch(END, lines[-3] if len(lines) > 3 else "")
    report = re.fullmatch(REPORT, lines[-2] if len(lines) > 3 else "")
    if not (start and end and report and lines[-1] == "" and start[1] == end[1] == report[1]):
        return None, lines
    return lines[1:-3], report.groups()[1:]


class Load:
    """Processes that need all processors, while it lasts."""

    def __enter__(self):
        self.spinning = [subprocess.Popen([sys.executable, "-S", "-c", "while True: pass"]) for _ in range(8)]

    def __exit__(self, *_):
        for process in self.spinning:
            process.kill()
            process.wait()


class Part:
    """A process with a line that is not whole, or nothing."""
    name, pid = "f/1", 0

    def __init__(self, printed):
        self.printed, self.left = printed, ""

    def settle(self, cuts=False):
        left, self.left = self.left, "" if cuts else self.left
        if cuts and left:
            self.printed.take(self.name, left)
        return 0.0, self.left


class InvocationLog(Case):
    def test_a_tail_has_the_lines_and_the_REPORT_of_its_invocation(self):
        up = up_of(memory=256, timeout=2)
        self.check("up is ready", up.until("ready"))
        lines, report = parts(tail_of(up))
        self.check("the lines of the first invocation: not those of the Init", lines,
                   ["to standard output", "to standard error"])
        duration, billed, size, used, init, status, _ = report
        self.check("its REPORT has the Init", (float(init) > 5, size, 5 < int(used) < 200, status),
                   (True, "256", True, None), shown=report)
        over = int(billed) - float(duration) - float(init)  # (both are rounded to a hundredth)
        self.check("which is billed, in whole milliseconds", -0.02 < over < 1.02, shown=report)
        lines, report = parts(tail_of(up))
        self.check("the second one's lines", lines, ["to standard output", "to standard error"])
        self.check("its REPORT has no Init", (report[4], int(report[1]) == max(1, float(report[0]))), (None, True))
        self.check("one that prints nothing", parts(tail_of(up, do="nothing"))[0], [])
        self.check("its memory is the most that it has used", int(parts(tail_of(up, do="memory"))[1][3]) > 85)
        self.check("also later", int(parts(tail_of(up, do="nothing"))[1][3]) > 85)
        log = tail_of(up, do="many", count=1000, name="\u00e9" * 7)
        whole = f"START RequestId: {re.findall(END, log)[0]} Version: $LATEST\n{log}"
        self.check("the last 4 KB, from a whole character on", (len(log.encode()) in range(4094, 4097),
                                                                log[0] in "\u00e9 line0123456789\n",
                                                                parts(whole)[0][-1]),
                   (True, True, "\u00e9" * 7 + " line 999"))
        self.failures(up)
        until(lambda: up.count("imported") == 3, 20)  # (the one after the timeout)
        for kind in (None, "None"):
            self.check(f"no log is given with the log type {kind}", tail_of(up, kind=kind), None)
        self.check("a line that is not whole", parts(tail_of(up, do="part"))[0], ["begun"])
        self.check("its rest is the next one's", parts(tail_of(up))[0], ["to standard output", "to standard error"])
        self.check("nothing is left", up.end(), (0, []))

    def failures(self, up):
        lines, report = parts(tail_of(up, do="fail"))
        self.check("what a handler raises", (lines[0], lines[-1], report[-2:]), ("before", "KeyError: 'missing'",
                                                                                 (None, None)))
        lines, report = parts(tail_of(up, do="crash"))
        self.check("a runtime that exits", (lines[0], lines[1].partition(" ")[2].partition(" ")[2], lines[2:],
                                            report[-2:]),
                   ("before", "Error: Runtime exited with error: exit status 7", ["Runtime.ExitError"],
                    ("error", "Runtime.ExitError")))
        until(lambda: up.count("imported") == 2, 20)  # (the next environment's)
        log = tail_of(up, do="hang")
        lines, report = parts(log)
        self.check("a timeout", (lines[0], bool(re.fullmatch(
            rf"\d{{4}}-\d\d-\d\dT\d\d:\d\d:\d\d\.\d\d\dZ {ID} Task timed out after 2\.00 seconds", lines[1])),
            report[-2:], 2000 <= float(report[0]) < 3000), ("before", True, ("timeout", None), True))
        up.until("Runtime exited")

    def test_each_of_many_callers_at_once_gets_its_own_lines(self):
        """Each of many callers at once gets its own lines, whichever environment has them, and one environment's
        invocations follow each other."""
        up = up_of(environments=3, timeout=20)
        self.check("three environments are ready", up.until("ready"))

        def call(number):
            while True:
                try:
                    return number, parts(tail_of(up, do="many", count=5, name=f"caller {number}", seconds=0.02))[0]
                except urllib.error.HTTPError as fault:
                    fault.close()
                    time.sleep(0.01)
        with concurrent.futures.ThreadPoolExecutor(6) as pool:
            seen = list(pool.map(call, range(60)))
        self.check("each of 60 tails has its own five lines", [(number, lines) for number, lines in seen if lines != [
            f"caller {number} line {line}" for line in range(5)]], [])
        up.end()

    def under_load(self, what, function, *files):
        """However late its lines are read, an invocation has its own and no other: each caller's next one follows at
        once, and there is no room on the processors."""
        up = Up(app=AT_ONCE, files=dict(files), functions=[{"name": "f", "environments": 3, "timeout": 60, **function}])
        self.check(f"{what} is ready", up.until("ready", 120))

        def call(number):
            while True:
                try:
                    return number, tail_of(up, count=5, name=f"caller {number}")
                except urllib.error.HTTPError as fault:
                    fault.close()
                    time.sleep(0.005)
        with Load(), concurrent.futures.ThreadPoolExecutor(60) as pool:
            seen = list(pool.map(call, range(180)))
        wrong = []
        for number, log in seen:
            lines, identifier = parts(log)[0] or [], (re.match(START, log) or [0, 0])[1]
            own = [line for line in lines if line != f"extension {identifier}"]
            if own != [*(f"caller {number} line {line}" for line in range(5)), f"caller {number} ends"]:
                wrong.append((number, lines))
        self.check(f"{what}: each of 180 tails has its own six lines", wrong, [])
        self.check("nothing is left", up.end(), (0, []))

    def test_under_load_each_tail_is_whole_for_each_kind_of_process(self):
        command = [sys.executable, "speaks.py"]
        self.under_load("the runtime of Python", {"runtime": "python", "handler": "app.run"})
        self.under_load("the runtime of Node", {"runtime": "node", "handler": "index.run"}, ("index.mjs", OF_NODE))
        self.under_load("another runtime", {"command": command}, ("speaks.py", SPEAKS))
        self.under_load("an extension", {"runtime": "python", "handler": "app.run",
                                         "extensions": {"x": [sys.executable, "x.py"]}}, ("x.py", SPEAKING_EXTENSION))

    def test_of_ended_invocations_no_body_is_kept(self):
        """Of the invocations that have ended, no body is kept, and of an error what its log says."""
        invocations = Invocations({}, {}, {})
        for number in range(2000):
            invocation = Invocation("f", str(number), 1, None)
            invocation.delivered = 2
            report = json.dumps({"errorType": "Runtime.ExitError", "errorMessage": "m" * 100_000}).encode()
            kind, body = (Word.OUTPUT, bytes(5 << 20)) if number % 2 else (Word.ERROR, report)
            invocations.take(Ended(3, invocation, None, kind, body, None if body is None else len(body)))
        kept = invocations.ended
        self.check("the last 1024", (list(kept)[0], len(kept)), ("976", 1024))
        self.check("the bytes that are kept of an output", kept["1999"].body, None)
        self.check("and of a report, of which a log has at most 4 KB", len(kept["1998"].body or b"") < 8192)
        self.check("the log says its end", [len(line) for line in invocations.failure_of(kept["1998"])],
                   [len("RequestId: 1998 Error: ") + 4096, len("Runtime.ExitError")])

    def test_boto3_and_lambda_local_invoke_show_the_log(self):
        """The aws command line, if one is here that reads the endpoint."""
        up = up_of()
        up.until("ready")
        code = ("import base64, boto3, sys; print(base64.b64decode(boto3.client('lambda', endpoint_url=sys.argv[1], "
                "region_name='us-east-1', aws_access_key_id='x', aws_secret_access_key='y').invoke(FunctionName='f', "
                "LogType='Tail')['LogResult']).decode(), end='')")
        done = subprocess.run([sys.executable, "-c", code, up.endpoint], capture_output=True, text=True)
        self.check("boto3's LogResult", parts(done.stdout)[0], ["to standard output", "to standard error"])
        words = [sys.executable, os.path.join(ROOT, "tools"), "invoke", "f", "--tail", "--endpoint", up.endpoint]
        done = subprocess.run(words, capture_output=True, text=True)
        self.check("lambda_local invoke --tail", (done.stdout, parts(done.stderr)[0]),
                   ("null\n", ["to standard output", "to standard error"]))
        up.end()

    def test_a_runtime_that_up_has_not_started_has_START_END_and_REPORT(self):
        """A function whose runtime somebody else has started: nothing that it prints is known, nor its memory."""
        up = Up(functions=[{"name": "f", "timeout": 5}])
        self.check("its address is told", up.until("start its runtime yourself"))
        address = up.told(r"f/1: (127\.0\.0\.1:\d+)")
        runtime = subprocess.Popen([sys.executable, os.path.join(ROOT, "examples", "runtime.py"), address])
        log = tail_of(up, name="x")
        self.check("START, END and REPORT", bool(re.fullmatch(
            f"{START}\n{END}\nREPORT RequestId: {ID}\tDuration: \\d+\\.00 ms\tBilled Duration: \\d+ ms\t"
            "Memory Size: 128 MB"
            "\t\n", log)))
        up.end()
        runtime.wait(10)

    def test_with_report_the_log_has_START_END_and_REPORT_in_their_order(self):
        up = up_of("--report", timeout=1)
        up.until("ready")
        for number, event in enumerate(({}, {"do": "fail"}, {"do": "crash"}, {"do": "hang"}, {})):
            # (what is printed while nothing is asked for is shown before it)
            until(lambda: up.count("imported") > max(0, number - 2), 20)
            time.sleep(0.3)
            up.invoke(**event)
            until(lambda: up.count("REPORT") > number, 20)
        up.end()
        texts = [line.partition("[f/1] ")[2] for line in up.lines if "[f/1] " in line]
        kinds = [re.sub(ID, "ID", text).split("\t")[0] for text in texts if not text.startswith(("  ", "--",
                                                                                                 "Traceback"))]
        start, end, report = "START RequestId: ID Version: $LATEST", "END RequestId: ID", "REPORT RequestId: ID"
        kinds = [re.sub(r"^\d{4}-\S+Z|\d+ ms$", "..", kind) for kind in kinds]
        self.check("the log of five invocations, in its order", kinds, [
            "imported",
            start, "to standard output", "to standard error", end, report, "ID ok ..",
            start, "before", "KeyError: 'missing'", end, report, "ID error KeyError: 'missing' (app.py:12)",
            start, "before", "RequestId: ID Error: Runtime exited with error: exit status 7", "Runtime.ExitError", end,
            report, "ID error Runtime.ExitError: Runtime exited with error: exit status 7", "imported",
            start, "before", ".. ID Task timed out after 1.00 seconds", end, report, "ID timeout after 1 s", "imported",
            start, "to standard output", "to standard error", end, report, "ID ok .."])
        self.check("each REPORT has Lambda's form", [text for text in texts if text.startswith("REPORT")
                                                   and not re.fullmatch(REPORT, text + "\t")], [])

    def test_with_log_json_START_END_and_REPORT_are_objects(self):
        up = up_of("--report", "--log", "json", memory=192)
        up.until('"kind": "ready"')
        up.endpoint = next(json.loads(line)["endpoint"] for line in up.lines if '"endpoint"' in line)
        up.invoke()
        up.until("REPORT")
        up.end()
        lines = [json.loads(line) for line in up.lines]
        platform = [line for line in lines if line["kind"] == "platform"]
        self.check("START, END and REPORT as JSON", [(line["text"].split(" ")[0], line["function"], line["environment"])
                                                     for line in platform],
                   [("START", "f", 1), ("END", "f", 1), ("REPORT", "f", 1)])
        report = platform[-1]
        self.check("the figures", (report["memory_mb"], report["billed_ms"] >= report["duration_ms"]
                                   + report["init_ms"],
                                   report["max_memory_mb"] > 5, report["status"], report["request"] in report["text"]),
                   (192, True, True, "success", True))
        order = [line["text"].split(" ")[0] for line in lines
                 if line["source"] == "f/1" and line["kind"] in ("platform", "output")]
        self.check("in their order", order, ["imported", "START", "to", "to", "END", "REPORT"])

    def test_a_mark_divides_wherever_what_is_read_ends(self):
        """A mark divides wherever what is read ends, and nothing else does."""
        mark, first, second = b"\0" + b"a1" * 16, "1" * 36, "2" * 36
        printed = (b"in Init\n" + mark + first.encode() + b"\na\nb\xc3\xa9\0" + mark[:20] + b"\nno \0mark" + mark
                   + second.encode() + b"\n" + mark[:-1] + b"\nlast" + mark + b"3" * 20)
        wanted = ["in Init", (first, ), "a", "b\u00e9\0\0" + "a1" * 9 + "a", "no \0mark", (second, ),
                  "\0" + "a1" * 15 + "a", "last\0" + "a1" * 16 + "3" * 20]
        wrong = []
        for size in range(1, len(printed) + 1):
            seen: List[object] = []
            splitter = MarkedSplitter(seen.append, lambda identifier: seen.append((identifier, )), mark)
            for place in range(0, len(printed), size):
                splitter.feed(printed[place:place + size])
            splitter.feed(b"")
            if seen != wanted or splitter.held:
                wrong.append((size, seen))
        self.check("lines and divisions, in pieces of each size", wrong[:2], [])

    def test_what_belongs_to_an_invocation_is_decided_by_the_order_of_deliveries(self):
        """What belongs to an invocation, by the order of lines and deliveries alone."""
        printed = Printed()
        process = Part(printed)
        printed.add(process)
        of = lambda identifier, until=None: [line.text for line in printed.of_invocation(identifier, until)]
        printed.take("f/1", "of the Init")
        printed.deliver("a")
        printed.take("f/1", "a 1")
        process.left = "a 2"
        until = printed.settle()
        self.check("what is not whole is told", of("a", until), ["a 1", "a 2"])
        printed.deliver("b")
        printed.deliver("b")
        self.check("a delivery to a second process is the same one", len(printed.divisions), 2)
        printed.take("f/1", "b 1")
        self.check("each has its own", (of("a"), of("b"), of("c")), (["a 1", "a 2"], ["b 1"], []))
        self.check("as far as it was taken then", of("a", until), ["a 1", "a 2"])
        printed.divide()
        printed.take("f/1", "of the next generation")
        self.check("the next generation's are nobody's", (of("b"), [line.text for line in printed.lines][-1]),
                   (["b 1"], "of the next generation"))

    def test_what_one_has_begun_beyond_a_mark_is_of_the_invocation_of_that_mark(self):
        """A runtime may have come to the next invocation, and an extension's pipe may have been read just before."""
        printed = Printed()
        runtime, extension = Part(printed), Part(printed)
        extension.name = "f/1 x"
        for process in (extension, runtime):
            printed.add(process)
            printed.passing.add(process.name)
        for process in (extension, runtime):
            printed.passing.passes(process.name, "a")
        printed.passing.take("f/1", "a 1")
        extension.left = "x of a"
        until = printed.settle()
        printed.passing.passes("f/1", "b")
        printed.passing.take("f/1", "b 1")
        runtime.left = "b 2"
        later = printed.settle()
        of = lambda identifier, until: [line.text for line in printed.of_invocation(identifier, until)]
        self.check("before it", of("a", until), ["a 1", "x of a"])
        self.check("beyond it", of("a", later), ["a 1", "x of a"])
        extension.left = ""
        printed.passing.passes("f/1 x", "b")
        self.check("once all have come to it", of("b", printed.settle()), ["b 1", "b 2"])

    def test_what_an_early_process_prints_is_taken(self):
        """A process may have answered its first invocation before the thread that starts it goes on."""
        printed, seen = Printed(), []

        class Slow(Guarded):
            async def start(self, words, directory, variables, output, forks):
                subprocess.run(words, stdout=output)
                seen.append((printed.settle().place, [line.text for line in printed.lines]))
                raise OSError("as if it could not be started")

        async def start():
            tasks = Tasks(asyncio.get_running_loop(), self.fail)
            tasks.guarded = Slow()
            await processes.Process("f/1", tasks, printed).start(["echo", "early"], "/", {})

        self.assertRaises(OSError, asyncio.run, start())
        self.check("what it has printed is taken", seen, [(1, ["early"])])
        self.check("one that could not be started is not read", printed.processes, [])

    def test_a_follower_gets_each_line_and_no_more_is_kept_than_may_be(self):
        printed = Printed()
        seen: List[Line] = []
        printed.follow(seen.append)
        for number in range(3):
            printed.take("f/1", f"line {number}")
        self.check("whoever follows gets each line", [(line.source, line.text) for line in seen],
                   [("f/1", "line 0"), ("f/1", "line 1"), ("f/1", "line 2")])
        for _ in range(3 * MOST_KEPT // 1000):
            printed.take("f/1", "x" * 1000)
        self.check("it keeps no more than it may", printed.size <= MOST_KEPT and len(printed.lines) > 500)

    def test_a_REPORT_is_as_in_the_developer_guide(self):
        self.check("an example of the Developer Guide", report_line(Figures(
            "57f231fb-1730-4395-85cb-4f71bd2b87b8", 79.67, 128, 73, None, "success", "")),
            "REPORT RequestId: 57f231fb-1730-4395-85cb-4f71bd2b87b8\tDuration: 79.67 ms\tBilled Duration: 80 ms\t"
            "Memory Size: 128 MB\tMax Memory Used: 73 MB\t")
        self.check("a duration of nothing is billed as a millisecond",
                   Figures("x", 0.0, 128, None, None, "success", "").billed, 1)

    def test_a_log_is_cut_at_a_character(self):
        text = base64.b64decode(encoded(iter(["\u20ac" * 2000]))).decode()
        self.check("a log is cut at a character", (len(text.encode()), set(text)), (4096 - 4095 % 3, {"\u20ac", "\n"}))
        self.check("a line is a moment, a source and a text", Line(1.0, "f/1", "x").source, "f/1")
