"""Checks that nothing that a function, a caller or a file gives silences lambda_local up, or speaks for it: reports of
any bytes, a log that no one reads, lines without an end, control characters. The program is LAMBDA_LOCAL_PROGRAM, else
./lambda_local."""
import asyncio
import json
import os
import re
import resource
import subprocess
import sys
import tempfile
import threading
import time
import urllib.request
from typing import Dict, List, Union

from lambda_local.json_reader import NotJson, is_deeper, read_json
from lambda_local.outgoing import header_value, printable, printable_output
from lambda_local.up.output import LONGEST_LINE, PIECE, SLICE, Pace, Reader, Splitter
from lambda_local.reports import Report, kind_in
from tests.library.cases import Case
from tests.library.pipe_log import pipe_log
from tests.library.up_kit import LAUNCHER, Up, until

# A runtime that answers an invocation with the report, in hexadecimal, that its event has; otherwise it responds.
REPORTING = f'''#!{sys.executable}
import http.client, json, os
api = http.client.HTTPConnection(os.environ["AWS_LAMBDA_RUNTIME_API"])
base = "/2018-06-01/runtime/invocation/"
def ask(method, path, body=None):
    api.request(method, base + path, body)
    answer = api.getresponse()
    return answer.headers, answer.read()
while True:
    headers, event = ask("GET", "next")
    report = json.loads(event).get("report")
    done = "response" if report is None else "error"
    ask("POST", headers["Lambda-Runtime-Aws-Request-Id"] + "/" + done,
        b"null" if report is None else bytes.fromhex(report))
'''
FRAME = '  File "{}", line 2, in run\n'
HOSTILE = {
    "a NUL in a file's name": json.dumps({"errorType": "E", "stackTrace": [FRAME.format("a\0b.py")]}).encode(),
    "100,000 open brackets": b"[" * 100_000,
    "a frame of 900 levels": b'{"stackTrace":[{"path":"x","line":' + b"[" * 900 + b"]" * 900 + b"}]}",
    "half a character in a file's name": b'{"stackTrace":["  File \\"\\ud83d.py\\", line 2"]}',
    "half a character in its type": b'{"errorType":"\\ud83d","errorMessage":"\\udfff"}',
    "bytes that are no text": bytes(range(256)),
    "a type that is a list": b'{"errorType":[[1]],"errorMessage":{"a":null}}',
    "a number of 5,000 digits": b'{"errorType":' + b"9" * 5000 + b"}",
    "50,000 frames": json.dumps({"stackTrace": [FRAME.format(f"/a/{n}.py") for n in range(50_000)]}).encode(),
    "a path of a million folders": json.dumps({"stackTrace": [FRAME.format("a/" * 1_000_000)]}).encode(),
    "a Go frame without a path": b'{"stackTrace":[{"path":7,"line":null},{"path":"\\u0000","line":1}]}',
}


def answered(url, event=b"{}"):
    try:
        return urllib.request.urlopen(url, event, timeout=20).status == 200
    except OSError:
        return False


def seconds(url):
    begun = time.monotonic()
    answered(url)
    return time.monotonic() - begun


def is_json(text):
    try:
        read_json(text)
    except NotJson:
        return False
    return True


class UpOutput(Case):
    def test_a_hostile_report_is_a_line_and_takes_no_time(self):
        begun = time.monotonic()
        for name, body in HOSTILE.items():
            report = Report(body, "/at")
            seen = [type(report.members), *map(type, (str(report), *report.lines))]
            self.check(f"a report with {name} is a line", set(seen), {dict, str})
        self.check("and none of them takes long", time.monotonic() - begun < 10, True)

    def test_a_type_that_is_no_header_is_none(self):
        self.check("a type for a header", kind_in(b'{"errorType":"Runtime.Bad"}', "X"), "Runtime.Bad")
        for body in (json.dumps({"errorType": "Ошибка"}).encode(), b'{"errorType":"a\\r\\nb: c"}', b"[", b"[1]",
                     b"{}", b'{"errorType":" "}', b'{"errorType":"' + b"a" * 2000 + b'"}'):
            self.check(f"{body[:24]!r} has none", kind_in(body, "X"), "X")

    def test_JSON_of_any_depth_is_read_or_refused(self):
        deep = read_json("[" * 100 + "]" * 100)
        self.check("100 levels are read", (is_deeper(deep, 99), is_deeper(deep, 100)), (True, False))
        texts: Dict[str, Union[str, bytes]] = {
            "101 levels": "[" * 101 + "]" * 101, "a million levels": b"[" * 1_000_000, "NaN": "NaN",
            "no UTF-8": b'"\xff"', "nothing": b"", "two values": "1 2"}
        for name, text in texts.items():
            self.check(f"JSON of {name} is refused", is_json(text), False)
        self.check("half a character is read", read_json(b'"\\ud83d"'), "\ud83d")

    def test_hostile_reports_have_their_lines(self):
        up = Up(functions=[{"name": "f", "command": ["./reporting"], "timeout": 60}], files={"reporting": REPORTING})
        up.until("[up] ready")
        for body in HOSTILE.values():
            answered(f"{up.endpoint}/2015-03-31/functions/f/invocations", json.dumps({"report": body.hex()}).encode())
        self.check("each hostile report has its line", until(lambda: up.count(r"\[f/1\] \S+ error ") == len(HOSTILE),
                                                             120),
                   True)
        up.invoke()
        self.check("and an invocation after them has its own", up.until(" ok ", 120), True)
        self.check("none of them is a trace", (up.has("Traceback"), up.has("could not")), (False, False))
        self.check("nothing is left of them", up.end(), (0, []))

    def test_a_name_of_foreign_letters_is_told(self):
        """An Init that fails by an exception whose name is of letters that no header has."""
        app = 'class Ошибка(Exception):\n    pass\nraise Ошибка("нет")\n'
        up = Up(functions=[{"name": "f", "runtime": "python", "handler": "app.run", "timeout": 1}], app=app)
        self.check("a failed Init with a Cyrillic name is told", up.until("Init failed Ошибка", 120), True)
        self.check("it is started again after a pause", up.until("restarting in 2 s", 120), True)
        answer, took = up.invoke()
        self.check("a caller in a pause hears the report at once", (answer, took < 1.9), ("Ошибка", True))
        self.check("the thread that tells goes on", up.has("cannot go on"), False)
        self.check("nothing is left of it", up.end(), (0, []))

    def test_a_log_that_no_one_reads_holds_up_nothing(self):
        """lambda_local up whose standard error is a pipe that no one reads."""
        folder = tempfile.TemporaryDirectory()
        with open(os.path.join(folder.name, "app.py"), "w") as file:
            file.write("def run(event):\n    print('x' * 2000)\n    return 1\n")
        with open(os.path.join(folder.name, "up.json"), "w") as file:
            json.dump({"functions": [{"name": "f", "runtime": "python", "handler": "app.run"}]}, file)
        process = subprocess.Popen([LAUNCHER, "up", "up.json"], cwd=folder.name, stderr=subprocess.PIPE)
        assert process.stderr
        read = b""
        while not (found := re.search(rb"AWS_ENDPOINT_URL_LAMBDA=(http://[0-9.:]+)\n", read)):
            read += os.read(process.stderr.fileno(), 4096)
        url = found[1].decode() + "/2015-03-31/functions/f/invocations"
        until(lambda: answered(url), 60)
        slowest = max(seconds(url) for _ in range(3000))
        self.check("3,000 invocations are answered while no one reads the log", slowest < 5, True)
        begun = time.monotonic()
        process.terminate()
        until(lambda: process.poll() is not None, 30)
        self.check("and TERM ends it", (process.poll(), time.monotonic() - begun < 15), (0, True))
        if process.poll() is None:
            process.kill()
        read += process.stderr.read()
        process.stderr.close()
        folder.cleanup()

    def test_what_one_prints_without_end_holds_up_no_other(self):
        app = ("import subprocess\ndef noisy(event, context):\n    subprocess.Popen(['yes'])\n"
               "def run(event, context):\n    return 1\n")
        up = Up(app=app, functions=[{"name": name, "runtime": "python", "handler": f"app.{handler}"}
                                    for name, handler in (("f", "run"), ("n", "noisy"))])
        self.check("it is ready", up.until("[up] ready"))
        quiet = sorted(up.invoke()[1] for _ in range(20))[10]
        up.invoke("n")
        self.check("it prints", until(lambda: up.count(r"\[n/1\] y$") > 1000, 60))
        beside = [up.invoke() for _ in range(20)]
        self.check("others are served", [answer for answer, _ in beside], [1] * 20)
        loud = sorted(took for _, took in beside)[10]
        self.check("and do not wait for it", loud < 12 * quiet + 0.05, shown=(quiet, loud))
        self.check("nothing is left of it", up.end(), (0, []))

    def test_each_line_is_written_or_counted(self):
        log, stream = pipe_log()
        begun = time.monotonic()
        for number in range(100_000):
            log("f/1", f"line {number} " + "x" * 90)
        self.check("100,000 lines that no one reads take no time", time.monotonic() - begun < 60, True)
        lines, reader = [], None

        def read():
            lines.extend(stream.read().decode().splitlines())
        reader = threading.Thread(target=read)
        reader.start()
        until(lambda: log.writer.size == 0, 20)
        log("f/1", "the last one")
        log.close()
        log.writer.join(10)
        log.stream.close()
        reader.join(10)
        notes = [line for line in lines if " left out here" in line]
        left_out = sum(int(re.findall(r"([\d,]+) lines?", line)[0].replace(",", "")) for line in notes)
        written = [int(line.split()[3]) for line in lines if " line " in line and line not in notes]
        self.check("each line is written or counted", (len(written) + left_out, left_out > 0), (100_000, True))
        self.check("the first ones in their order, then the count, then the last one",
                   (written == list(range(len(written))), lines[-2] == notes[0], lines[-1].endswith("the last one")),
                   (True, True, True))

    def test_a_slow_reader_gets_each_line(self):
        """A process that prints waits for a reader who reads, so that no line is lost."""
        log, stream = pipe_log()
        lines = []

        def read():
            for line in stream:
                lines.append(line)
                if len(lines) % 1000 == 0:
                    time.sleep(0.01)
        reader = threading.Thread(target=read)
        reader.start()
        reading, writing = os.pipe()

        def write():
            with open(writing, "w") as pipe:
                for number in range(60_000):
                    pipe.write(f"line {number} {'x' * 90}\n")

        async def take():
            splitter = Splitter(lambda text: log("f/1", text, kind="output"))
            await Reader(reading, splitter, log.is_short, Pace()).over
        process = threading.Thread(target=write)
        process.start()
        asyncio.run(take())
        process.join(20)
        log.close()
        log.writer.join(10)
        log.stream.close()
        reader.join(20)
        self.check("a slow reader gets each line that a process prints", len(lines), 60_000)

    def test_what_takes_little_is_taken_at_once_and_what_takes_much_in_turns(self):
        moment, step = [100.0], [SLICE / 100]
        pauses: List[float] = []
        taken: List[str] = []

        def passes():  # (each look at the time is a step later than the one before)
            moment[0] += step[0]
            return moment[0]

        async def take():
            loop = asyncio.get_running_loop()
            setattr(loop, "time", passes)
            setattr(loop, "call_later", lambda seconds, _: pauses.append(seconds))
            pace, pipes = Pace(), [os.pipe() for _ in range(9)]
            readers = [Reader(reading, Splitter(taken.append), lambda: False, pace) for reading, _ in pipes]
            for _, writing in pipes:
                os.write(writing, b"a line\n")
            for _ in range(5):
                await asyncio.sleep(0)
            self.check("a line of each of nine processes", (taken, pauses), (["a line"] * 9, []))
            step[0] = SLICE
            for _, writing in pipes[:2]:
                os.write(writing, b"a line\n" * (PIECE // 7))
            for _ in range(5):
                await asyncio.sleep(0)
            self.check("who has more waits, and so does the next", len(pauses), 2)
            self.check("for as long as it took", [seconds > 0.9 * SLICE for seconds in pauses], [True, True],
                       shown=pauses)
            for reader, (_, writing) in zip(readers, pipes):
                loop.remove_reader(reader.descriptor)
                os.close(reader.descriptor)
                os.close(writing)
        asyncio.run(take())

    def test_a_line_of_300_MB_comes_in_parts(self):
        sizes = []
        before = resource.getrusage(resource.RUSAGE_SELF).ru_maxrss
        splitter = Splitter(lambda line: sizes.append(len(line)))
        for _ in range(300 << 4):
            splitter.feed(b"x" * (64 << 10))
        splitter.feed(b"")
        grown = (resource.getrusage(resource.RUSAGE_SELF).ru_maxrss - before) >> 10
        self.check("a line of 300 MB comes in parts", (sum(sizes), max(sizes) <= LONGEST_LINE + (64 << 10)),
                   (300 << 20, True))
        self.check("and takes little memory (MB)", grown < 16, shown=grown)

    def test_letters_that_come_byte_by_byte_are_whole(self):
        lines: List[str] = []
        splitter = Splitter(lines.append)
        for byte in "é\r\nб\n\n\U0001f600".encode() + b"\xff":
            splitter.feed(bytes([byte]))
        splitter.feed(b"")
        self.check("letters that come byte by byte", lines, ["é", "б", "", "\U0001f600\ufffd"])

    def test_escapes_reach_no_terminal(self):
        self.check("a line feed begins no line", printable("a\n12:00 [up] b\r"), "a\\n12:00 [up] b\\r")
        self.check("a terminal gets no control character", printable("\x1b[2J\x9b2J\x7f\u2028\u202e\ud83d"),
                   "\\x1b[2J\\x9b2J\\x7f\\u2028\\u202e\\ud83d")
        self.check("a tab and letters stay", printable("a\té \U0001f600"), "a\té \U0001f600")
        self.check("what a function prints may have colours", printable_output("\x1b[31mred\x1b[0m"),
                   "\x1b[31mred\x1b[0m")
        self.check("which end with its line", printable_output("\x1b[1;31mred"), "\x1b[1;31mred\x1b[0m")
        self.check("and nothing else", printable_output("\x1b[31m\x1b]0;t\x07\r\x1b[2Kx"),
                   "\x1b[31m\\x1b]0;t\\x07\\r\\x1b[2Kx\x1b[0m")
        self.check("a value of a header", [header_value(text, "-") for text in ("a b", "a\r\nb", "é", "", " a")],
                   ["a b", "-", "-", "-", "-"])

    def test_forged_lines_have_their_own_source(self):
        message = "x\n12:00:00.000 [service] forged\x1b[2J"
        up = Up(functions=[{"name": "f", "runtime": "python", "handler": "app.run"}],
                app=f"import sys\nclass E(Exception): pass\nE.__name__ = {message!r}\n"
                    f"def run(event):\n    print({message!r} + '\\r\\x1b[2K')\n    raise E({message!r})\n")
        up.until("[up] ready")
        up.invoke()
        self.check("an invocation with forged lines has a line", up.until(" error ", 120), True)
        self.check("nothing is left of it", up.end(), (0, []))
        self.check("a line that it forges has its own source before it",
                   [line for line in up.lines if "forged" in line and re.match(r"\S+ \[(?!f/1\])", line)], [])
        self.check("no control character is written", [line for line in up.lines if re.search("[\x00-\x08\x0b-\x1f]",
                                                                                              line)], [])
