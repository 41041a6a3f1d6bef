"""Checks that no tool does anything to a terminal: words of the command line, of files, of services and of functions
are printed without control characters, each in one line. The program is LAMBDA_LOCAL_PROGRAM, else ./lambda_local."""
import base64
import http.server
import os
import pty
import re
import subprocess
import sys
import tempfile
import threading
from typing import Tuple

from tests import ROOT
from tests.library.cases import Case
from tests.library.timelines import ONE, WHOLE

TOOLS = [sys.executable, os.path.join(ROOT, "tools")]
ODD = "\x1b[2J\x07\u202e\u009b\r12:00:00.000 [service] stops"  # clears, rings, turns round, and begins a line anew
UNSAFE = re.compile("[\x00-\x08\x0b-\x1f\x7f-\x9f\u202a-\u202e\u2066-\u2069]")
CLEAN = {name: value for name, value in os.environ.items() if name != "AWS_ENDPOINT_URL_LAMBDA"}
# Words of a command line, where `@` is odd, and its status.
WORDS = (
    (["@"], 2), (["serve", "@", "more"], 2), (["check", "@"], 2), (["check"], 2), (["check", "--@"], 2),
    (["check", "--program", "@", "/dev/null"], 4), (["timeline", "@"], 2), (["timeline", "--@"], 2),
    (["timeline", "--from", "@"], 2), (["timeline", "-o", "/nowhere/@", "SCRIPT"], 4), (["timeline", "--live", "@"], 2),
    (["timeline", "--program", "@", "SCRIPT"], 4), (["rerun", "@", "@"], 2), (["rerun", "--ignore", "@", "@", "@"], 2),
    (["rerun", "--@"], 2), (["invoke", "--endpoint", "@", "f"], 2), (["invoke", "f", "--sample", "@"], 2),
    (["up", "@"], 2), (["up", "--@"], 2), (["from_template", "@"], 2),
    (["from_template", "--@"], 2), (["conformance", "@"], 2), (["conformance", "runtime", "--@", "--", "true"], 2),
    (["conformance", "runtime", "--only", "@", "--", "true"], 2),
)


class Odd(http.server.BaseHTTPRequestHandler):
    """Answers as a function, or a service, that wants to do something to the caller's terminal."""

    def do_POST(self):
        self.rfile.read(int(self.headers["Content-Length"]))
        answer = ODD.encode()
        self.send_response(429 if self.path.split("/")[3] == "refused" else 200)
        self.send_header("Content-Length", str(len(answer)))
        self.send_header("x-amzn-ErrorType", "\x9b2J")  # (a header may have this byte, and none below a blank)
        self.send_header("X-Amz-Log-Result", base64.b64encode(f"a\n{ODD}\n\x1b[31mred\x1b[0m".encode()).decode())
        self.end_headers()
        self.wfile.write(answer)

    def log_message(self, *words):
        pass


def run(words, **environ):
    """The status, and what is printed on both streams."""
    done = subprocess.run([*TOOLS, *words], stdin=subprocess.DEVNULL, capture_output=True, timeout=120,
                          env={**CLEAN, **environ})
    return done.returncode, done.stdout.decode(), done.stderr.decode()


def on_terminal(words, **environ) -> Tuple[int, str]:
    """The status of a tool whose streams are a terminal, and what comes there."""
    leader, follower = pty.openpty()
    child = subprocess.Popen([*TOOLS, *words], stdin=follower, stdout=follower, stderr=follower,
                             env={**CLEAN, **environ})
    os.close(follower)
    seen = b""
    try:
        while data := os.read(leader, 65536):
            seen += data
    except OSError:  # (all that wrote there have gone)
        pass
    os.close(leader)
    return child.wait(60), seen.decode(errors="replace").replace("\r\n", "\n")


class Terminal(Case):
    def test_words_and_names_of_files_are_escaped(self):
        """Words of the command line and names of files."""
        with tempfile.TemporaryDirectory() as folder:
            script = os.path.join(folder, "script")
            with open(script, "w") as file:
                file.write(ONE + "\n0 tick\n")
            for words, status in WORDS:
                given = [script if word == "SCRIPT" else word.replace("@", ODD) for word in words]
                seen, output, said = run(given)
                self.check(f"{' '.join(words)}", (seen, UNSAFE.findall(output + said)), (status, []),
                           shown=output + said)

    def test_what_is_in_files_is_escaped(self):
        """What is in files."""
        with tempfile.TemporaryDirectory() as folder:
            for name, text, words, status in (
                ("a script", f"{ONE}\n0 {ODD}\n", ["timeline"], 2),
                ("a history that differs", f"form 2\n{WHOLE % 9}\n0 tick\n# 0 0 {ODD}\n", ["check"], 1),
                ("the same, drawn", f"form 2\n{WHOLE % 9}\n0 tick\n# 0 0 {ODD}\n", ["timeline"], 0),
                ("a template", f'{{"Resources": {{"{ODD[3:4]}": "{ODD[7:]}"}}}}', ["from_template"], 2),
                ("UP.json", '{"functions": [{"name": "f", "\\u001b[2J\\u0007": 1}]}', ["up"], 2),
            ):
                path = os.path.join(folder, "file.json")
                with open(path, "w") as file:
                    file.write(text)
                seen, output, said = run([*words, path])
                self.check(name, (seen, UNSAFE.findall(output + said)), (status, []), shown=output + said)

    def test_what_is_invoked_is_escaped_on_a_terminal_alone(self):
        """What a function printed, what it returned, and what a service says."""
        with http.server.ThreadingHTTPServer(("127.0.0.1", 0), Odd) as server:
            threading.Thread(target=server.serve_forever, args=(0.05,), daemon=True).start()
            here = {"AWS_ENDPOINT_URL_LAMBDA": f"http://127.0.0.1:{server.server_address[1]}"}
            status, output, said = run(["invoke", "--tail", "f"], **here)
            self.check("a pipe gets what the function returned, byte for byte", (status, output), (0, ODD + "\n"))
            escaped = "\\x1b[2J\\x07\\u202e\\x9b\\r12:00:00.000 [service] stops"
            self.check("its log comes line by line, with its colours", said, f"a\n{escaped}\n\x1b[31mred\x1b[0m\n")
            status, seen = on_terminal(["invoke", "f"], **here)
            self.check("a terminal gets it escaped", (status, seen), (0, escaped + "\n"))
            status, output, said = run(["invoke", "refused"], **here)
            self.check("a refusal", (status, output, UNSAFE.findall(said), said.count("\n")), (3, "", [], 1),
                       shown=said)
            server.shutdown()
