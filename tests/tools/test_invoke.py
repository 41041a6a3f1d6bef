"""Checks `lambda_local invoke` against functions of a service, and against a server that answers as Lambda's documents
say. The program is LAMBDA_LOCAL_PROGRAM, else ./lambda_local."""
import base64
import glob
import http.server
import json
import os
import re
import subprocess
import sys
import tempfile
import threading
from typing import List, Optional, Tuple

from lambda_local.in_process import LambdaLocal
from tests import ROOT
from tests.library.cases import Case
from tests.library.up_kit import Up

INVOKE = [sys.executable, os.path.join(ROOT, "tools"), "invoke"]
CLEAN = {name: value for name, value in os.environ.items() if name != "AWS_ENDPOINT_URL_LAMBDA"}


def invoke(*words, stdin="", **environ):
    """The status, and what is printed on both streams."""
    done = subprocess.run([*INVOKE, *words], input=stdin, capture_output=True, text=True, timeout=60,
                          env={**CLEAN, **environ})
    return done.returncode, done.stdout, done.stderr


class AsDocumented(http.server.BaseHTTPRequestHandler):
    """Answers as Invoke's page of Lambda's API Reference says: the log of a Tail, the acceptance of an Event."""
    seen: List[Tuple[str, Optional[str], Optional[str], bytes]] = []

    def do_POST(self):
        body = self.rfile.read(int(self.headers["Content-Length"]))
        self.seen.append((self.path, self.headers.get("X-Amz-Invocation-Type"), self.headers.get("X-Amz-Log-Type"),
                          body))
        is_event = self.headers.get("X-Amz-Invocation-Type") == "Event"
        answer = b"" if is_event else b'{"ok": true}'
        self.send_response(202 if is_event else 200)
        self.send_header("Content-Length", str(len(answer)))
        self.send_header("x-amzn-RequestId", "an-identifier")
        if self.headers.get("X-Amz-Log-Type") == "Tail":
            self.send_header("X-Amz-Log-Result", base64.b64encode("START ..\nprint\u00e9d\nEND ..".encode()).decode())
        self.end_headers()
        self.wfile.write(answer)

    def log_message(self, *words):
        pass


class Invoke(Case):
    def test_a_payload_and_its_result_go_to_and_fro_as_they_are(self):
        with LambdaLocal({"closed": {"reserved": 0}}, same=lambda event: event, fails=lambda event: event["missing"],
                         closed=lambda event: event) as service, tempfile.TemporaryDirectory() as folder:
            here = {"AWS_ENDPOINT_URL_LAMBDA": service.endpoint_url}
            path = os.path.join(folder, "event.json")
            with open(path, "w", encoding="utf-8") as file:
                file.write('{"name": "Ada \u00e9\u4e2d"}')
            payloads: Tuple[Tuple[str, List[str], str, object], ...] = (
                ("nothing", [], "", {}), ("an object", ['{"name": "Ada"}'], "", {"name": "Ada"}),
                ("a number", ["-7"], "", -7), ("a string", ['"\u00e9"'], "", "\u00e9"),
                ("a file", [path], "", {"name": "Ada \u00e9\u4e2d"}), ("standard input", ["-"], "[1]", [1]),
                ("behind an option", ["--tail", "[2]"], "", [2]))
            for name, words, stdin, wanted in payloads:
                status, output, said = invoke("same", *words, stdin=stdin, **here)
                told = "" if "--tail" in words else said  # (the service keeps no log)
                self.check(f"the payload is {name}", (status, json.loads(output or "0"), told), (0, wanted, ""))
            for kind in glob.glob(os.path.join(ROOT, "examples", "events", "*.json")):
                with open(kind) as file:
                    status, output, _ = invoke("same", "--sample", os.path.basename(kind)[:-5], **here)
                    self.check(f"the sample {os.path.basename(kind)}", (status, json.loads(output)),
                               (0, json.load(file)))
            status, output, _ = invoke("same", "--sample", "sqs", "--set", 'Records[0].body="one"', "--set",
                                       "Records[0].attributes={}", **here)
            record, = json.loads(output)["Records"]
            self.check("a sample with other values", (status, record["body"], record["attributes"]), (0, "one", {}))
            status, output, said = invoke("same", '{"a": 1}', "--set", "b=2", **here)
            self.check("a path that is not there", (status, output, said), (
                2, "", "invoke: --set b: the event has no b: there are a\n"))
            event = json.loads(invoke("same", "--now", **here)[1])
            self.check("a schedule that is due now", (event["source"], event["detail-type"],
                                                      bool(re.fullmatch(r"\d{4}-\d\d-\d\dT\d\d:\d\d:\d\dZ",
                                                                        event["time"]))),
                       ("aws.events", "Scheduled Event", True))
            self.check("--endpoint", invoke("same", "1", "--endpoint", f"{service.endpoint_url}/"), (0, "1\n", ""))
            self.check("an ARN", invoke("arn:aws:lambda:us-east-1:123456789012:function:same", "1", **here),
                       (0, "1\n", ""))
            status, output, said = invoke("fails", **here)
            self.check("a function that fails", (status, json.loads(output)["errorType"], said),
                       (1, "KeyError", "invoke: fails: the function has failed\n"))
            self.check("one that is throttled", invoke("closed", **here),
                       (3, "", "invoke: closed: 429 TooManyRequestsException: Rate Exceeded.: "
                               "ReservedFunctionConcurrentInvocationLimitExceeded\n"))
            status, output, said = invoke("no one's/../name", **here)
            self.check("a name that is none", (status, output, said.count("\n")), (3, "", 1))
            self.check("a function that is not there", invoke("other", **here)[2].startswith(
                "invoke: other: 404 ResourceNotFoundException: "))
            self.check("no log is in the answer, which is said", invoke("same", "1", "--tail", **here),
                       (0, "1\n", "invoke: the answer has no log: `lambda_local up` keeps what functions print\n"))

    def test_faults_are_told_in_a_line(self):
        with tempfile.TemporaryDirectory() as folder:
            for name, text in (("broken.json", b'{"a":\n 1,}'), ("latin.json", b'"\xe9"'), ("nan.json", b"[NaN]"),
                               ("deep.json", b"[" * 100_000), ("long.json", b'"' + b"x" * (6 << 20) + b'"')):
                with open(os.path.join(folder, name), "wb") as file:
                    file.write(text)
            for words, stdin, wanted in (
                    (["{a:1}"], "", "{a:1} is neither JSON nor a file: write for example '{\"name\": \"Ada\"}'"),
                    (["/nowhere.json"], "", "/nowhere.json is neither JSON nor a file"),
                    ([folder], "", f"{folder} is neither JSON nor a file"[:80]),
                    ([f"{folder}/broken.json"], "",
                     "broken.json: this is not JSON: Expecting property name enclosed in"),
                    ([f"{folder}/latin.json"], "", "latin.json: this is not JSON: it is not UTF-8"),
                    ([f"{folder}/nan.json"], "", "nan.json: this is not JSON: NaN is not JSON"),
                    ([f"{folder}/deep.json"], "",
                     "deep.json: this is not JSON that Lambda takes: it is nested too deep"),
                    ([f"{folder}/long.json"], "",
                     "long.json: it has more than 6291456 bytes, which Lambda takes at most"),
                    (["-"], "{", "-: this is not JSON: Expecting property name"),
                    (["--sample", "s33"], "",
                     "--sample s33: did you mean s3? there are activemq, alb, alb_multi_value, alexa_skill, "),
                    (["--sample", "../up"], "", "--sample ../up: there are activemq, "),
                    (["1", "--now"], "", "write one of PAYLOAD, FILE, -, --sample and --now"),
                    (["1", "--endpoint", "https://lambda.us-east-1.amazonaws.com"], "",
                     "--endpoint=https://lambda.us-east-1.amazonaws.com: write it as http://127.0.0.1:PORT"),
                    (["1", "--endpoint", "http://[::1"], "",
                     "--endpoint=http://[::1: write it as http://127.0.0.1:PORT"),
                    (["1", "--endpoint", "127.0.0.1:9000"], "", "--endpoint=127.0.0.1:9000: write it as http:"),
                    (["1", "--endpoint", "http://127.0.0.1:99999"], "",
                     "--endpoint=http://127.0.0.1:99999: write it as")):
                status, output, said = invoke("f", *words, stdin=stdin)
                self.check(f"a fault: {wanted[:60]}", (status, output, said.count("\n"), wanted in said),
                           (2, "", 1, True), shown=said)
        status, output, said = invoke("f", AWS_ENDPOINT_URL_LAMBDA="http://127.0.0.1:1")
        self.check("a service that is not there", (status, output, said),
                   (4, "", "invoke: http://127.0.0.1:1: Connection refused: start the service, for example by "
                           "`lambda_local up UP.json`, and name the address that it prints by --endpoint or "
                           "AWS_ENDPOINT_URL_LAMBDA\n"))

    def test_AWSs_own_answers_are_read_as_documented(self):
        server = http.server.HTTPServer(("127.0.0.1", 0), AsDocumented)
        thread = threading.Thread(target=server.serve_forever)
        thread.start()
        try:
            endpoint = f"http://127.0.0.1:{server.server_port}"
            self.check("--tail prints the log on standard error", invoke("f", "--tail", "--endpoint", endpoint),
                       (0, '{"ok": true}\n', "START ..\nprint\u00e9d\nEND ..\n"))
            self.check("--event does not wait for a result", invoke("f", "7", "--event", "--endpoint", endpoint),
                       (0, "", "invoke: f: event accepted: an-identifier\n"))
            self.check("what was asked", AsDocumented.seen, [
                ("/2015-03-31/functions/f/invocations", None, "Tail", b"{}"),
                ("/2015-03-31/functions/f/invocations", "Event", None, b"7")])
        finally:
            server.shutdown()
            thread.join()
            server.server_close()

    def test_under_up_it_is_led_to_the_functions(self):
        up = Up(command=["--", *INVOKE, "f", '{"do":"name"}'])
        status, left = up.end(None)
        self.check("the command of lambda_local up is led to its functions",
                   (status, left, json.loads(up.output or "0")),
                   (0, [], ["f", "index.handler", "hello"]))

    def test_under_up_an_event_is_taken(self):
        up = Up(command=["--", *INVOKE, "f", "--event"], whole={"asynchronous": True})
        self.check("an event is taken", (up.end(None)[0], up.has("event accepted: ")), (0, True))

    def test_under_up_the_example_script_is_led_there_too(self):
        up = Up(command=["--", os.path.join(ROOT, "examples", "invoke.sh"), "f", '{"do":"name"}'])
        self.check("examples/invoke.sh is led there too", (up.end(None)[0], up.output.split("\n")[-1]),
                   (0, '["f", "index.handler", "hello"]'))
