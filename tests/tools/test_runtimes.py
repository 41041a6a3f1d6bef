"""Checks examples/runtime.go and runtime.sh against a service, where Go and curl are on the machine. The program is
LAMBDA_LOCAL_PROGRAM, else ./lambda_local."""
import os
import shutil
import subprocess
import tempfile

from tests.library.runtimes_kit import EXAMPLES, TRACE, Running, RuntimeCase, report

SHELL = [os.path.join(EXAMPLES, "runtime.sh")]

SHELL_FUNCTIONS = """handler() {
  case $1 in
  *fail*) return 3 ;;
  *trace*) printf '"%s"' "$_X_AMZN_TRACE_ID" ;;
  *) printf '{"was":%s}' "$1" ;;
  esac
}
"""


class Runtimes(RuntimeCase):
    def test_the_Go_runtime_answers_reports_and_ends(self):
        if not shutil.which("go"):
            self.skipTest("Go is not here")
        with tempfile.TemporaryDirectory() as folder:
            program = os.path.join(folder, "bootstrap")
            subprocess.run(["go", "build", "-o", program, os.path.join(EXAMPLES, "runtime.go")], check=True,
                           timeout=600,
                           env={**os.environ, "GOCACHE": os.path.join(folder, "cache"), "GOFLAGS": "-mod=mod",
                                "GO111MODULE": "off"})
            with Running([program]) as running:
                self.check("Go: greets", running.invoke({"name": "Ada"}), (False, {"greeting": "Hello, Ada!"}))
                self.check("Go: an error", running.invoke({}),
                           (True, {"errorMessage": "whom shall I greet?", "errorType": "errorString"}))
                self.check("Go: and goes on", running.invoke({"name": "Bob"}), (False, {"greeting": "Hello, Bob!"}))
                self.check("Go: a payload of another type", running.invoke(7)[1]["errorType"], "UnmarshalTypeError")
                running.service.stop()
                self.check("Go: ends at a stop", running.runtime.wait(10), 0)

    def test_a_panic_in_Go_is_reported_and_ends_the_process(self):
        if not shutil.which("go"):
            self.skipTest("Go is not here")
        with tempfile.TemporaryDirectory() as folder:
            program = os.path.join(folder, "bootstrap")
            panicking = os.path.join(folder, "panicking.go")
            with open(os.path.join(EXAMPLES, "runtime.go")) as source, open(panicking, "w") as file:
                file.write(
                    source.read().replace('return nil, errors.New("whom shall I greet?")',
                                          'panic(errors.New("no name"))'))
            subprocess.run(["go", "build", "-o", program, panicking], check=True, timeout=600,
                           env={**os.environ, "GOCACHE": os.path.join(folder, "cache"), "GO111MODULE": "off"})
            with Running([program]) as running:
                told = running.invoke({})[1]
                self.check("Go: a panic", report(told, "errorMessage", "errorType"), ("no name", "errorString"))
                self.check("Go: its stack begins in the handler", told.get("stackTrace", [{}])[0].get("label"),
                           "main.handler")
                self.check("Go: and ends the process", running.runtime.wait(10), 2)

    def test_the_shell_runtime_answers_reports_and_ends(self):
        if not shutil.which("curl"):
            self.skipTest("curl is not here")
        with Running(SHELL) as running:
            self.check("shell: greets", running.invoke({}), (False, {"greeting": "Hello from the shell!"}))
        with Running(SHELL, {"function.sh": SHELL_FUNCTIONS}, _HANDLER="function.handler") as running:
            self.check("shell: the event", running.invoke({"a": "b  c\\n*"}), (False, {"was": {"a": "b  c\\n*"}}))
            self.check("shell: a long one", running.invoke("x" * 300000), (False, {"was": "x" * 300000}))
            self.check("shell: an error", running.invoke("fail"),
                       (True, {"errorType": "ExitStatus", "errorMessage": "handler ended with status 3"}))
            self.check("shell: the trace", running.invoke("trace", **{"X-Amzn-Trace-Id": TRACE}), (False, TRACE))
            running.service.stop()
            self.check("shell: ends at a stop", running.runtime.wait(10), 0)

    def test_a_failed_init_of_the_shell_runtime_is_reported(self):
        if not shutil.which("curl"):
            self.skipTest("curl is not here")
        for name, files, kind in (("function.handler", {}, "Runtime.ImportModuleError"),
                                  ("function.other", {"function.sh": SHELL_FUNCTIONS}, "Runtime.HandlerNotFound")):
            with Running(SHELL, files, _HANDLER=name) as running:
                told, status, _ = running.init_report()
                self.check(f"shell: Init, {kind}", (status, told and told["errorType"]), (1, kind))
