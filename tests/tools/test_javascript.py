"""The JavaScript API, by Node's own test runner over tests/javascript, and the sample of examples/javascript: each test
there is a check here."""
import glob
import json
import os
import re
import shutil
import subprocess
import unittest
from typing import Iterator, Optional, Tuple

from lambda_local.aws_hosts import HOSTS
from tests import ROOT
from tests.library.cases import Case

RESULT = re.compile(r"^( *)(not )?ok \d+ - (.*?)( # (?:SKIP|TODO).*)?$")
LEAST = 18  # the version of Node


def node_version() -> int:
    """The major version of the Node that is here; 0 if there is none."""
    if not shutil.which("node"):
        return 0
    said = subprocess.run(["node", "--version"], stdout=subprocess.PIPE, text=True).stdout
    found = re.match(r"v(\d+)\.", said)
    return int(found[1]) if found else 0


def results_of(output: str) -> Iterator[Tuple[str, Optional[str]]]:
    """Each test of a TAP report with why it failed; not the files, in which they are."""
    lines = output.splitlines()
    for at, line in enumerate(lines):
        found = RESULT.match(line)
        if found and not found[3].endswith((".mjs", ".js")):
            more = next((to for to in range(at + 1, len(lines)) if RESULT.match(lines[to])), len(lines))
            yield found[3], "\n".join(lines[at + 1:more]) if found[2] else None


@unittest.skipIf(node_version() < LEAST, f"there is no Node {LEAST} here")
class JavaScript(Case):
    def run_tests(self, path: str) -> None:
        ran = subprocess.run(["node", "--test", "--test-reporter=tap", path], cwd=ROOT, stdout=subprocess.PIPE,
                             stderr=subprocess.STDOUT, text=True, timeout=900)
        results = list(results_of(ran.stdout))
        for name, fault in results:
            self.check(name, fault is None, shown=fault)
        self.check(f"{os.path.basename(path)} has tests, and its status is theirs",
                   (bool(results), ran.returncode != 0), (True, any(fault is not None for _, fault in results)))

    def test_handlers_run_in_the_process_of_the_test(self) -> None:
        self.run_tests("tests/javascript/handlers.test.mjs")

    def test_a_service_is_started_invoked_and_stopped(self) -> None:
        self.run_tests("tests/javascript/service.test.mjs")

    def test_the_clock_of_a_test_is_paused_and_advanced(self) -> None:
        self.run_tests("tests/javascript/clock.test.mjs")

    def test_troubles_are_made_in_a_test(self) -> None:
        self.run_tests("tests/javascript/troubles.test.mjs")

    def test_a_test_is_kept_from_AWS(self) -> None:
        self.run_tests("tests/javascript/sandbox.test.mjs")

    def test_functions_of_a_file_run_in_processes(self) -> None:
        self.run_tests("tests/javascript/processes.test.mjs")

    def test_the_example_passes(self) -> None:
        self.run_tests("examples/javascript/greet.test.mjs")

    def test_each_file_of_the_tests_is_run_here(self) -> None:
        with open(__file__, encoding="utf-8") as file:
            own = file.read()
        unnamed = [path for path in glob.glob(f"{ROOT}/tests/javascript/*") if os.path.basename(path) not in own]
        self.check("each file is run", unnamed, [])

    def test_package_json_says_what_the_rest_of_the_tree_says(self) -> None:
        with open(f"{ROOT}/package.json", encoding="utf-8") as file:
            package = json.load(file)
        with open(f"{ROOT}/VERSION", encoding="utf-8") as file:
            self.check("package.json has the version", package["version"], file.read().strip())
        missing = [name for name in package["files"] if not os.path.exists(os.path.join(ROOT, name))]
        self.check("the files of package.json are there", missing, [])

    def test_network_js_has_the_hosts_that_the_tools_have(self) -> None:
        network = os.path.join(ROOT, "javascript", "network.js")
        said = subprocess.run(["node", "-p", f"JSON.stringify(require({json.dumps(network)}).HOSTS)"],
                              stdout=subprocess.PIPE, text=True).stdout
        self.check("network.js has the hosts of AWS that the tools have", json.loads(said), list(HOSTS))

    def test_index_d_ts_has_what_the_module_has(self) -> None:
        module = os.path.join(ROOT, "javascript", "index.js")
        said = subprocess.run(["node", "-p", f"Object.keys(require({json.dumps(module)})).sort().join()"],
                              stdout=subprocess.PIPE, text=True).stdout.strip()
        with open(f"{ROOT}/javascript/index.d.ts", encoding="utf-8") as file:
            typed = re.findall(r"^export (?:class|function) (\w+)", file.read(), re.M)
        self.check("index.d.ts has what the module has", ",".join(sorted(set(typed))), said)
