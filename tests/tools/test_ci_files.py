"""The steps that CI systems and containers take from this repository, in plain folders: those of action.yml, of the
jobs of examples/ci with the template for GitLab, and of the Dockerfile. There is neither GitHub nor Docker here: what
they do around a step (checking out, the path, a folder with the sources) is done by hand. No index is asked."""
import contextlib
import json
import os
import re
import tempfile
from typing import Dict, Iterator, List, Tuple

from tests import ROOT
from tests.library import trees
from tests.library.cases import Case
from tests.library.trees import commit, run, text_of, write

UP = {"functions": [{"name": "greet", "runtime": "python", "handler": "app.handler", "environments": 2}]}
APP = "def handler(event, context):\n    return {'hello': event['name']}\n"
USERS_TEST = """import json, os, urllib.request

def test_greet():
    url = os.environ["AWS_ENDPOINT_URL_LAMBDA"] + "/2015-03-31/functions/greet/invocations"
    request = urllib.request.Request(url, b'{"name":"Ada"}', method="POST")
    assert json.load(urllib.request.urlopen(request)) == {"hello": "Ada"}
"""
PYTEST = "import runpy, sys; sys.exit(runpy.run_path('test_app.py')['test_greet']())"
PYTHON = "/usr/bin/python3"


def commands_of(text: str) -> List[str]:
    """The commands after `run:`, without quotes around the whole and comments behind it."""
    found = re.findall(r"^ *(?:- )?run: (?:'(.*)'|([^\n]+?)(?: +#.*)?)$", text, re.M)
    return [quoted or plain for quoted, plain in found]


def script_of(text: str, key: str) -> List[str]:
    """The commands of a list `key:` of a job of GitLab."""
    block = re.findall(rf"^ *{key}:\n((?: *- .+\n)+)", text, re.M)
    return re.findall(r"^ *- (.+)$", block[0], re.M) if block else []


def has_pytest() -> bool:
    return run([PYTHON, "-c", "import pytest"])[0] == 0


@contextlib.contextmanager
def job() -> Iterator[Tuple[str, str, Dict[str, str]]]:
    """A clone, a folder with a user's function and test, and the variables of a job: a fresh Python comes first."""
    with trees.copied() as clone, tempfile.TemporaryDirectory() as folder:
        commit(clone)
        run([PYTHON, "-m", "venv", "--system-site-packages", f"{folder}/fresh"])
        work = os.path.join(folder, "work")
        for name, text in (("up.json", json.dumps(UP)), ("app.py", APP), ("test_app.py", USERS_TEST)):
            write(os.path.join(work, name), text.encode())
        write(os.path.join(folder, ".gitconfig"), b"[safe]\n\tdirectory = *\n")
        yield clone, work, {"PATH": f"{folder}/fresh/bin:/usr/bin:/bin", "HOME": folder, "PIP_NO_INDEX": "1",
                            "PIP_DISABLE_PIP_VERSION_CHECK": "1"}


class CIFiles(Case):
    def step(self, name: str, command: str, work: str, variables: Dict[str, str]) -> Tuple[int, str, str]:
        """A step by the shell that both systems use. pytest, where there is none, is a program that runs the test."""
        if "pip install pytest" in command and not has_pytest():
            return 0, "", ""
        if not has_pytest():
            command = re.sub(r"-- pytest$", f'-- {PYTHON} -c "{PYTEST}"', command)
        ran: Tuple[int, str, str] = run(["bash", "-e", "-o", "pipefail", "-c", command], cwd=work, **variables)
        self.check(f"{name}: {command}", ran[0], 0, shown=ran)
        return ran

    def act(self, clone: str, work: str, variables: Dict[str, str]) -> Dict[str, str]:
        """The steps of the action; the variables of the steps that follow."""
        paths = os.path.join(work, "..", "paths")
        for command in commands_of(text_of(ROOT, "action.yml")):
            given = {**variables, "GITHUB_ACTION_PATH": clone, "GITHUB_PATH": paths}
            said = self.step("action.yml", command, work, given)
            if "--version" in command:
                self.check("it says the version", said[1].startswith("lambda_local 1."), shown=said)
        with open(paths, encoding="utf-8") as file:
            return {**variables, "PATH": ":".join([*file.read().split(), variables["PATH"]])}

    def test_the_job_of_GitHub_passes(self) -> None:
        with job() as (clone, work, variables):
            text = text_of(ROOT, "examples", "ci", "github.yml")
            self.check("the job uses the action", "uses: OWNER/REPO@v1" in text)
            later = self.act(clone, work, variables)
            found = run([f"{work}/../fresh/bin/python", "-c", "import lambda_local as it; print(it.__file__)"])
            self.check("the job's Python has the plugin", "fresh" in found[1], shown=found)
            for command in commands_of(text):
                self.step("github.yml", command, work, later)
            self.check("nothing is left in the folder but what pytest keeps", sorted(
                set(os.listdir(work)) - {"__pycache__", ".pytest_cache"}), ["app.py", "test_app.py", "up.json"])

    def test_the_job_of_GitLab_passes(self) -> None:
        with job() as (clone, work, variables):
            template = text_of(ROOT, "examples", "ci", "lambda_local.gitlab-ci.yml")
            text = text_of(ROOT, "examples", "ci", "gitlab.yml")
            self.check("the job includes the template", "file: /examples/ci/lambda_local.gitlab-ci.yml" in text)
            given = {**variables, "LAMBDA_LOCAL_PACKAGE": f"git+file://{clone}"}
            self.check("the template says what pip installs",
                       re.search(r"^ *LAMBDA_LOCAL_PACKAGE: git\+https://\S+@v1$", template, re.M) is not None)
            steps = [*script_of(template, "before_script"), *script_of(text, "script")]
            self.check("there are steps", len(steps) > 2)
            for command in steps:
                self.step("gitlab.yml", command, work, given)

    def test_the_command_of_the_conformance_job_is_one_of_the_kits(self) -> None:
        text = text_of(ROOT, "examples", "ci", "conformance.yml")
        commands = [command for command in commands_of(text) if command.startswith("lambda_local")]
        self.check("its command is one of the kit's", [command.split()[:3] for command in commands],
                   [["lambda_local", "conformance", "runtime"]])

    def test_the_image_is_made_without_a_download(self) -> None:
        """The Dockerfile's steps, from a folder as its context: without git, and read-only to whoever installs."""
        text = text_of(ROOT, "Dockerfile")
        command, = re.findall(r"^RUN --mount=type=bind,target=/src (.+)$", text, re.M)
        self.check("it downloads nothing", "--no-index" in command and "apt" not in text)
        ignored = text_of(ROOT, ".dockerignore").split()
        with job() as (clone, work, variables):
            for name in ignored:
                run(["rm", "-rf", os.path.join(clone, name)])
            self.step("Dockerfile", command.replace("/src", f"'{clone}'"), work, variables)
            entry, = json.loads(re.findall(r"^ENTRYPOINT (.+)$", text, re.M)[0])
            said = run([entry, "--version"], **variables)
            self.check("the entry point is there", said[1].split("\n")[0], "lambda_local 1.0.0", shown=said)

    def test_the_devcontainer_leads_to_the_clone(self) -> None:
        made = json.loads(text_of(ROOT, ".devcontainer", "devcontainer.json"))
        with job() as (clone, _, variables):
            self.step("devcontainer.json", made["postCreateCommand"], clone, variables)
            said = run(["lambda_local", "--version"], **variables)
            self.check("the command leads to the clone", "lambda_local 1.0.0+g" in said[1], shown=said)
