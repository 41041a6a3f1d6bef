"""Checks tools/package in copies of the checkout that release the program: what it refuses, and the archive, the wheel
and the Debian package as their users get them, without the kit and without a network. The program is
LAMBDA_LOCAL_PROGRAM, else what ./lambda_local finds."""
import contextlib
import glob
import hashlib
import json
import os
import re
import shutil
import statistics
import subprocess
import sys
import tempfile
import time
import unittest

from tests import ROOT
from tests.library import trees
from tests.library.cases import Case
from tests.library.trees import commit, copy_tree, plain, program, run, text_of, write

STAMP = ["sources", "kit", "program", "gate"]  # the lines of what proved a program
ANSWERED = (0, True, "")
VERSION = re.compile(r"1\.0\.0\+g[0-9a-f]{12}")  # of the commit in a copy
UP = {"functions": [{"name": "greet", "runtime": "python", "handler": "app.handler", "environments": 2}]}
APP = "def handler(event, context):\n    return {'hello': event['name']}\n"
INVOKE = """import json, os, sys, urllib.request
url = os.environ["AWS_ENDPOINT_URL_LAMBDA"] + "/2015-03-31/functions/greet/invocations"
print(urllib.request.urlopen(urllib.request.Request(url, b'{"name":"Ada"}', method="POST")).read().decode())
"""
TEST = """def test_greet(lambda_local):
    lambda_local.start(greet=lambda event: {"hello": event["name"]})
    assert lambda_local.invoke("greet", {"name": "Ada"}) == {"hello": "Ada"}
"""


@contextlib.contextmanager
def copied():
    """A copy of one commit."""
    with trees.copied() as root:
        commit(root)
        yield root


def package(root, *words, **variables):
    return run([sys.executable, os.path.join(root, "tools", "package"), *words], cwd=root, **variables)


def bytes_of(path):
    with open(path, "rb") as file:
        return file.read()


def commit_all(root):
    for words in (["add", "-A"],
                  ["-c", "user.name=someone", "-c", "user.email=someone@example.com", "commit", "-qm", "more"]):
        subprocess.run(["git", "-C", root, *words], check=True)


def answers(command, **more):
    """The status of a command given the first example, whether it answers that, and what it says."""
    return trees.first_call([*command], **more)


def took(words, **more):
    """The median time of nine starts, in milliseconds."""
    times = []
    for _ in range(9):
        began = time.monotonic()
        run(words, stdin=text_of(ROOT, "examples", "first_call.txt"), **more)
        times.append(1000 * (time.monotonic() - began))
    return f"{statistics.median(times):.0f} ms"


def environment(python, folder, wheel, *options):
    """A virtual environment with the wheel, installed without a network: its folder of commands."""
    subprocess.run([python, "-m", "venv", *options, folder], check=True, env=plain(), stdout=subprocess.PIPE)
    subprocess.run([f"{folder}/bin/python", "-m", "pip", "install", "-q", "--no-index", "--no-deps",
                    "--disable-pip-version-check", wheel], check=True, env=plain())
    return os.path.join(folder, "bin")


def python_with_pytest():
    """A Python that has pytest and makes virtual environments."""
    for python in (sys.executable, "/usr/bin/python3"):
        if os.access(python, os.X_OK) and run([python, "-c", "import pytest, ensurepip"])[0] == 0:
            return python
    return None


class Made:
    """The packages of a copy of the checkout, which the tests use, and what the command that made them said."""

    def __init__(self):
        parts = contextlib.ExitStack()
        unittest.addModuleCleanup(parts.close)
        self.root = parts.enter_context(copied())
        folder = parts.enter_context(tempfile.TemporaryDirectory(prefix="lambda_local."))
        self.status, output, self.said = package(self.root, "--archive", "--wheel", "--deb", folder)
        self.paths = output.split()
        self.archive, self.wheel, self.deb = self.paths


class Package(Case):
    made: Made

    @classmethod
    def setUpClass(cls):
        cls.made = Made()

    def test_the_same_commit_gives_the_same_packages_and_git_ignores_them(self):
        root, paths, said = self.made.root, self.made.paths, self.made.said
        self.check("the packages are made without the kit",
                   (self.made.status, [os.path.isfile(path) for path in paths]), (0, [True] * 3))
        proved = text_of(root, "release", "PROVED").splitlines()
        self.check("what proved the program is said",
                   ([line.split(" ")[0] for line in proved], [f"package: {line}" for line in proved]),
                   (STAMP, said.splitlines()))
        again = os.path.join(root, "again")
        os.mkdir(again)
        package(root, "--archive", "--wheel", "--deb", "again")
        self.check("the same commit gives the same bytes",
                   [os.path.basename(path) for path in paths
                    if bytes_of(path) != bytes_of(os.path.join(again, os.path.basename(path)))], [])
        self.check("nothing else is left there", sorted(os.listdir(again)), sorted(map(os.path.basename, paths)))
        self.check("an archive is the default", package(root)[1], os.path.join(root, os.path.basename(paths[0]))
                   + "\n")
        package(root, "--wheel", "--deb")
        seen = run(["git", "-C", root, "status", "--porcelain", "--", "*.tar.gz", "*.whl", "*.deb", ":!again"])
        self.check("git ignores the packages in a checkout's own folder", seen, (0, "", ""))

    def test_what_is_not_committed_is_refused_with_a_line(self):
        with copied() as root:
            for name in ("lambda_local.history.txt", "out.json", "tests/mine.py", "my/up.json"):
                write(os.path.join(root, name), b"")
            self.check("other files of its user do not matter", package(root, "--wheel")[0], 0)
            for name in ("docs/mine.md", "tools/mine", "examples/mine.py", "crates/lambda_local/src/mine.rt"):
                write(os.path.join(root, name), b"")
                status, output, said = package(root)
                self.check(f"{name} is told", (status, output, said.count("\n"), name in said), (2, "", 1, True))
                os.remove(os.path.join(root, name))
            write(os.path.join(root, "README.md"), b"changed")
            self.check("a changed file is told", (package(root)[0], "README.md" in package(root)[2]), (2, True))
            subprocess.run(["git", "-C", root, "checkout", "-q", "README.md"], check=True)
            status, output, said = package(root, "no/folder")
            self.check("a folder that is not there", (status, output, said.count("\n"), "no/folder" in said),
                       (2, "", 1, True))
            self.check("an option that is none", package(root, "--zip")[0], 2)

    def test_without_a_program_of_these_sources_nothing_is_packaged(self):
        with copied() as root, tempfile.TemporaryDirectory() as folder_of_given:
            write(os.path.join(root, "crates", "lambda_local", "src", "mine.rt"), b"")
            commit_all(root)
            status, output, said = package(root)
            seen = (status, output, said.count("\n"), "there is no program of these sources" in said,
                    "lambda_local build' proves and builds one, here in about" in said)
            self.check("without a program of these sources", seen, (4, "", 1, True, True))
            self.check("nothing is left behind", glob.glob(os.path.join(root, "*.gz*")), [])
            given = os.path.join(folder_of_given, "given")
            for name, data, mode, word in (("one that is not there", None, 0, "is not a program"),
                                           ("one that does not start", b"\x7fELF", 0o755,
                                            "not a program that starts here"),
                                           ("one that answers otherwise", b"#!/bin/sh\n", 0o755, "does not answer")):
                if data is not None:
                    write(given, data, mode)
                status, output, said = package(root, LAMBDA_LOCAL_PROGRAM=given)
                left = glob.glob(os.path.join(root, "*.gz*"))
                self.check(f"a program that is named: {name}", (status, output, word in said.splitlines()[-1], left),
                           (1 if "answers" in name else 4, "", True, []))

    def test_a_tree_that_is_no_checkout_is_refused(self):
        with tempfile.TemporaryDirectory() as folder:
            root = copy_tree(os.path.join(folder, "tree"), program())
            status, output, said = package(root)
            self.check("a tree that is no checkout",
                       (status, output, said.count("\n"), "clone the repository first" in said), (2, "", 1, True))

    def test_the_checkout_of_another_user_is_packaged_once_that_is_allowed(self):
        """git refuses the checkout of another user; once its reader has allowed it, there is a package."""
        if os.getuid():
            self.skipTest("only root can be another user")
        with copied() as root, tempfile.TemporaryDirectory() as home:
            os.chmod(home, 0o777)
            # (the Python of the tests may be in a folder that only its user reads)
            words = ["/usr/bin/python3", os.path.join(root, "tools", "package"), home]
            status, output, said = run(words, user=65534, HOME=home)
            seen = (status, output, said.count("\n"), "of another user" in said, "safe.directory" in said)
            self.check("another user's checkout: one line", seen, (4, "", 1, True, True))
            allows = said.rpartition("allow it: ")[2].strip()
            run(["sh", "-c", allows], user=65534, HOME=home)
            status, output, said = run(words, user=65534, HOME=home)
            self.check("what the line says makes it work", (status, os.path.isfile(output.strip())), (0, True))

    def test_a_program_that_is_named_is_packaged_and_said_to_be_given(self):
        """A program that is named: packaged as it is, beside a program of these sources."""
        with copied() as root, tempfile.TemporaryDirectory() as folder:
            other = os.path.join(folder, "other")
            write(other, bytes_of(program()) + b"more", 0o755)  # (what follows an ELF file's sections does not matter)
            sum_is = f"program {hashlib.sha256(bytes_of(other)).hexdigest()}"
            told = [sum_is, "given by LAMBDA_LOCAL_PROGRAM, not proved here"]
            status, output, said = package(root, "--archive", "--wheel", folder, LAMBDA_LOCAL_PROGRAM=other)
            self.check("its sum is said, and that it was given", (status, said.splitlines()),
                       (0, [f"package: {line}" for line in told]))
            archive, wheel = output.split()
            subprocess.run(["tar", "-C", folder, "-xzf", archive], check=True)
            launcher = os.path.join(archive.replace(".tar.gz", ""), "lambda_local")
            subprocess.run([sys.executable, "-m", "zipfile", "-e", wheel, f"{folder}/wheel"], check=True)
            os.chmod(f"{folder}/wheel/lambda_local/bin/lambda_local", 0o755)
            for name, words, path in (("the archive", [launcher], ""),
                                      ("the wheel", [sys.executable, "-m", "lambda_local"], f"{folder}/wheel")):
                status, output, said = run([*words, "--version"], PYTHONPATH=path)
                self.check(f"{name} says both by --version", (status, output.splitlines()[1:]), (0, told))
                self.check(f"{name} replays by it", answers(words, PYTHONPATH=path), ANSWERED)
            status, output, said = run([launcher, "stamp"])
            self.check("the archive has no stamp", (status, output, said.count("\n"), "was given" in said),
                       (4, "", 1, True))

    def used(self, command, folder, **more):
        """What users of every package do: the version, a replay, a check, a function that is served."""
        self.check("it replays, without a word", answers([command], **more), ANSWERED)
        status, output, said = run([command, "--version"], **more)
        lines = output.splitlines()
        seen = (status, bool(VERSION.fullmatch(lines[0].split(" ")[-1])), [line.split(" ")[0] for line in lines[1:]])
        self.check("--version", seen, (0, True, STAMP))
        path = run([command, "path"], **more)[1].strip()
        self.check("path is the proved program", f"program {hashlib.sha256(bytes_of(path)).hexdigest()}" in lines)
        self.check("--help", run([command, "--help"], **more)[1].startswith("usage: lambda_local serve CONFIG"))
        status, output, said = run([command, "nothing"], **more)
        self.check("another word is refused with a line", (status, output, said.count("\n")), (2, "", 1))
        history = os.path.join(ROOT, "examples", "timeout.txt")
        self.check("check", run([command, "check", history], **more)[0], 0)
        self.check("timeline", "timeout" in run([command, "timeline", history], **more)[1])
        write(os.path.join(folder, "up.json"), json.dumps(UP).encode())
        write(os.path.join(folder, "app.py"), APP.encode())
        status, output, said = run([command, "up", "up.json", "--", sys.executable, "-c", INVOKE], cwd=folder, **more)
        self.check("up serves a function by the bundled runtime", (status, output.strip()),
                   (0, '{"hello": "Ada"}') if status == 0 else said)
        self.check("and leaves nothing beside it", sorted(set(os.listdir(folder)) - {"__pycache__"}),
                   ["app.py", "up.json"])

    def test_the_archive_works_where_it_is_unpacked(self):
        with tempfile.TemporaryDirectory() as folder, tempfile.TemporaryDirectory() as work:
            there = os.path.join(folder, "a folder")
            os.mkdir(there)
            subprocess.run(["tar", "-C", there, "-xzf", self.made.archive], check=True)
            root = glob.glob(f"{there}/*")[0]
            launcher = os.path.join(root, "lambda_local")
            self.check("a maker's tools are not in it",
                       {"package", "packages", "release"} & set(os.listdir(os.path.join(root, "tools"))), set())
            self.used(launcher, work)
            print(f"     (a start and a replay take {took([launcher])})")
            self.check("build has nothing to do", run([launcher, "build"])[0], 0)
            self.check("tests/clients starts there", run([os.path.join(root, "tests", "clients"), "--help"])[0], 0)
            self.check("stamp", [line.split(" ")[0] for line in run([launcher, "stamp"])[1].splitlines()],
                       ["sources", "kit"])
            if os.getuid() == 0:
                os.chmod(folder, 0o755)
                ran = subprocess.run([launcher, "path"], env=plain(HOME="/nonexistent"), stdout=subprocess.PIPE,
                                     text=True,
                                     user=65534, group=65534, extra_groups=[])
                self.check("another user starts it as it is", (ran.returncode, ran.stdout),
                           (0, f"{root}/bin/lambda_local\n"))
            with open(os.path.join(root, "bin", "lambda_local"), "ab") as file:
                file.write(b"changed")
            status, output, said = run([launcher, "path"])
            self.check("a changed program is refused", (status, output, said.count("\n"),
                                                        "unpack the package again" in said),
                       (4, "", 1, True))

    def test_the_wheel_works_in_a_fresh_environment_and_leaves_it(self):
        with tempfile.TemporaryDirectory() as folder, tempfile.TemporaryDirectory() as work:
            commands = environment(sys.executable, os.path.join(folder, "fresh"), self.made.wheel)
            command = os.path.join(commands, "lambda_local")
            self.used(command, work)
            print(f"     (a start and a replay take {took([command])})")
            self.check("as a module", answers([f"{commands}/python", "-m", "lambda_local"]), ANSWERED)
            self.check("LAMBDA_LOCAL_PROGRAM names another program",
                       run([command, "path"], LAMBDA_LOCAL_PROGRAM="/bin/echo")[1], "/bin/echo\n")
            status, output, said = run([command], stdin="", LAMBDA_LOCAL_PROGRAM="/nonexistent/program")
            self.check("one that is not there is told", (status, output, said.count("\n"),
                                                         "/nonexistent/program" in said),
                       (4, "", 1, True))
            events = run([command, "invoke", "greet", "--sample", "s3", "--endpoint", "http://127.0.0.1:1"])
            self.check("sample events are in it", (events[0], "127.0.0.1:1: Connection refused" in events[2]),
                       (4, True))
            pages = re.search(r"^The pages docs/\*\.md are in (\S+)\.$", run([command, "--help"])[1], re.M)
            self.check("so are the pages, and --help says where", pages is not None and sorted(os.listdir(pages[1]))
                       == sorted(os.listdir(os.path.join(ROOT, "docs"))))
            told = run([f"{commands}/python", "-c",
                        "import importlib.metadata as m; print(m.metadata('lambda_local'))"])[1]
            self.check("what an index shows of it has no link to a file that is not there",
                       re.findall(r"\]\((?!\w+:)[^)]*\)", told), [])
            pip = [f"{commands}/python", "-m", "pip", "--disable-pip-version-check"]
            self.check("pip finds no fault", run([*pip, "check"])[0], 0)
            self.check("pip takes it away", run([*pip, "uninstall", "-qy", "lambda_local"])[0], 0)
            left = glob.glob(f"{folder}/fresh/**/*lambda_local*", recursive=True)
            self.check("and nothing stays", [path for path in left if "__pycache__" not in path], [])

    def test_pytest_finds_the_plugin_of_the_wheel(self):
        """Under pytest, if a Python on this machine has it."""
        python = python_with_pytest()
        if python is None:
            self.skipTest("no Python here has pytest")
        with tempfile.TemporaryDirectory() as folder, tempfile.TemporaryDirectory() as work:
            commands = environment(python, os.path.join(folder, "fresh"), self.made.wheel, "--system-site-packages")
            write(os.path.join(work, "test_greet.py"), TEST.encode())
            status, output, said = run([f"{commands}/python", "-m", "pytest", "-q", "-p", "no:cacheprovider"], cwd=work)
            self.check("pytest finds the plugin, with no option", (status, "1 passed" in output),
                       (0, True) if status == 0 else output)
            write(os.path.join(work, "test_greet.py"), TEST.replace('== {"hello"', '== {"bye"').encode())
            status, output, said = run([f"{commands}/python", "-m", "pytest", "-q", "-p", "no:cacheprovider"], cwd=work)
            seen = (status, "lambda_local history:" in output, "caller 1: invoke greet" in output)
            self.check("its report has the history and the timeline", seen, (1, True, True))

    def test_the_Debian_package_works_where_it_is_unpacked(self):
        """Unpacked, as its links are within it; installing it is apt's."""
        if not shutil.which("dpkg-deb"):
            self.skipTest("no dpkg-deb is here")
        with tempfile.TemporaryDirectory() as folder, tempfile.TemporaryDirectory() as work:
            subprocess.run(["dpkg-deb", "-x", self.made.deb, folder], check=True)
            command = os.path.join(folder, "usr", "bin", "lambda_local")
            self.used(command, work)
            print(f"     (a start and a replay take {took([command])})")
            doc = os.path.join(folder, "usr", "share", "doc", "lambda-local")
            wanted = ("README.md", "docs/formats.md", "copyright", "changelog.gz", "examples/up.json")
            self.check("its pages, licence and changes",
                       [it for it in wanted if not os.path.isfile(os.path.join(doc, it))], [])
            page = run(["gzip", "-dc", os.path.join(folder, "usr/share/man/man1/lambda_local.1.gz")])[1]
            self.check("the man page has the version", bool(VERSION.search(page.splitlines()[0])))
            listed = re.findall(r"^ +lambda_local (?:\[?(\w+)\]?)", run([command, "--help"])[1], re.M)
            self.check("the man page has each command of --help",
                       [it for it in listed if not re.search(rf'^\.BI? "?{it}\b', page, re.M)], [])
            self.try_plugin(os.path.join(folder, "usr", "lib", "lambda_local", "tools"))
            control = run(["dpkg-deb", "-f", self.made.deb, "Version", "Architecture", "Depends"])[1]
            self.check("its control file", (bool(VERSION.search(control)), "Architecture: amd64" in control,
                                            "libc6 (>= 2.34)" in control), (True, True, True))
            subprocess.run(["dpkg-deb", "-e", self.made.deb, os.path.join(folder, "DEBIAN")], check=True)
            write(os.path.join(folder, "stub", "py3compile"), b"#!/bin/sh\necho \"$@\"\n")
            os.chmod(os.path.join(folder, "stub", "py3compile"), 0o755)
            seen = [run([os.path.join(folder, "DEBIAN", "postinst"), word],
                        PATH=f"{os.path.join(folder, 'stub')}:{os.environ['PATH']}")[:2]
                    for word in ("configure", "abort-upgrade")]
            self.check("the tools are compiled once, by its installation", seen,
                       [(0, "-p lambda-local /usr/lib/lambda_local\n"), (0, "")])

    def test_lintian_finds_no_error(self):
        if shutil.which("lintian"):
            said = run(["lintian", "--allow-root", self.made.deb])
            self.check("lintian finds no error", said[0] == 0, shown=said[1])
        else:
            print("     (lintian is not installed)")

    def try_plugin(self, tools):
        """The plugin of a package that pytest does not find by itself, started as docs/pytest.md says."""
        python = python_with_pytest()
        if python is None:
            return print("note no Python here has pytest")
        told = re.findall(r"`PYTHONPATH=/usr/lib/lambda_local/tools python3 (-m pytest[^`]*)`",
                          text_of(ROOT, "docs", "pytest.md"))[0]
        with tempfile.TemporaryDirectory() as work:
            write(os.path.join(work, "test_greet.py"), TEST.encode())
            status, output, said = run([python, *told.split(), "-q", "-p", "no:cacheprovider"], cwd=work,
                                       PYTHONPATH=tools)
            self.check("pytest has the plugin as docs/pytest.md says", (status, "1 passed" in output), (0, True))
