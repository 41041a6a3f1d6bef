"""Checks lambda_local conformance: the runtimes and the extension of examples/ pass, and so do sound ones, among them
some in the shapes of AWS's own clients; each wrong one is caught by the check named after its mistake, and by no other.
The program is LAMBDA_LOCAL_PROGRAM, else ./lambda_local.

Each wrong one is run with the scenarios of its own check, and one of thirty-two with all; so is one of three that are
in the shapes of clients: each day others. With CONFORMANCE_WHOLE=1 all are, which takes ten minutes.
CONFORMANCE_ONLY names mistakes that alone are tried, or `sound` or `shipped`."""
import atexit
import concurrent.futures
import functools
import os
import re
import shutil
import signal
import subprocess
import sys
import tempfile
import time
import xml.etree.ElementTree as xml
from typing import Callable, Dict, List, NamedTuple, Tuple

from lambda_conformance import causes, extension, runtime
from tests import ROOT
from tests.library.cases import Beside, Case
from conformance.tests.forked_kit import Kits
from conformance.tests.kit_programs import (PROGRAMS, SHAPES, clients, extensions, libraries, shapes, subscribers,
                                        wrong_extensions, wrong_runtimes)
from conformance.tests.sound_commands import EXAMPLES, HANDLERS, PYTHON, extensions_in_shapes, in_shapes, shipped

LENIENT = {"runtime": {"keep_alive", "continue_first", "header_spaces", "reason_phrase", "same_process", "error_header",
                       "environments_apart"},
           "extension": {"takes_empty_batch", "takes_in_shutdown"}}
OF_TELEMETRY = [one.name for part in (extension.telemetry, extension.delivery, extension.batches,
                                        extension.last_batches) for scenario in part.SCENARIOS
                for one in scenario.checks]
AT_ONCE = 6 * max(2, len(os.sched_getaffinity(0)))  # runs of the kit, each of which waits most of its time
WHOLE, CHOSEN = "CONFORMANCE_WHOLE" in os.environ, os.environ.get("CONFORMANCE_ONLY", "").split()
EACH, EACH_SHAPE = 32, 1 if CHOSEN else 3  # wrong programs, and sound ones, of which one is run with all scenarios
BECAUSE = "|".join(one.value for one in causes.Because)
TODAY = int(time.time() // 86400)  # which one of these, counted round
TOOL = [*PYTHON, os.path.join(ROOT, "tools"), "conformance"]
LEAKS = {"memory", "descriptors", "threads", "children", "zombies"}  # (a machine may be too slow to judge them)


class Kind(NamedTuple):
    """A subcommand that tests programs: its checks, the wrong programs, and the options with which they run."""
    name: str
    checks: tuple
    mistakes: dict  # classes by their names
    settings: dict  # that any of them may have otherwise, or by None not at all


def checks_of(part):
    return tuple(one for scenario in part.SCENARIOS for one in scenario.checks)


SHORT = {"init-seconds": 3, "idle-seconds": 1, "invocations": 20}
KINDS = (Kind("runtime", checks_of(runtime), wrong_runtimes.MISTAKES, SHORT),
         Kind("extension", checks_of(extension), wrong_extensions.MISTAKES, {**SHORT, "name": "sound"}))


def runs(table):
    """What runs a program of a file that has such a table."""
    return lambda name, *_: table[name]().run()


FORKED = {  # by the names of their files
    "wrong_runtimes.py": runs(wrong_runtimes.MISTAKES), "wrong_extensions.py": runs(wrong_extensions.MISTAKES),
    "shapes.py": runs(shapes.SHAPES), "clients.py": runs(clients.CLIENTS), "libraries.py": runs(libraries.LIBRARIES),
    "extensions.py": runs(extensions.SHAPES), "subscribers.py": runs(subscribers.SHAPES)}
KITS = [Kits(FORKED)]  # the process of which runs are forked (before there are threads)
# Those of the wrong programs' folders: many a second, beside one another in /tmp, are what a program would leave there.
FOLDERS = tempfile.mkdtemp()
atexit.register(shutil.rmtree, FOLDERS, ignore_errors=True)


class Run:
    """A finished run of the kit."""

    def __init__(self, *words, is_forked=False, **variables):
        self.words, variables, begun = words, {**os.environ, **variables}, time.monotonic()
        if is_forked:
            self.status, self.output, self.errors = KITS[0].run(words, HANDLERS, variables)
        else:
            done = subprocess.run([*TOOL, *words], cwd=HANDLERS, env=variables, capture_output=True, text=True,
                                  timeout=3600)
            self.status, self.output, self.errors = done.returncode, done.stdout, done.stderr
        self.seconds = time.monotonic() - begun

    def verdicts(self, outcome):
        """The checks with this outcome; FAILs that say nothing new after the first are only named."""
        again = re.findall(rf"^\d+ more checks? fails? (?:{BECAUSE}) \w+(?: \(.*\))?: (.*)$", self.output,
                           re.MULTILINE) if outcome == "FAIL" else []
        return {*re.findall(rf"^{outcome}  (\w+)", self.output, re.MULTILINE),
                *(name for names in again for name in names.split(", "))}

    def told(self, passed):
        if not passed:
            print(self.words, self.output, self.errors, flush=True)


def program(name):
    return os.path.join(PROGRAMS, name)


def sound_runtime():
    return Run("runtime", "--", *PYTHON, program("sound_runtime.py"))


def sound_extension():
    return Run("extension", "--name", "sound", "--", *PYTHON, program("sound_extension.py"))


def shipped_runtime(*command):
    return Run("runtime", "--", *command)


def other_runtime(*command):
    invocations = "24" if command[0].endswith(".sh") else "60"  # (a shell takes its time)
    return Run("runtime", "--invocations", invocations, "--idle-seconds", "2", "--", *command, is_forked=True)


def other_extension(*command):
    invocations = "500" if command[-1] == extensions.CollectsAtItsLimit.__name__ else "100"
    return Run("extension", "--name", "sound", "--idle-seconds", "2", "--invocations", invocations, "--", *command,
               is_forked=True)


def of_today(several, each):
    """One of so many of these, each day others; all if all are wanted."""
    return [one for place, one in enumerate(several) if WHOLE or (place - TODAY) % each == 0]


def subscriber(name):
    """One that takes telemetry, run with the checks of that alone."""
    return Run("extension", "--name", "sound", *(word for one in OF_TELEMETRY for word in ("--only", one)), "--",
               *PYTHON, os.path.join(SHAPES, "subscribers.py"), name, is_forked=True)


def in_java(kind, *options):
    """A client in the shape of Java's, with one of its two libraries for HTTP, and a heap as it is by default."""
    with tempfile.TemporaryDirectory() as folder:
        subprocess.run(["javac", "-d", folder, os.path.join(SHAPES, "JavaRuntime.java")], check=True, timeout=300)
        fast = "-XX:TieredStopAtLevel=1"  # (each process is short: it starts in half the time)
        return Run("runtime", *options, "--", "java", fast, "-cp", folder, "JavaRuntime", kind)


def shipped_extension():
    return Run("extension", "--name", "extension.py", "--", sys.executable, os.path.join(EXAMPLES, "extension.py"))


def compiled(file, *compiler):
    """A runtime of examples/conformance that is compiled first."""
    with tempfile.TemporaryDirectory() as folder:
        built = os.path.join(folder, "bootstrap")
        subprocess.run([*compiler, "-o", built, file], cwd=HANDLERS, check=True, timeout=300,
                       env={"GOCACHE": os.path.join(folder, "cache"), **os.environ})
        return Run("runtime", "--", built)


def wrong(kind, mistake, is_whole):
    """Run with all scenarios, or with those of its own check."""
    settings, beside = {**kind.settings, **getattr(mistake, "settings", {})}, getattr(mistake, "beside", ())
    options = [word for name, value in settings.items() if value is not None for word in (f"--{name}", str(value))]
    options += [word for name in (() if is_whole else (mistake.check, *beside)) for word in ("--only", name)]
    with tempfile.TemporaryDirectory(dir=FOLDERS) as temporary:
        return Run(kind.name, *options, "--", *PYTHON, program(f"wrong_{kind.name}s.py"), mistake.__name__,
                   is_forked=True, TMPDIR=temporary, EVERYONES_FOLDER=temporary)


class Job(NamedTuple):
    """A run of the kit, and what judges it."""
    name: str  # by which it is chosen
    start: Callable
    arguments: tuple
    judge: str  # which takes the finished run, and these
    by: tuple

    def begun_in(self, pool):
        return self, pool.submit(self.start, *self.arguments)


def jobs_of_shapes():
    """Those of clients as there are."""
    if shutil.which("javac"):
        for kind, options in (("new", ("--invocations", "100")), ("old", ())):
            yield Job("sound", in_java, (kind, *options), "passes", (f"a Java client ({kind})",))
    for file, *compiler in (("runtime.c", "cc", "-O2"), ("runtime.rs", "rustc", "-O")):
        if shutil.which(compiler[0]):
            yield Job("sound", compiled, (file, *compiler), "passes", (file,))
    for name, command in in_shapes():
        yield Job("sound", other_runtime, command, "passes", (name,))
    for name, command in extensions_in_shapes():
        yield Job("sound", other_extension, command, "passes", (name,))


def jobs():
    """All of them. First come those that take longest: so none of them is the last one to begin."""
    if shutil.which("go"):
        yield Job("shipped", compiled, ("conformance.go", "go", "build"), "passes", ("conformance.go",))
    for name, command in shipped():
        yield Job("shipped", shipped_runtime, command, "passes", (name,))
    yield Job("shipped", shipped_extension, (), "passes", ("extension.py",))
    yield from of_today(jobs_of_shapes(), EACH_SHAPE)
    yield Job("sound", sound_runtime, (), "passes", ("the sound runtime", {"numbers", *LEAKS}))
    yield Job("sound", sound_extension, (), "passes",
              ("the sound extension", {"takes_logs", "takes_in_shutdown", *LEAKS}))
    for name, shape in subscribers.SHAPES.items():
        yield Job("sound", subscriber, (name,), "passes",
                  (f"an extension that {name}", {*shape.leaves_open, "takes_in_shutdown"}))
    mistakes = [(kind, mistake, mistake in of_today(kind.mistakes.values(), EACH) and not hasattr(mistake, "beside"))
                for kind in KINDS for mistake in kind.mistakes.values()]
    for one, mistake, is_whole in sorted(mistakes, key=lambda each: (not hasattr(each[1], "settings"), not each[2])):
        yield Job(mistake.__name__, wrong, (one, mistake, is_whole), "caught", (one, mistake))


SOMEWHERE = os.path.join("nowhere", "report.xml")
# Words that are refused, and what is said then.
WRONG_WORDS: Tuple[Tuple[List[str], str], ...] = (
    ([], "write one of runtime, extension, service"),
    (["runtimes"], "write one of runtime, extension, service"),
    (["runtime"], "write the command that is tested after --"),
    (["runtime", "--"], "write the command that is tested after --"),
    (["runtime", "--only", "nothing", "--", "true"], "--only nothing: there is no such scenario or check"),
    (["runtime", "--init-seconds", "soon", "--", "true"], "--init-seconds"),
    (["runtime", "--invocations", "1", "--", "true"], "1 is not a number from 10 to 1,000,000"),
    (["runtime", "--sometimes", "--", "true"], "--sometimes"),
    (["runtime", "--", "no_such_program"], "no_such_program is not a program"),
    (["runtime", "--junit", SOMEWHERE, "--", "true"], "--junit nowhere"),
    (["runtime", "--markdown", SOMEWHERE, "--", "true"], "--markdown nowhere"),
    (["runtime", "--badge", SOMEWHERE, "--", "true"], "--badge nowhere"),
    (["runtime", "--pictures", "/dev/null", "--", "true"], "--pictures /dev/null"),
    (["runtime", "--", "sh", "-c", "echo it is broken; exit 3"],
     "it ended with status 3 before it asked for anything, and wrote:\n  it is broken"),
    (["extension", "--", "true"], "write --name NAME"),
    (["extension", "--name", "x", "--events", "INVOKE,START", "--", "true"],
     "INVOKE,START: write INVOKE, SHUTDOWN or both"),
    (["extension", "--name", "x", "--", "true"], "it ended with status 0 before it asked for anything"))


def usages():
    """A run for each of these, and of two wrong environments: what tells of it, its start, what is said, the status."""
    for words, told in WRONG_WORDS:
        yield " ".join(words) or "no word", functools.partial(Run, *words), told, 2
    yield ("no program", functools.partial(Run, "runtime", "--program", "nowhere", "--", "true"),
           "nowhere is not a program", 4)
    yield ("no free port", functools.partial(Run, "runtime", "--", "true", LAMBDA_LOCAL_PORTS="1-1"),
           "LAMBDA_LOCAL_PORTS=1-1", 2)


# The tests whose runs go on beside all others, as many as there is room for, with what begins these.
POOL = concurrent.futures.ThreadPoolExecutor(AT_ONCE)
BESIDE = Beside({
    "wrong_usage": lambda: [(name, POOL.submit(start), told, status) for name, start, told, status in usages()],
    "programs": lambda: [job.begun_in(POOL) for job in jobs() if job.name in (CHOSEN or [job.name])]})
load_tests = BESIDE.load_tests


def processes_of(mark):
    """The processes that have this word in their command line or their environment."""
    found = []
    for name in filter(str.isdigit, os.listdir("/proc")):
        for part in ("cmdline", "environ"):
            try:
                with open(f"/proc/{name}/{part}", "rb") as file:
                    if mark.encode() in file.read() and name not in found:
                        found.append(name)
            except OSError:
                pass
    return found


def is_so(condition):
    """Waits until it holds, for a minute at most: whether it does."""
    end = time.monotonic() + 60
    while not condition() and time.monotonic() < end:
        time.sleep(0.05)
    return condition()


def ended_by(number):
    """A run that is ended by a signal: whether it had begun, its status, and which processes and files are left."""
    with tempfile.TemporaryDirectory() as temporary:
        process = subprocess.Popen([*TOOL, "runtime", "--", *PYTHON, program("sound_runtime.py")], cwd=HANDLERS,
                                   env={**os.environ, "TMPDIR": temporary}, stdout=subprocess.PIPE,
                                   stderr=subprocess.DEVNULL, text=True, start_new_session=True)
        assert process.stdout
        for _ in range(2):  # (the first verdict: the scenarios begin)
            process.stdout.readline()
        begun = is_so(lambda: len(processes_of(temporary)) > 3)
        process.send_signal(number)
        status = process.wait(120)
        process.stdout.close()
        is_so(lambda: not processes_of(temporary) and not os.listdir(temporary))
        return begun, status, processes_of(temporary), os.listdir(temporary)


class Conformance(Case):
    def passes(self, run, name, noted=None):
        """A program without a FAIL; `noted` are the checks that may be noted, none for any."""
        notes = run.verdicts("NOTE")
        seen = (run.status, run.verdicts("FAIL"), notes - (notes if noted is None else noted))
        self.check(f"{name} passes, with notes on {' '.join(sorted(notes)) or 'nothing'}", seen, (0, set(), set()))
        run.told(seen == (0, set(), set()))

    def caught(self, run, kind, mistake):
        """A wrong one has one FAIL, of its own check, or of one that cannot but catch it too: those that follow from
        the same cause are only named. One that is a NOTE or a SHOULD has no FAIL."""
        outcome, also = getattr(mistake, "outcome", "FAIL"), set(getattr(mistake, "also", ())) - {mistake.check}
        told = re.findall(r"^FAIL  (\w+)", run.output, re.MULTILINE)
        is_own = mistake.check in run.verdicts(outcome)
        seen = (run.status, len(told), is_own, [name for name in told if name not in {mistake.check, *also}])
        wanted: Tuple[int, int, bool, List[str]] = (1, 1, True, []) if outcome == "FAIL" else (0, 0, True, [])
        scenarios = "of some scenarios" if "--only" in run.words else "of all scenarios"
        self.check(f"{kind.name} {mistake.__name__} is a {outcome} of {mistake.check}, {scenarios}, and of no other "
                   "cause", seen, wanted)
        run.told(seen == wanted)

    def test_each_check_can_fail(self):
        for kind in KINDS:
            failed = {mistake.check for mistake in kind.mistakes.values() if getattr(mistake, "outcome",
                                                                                     "FAIL") == "FAIL"}
            self.check(f"{kind.name}: each check has a wrong one, but for those that cannot fail",
                       {one.name for one in kind.checks} - failed, LENIENT[kind.name])
            others = {mistake.check for mistake in kind.mistakes.values()} - failed
            self.check(f"{kind.name}: these have one that is a NOTE or a SHOULD", LENIENT[kind.name] - others, set())

    def test_programs(self):
        judges: Dict[str, Callable[..., None]] = {"passes": self.passes, "caught": self.caught}
        for job, run in BESIDE.begun("programs"):
            judges[job.judge](run.result(), *job.by)

    def test_a_failure_is_explained(self):
        with tempfile.TemporaryDirectory() as folder:
            file, pictures = os.path.join(folder, "report.xml"), os.path.join(folder, "pictures")
            run = Run("runtime", "--only", "error_type", "--junit", file, "--pictures", pictures, "--", *PYTHON,
                      program("wrong_runtimes.py"), "LosesTheErrorType")
            parts = ("expected  ", "page      Lambda Developer Guide", "invoke errors", "picture   ")
            words = [part for part in parts if part not in run.output]
            self.check("a FAIL says what is expected, by which page, and shows the timeline", (run.status, words),
                       (1, []))
            drawn = xml.parse(os.path.join(pictures, "errors.svg")).getroot()
            self.check("its picture is an SVG", drawn.tag.rpartition("}")[2], "svg")
            suite, = xml.parse(file).getroot().findall("testsuite")
            case, = suite.findall("testcase")
            self.check("JUnit has the one check", (suite.get("tests"), suite.get("failures"), case.get("name")),
                       ("1", "1", "error_type"))
            failure, = case.findall("failure")
            self.check("and what came", failure.get("message", "").startswith("the caller received "))
            self.check("and its details", "Invocation error" in (failure.text or ""))

    def test_wrong_usage(self):
        for name, run, told, status in BESIDE.begun("wrong_usage"):
            self.refused(name, run.result(), told, status)

    def refused(self, name, run, told, status):
        lines = 1 + told.count("\n")
        seen = (run.status, len(run.errors.splitlines()), told in run.errors)
        self.check(f"{name}: status {status} and {'one line' if lines == 1 else 'what it wrote'}", seen,
                   (status, lines, True))
        run.told(seen == (status, lines, True))

    def test_nothing_is_left(self):
        ends = ((signal.SIGINT, 130), (signal.SIGTERM, 143), (signal.SIGKILL, -9))
        with concurrent.futures.ThreadPoolExecutor(len(ends)) as pool:
            for (number, wanted), seen in zip(ends, pool.map(ended_by, (number for number, _ in ends))):
                self.check(f"after {number.name} nothing is left", seen, (True, wanted, [], []))

    def test_the_page_has_each_check(self):
        with open(os.path.join(ROOT, "docs", "conformance_checks.md"), encoding="utf-8") as file:
            page = file.read()
        for kind in KINDS:
            rows = [f"| `{one.name}` | {one.expected} | [{one.page.part}]({one.page.address}) |" for one in kind.checks]
            self.check(f"{kind.name}: docs/conformance_checks.md has each check as --list has it",
                       [row for row in rows if row not in page], [])
