"""Checks lambda_local conformance service: it finds nothing in lambda_local over a thousand random sequences and
nothing in a sound emulator, also if that takes the liberties that Lambda's pages leave, and each fault that is planted
in the emulator. The program is LAMBDA_LOCAL_PROGRAM, else ./lambda_local.

Variable: CONFORMANCE_FAULTS has the faults that alone are planted."""
import concurrent.futures
import os
import random
import re
import socket
import subprocess
import sys
import tempfile
import time
import xml.etree.ElementTree as xml
from typing import List, Tuple

from lambda_conformance.service import BATCH, FRESH_SHARE, known, oracle, pairs, sequences, wire
from lambda_conformance.service.random_sequences import Generator
from lambda_local.service import Service, free_ports, program_path
from tests import ROOT
from tests.library.cases import Beside, Case
from conformance.tests.forked_kit import Kits
from conformance.programs.emulator.faults import FAULTS, LIBERTIES, OF_PAIRS

EMULATOR = os.path.join(ROOT, "conformance", "programs", "emulator")
# Of runs, which wait most of the time: fewer at once than in test_conformance.py, which has more to do beside it.
POOL = concurrent.futures.ThreadPoolExecutor(4 * len(os.sched_getaffinity(0)))
CHOSEN = os.environ.get("CONFORMANCE_FAULTS", "").split()
PARTS, IN_PART = 8, 125  # of the random sequences for lambda_local, each part with a service and a seed of its own
IN_EMULATOR, SEED = 60, 1  # random sequences, and what they come from
MOST_CALLS = 11  # of the fewest that show a difference: eleven extensions
SERVICE_TIMEOUT, EMULATOR_TIMEOUT = 4, 3  # of the functions, in seconds

# What each fault shows as: the words of the call, of the definitions' answer, and of the respect in which it differs.
# By the meaning of the fault there may be two.
SHOWS_AS = {
    "answers-twice": {"response State status", "failure State status"},
    "loses-error-type": {"invoke error report"},
    "hides-function-error": {"invoke error function-error"},
    "accepts-stale-id": {"response BadId status", "failure BadId status"},
    "delivers-to-older-poll": {"next Replaced connection", "next waits answered"},
    "takes-late-responses": {"response State status"},
    "drops-deadline": {"next deliver deadline"},
    "misses-readiness": {"next waits answered"},
    "tells-shutdown-to-all": {"ext-next Container status", "ext-next Unknown status"},
    "throttles-early": {"invoke waits answered"},
    "queues-invokes": {"invoke throttled connection"},
    "keeps-extensions": {"ext-next Unknown status", "ext-next Unknown connection", "ext-exit-failure Unknown status"},
    "refuses-otherwise": {"response State refusal", "failure State refusal"},
    "handles-errors": {"invoke error function-error", "invoke error-of-init function-error",
                       "invoke error-of-extension function-error", "invoke timeout function-error"},
    "loses-the-version": {"invoke output executed-version", "invoke error executed-version"},
    "invents-request-ids": {"invoke output request-id", "invoke error request-id"},
    "sends-plain-text": {"register registered content-type", "next deliver content-type"},
    "tells-the-account": {"register registered member-accountId"},
    "loses-the-qualifier": {"next deliver qualifier"},
    "reencodes-events": {"next deliver payload"},
    "reencodes-outputs": {"invoke output output"},
    "reencodes-reports": {"invoke error report"},
    "minifies-events": {"next deliver payload"},
    "minifies-outputs": {"invoke output output"},
    "loses-the-cause": {"invoke error report"},
    "leaves-empty-events": {"next deliver payload"},
    "loses-the-trace": {"next deliver trace-id"},
    "cuts-the-trace": {"next deliver trace-id"},
    "tells-a-later-deadline": {"ext-next tell deadline", "invoke timeout moment"},
    "tells-seconds": {"next deliver deadline"},
    "tells-events-another-deadline": {"ext-next tell deadline"},
    "times-out-late": {"invoke timeout moment"},
    "times-out-early": {"invoke timeout moment", "next waits answered", "response-too-large TooLarge refusal"},
    "takes-eleven-extensions": {"register TooMany status"},
    "takes-a-name-twice": {"register NameInUse status"},
    "registers-late": {"register State status"},
    "tells-another-reason": {"ext-next shutdown reason"},
    "tells-no-shutdown": {"ext-next shutdown status", "ext-next shutdown connection"},
    "tells-no-invoke": {"ext-next tell connection"},
    "tells-another-request": {"ext-next tell request-id"},
    "takes-what-is-too-large": {"response-too-large TooLarge status", "invoke too-large-output function-error"},
    "refuses-the-greatest": {"response accepted status", "invoke output function-error"},
    "cuts-outputs": {"invoke output output"},
    "cuts-events": {"next deliver payload"},
    "accepts-with-200": {"init-failure accepted status"},
    "throttles-with-503": {"invoke throttled status"},
    "names-no-throttling": {"invoke throttled error-type"},
    "repeats-identifiers": {"next deliver request-id"},
    "delivers-to-gone-polls": {"next deliver connection", "next deliver status", "next waits answered"},
    "ends-with-its-caller": {"response accepted status"},
    "goes-on-after-failures": {"ext-next shutdown connection", "invoke error-of-extension connection",
                               "init-failure accepted status", "ext-exit-failure accepted status"},
    "ends-polls": {"next waits answered"},
    "forgets-the-name": {"register registered member-functionName"},
    "flags-outputs": {"invoke output function-error"},
    "counts-characters": {"next deliver connection", "next deliver payload", "invoke output connection",
                          "invoke output output"},
    "types-by-number": {f"{call} {label} member-errorType"
                        for call in ("response", "failure", "next", "ext-next", "init-failure", "register")
                        for label in ("State", "Replaced", "BadId", "Unknown", "Container")},
    "breaks-down": {"response-too-large TooLarge connection", "invoke too-large-output connection"},
    "tells-another-arn": {"ext-next tell function-arn"},
    "tells-no-trace": {"ext-next tell tracing"},
    "tells-a-later-end": {"ext-next shutdown deadline"},
    "counts-the-init": {"next deliver deadline"},
    "needs-no-error-type": {"ext-init-failure without-error-type status", "ext-exit-failure without-error-type status"},
    "registers-for-anything": {"register unknown-event status"},
    "loses-init-reports": {"invoke error-of-init report"},
    "answers-null-for-extensions": {"invoke error-of-extension member-errorType"},
    "takes-any-payload": {"invoke not-json connection", "invoke not-json status"},
    "takes-any-length": {"invoke too-large connection", "invoke too-large status"},
    "takes-any-type": {"invoke unknown-type connection", "invoke unknown-type status"},
    "takes-any-version": {"invoke unknown-version connection", "invoke unknown-version status"},
    "takes-any-function": {"invoke unknown-function connection", "invoke unknown-function status"},
    "waits-for-no-extension": {"next waits answered"},
    "forgets-the-deadline": {"ext-next shutdown connection"},
}


SHOWS_IN_PAIRS = {
    "uses-one-environment": {"invoke waits answered", "next deliver connection"},
    "mixes-environments": {"response BadId status", "failure BadId status"},
    "ends-both-environments": {"invoke waits answered", "next waits answered", "ext-next waits answered",
                               "ext-exit-failure accepted status"},
    "shares-extensions": {"ext-next Unknown status", "ext-next Unknown connection"},
    "times-out-both-environments": {"next waits answered", "ext-next waits answered"},
}
UNSEEN = {"names-the-request"}  # liberties that are no difference to accept
# Found by a request of its own.
WITHOUT_A_SEQUENCE = {"accepts-with-200", "needs-no-error-type", "registers-for-anything", "takes-any-payload",
                      "takes-any-length", "takes-any-type", "takes-any-version", "takes-any-function"}


def remember_replays():
    """Asks the definitions once about what all runs against the emulator play, which are forked of this process. (What
    a run asks beside that is asked as ever.)"""
    replayed, remembered = oracle.Oracle._replay, {}

    def replayed_once(self, lines):
        script = (self.program, *lines)
        if script not in remembered:
            remembered[script] = replayed(self, lines)
        return remembered[script]

    oracle.Oracle._replay = replayed_once  # type: ignore[assignment]
    asked, source = oracle.Oracle(program_path(), EMULATOR_TIMEOUT), Generator(random.Random(SEED))
    for start, share in ((oracle.FRESH, FRESH_SHARE), (oracle.WARM, 1 - FRESH_SHARE)):
        batches = [source.sequences(start, BATCH) for _ in range(0, round(IN_EMULATOR * share), BATCH)]
        for texts in (sequences.worked(start), sequences.timed(start), *batches):
            sequences.plans_of(texts, asked)
    pairs.pairs_of(oracle.Oracle(program_path(), EMULATOR_TIMEOUT, 2))


KITS = Kits({}, remember_replays)  # (before there are threads)


class Run:
    """A finished run of the tool."""

    def __init__(self, *words):
        self.status, self.output, self.errors = KITS.run(["service", *words], ROOT, dict(os.environ), 1500)

    @property
    def words(self):
        """Of each difference, its three words."""
        return re.findall(r"^DIFFERENCE  (\S+ \S+ \S+): ", self.output, re.MULTILINE)

    @property
    def calls(self):
        """How many calls are reported."""
        return len(re.findall(r"^        [> ]  ?\d+ +\d+ ms  ", self.output, re.MULTILINE))

    @property
    def random(self):
        found = re.search(r"\((\d+) random\)", self.output)
        return int(found[1]) if found else 0

    def told(self, passed):
        if not passed:
            print(self.output, self.errors[-1000:], flush=True)


def against_emulator(faults, *words, is_pair=False):
    """A run against an emulator with these faults, with one environment or with two."""
    numbers = map(str, (2 if is_pair else 1, EMULATOR_TIMEOUT))
    emulator = subprocess.Popen([sys.executable, "-S", os.path.join(EMULATOR, "emulator.py"), *numbers, *faults],
                                stdout=subprocess.PIPE, text=True, start_new_session=True)
    assert emulator.stdout
    try:
        _, invoke_port, runtime_port, *more = emulator.stdout.readline().split()
        second = [word for port in more for word in ("--second", f"127.0.0.1:{port}")]
        return Run("--invoke", f"http://127.0.0.1:{invoke_port}", "--runtime", f"127.0.0.1:{runtime_port}", *second,
                   *words)
    finally:
        emulator.kill()
        emulator.wait()
        emulator.stdout.close()


def against_lambda_local(*words, environments=1):
    function = {"name": "function", "ports": [0] * environments, "timeout": SERVICE_TIMEOUT}
    service = Service({"account": "123456789012", "region": "us-east-1", "functions": [function]})
    try:
        port, *more = service.configuration["functions"][0]["ports"]
        second = [word for other in more for word in ("--second", f"127.0.0.1:{other}")]
        return Run("--invoke", service.endpoint_url, "--runtime", f"127.0.0.1:{port}", *second, *words)
    finally:
        service.kill()


def against(name):
    """The run against the emulator with the fault of this name, or without a fault."""
    return against_emulator(() if name == "sound" else (name,), "--seed", str(SEED), "--sequences", str(IN_EMULATOR),
                            "--most", "1")


def runs(name, *keys):
    """What begins a run for each of these, with its key."""
    return lambda: {key: POOL.submit(name, key) for key in keys}


def part(seed):
    return against_lambda_local("--seed", str(seed), "--sequences", str(IN_PART))


def pair(name):
    if name == "lambda_local":
        return against_lambda_local(environments=2)
    return against_emulator(() if name == "sound" else (name,), "--most", "1", is_pair=True)


# Of each test, its runs, which go on beside all others: those that take longest first.
BESIDE = Beside({
    "nothing_in_lambda_local": runs(part, *range(PARTS)),
    "two_environments": runs(pair, *OF_PAIRS, "lambda_local", "sound"),
    "nothing_in_a_sound_emulator": runs(against, "sound"),
    "what_is_left_open": runs(against, *LIBERTIES),
    "each_fault_is_found": runs(against, *reversed(CHOSEN or FAULTS))})
load_tests = BESIDE.load_tests


def all_pairs():
    """The sequences with two environments, each of which is played."""
    return sequences.sequences_of(pairs.PAIRS, oracle.FRESH)


class ConformanceService(Case):
    def test_nothing_in_lambda_local(self):
        ended = {seed: run.result() for seed, run in BESIDE.begun("nothing_in_lambda_local").items()}
        for seed, run in ended.items():
            seen = (run.status, run.words)
            self.check(f"nothing differs in lambda_local: {(run.output.splitlines() or [''])[-1]}, seed {seed}", seen,
                       (0, []))
            run.told(seen == (0, []))
        self.check("a thousand random sequences", sum(run.random for run in ended.values()) >= PARTS * IN_PART)

    def test_nothing_in_a_sound_emulator(self):
        run = BESIDE.begun("nothing_in_a_sound_emulator")["sound"].result()
        self.check(f"nothing differs in an emulator without a fault: {(run.output.splitlines() or [''])[-1]}",
                   (run.status, run.words), (0, []))
        run.told(run.status == 0)

    def test_what_is_left_open(self):
        for name, started in BESIDE.begun("what_is_left_open").items():
            run = started.result()
            seen = (run.status, run.words, "accepted " in run.output or name in UNSEEN)
            last = (run.output.splitlines() or [""])[-1]
            self.check(f"nothing differs if {LIBERTIES[name]}: {last}", seen, (0, [], True))
            run.told(seen == (0, [], True))

    def test_each_fault_is_found(self):
        self.check("each fault has what it shows as", set(FAULTS) ^ set(SHOWS_AS), set())
        for name, started in BESIDE.begun("each_fault_is_found").items():
            run = started.result()
            least = 0 if name in WITHOUT_A_SEQUENCE else 1
            seen = (run.status, len(run.words), bool(set(run.words) & SHOWS_AS[name]), least <= run.calls <= MOST_CALLS)
            title = next((line for line in run.output.splitlines() if line.startswith("DIFFERENCE")), "nothing")
            last = (run.output.splitlines() or [""])[-1]
            self.check(f"{name} is found, with {run.calls} calls: {title[:160]}; {last}", seen, (1, 1, True, True))
            run.told(seen == (1, 1, True, True))

    def test_two_environments(self):
        ended = {name: run.result() for name, run in BESIDE.begun("two_environments").items()}
        for name in ("lambda_local", "sound"):
            run = ended[name]
            seen = (run.status, run.words, f"{len(all_pairs())} sequences" in run.output)
            self.check(f"with two environments nothing differs: {name}", seen, (0, [], True))
            run.told(seen == (0, [], True))
        self.check("each fault of two environments has what it shows as", set(OF_PAIRS) ^ set(SHOWS_IN_PAIRS), set())
        for name in OF_PAIRS:
            run = ended[name]
            found = (run.status, bool(set(run.words) & SHOWS_IN_PAIRS[name]))
            self.check(f"{name} is found: {' '.join(run.words) or 'nothing'}", found, (1, True))
            run.told(found == (1, True))

    def test_each_worked_sequence_is_played(self):
        found = oracle.Oracle(program_path(), SERVICE_TIMEOUT)
        for start in (oracle.FRESH, oracle.WARM):
            texts = [*sequences.worked(start), *sequences.timed(start)]
            played = {plan.sequence.name for plan in sequences.plans_of(texts, found)}
            self.check(f"each of {len(texts)} worked sequences ({start}) is played", {one.name for one in texts}
                       - played, set())

    def test_differences_can_be_known(self):
        with tempfile.TemporaryDirectory() as folder:
            file, report = os.path.join(folder, "known.txt"), os.path.join(folder, "report.xml")
            with open(file, "w") as lines:
                lines.write("# The flag is on its way.\ninvoke * function-error  # of each failure\n\n")
            words = ("--seed", "1", "--sequences", "1", "--most", "1", "--junit", report)
            run = against_emulator(("hides-function-error",), "--known", file, *words)
            self.check("an accepted difference is counted", (run.status, f"times: {file}, line 2" in run.output),
                       (0, True))
            run.told(run.status == 0)
            suite, = xml.parse(report).getroot().findall("testsuite")
            self.check("JUnit has no failure", suite.get("failures"), "0")
            run = against_emulator(("hides-function-error",), *words)
            failure = next(xml.parse(report).getroot().iter("failure"), None)
            shown = failure is not None and "invoke a" in (failure.text or "")
            self.check("without the file it is a failure in JUnit, with its calls", (run.status, shown), (1, True))
            self.check("the report has the page", "API_Invoke.html" in run.output)
            behind = run.output.partition("      script\n")[2].splitlines()
            script = "".join(f"{line.strip()}\n" for line in behind if line.startswith("        "))
            replayed = subprocess.run([program_path(), "replay"], input=script, capture_output=True, text=True)
            self.check("its script can be replayed, and has the error",
                       (replayed.returncode, " error =" in replayed.stdout),
                       (0, True))

    def test_answers_that_are_there_are_not_waited_for(self):
        with socket.create_server(("127.0.0.1", 0)) as server:
            sender = wire.Wire()
            sent = [sender.send(server.getsockname(), "GET", "/") for _ in range(2)]
            for connection, _ in [server.accept() for _ in sent]:
                with connection:
                    connection.sendall(b"HTTP/1.1 200 OK\r\nContent-Length: 0\r\n\r\n")
            sender.collect(sent, 60)
            begun = time.monotonic()
            sender.collect(sent[1:], 60)
            self.check("two answers that came together", (sent[1].status, time.monotonic() - begun < 30), (200, True))
            sender.drop()

    def test_built_in_points_stand_in_the_page(self):
        with open(os.path.join(ROOT, "docs", "differences.md"), encoding="utf-8") as file:
            points = {line.split(" | ")[0][2:] for line in file if line.startswith("| ")}
        built_in = {one.why for one in known.BUILT_IN} | set(known.COMPARED_LOOSELY)
        self.check("each difference that is accepted stands in docs/differences.md", built_in - points, set())

    def test_wrong_usage(self):
        free, other = free_ports(2, set())
        silent = socket.create_server(("127.0.0.1", 0))
        silent_port = silent.getsockname()[1]
        here = ["--invoke", f"http://127.0.0.1:{free}", "--runtime", f"127.0.0.1:{other}"]
        with tempfile.TemporaryDirectory() as folder:
            bad = os.path.join(folder, "known.txt")
            with open(bad, "w") as file:
                file.write("# two words\nnext deliver\n")
            cases: Tuple[Tuple[List[str], str], ...] = (
                ([], "write --invoke URL"),
                (here[:2], "write --runtime HOST:PORT"),
                (["--invoke", "127.0.0.1:8080", *here[2:]], "--invoke 127.0.0.1:8080: write the URL"),
                ([*here[:2], "--runtime", "9001"], "--runtime 9001: write HOST:PORT"),
                ([*here, "--sequences", "0"], "0 is not a number from 1"),
                ([*here, "--seconds", "soon"], "--seconds"),
                ([*here, "--known", os.path.join(folder, "nothing")], "No such file"),
                ([*here, "--known", bad], "known.txt: line 2 has 2 words: write three"),
                ([*here, "--junit", os.path.join(folder, "no", "report.xml")],
                 "name a file in a folder that can be written"),
                ([*here, "--program", "nowhere"], "nowhere is not a program"),
                (here, f"127.0.0.1:{other}: no service answers there"),
                ([*here[:2], "--runtime", f"127.0.0.1:{silent_port}"],
                 f"127.0.0.1:{free}: no service answers there"),
                (["--invoke", f"http://127.0.0.1:{silent_port}", "--runtime", f"127.0.0.1:{silent_port}"],
                 "is not answered within 2 s"))
            for words, told in cases:
                run = Run(*words)
                self.check(f"{' '.join(words) or 'no word'}: status 2 and one line",
                           (run.status, len(run.errors.splitlines()), told in run.errors), (2, 1, True))
                run.told(told in run.errors)
        silent.close()
        service = Service({"account": "123456789012", "region": "us-east-1",
                           "functions": [{"name": "f", "ports": [0]}]})
        run = Run("--invoke", service.endpoint_url, "--runtime", f"127.0.0.1:{service.port}")
        service.kill()
        self.check("a port without a Runtime API: status 2",
                   (run.status, "is answered 404: no Runtime API listens there" in run.errors), (2, True))
        run.told(run.status == 2)
