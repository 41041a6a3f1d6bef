"""How a must-fail edit is tried: the prover checks a copy of the crate with the edit, and must refuse it by a promise.
An edit's twin, which changes nothing, must still be proved."""
import atexit
import contextlib
import os
import re
import shutil
import signal
import subprocess
import tempfile
import threading
from typing import Dict, Iterator, List, NamedTuple, Optional, Sequence

from prover import check_words
from tests.library import edits

# How a check that read the crate to its end tells that not all is proved: of some functions how many are, or of all.
ENDED = re.compile(r"^only=(\d+) proved=(\d+)$")
NOT_PROVED = "logic=not-proved"
# A proof that no longer holds, or a promise that the search for a proof did not reach.
REFUSED = re.compile(r": not proved$|: no proof: .*`search` did not prove ")
# What is wrong at a place, and which of that is only a hand-written proof that names what the edit took away.
TOLD = re.compile(r"note: \S+:\d+:\d+:|\S+:\d+:\d+: error")
NAMES = re.compile(r"(note: )?(\./)?proofs/.*(has no field|is not in scope|has no `|was not admitted)")
# What the prover says of a name that several functions have.
SEVERAL = re.compile(r"several functions are named `([^`]*)`: help: write one of (.*)")
NO_VERDICT, BY_NAMES = "no verdict", "refused by names alone"  # how faults begin
SECONDS, CPU_SECONDS = 1500, 720  # the most for one check; on a slow host one takes three times what it does on another


class Check(NamedTuple):
    """The status of a check (None if it met a bound of time), what it printed, and its CPU seconds."""
    status: Optional[int]
    lines: List[str]
    seconds: float


class Trial(NamedTuple):
    """Why an edit is not refused, or a twin is not proved; nothing if it is. If time ran out, it is not decided. And by
    what an edit is refused."""
    fault: str
    seconds: float
    is_decided: bool = True
    by: str = ""


class Works:
    """Folders with what checks of a crate have proved, which the next one of that crate takes as far as it is up to
    date: so it checks what its edit changes, and not all that this calls once more. Each serves one check at a time."""

    def __init__(self) -> None:
        self.lock, self.top = threading.Lock(), ""
        self.free: Dict[str, List[str]] = {}

    @contextlib.contextmanager
    def of(self, crate: str) -> Iterator[str]:
        with self.lock:
            if not self.top:
                self.top = tempfile.mkdtemp(prefix="must_fail.")
                atexit.register(shutil.rmtree, self.top, ignore_errors=True)
            free = self.free.setdefault(crate, [])
            work = free.pop() if free else tempfile.mkdtemp(prefix=f"{crate}.", dir=self.top)
        try:
            yield work
        finally:
            with self.lock:
                free.append(work)


WORKS = Works()


def lay_out(crate: str, texts: Dict[str, str], room: str) -> None:
    """Copies a crate's folder, with these texts in place of its own."""
    for part in ("src", "specs", "proofs"):
        if os.path.isdir(f"{crate}/{part}"):
            shutil.copytree(f"{crate}/{part}", f"{room}/{part}")
    for path, text in texts.items():
        with open(f"{room}/{path}", "w", encoding="utf-8") as file:
            file.write(text)


def run(words: Sequence[str], folder: str, seconds: float) -> Check:
    """Runs a check, which is ended after these seconds, or CPU_SECONDS of CPU time."""
    bounded = ["sh", "-c", f'ulimit -t {CPU_SECONDS}; exec "$@"', "sh", *words]
    with tempfile.TemporaryFile("w+", errors="replace") as said:
        child = subprocess.Popen(bounded, cwd=folder, stdin=subprocess.DEVNULL, stdout=said, stderr=subprocess.STDOUT,
                                 start_new_session=True)
        watch = threading.Timer(seconds, end, [child.pid])
        watch.start()
        _, ended, used = os.wait4(child.pid, 0)
        watch.cancel()
        child.returncode = os.waitstatus_to_exitcode(ended)
        said.seek(0)
        return Check(child.returncode if child.returncode >= 0 else None, said.read().rstrip("\n").split("\n"),
                     used.ru_utime + used.ru_stime)


def end(child: int) -> None:
    with contextlib.suppress(ProcessLookupError):
        os.killpg(child, signal.SIGKILL)


def check(root: str, crate: str, functions: Sequence[str], texts: Dict[str, str], built: str, seconds: float,
          anew: bool = False) -> Check:
    """Checks functions of an edited crate, or all of it, over the libraries that `rt ci` has proved in `built`, and,
    unless it is to be done anew, over what earlier checks have proved."""
    with tempfile.TemporaryDirectory() as room, WORKS.of(crate) as work:
        lay_out(f"{root}/crates/{crate}", texts, room)
        kept = [] if anew else ["--incremental", work]
        made = run([*check_words(root, built, crate, functions), *kept], room, seconds)
    several = SEVERAL.search("\n".join(made.lines))
    if several:  # of these, the ones of the files that the edit changes
        modules = {f"{crate}::{os.path.splitext(it)[0].removeprefix('src/').replace('/', '::')}::" for it in texts}
        named = [it for it in re.findall("`([^`]*)`", several[2]) if any(map(it.startswith, modules))]
        if named and [*functions] != named:
            return check(root, crate, [*({*functions} - {several[1]}), *named], texts, built, seconds, anew)
    return made


def functions_of(root: str, name: str) -> List[str]:
    """The functions on which an edit or a twin is tried; none if it is on its whole crate."""
    path, crate = edits.path_of(root, name), f"{root}/crates/{name.split('/')[0]}"
    function = edits.function_of(path) or edits.place_of(path)
    return [function] if function else edits.functions_of(path, crate)


def trial(root: str, name: str, built: str, seconds: float = SECONDS) -> Trial:
    """Tries an edit, or a twin; once more, anew, if over what earlier checks have proved it is not as it should be."""
    made = trial_once(root, name, built, seconds, False)
    if not made.fault or not made.seconds or made.fault.startswith((NO_VERDICT, BY_NAMES)):
        return made
    again = trial_once(root, name, built, seconds, True)
    return again._replace(seconds=made.seconds + again.seconds)


def trial_once(root: str, name: str, built: str, seconds: float, anew: bool) -> Trial:
    crate, is_twin = name.split("/")[0], name.endswith(edits.TWIN)
    try:
        texts = edits.edited(edits.path_of(root, name), f"{root}/crates/{crate}", "same" if is_twin else "new")
    except ValueError as why:
        return Trial(f"it does not fit: {why}", 0)
    made = check(root, crate, functions_of(root, name), texts, built, seconds, anew)
    if made.status is None:
        is_costly = made.seconds > CPU_SECONDS - 2
        return Trial(f"{NO_VERDICT} within {f'{CPU_SECONDS} CPU seconds' if is_costly else f'{seconds} s'}",
                     made.seconds, is_costly)
    fault = fault_of_twin(made.status, made.lines) if is_twin else fault_of_edit(made.status, made.lines)
    return Trial(fault, made.seconds, by="" if fault or is_twin else reason_of(made.lines))


def fault_of_edit(status: int, lines: List[str]) -> str:
    """Why the check of an edited crate does not refuse the edit by a promise; nothing if it does. It has to read the
    crate to its end, and leave one of the functions, or of those that they call, unproved."""
    if status == 0:
        return "still proved"
    if not has_ended(status, lines):
        return "\n     ".join([f"the check ended with status {status}, and said", *lines[-6:]])
    unproved = [it for it in lines if it.startswith("fn ") and not it.endswith(": proved")]
    if not any(map(REFUSED.search, unproved)):
        return "\n     ".join(["no function is refused:", *unproved, *lines[-3:]])
    told = [it for it in lines if TOLD.match(it)]
    if told and all(map(NAMES.match, told)):
        return (f"{BY_NAMES}: a hand-written proof names what the edit takes away, which says nothing of the promise; "
                f"change a value and keep the names: {told[0][:160]}")
    return ""


def reason_of(lines: List[str]) -> str:
    """By what an edit is refused: what is first told of a promise, else of a function."""
    told = [it for it in lines if TOLD.match(it) and not NAMES.match(it)]
    return next(iter(told + [it for it in lines if REFUSED.search(it)]), "")[:160]


def fault_of_twin(status: int, lines: List[str]) -> str:
    """Why the check of a crate with an edit's twin does not prove it; nothing if it does."""
    if status == 0:
        return ""
    told = [it for it in lines if TOLD.match(it)] or lines[-3:]
    return "\n     ".join(["it changes nothing, and is not proved: the edit shows little of the promise:",
                           *(it[:160] for it in told[:3])])


def has_ended(status: int, lines: List[str]) -> bool:
    counts = ENDED.match(lines[-1])
    return status == 1 and bool(lines[-1] == NOT_PROVED or counts and int(counts[2]) < int(counts[1]))
