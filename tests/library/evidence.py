"""Whether what was shown once still belongs to these sources: edits fit, the released program is of them, and how many
commits ago what the gate does not run was last run."""
import glob
import gzip
import hashlib
import os
import re
import shutil
import subprocess

from tests.library import edits, ratios, refusals, speeds
from tests.library.gate_record import CRATES, MARK, SCRATCH, line_of, seconds_of, with_costs
from tests.library.page_facts import pages_of, text_of
from tests.library.refusals import git

SOURCES = ("src", "specs", "proofs")
# For a release, an edit was tried at most so many commits ago that changed what it stands on, and figures were measured
# at most so many ago that changed sources of crates. (docs/checks.md tells both.)
OLDEST, OLDEST_FIGURES = 30, 100


def edits_of(root):
    """Each edit of the repository with the folder of its crate."""
    for edit in sorted(glob.glob(f"{root}/tests/must_fail/*/*.edit")):
        yield edit, f"{root}/crates/{os.path.basename(os.path.dirname(edit))}"
    for edit in sorted(glob.glob(f"{root}/tests/definitions/*.edit")):
        yield edit, f"{root}/crates/call_model"


def misfits(root):
    for edit, crate in edits_of(root):
        fault = edits.misfit(edit, crate)
        if fault:
            yield f"{os.path.relpath(edit, root)}: {fault}"


def broken_release(root):
    """What is wrong with the released program, whatever sources it is of."""
    proved = text_of(root, "release", "PROVED")
    try:
        with gzip.open(f"{root}/release/lambda_local.gz") as file:
            released = hashlib.sha256(file.read()).hexdigest()
    except OSError as fault:
        yield f"lambda_local.gz cannot be read: {fault}"
        return
    if released != line_of(proved, "program"):
        yield "lambda_local.gz does not have the sha256 that PROVED names"
    if not re.fullmatch(r"[1-9]\d* passed, 0 failed", line_of(proved, "gate")):
        yield f"PROVED names no gate that passed: {line_of(proved, 'gate')!r}"
    scratch = text_of(root, SCRATCH)
    built = line_of(scratch, "program")
    if built and line_of(scratch, "sources") == line_of(proved, "sources") and built != line_of(proved, "program"):
        yield f"{SCRATCH} tells of another program of these sources, {built}"


def old_release(root):
    """By what the released program is not of these sources. Which kit proved it is a fact about the release, whatever
    kit this machine has."""
    proved = text_of(root, "release", "PROVED")
    stamp = subprocess.run([f"{root}/lambda_local", "stamp"], stdout=subprocess.PIPE, text=True).stdout
    if line_of(stamp, "sources") not in ("", line_of(proved, "sources")):
        since = git(root, "log", "-1", "--format=%h", "--", "release/PROVED")
        changes = git(root, "rev-list", "--count", f"{since}..HEAD", "--", "crates", "crates.txt", "HANDLES")
        yield f"it is of other sources: {changes or 'unknown'} commits since {since or 'it'} changed crates"


def kit_beside(root):
    """What to say of this machine's kit beside the one that proved the release; nothing if they are the same."""
    proved = line_of(text_of(root, "release", "PROVED"), "kit")
    if not shutil.which("rt"):
        return
    here = subprocess.run(["rt", "version"], stdout=subprocess.PIPE, text=True).stdout.strip()
    if here != proved:
        is_same = here.split(" logic ")[-1] == proved.split(" logic ")[-1]
        yield f"it was proved by {proved}, and here is {here}: {'the same' if is_same else 'another'} logic"


def age_of_gate(root):
    """When the whole gate last passed from scratch, as far as the tree says."""
    record = text_of(root, ".ci", "LAST_FROM_SCRATCH")
    commit = line_of(record, "commit").removesuffix("-dirty")
    if not is_known(root, commit):
        return f"LAST_FROM_SCRATCH names {commit or 'no commit'}, which git does not know"
    cost = ", ".join(f"{line_of(record, word)} {word.replace('_', ' ')}" for word in ("processors", "minutes",
                                                                                      "cpu_minutes"))
    return f"last passed from scratch at {age(root, commit)}: {line_of(record, 'gate')}, {cost}"


def age_of_costs(root):
    """When the CPU seconds of all crates were last recorded."""
    record = text_of(root, CRATES)
    if not record:
        return f"there is no {CRATES} yet: tests/gate --keep writes it once the CPU seconds of all crates are known"
    commit = line_of(record, "commit").removesuffix("-dirty")
    found = f"{sum(seconds_of(record).values()) / 60:.0f} CPU minutes of all crates were recorded at"
    return f"{found} {age(root, commit) if is_known(root, commit) else f'{commit}, which git does not know'}"


def is_known(root, commit):
    return bool(git(root, "rev-parse", "--verify", "-q", f"{commit}^{{commit}}"))


def age(root, commit):
    """How many commits ago that was, and how many of them changed sources of crates."""
    if git(root, "rev-parse", "--is-shallow-repository") != "false":
        return f"{commit}: this checkout has no whole history"
    count = git(root, "rev-list", "--count", f"{commit}..HEAD")
    return f"{commit}, {count} commits ago, {changes_since(root, commit)} of which changed sources of crates"


def changes_since(root, commit):
    """How many commits since then changed sources of crates."""
    sources = [f":(glob)crates/*/{it}/**" for it in SOURCES]
    return int(git(root, "rev-list", "--count", f"{commit}..HEAD", "--", *sources) or 0)


def parts_of(root):
    """Each page with its parts and their titles."""
    for page in pages_of(root):
        for part in re.split(r"^(?=## )", text_of(root, page), flags=re.M):
            yield page, part.split("\n")[0].strip("# "), part


def ages(root):
    """The figures that are held to an age: their page and part, and the commit at which they were measured, on the page
    or by a gate. Instructions are counted anew, and some stay with their commits."""
    anew = ratios.measured_at(root, text_of(root, ratios.PAGE), ratios.known(root))
    for page, title, part in parts_of(root):
        if page != ratios.PAGE or title not in (speeds.PART, *ratios.STAYING):
            for commit in ratios.MARK.findall(part):
                yield f"{page}: {title}", anew.get(title, commit) if page == ratios.PAGE else commit


def too_old(root, oldest=OLDEST, oldest_figures=OLDEST_FIGURES):
    """For each of these its name, and the fault if it is too old for a release, else nothing. (A checkout without its
    whole history cannot tell.)"""
    if git(root, "rev-parse", "--is-shallow-repository") != "false":
        return
    yield old_edits(root, oldest)
    for name, commit in ages(root):
        if not is_known(root, commit):
            yield f"{name}: its age", f"it was run at {commit or 'no commit'}, which git does not know"
            continue
        changes = changes_since(root, commit)
        yield f"{name}: its age", "" if changes <= oldest_figures else (
            f"measured at {commit}: {changes} commits since changed sources of crates, and {oldest_figures} are the "
            f"most; bench/ renews it, and tests/figures measures the ratios of docs/speed.md")


def old_edits(root, oldest):
    """The name of a check that no edit and no twin was last tried too long ago, and its fault, else nothing."""
    ages = refusals.ages(root, refusals.known(root))
    old = [name for name, age in ages.items() if age is None or age > oldest]
    return "tests/must_fail: the age of the edits", "" if not old else (
        f"{len(old)} of {len(ages)} edits and twins were not tried in the last {oldest} commits that changed what they "
        f"stand on, as {old[0]}; each gate tries some, tests/must_fail/run all, and tests/gate --keep notes them here")


def untwinned(root):
    """The gate's edits of a function with a proof of its own that have no twin: only that shows that the proof does not
    refuse each change of the function."""
    for name in edits.names_of(root):
        edit, crate = edits.path_of(root, name), name.split("/")[0]
        place = edits.function_of(edit).replace("::", "/")
        if place and not edits.has_twin(edit) and glob.glob(f"{root}/crates/{crate}/proofs/**/{place}", recursive=True):
            yield f"{name}: {place.split('/')[-1]} has a proof of its own, and the edit no line `same`"


def mismeasured(root):
    """What is wrong with the table of sections that were measured."""
    try:
        ratios.read(os.path.join(root, ratios.NOTED))
    except ValueError as fault:
        yield str(fault).replace(f"{root}/", "")


def ratios_of_page(_root, text):
    yield from ratios.faults(text)


def limits(_root, text):
    """The page tells the greatest ages at which there is a release, and no others."""
    told = [int(it) for it in re.findall(r"more than (\d+) (?:such )?commits", text)]
    if {*told} != {OLDEST, OLDEST_FIGURES}:
        yield f"says more than {' and '.join(map(str, told))} commits, and these are {OLDEST} and {OLDEST_FIGURES}"


def misnoted(root):
    """What is wrong with the table of edits that were refused."""
    try:
        table = refusals.read(os.path.join(root, refusals.NOTED))
    except ValueError as fault:
        yield str(fault).replace(f"{root}/", "")
        return
    names = set(edits.names_of(root))
    yield from (f"{refusals.NOTED} names {it}, which is not there" for it in table if it not in names)


def costs(root, text):
    """The CPU seconds of crates on a page are those of the tree's record."""
    if with_costs(text, text_of(root, CRATES)) != text:
        yield f"the CPU seconds below {MARK.strip()} are not those of that record: tests/gate --keep writes them"
    if MARK not in text:
        yield f"has no line {MARK.strip()}"


def age_of_edits(root):
    """How many of the edits and twins were tried as they are, over the crates as they are."""
    ages = refusals.ages(root, refusals.known(root))
    fresh, never = [sum(it == age for it in ages.values()) for age in (0, None)]
    oldest = max((age or 0, name) for name, age in ages.items())
    yield (f"{fresh} of {len(ages)} edits and twins were tried as they are, {never} never, "
           f"the stalest other one, {oldest[1]}, {oldest[0]} commits of its sources ago")
    here, there = refusals.known(root), refusals.merged(root, refusals.read(os.path.join(root, refusals.NOTED)))
    if here != there:
        yield f"gates on this machine have tried {sum(it != there.get(name) for name, it in here.items())} since: " \
              "tests/gate --keep notes them in the tree"


def unmeasured(root, page, text):
    """A part of a page on speed with a table says at which commit its figures were measured, and git knows that."""
    if page != "docs/speed.md":
        return
    for part in re.split(r"^(?=## )", text, flags=re.M)[1:]:
        title = part.split("\n")[0]
        if re.search(r"^\|.*\d", part, re.M) and not ratios.MARK.search(part):
            yield f"{title!r} has figures, and not the line <!-- measured at COMMIT -->"
    if git(root, "rev-parse", "--is-shallow-repository") == "false":
        for commit in ratios.MARK.findall(text):
            if not is_known(root, commit):
                yield f"measured at {commit}, which git does not know"


def ages_of_figures(root):
    """How old all figures are, and what the last gate that has measured them since has found."""
    table = ratios.known(root)
    anew = ratios.measured_at(root, text_of(root, ratios.PAGE), table)
    for page, title, part in parts_of(root):
        for commit in ratios.MARK.findall(part):
            yield f"{page}, {title}: measured at {age(root, commit)}"
        it = table.get(title)
        if page == ratios.PAGE and it and it.commit == anew[title]:
            yield (f"{page}, {title}: {it.inside} of {it.ratios} ratios were in their brackets when a gate measured "
                   f"them, at {age(root, it.commit)}")
