"""What the pages say, held against the sources: links and anchors, files, options, names, numbers, and what a page
lists. Each function gives the faults of one page of a tree, in words."""
import glob
import os
import re
import subprocess
from typing import Dict

from crate_list import uses
from tests.library import changes, drawings, tools_map

FOLDERS = ("bench", "conformance", "crates", "docs", "examples", "tables", "tests", "tools")
FENCED = re.compile(r"(?:^<!-- (\w[\w ]*) -->\n)?^```(\w*)\n(.*?)^```$", re.M | re.S)
NUMBERS = {word: number for number, word in enumerate(
    "one two three four five six seven eight nine ten eleven twelve thirteen fourteen fifteen sixteen seventeen "
    "eighteen nineteen twenty twenty-one twenty-two twenty-three twenty-four twenty-five twenty-six".split(), 1)}
COMMAND = re.compile(r"(\./lambda_local conformance (?:runtime|extension|service)"
                     r"|\./lambda_local (?:check|from_template|invoke|package|rerun|timeline|up)|tools/\w+"
                     r"|tests/\w+/run|tests/must_fail/gate|tests/\w+|tables/run"
                     r"|bench/serve/\w+|bench/up/\w+|bench/\w+|\./lambda_local)\b(.*)")


def text_of(*parts):
    try:
        with open(os.path.join(*parts), encoding="utf-8") as file:
            return file.read()
    except OSError:
        return ""


def pages_of(root):
    return ["README.md", *sorted(os.path.relpath(it, root) for it in glob.glob(f"{root}/docs/*.md"))]


def headings(text):
    """The anchors of a page's headings."""
    lines = re.findall(r"^#+ (.*)$", re.sub(FENCED, "", text), re.M)
    return {re.sub(r"[^\w\- ]", "", line.lower()).replace(" ", "-") for line in lines}


def code_of(text):
    """The code of a page: its blocks, and its spans."""
    blocks = [block for _, _, block in FENCED.findall(text)]
    return blocks, re.findall(r"`([^`\n]+)`", re.sub(FENCED, "", text))


def links(root, page, text):
    for target in re.findall(r"\]\(([^)\s]+)\)", re.sub(FENCED, "", text)):
        if re.match(r"\w+:", target):
            continue
        path, _, anchor = target.partition("#")
        there = os.path.normpath(os.path.join(root, os.path.dirname(page), path)) if path else os.path.join(root, page)
        if not os.path.exists(there):
            yield f"{target} is not there"
        elif anchor and anchor not in headings(text_of(there)):
            yield f"{target}: no such heading"


def files(root, page, text):
    blocks, spans = code_of(text)
    for word in re.findall(r"[\w./*\-]+", " ".join([*spans, *blocks])):
        word = word.strip(".")
        if word.split("/")[0] in FOLDERS and "/" in word and "NAME" not in word and "/out" not in word:
            if not glob.glob(os.path.join(root, word)):
                yield f"{word} is not there"


def options(root, page, text):
    """Each option of a command of this repository is one that its help names."""
    blocks, spans = code_of(text)
    helps: Dict[str, str] = {}
    for line in [*spans, *(line for block in blocks for line in block.splitlines())]:
        found = COMMAND.match(line.split("#")[0])
        if found is None:
            continue
        command, words = found[1], found[2].split(" -- ")[0].split("|")[0]
        given = re.findall(r"(?<=\s)--[a-z][\w-]*", words)
        if given and os.access(os.path.join(root, command.split()[0]), os.X_OK):
            if command not in helps:
                helps[command] = help_of(root, command)
            for option in given:
                if not re.search(re.escape(option) + r"\b", helps[command]):
                    yield f"{command} --help does not name {option}"


def sources_of(root, crate):
    return "\n".join(map(text_of, glob.glob(f"{root}/crates/{crate}/src/**/*.rt", recursive=True)))


# The tools whose options a page lists, each of them.
HELPS = {"docs/up_reference.md": ("./lambda_local up", "./lambda_local invoke"),
         "docs/rerun.md": ("./lambda_local rerun",), "docs/timeline.md": ("./lambda_local timeline",),
         "docs/ci.md": ("tools/package",),
         "docs/conformance.md": ("./lambda_local conformance runtime", "./lambda_local conformance extension"),
         "docs/conformance_service.md": ("./lambda_local conformance service",),
         "docs/checks.md": ("tests/hours", "tests/memory", "tests/newcomer", "tests/pages", "tests/release",
                            "tests/tools/run", "tools/release"),
         "docs/proof_costs.md": ("tools/proof_costs",),
         "docs/speed.md": ("bench/serve/run", "bench/serve/calls", "bench/up/run")}


def help_of(root, command):
    script, *subcommand = command.split()
    ran = subprocess.run([os.path.join(root, script), *subcommand, "--help"], stdin=subprocess.DEVNULL,
                         stdout=subprocess.PIPE, stderr=subprocess.STDOUT)
    return ran.stdout.decode()


def unlisted(root, page, text):
    """Each option that the help of a tool names is on its page. (--program, of all of them: docs/variables.md)"""
    for command in HELPS.get(page, ()):
        told = set(re.findall(r"(?<![\w-])--[a-z][\w-]*", help_of(root, command))) - {"--help", "--program"}
        if not told:
            yield f"{command} --help names no option"
        for option in sorted(told):
            if not re.search(re.escape(option) + r"(?![\w-])", text):
                yield f"does not name {option}, which {command} --help names"


# The pages that a user lives on: each has a block that tests/newcomer runs.
FOR_USERS = ("README.md", "docs/ci.md", "docs/conformance.md", "docs/debugging.md", "docs/events.md", "docs/pytest.md",
             "docs/rerun.md", "docs/telemetry.md", "docs/timeline.md", "docs/up.md", "docs/your_function.md")


def runs(root, page, text):
    if page in FOR_USERS and not any(marks.split(" ")[0] in ("run", "serve") for marks, _, _ in FENCED.findall(text)):
        yield "has no block that tests/newcomer runs"


def names(root, page, text):
    """Each name such as account_book::Book::apply occurs in that crate's sources."""
    crates = uses(root)
    for span in code_of(text)[1]:
        found = re.fullmatch(r"(\w+)((?:::\w+)+)(?:\(.*\))?", span)
        if not found or found[1] not in crates:
            continue
        sources = sources_of(root, found[1])
        for word in found[2].split("::")[1:]:
            declared = rf"\b(?:fn|struct|enum|trait|mod|const|type) {word}\b"
            if not re.search(rf"{declared}|\b{word}\b[^\n]*\}};|^pub use .*\b{word};", sources, re.M):
                yield f"{span}: {found[1]} has no {word}"


def numbers(root, page, text):
    count = {
        "crates": len(uses(root)),
        "must-fail edits": len([it for it in glob.glob(f"{root}/tests/must_fail/*/*.edit")
                                if text_of(it).startswith("gate:")]),
        "wrong definitions": len(glob.glob(f"{root}/tests/definitions/*.edit")),
    }
    for said, what in re.findall(rf"\b(\d[\d,]*|{'|'.join(NUMBERS)}) ({'|'.join(count)})\b", text):
        number = NUMBERS.get(said) or int(said.replace(",", ""))
        if number != count[what]:
            yield f"says {said} {what}, and there are {count[what]}"


def variants(root, path, name):
    body = re.search(rf"enum {name} \{{(.*?)^\}}", text_of(root, path), re.S | re.M)
    return re.findall(r"^    ([A-Z]\w+)\b", body[1], re.M) if body else []


def kit(root, page, text):
    """A page names the kit that proved the release, whatever kit this machine has."""
    proved = "".join(re.findall(r"^kit (.*)$", text_of(root, "release", "PROVED"), re.M))
    for said in re.findall(r"rattle-kit-\S+ logic [0-9a-f]+", text):
        if said != proved:
            yield f"says {said}, and release/PROVED says {proved}"


def outside(root):
    """The crates outside crates/, which run the tables or are measured, with what each uses."""
    lists = text_of(root, "tables", "crates.list") + text_of(root, "bench", "crates.list")
    return {name: needs.split() for name, needs in re.findall(r"^(\w+):(.*)$", lists, re.M)}


def unnamed(root, text):
    """The crates that a text does not name."""
    return [it for it in uses(root) if f"`{it}`" not in text]


def of_readme(root, page, text):
    for path in sorted(glob.glob(f"{root}/docs/*.md")):
        if f"](docs/{os.path.basename(path)}" not in text:
            yield f"does not link to docs/{os.path.basename(path)}"
    if len(text.split()) > 1200:
        yield f"has {len(text.split())} words, and 1,200 are the most"
    if "rattle-kit-" not in text:
        yield "names no kit"
    for line in text.splitlines():
        if "PENDING" in line:
            yield f"a figure is missing: {line.split('|')[1].strip()}"


def of_formats(root, page, text):
    said = re.search(r"in this order: (.*?)\.\n", text)
    there = variants(root, "crates/arn_ids/src/faults.rt", "ConfigFault")
    if not said or sorted(re.findall(r"`(\w+)`", said[1])) != sorted(there):
        yield f"the faults of a configuration are {there}"
    said = re.search(r"`refused KIND`.*", text)
    there = variants(root, "crates/call_types/src/answer.rt", "Rejection")
    if not said or sorted(re.findall(r"`([A-Z]\w+)`", said[0].split("|")[1].split(":")[-1])) != sorted(there):
        yield f"the kinds of refused are {there}"


def of_proofs(root, page, text):
    crates = {**uses(root), **outside(root)}
    of_kit = {it for used in crates.values() for it in used} - set(crates)
    listed = re.search(r"the kit's crates (.*?)\.\n", text)
    said = set(re.findall(r"`(\w+)`", listed[1])) if listed else set()
    if said != of_kit:
        yield f"kit's crates: not named {sorted(of_kit - said)}, not used {sorted(said - of_kit)}"
    yield from drawings.refinement_faults(root, uses(root), text_of(root, "docs", "refinement.svg"))
    table = text.split("## By crate")[-1].split("\n## ")[0]
    for it in unnamed(root, table):
        yield f"the table by crate has no {it}"
    crate = ""
    for line in table.splitlines():
        cells = line.split("|")
        if len(cells) < 4:
            continue
        crate = "".join(re.findall(r"`(\w+)`", cells[1])) or crate
        sources = sources_of(root, crate)
        for span in re.findall(r"`([^`…]+)`", cells[2]) if sources else ():
            for word in re.findall(r"[A-Za-z_]\w*", span):
                if not re.search(rf"\b{word}\b", sources):
                    yield f"{crate} has no {word}"


def of_checks(root, page, text):
    tables = "\n".join(map(text_of, glob.glob(f"{root}/tables/*/data/**/*.txt", recursive=True)))
    for block in code_of(text)[0]:
        if block.startswith("== ") and block not in tables:
            yield f"no table has the case {block.splitlines()[0]}"


def first_sentence(root, crate):
    """The first sentence of the comment with which a crate's root file begins."""
    files = [f"{root}/crates/{crate}/src/{name}.rt" for name in ("lib", "main")]
    words = []
    for line in next((text_of(it) for it in files if os.path.isfile(it)), "").splitlines():
        if not line.startswith("//! "):
            break
        words.append(line[4:].strip())
    return re.split(r"(?<=\.) ", " ".join(words))[0]


def of_architecture(root, page, text):
    crates, listed = uses(root), set()
    unproved = outside(root)
    for it, needs in crates.items():
        for need in needs:
            if need in crates and need not in listed:
                yield f"crates.txt lists {it} before {need}, which it uses"
        listed.add(it)
    for it in [*crates, *unproved]:
        if f"**`{it}`**" not in text and not re.search(rf"\*\*.*`{it}`.*\*\*", text):
            yield f"has no paragraph on {it}"
    for it, said in re.findall(r"^- \*\*`(\w+)`\*\*(?:: )?(.*)$", text, re.M):
        if it not in crates and it not in unproved:
            yield f"tells of the crate {it}, which is not in crates.txt"
        sentence = first_sentence(root, it)
        if it in crates and sentence and not said[1:].startswith(sentence[1:]):
            yield f"{it}: its paragraph does not begin with the first sentence of its root file"


def of_variables(root, page, text):
    """The page has each variable of this project's own that something reads, and no other."""
    folders = [f"{root}/{folder}" for folder in ("conformance/src", "crates", "tools", "examples")]
    found = [path for folder in folders for path in glob.glob(f"{folder}/**/*", recursive=True)]
    paths = [path for path in found if os.path.isfile(path) and "/out/" not in path]
    words = ["grep", "-ohIE", "LAMBDA_LOCAL_[A-Z_]+", f"{root}/lambda_local", *paths]
    named = subprocess.run(words, stdout=subprocess.PIPE, text=True).stdout
    # (the jobs of examples/ci set LAMBDA_LOCAL_PACKAGE themselves)
    read = {name for name in named.split() if name != "LAMBDA_LOCAL_PACKAGE"}
    listed = set(re.findall(r"^\| `(LAMBDA_LOCAL_[A-Z_]+)`", text, re.M))
    if read != listed:
        yield f"not listed {sorted(read - listed)}, not read {sorted(listed - read)}"


def of_decisions(root, page, text):
    if len(text.split()) > 2500:
        yield f"has {len(text.split())} words, and 2,500 are the most: ways tried and dropped go into bodies of commits"


def of_first_names(root, page, text):
    """What stands for a name of the specification is in the sources."""
    sources = "\n".join(sources_of(root, it) for it in uses(root)) + "\n".join([*uses(root), *outside(root)])
    for line in text.splitlines():
        for span in re.findall(r"`([^`/]+)`", line.split("|")[2]) if line.startswith("| ") else ():
            for word in re.findall(r"[A-Za-z_]\w*", span):
                if not re.search(rf"\b{word}\b", sources):
                    yield f"no crate has {word}"


def of_semantics(root, page, text):
    """Its table of phases and its drawing are those of the definitions."""
    definitions = text_of(root, drawings.TABLE)
    yield from drawings.table_faults(definitions, text)
    yield from drawings.life_cycle_faults(definitions, text_of(root, "docs", "life_cycle.svg"))


def of_processes(root, page, text):
    """The pauses before a restart."""
    said = re.search(r"a pause of (\d+) s, then of ([\d, and]+) s", text)
    there = re.search(r"^PAUSES = \(([\d, ]+)\)", text_of(root, "tools", "lambda_local", "up", "restarts.py"), re.M)
    if not said or not there or re.findall(r"\d+", said[0]) != re.findall(r"\d+", there[1]):
        yield f"the pauses are {there and there[1]}"


def of_tools(root, page, text):
    yield from tools_map.faults(root, text)
    yield from changes.faults(root, text)


def figures(root, page, text):
    if page != "README.md" and "PENDING" in text:
        yield "a figure is missing"
    if page != "docs/proofs.md" and re.search(r"^#+ .*\bnot claimed\b", text, re.M | re.I):
        yield "has a second list of what is not claimed: it stands in docs/proofs.md"


# The pages that a subject begins with, before its references.
FIRST_PAGES = ("docs/conformance.md", "docs/events.md", "docs/up.md")


def first_pages(root, page, text):
    if page in FIRST_PAGES and len(text.split()) > 800:
        yield f"has {len(text.split())} words, and 800 are the most of a first page: tables stand on pages behind it"


OF_EACH = (links, files, options, unlisted, runs, names, numbers, kit, figures, first_pages)
OF_ONE = {"README.md": of_readme, "docs/formats.md": of_formats, "docs/proofs.md": of_proofs,
          "docs/checks.md": of_checks, "docs/architecture.md": of_architecture, "docs/variables.md": of_variables,
          "docs/DECISIONS.md": of_decisions, "docs/first_names.md": of_first_names, "docs/tools.md": of_tools,
          "docs/semantics.md": of_semantics, "docs/processes.md": of_processes}
