"""The drawings of docs/ and the table of phases of docs/semantics.md, held against the definitions and the crates."""
import glob
import os
import re
from typing import Dict, Iterator, List, Set

TABLE = "crates/call_model/specs/Table.antt"
COLUMNS = ["Starting", "Idle", "Busy, unanswered", "Busy, answered", "Closing", "Off"]
# Cells of the definitions' table: how docs/semantics.md says that the call itself is refused, and which cells close.
REFUSES = {"refused_state": "State", "refused_container": "Container", "not_idle": "NotIdle"}
CLOSES = {"fails", "init_times_out", "times_out", "spins_down", "stops"}
# A line of the page's table, by the calls of the definitions that it is about.
LINES = {"RuntimeNext": "runtime's Next", "Response": "Response, ", "ResponseTooLarge": "Response, ",
         "Failure": "Response, ", "InitFailure": "Init failure", "Register": "Register", "ExtNext": "extension's Next",
         "ExtInitFailure": "extension's Init failure", "ExtExitFailure": "extension's exit", "Spindown": "spindown",
         "Stop": "(Stop)", "Expire": "(expiry)"}
# How life_cycle.svg names a call that closes an environment in a phase.
CAUSES = {"InitFailure": "Init fails", "ExtInitFailure": "Init fails", "ExtExitFailure": "an extension exits",
          "Spindown": "spindown", "Stop": "Stop"}
# The boxes of refinement.svg from the bottom up: a crate of each stands on one of the next.
STANDS_ON = (("lambda_local", "http_front"), ("http_front", "long_poll"), ("long_poll", "account_lock"),
             ("account_lock", "account_book"), ("account_book", "call_model"), ("script_replay", "account_book"))


def read(*parts: str) -> str:
    with open(os.path.join(*parts), encoding="utf-8") as file:
        return file.read()


def rows_of(definitions: str) -> Dict[str, List[str]]:
    """The cells of each call, by the six columns. A cell with arguments, in parentheses, is named by its first word."""
    rows = {}
    for call, body in re.findall(r"^table s \(?(\w+)[^=]*=((?:.*\n)(?: .*\n)*)", definitions, re.M):
        words = [word.strip("()").split(" ")[0] for word in re.findall(r"\([^()]*\)|\w+", body)]
        if "report_row" in words:
            rows[call] = ["refused_state", "refused_state", words[-1], "refused_state", "refused_state",
                          "refused_container"]
        elif "extension_row" in words:
            rows[call] = [*words[words.index("extension_row") + 3:], "refused_container"]
        elif "row" in words:
            rows[call] = words[words.index("row") + 2:]
    return rows


def table_faults(definitions: str, page: str) -> Iterator[str]:
    """Where a cell of the page's table refuses or closes otherwise than the definitions' one."""
    rows = rows_of(definitions)
    said = {cells[1].strip(): [cell.strip() for cell in cells[2:8]]
            for cells in (line.split("|") for line in page.splitlines()) if len(cells) == 9}
    if set(rows) != set(LINES):
        yield f"{TABLE} has rows of {sorted(rows)}"
        return
    for call, cells in rows.items():
        line = next((it for name, it in said.items() if name.startswith(LINES[call])), None)
        if line is None or len(cells) != len(COLUMNS):
            yield f"the table has no line {LINES[call]}, or {TABLE} not six cells of {call}"
            continue
        for column, cell, words in zip(COLUMNS, cells, line):
            words = said_of(words, column, said)
            if cell in REFUSES and f"own `{REFUSES[cell]}`" not in words:
                yield f"{LINES[call]}, {column}: {words!r}, and {TABLE} has {cell}"
            if cell not in REFUSES and "own `" in words:
                yield f"{LINES[call]}, {column}: {words!r}, and {TABLE} has {cell}"
            if (cell in CLOSES) != ("closes" in words):
                yield f"{LINES[call]}, {column}: {words!r}, and {TABLE} has {cell}"


def said_of(words: str, column: str, said: Dict[str, List[str]]) -> str:
    """What a cell says, also if it refers to another line (`as Init failure`)."""
    if not words.startswith("as "):
        return words
    of = "Init failure" if "Init failure" in words and "its" not in words else "extension's Init failure"
    return said_of(said[of][COLUMNS.index(column)], column, said)


def causes_of(rows: Dict[str, List[str]], columns: List[int], expiry: str) -> Set[str]:
    """By what an environment closes in a phase, in the words of the drawing."""
    calls = {call for call, cells in rows.items() if any(cells[column] in CLOSES for column in columns)}
    return {expiry if call == "Expire" else CAUSES.get(call, call) for call in calls}


def texts_of(drawing: str) -> List[str]:
    return re.findall(r"<text[^>]*>([^<]*)</text>", drawing)


def life_cycle_faults(definitions: str, drawing: str) -> Iterator[str]:
    rows, drawn = rows_of(definitions), " ".join(texts_of(drawing))
    phases = re.findall(r"^by_phase .* s \(?(\w+).*? =", definitions, re.M)
    named = re.findall(r'<text class="name"[^>]*>(\w+)</text>', drawing)
    if set(named) != set(phases):
        yield f"the phases are {sorted(set(phases))}, and it has {sorted(named)}"
    for phase, columns, expiry, label in (("Starting", [0], "expires", "Init fails or expires, [\\w ,]*?exits"),
                                          ("Idle", [1], "times out", "spindown, [\\w ,]*?exits"),
                                          ("Busy", [2, 3], "timeout", "timeout, [\\w ,]*?exits")):
        found = re.search(label, drawn)
        said = set(re.split(r", | or ", found[0])) if found else set()
        if said != causes_of(rows, columns, expiry):
            yield f"{phase} closes by {sorted(causes_of(rows, columns, expiry))}, and it says {sorted(said)}"
    for moment, words in ((r"now \+ (\d+)000\)\ninit_limit now \(Some", "Init: {} s"),
                          (r"Closing reason \(now \+ (\d+)000\) None", "{} s for extensions")):
        limit = re.search(moment, definitions) or re.search(moment.split(r"\)\n")[0] + r"\)", definitions)
        if limit is None or words.format(limit[1]) not in drawn:
            yield f"it does not say {words.format(limit[1] if limit else '?')}"


def reaches(uses: Dict[str, List[str]], crate: str, other: str) -> bool:
    return other in uses.get(crate, ()) or any(reaches(uses, it, other) for it in uses.get(crate, ()) if it in uses)


def refinement_faults(root: str, uses: Dict[str, List[str]], drawing: str) -> Iterator[str]:
    """Each crate, function and law that it names is there, and each box stands on the one that it points to."""
    drawn = " ".join(texts_of(drawing))
    for upper, lower in STANDS_ON:
        if upper not in drawn or lower not in drawn:
            yield f"it does not name {upper} and {lower}"
        elif not reaches(uses, upper, lower):
            yield f"{upper} does not stand on {lower}"
    named = re.findall(r'<text class="name"[^>]*>[^<]*: ([^<]*)</text>', drawing)
    for crate in re.findall(r"\b[a-z]+_[a-z_]+\b", " ".join(named)):
        if crate not in uses:
            yield f"there is no crate {crate}"
    sources = "\n".join(read(it) for it in glob.glob(f"{root}/crates/*/src/**/*.rt", recursive=True))
    for of, function in re.findall(r"\b([A-Z]\w+)::(\w+)", drawn):
        if not re.search(rf"\b(?:struct|enum) {of}\b", sources) or not re.search(rf"\bfn {function}\b", sources):
            yield f"there is no {of}::{function}"
    for law in re.findall(r'<text x="666"[^>]*>([a-z]+): ', drawing):
        if not re.search(rf"\bfn {law}\(", sources):
            yield f"there is no law {law}"
