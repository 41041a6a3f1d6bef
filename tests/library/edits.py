"""Must-fail edits: how one is read, and whether it fits its crate. An edit is a file of lines `file: PATH` (below its
crate), `old: TEXT` and `new: TEXT`, and, if the gate tries it, `gate: FUNCTION`: whose promise it breaks. One outside
the gate that changes something outside functions may have `at: FUNCTION` instead: without it, it is tried on its whole
crate. A line `same: TEXT` gives it a twin, which has this text in place of the old one, means the same and must still
be proved."""
import glob
import os
import re
from typing import Dict, List

WORDS = re.compile(r"^(gate|at|file|old|new|same):(?: (.*))?$", re.M)
FOLDER = os.path.join("tests", "must_fail")
TWIN = " same"  # behind the name of an edit, for its twin
# The head of a function, and of a block of methods: the type alone, or the trait and the type.
HEAD = re.compile(r"^( *)(?:pub(?:\([a-z]+\))? )?(?:const )?fn (\w+)", re.M)
BLOCK = re.compile(r"^impl(?:<[^{]*?>)? (?:[^{]*? for )?(\w+)", re.M)


def read(path):
    with open(path, encoding="utf-8") as file:
        return file.read()


def path_of(root: str, name: str) -> str:
    """The file of an edit, by CRATE/NAME, or of a twin."""
    return os.path.join(root, FOLDER, name.replace(TWIN, "") + ".edit")


def names_of(root: str) -> List[str]:
    """All edits by CRATE/NAME, each with its twin behind it."""
    found = []
    for path in sorted(glob.glob(os.path.join(root, FOLDER, "*", "*.edit"))):
        name = os.path.relpath(path, os.path.join(root, FOLDER))[:-len(".edit")]
        found += [name, name + TWIN] if has_twin(path) else [name]
    return found


def has_twin(edit):
    return any(key == "same" for key, _ in WORDS.findall(read(edit)))


def function_of(edit):
    """The function whose promise the gate tries an edit on, by its path below its crate; nothing if it is not one of
    the gate's."""
    return next((value.strip() for key, value in WORDS.findall(read(edit)) if key == "gate"), "")


def place_of(edit: str) -> str:
    """The function on which an edit outside the gate is tried that changes something outside functions, by its path
    below its crate; nothing if it names none."""
    return next((value.strip() for key, value in WORDS.findall(read(edit)) if key == "at"), "")


def files_of(edit: str) -> List[str]:
    """The files that an edit changes, by their paths below its crate."""
    return [*dict.fromkeys(value.strip() for key, value in WORDS.findall(read(edit)) if key == "file")]


def functions_of(edit, crate):
    """The functions that an edit changes, each by its name and, if it has one, its type's; nothing if it changes
    something outside them. So the prover finds a method by `TYPE::NAME`, or by `NAME` if its block is a trait's."""
    return sorted(bodies_of(edit, crate))


def bodies_of(edit: str, crate: str) -> Dict[str, str]:
    """The functions that an edit changes, with their texts before it."""
    found: Dict[str, str] = {}
    path = ""
    for key, value in WORDS.findall(read(edit)):
        if key == "file":
            path = value.strip()
        elif key == "old":
            text = read(f"{crate}/{path}")
            name, body = _around(text, text.find(value)) if path.startswith("src/") and value in text else ("", "")
            if not name:
                return {}
            found[name] = body
    return found


def _around(text, place):
    """The function around a place of a source, as the prover is told of it, and its text; nothing if there is none."""
    head = next((it for it in reversed([*HEAD.finditer(text, 0, text.find("\n", place))])), None)
    # (the body of a law is empty)
    last = head and re.compile(rf"^{head[1]}(?:\{{)?\}}$", re.M).search(text, head.end())
    if head is None or last is None or (end := last.start() - 1) < place:
        return "", ""
    block = next((it for it in reversed([*BLOCK.finditer(text, 0, head.start())])), None) if head[1] else None
    is_of_trait = block and " for " in text[block.start():text.find("{", block.start())]
    return f"{block[1]}::{head[2]}" if block and not is_of_trait else head[2], text[head.start():end]


def edited(edit, crate, by="new"):
    """The files of a crate's folder that an edit changes, with their new texts, or, by "same", those of its twin; a
    ValueError that tells why if it does not fit: each text that it replaces must occur in its file exactly once."""
    texts: Dict[str, str] = {}
    path = old = ""
    for key, value in WORDS.findall(read(edit)):
        if key == "file":
            path = value.strip()
            try:
                texts.setdefault(path, read(f"{crate}/{path}"))
            except OSError:
                raise ValueError(f"there is no {path}") from None
        elif key == "old":
            old = value
        elif key == by:
            if not path:
                raise ValueError("names no file")
            if not old or texts[path].count(old) != 1:
                raise ValueError(f"stands {texts[path].count(old) if old else 0} times in {path}: {old.strip()}")
            if value == old:
                raise ValueError(f"the line `{by}` has the old text: {old.strip()}")
            texts[path] = texts[path].replace(old, value)
    if not texts:
        raise ValueError("names no file")
    return texts


def misfit(edit, crate):
    """Why an edit or its twin does not fit its crate; nothing if both do."""
    try:
        edited(edit, crate)
        if has_twin(edit):
            edited(edit, crate, "same")
    except ValueError as fault:
        return str(fault)
    return ""
