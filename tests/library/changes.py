"""The table "To change something" of docs/tools.md, held against the tree: the word of each row finds, in its folders,
the files that the row names there, and no other."""
import re
import subprocess
from typing import Iterator, List, NamedTuple, Set

TITLE = "## To change something"


class Row(NamedTuple):
    what: str
    named: List[str]  # files and folders
    words: List[str]  # of which a file has one
    folders: List[str]  # in which they are looked for


def rows_of(text: str) -> Iterator[Row]:
    table = text.split(TITLE)[-1].split("\n## ")[0]
    for line in table.splitlines():
        cells = re.split(r"(?<!\\)\|", line)[1:-1]
        if line.startswith("| ") and not line.startswith("| To change"):
            what, touch, word = (*cells, "", "")[:3]
            words, _, folders = word.partition(" in ")
            named = [span for span in re.findall(r"`([^`]+)`", touch) if re.fullmatch(r"[\w.]+(/[\w.]+)+", span)]
            yield Row(what.strip(), named, re.findall(r"`([^`]+)`", words), re.findall(r"`([^`]+)`", folders))


def listed(root: str, *words: str) -> Set[str]:
    """The files that a command of git lists."""
    ran = subprocess.run(["git", "-C", root, *words], stdout=subprocess.PIPE, text=True)
    return set(ran.stdout.splitlines())


def is_below(path: str, named: str) -> bool:
    return path == named or path.startswith(f"{named}/")


def faults(root: str, text: str) -> Iterator[str]:
    rows = list(rows_of(text))
    if not rows:
        yield f"has no rows of {TITLE}"
    for row in rows:
        if not row.words or not row.folders:
            yield f"{row.what} has no search word with its folders"
            continue
        words = [part for word in row.words for part in ("-e", word)]
        found = listed(root, "grep", "-liE", *words, "--", *row.folders)
        inside = listed(root, "ls-files", "--", *row.folders)
        for path in sorted(found):
            if not any(is_below(path, named) for named in row.named):
                yield f"{row.what}: {path} has {' or '.join(row.words)}, and the row does not name it"
        for named in row.named:
            if any(is_below(path, named) for path in inside) and not any(is_below(path, named) for path in found):
                yield f"{row.what}: {named} has no {' or '.join(row.words)}"
