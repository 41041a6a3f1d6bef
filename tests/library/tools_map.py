"""The map of the tools (docs/tools.md), held against their imports: each package with exactly those that it imports,
each in the drawing, and each file that the page names. The suite, in a house of its own, is a package like them."""
import ast
import glob
import os
import re
from typing import Dict, Iterator, List, Set, Tuple

HOME, SUITE = os.path.join("tools", "lambda_local"), os.path.join("conformance", "src")
OTHERS = "lambda_conformance"  # the package in SUITE


def modules_of(root: str) -> Iterator[Tuple[List[str], str]]:
    """The parts of each module's name, below lambda_local if it is of the tools, and its path."""
    for home in (HOME, SUITE):
        for path in glob.glob(os.path.join(root, home, "**", "*.py"), recursive=True):
            yield os.path.relpath(path, os.path.join(root, home))[:-len(".py")].split(os.sep), path


def imported_by(module: List[str], node: ast.AST) -> Iterator[List[str]]:
    """The modules that a statement imports, by the parts of their names: below lambda_local, or of the suite."""
    if isinstance(node, ast.ImportFrom):
        named = (node.module or "").split(".") if node.module else []
        if node.level:
            named = [*module[:-node.level], *named]
        elif named[:1] == ["lambda_local"]:
            named = named[1:]
        elif named[:1] != [OTHERS]:
            return
        yield from [named] if named else [[it.name] for it in node.names]
    elif isinstance(node, ast.Import):
        yield from (it.name.split(".")[1:] for it in node.names if it.name.startswith("lambda_local."))
        yield from ([OTHERS] for it in node.names if it.name.split(".")[0] == OTHERS)


def imports(root: str) -> Dict[str, Set[str]]:
    """The packages, and modules that stand alone, with the others that each imports."""
    found: Dict[str, Set[str]] = {}
    for module, path in modules_of(root):
        if module[0] in ("__init__", "__main__"):
            continue
        with open(path, encoding="utf-8") as file:
            tree = ast.parse(file.read())
        used = found.setdefault(module[0], set())
        used |= {it[0] for node in ast.walk(tree) for it in imported_by(module, node) if it and it[0] != module[0]}
    return found


def rows_of(text: str) -> Dict[str, Set[str]]:
    """The table of the page: a package with those that it may import."""
    table = text.split("## What each may know")[-1].split("\n## ")[0]
    rows = re.findall(r"^\| `(\w+)` \| .* \|(.*)\|$", table, re.M)
    return {name: set(re.findall(r"`(\w+)`", cell)) for name, cell in rows}


def faults(root: str, text: str) -> Iterator[str]:
    said, there = rows_of(text), imports(root)
    drawn = "".join(re.findall(r"^```\n(.*?)^```$", text, re.M | re.S)[:1])
    for name in sorted(set(said) | set(there)):
        if name not in said:
            yield f"has no line on {name}, which is in {HOME}"
        elif name not in there:
            yield f"has a line on {name}, which is not in {HOME}"
        elif said[name] != there[name]:
            yield (f"{name} imports {sorted(there[name] - said[name])} beside what its line says, and does not import "
                   f"{sorted(said[name] - there[name])}")
        if not re.search(rf"\b{name}\b", drawn):
            yield f"the drawing has no {name}"
    for path in re.findall(r"`((?!examples/)[a-z]\w*/\w+\.py)`", text):
        if not os.path.exists(os.path.join(root, HOME, path)):
            yield f"{HOME}/{path} is not there"
