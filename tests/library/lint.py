"""What linters find in the tools, tests, benches and examples, and lines that are too long. A line with a comment
`noqa` is left alone by the linters, as usual."""
import ast
import os
import re
import shutil
import subprocess
import tempfile
import zlib
from typing import Dict, List, Set, Tuple

from tests.library.checkout import files_of

MOST = 120
Linter = Tuple[str, Tuple[str, ...], List[str], str, str]  # as LINTERS says
# They cannot be read, or fail, as the conformance kit needs it.
LEFT_OUT = re.compile(r"examples/conformance/(broken|failing)\.")
SUFFIXES = {".py": "python", ".sh": "sh", **dict.fromkeys((".c", ".go", ".js", ".mjs", ".css"), "other")}
SHEBANGS = ((re.compile(r"#!.*python"), "python"), (re.compile(r"#!.*\b(ba|da)?sh\b"), "sh"))
# Left out: imports below a line that says where modules are, the length of lines (`too_long` has it), and rules of
# taste (where a continued line begins, spaces in slices, empty lines in functions and at the end, names for a lambda).
RULES = ["--ignore", "E12,E133,E203,E226,E24,E306,E402,E501,E704,E731,W391,W503,W504"]
LINTERS: Tuple[Linter, ...] = (
    # what it checks, its commands by name, Debian's package, its version in Debian 12: an older one does not judge
    ("python", ("pyflakes3", "pyflakes"), [], "pyflakes3", "2.5"),
    ("python", ("pycodestyle",), RULES, "pycodestyle", "2.10"),
    ("sh", ("shellcheck",), ["-f", "gcc", "-S", "warning"], "shellcheck", "0.9"),
)
MYPY = "1.0"
OF_TESTS = r"(tests/library/[\w/]+|(tests/tools|conformance/tests)/\w+)\.py"
FOUND_BY_TESTS = ("tools", "tools/library", "conformance/src", "conformance/programs/wrong",
                  "conformance/programs/sound")
# What mypy says of a library without types, which it then knows nothing of.
WITHOUT_STUBS = re.compile(r'module named "(pytest)"|Library stubs not installed for "([\w.]+)"')
without_stubs: Set[str] = set()  # the libraries of which mypy had none in this run


def kind_of(path, name):
    kind = SUFFIXES.get(os.path.splitext(name)[1])
    if kind or "." in os.path.basename(name):
        return kind
    try:
        with open(path, encoding="utf-8") as file:
            first = file.readline(200)
    except (OSError, UnicodeDecodeError):
        return None
    return next((kind for shebang, kind in SHEBANGS if shebang.match(first)), None)


def programs_of(root):
    """The programs of the repository outside its crates, by their languages."""
    kinds: Dict[str, List[str]] = {}
    for name in files_of(root):
        kind = kind_of(os.path.join(root, name), name)
        if kind and not name.startswith("crates/") and not LEFT_OUT.match(name):
            kinds.setdefault(kind, []).append(name)
    return kinds


def too_long(root, kinds):
    for name in sorted(sum(kinds.values(), [])):
        with open(os.path.join(root, name), encoding="utf-8") as file:
            for number, line in enumerate(file, 1):
                if len(line.rstrip("\n")) > MOST:
                    yield f"{name}:{number}: {len(line) - 1} columns, and {MOST} are the most"


def unreadable(root, kinds):
    """Python files that version 3.9 would not read."""
    for name in kinds.get("python", ()):
        with open(os.path.join(root, name), encoding="utf-8") as file:
            try:
                ast.parse(file.read(), name, feature_version=(3, 9))
            except SyntaxError as fault:
                yield f"{name}:{fault.lineno}: {fault.msg}"


def command_of(linter):
    """The path of a linter, None if it is not on this machine."""
    return next(filter(None, map(shutil.which, linter[1])), None)


def version_of(command: str) -> Tuple[int, ...]:
    """The version that a linter prints; nothing if it prints none."""
    ran = subprocess.run([command, "--version"], stdout=subprocess.PIPE, stderr=subprocess.STDOUT, text=True)
    found = re.search(r"\d+(?:\.\d+)+", ran.stdout)
    return tuple(map(int, found[0].split("."))) if found else ()


def is_older(command: str, least: str) -> bool:
    """Whether a linter is older than one that judges: what it finds is told, and fails nothing."""
    return version_of(command) < tuple(map(int, least.split(".")))


def found_by(linter, root, kinds):
    """What a linter that is here finds."""
    kind, _, words, *_ = linter
    ran = subprocess.run([command_of(linter), *words, *kinds.get(kind, ())], cwd=root, stdout=subprocess.PIPE,
                         stderr=subprocess.STDOUT, text=True)
    return [it for it in ran.stdout.splitlines() if not is_left_alone(root, it)]


def is_left_alone(root, finding):
    """Whether a finding is of a line that has the comment `noqa`."""
    where = re.match(r"(.+?):(\d+):", finding)
    if not where:
        return False
    with open(os.path.join(root, where[1]), encoding="utf-8") as file:
        lines = file.read().split("\n")
    return "# noqa" in lines[int(where[2]) - 1]


def checks_of_types(root):
    """Whether tools/ is as `mypy --strict` has it, if it is here (Debian: mypy): its packages, modules and Python
    programs, which have names without an ending; and so the suite in conformance/src. Of tests/library, tests/tools and
    conformance/tests it looks into definitions without types too."""
    tools = os.path.join(root, "tools")
    names = [name for name in sorted(os.listdir(tools)) if os.path.exists(os.path.join(tools, name, "__init__.py"))
             or os.path.isfile(os.path.join(tools, name)) and kind_of(os.path.join(tools, name), name) == "python"]
    names += [os.path.join("library", name) for name in sorted(os.listdir(os.path.join(tools, "library")))
              if kind_of(os.path.join(tools, "library", name), name) == "python"]
    yield from types_found(root, "mypy --strict", tools, ["--strict", "--scripts-are-modules"], names)
    yield from types_found(root, "mypy --strict of the suite", os.path.join(root, "conformance", "src"), ["--strict"],
                           ["lambda_conformance"], MYPYPATH=tools)
    names = [name for name in files_of(root) if re.fullmatch(OF_TESTS, name)]
    paths = ":".join(os.path.join(root, *parts.split("/")) for parts in FOUND_BY_TESTS)
    yield from types_found(root, "mypy of tests", root,
                           ["--check-untyped-defs", "--ignore-missing-imports", "--namespace-packages",
                            "--explicit-package-bases"], names, MYPYPATH=paths)


def types_found(root, what, folder, options, names, **variables):
    """What mypy finds in these files, if it is here. If it has no types of a library, it cannot judge the modules that
    import that."""
    mypy = shutil.which("mypy")
    if not mypy or not names:
        return
    # (a cache of this checkout alone: what another one has at the same place is another file)
    cache = f"lambda_local.mypy.{zlib.crc32(os.path.realpath(folder).encode()):08x}"
    ran = subprocess.run([mypy, *options, "--python-version", "3.9", "--follow-imports=silent", "--cache-dir",
                          os.path.join(tempfile.gettempdir(), cache), *names],
                         cwd=folder, stdout=subprocess.PIPE, stderr=subprocess.STDOUT, text=True,
                         env={**os.environ, **variables})
    found = ran.stdout.splitlines() if ran.returncode else []
    missing = [(it.split(":")[0], WITHOUT_STUBS.search(it)) for it in found]
    unjudged = {path for path, library in missing if library}
    without_stubs.update(library[1] or library[2] for _, library in missing if library)
    if unjudged and ran.returncode == 1:  # (2: it could not look at all)
        found = [it for it in found if ": error: " in it and it.split(":")[0] not in unjudged]
    yield what, found
