"""The command `lambda_local` as pip installs it: what ./lambda_local is in a checkout."""
import importlib
import os
import shutil
import sys
from typing import List, Tuple

from . import explain, program as found
from .ending import leave
from .outgoing import tell
from .paths import LAUNCHER, LIMITS, PACKAGE, own_program, suite

# The modules that have the `main` of a tool: of this package, or of the suite beside it.
TOOLS = {
    "check": ".check",
    "clock": ".clock.command",
    "conformance": "lambda_conformance.command",
    "from_template": ".from_template",
    "invoke": ".invoke",
    "rerun": ".rerun",
    "timeline": ".timeline",
    "trouble": ".trouble",
    "up": ".up",
}
SAME = {"help": ["--help"], **dict.fromkeys(("-V", "-v", "version"), ["--version"])}
SHAPES: Tuple[List[str], ...] = ([], ["replay"], ["trace"], ["trace", "--bodies", "none"], ["explain"], ["path"],
                                 ["--version"])


def start(program: str, words: List[str]) -> int:
    """Becomes the program."""
    if not shutil.which(program):
        tell(f"lambda_local: {program} is not a program that can be started: LAMBDA_LOCAL_PROGRAM names another")
        return 4
    os.environ.pop("LAMBDA_LOCAL_PROGRAM", None)
    if words[:1] == ["serve"]:
        explain.before_serving(program, words[1])
    elif words != ["explain"] and (explain.is_file(0) or explain.is_pipe(0)):
        return explain.replayed(program, words)
    os.execv("/bin/sh", ["/bin/sh", "-c", '. "$0" && begin "$@"', LIMITS, program, *words])


def show_version(program: str) -> None:
    """The version, and what proved the program."""
    try:
        with open(program + ".proved", encoding="utf-8") as file:
            stamp = [line.split(" ", 1) for line in file.read().splitlines()]
    except OSError:
        print(f"lambda_local, the program {program}")
        return
    print(" ".join(["lambda_local", *dict(stamp).get("version", "").split()]))
    for name, text in stamp:
        if name in ("sources", "kit", "program", "gate", "given"):
            print(name, text)


def show_help() -> None:
    """The launcher's help, without what a checkout alone has."""
    with open(os.path.join(PACKAGE, "help.txt"), encoding="utf-8") as file:
        print("".join(line for line in file if not line.startswith("In a checkout")), end="")
    if os.path.isdir(pages := os.path.join(PACKAGE, "docs")):
        print(f"The pages docs/*.md are in {pages}.")


def main() -> int:
    """Does what the words of the command line say, and ends this process by their status."""
    try:
        status = run()
    except SystemExit as end:
        if not isinstance(end.code, int):
            raise
        status = end.code
    return leave(status)


def run() -> int:
    """Does what the words of the command line say."""
    found.take_from_launcher()
    words = SAME.get(" ".join(sys.argv[1:]), sys.argv[1:])
    if not words and os.isatty(0):
        words = ["--help"]
    program = os.environ.get("LAMBDA_LOCAL_PROGRAM") or own_program()
    if words[:1] in (["-h"], ["--help"]):
        show_help()
        return 0
    if words and words[0] in TOOLS:
        sys.argv[:] = [f"lambda_local {words[0]}", *words[1:]]
        if not TOOLS[words[0]].startswith("."):
            sys.path.insert(0, suite())
        return int(importlib.import_module(TOOLS[words[0]], __package__).main() or 0)
    if words not in SHAPES and not (words[:1] == ["serve"] and len(words) == 2):
        told = ("serve takes one file: lambda_local serve CONFIGURATION" if words[0] == "serve"
                else f"'{' '.join(words)}' is not one of its commands: --help lists them")
        tell(f"lambda_local: {told}")
        return 2
    if program == LAUNCHER:  # (installed by `pip install -e`: the rest is the launcher's)
        os.execv(LAUNCHER, [LAUNCHER, *words])
    if words == ["path"]:
        print(program)
        return 0
    if words == ["--version"]:
        show_version(program)
        return 0
    return start(program, words)


if __name__ == "__main__":
    sys.exit(main())
