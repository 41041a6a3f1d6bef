"""The commands of the runtimes and extensions that the conformance kit has to pass: those of examples/, and those in
the shapes of clients that there are. Each comes with its name, and only if its language is on the machine."""
import os
import shutil
import subprocess
import sys
from typing import Iterable, Tuple

from tests import ROOT
from conformance.tests.kit_programs import SHAPES, clients, extensions, libraries, shapes

EXAMPLES = os.path.join(ROOT, "examples")
HANDLERS = os.path.join(EXAMPLES, "conformance")
PYTHON = [sys.executable, "-S"]  # (it starts in half the time)


def shipped():
    """The runtimes of examples/ with the kit's handler, those whose languages are on the machine: names and
    commands."""
    found = [("runtime.py", [sys.executable, os.path.join(EXAMPLES, "runtime.py")])]
    if shutil.which("node"):
        found.append(("runtime.mjs", ["node", os.path.join(EXAMPLES, "runtime.mjs")]))
    if shutil.which("curl"):
        found.append(("runtime.sh", [os.path.join(EXAMPLES, "runtime.sh")]))
    return found


def in_shapes():
    """Runtimes in the shapes of clients: those whose languages are on the machine, and those that need only Python."""
    if shutil.which("node"):
        yield "a Node client with agents", ["node", os.path.join(SHAPES, "node_agent.mjs")]
        yield "a Node client that streams", ["node", os.path.join(SHAPES, "node_agent.mjs"), "streaming"]
        yield "a Node client by fetch", ["node", os.path.join(SHAPES, "fetch.mjs")]
    if shutil.which("bash") and shutil.which("curl"):
        yield "the tutorial's bootstrap", [os.path.join(SHAPES, "tutorial.sh")]
        yield "a client in bash alone", [os.path.join(SHAPES, "dev_tcp.sh")]
    if shutil.which("perl"):
        yield "a Perl client", ["perl", os.path.join(SHAPES, "perl_tiny.pl")]
    yield from interpreted()
    tables: Tuple[Tuple[str, Iterable[str]], ...] = (
        ("shapes.py", shapes.SHAPES), ("clients.py", clients.CLIENTS), ("libraries.py", libraries.LIBRARIES))
    for file, names in tables:
        for name in names:
            yield f"a client in the shape of {name}", [*PYTHON, os.path.join(SHAPES, file), name]


def interpreted():
    """The runtimes of examples/conformance that need not be compiled."""
    for file, language, *looks in (("runtime.tcl", "tclsh"), ("runtime.rb", "ruby"),
                                   ("runtime.lua", "lua5.4", "-e", 'require "socket"')):
        if shutil.which(language) and not (looks and subprocess.run([language, *looks], stderr=subprocess.DEVNULL,
                                                                    timeout=60).returncode):
            yield file, [language, os.path.join(HANDLERS, file)]


def extensions_in_shapes():
    """Extensions in the shapes of those that there are, as above."""
    if shutil.which("node"):
        yield "an extension by fetch", ["node", os.path.join(SHAPES, "extension_fetch.mjs")]
    if shutil.which("bash") and shutil.which("curl"):
        yield "an extension with curl", [os.path.join(SHAPES, "extension_curl.sh")]
    for name in extensions.SHAPES:
        yield f"an extension that is {name}", [*PYTHON, os.path.join(SHAPES, "extensions.py"), name]
