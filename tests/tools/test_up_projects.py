"""Checks what projects have: layers as folders and .zip files, the Python of a project, an Init that takes long, some
of the functions alone, and functions that cannot be started. The program is LAMBDA_LOCAL_PROGRAM, else
./lambda_local."""
import glob
import io
import json
import os
import random
import shutil
import stat
import subprocess
import sys
import tempfile
import zipfile
from typing import Tuple

from lambda_local.configuration import Members
from lambda_local.service import Fault
from lambda_local.up import layers, programs
from lambda_local.up.members import load
from tests import ROOT
from tests.library.cases import Case
from tests.library.up_kit import Up

LINK = stat.S_IFLNK | 0o777


def packed(*members):
    """A .zip file of (name, contents, mode)."""
    room = io.BytesIO()
    with zipfile.ZipFile(room, "w") as archive:
        for name, data, mode in members:
            member = zipfile.ZipInfo(name)
            member.create_system, member.external_attr = 3, mode << 16
            archive.writestr(member, data)
    return room.getvalue()


def damaged(method):
    """A .zip file whose one member is packed in this way, and has other bytes in its middle."""
    room = io.BytesIO()
    with zipfile.ZipFile(room, "w", method) as archive:
        archive.writestr("python/x.py", bytes(random.Random(5).randbytes(20_000)))
    data = bytearray(room.getvalue())
    data[60:300] = b"\xff" * 240
    return bytes(data)


def file_of(data, folder, name="layer.zip"):
    path = os.path.join(folder, name)
    with open(path, "wb") as file:
        file.write(data)
    return path


HOSTILE = {
    "a path out of it": ([("../out", b"x", 0o644)], "'../out', whose place is not inside"),
    "a path out of it, later": ([("a/../../out", b"x", 0o644)], "whose place is not inside"),
    "an absolute path": ([("/tmp/out", b"x", 0o644)], "'/tmp/out', whose place is not inside"),
    "a path of Windows": ([("..\\out", b"x", 0o644)], "whose place is not inside"),
    "a link out of it": ([("link", b"../out", LINK)], "the link link leads out of the layer"),
    "an absolute link": ([("link", b"/etc/passwd", LINK)], "the link link leads out of the layer"),
    "a link to a link out of it": ([("a", b".", LINK), ("b", b"a/../..", LINK)], "leads out of the layer"),
    "a file behind a link": ([("a", b"/tmp", LINK), ("a/out", b"x", 0o644)], "the link a leads out of the layer"),
    "a link behind a link": ([("a", b"b", LINK), ("b/c", b"x", 0o644), ("a/d", b"../../out", LINK)],
                             "leads out of the layer"),
    "a device": ([("null", b"", stat.S_IFCHR | 0o666)], "null is neither a file, a folder nor a link"),
    "a link that is there twice": ([("a", b"b", LINK), ("a", b"c", LINK), ("b", b"", 0o644)], "or is there twice"),
}


def fault_of(names, base):
    try:
        layers.folders_of(names, base, "here")
    except Fault as fault:
        return str(fault)
    return "taken"


APP = "import shop, sys\ndef run(event, context):\n    return [shop.NAME, sys.executable]\n"
SLOW = "import time\ntime.sleep(12)\ndef run(event, context):\n    return 'slow'\n"
NODE = "const shop = require('shop');\nexports.run = async () => shop.name;\n"


class UpProjects(Case):
    def test_a_hostile_layer_is_refused_and_leaves_nothing(self):
        before = set(glob.glob(os.path.join(tempfile.gettempdir(), "lambda_local.*")))
        with tempfile.TemporaryDirectory() as folder:
            for number, (name, (members, wanted)) in enumerate(HOSTILE.items()):
                path = file_of(packed(*members), folder, f"{number}.zip")
                self.check(f"a layer with {name}", wanted in fault_of([path], folder), shown=fault_of([path], folder))
            self.check("nothing is written outside", sorted(os.listdir(folder)),
                       sorted(f"{n}.zip" for n in range(len(HOSTILE))))
            most, layers.MOST_BYTES = layers.MOST_BYTES, 1000
            path = file_of(packed(("bomb", b"\0" * 5000, 0o644)), folder)
            self.check("a layer that is too large", "more than 1000 bytes" in fault_of([path], folder))
            layers.MOST_BYTES = most
            for kind, method in (("deflate", zipfile.ZIP_DEFLATED), ("bzip2", zipfile.ZIP_BZIP2),
                                 ("LZMA", zipfile.ZIP_LZMA)):
                path = file_of(damaged(method), folder, f"{kind}.zip")
                self.check(f"{kind} that is damaged", fault_of([path], folder).startswith(
                    f"here: layers: {path}: it is not unpacked: "), shown=fault_of([path], folder))
            path = file_of(b"no zip at all", folder, "none.zip")
            self.check("what is no .zip", fault_of([path], folder),
                       f"here: layers: {path}: it is not unpacked: File is not a zip file")
            self.check("what is not there", fault_of(["nowhere"], folder),
                       f"here: layers: there is no folder or .zip file {folder}/nowhere")
        left = [folder for folder in set(glob.glob(os.path.join(tempfile.gettempdir(), "lambda_local.*"))) - before
                if os.path.isdir(folder) and not os.path.exists(f"{folder}/configuration.json") and os.listdir(folder)]
        self.check("nothing is left of what is refused", left, [])

    def test_a_good_layer_is_unpacked_once(self):
        with tempfile.TemporaryDirectory() as folder:
            path = file_of(packed(("python/shop/__init__.py", b"", 0o644), ("bin/tool", b"#!/bin/sh\n", 0o755),
                                  ("lib/", b"", stat.S_IFDIR | 0o755), ("lib/x.so.1", b"elf", 0o444),
                                  ("lib/x.so", b"x.so.1", LINK)), folder)
            there, = layers.folders_of([path], folder, "here")
            self.check("files, modes and links of a layer",
                       (os.access(f"{there}/bin/tool", os.X_OK), os.access(f"{there}/python/shop/__init__.py", os.X_OK),
                        os.readlink(f"{there}/lib/x.so"), os.path.isfile(f"{there}/lib/x.so")), (True, False, "x.so.1",
                                                                                                 True))
            self.check("the same file is unpacked once", layers.folders_of([path], folder, "here"), [there])

    def test_parts_of_layers_are_on_Lambdas_paths(self):
        with tempfile.TemporaryDirectory() as folder:
            one, two = os.path.join(folder, "one"), os.path.join(folder, "two")
            for place in (f"{one}/python", f"{one}/nodejs/node20/node_modules", f"{one}/bin",
                          f"{two}/python/lib/python3.9/"
                          "site-packages", f"{two}/nodejs/node_modules", f"{two}/lib", f"{two}/python/lib/python3.8"):
                os.makedirs(place)
            found = layers.variables_of([one, two], {"PYTHONPATH": "/mine", "PATH": "/programs"},
                                        {"python": "3.9", "node": "20"})
            self.check("the parts of layers are on Lambda's paths, those of the last one first", found, {
                "PYTHONPATH": f"/mine:{two}/python/lib/python3.9/site-packages:{two}/python:{one}/python",
                "NODE_PATH": ":".join([f"{two}/nodejs/node_modules", f"{one}/nodejs/node20/node_modules",
                                       *filter(None, [os.environ.get("NODE_PATH")])]),
                "PATH": f"/programs:{one}/bin",
                "LD_LIBRARY_PATH": ":".join([f"{two}/lib", *filter(None, [os.environ.get("LD_LIBRARY_PATH")])])})

    def test_a_project_with_layers_and_functions_that_cannot_start_is_served(self):
        """A layer of each kind, another Python, an Init of more than 10 s, and functions that cannot be started."""
        functions = [
            {"name": "py", "runtime": "python3.9", "handler": "app.run", "layers": ["layer.zip"], "python": "./mine"},
            {"name": "slow", "runtime": "python", "handler": "slow.run", "init": 40},
            {"name": "unbuilt", "command": "./bootstrap", "directory": "not/built"},
            {"name": "broken", "runtime": "python", "handler": "nothing.run"}]
        if shutil.which("node"):
            functions.append({"name": "js", "runtime": "nodejs20.x", "handler": "index.run", "layers": ["folder"]})
        mine = f"#!/bin/sh\nexec {sys.executable} \"$@\"\n"

        def prepare(at):
            file_of(packed(("python/shop.py", b"NAME = 'zip'\n", 0o644)), at)
            os.makedirs(f"{at}/folder/nodejs/node_modules/shop")
            file_of(b"exports.name = 'folder';\n", f"{at}/folder/nodejs/node_modules/shop", "index.js")

        up = Up("--allow-unready", functions=functions, app=APP, whole={"asynchronous": True},
                files={"slow.py": SLOW, "index.js": NODE, "mine": mine}, command=["--", "sleep", "100"],
                prepare=prepare)
        self.check("functions that cannot be started do not stop the command", up.until("ready, except ", 120))
        self.check("what is wrong is told", up.has("unbuilt: directory: there is no folder ") and up.has(
            "unbuilt: ./bootstrap is not a program") and up.has("[broken/1] Init failed Runtime.ImportModuleError"))
        answer = up.invoke("py")[0]
        self.check("a layer of a .zip file", answer[0] if isinstance(answer, list) else answer, "zip")
        if shutil.which("node"):
            self.check("a layer that is a folder", up.invoke("js")[0], "folder")
        self.check("an Init of 12 s, which may take 40", up.invoke("slow")[0], "slow")
        answer, took = up.invoke("unbuilt")
        self.check("a caller of a function that is not built hears it", (answer, took < 9), ("Runtime.ExitError", True))
        answer, took = up.invoke("broken")
        self.check("and one of a broken function", (answer, took < 9), ("Runtime.ImportModuleError", True))
        self.check("all ends", up.end(), (143, []))

    def test_only_leaves_the_others_out(self):
        functions = [{"name": "one", "runtime": "python", "handler": "app.run"},
                     {"name": "two", "command": "./not_there"}, {"name": "three", "command": "./not_there"}]
        up = Up("--only", "one", functions=functions, command=["--", "true"],
                whole={"routes": {"GET /": "two", "GET /one": {"function": "one"}},
                       "asynchronous": {"onFailure": "three"}})
        self.check("--only leaves the others out", up.end(None), (0, []))

    def test_only_of_a_name_that_is_none_is_told(self):
        functions = [{"name": name, "command": "./not_there"} for name in ("one", "two")]
        up = Up("--only", "one,tow", functions=functions, command=["--", "true"])
        self.check("a name that is none", (up.end(None), up.lines),
                   ((2, []), ["up: --only tow: up.json has no such function, did you mean two?"]))

    def test_an_init_that_takes_longer_than_its_own_limit_is_told(self):
        up = Up("--ready", "30", functions=[{"name": "f", "runtime": "python", "handler": "slow.run", "init": 1}],
                files={"slow.py": SLOW}, command=["--", "true"])
        self.check("an Init that takes longer than its own limit", up.until("Init failed: Init timed out after 1 s",
                                                                            30))
        self.check("a caller hears that", up.invoke()[0], "Init.Timeout")
        up.end()

    def test_mistakes_of_layers_and_runtimes_are_told(self):
        base: Members = {"name": "f", "runtime": "python", "handler": "app.run"}
        mistakes: Tuple[Tuple[Members, str], ...] = (
            ({"runtime": "ruby3.2"},
             'function f: runtime must be "python" or "node" (another language has a "command"), not "ruby3.2"'),
            ({"init": 0}, "function f: init must be a whole number of seconds, from 1 to 900, not 0"),
            ({"layers": "x"}, 'function f: layers must be a list of folders and .zip files, not "x"'),
            ({"python": ""}, 'function f: python must be a string: a Python interpreter, not ""'),
            ({"runtime": "node", "python": "python3"},
             'function f: python is for "runtime": "python": leave it out'),
            ({"python": "./nothing"}, 'function f: "runtime": "python" needs the program '),
            ({"environments": {"min": 3, "max": 2}},
             "function f: environments: min is 3, which is more than max, 2"),
            ({"environments": {"most": 2}},
             "function f: environments: unknown member most; there are idle, max, min"),
            ({"environments": {"max": 0}},
             "function f: environments: max must be a whole number from 1 to 256, not 0"),
            ({"environments": {"idle": 0}}, "function f: environments: idle must be a whole number of seconds"),
            ({"environments": True}, "function f: environments must be a whole number from 1 to 256, or an object"),
            ({"environments": {"max": 3}, "ports": [0, 0]}, "function f: 2 ports for 3 environments"))
        for members, wanted in mistakes:
            with tempfile.TemporaryDirectory() as folder:
                path = file_of(json.dumps({"functions": [{**base, **members}]}).encode(), folder, "up.json")
                try:
                    load(path)
                    self.check(f"wrong: {wanted}", False)
                except Fault as fault:
                    self.check(f"wrong: {wanted}", wanted in str(fault), shown=str(fault))

    def test_a_project_without_functions_is_told(self):
        with tempfile.TemporaryDirectory() as folder:
            path = file_of(b'{"functions": []}', folder, "up.json")
            try:
                load(path)
                self.check("no function", False)
            except Fault as fault:
                self.check("no function", str(fault), f"{path}: functions: there is no function: write at least one")

    def test_an_interpreter_is_found_by_its_name_or_path(self):
        self.check("by default the interpreter that runs the tool", programs.python_of("python", None, "/at"),
                   (sys.executable, ""))
        self.check("a name on PATH, or a path from the directory", [programs.python_of("python", name, "/at")[0]
                                                                    for name in ("python3.9", ".venv/bin/python",
                                                                                 "/usr/bin/p")],
                   ["python3.9", "/at/.venv/bin/python", "/usr/bin/p"])
        own = f"python3.{sys.version_info[1]}"
        self.check("one of Lambda's names", programs.python_of(own, None, "/at"), (sys.executable, ""))
        program, note = programs.python_of("python3.99", None, "/at")
        self.check("a version that is not here is told",
                   (program, note.startswith("python3.99 not found, using 3.")),
                   (sys.executable, True))

    def test_an_interpreter_that_does_not_start_is_told(self):
        with tempfile.TemporaryDirectory() as folder:  # (as a manager of versions has them on PATH)
            for name, does in (("python3.97", "exit 127"), ("python3.98", "echo 3.98")):
                path = os.path.join(folder, name)
                with open(path, "w") as file:
                    file.write(f"#!/bin/sh\n{does}\n")
                os.chmod(path, 0o755)
            path, os.environ["PATH"] = os.environ["PATH"], folder + os.pathsep + os.environ["PATH"]
            try:
                program, note = programs.python_of("python3.97", None, "/at")
                self.check("one that does not start is told",
                           (program, note.startswith("python3.97 does not start, using ")),
                           (sys.executable, True))
                self.check("one that does is taken", programs.python_of("python3.98", None, "/at"), ("python3.98", ""))
            finally:
                os.environ["PATH"] = path

    def test_the_help_has_the_options(self):
        self.check("versions", (programs.version_of(sys.executable, "python"), programs.version_of("/nowhere", "node")),
                   ("%d.%d" % sys.version_info[:2], ""))
        done = subprocess.run([sys.executable, os.path.join(ROOT, "tools"), "up", "--help"], capture_output=True,
                              text=True)
        self.check("--help has the options", [name for name in ("--only", "--allow-unready")
                                              if name not in done.stdout], [])
