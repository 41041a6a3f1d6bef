"""Checks which files --reload watches, layers and compiled sources among them, that equal paths are walked once, and
that a change of UP.json is reported. The program is LAMBDA_LOCAL_PROGRAM, else ./lambda_local."""
import os
import shutil
import tempfile
import threading
import types
from unittest import mock

from lambda_local.up import reload
from tests.library.cases import Case
from tests.library.up_kit import RUNTIME, Up, until

# By gitignore(5): the last pattern that matches decides; one with a slash is of its own folder; one that ends with a
# slash is of folders.
GITIGNORE = "# made\n*.log\n!keep.log\n/only_here\ngenerated/\nsub/deep.txt\n**/anywhere\n\n"
FILES = {"app.py": True, "a.log": False, "keep.log": True, "only_here": False, "sub/only_here": True,
         "generated/x.py": False, "sub/generated/x.py": False, "sub/deep.txt": False, "sub/sub/deep.txt": True,
         "sub/anywhere": False, "node_modules/x/index.js": False, "dist/app.js": False, "sub/build/x": False,
         ".hidden/x": False, "sub/.env": False, "__pycache__/app.pyc": False, "app.pyc": False,
         "my_packages/pyvenv.cfg": False, "my_packages/lib/x.py": False, "lib/x.py": True, "bin/x.log": False}


def seen_below(root, **members):
    function = types.SimpleNamespace(**{"watch": [root], "handler": "app.run", "command": ["python3", "runtime.py"],
                                        **members})
    return {os.path.relpath(path, root) for path in reload.Files(function).times()}


class UpReload(Case):
    def test_files_are_watched_but_for_what_git_ignores(self):
        with tempfile.TemporaryDirectory() as root:
            for name in FILES:
                os.makedirs(os.path.dirname(os.path.join(root, name)), exist_ok=True)
                with open(os.path.join(root, name), "w") as file:
                    file.write("x")
            self.check("without .gitignore", seen_below(root) & {"a.log", "only_here", "generated/x.py", "dist/app.js"},
                       {"a.log", "only_here", "generated/x.py"})
            with open(os.path.join(root, ".gitignore"), "w") as file:
                file.write(GITIGNORE)
            self.check("with one", seen_below(root), {name for name, is_watched in FILES.items() if is_watched})
            self.check("what the handler names is watched", "dist/app.js" in seen_below(root,
                                                                                        handler="dist/app.handler"))
            self.check("and what the command names", "generated/x.py" in seen_below(root, command=["./generated/x.py"]))
            self.check("a folder that is watched by name", seen_below(os.path.join(root, "dist")), {"app.js"})
            self.check("a file that is watched by name", len(reload.times([os.path.join(root, "a.log")])), 1)
            self.check("what is not there", reload.times([os.path.join(root, "nothing")]), {})
            os.symlink(root, os.path.join(root, "lib", "loop"))
            self.check("a link to a folder above ends", "lib/x.py" in seen_below(root))

    def test_the_same_files_are_walked_once(self):
        with tempfile.TemporaryDirectory() as root:
            functions = [types.SimpleNamespace(name=name, watch=[root], handler=handler, command=["x"])
                         for name, handler in (("a", "app.run"), ("b", "app.run"), ("c", "other.run"))]
            looker = reload.Reload([], mock.Mock(), threading.Event(), mock.Mock(), os.path.join(root, "up.json"))
            with mock.patch.object(reload.Files, "walk", autospec=True, side_effect=reload.Files.walk) as walk:
                looker.look({function.name: reload.Files(function) for function in functions})
            self.check("functions with the same files are walked once", walk.call_count, 2)

    def test_a_change_of_UP_json_is_reported_and_one_of_the_code_restarts(self):
        up = Up("--reload", functions=[{"name": "f", "command": RUNTIME}], files={".gitignore": "data\n"})
        up.until("[up] ready")
        up.write("data", "changed")
        with open(os.path.join(up.at, "up.json"), "a") as file:
            file.write("\n")
        self.check("a change of UP.json is reported",
                   up.until("up.json has changed: restart lambda_local up to apply it", 20))
        self.check("and what is ignored begins nothing anew", up.has("restarting f"), False)
        with open(os.path.join(up.at, "app.py"), "a") as file:
            file.write("# changed\n")
        self.check("a change of the code does", up.until("restarting f: app.py changed", 20))
        self.check("nothing is left", up.end(), (0, []))

    def test_a_layer_that_is_a_folder_is_watched(self):
        """A layer that is a folder is watched."""
        up = Up("--reload", functions=[{"name": "f", "runtime": "python", "handler": "app.run", "layers": ["layer"]}],
                app="import shared\ndef run(event, context):\n    return shared.NAME\n",
                files={"layer/python/shared.py": "NAME = 'one'\n"})
        up.until("[up] ready")
        self.check("what a layer has", up.invoke("f", 20)[0], "one")
        up.write("layer/python/shared.py", "NAME = 'another'\n")
        self.check("a change of a layer", up.until("shared.py changed", 30), shown=up.lines)
        self.check("the new code answers", until(lambda: up.invoke("f", 20)[0] == "another", 30))
        up.end()

    def test_a_source_that_has_to_be_compiled_is_named_and_its_output_served(self):
        """A source that has to be compiled is named, with the command that does so; --reload sees what that writes."""
        if not shutil.which("node"):
            return
        up = Up("--reload", functions=[{"name": "f", "runtime": "node", "handler": "src/ts/app.handler"}],
                files={"src/ts/app.ts": "export const handler = async (event: object): Promise<string> => 'typed';\n"})
        wanted = ("/src/ts has no app.js, .mjs or .cjs; there is app.ts: compile it first, with npx esbuild "
                  "src/ts/app.ts --bundle --platform=node --outdir=src/ts")
        self.check("the folder, the source and the command", up.until(wanted, 30), shown=up.lines)
        up.write("src/ts/app.js", "exports.handler = async (event) => 'typed';\n")  # (as esbuild does)
        self.check("what is compiled is served", until(lambda: up.invoke("f", 20)[0] == "typed", 30), shown=up.lines)
        up.end()
