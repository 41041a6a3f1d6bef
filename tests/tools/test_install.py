"""What each ecosystem's one line installs, from the repository alone: pip and npm from `git+file:`, as another user
whose folder is elsewhere and who can write nothing in the clone; and what the build backend makes, leaves and refuses.
No index is asked."""
import contextlib
import email
import glob
import os
import shutil
import tarfile
import tempfile
import time
import unittest
import zipfile
from typing import Dict, Iterator, List, Optional, Tuple

from tests import ROOT
from tests.library.cases import Case
from tests.library.trees import commit, copied, first_call, run, text_of, write

NOBODY = 65534
PYTHON = "/usr/bin/python3"  # (that of the tests may be in a folder that only its user reads)
GREET = "require('lambda_local').withService({greet: async (event) => ({hello: event.name})}, async (service) => " \
    "console.log(JSON.stringify(await service.invoke('greet', {name: 'Ada'}))))"
TEST = """from lambda_local.in_process import LambdaLocal
with LambdaLocal(greet=lambda event: {"hello": event["name"]}) as service:
    print(service.invoke("greet", {"name": "Ada"}))
"""
# A hook of the backend on a machine that is another one.
ELSEWHERE = "import os, platform\n{}\nfrom packages import backend\nbackend.{}"


def listed(folder: str) -> List[str]:
    """All files below a folder, by their names and sizes, but for what git keeps of itself."""
    found = [os.path.join(place, name) for place, _, names in os.walk(folder) for name in names]
    return sorted(f"{os.path.relpath(path, folder)} {os.lstat(path).st_size}" for path in found)


class Home:
    """A user's folder, elsewhere, and the clone of another one: git is told that this user trusts it, as a URL would
    not need."""

    def __init__(self, clone: str, folder: str) -> None:
        self.clone, self.folder = clone, folder
        self.user: Optional[int] = NOBODY if os.getuid() == 0 else None
        write(os.path.join(folder, ".gitconfig"), b"[safe]\n\tdirectory = *\n")
        for path in (folder, os.path.join(folder, ".gitconfig")):
            if self.user is not None:
                os.chown(path, self.user, self.user)

    def run(self, words: List[str], **variables: str) -> Tuple[int, str, str]:
        settings = {"HOME": self.folder, "PIP_NO_INDEX": "1", "PIP_DISABLE_PIP_VERSION_CHECK": "1",
                    "npm_config_offline": "true", "npm_config_audit": "false", "npm_config_update_notifier": "false"}
        done: Tuple[int, str, str] = run(words, cwd=self.folder, user=self.user, **{**settings, **variables})
        return done

    def timed(self, what: str, words: List[str], **variables: str) -> Tuple[int, str, str]:
        began = time.monotonic()
        done = self.run(words, **variables)
        print(f"     ({what} takes {time.monotonic() - began:.1f} s)")
        return done

    def environment(self, name: str) -> str:
        self.run([PYTHON, "-m", "venv", name])
        return os.path.join(self.folder, name, "bin")


@contextlib.contextmanager
def home() -> Iterator[Home]:
    """A clone that releases the program, and a user elsewhere."""
    with copied() as clone, tempfile.TemporaryDirectory() as folder:
        commit(clone)
        yield Home(clone, folder)


class Install(Case):
    def used(self, user: Home, commands: str) -> None:
        """The command, and handlers in the user's own process."""
        command = os.path.join(commands, "lambda_local")
        self.check("it replays", first_call([command], user=user.user, HOME=user.folder), (0, True, ""))
        version = user.run([command, "--version"])
        self.check("it says the version, the commit, and what proved it",
                   [version[0], *(line.split(" ")[0] for line in version[1].splitlines())],
                   [0, "lambda_local", "sources", "kit", "program", "gate"], shown=version)
        commit_is = user.run(["git", "-C", user.clone, "rev-parse", "--short=12", "HEAD"])[1].strip()
        self.check("which is that of the clone", version[1].split("\n")[0], f"lambda_local 1.0.0+g{commit_is}")
        seen = user.run([os.path.join(commands, "python"), "-c", TEST])
        self.check("handlers run in a process of its user's", seen[:2], (0, "{'hello': 'Ada'}\n"), shown=seen[2])
        self.check("a template is read", user.run([command, "from_template", "--help"])[0], 0)

    def test_pip_installs_from_the_repository_and_leaves_nothing(self) -> None:
        """pip install git+URL, as another user."""
        with home() as user:
            before = listed(user.clone)
            commands = user.environment("fresh")
            pip = os.path.join(commands, "pip")
            done = user.timed("pip install git+URL", [pip, "install", "-q", f"git+file://{user.clone}"])
            self.check("pip installs from the repository", done[0], 0, shown=done)
            self.used(user, commands)
            self.check("pip finds no fault", user.run([pip, "check"])[0], 0)
            self.check("pip takes it away", user.run([pip, "uninstall", "-qy", "lambda_local"])[0], 0)
            left = [path for path in glob.glob(f"{user.folder}/fresh/**/*lambda_local*", recursive=True)
                    if "__pycache__" not in path]
            self.check("and nothing stays", left, [])
            self.check("nor in the clone", listed(user.clone), before)
            cached = glob.glob(f"{user.folder}/.cache/**/*lambda_local*", recursive=True)
            self.check("nor a program in the cache", [path for path in cached if "/pip/" not in path], [])

    def test_pip_installs_a_folder_that_its_user_cannot_write(self) -> None:
        """pip install FOLDER of a clone that its user cannot write, also with changes that are not committed."""
        with home() as user:
            write(os.path.join(user.clone, "tools", "lambda_local", "more.py"), b"MORE = 1\n")
            before = listed(user.clone)
            commands = user.environment("fresh")
            done = user.timed("pip install FOLDER", [os.path.join(commands, "pip"), "install", "-q", user.clone])
            self.check("pip installs the folder as it is", done[0], 0, shown=done)
            self.check("with what is not committed",
                       user.run([f"{commands}/python", "-c", "import lambda_local.more"])[0], 0)
            self.used(user, commands)
            if user.user is not None:
                self.check("nothing is left in the clone", listed(user.clone), before)
                self.check("nor in the user's cache", glob.glob(f"{user.folder}/.cache/lambda_local*"), [])

    def test_pip_installs_the_clone_to_be_edited(self) -> None:
        with home() as user:
            commands = user.environment("fresh")
            done = user.run([os.path.join(commands, "pip"), "install", "-q", "-e", user.clone])
            self.check("pip install -e", done[0], 0, shown=done)
            where = user.run([f"{commands}/python", "-c", "import lambda_local.cli as it; print(it.__file__)"])[1]
            self.check("leads to the clone", where.strip(), os.path.join(user.clone, "tools/lambda_local/cli.py"))
            user.run([f"{commands}/lambda_local", "path"])  # (it unpacks the program, and says so)
            self.used(user, commands)

    def test_the_wheels_metadata_are_those_of_pyproject_toml(self) -> None:
        """The wheel's metadata are those of pyproject.toml, as Python's own readers see them."""
        with home() as user:
            commands = user.environment("fresh")
            user.run([os.path.join(commands, "pip"), "wheel", "-q", "--no-deps", "-w", "made", user.clone])
            path, = glob.glob(f"{user.folder}/made/*.whl")
            with zipfile.ZipFile(path) as wheel:
                info = {os.path.basename(name): wheel.read(name).decode() for name in wheel.namelist()
                        if ".dist-info/" in name}
                modes = {name: wheel.getinfo(name).external_attr >> 16 & 0o111 for name in wheel.namelist()
                         if name.endswith("bin/lambda_local")}
            said = email.message_from_string(info["METADATA"])
            self.check("name, Python and extras",
                       (said["Name"], said["Requires-Python"], said.get_all("Provides-Extra")),
                       ("lambda_local", ">=3.9", ["yaml", "sqs"]))
            self.check("the classifiers are known to packaging's list of old", [
                it for it in said.get_all("Classifier") or [] if it.count(" :: ") < 1], [])
            self.check("the command and the plugin", info["entry_points.txt"],
                       "[console_scripts]\nlambda_local = lambda_local.cli:main\n\n"
                       "[pytest11]\nlambda_local = lambda_local.pytest_plugin\n")
            self.check("the program may be started", list(modes.values()), [0o111])

    def test_a_source_distribution_makes_the_same_wheel_without_git(self) -> None:
        """A source distribution makes the same wheel without git."""
        with home() as user, tempfile.TemporaryDirectory() as folder:
            done = self.hook(user.clone, f"build_sdist({folder!r})")
            self.check("it is made", done[0], 0, shown=done)
            path, = glob.glob(f"{folder}/*.tar.gz")
            with tarfile.open(path) as tar:
                tar.extractall(folder)
            root = path[:-len(".tar.gz")]
            for made in (user.clone, root):
                os.mkdir(f"{folder}/{os.path.basename(made)}.made")
                done = self.hook(made, f"build_wheel({folder!r} + '/' + {os.path.basename(made) + '.made'!r})",
                                 SOURCE_DATE_EPOCH="1800000000")
                self.check("a wheel is made of it", done[0], 0, shown=done)
            one, two = (glob.glob(f"{folder}/{os.path.basename(made)}.made/*")[0] for made in (user.clone, root))
            self.check("which has the same name", os.path.basename(one), os.path.basename(two))
            names = [sorted(zipfile.ZipFile(path).namelist()) for path in (one, two)]
            self.check("and the same files", names[0], names[1])

    @staticmethod
    def hook(root: str, call: str, before: str = "", **variables: str) -> Tuple[int, str, str]:
        """What a hook of a tree's backend comes to."""
        done: Tuple[int, str, str] = run([PYTHON, "-B", "-c", ELSEWHERE.format(before, call)], cwd="/",
                                         PYTHONPATH=os.path.join(root, "tools"), **variables)
        return done

    def test_another_machine_is_refused_with_a_sentence(self) -> None:
        """What is in the way is one sentence, not a stack."""
        machines: Dict[str, Tuple[str, str]] = {
            "another machine": ("platform.machine = lambda: 'aarch64'", "this is Linux aarch64"),
            "another system": ("platform.system = lambda: 'Darwin'", "this is Darwin x86_64"),
            "an old C library": ("os.confstr = lambda name: 'glibc 2.31'", "here is glibc 2.31"),
            "another C library": ("os.confstr = lambda name: None", "here is another C library"),
            "an old Python": ("import sys; sys.version_info = (3, 8)", "it needs Python 3.9 or later"),
        }
        for name, (before, words) in machines.items():
            status, output, said = self.hook(ROOT, "get_requires_for_build_wheel()", before)
            self.check(name, (status, output, said.count("\n"), words in said), (1, "", 1, True), shown=said)

    def test_no_program_and_a_wrong_pyproject_toml_are_refused_with_a_sentence(self) -> None:
        with copied() as root, tempfile.TemporaryDirectory() as folder:
            write(os.path.join(root, "crates", "lambda_local", "src", "mine.rt"), b"")
            status, output, said = self.hook(root, f"build_wheel({folder!r})")
            self.check("no program of these sources",
                       (status, said.count("\n"), "there is no program of these sources" in said), (1, 1, True),
                       shown=said)
            for text, words in (("[project]\nname = 5\n", "pyproject.toml: name must be a string"),
                                ("name\n", "pyproject.toml: line 1: a key must be followed by = and a value"),
                                ('[project]\nname = "a"\nname = "b"\n', "line 3: 'name' is there twice")):
                write(os.path.join(root, "pyproject.toml"), text.encode())
                status, output, said = self.hook(root, f"prepare_metadata_for_build_wheel({folder!r})")
                self.check(f"a pyproject.toml that is not read: {text!r}",
                           (status, said.count("\n"), words in said), (1, 1, True), shown=said)

    def test_pyproject_toml_is_read_as_Pythons_own_reader_does(self) -> None:
        """pyproject.toml is read as Python's own reader of TOML does, where there is one."""
        try:
            import tomllib  # type: ignore[import-not-found,unused-ignore]
        except ImportError:
            self.skipTest("this Python has no tomllib")
        from packages.project import tables_of
        text = text_of(ROOT, "pyproject.toml")
        self.check("all of it", tables_of(text), tomllib.loads(text))

    @unittest.skipUnless(shutil.which("npm"), "there is no npm here")
    def test_npm_installs_from_the_repository_and_leaves_nothing(self) -> None:
        """npm install git+URL --offline, as another user."""
        with home() as user:
            before = listed(user.clone)
            write(os.path.join(user.folder, "package.json"), b'{"private": true}')
            if user.user is not None:
                os.chown(os.path.join(user.folder, "package.json"), user.user, user.user)
            done = user.timed("npm install git+URL --offline",
                              ["npm", "install", "--save-dev", "--offline", f"git+file://{user.clone}"])
            self.check("npm installs from the repository", done[0], 0, shown=done)
            command = os.path.join(user.folder, "node_modules", ".bin", "lambda_local")
            self.check("the command is there", user.run([command, "--version"])[1].split("\n")[0], "lambda_local 1.0.0")
            self.check("it replays", first_call([command], user=user.user, HOME=user.folder), (0, True, ""))
            for kind, words in (("require", [GREET]),
                                ("import", ["--input-type=module", GREET.replace(
                                    "require('lambda_local')", "(await import('lambda_local'))")])):
                seen = user.run(["node", *words[:-1], "-e", words[-1]])
                self.check(f"the module is had by {kind}", seen, (0, '{"hello":"Ada"}\n', ""))
            said = user.run([command, "build"])
            self.check("it builds nothing: it has no sources", (said[0], "no sources of the program" in said[2]),
                       (4, True), shown=said)
            done = user.run(["npm", "uninstall", "--offline", "lambda_local"])
            self.check("npm takes it away", (done[0], os.path.exists(f"{user.folder}/node_modules/lambda_local")),
                       (0, False), shown=done)
            self.check("nothing is left in the clone", listed(user.clone), before)
            self.check("nor in the user's cache", glob.glob(f"{user.folder}/.cache/lambda_local*"), [])
