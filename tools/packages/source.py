"""What a package is made of: the files of the last commit, and the program of its sources."""
import hashlib
import io
import os
import platform
import shlex
import shutil
import subprocess
import tarfile
from typing import Any, Callable, Dict, Iterator, Optional, Tuple

ROOT = os.path.dirname(os.path.dirname(os.path.dirname(os.path.realpath(__file__))))
PACKAGED = ("lambda_local", "README.md", "CHANGELOG.md", "LICENSE", "VERSION", "docs", "examples", "tools",
            "conformance/src",
            "tests/clients", "tests/__init__.py",
            *(f"tests/library/{name}" for name in ("__init__.py", "clients", "counted.py", "day.c", "ports.py")))
# which only a checkout has
MAKERS = ("tools/package", "tools/packages/", "tools/release", "tools/proof_costs", "tools/library/crate_list.py")
PROVED = ("crates.txt", "HANDLES", ":(glob)crates/*/src/**", ":(glob)crates/*/specs/**", ":(glob)crates/*/proofs/**")
LAUNCHER = os.path.join(ROOT, "lambda_local")
STAMP = ("sources", "kit", "program", "gate")  # the lines of what proved a program
GLIBC = (2, 34)  # the oldest that the program starts with
CONTAINER = "the image of the repository's Dockerfile runs it elsewhere (--platform linux/amd64)"
File = Tuple[int, bytes]  # a mode and contents
TRIAL, ANSWER = "examples/first_call.txt", "crates/lambda_local/stdout"


class Fault(Exception):
    """Why there is no package: a status, and a line with what to do."""

    def __init__(self, status: int, message: str) -> None:
        super().__init__(message)
        self.status = status


def git(*words: str, **more: Any) -> bytes:
    """What git says of the checkout."""
    done = subprocess.run(["git", "-C", ROOT, *words], stdout=subprocess.PIPE, stderr=subprocess.PIPE,
                          env={**os.environ, "TZ": "UTC"}, **more)
    if b"safe.directory" in done.stderr:  # (git runs nothing that another user has configured)
        raise Fault(4, f"git reads no checkout of another user, and {ROOT} is one: make a clone of your own, or allow "
                       f"it: git config --global --add safe.directory {shlex.quote(ROOT)}")
    if done.returncode:
        raise Fault(2, f"git {words[0]} ended with status {done.returncode} in {ROOT}: clone the repository first")
    said: bytes = done.stdout
    return said


def read(*parts: str) -> bytes:
    with open(os.path.join(ROOT, *parts), "rb") as file:
        return file.read()


def is_executable(mode: int) -> bool:
    return bool(mode & 0o100)


def version_of(commit: str) -> str:
    """The version of the tree, with the commit if it is one: 1.0.0+g0123456789ab."""
    return read("VERSION").decode().strip() + (f"+g{commit[:12]}" if commit else "")


def refuse_platform() -> None:
    """The program is for one platform."""
    here = f"{platform.system()} {platform.machine()}"
    if here != "Linux x86_64":
        raise Fault(2, f"the program is for x86-64 Linux, and this is {here}: {CONTAINER}")
    try:
        library = os.confstr("CS_GNU_LIBC_VERSION") or ""
    except (ValueError, OSError):
        library = ""
    name, _, number = library.partition(" ")
    if name != "glibc" or tuple(int(part) for part in number.split(".")[:2]) < GLIBC:
        raise Fault(2, f"the program needs glibc {GLIBC[0]}.{GLIBC[1]} or later, and here is "
                       f"{library or 'another C library'}: {CONTAINER}")


def launched(**variables: str) -> str:
    """The program that ./lambda_local starts: none is proved or built for a package."""
    plain = {name: value for name, value in os.environ.items() if name != "LAMBDA_LOCAL_PROGRAM"}
    found = subprocess.run([LAUNCHER, "path"], env={**plain, **variables}, stdout=subprocess.PIPE,
                           stderr=subprocess.PIPE, text=True)
    if found.returncode:
        raise Fault(
            4, (found.stderr.strip().splitlines() or ["there is no program"])[-1].replace("lambda_local: ", ""))
    path = found.stdout.rstrip("\n")
    if path.endswith(".unproved"):
        raise Fault(4, f"the program of these sources is not proved: './lambda_local build' proves and builds it, "
                       f"and tools/package with LAMBDA_LOCAL_PROGRAM={path} packages it as it is")
    return path


class Source:
    """The files that are packaged, and the program with what proved it."""

    version: str
    commit = ""  # none outside git
    moment: int  # of the commit: a package has no other time in it
    files: Dict[str, File]
    is_given = False

    def __init__(self, say: Callable[[object], None]) -> None:
        self.say = say
        refuse_platform()

    def take(self, path: str) -> None:
        """Takes a program, once it has been tried."""
        self.program = read(path)
        of_commit = f"commit {self.commit}\n" if self.commit else ""
        self.proved = f"version {self.version}\n{of_commit}{self._what_proved(path)}".encode()
        self._try(path)

    def _what_proved(self, path: str) -> str:
        """The lines on what proved the program, which are said too."""
        sum_is = f"program {hashlib.sha256(self.program).hexdigest()}"
        if self.is_given:
            lines = [sum_is, "given by LAMBDA_LOCAL_PROGRAM, not proved here"]
        else:
            lines = [line for line in read(path + ".proved").decode().splitlines() if line.split(" ")[0] in STAMP]
        if sum_is not in lines:
            raise Fault(4, f"{path} is not the program that {path}.proved tells of: './lambda_local build' makes both")
        for line in lines:
            self.say(line)
        return "".join(line + "\n" for line in lines)

    @staticmethod
    def _try(path: str) -> None:
        """Without this machine's settings, as its users will start it."""
        nothing: Dict[str, str] = {}
        try:
            got = subprocess.run([path], input=read(TRIAL), stdout=subprocess.PIPE, stderr=subprocess.DEVNULL,
                                 env=nothing, cwd="/").stdout
        except OSError as fault:
            raise Fault(4, f"{path}: {fault.strerror}: this is not a program that starts here") from None
        if got != read(ANSWER):
            raise Fault(1, f"the program does not answer {TRIAL} as it should: {path}")

    def below(self, folder: str) -> Dict[str, File]:
        """The files below a folder, by their names in it."""
        return {name[len(folder) + 1:]: file for name, file in self.files.items() if name.startswith(folder + "/")}


class Commit(Source):
    """The last commit with the proved program of its sources, or with the program that is given."""

    def __init__(self, say: Callable[[object], None]) -> None:
        super().__init__(say)
        self.commit, moment, self.person = git("log", "-1", "--format=%H%n%ct%n%cn <%ce>").decode().split("\n")[:3]
        self.moment = int(moment)
        self._refuse_changes()
        self.version = version_of(self.commit)
        given = self._given()
        self.is_given = given is not None
        self.take(os.path.abspath(given or launched()))
        self.files = dict(self._read_commit())

    @staticmethod
    def _refuse_changes() -> None:
        """Other files of the checkout do not matter: a package has those of the commit."""
        changed = git("status", "--porcelain", "--untracked-files=all", "--", *PACKAGED, "pyproject.toml",
                      *PROVED).decode().splitlines()
        if changed:
            names = ", ".join([line[3:] for line in changed[:5]] + [".."] * (len(changed) > 5))
            raise Fault(2, f"commit first, or move away what does not belong here; not committed: {names}")

    @staticmethod
    def _given() -> Optional[str]:
        """The program that LAMBDA_LOCAL_PROGRAM names, unless that is the launcher."""
        given = os.environ.get("LAMBDA_LOCAL_PROGRAM")
        there = shutil.which(given) if given else None
        if given and not there:
            raise Fault(4, f"{given} is not a program: LAMBDA_LOCAL_PROGRAM names another")
        return None if there is None or os.path.realpath(there) == LAUNCHER else there

    @staticmethod
    def _read_commit() -> Iterator[Tuple[str, File]]:
        """The name of each packaged file, with its mode and contents."""
        with tarfile.open(fileobj=io.BytesIO(git("archive", "--format=tar", "HEAD", *PACKAGED))) as tar:
            for member in tar:
                if member.isfile() and not member.name.startswith(MAKERS) and not member.name.endswith(".gitignore"):
                    file = tar.extractfile(member)
                    assert file is not None
                    yield member.name, (0o755 if is_executable(member.mode) else 0o644, file.read())


def put(path: str, data: bytes) -> str:
    """Writes a package at once, or not at all."""
    try:
        with open(path + ".new", "wb") as file:
            file.write(data)
        os.replace(path + ".new", path)
    except OSError as fault:
        raise Fault(4, f"{path}: {fault.strerror}: name a folder that can be written") from None
    return path
