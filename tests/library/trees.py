"""Copies of this checkout in which a check may change what it likes, and what their commands say."""
import contextlib
import gzip
import hashlib
import os
import subprocess
import tempfile

from tests.library.checkout import ROOT, copy_to

RELEASED = "crates/lambda_local/out/lambda_local"  # where a released program is unpacked to


def plain(**more):
    """This environment, in which no program is named and no kit is on the path."""
    kept = {name: value for name, value in os.environ.items()
            if name not in ("LAMBDA_LOCAL_PROGRAM", "XDG_CACHE_HOME", "XDG_STATE_HOME", "PYTHONPATH")}
    return {**kept, "PATH": "/usr/bin:/bin", **more}


def write(path, data, mode=0o644):
    """Writes a file of this mode, and the folders above it."""
    os.makedirs(os.path.dirname(path), exist_ok=True)
    with open(path, "wb") as file:
        file.write(data)
    os.chmod(path, mode)


def text_of(*parts):
    with open(os.path.join(*parts), encoding="utf-8") as file:
        return file.read()


def run(words, cwd="/", stdin="", user=None, **variables):
    """What a command ends with: its status, and what it wrote on both streams."""
    who = {"user": user, "group": user, "extra_groups": []} if user is not None else {}
    ran = subprocess.run(words, cwd=cwd, env=plain(**variables), input=stdin, timeout=600, text=True,
                         stdout=subprocess.PIPE, stderr=subprocess.PIPE, **who)
    return ran.returncode, ran.stdout, ran.stderr


def first_call(words, **more):
    """Status, whether the answers are those of the first example, and what was said beside them."""
    status, output, said = run(words, stdin=text_of(ROOT, "examples", "first_call.txt"), **more)
    return status, output == text_of(ROOT, "crates", "lambda_local", "stdout"), said


def program():
    """The program that the copies release: LAMBDA_LOCAL_PROGRAM, else what ./lambda_local finds. A LookupError has what
    that says if there is none."""
    if given := os.environ.get("LAMBDA_LOCAL_PROGRAM"):
        return given
    found = subprocess.run([os.path.join(ROOT, "lambda_local"), "path"], stdout=subprocess.PIPE,
                           stderr=subprocess.PIPE, text=True)
    if found.returncode:
        raise LookupError(found.stderr.strip() or f"./lambda_local path ends with status {found.returncode}")
    return found.stdout.strip()


@contextlib.contextmanager
def copied():
    """A copy that releases the program, below a path with spaces, which other users can read."""
    with tempfile.TemporaryDirectory() as folder:
        os.chmod(folder, 0o755)
        yield copy_tree(os.path.join(folder, "a clone"), program())


def copy_tree(folder, released=None):
    """Copies the files of this checkout there unchanged, except release/. A program whose path is given is released for
    these sources."""
    copy_to(folder, without_release=True)
    if released:
        release(folder, released)
    return folder


def stamp_of(root):
    """The lines of what the sources of a copy are known by."""
    return subprocess.run([os.path.join(root, "lambda_local"), "stamp"], env=plain(), stdout=subprocess.PIPE,
                          text=True, check=True).stdout


def release(root, program, kit="rattle-kit-0 logic 0"):
    """Releases a program in a copy, as the proved one of its sources."""
    with open(program, "rb") as file:
        data = file.read()
    write(os.path.join(root, "release", "lambda_local.gz"), gzip.compress(data, 9, mtime=0))
    text = f"{stamp_of(root)}kit {kit}\nprogram {hashlib.sha256(data).hexdigest()}\ngate 1 passed, 0 failed\n"
    write(os.path.join(root, "release", "PROVED"), text.encode())


def commit(root, moment="2026-01-02T03:04:05Z"):
    """Makes a copy a repository of one commit."""
    given = {"GIT_AUTHOR_DATE": moment, "GIT_COMMITTER_DATE": moment}
    person = ["-c", "user.name=someone", "-c", "user.email=someone@example.com"]
    for words in (["init", "-q"], ["add", "-A"], ["commit", "-qm", "all"]):
        subprocess.run(["git", "-C", root, *person, *words], env=plain(**given), check=True)
