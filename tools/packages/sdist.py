"""A source distribution: the files of the last commit, from which a wheel can be made without git."""
import gzip
import io
import os
import tarfile

from .folder import version_here
from .project import metadata_of, tables_of
from .source import git, put, read


def make(folder: str) -> str:
    """Writes it into a folder. It needs a clone."""
    version = version_here()
    name = f"lambda_local-{version}"
    moment = int(git("log", "-1", "--format=%ct"))
    about = metadata_of(tables_of(read("pyproject.toml").decode()), version, "").encode()
    room = io.BytesIO(git("archive", "--format=tar", f"--prefix={name}/", "HEAD"))
    with tarfile.open(fileobj=room, mode="a") as tar:
        member = tarfile.TarInfo(f"{name}/PKG-INFO")
        member.size, member.mtime, member.mode = len(about), moment, 0o644
        tar.addfile(member, io.BytesIO(about))
    return put(os.path.join(folder, f"{name}.tar.gz"), gzip.compress(room.getvalue(), 9, mtime=0))
