"""A Debian package: the launcher with program and tools below /usr/lib, its pages and examples below /usr/share/doc."""
import email.utils
import gzip
import os
import shutil
import subprocess
import tempfile
from typing import Union

from .source import Commit, Fault, put, read

NAME = "lambda-local"  # (a package's name has no underscore)
LIB, DOC = "usr/lib/lambda_local", f"usr/share/doc/{NAME}"
CONTROL = """Package: {name}
Version: {version}
Architecture: amd64
Maintainer: {person}
Installed-Size: {size}
Depends: libc6 (>= 2.34), python3 (>= 3.9)
Suggests: nodejs, python3-boto3, python3-pytest
Section: devel
Priority: optional
Description: local AWS Lambda for functions, runtimes and extensions
 lambda_local serves functions, runtimes and extensions over HTTP as
 Lambda does: several functions and environments, reserved concurrency,
 timeouts and shutdown. What happened is kept as a history that replays
 to the same answers.
"""
COPYRIGHT = """Format: https://www.debian.org/doc/packaging-manuals/copyright-format/1.0/
Upstream-Name: lambda_local

Files: *
Copyright: {year} {person}
License: Apache-2.0
 On Debian systems the text of this licence is in /usr/share/common-licenses/Apache-2.0.
"""
CHANGELOG = """{name} ({version}) unstable; urgency=low

  * Made of commit {commit}.
    CHANGELOG.md beside this file says what changed.

 -- {person}  {date}
"""
# Nobody but root can write there, so the tools are compiled once: else each start of a user's would.
POSTINST = """#!/bin/sh
set -e
if [ "$1" = configure ] && command -v py3compile >/dev/null; then
  py3compile -p lambda-local /usr/lib/lambda_local
fi
"""
# What Python leaves beside the tools.
PRERM = """#!/bin/sh
set -e
find /usr/lib/lambda_local -name __pycache__ -prune -exec rm -rf {} +
"""
# The program is the very one that was proved: stripped, its sha256 would be another. Node reads its runtime as a file.
OVERRIDES = f"""{NAME}: unstripped-binary-or-object [{LIB}/bin/lambda_local]
{NAME}: script-not-executable [{LIB}/examples/runtime.mjs]
"""


def write(root: str, path: str, data: Union[str, bytes], mode: int = 0o644) -> None:
    """Writes a file below the package's root."""
    there = os.path.join(root, path)
    os.makedirs(os.path.dirname(there), exist_ok=True)
    with open(there, "wb") as file:
        file.write(data if isinstance(data, bytes) else data.encode())
    os.chmod(there, mode)


def link(root: str, path: str, target: str) -> None:
    """A symbolic link below the package's root."""
    there = os.path.join(root, path)
    os.makedirs(os.path.dirname(there), exist_ok=True)
    os.symlink(target, there)


def packed(text: Union[str, bytes]) -> bytes:
    return gzip.compress(text if isinstance(text, bytes) else text.encode(), 9, mtime=0)


def lay_out(source: Commit, root: str) -> None:
    """The files as they are installed, below root."""
    for name, (mode, data) in source.files.items():
        if name.startswith(("tools/", "conformance/", "examples/")) or name in ("lambda_local", "VERSION"):
            of_node = data.startswith(b"#!/usr/bin/env node")  # which this package does not depend on
            write(root, f"{LIB}/{name}", data.replace(b"#!/usr/bin/env python3", b"#!/usr/bin/python3", 1),
                  0o644 if of_node else mode)
        elif name.startswith("docs/") or name in ("README.md", "CHANGELOG.md"):
            write(root, f"{DOC}/{name}", data)
    page = read("tools", "packages", "lambda_local.1").replace(b"VERSION", source.version.encode(), 1)
    write(root, f"{LIB}/bin/lambda_local", source.program, 0o755)
    write(root, f"{LIB}/PROVED", source.proved)
    link(root, f"{LIB}/bin/lambda_local.proved", "../PROVED")
    link(root, f"{DOC}/examples", "../../../lib/lambda_local/examples")
    link(root, "usr/bin/lambda_local", "../lib/lambda_local/lambda_local")
    write(root, "usr/share/man/man1/lambda_local.1.gz", packed(page))
    write(root, f"usr/share/lintian/overrides/{NAME}", OVERRIDES)


def describe(source: Commit, root: str) -> None:
    """What a package says of itself."""
    size = sum(os.lstat(os.path.join(folder, name)).st_size for folder, _, names in os.walk(root) for name in names)
    said = {"name": NAME, "version": source.version, "commit": source.commit, "person": source.person,
            "size": size // 1024,
            "date": email.utils.formatdate(source.moment), "year": email.utils.formatdate(source.moment).split(" ")[3]}
    write(root, f"{DOC}/copyright", COPYRIGHT.format(**said))
    write(root, f"{DOC}/changelog.gz", packed(CHANGELOG.format(**said)))
    write(root, "DEBIAN/control", CONTROL.format(**said))
    write(root, "DEBIAN/postinst", POSTINST, 0o755)
    write(root, "DEBIAN/prerm", PRERM, 0o755)


def make(source: Commit, folder: str) -> str:
    """Writes the Debian package into a folder; the same commit and program give the same bytes."""
    if not shutil.which("dpkg-deb"):
        raise Fault(4, "no dpkg-deb is on the path: Debian's package dpkg has it")
    with tempfile.TemporaryDirectory() as room:
        root, built = os.path.join(room, "root"), os.path.join(room, "built.deb")
        os.mkdir(root, 0o755)
        before = os.umask(0o022)
        lay_out(source, root)
        describe(source, root)
        os.umask(before)
        done = subprocess.run(["dpkg-deb", "--build", "--root-owner-group", "-Zxz", root, built],
                              stdout=subprocess.PIPE, stderr=subprocess.STDOUT, text=True,
                              env={**os.environ, "SOURCE_DATE_EPOCH": str(source.moment)})
        if done.returncode:
            raise Fault(4, f"dpkg-deb ended with status {done.returncode}: {done.stdout.strip().splitlines()[-1:]}")
        with open(built, "rb") as file:
            return put(os.path.join(folder, f"{NAME}_{source.version}_amd64.deb"), file.read())
