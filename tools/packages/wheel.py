"""A wheel for pip: the command `lambda_local`, the pytest plugin by its entry point, the program and the bundled
runtimes. The form is that of "Binary distribution format" and "Core metadata specifications" (packaging.python.org)."""
import base64
import hashlib
import io
import os
import re
import time
import zipfile
from typing import Dict

from .project import entry_points_of, metadata_of, tables_of
from .source import ROOT, File, Source, put, read

TAG = "py3-none-manylinux_2_34_x86_64"
WHEEL = f"""Wheel-Version: 1.0
Generator: lambda_local
Root-Is-Purelib: false
Tag: {TAG}
"""


def without_links(readme: str) -> str:
    """A page's links lead to files of the repository, or to its own headings, and an index of packages has neither:
    their names stay."""
    return re.sub(r"!?\[([^\]]+)\]\((?!\w+:)([^)#\s]*)(?:#[^)\s]*)?\)",
                  lambda link: link[1] if link[2] in link[1] else f"{link[1]} (`{link[2]}`)", readme)


def information(version: str) -> Dict[str, File]:
    """The files of a wheel that say what it is, below its folder for them; RECORD is missing yet."""
    tables = tables_of(read("pyproject.toml").decode())
    readme = without_links(read("README.md").decode())
    return {"METADATA": (0o644, metadata_of(tables, version, readme).encode()), "WHEEL": (0o644, WHEEL.encode()),
            "entry_points.txt": (0o644, entry_points_of(tables).encode()), "LICENSE": (0o644, read("LICENSE"))}


def folder_of(version: str) -> str:
    return f"lambda_local-{version}.dist-info"


def contents(source: Source) -> Dict[str, File]:
    """The name of each file in the wheel, with its mode and contents."""
    files = {f"lambda_local/{name}": file for name, file in source.below("tools/lambda_local").items()}
    files.update(source.below("conformance/src"))
    files.update({f"lambda_local/examples/{name}": file for name, file in source.below("examples").items()
                  if name.startswith(("runtime.", "events/"))})
    files.update({f"lambda_local/docs/{name}": file for name, file in source.below("docs").items()})
    files["lambda_local/bin/lambda_local"] = (0o755, source.program)
    files["lambda_local/bin/lambda_local.proved"] = (0o644, source.proved)
    return files


def leading_here() -> Dict[str, File]:
    """An editable wheel: a path file that leads to the tools of this tree, whose launcher finds the program."""
    return {"lambda_local.pth": (0o644, os.path.join(ROOT, "tools").encode() + b"\n")}


def sum_of(data: bytes) -> str:
    """A sum as RECORD has it."""
    return "sha256=" + base64.urlsafe_b64encode(hashlib.sha256(data).digest()).rstrip(b"=").decode()


def write(files: Dict[str, File], version: str, moment: int, folder: str) -> str:
    """Writes a wheel of these files into a folder; the same files give the same bytes. RECORD comes last."""
    about = folder_of(version)
    files = {**files, **{f"{about}/{name}": file for name, file in information(version).items()}}
    record = "".join(f"{name},{sum_of(data)},{len(data)}\n" for name, (_, data) in sorted(files.items()))
    last = f"{about}/RECORD"
    room = io.BytesIO()
    with zipfile.ZipFile(room, "w", zipfile.ZIP_DEFLATED, compresslevel=9) as wheel:
        for name, (mode, data) in [*sorted(files.items()), (last, (0o644, f"{record}{last},,\n".encode()))]:
            member = zipfile.ZipInfo(name, time.gmtime(moment)[:6])
            member.create_system, member.external_attr = 3, (0o100000 | mode) << 16
            member.compress_type = zipfile.ZIP_DEFLATED
            wheel.writestr(member, data)
    return put(os.path.join(folder, f"lambda_local-{version}-{TAG}.whl"), room.getvalue())


def make(source: Source, folder: str) -> str:
    """Writes the wheel into a folder; the same commit and program give the same bytes."""
    return write(contents(source), source.version, source.moment, folder)
