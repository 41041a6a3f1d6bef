"""Layers of a function: folders, or .zip files that are unpacked, whose parts come onto the paths on which Lambda has
those of /opt (Developer Guide, "Managing Lambda dependencies with layers")."""
import functools
import os
import shutil
import stat
import zipfile
from typing import Dict, List, Mapping, Sequence, Tuple

from ..guard import GUARD
from ..reports import shorten
from ..service import Fault

MOST_BYTES = 262_144_000  # of a function's layers and code, unpacked
MOST_FILES = 100_000
# Where each variable looks in a layer, the first first.
PLACES = {
    "PYTHONPATH": ("python/lib/python{python}/site-packages", "python"),
    "NODE_PATH": ("nodejs/node{node}/node_modules", "nodejs/node_modules"),
    "PATH": ("bin", ),
    "LD_LIBRARY_PATH": ("lib", ),
}


class Unsafe(Exception):
    """What a .zip file must not do, in words."""


def folders_of(names: Sequence[str], base: str, where: str) -> List[str]:
    """The folder of each layer, unpacked if it is a .zip file."""
    found: List[str] = []
    for name in names:
        path = os.path.join(base, name)
        if os.path.isdir(path):
            found.append(os.path.realpath(path))
        elif os.path.isfile(path):
            found.append(unpacked(os.path.realpath(path), f"{where}: layers: {name}"))
        else:
            raise Fault(2, f"{where}: layers: there is no folder or .zip file {path}")
    return found


@functools.lru_cache(maxsize=None)
def unpacked(path: str, where: str) -> str:
    """A folder with what the file has, which is gone at the end."""
    folder = GUARD.new_folder()
    try:
        with zipfile.ZipFile(path) as archive:
            unpack(archive, os.path.realpath(folder))
    except Exception as fault:  # (each way of packing has faults of its own)
        shutil.rmtree(folder, ignore_errors=True)
        GUARD.release(folder)
        why = shorten(str(fault) or type(fault).__name__)
        said = str(fault) if isinstance(fault, Unsafe) else f"it is not unpacked: {why}"
        raise Fault(2, f"{where}: {said}") from None
    return folder


def unpack(archive: zipfile.ZipFile, folder: str) -> None:
    """Files first, and each into folders of this one's own; then links, all of which must lead to something inside."""
    links: List[Tuple[str, zipfile.ZipInfo]] = []
    left = MOST_BYTES
    members = archive.infolist()
    if len(members) > MOST_FILES:
        raise Unsafe(f"it has {len(members)} files, and {MOST_FILES} are the most")
    for member in members:
        path = place_of(member.filename, folder)
        kind = stat.S_IFMT(member.external_attr >> 16)
        if member.is_dir():
            os.makedirs(path, exist_ok=True)
        elif kind == stat.S_IFLNK:
            links.append((path, member))
        elif kind in (0, stat.S_IFREG):
            left -= write(archive, member, path, left)
        else:
            raise Unsafe(f"{member.filename} is neither a file, a folder nor a link")
    for path, member in links:
        link(archive, member, path, folder)
    for path, member in links:
        if not is_inside(os.path.realpath(path), folder):
            raise Unsafe(f"the link {member.filename} leads out of the layer")


def place_of(name: str, folder: str) -> str:
    parts = name.rstrip("/").split("/")
    if name.startswith("/") or "\\" in name or "\0" in name or any(part in ("", ".", "..") for part in parts):
        raise Unsafe(f"it has a file named {name[:100]!r}, whose place is not inside")
    return os.path.join(folder, *parts)


def is_inside(path: str, folder: str) -> bool:
    return path == folder or path.startswith(folder + os.sep)


def write(archive: zipfile.ZipFile, member: zipfile.ZipInfo, path: str, left: int) -> int:
    """Writes a file, of up to this many bytes; how many it has."""
    os.makedirs(os.path.dirname(path), exist_ok=True)
    written = 0
    with archive.open(member) as source, open(path, "wb") as file:
        while piece := source.read(1 << 20):
            written += len(piece)
            if written > left:
                raise Unsafe(f"it has more than {MOST_BYTES} bytes, which Lambda takes at most")
            file.write(piece)
    mode = stat.S_IMODE(member.external_attr >> 16) & 0o777
    os.chmod(path, (mode or 0o644) | stat.S_IRUSR)
    return written


def link(archive: zipfile.ZipFile, member: zipfile.ZipInfo, path: str, folder: str) -> None:
    above = os.path.dirname(path)
    os.makedirs(above, exist_ok=True)
    target = os.fsdecode(archive.read(member)) if member.file_size <= 4096 else "/"
    # (no folder above it may be a link: its place would be another)
    if os.path.realpath(above) != above or os.path.isabs(target) or os.path.lexists(path):
        raise Unsafe(f"the link {member.filename} leads out of the layer, or is there twice")
    os.symlink(target, path)


def variables_of(folders: Sequence[str], variables: Mapping[str, str], versions: Mapping[str, str]) -> Dict[str, str]:
    """The variables of a function with these layers: its own ones, and the parts of layers, those of the last layer
    first, since on Lambda it covers the others. `versions` are those of "python" and "node"."""
    found: Dict[str, str] = {}
    for name, places in PLACES.items():
        parts = [os.path.join(folder, place.format(**versions)) for folder in reversed(folders) for place in places]
        parts = [part for part in parts if os.path.isdir(part)]
        if not parts:
            continue
        own = [variables[name]] if name in variables else []
        around = [os.environ[name]] if name not in variables and os.environ.get(name) else []
        # (as on Lambda, what is in a layer does not cover the programs of the system)
        found[name] = os.pathsep.join([*own, *around, *parts] if name == "PATH" else [*own, *parts, *around])
    return found
