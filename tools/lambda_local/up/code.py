"""The folder of a function's code: a folder, a .zip file that is unpacked, or code that UP.json has itself."""
import os
import re

from ..configuration import Members
from ..guard import GUARD
from ..service import Fault
from . import layers, programs

IS_MODULE = re.compile(r"^\s*(?:import\s[^(]|export\s)", re.M)  # of Node, as ES modules are written


def folder_of(member: Members, base: str, where: str) -> str:
    """The folder, which may not be there."""
    if "inline" in member:
        return folder_with(member, where)
    path = os.path.join(base, member.get("directory", ""))
    if os.path.isfile(path) and path.endswith((".zip", ".jar")):
        return layers.unpacked(os.path.realpath(path), f"{where}: directory: {member['directory']}")
    return path


def folder_with(member: Members, where: str) -> str:
    """A folder with the code as the module index, which is gone at the end."""
    if "runtime" not in member:
        raise Fault(2, f"{where}: inline: it needs a \"runtime\", \"python\" or \"node\"")
    if "directory" in member:
        raise Fault(2, f"{where}: it has a directory and inline code: leave one of the two out")
    is_python = programs.is_of_python(member["runtime"])
    name = "index.py" if is_python else "index.mjs" if IS_MODULE.search(member["inline"]) else "index.js"
    folder = GUARD.new_folder()
    with open(os.path.join(folder, name), "w", encoding="utf-8", errors="surrogatepass") as file:
        file.write(member["inline"])
    return folder
