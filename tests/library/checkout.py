"""The files of this checkout."""
import os
import shutil
import subprocess
from importlib.machinery import SourceFileLoader
from types import ModuleType
from typing import List

ROOT = os.path.dirname(os.path.dirname(os.path.dirname(os.path.realpath(__file__))))


def files_of(root: str) -> List[str]:
    """What git knows or would add, by its names."""
    listed = subprocess.run(["git", "-C", root, "ls-files", "-co", "--exclude-standard", "-z"], stdout=subprocess.PIPE,
                            check=True).stdout.decode()
    return [it for it in sorted(set(listed.split("\0"))) if it and os.path.isfile(os.path.join(root, it))]


def copy_to(folder: str, without_release: bool = False) -> None:
    """Copies the files there unchanged, with or without release/."""
    for name in files_of(ROOT):
        if not (without_release and name.startswith("release/")):
            os.makedirs(os.path.dirname(os.path.join(folder, name)), exist_ok=True)
            shutil.copy2(os.path.join(ROOT, name), os.path.join(folder, name))


def module_of(*parts: str) -> ModuleType:
    """A command of this checkout, which has a name without .py, as a module."""
    path = os.path.join(ROOT, *parts)
    module = ModuleType(parts[-1])
    module.__file__ = path
    SourceFileLoader(parts[-1], path).exec_module(module)
    return module
