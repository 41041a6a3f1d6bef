"""The files that a template names: read within bounds, and none outside of its folder, whatever links lead to."""
import os
from typing import Optional

from .messages import Fault

MOST_FILES = 1000  # that one template, and those that it names, have read


def text_in(path: str, most: int, what: str = "") -> str:
    """The text of a file that the user names."""
    where = f"{what} {path}".strip()
    try:
        with open(path, "rb") as file:
            data = file.read(most + 1)
    except (OSError, ValueError) as fault:
        raise Fault(f"{where}: {getattr(fault, 'strerror', None) or fault}: name a file") from None
    if len(data) > most:
        raise Fault(f"{where}: it is longer than {most:,} bytes")
    try:
        return data.decode("utf-8-sig")
    except UnicodeDecodeError:
        raise Fault(f"{where}: it is not text in UTF-8") from None


class Folder:
    """The folder of a template, below which all is that it may have read."""

    def __init__(self, path: str) -> None:
        self.path = os.path.realpath(path)
        self.left = MOST_FILES

    def inside(self, base: str, name: str) -> str:
        """The path of a file, as seen from a folder; Fault if it is outside."""
        if "\0" in name:
            raise Fault(f"{name!r} is not the name of a file")
        path = os.path.realpath(os.path.join(base, name))
        if os.path.commonpath([self.path, path]) != self.path:
            raise Fault(f"{name} is outside of {self.path}, the template's folder, and is not read")
        return path

    def text(self, base: str, name: str, most: int) -> str:
        """The text of a file in it."""
        path = self.inside(base, name)
        self.left -= 1
        if self.left < 0:
            raise Fault(f"{name}: a template has at most {MOST_FILES:,} files read")
        if not os.path.isfile(path):  # (nor a pipe or a device, which would not end)
            raise Fault(f"{name}: there is no such file")
        return text_in(path, most)

    def is_folder(self, base: str, name: str) -> Optional[str]:
        """The path of a folder in it; none if there is none."""
        path = self.inside(base, name)
        return path if os.path.isdir(path) else None
