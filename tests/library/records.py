"""What gates keep on this machine, outside the tree: in $XDG_STATE_HOME/lambda_local, else ~/.local/state."""
import contextlib
import fcntl
import os
from typing import Iterator


def folder() -> str:
    return os.path.join(os.environ.get("XDG_STATE_HOME") or os.path.expanduser("~/.local/state"), "lambda_local")


def text_of(path: str) -> str:
    """What a file has; nothing if it cannot be read."""
    try:
        with open(path, encoding="utf-8") as file:
            return file.read()
    except OSError:
        return ""


def write(path: str, text: str) -> None:
    """Writes a file beside, and renames it: a reader sees it whole."""
    os.makedirs(os.path.dirname(path), exist_ok=True)
    with open(f"{path}.new", "w", encoding="utf-8") as file:
        file.write(text)
    os.replace(f"{path}.new", path)


@contextlib.contextmanager
def alone(path: str) -> Iterator[None]:
    """Keeps other gates of this machine from a file while it is read and written."""
    os.makedirs(os.path.dirname(path), exist_ok=True)
    with open(f"{path}.lock", "w", encoding="utf-8") as lock:
        fcntl.flock(lock, fcntl.LOCK_EX)
        yield
