"""Where the files are that come with the tools: in a checkout or a package of it, or installed by pip."""
import functools
import importlib.util
import os
import sys
from types import ModuleType
from typing import List, Optional

PACKAGE = os.path.dirname(os.path.realpath(__file__))
ROOT = os.path.dirname(os.path.dirname(PACKAGE))
LAUNCHER = os.path.join(ROOT, "lambda_local")  # of a checkout, or of a package of it
LIMITS = os.path.join(PACKAGE, "limits.sh")  # how a service is begun


def bundled(name: str) -> Optional[str]:
    """The path of a file of `examples/`; none if it is not here."""
    folders = (os.path.join(PACKAGE, "examples"), os.path.join(ROOT, "examples"))
    return next((path for path in (os.path.join(folder, name) for folder in folders) if os.path.isfile(path)), None)


@functools.lru_cache(maxsize=None)
def bundled_module(name: str) -> ModuleType:
    """A Python file of `examples/` as a module."""
    specification = importlib.util.spec_from_file_location("lambda_local_" + name.partition(".")[0], bundled(name))
    assert specification and specification.loader
    module = importlib.util.module_from_spec(specification)
    specification.loader.exec_module(module)
    return module


def own_program() -> str:
    """The program that was installed with the tools, else the launcher of the checkout."""
    installed = os.path.join(PACKAGE, "bin", "lambda_local")
    return installed if os.path.isfile(installed) else LAUNCHER


def suite() -> str:
    """The folder with the package lambda_conformance: that of this package if pip installed both, else a checkout's."""
    above = os.path.dirname(PACKAGE)
    has_it = os.path.isdir(os.path.join(above, "lambda_conformance"))
    return above if has_it else os.path.join(ROOT, "conformance", "src")


def tool(name: str) -> List[str]:
    """Returns the words that start one of the tools with this Python, wherever they are."""
    above = os.path.dirname(PACKAGE)
    code = f"import sys; sys.path.insert(0, {above!r}); from lambda_local.cli import main; sys.exit(main())"
    return [sys.executable, "-c", code, name]
