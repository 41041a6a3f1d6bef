"""The build backend that pyproject.toml names (PEP 517 and 660): `pip install .`, `pip install git+URL` and
`pip install -e .` make a wheel of the tree as it is, with the released program or the one that was built here. It needs
nothing but Python, so that pip asks no index. What is in the way is one sentence, and pip shows that alone."""
import sys

if sys.version_info < (3, 9):
    sys.exit("lambda_local: it needs Python 3.9 or later, and this is Python {}.{}".format(*sys.version_info[:2]))

import functools
import os
from typing import Any, Callable, List, TypeVar, cast

from . import sdist, wheel
from .folder import FIRST_MOMENT, Folder, tell, version_here
from .project import NotProject
from .source import Fault, refuse_platform

Hook = TypeVar("Hook", bound=Callable[..., Any])


def told(hook: Hook) -> Hook:
    """A hook whose faults are a sentence in place of a stack."""
    @functools.wraps(hook)
    def wrapped(*given: Any, **named: Any) -> Any:
        try:
            return hook(*given, **named)
        except (Fault, NotProject) as fault:
            sys.exit(f"lambda_local: {fault}")
        except OSError as fault:
            sys.exit(f"lambda_local: {fault.filename}: {fault.strerror}")
    return cast(Hook, wrapped)


@told
def get_requires_for_build_wheel(config_settings: object = None) -> List[str]:
    refuse_platform()  # (before anything else is done)
    return []


@told
def prepare_metadata_for_build_wheel(metadata_directory: str, config_settings: object = None) -> str:
    version = version_here()
    folder = wheel.folder_of(version)
    os.makedirs(os.path.join(metadata_directory, folder), exist_ok=True)
    for name, (_, data) in wheel.information(version).items():
        with open(os.path.join(metadata_directory, folder, name), "wb") as file:
            file.write(data)
    return folder


@told
def build_wheel(wheel_directory: str, config_settings: object = None, metadata_directory: object = None) -> str:
    return os.path.basename(wheel.make(Folder(tell), wheel_directory))


@told
def build_editable(wheel_directory: str, config_settings: object = None, metadata_directory: object = None) -> str:
    refuse_platform()
    return os.path.basename(wheel.write(wheel.leading_here(), version_here(), FIRST_MOMENT, wheel_directory))


@told
def build_sdist(sdist_directory: str, config_settings: object = None) -> str:
    return os.path.basename(sdist.make(sdist_directory))


get_requires_for_build_editable = get_requires_for_build_wheel
prepare_metadata_for_build_editable = prepare_metadata_for_build_wheel
