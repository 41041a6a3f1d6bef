"""The files of tests about the tools and the suite, by the names that tests/tools/run, tests/lies and its table have
for them."""
import glob
import os
from typing import Dict

# Each folder is a package of tests.
PATTERNS = ("tests/tools/test_*.py", "conformance/tests/test_*.py")


def files(root: str) -> Dict[str, str]:
    """NAME of each test_NAME.py, with the module."""
    paths = [os.path.relpath(path, root) for pattern in PATTERNS for path in glob.glob(os.path.join(root, pattern))]
    modules = [path[:-len(".py")].replace("/", ".") for path in paths]
    return {module.rpartition(".")[2].replace("test_", "", 1): module for module in sorted(modules)}


def chosen_by(module: str, word: str) -> str:
    """What chooses the tests of a module that have this in their names, for unittest's -k."""
    return f"{module}.*.test_*{word}*"
