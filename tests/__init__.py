"""The tests. What they import from tools/ is found from here."""
import os
import sys
from typing import Dict

ROOT = os.path.dirname(os.path.dirname(os.path.realpath(__file__)))
TOOLS = os.path.join(ROOT, "tools")
sys.path[:0] = [TOOLS, os.path.join(TOOLS, "library")]


def with_tools(*folders: str) -> Dict[str, str]:
    """The variable by which a Python finds the tools, modules in these folders, and what this one finds by it."""
    found = os.environ.get("PYTHONPATH")
    return {"PYTHONPATH": os.pathsep.join([TOOLS, *folders, *([found] if found else [])])}
