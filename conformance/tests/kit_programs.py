"""The wrong programs and the sound ones with which the conformance kit is tried. As programs they import one another by
name."""
import os
import sys

from tests import ROOT

PROGRAMS = os.path.join(ROOT, "conformance", "programs", "wrong")
SHAPES = os.path.join(ROOT, "conformance", "programs", "sound")
sys.path[:0] = [PROGRAMS, SHAPES]
import clients  # noqa: F401
import extensions  # noqa: F401
import libraries  # noqa: F401
import shapes  # noqa: F401
import subscribers  # noqa: F401
import wrong_extensions  # noqa: F401
import wrong_runtimes  # noqa: F401
