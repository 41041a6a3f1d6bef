"""The tests of the suite. Its package, and that of the tools, are found from here."""
import os
import sys

from tests import ROOT  # (which has the tools found)

sys.path.insert(0, os.path.join(ROOT, "conformance", "src"))
