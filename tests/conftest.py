"""Under pytest the last line is its own, not that of tests/library/cases.py."""
import atexit

from tests.library import cases

atexit.unregister(cases.counted.end)
