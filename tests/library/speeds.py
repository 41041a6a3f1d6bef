"""Whether a figure of docs/speed.md that no load of the machine changes is still so: the user instructions of an
invocation, counted anew by bench/serve/instructions."""
import json
import os
import re
import shutil
import subprocess
import tempfile
from typing import Optional, Tuple

PAGE = os.path.join("docs", "speed.md")
PART = "Instructions"
COUNTED = re.compile(r"^\| \*\*all\*\* \| ([\d,]+) \|", re.M)
MOST_CHANGE, LONGEST = 0.05, 900  # of the figure; seconds
NEEDS = ("valgrind", "cc")


def of_page(text: str) -> Optional[int]:
    """The instructions of an invocation of 100 B that the page tells."""
    part = text.split(f"\n## {PART}\n")[-1].split("\n## ")[0]
    found = COUNTED.search(part)
    return int(found[1].replace(",", "")) if found else None


def count(root: str, program: str) -> Tuple[Optional[float], str]:
    """Counts them anew, in some seconds of CPU time; else None, and why not."""
    missing = [it for it in NEEDS if not shutil.which(it)]
    if missing:
        return None, f"no {' and no '.join(missing)} is here"
    with tempfile.TemporaryDirectory() as room:
        counts = os.path.join(room, "counts.json")
        words = [os.path.join(root, "bench", "serve", "instructions"), "--size", "100", "--once", "--quick", "--json",
                 counts, program]
        try:
            ran = subprocess.run(words, stdout=subprocess.PIPE, stderr=subprocess.STDOUT, text=True, timeout=LONGEST)
            with open(counts, encoding="utf-8") as file:
                return json.load(file)[0]["instructions"], ""
        except subprocess.TimeoutExpired:
            return None, f"bench/serve/instructions has not ended within {LONGEST} s"
        except (OSError, ValueError, LookupError, TypeError):
            return None, f"bench/serve/instructions gives no count: {ran.stdout[-200:]!r}"


def fault(told: Optional[int], counted: float) -> str:
    """Why a count is not what the page tells; nothing if it is, or differs by little."""
    if told is None:
        return f"{PAGE} tells no instructions of an invocation"
    if abs(counted / told - 1) <= MOST_CHANGE:
        return ""
    return (f"{counted:,.0f} instructions an invocation of 100 B, {counted / told:.2f} of the {told:,} of {PAGE}; "
            f"{1 - MOST_CHANGE:.2f} to {1 + MOST_CHANGE:.2f} are little: bench/serve/instructions makes its tables")
