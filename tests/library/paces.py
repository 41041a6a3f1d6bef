"""How long `lambda_local up` rests at most before it takes the entries of its service, as its own pace says it."""
import json
import os
import re
import subprocess
import sys
import tempfile
from typing import Any, Dict, List

from tests.library.up_kit import RUNTIME, TOOLS

SECONDS = 120  # of a whole run, on a machine that does much else
# `up`, whose pace is asked beside each of its rests how long it would rest if many entries came.
ASKED = """import sys
from lambda_local import cli
from lambda_local.up.following import MUCH, Pace
own = Pace.rest
def rest(pace, now, size):
    before = pace.since, pace.size
    print("rests", own(pace, pace.since + 0.001, pace.size + MUCH), file=sys.stderr)
    pace.since, pace.size = before
    return own(pace, now, size)
Pace.rest = rest
cli.main()
"""


def longest_rests(*options: str, **members: Any) -> List[float]:
    """In seconds, each once, of a run over a function with these members; the least first."""
    function: Dict[str, Any] = {"name": "f", "command": RUNTIME, "directory": ".", **members}
    with tempfile.TemporaryDirectory() as folder:
        for name, text in (("up.json", json.dumps({"functions": [function]})),
                           ("app.py", "def run(event):\n    return event\n")):
            with open(os.path.join(folder, name), "w", encoding="utf-8") as file:
                file.write(text)
        done = subprocess.run([sys.executable, "-c", ASKED, "up", *options, "up.json", "--", "true"], cwd=folder,
                              env={**os.environ, "PYTHONPATH": TOOLS}, stdin=subprocess.DEVNULL, capture_output=True,
                              text=True, timeout=SECONDS)
    assert done.returncode == 0, done.stderr
    return sorted(set(map(float, re.findall(r"^rests ([\d.]+)$", done.stderr, re.M))))
