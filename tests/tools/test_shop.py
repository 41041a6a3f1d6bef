"""Checks examples/shop: its template is served as it is, beside moto's server, and its tests pass by pytest and by
Node's test runner; without pytest, its functions are called one by one. It needs a Python on PATH that has moto's
server, boto3 and PyYAML, and Node, and says so if one is missing."""
import json
import os
import shutil
import subprocess
import sys
import tempfile
import unittest

from lambda_local.configuration import Members
from lambda_local.service import free_ports
from tests import ROOT
from tests.library.cases import Case

PYTHONS = list(dict.fromkeys([sys.executable, shutil.which("python3") or "python3", "/usr/bin/python3"]))


def python_with(modules):
    """A Python that has these; none if none has."""
    return next((program for program in PYTHONS if shutil.which(program) and subprocess.run(
        [program, "-c", f"import {modules}"], capture_output=True).returncode == 0), None)


PYTHON, PYTEST = python_with("boto3, moto.server, yaml"), python_with("pytest")


# In the place of pytest, where that is not installed
PLAIN = """import sys
sys.path.insert(0, "tests")
import test_shop
names = [name for name in dir(test_shop) if name.startswith("test_")]
for name in names: getattr(test_shop, name)()
print(len(names), "passed")
"""


@unittest.skipUnless(PYTHON and shutil.which("node"), "moto's server, boto3, PyYAML or Node is not here")
class Shop(Case):
    def test_the_shop_passes_its_own_tests(self):
        with tempfile.TemporaryDirectory() as folder:
            # (on a busy machine an import of boto3 may take longer than the 10 s of an Init)
            values = os.path.join(folder, "values.json")
            with open(values, "w") as file:
                slow: Members = {"init": 200, "timeout": 100}
                json.dump({"functions": [{"name": "PricesFunction", **slow}, *(
                    {"name": name, "python": PYTHON, **slow} for name in ("OrdersFunction", "PackFunction"))]}, file)
            plain = os.path.join(folder, "plain.py")
            with open(plain, "w") as file:
                file.write(PLAIN)
            at = os.path.join(folder, "shop")
            shutil.copytree(os.path.join(ROOT, "examples", "shop"), at)
            done = subprocess.run(["sh", "test.sh", "--values", values], cwd=at, capture_output=True, text=True,
                                  timeout=600, env={**os.environ, "PYTHON": str(PYTHON),
                                                    "PYTEST": f"{PYTEST} -m pytest" if PYTEST else (
                                                        f"{sys.executable} {plain}"),
                                                    "PORT": str(free_ports(1, ())[0]),
                                                    "LAMBDA_LOCAL": os.path.join(ROOT, "lambda_local")})
        self.check("the shop's tests pass", (done.returncode, "4 passed" in done.stdout, "# pass 2" in done.stdout
                                             or "pass 2" in done.stdout), (0, True, True),
                   shown=(done.stdout + done.stderr)[-3000:])
        self.check("its queue is polled, and its routes are printed", ("is not polled" in done.stderr,
                                                                       "POST http://127.0.0.1:" in done.stderr),
                   (False, True))
