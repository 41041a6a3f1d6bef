"""What the tests of templates as projects have in common: folders with files, and the UP.json that is made of them."""
import contextlib
import io
import json
import os
import tempfile
from typing import Any, Dict

from lambda_local.from_template.find import Source
from lambda_local.from_template.given import given_by
from lambda_local.from_template.messages import Fault
from lambda_local.from_template.project import up_of_source

SAM: Dict[str, Any] = {"Type": "AWS::Serverless::Function", "Properties": {
    "Handler": "app.run", "Runtime": "provided.al2023", "CodeUri": "src"}}


def sam(**properties):
    return {"Type": SAM["Type"], "Properties": {**SAM["Properties"], **properties}}


@contextlib.contextmanager
def folder_of(**files):
    """A folder with these files; `__` in a name is a slash, and `_0_` a dot. A value that is no text becomes JSON."""
    with tempfile.TemporaryDirectory() as folder:
        folder = os.path.realpath(folder)
        write(folder, {name.replace("__", "/").replace("_0_", "."): value for name, value in files.items()})
        yield folder


def write(folder, files):
    for name, value in files.items():
        path = os.path.join(folder, name)
        os.makedirs(os.path.dirname(path), exist_ok=True)
        with open(path, "w") as file:
            file.write(value if isinstance(value, str) else json.dumps(value))


def made_by(path, is_assembly=False, values=None, **given_words):
    """UP.json by the names of functions, the rest of it, and what is said; or the fault."""
    said = io.StringIO()
    with contextlib.redirect_stderr(said):
        try:
            whole = up_of_source(Source(path, True, is_assembly), given_by(**given_words), values)
        except Fault as fault:
            return str(fault), {}, said.getvalue()
    return ({function["name"]: function for function in whole.pop("functions")}, whole,
            said.getvalue().replace("from_template: ", ""))


def variables_of(made, name="F"):
    return made[name].get("variables")
