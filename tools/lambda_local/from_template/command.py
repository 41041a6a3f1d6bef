"""Prints, or writes with -o, the UP.json that lambda_local up makes of a template, so that it can be changed by hand
("eject"). On standard error it names what it ignores. lambda_local up needs no such file: it reads templates itself.

  lambda_local from_template -o up.json                  of what is found in this folder, as up finds it
  lambda_local from_template template.yaml               SAM, or CloudFormation, in YAML or JSON
  lambda_local from_template serverless.yml --stage prod
  lambda_local from_template cdk.out                     what `cdk synth` writes, with all its stacks

What runs a function is the client of its Runtime if that is installed, else for Python and Node the runtime that comes
with lambda_local up. Folders are as seen from UP.json, or from the root if it goes to a pipe. A file that differs from
what from_template wrote there itself is not overwritten without --force. Values of your own belong in
lambda_local.json beside the template, which is merged over it. YAML needs a reader: pip install pyyaml.
Exit statuses: 0; 2 for a template that cannot be read, or has no function, and for a file that would be overwritten; 4
without the reader, or if UP.json cannot be written."""
import hashlib
import json
import os
import stat
import sys
from typing import List, Optional

from ..configuration import Members
from ..outgoing import is_written_in_place, written
from ..usage import parser_of
from .find import Source, source_of
from .messages import Fault, tell
from .options import add_options, given_of
from .project import up_of_source

__all__ = ["main", "place"]

MARK = "fromTemplate"  # the member with the sum of what from_template wrote


def place(functions: List[Members], source: Source, folder: Optional[str]) -> None:
    """Writes each function's folder, which a template has from its own, as it is seen from the folder of UP.json."""
    base = source.folder
    for made in functions:
        code = os.path.join(base, made.pop("directory", ""))
        if not os.path.exists(code):
            tell(f"{made['name']}: {code} is not a folder (yet): lambda_local up needs it")
        code = seen_from(folder, code)
        if code != "." and "inline" not in made:
            made["directory"] = code
        if "layers" in made:
            made["layers"] = [seen_from(folder, os.path.join(base, path)) for path in made["layers"]]


def seen_from(folder: Optional[str], path: str) -> str:
    """A path as it is seen from a folder; from the root if there is none."""
    if folder is None:
        return os.path.normpath(path)
    return os.path.relpath(os.path.realpath(path), os.path.realpath(folder))


def folder_of_output() -> Optional[str]:
    """Returns the folder of the file that standard output is; None if it is not a file."""
    if not stat.S_ISREG(os.fstat(sys.stdout.fileno()).st_mode):
        return None
    try:
        return os.path.dirname(os.readlink(f"/proc/self/fd/{sys.stdout.fileno()}"))
    except OSError:
        return None


def text_of(up: Members) -> str:
    return json.dumps(up, indent=2) + "\n"


def sum_of(up: Members) -> str:
    return hashlib.sha256(text_of(up).encode()).hexdigest()[:16]


def is_own(path: str) -> bool:
    """Whether a file is as from_template wrote it, or there is none."""
    try:
        with open(path, encoding="utf-8") as file:
            whole = json.load(file)
    except FileNotFoundError:
        return True
    except (OSError, ValueError, RecursionError):
        return False
    return isinstance(whole, dict) and whole.pop(MARK, None) == sum_of(whole)


def write(up: Members, output: Optional[str]) -> None:
    if output is None:
        sys.stdout.write(text_of(up))
        sys.stdout.flush()
        return
    mark = {} if is_written_in_place(output) else {MARK: sum_of(up)}
    with written(output, has_payloads=False) as file:
        file.write(text_of({**mark, **up}))


def main() -> int:
    parser = parser_of("from_template", __doc__)
    parser.add_argument("template", metavar="FILE|FOLDER", nargs="?", help="what is found in this folder")
    parser.add_argument("-o", metavar="UP.json", dest="output", help="write there (standard output)")
    parser.add_argument("--force", action="store_true", help="overwrite UP.json though it was changed")
    add_options(parser)
    options = parser.parse_args()
    try:
        source = source_of(options.template) if options.template is None or os.path.isdir(
            options.template) else Source(options.template, True)
        if not source.is_template:
            raise Fault(f"{source.path} is an UP.json already: name a template")
        if options.output and not options.force and not is_own(options.output):
            raise Fault(f"{options.output} was changed since from_template wrote it: --force overwrites it; values of "
                        "your own are kept in lambda_local.json beside the template")
        up = up_of_source(source, given_of(options), options.values)
    except Fault as fault:
        tell(fault)
        return 2
    place(up["functions"], source,
          os.path.dirname(os.path.abspath(options.output)) if options.output else folder_of_output())
    try:
        write(up, options.output)
    except OSError as fault:
        tell(f"{options.output or 'standard output'}: {fault.strerror}")
        return 4
    return 0
