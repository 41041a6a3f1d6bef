"""Which file `up` takes: the one that is named, or what is found in a folder, in the order of docs/templates.md."""
import os
from typing import Iterator, List, NamedTuple, Optional

from ..json_reader import members_of
from .messages import Fault

UP = "up.json"
SAM = ("template.yaml", "template.yml", "template.json")
SERVERLESS = ("serverless.yml", "serverless.yaml", "serverless.json")
MANIFEST = "manifest.json"  # of a cloud assembly, as CDK writes it
BUILT, ASSEMBLY = os.path.join(".aws-sam", "build"), "cdk.out"
LONGEST = 16 << 20


class Source(NamedTuple):
    path: str
    is_template: bool  # else an UP.json
    is_assembly: bool = False  # a folder of CDK
    note: str = ""  # what to say of it

    @property
    def folder(self) -> str:
        """From which its paths are seen."""
        return os.path.abspath(self.path) if self.is_assembly else os.path.dirname(os.path.abspath(self.path))


def is_assembly(folder: str) -> bool:
    """Whether a folder is one of CDK; one that cannot be read is none."""
    try:
        names = os.listdir(folder)
    except OSError:
        return False
    return os.path.isfile(os.path.join(folder, MANIFEST)) or any(name.endswith(".template.json") for name in names)


def candidates(folder: str) -> Iterator[Source]:
    """All that a folder has to serve, what comes first before the others."""
    def there(*names: str) -> List[str]:
        return [path for path in (os.path.join(folder, name) for name in names) if os.path.isfile(path)]

    yield from (Source(path, False) for path in there(UP))
    for built in there(*(os.path.join(BUILT, name) for name in SAM)):
        own = there(*SAM)
        newer = [path for path in own if os.stat(path).st_mtime > os.stat(built).st_mtime]
        yield Source(built, True, note=f"{newer[0]} has changed since: run sam build" if newer else "")
    yield from (Source(path, True) for path in there(*SAM, *SERVERLESS))
    for path in (os.path.join(folder, ASSEMBLY), folder):
        if os.path.isdir(path) and is_assembly(path):
            yield Source(path, True, True)


def found_in(folder: str) -> Source:
    sources = list(candidates(folder))
    if not sources:
        hint = ": run cdk synth" if os.path.isfile(os.path.join(folder, "cdk.json")) else (
            f": there is no {UP}, {', '.join((*SAM[:1], *SERVERLESS[:1], ASSEMBLY))} or {BUILT}; name a file")
        raise Fault(f"{'this folder' if folder == '.' else folder} has no project that can be served{hint}")
    first, others = sources[0], [os.path.normpath(source.path) for source in sources[1:]]
    note = "; ".join(filter(None, [first.note, f"also here: {', '.join(others)}" if others else ""]))
    return first._replace(path=os.path.normpath(first.path), note=note)


def is_template(path: str) -> bool:
    """Whether a file is a template, and not an UP.json."""
    if not path.endswith(".json"):
        return path.endswith((".yaml", ".yml", ".template"))
    if path.endswith(".template.json") or os.path.basename(path) in SERVERLESS:
        return True
    try:
        with open(path, "rb") as file:
            whole = members_of(file.read(LONGEST + 1), LONGEST) or {}
    except OSError:
        return False  # (whoever reads an UP.json says what is wrong)
    return "Resources" in whole or "provider" in whole


def source_of(named: Optional[str]) -> Source:
    """What is to be served; Fault if there is nothing."""
    if named is None or os.path.isdir(named):
        return found_in(named or ".")
    return Source(named, is_template(named))
