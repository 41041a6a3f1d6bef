"""What is to be served, as the members of UP.json: an UP.json, or a template with what the user gives for it."""
import argparse
import os
from typing import Callable, List, NamedTuple, Optional

from ..configuration import Members
from ..from_template import find, own_values
from ..from_template.given import NOTHING, Given
from ..from_template.messages import Fault as TemplateFault
from ..from_template.messages import told_to
from ..from_template.options import given_of
from ..outgoing import several
from ..service import Fault
from . import members

Say = Callable[[str], None]


class Project(NamedTuple):
    path: str  # of the file, or of the folder
    whole: Members  # what it says, looked at
    is_template: bool = False
    watched: List[str] = []  # the files that it is made of


def silent(_line: str) -> None:
    pass


def in_full(whole: Members, folder: str) -> Members:
    """The same with the paths of functions from the root, since a template's folder may be another than its file's."""
    functions = []
    for member in whole["functions"]:
        made = dict(member)
        if "inline" not in made:
            made["directory"] = os.path.join(folder, made.get("directory", ""))
        if "layers" in made:
            made["layers"] = [os.path.join(folder, layer) for layer in made["layers"]]
        functions.append(made)
    return {**whole, "functions": functions}


def of_template(source: find.Source, given: Given, values: Optional[str], say: Say) -> Project:
    from ..from_template.project import up_of_source  # (thirty modules, which an UP.json does not need)
    with told_to(say):
        whole = in_full(up_of_source(source, given, values), source.folder)
    own = values or own_values.path_beside(source.path)
    name = f"{source.path} with {own}" if own else source.path
    say(f"serves {name}: {several(len(whole['functions']), 'function')}")
    watched = [source.path, *([own] if own else [])]
    return Project(source.path, members.looked_at(whole, name), True, watched)


def project_of(named: Optional[str], given: Given = NOTHING, values: Optional[str] = None,
               say: Say = silent) -> Project:
    """What is named, or found in this folder; a Fault says what is wrong with it."""
    try:
        source = find.source_of(named)
        if named is None or os.path.isdir(named):
            say(f"found {source.path}" + (f" ({source.note})" if source.note else ""))
        if source.is_template:
            return of_template(source, given, values, say)
        whole = members.read(source.path)
        if values:
            whole = members.looked_at(own_values.merge(whole, values, {}), f"{source.path} with {values}")
    except TemplateFault as fault:
        raise Fault(2, str(fault)) from None
    return Project(source.path, whole, watched=[source.path, *([values] if values else [])])


def project_by(options: argparse.Namespace, say: Say) -> Project:
    """What the options of a command line say."""
    try:
        given = given_of(options) if "parameter" in options else NOTHING
    except TemplateFault as fault:
        raise Fault(2, str(fault)) from None
    project = project_of(options.up, given, getattr(options, "values", None), say)
    return project._replace(whole=with_stages(project.whole)) if getattr(options, "stage_in_path", False) else project


def with_stages(whole: Members) -> Members:
    """The same, with the stage in the path of each request to a route."""
    api = {"api": {**whole.get("api", {}), "stageInPath": True}} if whole.get("routes") else {}
    apis = {name: {**given, "stageInPath": True} for name, given in whole.get("apis", {}).items()}
    return {**whole, **api, **({"apis": apis} if apis else {})}
