"""The UP.json of a project: of all stacks of a template or of a folder, with what the user gives for it."""
import os
from typing import Dict, List, Optional

from ..configuration import Members
from . import asynchronous, authorizers, balancers, mappings, openapi, own_values, serverless, streams, topics
from .files import Folder
from .find import Source
from .functions import Listed, functions_of, tell_services
from .gateway_resources import add_routes
from .given import NOTHING, Given
from .messages import Fault, limited
from .resources import add_urls, apis_of
from .routes import Apis
from .rules import add_schedules
from .stacks import Stack, stacks_of
from .values import REGION


def listed_in(stacks: List[Stack]) -> List[Listed]:
    return [Listed(key, properties, stack.scope, stack.base) for stack in stacks for key, properties in stack.functions]


def seen_from(folder: str, base: str, made: Members) -> None:
    """The paths of a nested stack's function, as seen from the folder of the whole."""
    between = os.path.relpath(base, folder)
    if between != ".":
        made["directory"] = os.path.normpath(os.path.join(between, made.get("directory", "")))
        if "layers" in made:
            made["layers"] = [os.path.normpath(os.path.join(between, layer)) for layer in made["layers"]]


def apis_in(stacks: List[Stack], functions: List[Members], folder: str) -> Dict[str, Members]:
    """The properties of all APIs; functions get what is resources of their own."""
    apis: Dict[str, Members] = {}
    files = Folder(folder)
    for stack in stacks:
        scope = stack.scope
        add_urls(functions, scope)
        add_schedules(functions, scope)
        mappings.add_mappings(functions, scope)
        topics.add_subscriptions(functions, scope)
        asynchronous.add_configs(functions, scope)
        of_events = serverless.apis_of(scope) if isinstance(scope, serverless.ServerlessScope) else apis_of(
            stack.template, scope)
        authorizers.resolve(functions, of_events, scope)
        apis = {**apis, **of_events, **add_routes(functions, scope)}
        openapi.add_routes(functions, scope, files, stack.base)
        balancers.add_routes(functions, scope)
        tell_services(scope)
    return apis


def up_of_source(source: Source, given: Given = NOTHING, values: Optional[str] = None) -> Members:
    """UP.json's object; its folders are as seen from the source's."""
    with limited():
        return made_of_source(source, given, values)


def made_of_source(source: Source, given: Given, values: Optional[str]) -> Members:
    stacks = stacks_of(source.path, source.is_assembly, given)
    listed = listed_in(stacks)
    functions = functions_of(listed)
    if not functions:
        raise Fault(f"{source.path} has no function")
    check_variables(given, listed)
    for one, made in zip(listed, functions):
        seen_from(source.folder, one.base, made)
    apis = apis_in(stacks, functions, source.folder)
    region = str(stacks[0].scope.pseudo["AWS::Region"])
    is_other = region != REGION and len(region) < 33 and region.replace("-", "").isalnum() and region.isascii()
    whole: Members = {**({"region": region.lower()} if is_other else {}),
                      **Apis(apis, stacks[0].scope).members(functions), "functions": functions}
    beside = values or own_values.path_beside(source.path)
    if beside:
        keys = {one.key: made["name"] for one, made in zip(listed, functions)}
        whole = own_values.merge(whole, beside, keys)
    for made in whole["functions"]:
        if isinstance(made.get("queue"), dict) and "url" not in made["queue"]:
            del made["queue"]  # (it has been told that its address is to be supplied)
        streams.drop_incomplete(made)
    return whole


def check_variables(given: Given, listed: List[Listed]) -> None:
    """Refuses variables of a function that is not there."""
    names = {name for one in listed for name in (one.key, one.scope.functions.get(one.key))}
    for name in given.variables:
        if name and name not in names:
            raise Fault(f"--env-vars: there is no function {name}; there are "
                        f"{', '.join(sorted(map(str, filter(None, names))))}")
