"""The functions of a serverless.yml."""
from typing import Dict, List, Tuple

from ..configuration import Members
from .cloudformation import is_for_later
from .files import Folder
from .given import Given
from .messages import LineGroups, excerpt, tell
from .objects import Object
from .routes import OF_SERVERLESS, REST_OF_SERVERLESS
from .serverless_scope import ServerlessScope
from .shared import Unknown
from .values import members_of

__all__ = ["ServerlessScope", "apis_of", "functions_in"]

PROPERTIES = {"name": "FunctionName", "handler": "Handler", "timeout": "Timeout",
              "reservedConcurrency": "ReservedConcurrentExecutions",
              "runtime": "Runtime", "memorySize": "MemorySize", "image": "ImageUri", "layers": "Layers"}
SHARED = ("timeout", "runtime", "memorySize", "layers")  # of `provider`, for all functions
DEFAULTS = {"Timeout": 6, "MemorySize": 1024}  # the Serverless Framework's own
TAKEN = {"service", "provider", "functions", "frameworkVersion", "custom", "params", "layers", "resources",
         "useDotenv", "package", "configValidationMode", "variablesResolutionMode", "deprecationNotificationMode",
         "org", "app"}
# Of `provider`: what is read elsewhere, and what a deployment alone has
OF_PROVIDER = {*SHARED, "stage", "region", "environment", "httpApi", "apiGateway", "name"}
OF_DEPLOYMENT = {"iam", "iamRoleStatements", "role", "rolePermissionsBoundary", "deploymentBucket", "deploymentMethod",
                 "tags", "stackTags", "stackName", "profile", "versionFunctions", "lambdaHashingVersion", "logs",
                 "logRetentionInDays", "notificationArns", "stackPolicy", "cfnRole", "endpointType", "apiName",
                 "disableRollback", "stackParameters"}


def object_of(part: Members, name: str, where: str, scope: ServerlessScope) -> Members:
    """An object that a part of the file has, also by a variable; an empty one, and a message, if it is none."""
    value = scope.raw(part.get(name))
    if isinstance(value, str):
        try:
            value = scope.evaluate(value).value
        except Unknown as reason:
            value = str(reason)
    if value is not None and not isinstance(value, dict):
        tell(f"{where}: ignores {name}: it must be an object, not {excerpt(part[name])}")
    return value if isinstance(value, dict) else {}


def apis_of(scope: ServerlessScope) -> Dict[str, Members]:
    """What `provider` says of its APIs, by the names of SAM."""
    http = object_of(scope.provider, "httpApi", "provider", scope)
    rest = object_of(scope.provider, "apiGateway", "provider", scope)
    return {OF_SERVERLESS: {"CorsConfiguration" if name == "cors" else name: value
                            for name, value in http.items() if name != "payload"},
            REST_OF_SERVERLESS: {"StageName": scope.stage, **{
                "BinaryMediaTypes" if name == "binaryMediaTypes" else name: value for name, value in rest.items()}}}


def properties_of(key: str, member: Members, scope: ServerlessScope) -> Members:
    """A function's properties by the names of CloudFormation."""
    shared = {PROPERTIES[name]: scope.provider[name] for name in SHARED if name in scope.provider}
    properties: Members = {**DEFAULTS, **shared}
    service = scope.raw(scope.whole["service"])
    service = service.get("name", "service") if isinstance(service, dict) else service
    properties["FunctionName"] = {"Fn::Join": ["-", [service, scope.stage, key]]}
    properties.update({PROPERTIES.get(name, name): scope.raw(value) for name, value in member.items()
                       if name not in ("environment", "package")})
    package = scope.raw(member.get("package"))
    whole = scope.raw(scope.whole.get("package"))
    artifact = members_of({"": package}, "").get("artifact") or members_of({"": whole}, "").get("artifact")
    if artifact is not None:
        properties["CodeUri"] = artifact
    variables = {**object_of(scope.provider, "environment", key, scope), **object_of(member, "environment", key, scope)}
    return {**properties, "Environment": {"Variables": variables}}


def functions_in(whole: Members, stack: str, given: Given, folder: Folder,
                 base: str) -> Tuple[List[Tuple[str, Members]], ServerlessScope]:
    """Each function's logical id and properties, and the scope of their expressions."""
    scope = ServerlessScope(whole, stack, given, folder, base)
    found: List[Tuple[str, Members]] = []
    functions = scope.raw(whole.get("functions"))
    for given_part in functions if isinstance(functions, list) else [functions]:
        part = scope.raw(given_part)
        if not isinstance(part, dict):
            tell(f"ignores functions: {excerpt(part)}: it must be an object{scope.why(given_part)}")
            continue
        for key, given_member in part.items():
            member = scope.raw(given_member)
            if member is None or isinstance(member, dict):
                found.append((str(key), properties_of(str(key), member or {}, scope)))
            else:
                tell(f"ignores the function {key}: it must be an object, not {excerpt(member)}"
                     f"{scope.why(given_member)}")
    for name in sorted(str(name) for name in set(whole) - TAKEN):
        tell(f"ignores {name}")
    provider = Object(scope.provider, "provider", scope, tell)
    provider.without_meaning({*OF_PROVIDER, *OF_DEPLOYMENT})
    provider.close()
    left = LineGroups("ignores {names}, {line}")
    for key, resource in scope.resources.items():
        kind = str(members_of({"": resource}, "").get("Type"))
        if not is_for_later(kind):
            left.add(str(key), kind)
    left.say()
    return found, scope
