"""The routes of an API that an OpenAPI document describes, by `x-amazon-apigateway-integration` (API Gateway Developer
Guide, "OpenAPI extensions for API Gateway"): in the template, or a file beside it."""
from typing import Iterator, List, Optional, Set, Tuple

from ..configuration import Members
from ..front.routes import WrongRoute
from .files import Folder
from .gateway_resources import function_invoked_by
from .messages import Fault, excerpt, tell
from .objects import Object
from .openapi_security import Security
from .reader import LONGEST, parse
from .named import resources_of
from .routes import FunctionRoute, Of, key_of
from .values import Scope, members_of

INTEGRATION = "x-amazon-apigateway-integration"
Known = Set[Tuple[str, str, str]]  # the function, the key and the API of each route
METHODS = {"get", "put", "post", "delete", "options", "head", "patch", "trace", "x-amazon-apigateway-any-method"}
# Where a kind of APIs has its document: in the template, or in a file
BODIES = {"AWS::Serverless::Api": ("DefinitionBody", "DefinitionUri"),
          "AWS::Serverless::HttpApi": ("DefinitionBody", "DefinitionUri"),
          "AWS::ApiGateway::RestApi": ("Body", "BodyS3Location"), "AWS::ApiGatewayV2::Api": ("Body", "BodyS3Location")}
REST = ("AWS::Serverless::Api", "AWS::ApiGateway::RestApi")


def add_routes(functions: List[Members], scope: Scope, folder: Folder, base: str) -> None:
    """Gives functions the routes that documents have."""
    known = {(str(made["name"]), route.key, route.of.key) for made in functions for route in made.get("routes", ())}
    for kind, (inline, file) in BODIES.items():
        for key, properties in resources_of(kind, scope):
            body = document_of(key, properties, inline, file, scope, folder, base)
            if body is not None:
                security = Security(key, body, kind in REST, [str(made["name"]) for made in functions], scope)
                for route in routes_in(body):
                    add_route(key, kind in REST, *route, functions, scope, known, security)


def document_of(key: str, properties: Members, inline: str, file: str, scope: Scope, folder: Folder,
                base: str) -> Optional[Members]:
    """The document of an API; none if it has none, or if it is elsewhere, which is told."""
    body, named = scope.chosen(properties.get(inline)), scope.chosen(properties.get(file))
    included = members_of(body, "Fn::Transform")
    if included.get("Name") == "AWS::Include":
        named = members_of(included, "Parameters").get("Location")
    elif isinstance(body, dict):
        return body
    if named is None:
        return None
    value = scope.evaluate_or_reason(named).value
    if not isinstance(value, str) or "://" in value:
        tell(f"ignores {file} of {key}, {excerpt(value)}, which is not a file here")
        return None
    try:
        read = parse(value, folder.text(base, value, LONGEST))
    except Fault as fault:
        tell(f"ignores {file} of {key}: {fault}")
        return None
    return read if isinstance(read, dict) else None


def routes_in(body: Members) -> Iterator[Tuple[str, str, object]]:
    """The method, the path and the operation of each route."""
    for path, item in members_of(body, "paths").items():
        for method, operation in item.items() if isinstance(item, dict) else ():
            if str(method).lower() in METHODS:
                yield str(method), str(path), operation


def add_route(key: str, is_rest: bool, method: str, path: str, operation: object, functions: List[Members],
              scope: Scope, known: Known, security: Security) -> None:
    """Gives a function one route, unless it has it by an event that says the same; one of another integration is told,
    but for a preflight's."""
    where = f"{method.upper()} {path} of {key}"
    given = Object(members_of(operation, INTEGRATION), f"the integration of {where}", scope, tell)
    kind = str(given.raw("type") or "").upper()
    if kind == "MOCK":
        return
    made = function_invoked_by(given.raw("uri"), functions, scope)
    if made is None:
        tell(f"ignores {where}: " + (f"its integration {kind} is not a function here" if kind
                                        else f"it has no {INTEGRATION}"))
        return
    payload = "1.0" if is_rest or str(given.raw("payloadFormatVersion")) == "1.0" else "2.0"
    given.without_meaning(["httpMethod", "credentials", "connectionType", "timeoutInMillis", "passthroughBehavior",
                           "contentHandling", "responses"])
    if kind == "AWS":
        tell(f"{made['name']}: {where} is a proxy integration here, without mapping templates")
        given.without_meaning(["requestTemplates", "requestParameters"])
    given.close()
    try:
        route = FunctionRoute(key_of(method, path), Of(scope.prefix + key, is_rest, payload))
    except WrongRoute as fault:
        tell(f"{made['name']}: ignores {where}: {fault}")
        return
    if (name := (str(made["name"]), route.key, route.of.key)) not in known:
        known.add(name)
        made.setdefault("routes", []).append(route._replace(authorizer=security.of_operation(operation, where)))
