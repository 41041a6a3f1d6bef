"""Routes and APIs that CDK and CloudFormation write as resources of their own: the methods of a REST API
(AWS::ApiGateway) and the routes of an HTTP API (AWS::ApiGatewayV2)."""
import functools
from typing import Callable, Dict, List, Optional, Set

from ..configuration import Members
from ..front.routes import DEFAULT, WrongRoute
from .authorizers import Resources
from .cloudformation import referenced
from .objects import Object
from .named import function_of, resources_of
from .routes import FunctionRoute, Of, check_key, key_of
from .messages import excerpt, tell
from .shared import Unknown
from .values import Scope, members_of

REST, HTTP = "AWS::ApiGateway::", "AWS::ApiGatewayV2::"
# What a method or a route has that has no meaning here, or is read elsewhere
OF_METHOD = {"RestApiId", "ResourceId", "HttpMethod", "Integration", "MethodResponses", "OperationName"}
OF_INTEGRATION = {"Type", "Uri", "IntegrationHttpMethod", "Credentials", "PassthroughBehavior", "TimeoutInMillis",
                  "IntegrationResponses", "ContentHandling", "ConnectionType"}
OF_ROUTE = {"ApiId", "RouteKey", "Target", "OperationName"}
HEADER = "method.response.header.Access-Control-"
MOST_PARTS = 100  # of a path, beyond which its resources go round in a circle


def text_of(properties: Members, name: str, scope: Scope) -> Optional[str]:
    """A property's text; None if it is none, or not known."""
    value, placeholders = scope.evaluate_or_reason(properties.get(name))
    return value if isinstance(value, str) and not placeholders else None


def function_invoked_by(uri: object, functions: List[Members], scope: Scope) -> Optional[Members]:
    """The function that an integration's URI invokes, which for an HTTP API may be its ARN alone; None if none is."""
    try:
        text = scope.evaluate(uri).value
    except Unknown:
        return None
    return function_of(text, functions, scope)


def tell_unread(where: str, members: Members, read: Set[str], scope: Scope) -> None:
    """Says which members of a method, a route or an integration nobody reads."""
    given = Object(members, where, scope, tell)
    given.without_meaning(read)
    given.without_meaning(["AuthorizationType", "AuthorizerId", "AuthorizationScopes"])  # (see `authorizers`)
    if given.raw("ApiKeyRequired") in (False, None):
        given.without_meaning(["ApiKeyRequired"])
    else:
        given.asked.discard("ApiKeyRequired")
    given.close()


def put(made: Members, where: str, of: Of, key: Callable[[], str], authorizer: Optional[Members] = None) -> None:
    """Gives a function the route whose key this makes."""
    try:
        made["routes"] = [*made.get("routes", ()), FunctionRoute(key(), of, authorizer=authorizer)]
    except WrongRoute as fault:
        tell(f"{made['name']}: ignores its {where}: {fault}")


class RestApis:
    """The methods of REST APIs, and the properties of those in SAM's names."""

    def __init__(self, scope: Scope) -> None:
        self.scope = scope
        self.apis = dict(resources_of(REST + "RestApi", scope))
        self.parts = dict(resources_of(REST + "Resource", scope))
        self.cors: Dict[str, Members] = {}
        self.authorizers = Resources(REST, True, scope)

    def path(self, resource: object) -> Optional[str]:
        """The path of a resource; None if it is not known."""
        parts: List[str] = []
        while (key := referenced(resource)) is not None and key in self.parts and len(parts) < MOST_PARTS:
            part = text_of(self.parts[key], "PathPart", self.scope)
            if part is None:
                return None
            parts.append(part)
            resource = self.parts[key].get("ParentId")
        is_root = key in self.apis and len(parts) < MOST_PARTS
        return "/" + "/".join(reversed(parts)) if is_root else None

    def add_routes(self, functions: List[Members]) -> None:
        for key, properties in resources_of(REST + "Method", self.scope):
            api, path = referenced(properties.get("RestApiId")), self.path(properties.get("ResourceId"))
            method = text_of(properties, "HttpMethod", self.scope)
            integration = members_of(properties, "Integration")
            kind = integration.get("Type")
            if kind == "MOCK" and method == "OPTIONS":
                self.preflight(api, integration)
                continue
            made = (function_invoked_by(integration.get("Uri"), functions, self.scope)
                    if kind in ("AWS_PROXY", "AWS") else None)
            if made is None or api is None or api not in self.apis or path is None or method is None:
                tell(f"ignores {key}, {REST}Method: {self.why_not(kind, made, api, path)}")
                continue
            if kind == "AWS":
                tell(f"{made['name']}: {method} {path} is a proxy integration here, without mapping templates")
                integration = {name: value for name, value in integration.items() if not name.startswith("Request")}
            tell_unread(f"{method} {path}", properties, OF_METHOD, self.scope)
            tell_unread(f"the integration of {method} {path}", integration, OF_INTEGRATION, self.scope)
            put(made, f"method {key}", Of(self.scope.prefix + api, True), functools.partial(key_of, method, path),
                self.authorizers.of_route(properties, f"{method} {path}", [one["name"] for one in functions]))

    @staticmethod
    def why_not(kind: object, made: Optional[Members], api: Optional[str], path: Optional[str]) -> str:
        if kind not in ("AWS_PROXY", "AWS"):
            return f"its integration is {excerpt(kind)}, not a function"
        return "its function is not here" if made is None else "its API, path or method is not known here"

    def preflight(self, api: Optional[str], integration: Members) -> None:
        """A method OPTIONS of a mock says in its headers what other sites may do."""
        responses = integration.get("IntegrationResponses")
        for response in responses if isinstance(responses, list) else ():
            headers = members_of(response, "ResponseParameters")
            cors = {name[len(HEADER):].replace("-", ""): value for name, value in headers.items()
                    if str(name).startswith(HEADER)}
            names = {"AllowOrigin", "AllowHeaders", "AllowMethods", "AllowCredentials", "MaxAge", "ExposeHeaders"}
            cors = {name: value for name, value in cors.items() if name in names}
            if cors and api is not None:
                self.cors.setdefault(api, cors)

    def properties(self) -> Dict[str, Members]:
        by_api: Dict[str, Members] = {}
        for key, given in self.apis.items():
            by_api[key] = {"BinaryMediaTypes": given["BinaryMediaTypes"]} if "BinaryMediaTypes" in given else {}
            if key in self.cors:
                by_api[key]["Cors"] = self.cors[key]
        for _, given in resources_of(REST + "Stage", self.scope):
            api = by_api.get(referenced(given.get("RestApiId")) or "")
            if api is not None:
                api.update({name: given[name] for name in ("StageName", "Variables") if name in given})
        return {self.scope.prefix + key: members for key, members in by_api.items()}


class HttpApis:
    """The routes of HTTP APIs, and the properties of those."""

    def __init__(self, scope: Scope) -> None:
        self.scope = scope
        self.apis = dict(resources_of(HTTP + "Api", scope))
        self.integrations = dict(resources_of(HTTP + "Integration", scope))
        self.authorizers = Resources(HTTP, False, scope)

    def integration_of(self, target: object) -> Optional[Members]:
        """The integration that a route's target names, `integrations/ID`; None if it is not here."""
        try:
            text = self.scope.evaluate(target).value
        except Unknown:
            return None
        return self.integrations.get(text.rpartition("/")[2]) if isinstance(text, str) else None

    def add_routes(self, functions: List[Members]) -> None:
        for key, properties in resources_of(HTTP + "Route", self.scope):
            api, route = referenced(properties.get("ApiId")), text_of(properties, "RouteKey", self.scope)
            integration = self.integration_of(properties.get("Target")) or {}
            made = function_invoked_by(integration.get("IntegrationUri"), functions, self.scope)
            if self.is_web_socket(api) or api is None or api not in self.apis or route is None or made is None:
                tell(f"ignores {key}, {HTTP}Route: " + (
                    "it is of a WebSocket API" if self.is_web_socket(api) else
                    "its function is not here" if made is None else "its API or key is not known here"))
                continue
            payload = "2.0" if str(integration.get("PayloadFormatVersion")) == "2.0" else "1.0"
            tell_unread(f"the route {route}", properties, OF_ROUTE, self.scope)
            of = Of(self.scope.prefix + api, payload=payload)
            put(made, f"route {key}", of, functools.partial(check_key, route),
                self.authorizers.of_route(properties, f"the route {route}", [one["name"] for one in functions]))
        for key, properties in self.apis.items():  # (one whose only route is part of it)
            made = (function_invoked_by(properties.get("Target"), functions, self.scope)
                    if "Target" in properties else None)
            if made:
                route = text_of(properties, "RouteKey", self.scope) or DEFAULT
                put(made, f"route {key}", Of(self.scope.prefix + key), functools.partial(check_key, route))

    def is_web_socket(self, api: Optional[str]) -> bool:
        return text_of(self.apis.get(api or "", {}), "ProtocolType", self.scope) == "WEBSOCKET"

    def properties(self) -> Dict[str, Members]:
        by_api: Dict[str, Members] = {
            key: {"CorsConfiguration": given["CorsConfiguration"]} if "CorsConfiguration" in given else {}
            for key, given in self.apis.items() if not self.is_web_socket(key)}
        for _, given in resources_of(HTTP + "Stage", self.scope):
            api = by_api.get(referenced(given.get("ApiId")) or "")
            if api is not None:
                api.update({name: given[name] for name in ("StageName", "StageVariables") if name in given})
        return {self.scope.prefix + key: members for key, members in by_api.items()}


def add_routes(functions: List[Members], scope: Scope) -> Dict[str, Members]:
    """Gives functions the routes that are resources. Returns the properties of their APIs by logical id."""
    rest, http = RestApis(scope), HttpApis(scope)
    rest.add_routes(functions)
    http.add_routes(functions)
    return {**rest.properties(), **http.properties()}
