"""What is in front of functions for HTTP, by its kind: in which format requests become events and results answers, and
what is answered if there is no result."""
import json
from typing import Dict, List, Optional

from ..configuration import Members
from . import payload, rest_payload
from .authorizers import Authorizer
from .http import LONGEST_BODY, Reply, Request
from .rest_payload import Tell
from .settings import Integration

JSON = [("Content-Type", "application/json")]


def message(status: int, text: str) -> Reply:
    return Reply(status, JSON, json.dumps({"message": text}).encode())


class OfUrl:
    """A Function URL: payload format 2.0."""
    longest = LONGEST_BODY
    replaces_cors = True  # whether a configuration's headers stand in place of the function's own

    def event(self, request: Request, body: bytes, context: Members, parameters: Optional[Dict[str, str]],
              tell: Tell) -> bytes:
        return payload.event_of(request, body, context)

    def reply(self, result: bytes, request: Request, tell: Tell) -> Reply:
        return payload.reply_of(result)

    @staticmethod
    def failure_reply() -> Reply:
        """For a function that fails, or whose result is not an answer."""
        return Reply(502, JSON, b"Internal Server Error")

    @staticmethod
    def throttle_reply(result: bytes) -> Reply:
        return Reply(429, JSON, result)


class OfHttpApi(OfUrl):
    """A route of an HTTP API, in payload format 2.0 or 1.0."""
    is_rest = False

    def __init__(self, integration: Integration) -> None:
        self.integration = integration

    def event(self, request: Request, body: bytes, context: Members, parameters: Optional[Dict[str, str]],
              tell: Tell) -> bytes:
        if self.integration.version == "1.0":
            return rest_payload.event_of(request, body, context, parameters, self.integration, tell)
        return payload.event_of(request, body, context, parameters, self.integration.variables)

    def reply(self, result: bytes, request: Request, tell: Tell) -> Reply:
        if self.integration.version == "1.0":
            return rest_payload.reply_of(result, request, self.integration, tell)
        return payload.reply_of(result)

    @staticmethod
    def failure_reply() -> Reply:
        return message(502, "Internal Server Error")

    @staticmethod
    def throttle_reply(result: bytes) -> Reply:
        return Reply(503, JSON, result)

    @staticmethod
    def no_route_reply() -> Reply:
        """For a request that no route takes."""
        return message(404, "Not Found")

    @staticmethod
    def no_stage_reply() -> Reply:
        """For a request whose path does not begin with a stage."""
        return message(404, "Not Found")

    # ---- an authorizer -----------------------------------------------------------------------------------------------

    def authorizer_event(self, request: Request, context: Members, parameters: Optional[Dict[str, str]],
                         authorizer: Authorizer, arn: str, identity: List[str]) -> Members:
        if authorizer.version == "2.0":
            given = payload.members_of(request, context, parameters, self.integration.variables)
            return {"version": "2.0", "type": "REQUEST", "routeArn": arn, "identitySource": identity or None, **given}
        given = rest_payload.members_of(request, context, parameters, self.integration)
        joined = ",".join(identity)
        return {**given, "type": "REQUEST", "methodArn": arn, "identitySource": joined, "authorizationToken": joined}

    @staticmethod
    def unauthorized_reply() -> Reply:
        return message(401, "Unauthorized")

    @staticmethod
    def forbidden_reply(is_explicit: bool) -> Reply:
        return message(403, "Forbidden")

    @staticmethod
    def authorizer_failure_reply() -> Reply:
        return message(500, "Internal Server Error")

    def jwt(self, claims: Members, scopes: Optional[List[str]]) -> Members:
        found = {"claims": claims, "scopes": scopes}
        return {"jwt": found} if self.integration.version == "2.0" else found

    def by_lambda(self, context: Members, principal: Optional[str]) -> Members:
        if self.integration.version == "2.0":
            return {"lambda": context}
        return {**({} if principal is None else {"principalId": principal}), **context}


class OfRestApi(OfHttpApi):
    """A method of a REST API (Lambda Developer Guide, "Error handling with an API Gateway API"; API Gateway Developer
    Guide, "Gateway response types"). Its function answers for cross-origin requests itself."""
    replaces_cors = False
    is_rest = True

    @staticmethod
    def failure_reply() -> Reply:
        return message(502, "Internal server error")

    def authorizer_event(self, request: Request, context: Members, parameters: Optional[Dict[str, str]],
                         authorizer: Authorizer, arn: str, identity: List[str]) -> Members:
        if authorizer.is_token:
            return {"type": "TOKEN", "authorizationToken": identity[0], "methodArn": arn}
        return {"type": "REQUEST", "methodArn": arn,
                **rest_payload.members_of(request, context, parameters, self.integration)}

    @staticmethod
    def forbidden_reply(is_explicit: bool) -> Reply:
        text = "User is not authorized to access this resource" + " with an explicit deny" * is_explicit
        return Reply(403, JSON, json.dumps({"Message": text}).encode())

    @staticmethod
    def authorizer_failure_reply() -> Reply:
        return Reply(500, JSON, b'{"message":null}')

    def jwt(self, claims: Members, scopes: Optional[List[str]]) -> Members:
        return {"claims": claims, **({} if scopes is None else {"scopes": scopes})}

    def by_lambda(self, context: Members, principal: Optional[str]) -> Members:
        """Each value is a text."""
        texts = {name: value if isinstance(value, str) or value is None else json.dumps(value)
                 for name, value in context.items()}
        return {**({} if principal is None else {"principalId": principal}), **texts}

    @staticmethod
    def throttle_reply(result: bytes) -> Reply:
        return message(500, "Internal server error")

    @staticmethod
    def no_route_reply() -> Reply:
        return message(403, "Missing Authentication Token")

    @staticmethod
    def no_stage_reply() -> Reply:
        return message(403, "Forbidden")


def format_of(integration: Integration) -> OfHttpApi:
    return (OfRestApi if integration.is_rest else OfHttpApi)(integration)
