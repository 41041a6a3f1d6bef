"""Who may call the operations of an OpenAPI document, as UP.json has it: `security`, and the schemes that have
`x-amazon-apigateway-authorizer` (API Gateway Developer Guide, "OpenAPI extensions for API Gateway")."""
from typing import Collection, Dict, List, Optional

from ..configuration import Members
from .authorizers import NOBODY, Reader, of_resource, once
from .messages import excerpt, tell
from .values import Scope, members_of

AUTHORIZER, OWN = "x-amazon-apigateway-authorizer", "x-amazon-apigateway-auth"
# The members of an authorizer by the names of its resource
NAMES = {"type": "Type", "authorizerUri": "AuthorizerUri", "identitySource": "IdentitySource",
         "identityValidationExpression": "IdentityValidationExpression", "jwtConfiguration": "JwtConfiguration",
         "authorizerResultTtlInSeconds": "AuthorizerResultTtlInSeconds", "providerARNs": "ProviderARNs",
         "authorizerPayloadFormatVersion": "AuthorizerPayloadFormatVersion", "authorizerCredentials":
         "AuthorizerCredentials", "enableSimpleResponses": "EnableSimpleResponses"}


class Security:
    """The schemes of one document."""

    def __init__(self, key: str, body: Members, is_rest: bool, names: Collection[str], scope: Scope) -> None:
        self.key, self.body, self.is_rest, self.names, self.scope = key, body, is_rest, names, scope
        self.schemes = {**members_of(body, "securityDefinitions"),
                        **members_of(members_of(body, "components"), "securitySchemes")}
        self.told: Dict[str, Optional[Members]] = {}

    def of_operation(self, operation: object, where: str) -> Optional[Members]:
        """The authorizer of an operation; None if it has none, or, with a message, if it is none that can be here."""
        own = members_of(operation, OWN).get("type")
        if own not in (None, NOBODY):
            tell(f"ignores {OWN} of {where}, {excerpt(own)}: it takes each caller")
        given = members_of({"": operation}, "").get("security", self.body.get("security"))
        for requirement in given if isinstance(given, list) else ():
            for name, scopes in requirement.items() if isinstance(requirement, dict) else ():
                if name == NOBODY:
                    return None
                if AUTHORIZER in members_of(self.schemes, name):
                    return self.made(str(name), [str(one) for one in scopes] if isinstance(scopes, list) else [])
                tell(f"ignores security {excerpt(name)} of {where}, which has no {AUTHORIZER}")
        return None

    def made(self, name: str, scopes: List[str]) -> Optional[Members]:
        scheme = members_of(self.schemes, name)
        given = {NAMES.get(str(member), str(member)): value for member, value in members_of(scheme, AUTHORIZER).items()}
        kind = given.get("Type")
        given["Type"] = str(kind).upper()
        if given["Type"] in ("TOKEN", "COGNITO_USER_POOLS") and "IdentitySource" not in given and "name" in scheme:
            given["IdentitySource"] = f"method.request.header.{scheme['name']}"
        return once(f"the authorizer {name} of {self.key}", scopes, self.told, lambda at: of_resource(
            Reader(given, at, self.is_rest, self.names, self.scope), scopes))
