"""The authorizers of routes, as UP.json has them: of SAM's Auth, of resources of API Gateway, and of Serverless."""
from typing import Any, Callable, Collection, Dict, Iterator, List, Optional

from ..configuration import Members
from ..front import authorizers
from .messages import excerpt, tell
from .objects import Object
from .named import name_of_function, resources_of
from .routes import FunctionRoute
from .values import Scope, members_of

SOURCES = {"Headers": "header", "QueryStrings": "querystring"}
FURTHER = {"StageVariables": "stageVariables", "Context": "context"}
NOBODY, IAM = "NONE", "AWS_IAM"
# What of SAM's Auth has no meaning here, since requests have no signature and preflights are `cors`
WITHOUT_MEANING = ("InvokeRole", "AddDefaultAuthorizerToCorsPreflight", "AddApiKeyRequiredToCorsPreflight",
                   "EnableIamAuthorizer", "OverrideApiAuth")
OF_FUNCTION = ("FunctionInvokeRole", "DisableFunctionDefaultPermissions", "EnableFunctionDefaultPermissions")


class Reader:
    """Makes one authorizer. `where` is how a sentence names it."""

    def __init__(self, members: object, where: str, is_rest: bool, names: Collection[str], scope: Scope) -> None:
        self.given, self.where, self.is_rest = Object(members, where, scope, tell), where, is_rest
        self.names, self.scope = names, scope
        self.made: Members = {}

    def put(self, member: str, value: object) -> None:
        if value is not None and value != []:
            self.made[member] = value

    def function(self, arn: object) -> None:
        value = self.scope.evaluate_or_reason(arn).value
        name = name_of_function(value)
        self.made["function"] = name if name in self.names else value

    def texts(self, name: str) -> List[str]:
        value = self.given.value(name)
        listed = value if isinstance(value, list) else [] if value is None else [value]
        return [str(one) for one in listed]

    def flag(self, name: str) -> Optional[bool]:
        return True if self.given.value(name) in (True, "true") else None

    def tokens(self, wanted: Members, scopes: List[str]) -> None:
        self.made["jwt"] = {name: value for name, value in wanted.items() if value}
        self.put("scopes", scopes)

    def close(self) -> Optional[Members]:
        """The authorizer; none, and a message, if it is none that can be here."""
        self.given.close()
        wrong = next(authorizers.mistakes(self.made, list(self.names), self.is_rest, ""), None)
        if wrong is None:
            return self.made
        tell(f"ignores {self.where}, so its routes take each caller: {wrong}")
        return None


# ---- SAM -------------------------------------------------------------------------------------------------------------


def of_sam(reader: Reader, scopes: List[str]) -> Optional[Members]:
    """One of `Authorizers`, which has a function, a user pool or what a token must have."""
    given = reader.given
    own = reader.texts("AuthorizationScopes")
    identity = Object(given.raw("Identity") or {}, f"Identity of {reader.where}", reader.scope, tell)
    if given.raw("FunctionArn") is not None:
        given.without_meaning(OF_FUNCTION)
        reader.function(given.raw("FunctionArn"))
        is_token = reader.is_rest and given.text("FunctionPayloadType") != "REQUEST"
        if is_token:
            header = identity.text("Header")
            reader.put("type", "TOKEN")
            reader.put("identity", [f"$request.header.{header}"] if header else None)
            reader.put("validation", identity.text("ValidationExpression"))
        else:
            reader.put("identity", list(sources_in(identity)))
        reader.put("ttl", identity.whole("ReauthorizeEvery", 0, authorizers.LONGEST_TTL))
        if not reader.is_rest:
            reader.put("payload", given.text("AuthorizerPayloadFormatVersion"))
            reader.put("simple", reader.flag("EnableSimpleResponses"))
    else:
        wanted = Object(given.raw("JwtConfiguration") or {}, f"JwtConfiguration of {reader.where}", reader.scope, tell)
        if given.raw("UserPoolArn") is None and not wanted.members:
            tell(f"ignores {reader.where}, so its routes take each caller: it has no function, user pool or token")
            return None
        identity.without_meaning(["ValidationExpression", "ReauthorizeEvery"])
        reader.tokens(token_of(wanted), scopes or own)
        header = identity.text("Header")
        reader.put("identity", [f"$request.header.{header}"] if header else reader.texts("IdentitySource"))
        wanted.close()
    identity.close()
    return reader.close()


def token_of(wanted: Object) -> Members:
    """What a token must have, by members in either case."""
    audience = [value for name in ("audience", "Audience") for value in [wanted.value(name)] if value is not None]
    listed = audience[0] if audience and isinstance(audience[0], list) else audience
    return {"issuer": wanted.text("issuer") or wanted.text("Issuer"), "audience": [str(one) for one in listed]}


def sources_in(identity: Object) -> Iterator[str]:
    for forms, prefix in ((SOURCES, "$request."), (FURTHER, "$")):
        for name, place in forms.items():
            given = identity.value(name)
            for one in given if isinstance(given, list) else []:
                yield f"{prefix}{place}.{one}"


def resolve(functions: List[Members], apis: Dict[str, Members], scope: Scope) -> None:
    """Gives the routes of events the authorizers that they, or the APIs of a template, name."""
    names = {made["name"] for made in functions}
    told: Dict[str, Optional[Members]] = {}
    for made in functions:
        if "routes" in made:
            made["routes"] = [mapped if mapped.auth is None or mapped.of.key not in apis else mapped._replace(
                authorizer=of_event(mapped, apis[mapped.of.key], made["name"], names, scope, told), auth=None)
                for mapped in made["routes"]]


def of_event(mapped: FunctionRoute, api: Members, function: str, names: Collection[str], scope: Scope,
             told: Dict[str, Optional[Members]]) -> Optional[Members]:
    where = mapped.of.name
    own = Object(mapped.auth, f"Auth of {mapped.key} of {function}", scope, tell)
    common = Object(api.get("Auth"), f"Auth of {where}", scope, tell)
    wanted, scopes = own.text("Authorizer"), own.value("AuthorizationScopes")
    own.without_meaning(WITHOUT_MEANING)
    own.close()
    default, listed = common.text("DefaultAuthorizer"), members_of({"": common.raw("Authorizers")}, "")
    common.without_meaning(WITHOUT_MEANING)
    if where not in told:
        told[where] = None
        common.close()
    name = wanted or default
    if name is None or name == NOBODY:
        return None
    if name == IAM or name not in listed:
        tell(f"ignores the authorizer {excerpt(name)} of {mapped.key} of {function}, which takes each caller" + (
            "" if name == IAM else f": {where} has none of this name"))
        return None
    wanted_scopes, raw = [str(one) for one in scopes] if isinstance(scopes, list) else [], listed[name]
    return once(f"the authorizer {name} of {where}", wanted_scopes, told, lambda at: of_sam(
        Reader(raw, at, mapped.of.is_rest, names, scope), wanted_scopes))


def once(where: str, scopes: List[str], told: Dict[str, Optional[Members]],
         make: Callable[[str], Optional[Members]]) -> Optional[Members]:
    """One for all routes with these scopes: what is said of it is said once."""
    key = f"{where} {scopes}"
    if key not in told:
        told[key] = make(where)
    return told[key]


# ---- resources of API Gateway ----------------------------------------------------------------------------------------


class Resources:
    """Those of a kind of APIs, by their logical ids."""

    def __init__(self, kind: str, is_rest: bool, scope: Scope) -> None:
        self.is_rest, self.scope = is_rest, scope
        self.kind, self.listed = f"{kind}Authorizer", dict(resources_of(f"{kind}Authorizer", scope))
        self.told: Dict[str, Optional[Members]] = {}

    def of_route(self, properties: Members, where: str, names: Collection[str]) -> Optional[Members]:
        """That of a method or a route; None if it has none, or, with a message, if it is none that can be here."""
        kind, key = properties.get("AuthorizationType"), referenced_in(properties.get("AuthorizerId"))
        if kind in (None, NOBODY):
            return None
        if key not in self.listed:
            tell(f"ignores the authorizer of {where}, {excerpt(kind)}: it takes each caller")
            return None
        value = self.scope.evaluate_or_reason(properties.get("AuthorizationScopes")).value
        scopes = [str(one) for one in value] if isinstance(value, list) else []
        return once(f"{key}, {self.kind}", scopes, self.told, lambda at: of_resource(
            Reader(self.listed[str(key)], at, self.is_rest, names, self.scope), scopes))


def of_resource(reader: Reader, scopes: List[str]) -> Optional[Members]:
    """By the properties of AWS::ApiGateway::Authorizer or AWS::ApiGatewayV2::Authorizer."""
    given = reader.given
    given.without_meaning(["Name", "RestApiId", "ApiId", "AuthType", "AuthorizerCredentials", "ProviderARNs",
                           "AuthorizerCredentialsArn"])
    kind = given.text("Type") or given.text("AuthorizerType")
    identity = [part.strip() for text in reader.texts("IdentitySource") for part in text.split(",")]
    reader.put("identity", identity)
    if kind in ("TOKEN", "REQUEST"):
        reader.function(given.raw("AuthorizerUri"))
        reader.put("type", "TOKEN" if kind == "TOKEN" else None)
        reader.put("ttl", given.whole("AuthorizerResultTtlInSeconds", 0, authorizers.LONGEST_TTL))
        reader.put("validation", given.text("IdentityValidationExpression") if kind == "TOKEN" else None)
        if not reader.is_rest:
            reader.put("payload", given.text("AuthorizerPayloadFormatVersion"))
            reader.put("simple", reader.flag("EnableSimpleResponses"))
    else:
        given.without_meaning(["AuthorizerResultTtlInSeconds", "IdentityValidationExpression"])
        wanted = given.raw("JwtConfiguration") or {}
        reader.tokens(token_of(Object(wanted, f"JwtConfiguration of {reader.where}", reader.scope, tell)), scopes)
    return reader.close()


def referenced_in(given: object) -> Optional[str]:
    """The logical id in `Ref`, or in the `Fn::GetAtt` of an identifier."""
    if isinstance(given, dict) and len(given) == 1:
        (name, argument), = given.items()
        if name == "Ref" and isinstance(argument, str):
            return argument
        if name == "Fn::GetAtt":
            parts = argument if isinstance(argument, list) else str(argument).split(".")
            return str(parts[0]) if parts else None
    return None


# ---- Serverless ------------------------------------------------------------------------------------------------------


def of_serverless(kind: str, given: Any, listed: Members, scope: Scope, where: str) -> Optional[Members]:
    """That of an event `http`, which is a function, or of an event `httpApi`, which is one of `provider`."""
    if given is None:
        return None
    own = given if isinstance(given, dict) else {"name": given}
    name, is_rest = own.get("name"), kind == "http"
    if str(name).lower() == "aws_iam" or str(own.get("type")).lower() == "aws_iam":
        tell(f"ignores the authorizer aws_iam of {where}, which takes each caller")
        return None
    whole = own if is_rest else listed.get(str(name))
    if whole is None:
        tell(f"ignores the authorizer {excerpt(name)} of {where}, which takes each caller: provider.httpApi has "
             "none of this name")
        return None
    names = {key: value for key, value in scope.functions.items()}
    reader = Reader(whole, f"the authorizer {name or ''} of {where}", is_rest, list(names.values()), scope)
    asked = reader.given
    asked.without_meaning(["name", "claims", "managedExternally", "authorizerId", "scopes", "id"])
    arn, kind_of = asked.raw("arn") or asked.raw("functionArn"), str(asked.raw("type") or "").lower()
    key = name if is_rest else asked.raw("functionName")
    identity = [part.strip() for text in reader.texts("identitySource") for part in text.split(",")]
    reader.put("identity", identity)
    text = str(scope.evaluate_or_reason(arn).value) if arn is not None else ""
    if ":userpool/" in text or not is_rest and kind_of != "request":
        wanted = {"issuer": asked.text("issuerUrl"), "audience": reader.texts("audience")}
        scopes = own.get("scopes")
        reader.tokens(wanted, [str(one) for one in scopes] if isinstance(scopes, list) else [])
        asked.without_meaning(["resultTtlInSeconds", "identityValidationExpression"])
        return reader.close()
    if arn is not None:
        reader.function(arn)
    else:
        reader.made["function"] = names.get(str(key), str(key))
    reader.put("type", "TOKEN" if is_rest and kind_of != "request" else None)
    reader.put("ttl", asked.whole("resultTtlInSeconds", 0, authorizers.LONGEST_TTL))
    if is_rest:
        reader.put("validation", asked.text("identityValidationExpression") if kind_of != "request" else None)
    else:
        reader.put("payload", asked.text("payloadVersion"))
        reader.put("simple", reader.flag("enableSimpleResponses"))
    return reader.close()
