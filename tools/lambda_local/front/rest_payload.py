"""HTTP requests as events, and results as answers, in payload format 1.0: as a REST API has it (API Gateway Developer
Guide, "Set up Lambda proxy integrations"), and an HTTP API ("Create AWS Lambda proxy integrations for HTTP APIs")."""
import json
import re
from typing import Callable, Dict, List, Mapping, Optional

from ..configuration import Members
from .http import OF_CONNECTION, TOKEN, Headers, Reply, Request, every, first
from .payload import (FRAMING, HERE, Unmappable, body_in, body_of, headers_in, parameters_in, read_result, status_in,
                      time_in_log,
                      text_in)
from .settings import Integration

MEMBERS = ("statusCode", "headers", "multiValueHeaders", "body", "isBase64Encoded")  # of a result
UNKNOWN_IDENTITY = ("accessKey", "accountId", "caller", "cognitoAuthenticationProvider", "cognitoAuthenticationType",
                    "cognitoIdentityId", "cognitoIdentityPoolId", "principalOrgId", "user", "userArn")
ANY_TYPE = "*/*"
Tell = Callable[[str], None]  # takes a sentence on what is lost


def event_of(request: Request, body: bytes, context: Members, parameters: Optional[Dict[str, str]],
             integration: Integration, tell: Tell) -> bytes:
    """`context` has the members of requestContext that do not depend on the request. `tell` takes a sentence on what
    is lost."""
    no_body: Dict[str, object] = {"body": None}
    event = {**members_of(request, context, parameters, integration),
             **(body_of_rest(request, body, integration, tell) if integration.is_rest
                else {**no_body, **body_of(request, body)})}
    return json.dumps(event, ensure_ascii=False).encode(errors="replace")


def members_of(request: Request, context: Members, parameters: Optional[Dict[str, str]],
               integration: Integration) -> Dict[str, object]:
    """The members of an event without the body."""
    key = context["routeKey"]
    resource = key.partition(" ")[2] or key
    headers, query = headers_of(request, integration.is_rest), parameters_in(request.query)
    return {
        **({} if integration.is_rest else {"version": "1.0"}),
        "resource": resource, "httpMethod": request.method,
        "path": request.path if integration.is_rest else request.path_with(integration.stage),
        "headers": last_of_each(headers), "multiValueHeaders": headers,
        "queryStringParameters": last_of_each(query) or None, "multiValueQueryStringParameters": query or None,
        "pathParameters": parameters or None, "stageVariables": integration.variables or None,
        "requestContext": context_of(request, context, resource, integration)}


def last_of_each(values: Mapping[str, List[str]]) -> Dict[str, str]:
    return {name: given[-1] for name, given in values.items()}


def capitalized(name: str) -> str:
    """A header's name as it is usually written. (As it was sent the service does not hand it over.)"""
    return "-".join(word[:1].upper() + word[1:] for word in name.split("-"))


def headers_of(request: Request, is_rest: bool) -> Dict[str, List[str]]:
    """Returns the values of each header under its name, for a REST API in capitals, else in lower case."""
    found: Dict[str, List[str]] = {}
    for name, value in request.headers:
        if name.lower() not in OF_CONNECTION and name.lower() != "expect":
            found.setdefault(name.lower(), []).append(value)
    before = ", ".join(every(request.headers, "x-forwarded-for"))
    found["x-forwarded-for"] = [f"{before}, {HERE}" if before else HERE]
    found.setdefault("x-forwarded-proto", ["http"])
    port = re.search(r":([0-9]+)$", first(request.headers, "host") or "")
    found.setdefault("x-forwarded-port", [port[1] if port else "80"])
    return {capitalized(name) if is_rest else name: values for name, values in found.items()}


def context_of(request: Request, context: Members, resource: str, integration: Integration) -> Dict[str, object]:
    moment, is_rest = context["timeEpoch"], integration.is_rest
    identity: Dict[str, Optional[str]] = {**dict.fromkeys(UNKNOWN_IDENTITY), "sourceIp": HERE,
                "userAgent": first(request.headers, "user-agent") or "",
                **({"apiKey": first(request.headers, "x-api-key")} if is_rest else {"clientCert": None})}
    members = {name: value for name, value in context.items() if name not in ("routeKey", "timeEpoch")}
    return {
        **({} if is_rest else {"authorizer": {"claims": None, "scopes": None}}), **members,
        "extendedRequestId": context["requestId"], "httpMethod": request.method, "identity": identity,
        "path": request.path_with(integration.stage), "protocol": request.version,
        "requestTime": time_in_log(moment), "requestTimeEpoch": moment,
        "resourceId": "local" if is_rest else None, "resourcePath": resource, "stage": integration.stage}


def media_type(value: Optional[str]) -> str:
    return (value or "").partition(";")[0].strip().lower()


def is_binary(kind: str, integration: Integration) -> bool:
    return ANY_TYPE in integration.binary or kind in integration.binary


def body_of_rest(request: Request, body: bytes, integration: Integration, tell: Tell) -> Dict[str, object]:
    """In base64 if its type is one of the API's binary media types, else as text."""
    if not body:
        return {"body": None, "isBase64Encoded": False}
    kind = media_type(first(request.headers, "content-type")) or "application/json"
    if is_binary(kind, integration):
        return body_of(request, body, is_text=False)
    try:
        text = body.decode()
    except UnicodeDecodeError:
        tell(f"its body is not UTF-8, and {kind[:60]} is not in binaryMediaTypes: other bytes are replaced")
        text = body.decode(errors="replace")
    return {"body": text, "isBase64Encoded": False}


# ---- results ---------------------------------------------------------------------------------------------------------


def reply_of(result: bytes, request: Request, integration: Integration, tell: Tell) -> Reply:
    """The answer that a result says; Unmappable for a result of another form."""
    value = read_result(result)
    if not isinstance(value, dict) or "statusCode" not in value:
        raise Unmappable("it must be an object with a statusCode, as format 1.0 has it")
    if integration.is_rest and (others := [name for name in value if name not in MEMBERS]):
        raise Unmappable(f"it has the member {json.dumps(others[0])[:60]}: format 1.0 has {', '.join(MEMBERS)}")
    headers = merged(headers_in(value), multiple_in(value))
    if first(headers, "content-type") is None:
        headers.append(("Content-Type", "application/json"))
    if integration.is_rest and value.get("isBase64Encoded") is True and not is_binary(accepted(request), integration):
        tell("its result is sent as the base64 that it is, since the type that Accept names first is not in "
             "binaryMediaTypes")
        value = {**value, "isBase64Encoded": False}
    return Reply(status_in(value), headers, body_in(value))


def accepted(request: Request) -> str:
    """The type that a request would have first."""
    return media_type((first(request.headers, "accept") or "").partition(",")[0]) or "application/json"


def multiple_in(value: Dict[str, object]) -> Headers:
    """The member multiValueHeaders, one pair for each value."""
    given = value.get("multiValueHeaders")
    if given is None:
        return []
    if not isinstance(given, dict) or not all(isinstance(values, list) for values in given.values()):
        raise Unmappable(f"multiValueHeaders must be an object of lists, not {json.dumps(given)[:60]}")
    if wrong := [name for name in given if not TOKEN.fullmatch(name)]:
        raise Unmappable(f"multiValueHeaders: {json.dumps(wrong[0])[:60]} is not a name of a header")
    return [(name, text_in(text, f"multiValueHeaders: each of {name}")) for name, values in given.items()
            for text in values if name.lower() not in FRAMING]


def merged(single: Headers, multiple: Headers) -> Headers:
    """Both members as one list, in which a pair that both have comes once."""
    seen = {(name.lower(), value) for name, value in multiple}
    return [pair for pair in single if (pair[0].lower(), pair[1]) not in seen] + multiple
