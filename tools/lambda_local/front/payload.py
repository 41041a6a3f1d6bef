"""HTTP requests as events, and results as answers, in payload format 2.0 (Lambda Developer Guide, "Function URLs"; API
Gateway Developer Guide, "Lambda integrations for HTTP APIs")."""
import base64
import binascii
import json
import re
import time
from typing import Dict, List, Optional
from urllib.parse import parse_qsl

from ..configuration import Members
from ..http1 import is_field_value
from .http import OF_CONNECTION, TOKEN, Headers, Reply, Request, every, first

HERE = "127.0.0.1"
TEXTUAL = re.compile(r"text/.*|application/(?:.*\+)?(?:json|xml)|application/javascript")
FRAMING = OF_CONNECTION | {"content-length"}


class Unmappable(Exception):
    """Why a function's result is not an answer."""


def event_of(request: Request, body: bytes, context: Members, parameters: Optional[Dict[str, str]] = None,
             variables: Optional[Dict[str, str]] = None) -> bytes:
    """`context` has the members of requestContext that do not depend on the request."""
    event = {**members_of(request, context, parameters, variables), **body_of(request, body)}
    return json.dumps(event, ensure_ascii=False).encode(errors="replace")


def members_of(request: Request, context: Members, parameters: Optional[Dict[str, str]] = None,
               variables: Optional[Dict[str, str]] = None) -> Dict[str, object]:
    """The members of an event without the body."""
    moment, agent = context["timeEpoch"], first(request.headers, "user-agent")
    path = request.path_with(context["stage"])
    return {
        "version": "2.0", "routeKey": context["routeKey"], "rawPath": path, "rawQueryString": request.query,
        **cookies_of(request), "headers": headers_of(request), **query_of(request),
        "requestContext": {
            **context,
            "http": {"method": request.method, "path": path, "protocol": request.version, "sourceIp": HERE,
                     "userAgent": agent or ""},
            "time": time_in_log(moment), "timeEpoch": moment},
        **({"pathParameters": parameters} if parameters else {}),
        **({"stageVariables": variables} if variables else {})}


def time_in_log(moment: int) -> str:
    """A moment as logs of HTTP have it. (Python knows no year after 9999.)"""
    try:
        return time.strftime("%d/%b/%Y:%H:%M:%S +0000", time.gmtime(moment / 1000))
    except (OverflowError, OSError, ValueError):
        return "-"


def cookies_of(request: Request) -> Dict[str, List[str]]:
    cookies = [cookie.strip() for value in every(request.headers, "cookie") for cookie in value.split(";")
               if cookie.strip()]
    return {"cookies": cookies} if cookies else {}


def headers_of(request: Request) -> Dict[str, str]:
    """Returns headers by their names in lower case; the values of a repeated header are joined by commas."""
    headers: Dict[str, str] = {}
    for name, value in request.headers:
        name = name.lower()
        if name not in OF_CONNECTION and name not in ("cookie", "expect"):
            headers[name] = f"{headers[name]},{value}" if name in headers else value
    headers["x-forwarded-for"] = f"{headers['x-forwarded-for']}, {HERE}" if "x-forwarded-for" in headers else HERE
    headers.setdefault("x-forwarded-proto", "http")
    return headers


def query_of(request: Request) -> Dict[str, Dict[str, str]]:
    query = {name: ",".join(values) for name, values in parameters_in(request.query).items()}
    return {"queryStringParameters": query} if query else {}


def parameters_in(query: str) -> Dict[str, List[str]]:
    """The values of each parameter of a query."""
    found: Dict[str, List[str]] = {}
    for name, value in parse_qsl(query, keep_blank_values=True):
        found.setdefault(name, []).append(value)
    return found


def body_of(request: Request, body: bytes, is_text: Optional[bool] = None) -> Dict[str, object]:
    """As text if its type says that it is one, unless that is known already; else in base64."""
    if not body:
        return {"isBase64Encoded": False}
    kind = (first(request.headers, "content-type") or "").partition(";")[0].strip().lower()
    if is_text is None:
        is_text = TEXTUAL.fullmatch(kind) is not None and not first(request.headers, "content-encoding")
    if is_text:
        try:
            return {"body": body.decode(), "isBase64Encoded": False}
        except UnicodeDecodeError:
            pass
    return {"body": base64.b64encode(body).decode(), "isBase64Encoded": True}


# ---- results ---------------------------------------------------------------------------------------------------------


def read_result(result: bytes) -> object:
    try:
        value: object = json.loads(result)
    except (ValueError, RecursionError):
        raise Unmappable(f"it is not JSON: {result[:60].decode(errors='replace')}") from None
    return value


def reply_of(result: bytes) -> Reply:
    """The answer that a result says, or the result itself as JSON."""
    value = read_result(result)
    if not isinstance(value, dict) or "statusCode" not in value:
        return Reply(200, [("Content-Type", "application/json")], result)
    headers = headers_in(value)
    if first(headers, "content-type") is None:
        headers.append(("Content-Type", "application/json"))
    headers += [("Set-Cookie", cookie) for cookie in cookies_in(value)]
    return Reply(status_in(value), headers, body_in(value))


def status_in(value: Dict[str, object]) -> int:
    status = value["statusCode"]
    if isinstance(status, str) and re.fullmatch("[0-9]{3}", status):
        status = int(status)
    if isinstance(status, bool) or not isinstance(status, int) or not 200 <= status <= 599:
        raise Unmappable(f"statusCode must be a number from 200 to 599, not {json.dumps(status)[:60]}")
    return status


def text_in(value: object, where: str) -> str:
    """A header's value, also given as a number, true or false."""
    text = value if isinstance(value, str) else json.dumps(value) if isinstance(value, (int, float)) else None
    try:
        found = text.encode().decode("latin-1") if text is not None else "\n"
    except UnicodeEncodeError:  # (half a surrogate pair)
        found = "\n"
    if not is_field_value(found):
        raise Unmappable(f"{where} must be a string of one line, not {json.dumps(value)[:60]}")
    return found


def headers_in(value: Dict[str, object]) -> Headers:
    given = value.get("headers")
    if given is None:
        return []
    if not isinstance(given, dict):
        raise Unmappable(f"headers must be an object, not {json.dumps(given)[:60]}")
    if wrong := [name for name in given if not TOKEN.fullmatch(name)]:
        raise Unmappable(f"headers: {json.dumps(wrong[0])[:60]} is not a name of a header")
    return [(name, text_in(text, f"headers: {name}")) for name, text in given.items() if name.lower() not in FRAMING]


def cookies_in(value: Dict[str, object]) -> List[str]:
    given = value.get("cookies")
    if given is None:
        return []
    if not isinstance(given, list):
        raise Unmappable(f"cookies must be a list of strings, not {json.dumps(given)[:60]}")
    return [text_in(cookie, "cookies: each") for cookie in given]


def body_in(value: Dict[str, object]) -> bytes:
    body = value.get("body")
    if body is None:
        return b""
    if not isinstance(body, str):
        raise Unmappable(f"body must be a string, not {json.dumps(body)[:60]}")
    if value.get("isBase64Encoded") is not True:
        return body.encode(errors="replace")
    try:
        return base64.b64decode(body, validate=True)
    except (binascii.Error, ValueError):
        raise Unmappable("body is not Base64, and isBase64Encoded says that it is") from None
