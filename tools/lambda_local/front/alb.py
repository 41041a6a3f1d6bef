"""A rule of an Application Load Balancer: HTTP requests as its events, and results as answers (Elastic Load Balancing,
User Guide for Application Load Balancers, "Use Lambda functions as targets of an Application Load Balancer")."""
import json
import re
from typing import Dict, List, Optional

from ..configuration import Members
from .formats import OfHttpApi
from .http import OF_CONNECTION, PHRASES, Reply, Request, every, first
from .payload import HERE, Unmappable, body_in, body_of, headers_in, read_result, status_in
from .rest_payload import Tell, last_of_each, multiple_in
from .settings import Integration

MOST = 1 << 20  # bytes of a request's body, and of a result
TEXTUAL = re.compile(r"text/.*|application/(?:json|javascript|xml)")


def page(status: int) -> Reply:
    """The balancer's own answer."""
    words = f"{status} {PHRASES[status]}"
    text = (f"<html>\r\n<head><title>{words}</title></head>\r\n<body>\r\n<center><h1>{words}</h1></center>\r\n</body>"
            "\r\n</html>\r\n")
    return Reply(status, [("Content-Type", "text/html")], text.encode())


def headers_of(request: Request) -> Dict[str, List[str]]:
    """The values of each header by its name in lower case."""
    found: Dict[str, List[str]] = {}
    for name, value in request.headers:
        if name.lower() not in OF_CONNECTION and name.lower() != "expect":
            found.setdefault(name.lower(), []).append(value)
    before = ", ".join(every(request.headers, "x-forwarded-for"))
    port = re.search(r":([0-9]+)$", first(request.headers, "host") or "")
    return {**found, "x-forwarded-for": [f"{before}, {HERE}" if before else HERE], "x-forwarded-proto": ["http"],
            "x-forwarded-port": [port[1] if port else "80"]}


def parameters_of(query: str) -> Dict[str, List[str]]:
    """The values of each parameter, which stay encoded."""
    found: Dict[str, List[str]] = {}
    for part in filter(None, query.split("&")):
        name, _, value = part.partition("=")
        found.setdefault(name, []).append(value)
    return found


class OfBalancer(OfHttpApi):
    longest = MOST
    replaces_cors = False

    def __init__(self, integration: Integration, region: str) -> None:
        super().__init__(integration)
        self.region = region

    def event(self, request: Request, body: bytes, context: Members, parameters: Optional[Dict[str, str]],
              tell: Tell) -> bytes:
        arn = (f"arn:aws:elasticloadbalancing:{self.region}:{context['accountId']}:targetgroup/local/"
               "0123456789abcdef")
        headers, query = headers_of(request), parameters_of(request.query)
        kind = (first(request.headers, "content-type") or "").partition(";")[0].strip().lower()
        is_text = TEXTUAL.fullmatch(kind) is not None and not first(request.headers, "content-encoding")
        given: Dict[str, object] = {"queryStringParameters": last_of_each(query), "headers": last_of_each(headers)}
        if self.integration.is_multiple:
            given = {"multiValueQueryStringParameters": query, "multiValueHeaders": headers}
        event: Dict[str, object] = {
            "requestContext": {"elb": {"targetGroupArn": arn}}, "httpMethod": request.method, "path": request.path,
            **given, "body": "", **body_of(request, body, is_text)}
        return json.dumps(event, ensure_ascii=False).encode(errors="replace")

    def reply(self, result: bytes, request: Request, tell: Tell) -> Reply:
        if len(result) > MOST:
            raise Unmappable(f"it has {len(result)} bytes, and {MOST} are the most behind a load balancer")
        value = read_result(result)
        if not isinstance(value, dict) or "statusCode" not in value:
            raise Unmappable("it must be an object with a statusCode")
        name, other = ("multiValueHeaders", "headers") if self.integration.is_multiple else (
            "headers", "multiValueHeaders")
        if value.get(other):
            tell(f"its result has {other}, which does not count: \"multiValueHeaders\" is "
                 f"{json.dumps(self.integration.is_multiple)}, so it must be {name}")
        headers = multiple_in(value) if self.integration.is_multiple else headers_in(value)
        if first(headers, "content-type") is None:
            headers.append(("Content-Type", "application/octet-stream"))
        return Reply(status_in(value), headers, body_in(value))

    @staticmethod
    def failure_reply() -> Reply:
        return page(502)

    @staticmethod
    def throttle_reply(result: bytes) -> Reply:
        return page(502)

    @staticmethod
    def no_route_reply() -> Reply:
        """(Here the last rule has a fixed response.)"""
        return page(404)

    @staticmethod
    def no_stage_reply() -> Reply:
        return page(404)
