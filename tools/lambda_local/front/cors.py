"""Cross-origin requests, as the configuration of a Function URL or an HTTP API allows them."""
from typing import Optional

from .http import Headers, Reply, Request, first
from .settings import Cors

PREFIX = "access-control-"


def is_preflight(request: Request) -> bool:
    return (request.method == "OPTIONS" and first(request.headers, "origin") is not None
            and first(request.headers, "access-control-request-method") is not None)


def allowed_origin(cors: Cors, origin: str) -> Optional[str]:
    """What Access-Control-Allow-Origin says; none if this origin may not."""
    for allowed in cors.origins:
        if allowed == "*":
            return origin if cors.credentials else "*"
        if allowed == origin or allowed.endswith("*") and origin.startswith(allowed[:-1]):
            return origin
    return None


def of_answer(cors: Cors, origin: Optional[str]) -> Headers:
    allowed = allowed_origin(cors, origin) if origin is not None else None
    headers = [] if cors.origins == ("*",) and not cors.credentials else [("Vary", "Origin")]
    if allowed is None:
        return headers
    headers.append(("Access-Control-Allow-Origin", allowed))
    if cors.credentials:
        headers.append(("Access-Control-Allow-Credentials", "true"))
    if cors.exposed:
        headers.append(("Access-Control-Expose-Headers", ",".join(cors.exposed)))
    return headers


def preflight(cors: Cors, request: Request, status: int) -> Reply:
    """The answer to a browser that asks first."""
    origin = first(request.headers, "origin")
    headers = of_answer(cors, origin)
    if origin is None or allowed_origin(cors, origin) is None:
        return Reply(status, headers)
    asked = first(request.headers, "access-control-request-headers")
    for name, values, wish in (("Methods", cors.methods, first(request.headers, "access-control-request-method")),
                               ("Headers", cors.headers, asked)):
        # (a browser that sends credentials does not read * as each)
        text = wish if "*" in values and wish else ",".join(values)
        if text:
            headers.append((f"Access-Control-Allow-{name}", text))
    if cors.seconds is not None:
        headers.append(("Access-Control-Max-Age", str(cors.seconds)))
    return Reply(status, headers)


def with_cors(cors: Cors, request: Request, reply: Reply) -> Reply:
    """An answer with these headers in place of the function's own."""
    kept = [(name, value) for name, value in reply.headers if not name.lower().startswith(PREFIX)]
    return reply._replace(headers=kept + of_answer(cors, first(request.headers, "origin")))
