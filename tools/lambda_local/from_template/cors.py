"""What a template says of cross-origin requests, as UP.json has it."""
from typing import Callable, Optional

from ..configuration import Members
from ..front import settings
from .messages import excerpt
from .shared import Unknown
from .values import NO_VALUE, Scope

Tell = Callable[[str], None]  # takes a line on what is left out
ANY_SITE: Members = {"allowOrigins": ["*"], "allowHeaders": ["*"], "allowMethods": ["*"]}
OTHER_NAMES = {"allowedOrigins": "allowOrigins", "allowedHeaders": "allowHeaders", "allowedMethods": "allowMethods",
               "exposedResponseHeaders": "exposeHeaders"}
# Of a REST API: the names that SAM and Serverless have, and those of the headers of a method OPTIONS
OF_REST = {"AllowOrigin": "allowOrigins", "AllowHeaders": "allowHeaders", "AllowMethods": "allowMethods",
           "AllowCredentials": "allowCredentials", "MaxAge": "maxAge", "origin": "allowOrigins",
           "origins": "allowOrigins", "headers": "allowHeaders", "methods": "allowMethods",
           "allowCredentials": "allowCredentials", "maxAge": "maxAge", "ExposeHeaders": "exposeHeaders",
           "exposedResponseHeaders": "exposeHeaders"}
# What Serverless allows if an event says no more than that it may
SERVERLESS_HEADERS = ["Content-Type", "X-Amz-Date", "Authorization", "X-Api-Key", "X-Amz-Security-Token",
                      "X-Amz-User-Agent", "X-Amzn-Trace-Id"]


def evaluate(given: object, where: str, scope: Scope, tell: Tell) -> object:
    """The value of a Cors; None, with a report, if it is not known here."""
    try:
        given, placeholders = scope.evaluate(given)
    except Unknown as reason:
        tell(f"ignores the Cors of {where}: it needs {reason}")
        return None
    if placeholders:
        tell(f"the Cors of {where} has a placeholder for {' and '.join(placeholders)}: write its value into UP.json")
    return None if given is NO_VALUE else given


def accepted_members(given: Members, names: Callable[[str], str], where: str, tell: Tell) -> Optional[Members]:
    """The members that UP.json takes."""
    cors: Members = {}
    for name, value in given.items():
        member = names(str(name))
        if member in settings.OF_CORS and settings.OF_CORS[member].accepts(value):
            cors[member] = value
        else:
            tell(f"ignores {member} of the Cors of {where}: {excerpt(value)}")
    return cors or None


def cors_of(given: object, where: str, scope: Scope, tell: Tell) -> Optional[Members]:
    """Returns the member `cors` of the Cors of a Function URL or an HTTP API in one of its forms; None if it allows no
    site. Reports what it ignores."""
    given = evaluate(given, where, scope, tell)
    if given is True:  # (any site)
        return ANY_SITE
    if isinstance(given, str):  # (SAM: the one site)
        return {"allowOrigins": [given]}
    if not isinstance(given, dict):
        return None
    return accepted_members(given, lambda name: OTHER_NAMES.get(name, name[:1].lower() + name[1:]), where, tell)


def rest_cors_of(given: object, where: str, scope: Scope, tell: Tell) -> Optional[Members]:
    """The same of a REST API, whose values are texts in quotes: they are the headers of a method OPTIONS."""
    given = evaluate(given, where, scope, tell)
    if given is True:
        return {**ANY_SITE, "allowHeaders": SERVERLESS_HEADERS}
    if isinstance(given, str):
        given = {"AllowOrigin": given}
    if not isinstance(given, dict):
        return None
    cors = accepted_members({name: plain(OF_REST.get(str(name)), value) for name, value in given.items()},
                            lambda name: OF_REST.get(name, name), where, tell)
    return {"allowMethods": ["*"], **cors} if cors else None


def plain(member: Optional[str], value: object) -> object:
    """A value without its quotes, of the type that UP.json has for it."""
    text = value.strip().strip("'") if isinstance(value, str) else value
    if member in ("allowOrigins", "allowHeaders", "allowMethods", "exposeHeaders") and isinstance(text, str):
        return [part.strip() for part in text.split(",") if part.strip()]
    if member == "allowCredentials" and text in ("true", "false"):
        return text == "true"
    if member == "maxAge" and isinstance(text, str) and text.isascii() and text.isdigit() and len(text) < 9:
        return int(text)
    return value
