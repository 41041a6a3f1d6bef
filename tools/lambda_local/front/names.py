"""The name and the qualifier of an Invoke, which the service hands over whether or not it knows the function."""
import re
from typing import List, Optional, Tuple
from urllib.parse import parse_qsl, quote, unquote

from ..exchange.client import Client
from .errors import MALFORMED_NAME, NOT_FOUND
from .http import Headers, Reply

LATEST = "$LATEST"
# A name, or an ARN whole or in part, with a qualifier
QUALIFIED = re.compile(r"((?:(?:arn:aws:lambda:[^:]*:)?[^:]+:function:)?[^:]+):([^:]+)")
QUALIFIER = re.compile(r"\$LATEST|[A-Za-z0-9_-]{1,128}")  # (as the service has it)
OF_REFUSALS = ("content-type", "x-amzn-errortype", "x-amzn-requestid")


def refusal_by_service(status: int, headers: Headers, body: bytes) -> Reply:
    """Returns the service's own refusal, with the headers that belong to it."""
    return Reply(status, [(name, value) for name, value in headers if name.lower() in OF_REFUSALS], body)


def parted(target: str) -> Tuple[str, List[str]]:
    """The name in an Invoke's target without its qualifier, as it is in a path, and the qualifiers."""
    path, _, query = target.partition("?")
    name = unquote(path.split("/")[3])
    given = [value for key, value in parse_qsl(query, keep_blank_values=True) if key == "Qualifier"][:1]
    found = QUALIFIED.fullmatch(name)
    return (quote(found[1], safe=":$"), [found[2], *given]) if found else (path.split("/")[3], given)


async def unknown(client: Client, target: str) -> Optional[Reply]:
    """What the service answers to an Invoke of this name and qualifier; none if it knows the function. It is asked for
    the function's reservation, which it never hands over, and whose name has no qualifier."""
    name, qualifiers = parted(target)
    if not all(map(QUALIFIER.fullmatch, qualifiers)):
        return MALFORMED_NAME
    status, headers, body = await client.ask("GET", f"/2019-09-30/functions/{name}/concurrency")
    if status != 200:
        return refusal_by_service(status, headers, body)
    return None if all(qualifier == LATEST for qualifier in qualifiers) else NOT_FOUND
