"""The claims of a token (RFC 7519), whose signature is not checked: who has made it is not known here."""
import base64
import binascii
import json
import re
import time
from typing import Dict, List, Optional

from ..configuration import Members
from ..json_reader import NotJson, read_json

LONGEST = 16 << 10  # characters
PART = re.compile("[A-Za-z0-9_-]+")


class WrongToken(Exception):
    """Why a token counts for nothing."""


def object_in(part: str, what: str) -> Members:
    try:
        value = read_json(base64.urlsafe_b64decode(part + "=" * (-len(part) % 4)))
    except (binascii.Error, NotJson, ValueError):
        raise WrongToken(f"its {what} is not JSON in Base64") from None
    if not isinstance(value, dict):
        raise WrongToken(f"its {what} is not an object")
    return value


def claims_of(token: str, wanted: Members, now: Optional[float] = None) -> Members:
    """The claims of a token that is in force, of this issuer and for one of this audience; WrongToken says why not."""
    parts = token.split(".")
    if len(token) > LONGEST or len(parts) != 3 or not all(map(PART.fullmatch, parts)):
        raise WrongToken("it is not three parts of Base64 with dots between them")
    object_in(parts[0], "header")
    claims, moment = object_in(parts[1], "payload"), time.time() if now is None else now
    if moment_in(claims, "exp", moment + 1) <= moment:
        raise WrongToken("it has expired")
    if moment_in(claims, "nbf", moment) > moment:
        raise WrongToken("it does not count yet")
    if "issuer" in wanted and claims.get("iss") != wanted["issuer"]:
        raise WrongToken(f"its issuer is {json.dumps(claims.get('iss'))[:100]}")
    if wanted.get("audience"):
        given = claims.get("aud", claims.get("client_id"))
        if not set(map(str, given if isinstance(given, list) else [given])) & set(wanted["audience"]):
            raise WrongToken(f"its audience is {json.dumps(given)[:100]}")
    return claims


def moment_in(claims: Members, name: str, otherwise: float) -> float:
    value = claims.get(name, otherwise)
    if isinstance(value, bool) or not isinstance(value, (int, float)):
        raise WrongToken(f"its {name} is not a number")
    return value


def scopes_of(claims: Members) -> List[str]:
    given = claims.get("scope", claims.get("scp"))
    return [str(one) for one in given] if isinstance(given, list) else given.split() if isinstance(given, str) else []


def as_texts(claims: Members) -> Dict[str, str]:
    """Claims as an event has them: each is a text."""
    return {name: value if isinstance(value, str) else f"[{' '.join(map(text_of, value))}]" if isinstance(value, list)
            else text_of(value) for name, value in claims.items()}


def text_of(value: object) -> str:
    return value if isinstance(value, str) else json.dumps(value, ensure_ascii=False)
