"""Which requests are taken that do not come to the service first: by its own rule (docs/formats.md;
crates/request_guard), those of programs on this machine, and not of sites that a browser shows. A name of theirs that
leads to this machine is in `Host`, and they themselves are in `Origin`."""
import os
import re
from typing import Collection, Mapping, NamedTuple, Optional, Set

from ..http1 import Headers, Request, every

LOCAL_ENDINGS = (".localhost", ".internal", ".local", ".localdomain")
VARIABLE = "LAMBDA_LOCAL_HOSTS"  # further names, between commas
HOST = re.compile(r"(?:\[[0-9A-Fa-f:.]+\]|([A-Za-z0-9._~%!$&'()*+,;=-]*))(?::[0-9]*)?")
OWN_SITES = ("none", "same-origin")


class Refusal(NamedTuple):
    status: int
    kind: str  # the service's, at its invoke port
    message: str


MALFORMED_HOST = Refusal(400, "InvalidParameterValueException", "Host is malformed")
FROM_PAGE = Refusal(403, "AccessDeniedException", "Web pages may not call this service")
PAGE_ADVICE = "web pages may not call this service; call it from a program"  # (as in the service's log)
FOREIGN_HOST = Refusal(403, "AccessDeniedException", f"Host is neither local nor in {VARIABLE}")
FOREIGN_CODING = Refusal(501, "NotImplemented", "Transfer coding not supported")


def further_hosts(environ: Mapping[str, str] = os.environ) -> Set[str]:
    return {name.lower() for name in environ.get(VARIABLE, "").split(",") if name}


def is_local(name: str, further: Collection[str]) -> bool:
    name = name.lower()
    name = name[:-1] if name.endswith(".") else name
    return name != "" and ("." not in name or re.fullmatch(r"[0-9.]+", name) is not None or name.endswith(LOCAL_ENDINGS)
                           or name in further)


def wrong_host(head: Request, further: Collection[str]) -> Optional[Refusal]:
    """What is wrong with the host that a request names; none if it is local. What its target names counts before its
    Host (RFC 9112, section 3.2.2)."""
    named = head.parts.authority
    if named is None:
        named = next(iter(every(head.headers, "host")), None)
    if named is None:
        return None
    match = HOST.fullmatch(named)
    if match is None:
        return MALFORMED_HOST
    return None if match[1] is None or is_local(match[1], further) else FOREIGN_HOST


def is_from_page(headers: Headers) -> bool:
    return bool(every(headers, "origin")) or any(site not in OWN_SITES for site in every(headers, "sec-fetch-site"))


def is_plainly_coded(headers: Headers) -> bool:
    codings = every(headers, "transfer-encoding")
    return not codings or len(codings) == 1 and codings[0].lower() == "chunked"


def refusal_of(head: Request, further: Collection[str]) -> Optional[Refusal]:
    """Why a request is not taken; the first cause that holds, in the service's order."""
    wrong = wrong_host(head, further)
    if wrong is MALFORMED_HOST:
        return wrong
    if is_from_page(head.headers):
        return FROM_PAGE
    if wrong is not None:
        return wrong
    return None if is_plainly_coded(head.headers) else FOREIGN_CODING
