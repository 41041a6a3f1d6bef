"""Which polls wait in a service, as it says itself (docs/trace.md)."""
import json
from typing import Any, Dict, List, NamedTuple, Set

from lambda_local.service import ask

from .kit import Missing

PATH = "/_local/environments"


class Parked(NamedTuple):
    runtimes: Set[int]  # the numbers of the environments whose runtime waits
    extensions: Dict[int, int]  # by environments, how many of its extensions wait


def parked(port: int) -> Parked:
    """The polls that wait now; Missing if the service does not say it."""
    status, _, body = ask(port, "GET", PATH)
    try:
        environments: List[Dict[str, Any]] = json.loads(body)["environments"]
        return Parked({one["environment"] for one in environments if "poll" in one},
                      {one["environment"]: sum("poll" in extension for extension in one["extensions"])
                       for one in environments})
    except (ValueError, TypeError, KeyError):
        raise Missing(f"GET {PATH}: {status} {body[:200].decode(errors='replace')}") from None
