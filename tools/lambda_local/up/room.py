"""How many environments each function has that does not say it, within the 256 of a service."""
from typing import Dict, List, Tuple, Union

from ..configuration import Members

MOST_IN_ALL = 256
MOST_BY_DEFAULT = 10  # of a function: one that is started, and those that parallel callers need


def most_of(given: Union[int, Members]) -> int:
    """The most environments that a function's member `environments` allows."""
    return int(given.get("max", max(1, given.get("min", 1)))) if isinstance(given, dict) else int(given)


def count_of(member: Members) -> int:
    """The most environments of a function that says how many."""
    if "ports" in member:
        return len(member["ports"])
    return most_of(member.get("environments", 1))


def is_open(member: Members) -> bool:
    """Whether lambda_local up decides. (A runtime that somebody starts by hand is started for each environment.)"""
    return "environments" not in member and "ports" not in member and ("command" in member or "runtime" in member)


def with_environments(functions: List[Members]) -> Tuple[List[Members], List[str]]:
    """The functions with their environments, and what is to be said: one is started, and further ones, up to ten or as
    many as the function reserves, once they are needed."""
    taken = sum(count_of(member) for member in functions if not is_open(member))
    wanted: Dict[str, int] = {member["name"]: member.get("reserved") or MOST_BY_DEFAULT
                              for member in functions if is_open(member)}
    most = max([1, *wanted.values()])
    while most > 1 and taken + sum(min(count, most) for count in wanted.values()) > MOST_IN_ALL:
        most -= 1
    made, notes = [], []
    for member in functions:
        if member["name"] not in wanted or not is_open(member):
            made.append(member)
            continue
        count = min(wanted[member["name"]], most)
        more: Members = {"environments": {"min": 1, "max": count}}
        if member.get("reserved", 0) > count:
            more["reserved"] = count
            notes.append(f"{member['name']} reserves {count}, and not {member['reserved']}: {MOST_IN_ALL} environments "
                         "are the most in all")
        made.append({**member, **more})
    if any(min(count, MOST_BY_DEFAULT) > most for count in wanted.values()):
        notes.insert(0, f"each function has up to {most} environment{'s' * (most > 1)}, and not {MOST_BY_DEFAULT}: "
                        f"{MOST_IN_ALL} are the most in all")
    return made, notes
