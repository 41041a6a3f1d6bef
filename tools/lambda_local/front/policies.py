"""What the policy of a Lambda authorizer says of a request (API Gateway Developer Guide, "Output from an API Gateway
Lambda authorizer"; IAM User Guide, "Policy evaluation logic")."""
import enum
import re
from typing import Dict, Iterator, List

ACTION = "execute-api:Invoke"
MOST_STATEMENTS, MOST_PATTERNS = 1000, 1000


class WrongPolicy(Exception):
    """Why a policy cannot be read."""


class Verdict(enum.Enum):
    ALLOWED, DENIED, NOT_ALLOWED = range(3)  # by a statement, by a statement, by none


def matches(pattern: str, text: str) -> bool:
    """Whether a text is as the pattern has it, in which * is any text and ? any character. (What is between two * is
    looked for once, at the first place where it is: so a function that authorizes holds up nobody by its patterns.)"""
    first, *others = pattern.split("*")
    if not others:
        return len(text) == len(first) and fits(first, text, 0)
    *middle, last = others
    place, end = len(first), len(text) - len(last)
    if place > end or not fits(first, text, 0) or not fits(last, text, end):
        return False
    for part in filter(None, middle):
        place = found(part, text, place, end)
        if place < 0:
            return False
        place += len(part)
    return True


def fits(part: str, text: str, at: int) -> bool:
    """Whether a part without a * is in the text at this place."""
    if "?" not in part:
        return text.startswith(part, at)
    return all(letter in ("?", other) for letter, other in zip(part, text[at:at + len(part)]))


def found(part: str, text: str, begin: int, end: int) -> int:
    """The first place between these at which a part without a * is; -1 if there is none."""
    if "?" not in part:
        return text.find(part, begin, end)
    match = re.compile(re.escape(part).replace(r"\?", "."), re.DOTALL).search(text, begin, end)
    return match.start() if match else -1


def texts_in(statement: Dict[str, object], name: str) -> List[str]:
    given = statement.get(name)
    listed = given if isinstance(given, list) else [given]
    if not listed or len(listed) > MOST_PATTERNS or not all(isinstance(one, str) for one in listed):
        raise WrongPolicy(f"{name} of a statement must be a string, or a list of strings")
    return [str(one) for one in listed]


def is_about(statement: Dict[str, object], name: str, text: str, folds: bool = False) -> bool:
    """Whether a statement is about an action or a resource, by `Name` or `NotName`."""
    inverse = f"Not{name}"
    if (name in statement) == (inverse in statement):
        raise WrongPolicy(f"a statement must have {name}")
    patterns = texts_in(statement, name if name in statement else inverse)
    found = any(matches(pattern.lower(), text.lower()) if folds else matches(pattern, text) for pattern in patterns)
    return found == (name in statement)


def statements_in(document: object) -> Iterator[Dict[str, object]]:
    given = document.get("Statement") if isinstance(document, dict) else None
    listed = given if isinstance(given, list) else [given]
    if not listed or len(listed) > MOST_STATEMENTS:
        raise WrongPolicy(f"a policy has 1 to {MOST_STATEMENTS} statements")
    for statement in listed:
        if not isinstance(statement, dict) or statement.get("Effect") not in ("Allow", "Deny"):
            raise WrongPolicy("policyDocument must have a Statement, each with the Effect Allow or Deny")
        yield statement


def verdict_of(document: object, arn: str) -> Verdict:
    """What a policy says of this method. A Deny counts before an Allow. What a condition says is not known here: with
    one, a statement denies and does not allow."""
    verdict = Verdict.NOT_ALLOWED
    for statement in statements_in(document):
        if not (is_about(statement, "Action", ACTION, folds=True) and is_about(statement, "Resource", arn)):
            continue
        if statement["Effect"] == "Deny":
            verdict = Verdict.DENIED
        elif "Condition" not in statement and verdict is Verdict.NOT_ALLOWED:
            verdict = Verdict.ALLOWED
    return verdict
