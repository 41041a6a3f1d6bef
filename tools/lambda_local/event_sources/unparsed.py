"""Answers of a server that boto3's client cannot parse, since a record in them is not as its API has it: they are read
as JSON, so that this record alone is left out and its shard goes on."""
import base64
import threading
from typing import Any, Callable, Dict, List, Optional, Union

from ..json_reader import NotJson, read_json
from ..other_server import code_of, one_line

MOST_LEVELS = 60  # of an attribute in others


class Unparsed(Exception):
    """Why a client cannot parse an answer; the answer as JSON has it, if it is JSON."""

    def __init__(self, why: str, answer: object) -> None:
        super().__init__(why)
        self.answer = answer


class Bodies:
    """The bodies of a client's answers to one operation, as they come."""

    def __init__(self, client: Any, operation: str) -> None:
        self.here = threading.local()  # (threads share a client)
        events = getattr(getattr(client, "meta", None), "events", None)
        if events is not None:  # (an older botocore does not say this: then its fault is all there is)
            events.register(f"before-parse.*.{operation}", self._take)

    def _take(self, response_dict: Dict[str, Any], **_: object) -> None:
        self.here.body = response_dict.get("body") if response_dict.get("status_code") == 200 else None

    def asked(self, operation: Callable[..., object], **members: object) -> object:
        """What the operation gives. Raises Unparsed if there is an answer that the client cannot parse."""
        self.here.body = None
        try:
            return operation(**members)
        except Exception as fault:
            body = self.here.body
            if body is None or code_of(fault):
                raise
            try:
                answer = read_json(bytes(body))
            except NotJson:
                raise fault from None
            raise Unparsed(one_line(fault), answer) from fault
        finally:
            self.here.body = None


def moment_in(given: object) -> object:
    """A time of an answer, as the client has it; as it is if that cannot parse it."""
    if not isinstance(given, str):
        return given
    from botocore.utils import parse_timestamp  # type: ignore
    try:
        return parse_timestamp(given)
    except Exception:  # (whatever it makes of it)
        return given


def bytes_in(given: object) -> Union[bytes, object]:
    """Bytes, as the client has them; as it is if that is not base64."""
    try:
        return base64.b64decode(given) if isinstance(given, str) else given
    except ValueError:
        return given


def attribute_in(given: object, level: int = 0) -> Dict[str, object]:
    """An attribute of a table's item, as the client has it. ValueError for what is none."""
    if not isinstance(given, dict) or level > MOST_LEVELS:
        raise ValueError("no attribute")
    return {kind: value_in(kind, value, level) for kind, value in given.items()}


def value_in(kind: str, value: object, level: int) -> object:
    if kind == "B" and isinstance(value, str):
        return base64.b64decode(value)
    if kind == "BS" and isinstance(value, list):
        return [base64.b64decode(one) for one in value]
    if kind == "M" and isinstance(value, dict):
        return {name: attribute_in(one, level + 1) for name, one in value.items()}
    if kind == "L" and isinstance(value, list):
        return [attribute_in(one, level + 1) for one in value]
    return value


def of_kinesis(given: object) -> object:
    """A record in JSON as the client has it, or as it is."""
    if not isinstance(given, dict):
        return given
    return {**given, "Data": bytes_in(given.get("Data")),
            "ApproximateArrivalTimestamp": moment_in(given.get("ApproximateArrivalTimestamp"))}


def of_dynamo_db(given: object, images: List[str]) -> object:
    """A record in JSON as the client has it, or None for one whose items are none. `images` names these."""
    if not isinstance(given, dict) or not isinstance(change := given.get("dynamodb"), dict):
        return given
    read: Dict[str, Optional[object]] = {**change, "ApproximateCreationDateTime": moment_in(
        change.get("ApproximateCreationDateTime"))}
    for name in images:
        if isinstance(items := change.get(name), dict):
            try:
                read[name] = {item: attribute_in(value) for item, value in items.items()}
            except (ValueError, TypeError):
                read[name] = None
    return {**given, "dynamodb": read}
