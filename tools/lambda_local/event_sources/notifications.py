"""What SNS puts into a queue, and the event that Lambda makes of it (Developer Guide, "Invoking Lambda functions with
Amazon SNS notifications"; SNS Developer Guide, "Parsing message formats")."""
from typing import Any, Dict, NamedTuple, Optional

from ..json_reader import members_of

LONGEST = 1 << 20  # bytes of a message (SNS has 256 KiB)
NOTIFICATION, CONFIRMATION = "Notification", "SubscriptionConfirmation"
URLS = {"SigningCertURL": "SigningCertUrl", "UnsubscribeURL": "UnsubscribeUrl"}


class Confirmation(NamedTuple):
    """A subscription is to be confirmed by this token."""
    token: str


class Notification(NamedTuple):
    message: str  # its identifier
    event: Dict[str, Any]


def texts_in(given: Dict[str, Any], *names: str) -> bool:
    return all(isinstance(given.get(name), str) for name in names)


def are_attributes(given: object) -> bool:
    return isinstance(given, dict) and all(isinstance(one, dict) and texts_in(one, "Type", "Value")
                                           for one in given.values())


def read(text: object, subscription: str) -> "Optional[Notification | Confirmation]":
    """What a message of the queue is; none if it is neither."""
    if not isinstance(text, str):
        return None
    given = members_of(text, LONGEST)
    if given is None:
        return None
    if given.get("Type") == CONFIRMATION and texts_in(given, "Token"):
        return Confirmation(given["Token"])
    attributes = given.get("MessageAttributes") or {}
    if (given.get("Type") != NOTIFICATION or not texts_in(given, "MessageId", "TopicArn", "Message", "Timestamp")
            or not isinstance(given.get("Subject"), (str, type(None))) or not are_attributes(attributes)):
        return None
    return Notification(given["MessageId"], {"Records": [{
        "EventVersion": "1.0", "EventSubscriptionArn": subscription, "EventSource": "aws:sns",
        "Sns": {"SignatureVersion": str(given.get("SignatureVersion", "1")), "Timestamp": given["Timestamp"],
                "Signature": str(given.get("Signature", "")),
                **{here: str(given.get(name, "")) for name, here in URLS.items()},
                "MessageId": given["MessageId"], "Message": given["Message"],
                "MessageAttributes": {name: {"Type": one["Type"], "Value": one["Value"]}
                                      for name, one in attributes.items()},
                "Type": NOTIFICATION, "TopicArn": given["TopicArn"], "Subject": given.get("Subject")}}]})
