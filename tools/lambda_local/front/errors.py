"""Refusals in the form in which Lambda's Invoke has them."""
import json
from typing import Mapping, Optional

from .http import Reply


def refusal(status: int, kind: str, members: Mapping[str, object], identifier: Optional[str] = None) -> Reply:
    headers = [("content-type", "application/json"), ("x-amzn-errortype", kind)]
    if identifier:
        headers.append(("x-amzn-requestid", identifier))
    return Reply(status, headers, of_json(members))


def of_json(members: Mapping[str, object]) -> bytes:
    return json.dumps(members, separators=(",", ":")).encode()


def of_user(status: int, kind: str, message: str, identifier: Optional[str] = None) -> Reply:
    return refusal(status, kind, {"Type": "User", "message": message}, identifier)


def of_service(status: int, message: str) -> Reply:
    return refusal(status, "ServiceException", {"Message": message, "Type": "Service"})


def throttle_reply(reason: str, identifier: str) -> Reply:
    return refusal(429, "TooManyRequestsException", {"Reason": reason, "Type": "User", "message": "Rate Exceeded."},
                   identifier)


# What the service answers itself while there is no handler (docs/formats.md, "Requests").
NO_ROUTE = Reply(404, [("content-type", "application/json")],
                 of_json({"errorMessage": "No such resource", "errorType": "NotFound"}))
NOT_FOUND = refusal(404, "ResourceNotFoundException", {"Message": "Function not found", "Type": "User"})
MALFORMED_NAME = of_user(400, "InvalidParameterValueException", "Function name or qualifier is malformed")
WRONG_TYPE = of_user(400, "InvalidParameterValueException", "Invocation type is not RequestResponse")
STOPPED = {"Message": "Service is stopped", "Type": "Service"}


def stop_reply(identifier: str) -> Reply:
    return refusal(500, "ServiceException", STOPPED, identifier)


def is_stop(body: bytes) -> bool:
    """Whether the service refuses since it is stopped."""
    return body == of_json(STOPPED)
