"""Another server of AWS's APIs, such as moto's: clients of it, and queues and topics of it as destinations. boto3 (its
botocore) makes the requests, if it is installed.

No request goes to AWS itself: `refuse_aws` looks at each address before a client is made, and a client that has no
credentials of the user's reads no profile, no configuration and no proxy of theirs."""
import functools
import os
import re
import threading
import time
from typing import Any, Dict, Mapping, Optional, Tuple
from urllib.parse import urlsplit

from .aws_hosts import is_of_aws
from .reports import shorten

CONNECT_SECONDS = 2
ANSWER_SECONDS = 10.0  # for an answer that a server does not hold back on purpose
POLL_SECONDS = 1  # for which a server is asked to hold a poll; an end waits half as long again for its answer
ARN = re.compile(r"arn:[a-z-]{1,32}:(sqs|sns):([a-z0-9-]{1,64}):(\d{12}):([A-Za-z0-9_.-]{1,256})")
Attributes = Mapping[str, Tuple[str, str]]  # of a message: the type of each, and its value
EXAMPLE = "arn:aws:sqs:us-east-1:123456789012:failed"
LOCK = threading.Lock()  # around what makes clients


class NoClient(Exception):
    """boto3 is not here."""


def client_of(service: str, endpoint: Optional[str], region: str, keeps_credentials: bool,
              answer_seconds: float = ANSWER_SECONDS) -> Any:
    """A client of this server's API of a service, such as "sqs", "kinesis" or "dynamodbstreams"; without a server, of
    AWS's own. It sends no request twice. Several threads may use it."""
    try:
        from botocore.config import Config  # type: ignore  # (what boto3 is made of)
    except ImportError:
        raise NoClient from None
    settings: Dict[str, Any] = {"connect_timeout": CONNECT_SECONDS, "read_timeout": answer_seconds,
                                "retries": {"max_attempts": 0}, "max_pool_connections": 16}
    given: Dict[str, Any] = {"region_name": region, "endpoint_url": endpoint}
    if not keeps_credentials:
        settings["proxies"] = {}
        given.update(aws_access_key_id="local", aws_secret_access_key="local")
    with LOCK:
        return session_of(keeps_credentials).create_client(service, config=Config(**settings), **given)


@functools.lru_cache(maxsize=None)
def session_of(keeps_credentials: bool) -> Any:
    """What makes clients, one at a time: it keeps the models that it has read."""
    import botocore.session  # type: ignore
    if keeps_credentials:
        return botocore.session.Session()
    return botocore.session.Session(session_vars={
        "profile": (None, [], None, None), "config_file": (None, None, os.devnull, None),
        "credentials_file": (None, None, os.devnull, None)})


def one_line(fault: Exception) -> str:
    return shorten(" ".join(f"{type(fault).__name__}: {fault}".split()))


def code_of(fault: Exception) -> str:
    """What AWS calls a fault that its server has answered, such as `ExpiredIteratorException`; else nothing."""
    response = getattr(fault, "response", None)
    error = response.get("Error") if isinstance(response, dict) else None
    return str(error.get("Code", "")) if isinstance(error, dict) else ""


def host_of(url: str) -> str:
    try:
        return urlsplit(url).hostname or ""
    except ValueError:
        return ""


def is_endpoint(url: str) -> bool:
    """Whether this is the address of a server, `http://HOST:PORT`, without a path."""
    try:
        parts = urlsplit(url)
        return bool(parts.scheme in ("http", "https") and parts.hostname and parts.path in ("", "/")
                    and not (parts.query or parts.fragment or parts.username or parts.password)
                    and re.fullmatch("[!-~]{1,1024}", url) and (parts.port is None or parts.port > 0))
    except ValueError:
        return False


def endpoint_of(service: str) -> Optional[str]:
    """The local address that a client of this service would take from the environment; none if it would call AWS."""
    url = os.environ.get(f"AWS_ENDPOINT_URL_{service.upper()}") or os.environ.get("AWS_ENDPOINT_URL") or ""
    host = host_of(url)
    return url.rstrip("/") if host and not is_of_aws(host) else None


def is_refused(url: str, keeps_credentials: bool) -> bool:
    """Whether a request to this address would go to AWS itself, which nobody has asked for."""
    return not keeps_credentials and is_of_aws(host_of(url))


class Asking(threading.Thread):
    """A thread that asks a server again and again. At the end of all it is waited for, but not for a server that holds
    a request for longer than it was asked to."""
    asks_since: Optional[float] = None  # when the server was asked what it has not answered

    def __init__(self, name: str) -> None:
        super().__init__(name=name, daemon=True)

    def asked(self, operation: Any, **members: Any) -> Dict[str, Any]:
        """The server's answer to an operation of a client."""
        self.asks_since = time.monotonic()
        try:
            answer = operation(**members)
            return answer if isinstance(answer, dict) else {}
        finally:
            self.asks_since = None

    def since(self) -> Optional[float]:
        return self.asks_since

    @property
    def is_held(self) -> bool:
        since = self.since()
        return since is not None and time.monotonic() - since > 1.5 * POLL_SECONDS

    def join(self, timeout: Optional[float] = None) -> None:
        end = None if timeout is None else time.monotonic() + timeout
        while self.is_alive() and not self.is_held and (end is None or time.monotonic() < end):
            super().join(0.05)


class Destination:
    """A queue or a topic of a server, by its ARN, to which texts are sent (a function's `onFailure`). Any thread may
    send; a client is made with the first text."""

    def __init__(self, arn: str, endpoint: Optional[str], keeps_credentials: bool) -> None:
        """Without an endpoint it is at AWS itself."""
        found = ARN.fullmatch(arn)
        if found is None:
            raise ValueError(f"{arn} is not the ARN of an SQS queue or an SNS topic")
        self.arn, self.endpoint, self.keeps_credentials = arn, endpoint, keeps_credentials
        self.service, self.region, self.account, self.name = found[1], found[2], found[3], found[4]
        self._lock = threading.Lock()
        self._client: Any = None
        self._url: Optional[str] = None

    @property
    def client(self) -> Any:
        with self._lock:
            if self._client is None:
                self._client = client_of(self.service, self.endpoint, self.region, self.keeps_credentials)
            return self._client

    def send(self, text: str, attributes: Attributes = {}) -> None:
        """Sends it once. Raises NoClient, or whatever the client raises: `one_line` has the words."""
        given = {name: {"DataType": kind, "StringValue": value} for name, (kind, value) in attributes.items()}
        if self.service == "sns":
            self.client.publish(TopicArn=self.arn, Message=text, MessageAttributes=given)
        else:
            self.client.send_message(QueueUrl=self.url(), MessageBody=text, MessageAttributes=given)

    def url(self) -> str:
        """The queue's address, by its server, which may not send texts to AWS itself."""
        if self._url is None:
            url = str(self.client.get_queue_url(QueueName=self.name, QueueOwnerAWSAccountId=self.account)["QueueUrl"])
            if is_refused(url, self.keeps_credentials):
                raise ValueError(f"its server says that it is at {host_of(url)}, which is AWS itself")
            self._url = url
        return self._url
