"""Where handlers run that share the process of their test: for as long as their service runs they have Lambda's
variables, the local service in place of Lambda, dummy credentials, and no way to AWS through a client of boto3."""
import logging
import os
import sys
import threading
from typing import Any, Callable, List, Mapping, Optional, Protocol, Set
from urllib.parse import urlsplit

from .aws_hosts import is_of_aws
from .paths import bundled_module
from .variables import DUMMIES, LEFT_OUT, Serving, leading_to

LONGEST_SECONDS = 1000  # of an invocation
TRACE = "_X_AMZN_TRACE_ID"


class ReachesAWS(RuntimeError):
    """A request to AWS that was not sent."""


class Changes(Protocol):
    """Changes that are undone at the end."""

    def setenv(self, name: str, value: str) -> None:
        ...

    def delenv(self, name: str, raising: bool = True) -> None:
        ...

    def setattr(self, target: object, name: str, value: object) -> None:
        ...

    def undo(self) -> None:
        ...


class Patches:
    """Changes that are undone in reverse order: as much of pytest's MonkeyPatch as is needed here, without pytest."""

    def __init__(self) -> None:
        self.undoings: List[Callable[[], object]] = []

    def setenv(self, name: str, value: str) -> None:
        self._note_variable(name)
        os.environ[name] = value

    def delenv(self, name: str, raising: bool = True) -> None:
        if raising or name in os.environ:
            self._note_variable(name)
            del os.environ[name]

    def _note_variable(self, name: str) -> None:
        before = os.environ.get(name)
        self.undoings.append(lambda: os.environ.pop(name, None) if before is None
                             else os.environ.__setitem__(name, before))

    def setattr(self, target: object, name: str, value: object) -> None:
        before = vars(target)[name]
        self.undoings.append(lambda: setattr(target, name, before))
        setattr(target, name, value)

    def undo(self) -> None:
        while self.undoings:
            self.undoings.pop()()


class Sending:
    """What becomes of a request of botocore: what is for Lambda goes to the service, also from a client that was made
    before it was started, or whose boto3 does not read AWS_ENDPOINT_URL_LAMBDA; other requests to AWS are refused."""

    def __init__(self, send: Callable[[Any, Any], object], session: Any, endpoint_url: str) -> None:
        self.send, self.session, self.endpoint_url = send, session, endpoint_url

    def __call__(self, endpoint: Any, request: Any) -> object:
        url = urlsplit(request.url)
        host = url.hostname or ""
        if not is_of_aws(host):
            return self.send(endpoint, request)
        if host.partition(".")[0] in ("lambda", "lambda-fips"):
            here = urlsplit(self.endpoint_url)
            request.url = url._replace(scheme=here.scheme, netloc=here.netloc).geturl()
            request.headers["Host"] = here.netloc
            return self.session.send(request)
        raise ReachesAWS(f"not sent to AWS: {request.method} {url._replace(query='').geturl()}: mock it, give its "
                         "client an endpoint_url of this machine, or start(keep_credentials=True) to let it through")


class Sandbox:
    """`variables` are those of the functions. With `keeps_credentials`, credentials and the region stay as they are,
    and requests are sent. `patches` are pytest's, which undoes them itself, or one's own."""

    def __init__(self, service: Serving, variables: Mapping[str, str], keeps_credentials: bool,
                 patches: Optional[Changes] = None) -> None:
        self.patches, self.undoes = patches or Patches(), patches is None
        self.keeps_credentials, self.lock = keeps_credentials, threading.Lock()
        self.seen: Set[str] = set()
        self.endpoint_url = service.endpoint_url
        self.thread = threading.local()
        if boto3 := self._newly_imported("boto3", "DEFAULT_SESSION"):
            self.patches.setattr(boto3, "DEFAULT_SESSION", None)
        self.look()
        led = leading_to(service.endpoint_url, service.configuration["region"])
        if keeps_credentials:
            led = {name: value for name, value in led.items() if "REGION" not in name}
        else:
            led.update(DUMMIES, AWS_SESSION_TOKEN="local")
            for name in LEFT_OUT:
                self.patches.delenv(name, raising=False)
        for name, value in {TRACE: "", **led, **variables}.items():  # (a runtime sets the trace anew)
            self.patches.setenv(name, value)
        self._begin_log()

    # ---- boto3 -------------------------------------------------------------------------------------------------------

    def _newly_imported(self, name: str, member: str) -> Any:
        """A module, when it is seen for the first time with this member, which it has once it is imported."""
        module = sys.modules.get(name)
        if name in self.seen or self.keeps_credentials or not hasattr(module, member):
            return None
        self.seen.add(name)
        return module

    def look(self) -> None:
        """What a handler has imported by now is kept from AWS: the requests of botocore, and the session that boto3
        makes for itself, which keeps the credentials that it has read once."""
        with self.lock:
            if endpoint := self._newly_imported("botocore.endpoint", "Endpoint"):
                # (without the proxies of the client's own session)
                session = endpoint.URLLib3Session(timeout=(60, LONGEST_SECONDS))
                sending = Sending(endpoint.Endpoint._send, session, self.endpoint_url)
                self.patches.setattr(endpoint.Endpoint, "_send", lambda one, request: sending(one, request))
            if boto3 := self._newly_imported("boto3", "DEFAULT_SESSION"):
                boto3.DEFAULT_SESSION = None  # (so the next test finds none with dummies)
                self.patches.setattr(boto3, "DEFAULT_SESSION", None)

    # ---- the log -----------------------------------------------------------------------------------------------------

    def _begin_log(self) -> None:
        """As examples/runtime.py does, for what handlers log; what others log in this process is theirs."""
        runtime, logger = bundled_module("runtime.py"), logging.getLogger()
        self.handler, self.level = runtime.LogHandler(self._request, runtime.logs_json()), logger.level
        self.handler.addFilter(lambda record: record.aws_request_id is not None)
        logger.addHandler(self.handler)
        if runtime.log_level() is not None:
            logger.setLevel(runtime.log_level())

    def _request(self) -> Optional[str]:
        """The identifier of the invocation that this thread handles; none in a thread that handles none."""
        return getattr(self.thread, "request", None)

    def begin(self, request: str) -> None:
        """An invocation, in the thread that handles it."""
        self.thread.request = request
        self.look()

    # ---- the end -----------------------------------------------------------------------------------------------------

    def close(self) -> None:
        self.look()
        logging.getLogger().removeHandler(self.handler)
        logging.getLogger().setLevel(self.level)
        if self.undoes:
            self.patches.undo()
