"""Everything in front of the functions of one run: what answers at which port, and the thread that does."""
import asyncio
import concurrent.futures
import contextlib
import re
import threading
import time
from typing import Any, Callable, Dict, Iterator, List, Optional, Protocol, Sequence, Tuple

from ..clock.followed import Clock
from ..exchange.client import Client
from ..outgoing import Log, several
from ..service import Service
from ..storm import Maker, Storm
from ..streaming.streams import Streams
from .descriptors import most_at_once
from .events import Identifiers
from .handler import BEGIN_SECONDS, Handler, Port
from .invoke import InvokePort
from .management import Management
from .outbox import NO_CLIENT, Outbox, has_client
from .queue import Queue
from .relay import StormPort
from .settings import Settings
from .storm import Gate, StormyClient
from .tail import Tails

BETWEEN_TELLS = 60.0  # seconds, of the same fault
STORM = "invokePort"  # that of a storm, in UP.json's words
Weather = Tuple[Storm, Maker]
END_SECONDS = 20.0  # for its thread to end


def variable_of(first: str, name: str) -> str:
    """A variable's name, which ends with that of an API or a function in capital letters."""
    return f"{first}_{re.sub('[^A-Z0-9]', '_', name.upper())}" if name else first


def as_link(key: str, url: str) -> str:
    """A route as people can open it."""
    method, _, path = key.partition(" ")
    return f"{method} {url}{path}" if path else f"{key} {url}"


def url_of(port: int) -> str:
    return f"http://127.0.0.1:{port}"


class Component(Protocol):
    """What the front's thread runs."""

    async def start(self) -> None:
        """Begins its work."""

    async def stop(self) -> None:
        """Ends it."""


class Other(Component, Protocol):
    """One that the front only runs."""
    descriptors: int  # that it needs


class Front(threading.Thread):
    """What the service hands over, at its own port and at further ones, is answered once this is started."""

    def __init__(self, settings: Settings, drain_seconds: float, log: Log, outbox: Optional[Outbox] = None,
                 loop: Optional[asyncio.AbstractEventLoop] = None, is_stormy: bool = False) -> None:
        """Without an outbox nothing is sent to queues and topics. Its thread runs this loop, or one of its own."""
        super().__init__(name="front", daemon=True)
        self.settings, self.drain_seconds, self.log, self.outbox = settings, drain_seconds, log, outbox
        self.queue: Optional[Queue] = None
        self.gate: Optional[Gate] = None  # of a storm
        self.url_owners = {function: f"url of function {function}" for function in settings.urls}
        self.api_owners = {name: f"apis {name}" if name else "api" for name in settings.apis}
        # The further ports that it is to have, by their owners; a storm is to see each invocation, and so its port is
        # that of callers.
        self.wanted = {**({STORM: settings.invoke_port} if is_stormy else {}),
                       **{self.url_owners[function]: address.port for function, address in settings.urls.items()},
                       **{self.api_owners[name]: api.address.port for name, api in settings.apis.items()}}
        self.urls: Dict[str, str] = {}  # by their functions, once there is a service
        self.api_urls: Dict[str, str] = {}
        self.loop = loop or asyncio.new_event_loop()
        self.last_told: Dict[str, float] = {}

    def addresses(self) -> Iterator[Tuple[Optional[str], str, str]]:
        """Each address, whose it is and in which words."""
        for function, url in self.urls.items():
            yield function, f"{function}: its URL is {url}/", url
        for name, url in self.api_urls.items():
            api = self.settings.apis[name]
            yield None, f"routes{' of ' * bool(name)}{name}: {api.below(url)}", url
            for key, target in api.routes.items():
                yield target.function, f"  {as_link(key, url + api.prefix(target))} -> {target.function}", url

    def variables(self) -> Dict[str, str]:
        """By which a command and functions find the routes, and the URLs."""
        found = {variable_of("LAMBDA_LOCAL_ROUTES", name): self.settings.apis[name].below(url)
                 for name, url in self.api_urls.items()}
        found.update({variable_of("LAMBDA_LOCAL_URL", function): f"{url}/" for function, url in self.urls.items()})
        return found

    def serve(self, service: Service, tails: Optional[Tails] = None, others: Sequence[Other] = (),
              streams: Optional[Streams] = None, clock: Optional[Clock] = None,
              weather: Optional[Weather] = None) -> None:
        """Begins to answer, by this service, which has the ports that are wanted; `tails` has what Invoke answers with
        the log type Tail, and `others` are further servers that its thread runs, which have the responses that are
        streamed. `clock` is one that follows the service's trace, if there is one; else the front asks for itself.
        `weather` is a storm with what makes its trouble."""
        self.service, configuration = service, service.configuration
        self.urls = {function: url_of(service.handled[owner]) for function, owner in self.url_owners.items()}
        self.api_urls = {name: url_of(service.handled[owner]) for name, owner in self.api_owners.items()}
        self.clock, self.client = clock or Clock(service.port, self.tell_of_clock), Client(service.port)
        if weather is not None:
            self.gate = Gate(*weather, service.port, self.log)
            self.client = StormyClient(service.port, self.gate)
        port = InvokePort(self.client, self.settings, configuration, self.log, self.clock, tails, self.outbox)
        self.port, self.queue, identifiers = port, port.queue, port.identifiers
        streams = streams or Streams()
        management = Management(port, self.client, self.settings, configuration, self.urls, streams)
        ports: Dict[int, Port] = {service.port: management.handle}
        if self.gate:
            service.through = service.handled[STORM]
            service.endpoint_url = url_of(service.through)
            ports[service.through] = StormPort(self.client, self.gate, management.aliases, self.tell_of_page).handle
        if self.urls or self.api_urls:
            ports.update(self.gateways(identifiers, streams))
        environments = sum(len(one["ports"]) for one in configuration["functions"])
        self.handler = Handler(service.port, ports, self.log, most_at_once(
            environments, sum(other.descriptors for other in others)))
        self.servers: List[Component] = [self.handler, *others]
        self.tell_of_client()
        self.start()
        self.handler.is_known.wait(BEGIN_SECONDS)

    def gateways(self, identifiers: Identifiers, streams: Streams) -> Iterator[Tuple[int, Port]]:
        """What answers at the ports of Function URLs and APIs."""
        from .gateway import Api, Url
        configuration, handled = self.service.configuration, self.service.handled
        for function, owner in self.url_owners.items():
            yield handled[owner], Url(self.client, self.clock, self.settings.urls[function], identifiers, self.log,
                                      function, configuration, streams).handle
        for name, owner in self.api_owners.items():
            given = self.settings.apis[name]
            yield handled[owner], Api(self.client, self.clock, given.address, identifiers, self.log, given.routes,
                                      configuration).handle

    def tell_of_client(self) -> None:
        """Says so at the start if what has ended cannot be sent on."""
        for name, settings in (("up", self.settings.asynchronous), *self.settings.of_functions.items()):
            for member, remote in settings.remotes() if settings and self.outbox else ():
                if not has_client():
                    self.log(name, f"{member}: nothing can be sent to {remote.name}: {NO_CLIENT}", level="warning",
                             kind="event")

    def run(self) -> None:
        asyncio.set_event_loop(self.loop)
        self.loop.set_exception_handler(self.tell)
        # (for what asks by a thread, as the plugin does: in `lambda_local up` nothing does)
        workers = concurrent.futures.ThreadPoolExecutor(thread_name_prefix="front")
        self.loop.set_default_executor(workers)
        for server in self.servers:
            self.loop.run_until_complete(server.start())
        self.loop.run_forever()
        if self.queue:
            self.loop.run_until_complete(self.queue.close())
        for server in self.servers:
            self.loop.run_until_complete(server.stop())
        self.client.close()
        self.loop.run_until_complete(self.loop.shutdown_asyncgens())
        workers.shutdown(wait=False, cancel_futures=True)  # (this process ends once what has begun there has ended)
        self.loop.close()

    def tell(self, _loop: asyncio.AbstractEventLoop, context: Dict[str, Any]) -> None:
        """A fault of a callback, or of a task that nobody awaits: in one line, and the same one not again soon."""
        what, now = f"{context['message']}: {context.get('exception')!r}"[:300], time.monotonic()
        if now - self.last_told.get(what, -BETWEEN_TELLS) >= BETWEEN_TELLS:
            self.last_told = {text: then for text, then in self.last_told.items() if now - then < BETWEEN_TELLS}
            self.last_told[what] = now
            self.log("up", f"the front: {what}", level="error")

    def tell_of_page(self, text: str) -> None:
        """Of a request to the port of a storm. (At others the service refuses it, and its log says so.)"""
        self.log("up", f"{STORM}: {text}", level="error", kind="http")

    def tell_of_clock(self, text: str) -> None:
        self.log("up", text, level="error", kind="fault")

    def call(self, what: Callable[..., object], *given: object) -> None:
        """Has its thread call this soon, unless it has ended."""
        with contextlib.suppress(RuntimeError):
            self.loop.call_soon_threadsafe(what, *given)

    def drain(self, is_over: Callable[[], bool]) -> None:
        """Waits until no event is left, its time is over, or the service has ended."""
        end = time.monotonic() + self.drain_seconds
        if not self.queue or not self.queue.count:
            return
        self.log("up", f"waiting up to {self.drain_seconds:g} s for {several(self.queue.count, 'event')}",
                 kind="event")
        while self.queue.count and time.monotonic() < end and not is_over():
            time.sleep(0.01)

    def end(self) -> None:
        """Once the service has ended."""
        self.clock.close()
        with contextlib.suppress(RuntimeError):  # (it has failed, and its loop is closed)
            self.loop.call_soon_threadsafe(self.loop.stop)
        self.join(END_SECONDS)
        if self.is_alive():
            self.log("up", f"the front does not end within {END_SECONDS:g} s, and is left", level="error")
