"""Follows a service that runs, and shows it on a page that updates itself (`served`)."""
import contextlib
import signal
import threading
from datetime import datetime, timezone
from typing import Callable, Optional, Tuple
from urllib.parse import urlsplit

from ..exchange.connection import words_of
from ..exchange.of_threads import asked
from ..history.opening import Configuration, read_configuration
from ..history.running import Running
from ..history.script import FORM_2
from ..history.shapes import NotTrace
from ..history.trace import Lost, lines_in
from ..outgoing import tell
from ..program import Fault
from .live_page import fragment
from .recent import Recent
from .served import Server

PAUSE = 2.0  # seconds before a service that has gone is looked for again
SILENCE = 30  # seconds after which a service that does not answer has gone


def port_of(url: str) -> int:
    """The port of a service's address."""
    try:
        parts = urlsplit(url)
        if (parts.scheme == "http" and parts.hostname in ("127.0.0.1", "localhost") and parts.port
                and parts.path in ("", "/")):
            return parts.port
    except ValueError:
        pass
    raise Fault(2, f"--live {url}: write the service's address on this machine, such as http://127.0.0.1:9000")


def configuration_of(port: int) -> Configuration:
    """The configuration of a service, which is the second line of its history."""
    with asked(port, "GET", "/_local/history", timeout=SILENCE) as answer:
        lines = lines_in(answer.pieces() if answer.status == 200 else ())
        with contextlib.suppress(NotTrace):
            if next(lines, b"") == FORM_2:
                return read_configuration(next(lines, b""), True)
        raise Fault(2, f"GET /_local/history returns no history (status {answer.status}): this is not lambda_local")


class Live:
    """What is known of the service, kept up to date by a thread. `lock` holds while that is read or changed."""

    def __init__(self, url: str, limit: int, shows_all: bool) -> None:
        self.url, self.port, self.limit, self.shows_all = url, port_of(url), limit, shows_all
        self.lock, self.ended, self.version = threading.Lock(), threading.Event(), 0
        self.made: Optional[Tuple[int, str]] = None
        self.gone: Optional[str] = None  # since when the service does not answer, in words
        self.fault: Optional[BaseException] = None  # by which the thread has ended
        try:
            self.begin()
        except Fault as fault:
            raise Fault(2, f"--live {url}: {fault}") from None
        except OSError as fault:
            raise Fault(2, f"--live {url}: no service answers there: {words_of(fault)}") from None
        self.thread = threading.Thread(target=self.follow, daemon=True)
        self.when_broken: Callable[[], object] = self.ended.set

    def begin(self) -> None:
        """Begins anew with the service that answers now."""
        configuration = configuration_of(self.port)
        self.running = Running(self.port, len(configuration.owners), silence=SILENCE)
        with self.lock:
            self.recent = Recent(configuration, self.limit, self.shows_all)
            self.gone, self.version = None, self.version + 1

    def follow(self) -> None:
        """Takes what comes, one service after the other. A fault of this tool ends it."""
        try:
            while not self.ended.is_set():
                try:
                    self.take()
                except OSError as fault:
                    self.lose(words_of(fault))
                except (Fault, Lost, ValueError) as fault:  # what answers there is none, or not any more
                    self.lose(str(fault))
                self.ended.wait(PAUSE)
        except BaseException as fault:
            self.fault = fault
            self.when_broken()

    def take(self) -> None:
        """Takes what comes of one service, to its end."""
        if self.gone is not None:
            self.begin()
            say(f"{self.url} answers again, with a new history")
        if self.ended.is_set():
            return
        for entry in self.running.entries():
            with self.lock:
                self.recent.take(entry)
                self.version += 1
        self.lose("it was stopped")

    def lose(self, why: str) -> None:
        if self.gone is None and not self.ended.is_set():
            with self.lock:
                self.gone, self.version = f"{datetime.now(timezone.utc):%H:%M:%SZ}: {why}", self.version + 1
            say(f"the service {self.url} has been unreachable since {self.gone}")

    def drawn(self) -> Tuple[int, str]:
        """The version, and the page's part that belongs to it as HTML."""
        with self.lock:
            if self.made is None or self.made[0] != self.version:
                self.made = self.version, fragment(self.recent.drawing(), self.recent.world, self.limit, self.gone)
            return self.made

    def end(self) -> None:
        self.ended.set()
        self.running.close()
        self.thread.join(SILENCE)


def say(words: str) -> None:
    tell(f"timeline: {words}")


def serve(url: str, limit: int, shows_all: bool) -> int:
    """Shows the service until a signal ends it."""
    live = Live(url, limit, shows_all)
    server = Server(live)
    stopped = threading.Event()
    live.when_broken = stopped.set
    for number in (signal.SIGINT, signal.SIGTERM, signal.SIGHUP):
        signal.signal(number, lambda *_: stopped.set())
    live.thread.start()
    serving = threading.Thread(target=server.serve_forever, daemon=True)
    serving.start()
    print(f"{server.url} shows {url}, until Ctrl-C", flush=True)
    try:
        stopped.wait()
    finally:
        server.shutdown()
        server.server_close()
        live.end()
    if live.fault is not None:
        raise live.fault
    return 0
