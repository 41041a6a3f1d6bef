"""The streams and topics of all functions of a run."""
import os
import threading
import time
from typing import Any, Callable, Dict, List, Optional, Sequence

from ..clock.followed import Clock
from ..other_server import host_of, is_refused
from ..outgoing import Log
from ..program import Fault
from .checkpoints import Checkpoints
from .members import streams_of, topics_of
from .streams import Reader, workers_of
from .topics import Subscriber

BEGIN_SECONDS = 10.0  # for all to have asked their servers, before a command is run


def prepare(path: str, functions: Sequence[Dict[str, Any]], keeps_credentials: bool) -> List[Optional[Checkpoints]]:
    """The positions that are kept of each stream. No stream or topic of AWS itself is used by mistake."""
    given = [*(("stream", one.function, one.url) for one in streams_of(list(functions))),
             *(("topic", one.function, one.url) for one in topics_of(list(functions)))]
    for what, function, url in given:
        if is_refused(url, keeps_credentials):
            raise Fault(2, f"{path}: function {function}: {what}: url: {host_of(url)} is AWS itself: name a local "
                           "server, or start lambda_local up with --keep-credentials")
    folder = os.path.dirname(os.path.abspath(path))
    return [Checkpoints(os.path.join(folder, stream.checkpoint),
                        f"{path}: function {stream.function}: stream: checkpoint")
            if stream.checkpoint else None for stream in streams_of(list(functions))]


class Sources:
    """`threads` are to be started once all is ready, and end once `stopping` is set."""

    def __init__(self, prepared: List[Optional[Checkpoints]], functions: Sequence[Dict[str, Any]], service: Any,
                 clock: Clock, keeps_credentials: bool, stopping: threading.Event, log: Log) -> None:
        environments = {part["name"]: len(part["ports"]) for part in service.configuration["functions"]}
        self.readers: List[Reader] = []
        self.threads: List[threading.Thread] = []
        for stream, kept in zip(streams_of(list(functions)), prepared):
            reader = Reader(stream, service, clock, keeps_credentials, stopping, log, kept)
            self.readers.append(reader)
            self.threads += workers_of(reader, environments[stream.function])
        self.subscribers = [Subscriber(topic, service, clock, keeps_credentials, stopping, log)
                            for topic in topics_of(list(functions))]
        self.threads += self.subscribers

    def wait_until_begun(self, is_over: Callable[[], bool]) -> None:
        """Until each has asked its server once, so that nothing is missed which a command does: a while at most."""
        end = time.monotonic() + BEGIN_SECONDS
        for event in [*(reader.begun for reader in self.readers), *(one.begun for one in self.subscribers)]:
            while not event.wait(0.05) and not is_over() and time.monotonic() < end:
                pass

    def end(self) -> None:
        """All threads have ended."""
        for reader in self.readers:
            reader.end()
