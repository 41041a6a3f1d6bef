"""What leaves for queues and topics of another server: records of events, and dead letters. A client of boto3 waits for
its server, so each destination has a thread of its own, which ends when the process does."""
import asyncio
import contextlib
import queue
import sys
import threading
import time
from importlib.util import find_spec
from typing import Callable, Dict, Mapping, NamedTuple, Optional

from ..other_server import Attributes, Destination, NoClient, one_line
from .asynchronous import Remote

SENDINGS = 3  # of a text, until it is given up
PAUSE = 1.0  # seconds between two of them, by the machine's clock
NO_CLIENT = f"{sys.executable} has no boto3: pip install boto3"


def has_client() -> bool:
    """Whether what boto3 is made of can be imported, without doing it."""
    return find_spec("botocore") is not None


class Text(NamedTuple):
    """What is to be sent, and what is told then: nothing, or why it could not be."""
    body: str
    attributes: Attributes
    told: Callable[[Optional[str]], None]


class Sender(threading.Thread):
    """Sends the texts of one destination, one after the other."""

    def __init__(self, remote: Remote, keeps_credentials: bool) -> None:
        super().__init__(name=f"destination {remote.name}", daemon=True)
        self.destination = Destination(remote.arn, remote.url or None, keeps_credentials)
        self.texts: "queue.SimpleQueue[Text]" = queue.SimpleQueue()

    def run(self) -> None:
        while True:
            text = self.texts.get()
            text.told(self.sent(text))

    def sent(self, text: Text) -> Optional[str]:
        for left in reversed(range(SENDINGS)):
            try:
                self.destination.send(text.body, text.attributes)
                return None
            except NoClient:
                return NO_CLIENT
            except Exception as fault:  # (whatever a server answers, and whatever the client makes of it)
                why = one_line(fault)
            if left:
                time.sleep(PAUSE)
        return why


class Outbox:
    """The destinations of a run. What waits there is bounded by those who send: each event holds its place until it has
    been sent."""

    def __init__(self, keeps_credentials: bool) -> None:
        self.keeps_credentials = keeps_credentials
        self.senders: Dict[Remote, Sender] = {}

    async def send(self, remote: Remote, body: str, attributes: Attributes) -> Optional[str]:
        """Why a text could not be sent; none if its server has taken it."""
        loop = asyncio.get_running_loop()
        done: "asyncio.Future[Optional[str]]" = loop.create_future()

        def settle(why: Optional[str]) -> None:
            if not done.done():
                done.set_result(why)

        def told(why: Optional[str]) -> None:
            with contextlib.suppress(RuntimeError):  # (the loop has ended)
                loop.call_soon_threadsafe(settle, why)
        sender = self.senders.get(remote)
        if sender is None:
            sender = self.senders[remote] = Sender(remote, self.keeps_credentials)
            sender.start()
        sender.texts.put(Text(body, attributes, told))
        return await done


def attributes_of(values: Mapping[str, object]) -> Attributes:
    """Attributes of a message: a number, or a text, which a queue takes only if it is not empty and has no character
    that XML has not."""
    made = {}
    for name, value in values.items():
        if isinstance(value, int):
            made[name] = ("Number", str(value))
        elif text := "".join(letter if is_of_xml(letter) else "\ufffd" for letter in str(value)):
            made[name] = ("String", text)
    return made


def is_of_xml(letter: str) -> bool:
    return letter in "\t\n\r" or " " <= letter <= "\ud7ff" or "\ue000" <= letter <= "\ufffd" or letter > "\uffff"
