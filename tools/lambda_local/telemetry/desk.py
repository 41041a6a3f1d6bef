"""The telemetry of one environment: its story, the subscriptions of its extensions, and what they have not got yet.
What passes on the wire, what lambda_local up does and what processes print come in one loop."""
import json
import time
from typing import Awaitable, Callable, Dict, List, Optional, Tuple

from .buffer import Buffer
from .conversation import Answer
from .schema import Event, rendered
from .sender import Sender
from .story import About, Moment, Story, now
from .subscription import LOGS, Refused, Subscription, subscription_of

MOST_KEPT, MOST_KEPT_BYTES = 10_000, 1 << 20  # of an Init, for those that subscribe in it
FLUSH_SECONDS = 0.5  # for which an extension's SHUTDOWN waits while its receiver takes what there is
REASON = ("Some logs were dropped because the downstream consumer is slower than the logs production rate")
Tell = Callable[[str], None]


def refused(status: int, reason: str, kind: str, message: str) -> Answer:
    body = json.dumps({"errorMessage": message, "errorType": kind}, separators=(",", ":")).encode()
    return Answer(status, reason, body)


class Kept:
    """The events of an Init, bounded."""

    def __init__(self) -> None:
        self.events: List[Event] = []
        self.size = 0
        self.dropped: Dict[str, Tuple[int, int]] = {}  # by type: how many there was no room for, and their bytes

    def take(self, event: Event) -> None:
        size = len(event.record) if isinstance(event.record, str) else 0
        if event.category != "platform" and (len(self.events) >= MOST_KEPT or self.size + size > MOST_KEPT_BYTES):
            count, before = self.dropped.get(event.type, (0, 0))
            self.dropped[event.type] = count + 1, before + size
            return
        self.events.append(event)
        self.size += size


class Receiver:
    """A subscription that is served."""

    def __init__(self, subscription: Subscription, name: str, sender: Sender, buffer: Buffer):
        self.subscription, self.name, self.sender, self.buffer = subscription, name, sender, buffer


class Desk:
    """`tell` says a line of lambda_local up. Before the first generation, and after the last one, nothing is told."""

    def __init__(self, about: About, tell: Tell, memory: Callable[[], Optional[int]] = lambda: None,
                 clock: Callable[[], Moment] = now):
        self.about, self.tell, self.memory, self.clock = about, tell, memory, clock
        self.story: Optional[Story] = None
        self.kept = Kept()
        self.receivers: Dict[str, Receiver] = {}  # by the identifier of the extension

    # ---- generations -------------------------------------------------------------------------------------------------

    def begins(self) -> None:
        self.ends()
        self.kept = Kept()
        self.story = Story(self.about, self._take, self.memory, self.clock)

    def closes(self, reason: str) -> None:
        if self.story:
            self.story.closes(reason)
        for receiver in self.receivers.values():
            receiver.sender.hurry()

    def fails(self, kind: str) -> None:
        if self.story:
            self.story.fails(kind)

    def ends(self) -> None:
        """All its processes have ended."""
        receivers, self.receivers, self.story = list(self.receivers.values()), {}, None
        for receiver in receivers:
            receiver.sender.end()
            lost = len(receiver.buffer.waiting) + receiver.buffer.dropped
            if lost:
                self.tell(f"the extension {receiver.name} did not take {lost:,} events of its telemetry")

    # ---- what is told ------------------------------------------------------------------------------------------------

    def _take(self, event: Event) -> None:
        if self.story is None or not self.story.is_ready:
            self.kept.take(event)
        shapes: Dict[str, Optional[bytes]] = {}
        for receiver in self.receivers.values():
            self._give(receiver, event, shapes)

    def _give(self, receiver: Receiver, event: Event, shapes: Dict[str, Optional[bytes]]) -> None:
        subscription = receiver.subscription
        if event.category not in subscription.types:
            return
        schema = subscription.schema
        if schema not in shapes:
            shapes[schema] = rendered(event, schema, self.about.has_json_lines)
        text = shapes[schema]
        if text is not None:
            receiver.buffer.put(text, time.monotonic())
            receiver.sender.wake()

    def line(self, kind: str, text: str) -> None:
        """`kind` is function or extension."""
        if self.story and (self.receivers or not self.story.is_ready):
            self.story.line(kind, text)

    # ---- on the wire -------------------------------------------------------------------------------------------------

    def registers(self, identifier: str, name: str, events: List[str]) -> None:
        if self.story:
            self.story.registers(identifier, name, events)

    def extension_asks(self, identifier: str) -> None:
        if self.story:
            self.story.extension_asks(identifier)

    def extension_answered(self, identifier: str) -> None:
        if self.story:
            self.story.extension_answered(identifier)

    def extension_fails(self, identifier: str, state: str, kind: str) -> None:
        if self.story:
            self.story.extension_fails(identifier, state, kind)

    def runtime_asks(self) -> None:
        if self.story:
            self.story.runtime_asks()

    def runtime_answered(self) -> None:
        if self.story:
            self.story.runtime_answered()

    def delivered(self, identifier: str, trace: Optional[str]) -> None:
        if self.story:
            self.story.delivered(identifier, trace)

    def responds(self, identifier: str) -> None:
        if self.story:
            self.story.responds(identifier)

    def answered(self, identifier: str, status: str, kind: Optional[str], size: int) -> None:
        if self.story:
            self.story.answered(identifier, status, kind, size)

    def init_fails(self, kind: str) -> None:
        if self.story:
            self.story.init_fails(kind)

    # ---- subscriptions -----------------------------------------------------------------------------------------------

    def subscribe(self, identifier: str, path: str, body: Optional[bytes]) -> Answer:
        api = "Logs" if path == LOGS else "Telemetry"
        story = self.story
        if story is None or identifier not in story.extensions:
            return refused(403, "Forbidden", "Extension.UnknownIdentifier", "Extension is not registered here")
        if story.is_ready or story.is_over:
            return refused(403, "Forbidden", f"{api}.SubscriptionClosed",
                           f"{api} API subscription is closed already: it is open until Init is over")
        if body is None:
            return refused(413, "Payload Too Large", "RequestEntityTooLarge", "The body is too long")
        try:
            subscription = subscription_of(path, body)
            self._refuse_both(identifier, subscription)
        except Refused as fault:
            return refused(400, "Bad Request", "ValidationError", str(fault))
        self._begin(story, identifier, subscription)
        return Answer(200, "OK", b'"OK"')

    def _refuse_both(self, identifier: str, subscription: Subscription) -> None:
        other = self.receivers.get(identifier)
        if other and other.subscription.is_of_logs != subscription.is_of_logs:
            raise Refused("an extension subscribes to the Telemetry API or to the Logs API, not to both")

    def _begin(self, story: Story, identifier: str, subscription: Subscription) -> None:
        """A later subscription takes the place of an earlier one, and its Init's events come again."""
        name = story.extensions[identifier].name
        if identifier in self.receivers:
            self.receivers.pop(identifier).sender.end()
        buffer = Buffer(subscription.buffering, lambda records, size: self._note(subscription, records, size))
        sender = Sender(subscription.destination, buffer, self.tell)
        receiver = self.receivers[identifier] = Receiver(subscription, name, sender, buffer)
        for event in self.kept.events:
            self._give(receiver, event, {})
        for kind, (count, size) in self.kept.dropped.items():
            if kind in subscription.types:
                buffer.count(count, size)
        sender.begin()
        story.subscribes(identifier, list(subscription.order), subscription.is_of_logs)

    def _note(self, subscription: Subscription, records: int, size: int) -> bytes:
        event = Event(self.clock().time, "platform.logsDropped",
                      {"reason": REASON, "droppedRecords": records, "droppedBytes": size})
        line = rendered(event, subscription.schema)
        assert line is not None
        return line

    def flushed(self, identifier: str) -> Optional[Awaitable[object]]:
        """Done once the extension's receiver has taken what there is, or has had its time."""
        receiver = self.receivers.get(identifier)
        return receiver.sender.flushed(FLUSH_SECONDS) if receiver else None
