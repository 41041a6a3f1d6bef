"""What is done with the batches of a stream's shards: the function is invoked, and what follows is told and sent."""
import json
import threading
import uuid
from typing import Any, Dict, Optional, Sequence, Tuple

from ..clock.followed import Clock
from ..other_server import Destination, one_line
from ..outgoing import Log, several
from ..service import AGAIN, ask
from .batches import EXHAUSTED, TOO_OLD, After, Batch, after, failing_in, without_old
from .failures import Invoked, record_of
from .members import FOREVER, Stream
from .servers import Record
from .shards import Shard

FIRST_REST, LONGEST_REST = 0.5, 30.0  # seconds, after a failure of the function
FIRST_RETRY, LONGEST_RETRY = 0.05, 2.0  # seconds, after a throttle
SENDINGS, BETWEEN_SENDINGS = 3, 0.5  # of what is sent to onFailure; seconds, which double
INVOKE_SECONDS = 1000  # longer than any invocation and its Init


class Handling:
    """Of the batches of one stream. All of its methods may be called by any thread, with a shard that it has."""

    def __init__(self, stream: Stream, service: Any, clock: Clock, stopping: threading.Event, log: Log) -> None:
        self.stream, self.service, self.clock, self.stopping, self.log = stream, service, clock, stopping, log
        self.configuration: Dict[str, Any] = service.configuration
        self.arn = ""
        self.destination: Optional[Destination] = None
        self.handled = self.given_up = 0  # records

    @property
    def name(self) -> str:
        return f"stream {self.stream.name}"

    def say(self, text: str, level: str = "info", **members: object) -> None:
        self.log(self.stream.function, f"{self.name}: {text}", level=level, kind="stream",
                 always=False, function=self.stream.function, **members)

    def note(self, shard: Shard) -> None:
        """Keeps a shard's position, if positions are kept."""
        raise NotImplementedError

    def handle(self, shard: Shard) -> None:
        """Invokes the function with the first of a shard's batches, and does what follows."""
        old, batch = without_old(shard.batches[0], self.clock.now(), self.stream)
        if old:
            shard.batches[0] = batch
            self.give_up(shard, old, TOO_OLD, batch.invocations)
        if not batch.records:
            shard.batches.popleft()
            return self.note(shard)
        what = f"a batch of {len(batch.records)} of {shard.identifier}"
        try:
            status, headers, body = self.invoke(batch)
        except OSError as fault:
            return self.wait_for_service(shard, f"{what} has no outcome: {one_line(fault)}", FIRST_REST, LONGEST_REST)
        if status == 429:
            return self.wait_for_service(shard, "", FIRST_RETRY, LONGEST_RETRY)
        if status != 200:
            why = body.decode(errors="replace")[:200]
            return self.wait_for_service(shard, f"{what} is answered {status} {why}", FIRST_REST, LONGEST_REST)
        error = headers.get("x-amz-function-error")
        shard.last = Invoked(headers.get("x-amzn-requestid", ""), status, error)
        failing, why = self.failing(error is not None, body, batch)
        self.follow(shard, batch, failing, f"{what} {why}")

    def invoke(self, batch: Batch) -> Tuple[int, Dict[str, str], bytes]:
        event = json.dumps({"Records": [record.event for record in batch.records]}, ensure_ascii=False)
        return ask(self.service.through, "POST", f"/2015-03-31/functions/{self.stream.function}/invocations",
                   event.encode(errors="replace"), {AGAIN: "1"} if batch.invocations else {}, timeout=INVOKE_SECONDS)

    def failing(self, has_failed: bool, body: bytes, batch: Batch) -> Tuple[Optional[int], str]:
        """The place of the first record that has failed, and how that is told."""
        if has_failed:
            return 0, "failed"
        sequences = [record.sequence for record in batch.records]
        failing = failing_in(body, sequences) if self.stream.reads_failures else None
        if failing is None:
            return None, "ok"
        return failing, f"failed from record {failing + 1} on, {batch.records[failing].sequence}"

    def wait_for_service(self, shard: Shard, why: str, first: float, longest: float) -> None:
        """An invocation that has not reached the function is no attempt."""
        if why and not shard.rest and not self.stopping.is_set():
            self.say(f"{why}: it is invoked again", "error")
        self.rest(shard, first, longest)

    def rest(self, shard: Shard, first: float, longest: float) -> None:
        shard.rest = min(longest, 2 * shard.rest or first)
        shard.due_by_clock = self.clock.now() + round(1000 * shard.rest)

    def follow(self, shard: Shard, batch: Batch, failing: Optional[int], what: str) -> None:
        """The function has answered."""
        then = after(batch, failing, self.stream)
        shard.batches.popleft()
        shard.batches.extendleft(reversed(then.left))
        if then.done:
            shard.handled = then.done[-1].sequence
            self.handled += len(then.done)
            shard.rest = 0.0
        if then.left and not then.is_split:
            self.rest(shard, FIRST_REST, LONGEST_REST)
        else:
            shard.rest = 0.0
        self.tell_answer(shard, then, what)
        if then.given_up:
            self.give_up(shard, then.given_up, EXHAUSTED, batch.invocations + 1)
        if not then.left:
            shard.last = None
        self.note(shard)

    def tell_answer(self, shard: Shard, then: After, what: str) -> None:
        members = {"shard": shard.identifier, "records": len(then.done)}
        if not then.left and not then.given_up:
            self.say(what, "ok", **members)
        elif then.is_split:
            self.say(f"{what}: " + ("those before it are done, the rest is invoked again" if then.done
                                    else "it is split in two"), "warning", **members)
        elif then.left:
            tries, retries = then.left[0].tries, self.stream.retries
            of = "" if retries == FOREVER else f" of {retries + 1}"
            endless = ", until it succeeds (\"retries\" sets an end)" if retries == FOREVER and tries == 1 else ""
            self.say(f"{what}, attempt {tries}{of}: again after {shard.rest:g} s{endless}; its shard waits", "warning",
                     attempts=tries, **members)

    def give_up(self, shard: Shard, records: Sequence[Record], condition: str, invocations: int) -> None:
        """These are invoked with no more."""
        shard.handled = records[-1].sequence
        self.given_up += len(records)
        numbers = records[0].sequence + (f" to {records[-1].sequence}" if len(records) > 1 else "")
        are = "is" if len(records) == 1 else "are"
        sent = self.send(shard, records, condition, invocations)
        self.say(f"{several(len(records), 'record')} of {shard.identifier}, {numbers}, {are} dropped: {condition} "
                 f"after {several(invocations, 'invocation')}; {sent}", "error", shard=shard.identifier,
                 records=len(records), condition=condition)

    def send(self, shard: Shard, records: Sequence[Record], condition: str, invocations: int) -> str:
        """Sends where they are to onFailure; what became of that."""
        if self.destination is None:
            return "there is no \"onFailure\""
        arn = f"arn:aws:lambda:{self.configuration['region']}:{self.configuration['account']}:function:"
        text = record_of(self.stream.service, arn + self.stream.function, self.arn, shard.identifier, records,
                         condition, invocations, shard.last, self.clock.now(), str(uuid.uuid4()))
        why = ""
        for number in range(SENDINGS):
            try:
                self.destination.send(text)
                return f"{self.destination.name} is sent where they are"
            except Exception as fault:  # (whatever its server answers)
                why = one_line(fault)
            if self.stopping.wait(BETWEEN_SENDINGS * 2 ** number):
                break
        return f"{self.destination.name} could not be sent where they are: {why}"
