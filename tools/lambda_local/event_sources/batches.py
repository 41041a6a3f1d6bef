"""What follows a batch of a stream's records: what is done, what is given up, and what is invoked again (Developer
Guide, "Understanding retry behavior" of streams, and "Configuring partial batch response with Kinesis Data Streams and
Lambda"). It waits for nothing and asks nobody."""
from typing import List, NamedTuple, Optional, Sequence, Tuple

from ..json_reader import members_of
from .members import FOREVER, Stream
from .servers import Record

EXHAUSTED, TOO_OLD = "RetryAttemptsExhausted", "RecordAgeExceeded"
TOO_LARGE = "PayloadSizeExceeded"
MOST_BYTES = 6_291_456 - 1024  # of a batch's records as JSON: an event has at most 6 MiB


class Batch(NamedTuple):
    records: Tuple[Record, ...]
    tries: int = 0  # failures of the function with them, which count as attempts
    invocations: int = 0  # with all or more of them

    @property
    def size(self) -> int:
        return sum(record.size + 2 for record in self.records)


class After(NamedTuple):
    done: Tuple[Record, ...] = ()
    given_up: Tuple[Record, ...] = ()
    left: Tuple[Batch, ...] = ()  # to be invoked, in this order
    is_split: bool = False


def failing_in(result: bytes, sequences: Sequence[str]) -> Optional[int]:
    """The place of the first record that a result says has failed: Lambda goes on with that one. None if all have
    succeeded; 0 if the result says it in a form that fails the whole batch."""
    given = (members_of(result) or {}).get("batchItemFailures")
    if not given:
        return None
    if not isinstance(given, list):
        return 0
    places = {sequence: place for place, sequence in enumerate(sequences)}
    failed = [places.get(str(one.get("itemIdentifier"))) if isinstance(one, dict) else None for one in given]
    return min((place if place is not None else 0 for place in failed), default=None)


def after(batch: Batch, failing: Optional[int], stream: Stream) -> After:
    """What follows an invocation with a batch, of which the record at this place has failed, if one has. A split does
    not count as a retry; no record is in more failed invocations that count than `retries` and one."""
    invoked = batch._replace(invocations=batch.invocations + 1)
    if failing is None:
        return After(done=batch.records)
    done, rest = batch.records[:failing], invoked._replace(records=batch.records[failing:])
    if stream.bisects and done:
        return After(done, left=(rest,), is_split=True)
    if stream.bisects and len(rest.records) > 1:
        middle = len(rest.records) // 2
        return After(left=(rest._replace(records=rest.records[:middle]), rest._replace(records=rest.records[middle:])),
                     is_split=True)
    rest = rest._replace(tries=rest.tries + 1)
    if stream.retries != FOREVER and rest.tries > stream.retries:
        return After(done, given_up=rest.records)
    return After(done, left=(rest,))


def without_old(batch: Batch, now: int, stream: Stream) -> Tuple[Tuple[Record, ...], Batch]:
    """Its first records that are older than the greatest age at this moment, and the batch without them."""
    if stream.oldest == FOREVER:
        return (), batch
    count = next((place for place, record in enumerate(batch.records) if now - record.arrived <= 1000 * stream.oldest),
                 len(batch.records))
    return batch.records[:count], batch._replace(records=batch.records[count:])


def cut(records: List[Record], most: int) -> int:
    """How many of these are the next batch: no more than that many, and no more than an event has room for; 0 if the
    first alone is too large, or is to be given up."""
    size = 0
    for place, record in enumerate(records[:most]):
        size += record.size + 2
        if size > MOST_BYTES or record.fault:
            return place
    return min(len(records), most)
