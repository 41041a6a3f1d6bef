"""A stream as an event source: its records invoke the function in batches, one after the other in each shard, a shard
after those that it was made of. Threads do it, as many as the function has environments: each takes the shard that has
waited longest, reads it or invokes the function with a batch of it, and gives it back. What waits for the function
(windows, pauses after failures and throttles, ages) waits by the service's clock; what waits for the server, by the
machine's."""
import sys
import threading
import time
from typing import Any, Dict, List, Optional

from ..clock.followed import Clock
from ..other_server import Asking, Destination, NoClient, client_of, code_of, one_line
from ..outgoing import Log, several
from .checkpoints import Checkpoints, Position
from .handling import Handling
from .members import KINESIS, Stream
from .servers import MOST_SHARDS, NotThere, Seen, SeenShard, Server, WrongAnswer, server_of
from .shards import NEWEST, OLDEST, Shard, Task

MOST_THREADS = 10  # of a stream
MANY_EMPTY, LONG_WAIT = 20, 1.0  # readings of a shard without a record, and seconds between two after as many
MOST_HELD = 64 << 20  # bytes of records that wait in shards; with as many, no further shard is read
BETWEEN_LOOKS = 5.0  # seconds, after which the list of shards is asked for again
STEP = 0.1  # seconds between two looks at the service's clock
LONGEST_WAIT = 0.25  # seconds, after which an end is noticed
FIRST_PAUSE, LONGEST_PAUSE = 0.5, 30.0  # seconds, after a fault of the server; each further one doubles it
LONGEST_UNTIL_THERE = 2.0  # seconds, if the server has no such stream (yet)
ABSENT = ("ResourceNotFoundException",)


class Look(Task):
    """At the list of shards."""


class Reader(Handling):
    """Reads one stream. All of its methods may be called by any thread."""

    def __init__(self, stream: Stream, service: Any, clock: Clock, keeps_credentials: bool, stopping: threading.Event,
                 log: Log, checkpoints: Optional[Checkpoints] = None) -> None:
        super().__init__(stream, service, clock, stopping, log)
        self.keeps_credentials, self.checkpoints = keeps_credentials, checkpoints
        self.changed = threading.Condition()
        self.look = Look()
        self.shards: Dict[str, Shard] = {}
        self.gone: Dict[str, Optional[str]] = {}  # shards that are over or not there any more, and what was handled
        self.identity = ""
        self.server: Optional[Server] = None
        self.begun = threading.Event()  # the list of shards has been asked for
        self.has_odd = self.is_over = False

    def connect(self) -> bool:
        """Makes the clients; whether there are any."""
        with self.changed:
            if self.server is None and not self.is_over:
                region = self.stream.region or self.configuration["region"]
                service = "kinesis" if self.stream.service == KINESIS else "dynamodbstreams"
                try:
                    client = client_of(service, self.stream.url, region, self.keeps_credentials)
                    self.server = server_of(client, self.stream, region, self.configuration["account"])
                    if self.stream.on_failure:
                        self.destination = Destination(self.stream.on_failure, self.stream.url, self.keeps_credentials)
                except NoClient:
                    self.is_over = True
                    self.say(f"it is not read, since {sys.executable} has no boto3: pip install boto3", "error")
                except Exception as fault:
                    self.is_over = True
                    self.say(f"it is not read: {one_line(fault)}", "error")
            if self.is_over:
                self.begun.set()
            return not self.is_over

    # ---- whose turn it is --------------------------------------------------------------------------------------------

    def tasks(self) -> List[Task]:
        """The look at the list, and the shards that may be read: those whose parents are over."""
        waiting = [shard for shard in self.shards.values() if not shard.is_over and all(
            parent not in self.shards or self.shards[parent].is_over for parent in shard.parents)]
        return [self.look, *waiting]

    def take(self) -> Optional[Task]:
        """What has been due for longest; none if nothing is, after a while."""
        with self.changed:
            now = time.monotonic()
            ready = [task for task in self.tasks() if not task.is_busy and task.due <= now]
            if not ready:
                due = min((task.due for task in self.tasks() if not task.is_busy), default=now + LONGEST_WAIT)
                self.changed.wait(min(max(due - now, STEP / 10), LONGEST_WAIT))
                return None
            task = min(ready, key=lambda one: one.due)
            task.is_busy = True
        if task.due_by_clock is None or self.clock.reached(task.due_by_clock):
            task.due_by_clock = None
            return task
        task.due = time.monotonic() + STEP
        self.give_back(task)
        return None

    def give_back(self, task: Task) -> None:
        with self.changed:
            task.is_busy = False
            self.changed.notify()

    def step(self, task: Task) -> None:
        """Does what is due. Whatever goes wrong in it is told, and costs a pause of this task alone."""
        try:
            if isinstance(task, Shard):
                self.step_of_shard(task)
            else:
                task.asks_since = time.monotonic()
                self.look_at_shards()
                task.due = time.monotonic() + BETWEEN_LOOKS
            self.works_again(task)
        except Exception as fault:  # (whatever a server answers, and whatever the client makes of it)
            self.trouble(task, fault)
        finally:
            task.asks_since = None
            if task is self.look:
                self.begun.set()
            self.give_back(task)

    def trouble(self, task: Task, fault: Exception) -> None:
        with self.changed:
            is_first = not any(one.is_troubled for one in self.tasks())
            task.is_troubled = True
            is_absent = isinstance(fault, NotThere) or code_of(fault) in ABSENT
            most = LONGEST_UNTIL_THERE if is_absent else LONGEST_PAUSE
            task.pause = min(most, 2 * task.pause or FIRST_PAUSE)
            task.due = time.monotonic() + task.pause
            self.look.due = min(self.look.due, time.monotonic() + FIRST_PAUSE) if task is not self.look else task.due
        if is_first and not self.stopping.is_set():
            why = str(fault) if isinstance(fault, (NotThere, WrongAnswer)) else one_line(fault)
            self.say(f"it cannot be read: {why}: it is asked again after pauses of up to {most:g} s", "error")

    def works_again(self, task: Task) -> None:
        with self.changed:
            was, task.is_troubled, task.pause = task.is_troubled, False, 0.0
            is_last = was and not any(one.is_troubled for one in self.tasks())
        if is_last:
            self.say("it is read again")

    # ---- the list of shards ------------------------------------------------------------------------------------------

    def look_at_shards(self) -> None:
        assert self.server is not None
        seen = self.server.look()
        if self.identity not in ("", seen.identity):
            self.say("its server has another stream of this name now: that is read from its oldest record on",
                     "warning")
        is_first, is_new = not self.identity, self.identity != seen.identity
        positions: Dict[str, Position] = {}
        with self.changed:
            if is_new:
                self.identity, self.arn, self.shards, self.gone = seen.identity, seen.arn, {}, {}
                if self.checkpoints:
                    positions = self.begin_positions(is_first)
            added = [self.shard_of(one, is_first, positions) for one in seen.shards[:MOST_SHARDS]
                     if one.identifier not in self.shards]
            self.forget(seen)
            for shard in added:
                shard.is_busy = shard.begin == NEWEST and not shard.is_over  # (until it has its iterator)
            self.shards.update({shard.identifier: shard for shard in added})
            for one in seen.shards:
                if one.identifier in self.shards:
                    self.shards[one.identifier].is_closed = one.is_closed
        if is_new:
            self.tell_begin(seen, positions)
        self.open_newest([shard for shard in added if shard.is_busy])

    def open_newest(self, shards: List[Shard]) -> None:
        """What comes from now on is not missed: each has its iterator before anything else is done."""
        assert self.server is not None
        try:
            for shard in shards:
                shard.open(self.server, self.say)
        finally:
            with self.changed:
                for shard in shards:
                    shard.is_busy = False

    def begin_positions(self, is_first: bool) -> Dict[str, Position]:
        assert self.checkpoints is not None
        if self.checkpoints.begin(self.identity) and is_first:
            self.say(f"{self.checkpoints.path} is of another stream of this name: it is left aside", "warning")
        return dict(self.checkpoints.positions)

    def shard_of(self, seen: SeenShard, is_first: bool, positions: Dict[str, Position]) -> Shard:
        """One that has not been seen before. What comes after a shard that is read is read from its beginning."""
        known = positions.get(seen.identifier)
        is_newest = is_first and not positions and self.stream.position == NEWEST
        handled = known.after if known else self.gone.get(seen.identifier)
        shard = Shard(seen, NEWEST if is_newest else OLDEST, self.stream, handled)
        shard.is_read = bool(known and known.is_over) or is_newest and seen.is_closed
        return shard

    def forget(self, seen: Seen) -> None:
        """Those that the server has no more are read no more, and forgotten once they are over."""
        there = {one.identifier for one in seen.shards}
        for name, shard in list(self.shards.items()):
            if name not in there and not shard.is_busy:
                if not shard.is_read:
                    self.say(f"its server has {name} no more: what has not been read of it is left out", "warning")
                shard.is_read = True
                if shard.is_over:
                    self.gone[name] = shard.handled
                    del self.shards[name]
        for name in list(self.gone)[:-MOST_SHARDS]:
            del self.gone[name]
        if self.checkpoints:
            self.checkpoints.keep(set(self.shards) | there)

    def tell_begin(self, seen: Seen, positions: Dict[str, Position]) -> None:
        count = several(len(seen.shards), "shard")
        if len(seen.shards) > MOST_SHARDS:
            self.say(f"it has {count}, of which {MOST_SHARDS:,} are read", "warning")
        if positions and self.checkpoints:
            self.say(f"{count}: it goes on after what {self.checkpoints.path} says; a batch that was not answered "
                     "comes again")
        else:
            self.say(f"{count}, from {self.stream.position} on")

    # ---- a shard -----------------------------------------------------------------------------------------------------

    def step_of_shard(self, shard: Shard) -> None:
        assert self.server is not None
        if not shard.batches and not shard.collected and self.is_heavy():
            shard.due = time.monotonic() + LONG_WAIT
            return
        if not shard.batches:
            shard.asks_since = time.monotonic()
            odd = shard.fill(self.server, self.clock, self.say)
            shard.asks_since = None
            self.tell_odd(shard, odd.wrong, odd.repeated)
            if odd.lost:
                self.give_up(shard, odd.lost, odd.lost[0].fault, 0)
                self.note(shard)
        is_idle = bool(shard.empty) and not shard.batches
        if shard.batches and not self.stopping.is_set():
            self.handle(shard)
        shard.weigh()
        wait = self.server.wait if shard.empty < MANY_EMPTY else LONG_WAIT
        shard.due = time.monotonic() + (wait if is_idle else 0.0)
        if not shard.collected and not shard.batches:
            self.note(shard)
        if shard.is_over:
            self.look.due = 0.0  # (what it has become is read next)

    def is_heavy(self) -> bool:
        """Whether as much is held in shards as may be."""
        with self.changed:
            return sum(shard.size for shard in self.shards.values()) >= MOST_HELD

    def tell_odd(self, shard: Shard, wrong: int, repeated: int) -> None:
        if (wrong or repeated) and not self.has_odd:
            what = (f"{several(wrong, 'record')} of {shard.identifier} {'is' if wrong == 1 else 'are'} left out: a "
                    "record has a sequence number, a time and its data" if wrong else
                    f"{shard.identifier}: its server gives {several(repeated, 'record')} again, which "
                    f"{'is' if repeated == 1 else 'are'} left out")
            self.say(what, "error")
        self.has_odd = bool(wrong or repeated) or self.has_odd and bool(shard.empty)

    # ---- how far it is -----------------------------------------------------------------------------------------------

    def note(self, shard: Shard) -> None:
        """Keeps a shard's position, if positions are kept."""
        if self.checkpoints is None:
            return
        with self.changed:
            if self.shards.get(shard.identifier) is not shard:
                return  # (of a stream that is no more)
            self.checkpoints.note(shard.identifier, Position(shard.handled, shard.is_over))
            self.write()

    def write(self, now: bool = False) -> None:
        assert self.checkpoints is not None
        try:
            self.checkpoints.write(now)
        except OSError as fault:
            self.say(f"{self.checkpoints.path} cannot be written: {fault.strerror}: the next run begins at what it "
                     "says", "error")

    def end(self) -> None:
        """All threads have ended: says where the next run begins."""
        if self.checkpoints is not None and self.identity:
            with self.changed:
                self.write(now=True)
        if not self.handled and not self.given_up:
            return
        counts = f"{several(self.handled, 'record')} handled" + (
            f", {self.given_up:,} dropped" if self.given_up else "")
        if self.checkpoints is not None:
            then = f"the next run goes on there, by {self.checkpoints.path}"
        elif self.stream.position == OLDEST:
            then = "the next run handles them again from TRIM_HORIZON: a \"checkpoint\" keeps the position"
        else:
            then = "the next run begins with what comes then"
        self.say(f"{counts}; {then}")


class Worker(Asking):
    """Does what is due in a stream: several do, since an invocation takes its time."""

    def __init__(self, reader: Reader, number: int) -> None:
        super().__init__(f"{reader.name} of {reader.stream.function}, {number}")
        self.reader = reader
        self.task: Optional[Task] = None

    def since(self) -> Optional[float]:
        task = self.task
        return task.asks_since if task else None

    def run(self) -> None:
        if not self.reader.connect():
            return
        while not self.reader.stopping.is_set():
            self.task = self.reader.take()
            if self.task is not None:
                self.reader.step(self.task)


def workers_of(reader: Reader, environments: int) -> List[Worker]:
    return [Worker(reader, number) for number in range(1, max(1, min(MOST_THREADS, environments)) + 1)]
