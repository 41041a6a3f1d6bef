"""Plays sequences on the tested service, one call after the other, and compares each answer in the step it belongs
to."""
import contextlib
import math
import time
from typing import Dict, List, NamedTuple, Optional, Sequence, Set, Tuple, cast

from lambda_local.history.entries import count_in
from lambda_local.history.words import Word

from ..clock import CLOCK
from .calls import POLLS, Call, Ids
from .judge import Aspect, Judge, label_of, shown
from .known import AFTER_ANSWER, WAITS, KnownDifferences
from .oracle import FRESH, WARM, Plan
from .tested import Tested
from .wire import Exchange, Wire

ANSWER_SECONDS = 2.0  # how long an answer may take that the definitions give at once
BEYOND_SECONDS = 5.0  # and how long more one that a timeout gives
SILENCE_SECONDS = 0.5  # how long one that is accepted to be missing is waited for
CLOSING_SECONDS = 2.1  # how long an environment may wait for extensions that end
OF_TIMEOUT = 0.7  # of the function's timeout, as real time, that such an answer may take at most
SURELY = 0.05  # how long a call waits that is to be taken before the next one
ENDED = 0.1  # within which a service notices that a connection has ended; more on a busy machine
RESTORE_SECONDS = 30  # and a timeout: how long a service is brought to a fresh environment
STARVED_SECONDS = 10.0  # that a request may take which any service answers at once
CLOCKS = 100  # milliseconds by which the service's clock may differ from this one, and a little more
LEARNED = 5  # times that the timeout is looked for, if the deadline comes too late to tell
OF_INIT = ("register", "init-failure", "ext-init-failure")  # calls that an environment takes in its Init alone
NO_ROUTE = "/conformance/no/such/route"
NOT_READY = "no answer: an extension has not asked for its next event"
PROBE = Call("invoke", "probe", ("={}",))


class Difference(NamedTuple):
    plan: Plan
    step: int
    place: int  # of the call whose answer differs
    label: str  # the definitions' answer
    aspect: Aspect
    moments: Tuple[int, ...]  # at which the calls were made, in milliseconds
    ended: Optional[int]  # when the answer came that differs; none if it is missing

    @property
    def words(self) -> Tuple[str, str, str]:
        return self.plan.sequence.calls[self.place].kind, self.label, self.aspect.name


class Played(NamedTuple):
    difference: Optional[Difference]
    whole: bool  # whether all calls were made: the state at the end is known
    seconds: float
    is_late: bool = False  # whether a timeout came later than on a calm machine


class Unrecoverable(Exception):
    """The service cannot be brought to an environment of which nothing has been heard."""


class Course:
    def __init__(self, tested: Tested, known: KnownDifferences, timeout: int) -> None:
        self.tested, self.known, self.timeout, self.wire = tested, known, timeout, Wire()
        self.state: Optional[str] = None
        self.poll: Optional[Exchange] = None
        # fresh, warm or not known; the Next that waits in warm
        self.ids: Ids = {}  # that the last sequence learned
        self.found: Optional[Difference] = None  # the last difference
        self.calls = 0
        self.is_strict = False  # whether a timeout may be no later on a busy machine

    # ---- one sequence ----

    def play(self, plan: Plan, settle: Optional[float] = None, patience: float = ANSWER_SECONDS) -> Played:
        """Plays it from the state in which it begins: the first difference that is not accepted, if there is one.
        `settle` is how long a call that is not answered has to wait, `patience` how long an answer may take that is
        given at once."""
        self.bring(plan.sequence.start)
        begun, judge = time.monotonic(), Judge(plan, self.is_strict)
        exchanges: Dict[int, Exchange] = {}
        moments: List[int] = []
        self.ids, self.state = judge.ids, None
        difference: Optional[Difference] = None
        whole = True
        for step, call in enumerate(plan.sequence.calls):
            if step == 0 and plan.sequence.start == WARM:
                exchanges[0] = cast(Exchange, self.poll)
            elif call.kind in ("leave", "hang-up"):
                self._end_connection(plan, step, exchanges)
            elif call.kind != "wait":
                exchanges[step] = self.send(call, judge.ids)
            moments.append(since(begun))
            self._await(plan, step, exchanges, self.wire.settle(exchanges.get(step)) if settle is None else settle,
                        patience)
            if call.kind == "wait":
                moments[-1] = since(begun)
            found, parted = self._compare(plan, step, exchanges, judge)
            if found:
                exchange = exchanges[found[0]]
                self.found = difference = Difference(plan, step, *found, tuple(moments),
                                                     since(begun, exchange.answered) if exchange.answered else None)
            if found or parted:
                whole = False
                break
        if whole:
            self._ended(plan, exchanges)
        return Played(difference, whole, time.monotonic() - begun, judge.is_late)

    def send(self, call: Call, ids: Ids) -> Exchange:
        self.calls += 1
        return self.wire.send(*self.tested.request(call, ids))

    def _await(self, plan: Plan, step: int, exchanges: Dict[int, Exchange], settle: float, patience: float) -> None:
        """Waits for the answers that belong to the step; if its own call gets none, until it surely waits."""
        call, given = plan.sequence.calls[step], [one for one in plan.steps[step] if one.call in exchanges]
        labels = labels_at(plan, step)
        answered = [one for one in given if not self.known.accepts_silence(
            (plan.sequence.calls[one.call].kind, labels[one.call]))]
        if answered:
            waited_for = [exchanges[one.call] for one in answered]
            if call.kind == "wait":
                self.wire.collect(waited_for, self.timeout + BEYOND_SECONDS)
            else:  # (an answer that is missing is to be missed before a deadline comes)
                self.wire.collect(waited_for, patience, OF_TIMEOUT * self.timeout)
                self._outlast([one for one in waited_for if not one.over])
        elif call.kind == "wait":
            self.wire.collect(seconds=self.timeout + 0.5)
        if len(answered) < len(given):
            self.wire.collect([exchanges[one.call] for one in given], SILENCE_SECONDS)
        if call.kind in ("leave", "hang-up"):
            self.wire.collect(seconds=max(settle, ENDED * CLOCK.slowness()))
        elif call.kind != "wait" and not any(one.call == step for one in given):
            self.wire.collect(seconds=settle)
        elif call.kind != "wait" and exchanges[step].answered:
            self.wire.note_trip(exchanges[step])
        self.wire.collect()

    def _outlast(self, missing: List[Exchange]) -> None:
        """Waits until requests that are made now are answered: what has no answer then has none, and is not late since
        this machine gives the service no processor."""
        later = [self.wire.send(address, "GET", NO_ROUTE) for address in sorted({one.address for one in missing})]
        if later:
            begun = time.monotonic()
            self.wire.collect(later, STARVED_SECONDS, STARVED_SECONDS)
            self.wire.leave(later)
            self.wire.collect(missing, max(SURELY, time.monotonic() - begun))

    def _end_connection(self, plan: Plan, step: int, exchanges: Dict[int, Exchange]) -> None:
        """Ends that of the Next that waits, or of an invocation's caller: what it would be answered is not compared."""
        call = plan.sequence.calls[step]
        kind = "next" if call.kind == "leave" else "invoke"
        about = (kind, call.label, call.environment)
        calls = plan.sequence.calls
        places = [place for place, exchange in exchanges.items() if not exchange.over
                  and (calls[place].kind, calls[place].label, calls[place].environment) == about]
        self.wire.leave([exchanges.pop(place) for place in places])

    def _compare(self, plan: Plan, step: int, exchanges: Dict[int, Exchange],
                 judge: Judge) -> Tuple[Optional[Tuple[int, str, Aspect]], bool]:
        """The first difference of a step that is not accepted (a call's place, its label, the aspect), and whether the
        two have parted with one that is."""
        here = {given.call: given for given in plan.steps[step]}
        judge.since = exchanges[step].sent if step in exchanges and plan.sequence.calls[step].kind != "wait" else None
        over, labels = {given.call for earlier in plan.steps[:step] for given in earlier}, labels_at(plan, step)
        parted = False

        # (a delivery first, which makes an identifier known, and then the call itself)
        def order(place: int) -> Tuple[bool, bool, int]:
            return place not in here or here[place].answer.word is not Word.DELIVER, place != step, place
        for place in sorted(exchanges, key=order):
            exchange = exchanges[place]
            if place in here:
                label = labels[place]
                aspects = judge.aspects(here[place], label, exchange)
            elif place not in over and exchange.over:
                label, aspects = WAITS, [Aspect("answered", shown(exchange), "no answer: it waits", True)]
            else:
                continue
            for aspect in aspects:
                if not self.known.accepts((plan.sequence.calls[place].kind, label, aspect.name)):
                    return (place, label, aspect), True
                parted = parted or (aspect.parts and label != "Container")
            if parted:  # (the other answers of this step may be others for that reason)
                early = _delivered_early(plan, exchanges, over | set(here)) if label == AFTER_ANSWER else None
                if early is not None and not self.known.accepts(("next", WAITS, "answered")):
                    return (early, WAITS, Aspect("answered", shown(exchanges[early]), NOT_READY, True)), True
                break
        return None, parted

    def _ended(self, plan: Plan, exchanges: Dict[int, Exchange]) -> None:
        waiting = plan.waiting()
        self.state = WARM if waiting else FRESH
        self.poll = exchanges[waiting[0]] if waiting else None
        self.wire.leave(
            [exchange for exchange in exchanges.values() if not exchange.over and exchange is not self.poll])

    # ---- the state in which a sequence begins ----

    def bring(self, start: str) -> None:
        if self.state is None:
            self.restore()
        if self.state == WARM and start == FRESH:
            self._let_time_out()
        if self.state == FRESH and start == WARM:
            self.poll = self.send(Call("next"), {})
            self.wire.collect(seconds=SURELY)
            self.state = WARM

    def _let_time_out(self) -> None:
        """An invocation that the runtime does not answer ends the environment."""
        invoke = self.send(PROBE, {})
        self.wire.collect([invoke], self.timeout + BEYOND_SECONDS)
        self.state = FRESH if invoke.over else None
        if self.state is None:
            self.restore()

    def restore(self) -> None:
        """Brings a service of which nothing is known to a fresh environment, by what any Lambda has: an extension that
        fails, a failed Init, or a timeout."""
        self.wire.drop()
        extensions = [label for of_extension, label in self.ids if of_extension]
        for kind in ("ext-exit-failure", "ext-next"):
            for label in extensions:
                self.ask(Call(kind, label, ("={}",) if kind == "ext-exit-failure" else ()), self.ids)
        end = time.monotonic() + self.timeout + RESTORE_SECONDS
        while stale := [one for one in range(1, self.tested.environments + 1) if not self._is_fresh(one)]:
            if time.monotonic() > end:
                raise Unrecoverable
            self.wire.drop()
            # An open invocation times out; so does one that is given to the runtime now.
            for environment in stale:
                self.send(Call("next", environment=environment), {})
            invoke = self.send(PROBE, {})
            self.wire.collect([invoke], min(1.0, self.timeout))
            if invoke.over:
                time.sleep(0.1)
        self.ids, self.state, self.poll = {}, FRESH, None

    def learn_timeout(self) -> Optional[int]:
        """The function's timeout in seconds, by the deadline of an invocation in a fresh environment; none if it has
        none."""
        for _ in range(LEARNED):
            self.bring(FRESH)
            asked, poll = self._deadline_of_probe()
            deadline = poll.headers.get("lambda-runtime-deadline-ms", "")
            if not deadline.isdigit():
                return None
            found = timeout_between(int(deadline) - poll.wall, int(deadline) - asked)
            if found:
                break
        return min(900, max(1, found or round((int(deadline) - poll.wall) / 1000)))

    def _deadline_of_probe(self) -> Tuple[float, Exchange]:
        """When an invocation is asked for, in Unix milliseconds, and its delivery. There is an extension, whose failure
        ends the environment at once."""
        if self.register():
            self.send(Call("ext-next", "probe"), self.ids)
        poll = self.send(Call("next"), {})
        self.wire.collect(seconds=SURELY)
        asked = time.time() * 1000
        self.send(PROBE, {})
        self.wire.collect([poll], ANSWER_SECONDS)
        self.state = None
        return asked, poll

    def register(self) -> str:
        """The identifier of an extension that registers, or nothing."""
        exchange = self.send(Call("register", "probe", ("=probe", "-")), {})
        self.wire.collect([exchange], ANSWER_SECONDS)
        identifier = exchange.headers.get("lambda-extension-identifier", "")
        self.ids = {(True, "probe"): identifier} if identifier else {}
        return identifier

    def answer_to(self, address: Tuple[str, int], method: str, path: str, headers: Sequence[Tuple[str, str]],
                  body: Optional[bytes]) -> Exchange:
        """What comes for a request that is answered at once."""
        self.calls += 1
        exchange = self.wire.send(address, method, path, headers, body)
        self.wire.collect([exchange], ANSWER_SECONDS)
        self._outlast([] if exchange.over else [exchange])
        return exchange

    def ask(self, call: Call, ids: Ids, seconds: float = 0.1) -> int:
        """The status of a call's answer; 0 if none comes."""
        exchange = self.send(call, ids)
        self.wire.collect([exchange], seconds)
        return exchange.status

    def _is_fresh(self, environment: int) -> bool:
        """Whether an Init can fail now; then the environment begins anew, unless extensions have to end first."""
        failure = Call("init-failure", "", ("={}",), environment)
        if self.ask(failure, {}, ANSWER_SECONDS) != 202:
            return False
        self.wire.drop()
        end = time.monotonic() + CLOSING_SECONDS
        while True:  # (an invocation that waited for the Closing fails with the next Init)
            if self.ask(failure, {}, ANSWER_SECONDS) == 202:
                return True
            if time.monotonic() > end:
                return False
            time.sleep(0.05)

    def close(self) -> None:
        with contextlib.suppress(OSError):
            self.wire.drop()


def timeout_between(least: float, most: float) -> Optional[int]:
    """The whole seconds between these milliseconds; none if there are several, or none."""
    first, last = math.ceil((least - CLOCKS) / 1000), math.floor((most + CLOCKS) / 1000)
    return first if first == last else None


def _delivered_early(plan: Plan, exchanges: Dict[int, Exchange], answered: Set[int]) -> Optional[int]:
    """The place of a runtime's Next that got an invocation although its environment is not free: an extension has not
    asked. (Another environment may take the invocation, or it may wait.)"""
    return next((place for place, exchange in exchanges.items() if plan.sequence.calls[place].kind == "next"
                 and place not in answered and exchange.status == 200), None)


def since(begun: float, moment: Optional[float] = None) -> int:
    """Milliseconds from one moment to another, or to now."""
    return int(((time.monotonic() if moment is None else moment) - begun) * 1000)


def labels_at(plan: Plan, step: int) -> Dict[int, str]:
    """The words for the answers of a step, by the calls that they answer."""
    calls, before = plan.sequence.calls, [given for earlier in plan.steps[:step] for given in earlier]
    answered_before = (open_invocation(plan, step) is None
                       and any(given.answer.word is Word.DELIVER for given in before))
    over = {given.call for given in before}
    asked_before = any(one.kind in POLLS and place not in over and one.label == calls[step].label
                       for place, one in enumerate(calls[:step]))
    found = {given.call: label_of(given, answered_before, asked_before) for given in plan.steps[step]}
    if calls[step].kind in OF_INIT and has_left(plan, step) and found.get(step) in ("registered", "accepted"):
        found[step] += "-after-leave"
    return found


def has_left(plan: Plan, step: int) -> bool:
    """Whether the connection of the runtime's Next has ended, and it has not asked again."""
    calls = plan.sequence.calls
    last = next((place for place in reversed(range(step)) if calls[place].environment == calls[step].environment
                 and (calls[place].kind == "next" or place in plan.tickets)), None)
    return last is not None and calls[last].kind == "leave"


def open_invocation(plan: Plan, step: int) -> Optional[int]:
    """The place of the invocation that is delivered and not answered before a step."""
    delivered = None
    for earlier in plan.steps[:step]:
        for given in earlier:
            if given.answer.word is Word.DELIVER:
                delivered = count_in(given.answer.request or "0")
            elif given.answer.word in (Word.OUTPUT, Word.ERROR, Word.TIMEOUT, Word.TOO_LARGE_OUTPUT):
                delivered = None
    return delivered
