"""Checks that entries which a follower reads in short are what the strict reader makes of their lines, and that what
goes on in the account is the same by both, entry by entry: over traces of random calls, and over such with other
numbers in some lines. The program is LAMBDA_LOCAL_PROGRAM, else ./lambda_local."""
import random
import re
from collections import Counter
from typing import Iterator, List, Tuple

from lambda_local.history.short import kind_of
from lambda_local.life import Begun, Event, Invocation, Life
from tests.library.cases import Case
from tests.library.random_trace import CONFIGURATION, ENVIRONMENTS, lines_of
from tests.library.traces import all_at_once, one_by_one, whole

SEEDS, CALLS = 4, 400
CHANGES, FIRST = 25, 80  # of each trace, in so many of its lines
NUMBER = re.compile(rb"(?<=[:\[,])[0-9]+(?=[,\]}])")
NAME = re.compile(rb'(?<="function":")\w(?=")')


def of_invocation(one: Invocation) -> object:
    return (one.function, one.identifier, one.moment, one.environment and one.environment.number, one.delivered,
            one.asked, one.is_over)


def of_event(event: Event) -> object:
    """An event, with what its objects are now."""
    return type(event).__name__, [of_invocation(one) if isinstance(one, Invocation) else
                                  getattr(one, "number", getattr(one, "identifier", one)) for one in event]


def state(life: Life) -> List[object]:
    """All that is known of environments, polls and invocations."""
    found: List[object] = [{ticket: of_invocation(one) for ticket, one in life.invocations.items()},
                           {ticket: (generation.number, getattr(member, "name", None))
                            for ticket, (generation, member) in life.generations.polls.items()}]
    for here in life.generations.environments.values():
        found.append((here.number, here.phase))
        for one in (here.generation, here.before):
            found.append(one and (one.number, one.poll, one.is_ready, one.asked, one.deliveries, one.closes,
                                  one.is_over, one.report, [(each.name, each.poll, each.told, each.again, each.exited)
                                                            for each in one.extensions.values()]))
    return found


def changed(lines: List[bytes], seed: int) -> List[bytes]:
    """Some of them with another number, or the name of another function."""
    chosen, found = random.Random(seed), list(lines)
    for _ in range(2):
        place = chosen.randrange(len(found) // 2, len(found))
        numbers = list(NUMBER.finditer(found[place]))
        one, other = chosen.choice(numbers), chosen.choice((b"1", b"2", b"3", b"9", b"0", b"00", b"1.0",
                                                            chosen.choice(numbers)[0]))
        found[place] = NAME.sub(lambda _: chosen.choice((b"f", b"h")), found[place])
        found[place] = found[place][:one.start()] + other + found[place][one.end():]
    return found


def some_lines() -> Iterator[Tuple[str, List[bytes]]]:
    """Traces by their names."""
    for seed in range(SEEDS):
        lines = lines_of(seed, CALLS)
        yield f"trace {seed}", lines
        for number in range(CHANGES):
            yield f"trace {seed}, change {number}", changed(lines[:FIRST], number)


class ShortEntries(Case):
    prints_each = False

    def test_entries_in_short_say_what_the_strict_reader_reads(self) -> None:
        counts: Counter[type] = Counter()
        for name, lines in some_lines():
            entries, fault = one_by_one(lines, ENVIRONMENTS)
            taken, end = all_at_once(lines, ENVIRONMENTS, in_short=True)
            self.check(f"{name}: as many, and the same end", (len(taken), end), (len(entries), fault))
            self.check(f"{name}: the same entries", list(map(whole, taken, entries)) == entries)
            self.check(f"{name}: the same kinds", list(map(kind_of, taken)), list(map(kind_of, entries)))
            counts.update(map(type, taken))
        self.check("many of each kind", len(counts) == 4 and min(counts.values()) > CALLS, shown=counts)

    def test_what_goes_on_is_the_same_by_both(self) -> None:
        for name, lines in some_lines():
            entries, _ = one_by_one(lines, ENVIRONMENTS)
            taken, _ = all_at_once(lines, ENVIRONMENTS, in_short=True)
            by_both = Life(CONFIGURATION), Life(CONFIGURATION)
            for entry, one in zip(entries, taken):
                events, same = by_both[0].take(entry), by_both[1].take(one)
                self.check(f"{name}: the events of {entry}", list(map(of_event, same)), list(map(of_event, events)))
                self.check(f"{name}: what is known after {entry}", state(by_both[1]), state(by_both[0]))

    def test_deliveries_are_told_to_those_who_ask(self) -> None:
        taken, _ = all_at_once(lines_of(1, CALLS), ENVIRONMENTS, in_short=True)
        told, quiet = Life(CONFIGURATION), Life(CONFIGURATION)
        quiet.tells_begun = False
        for one in taken:
            events = [of_event(event) for event in told.take(one) if not isinstance(event, Begun)]
            self.check("the others are the same", list(map(of_event, quiet.take(one))), events)
            self.check("what is known too", state(quiet), state(told))
