"""What the fuzzers use of hypothesis' strategies, for machines that have none: the same names, each drawing from a
`random.Random`. A round is as many inputs as there is time for; one that breaks a reader is made smaller by leaving
parts of it out."""
import random
import time
from typing import Any, Callable, Optional, Sequence, Tuple

EDGES = (0, 1, -1, 2, 63, 64, 255, 256, 1 << 31, -(1 << 31), 1 << 63, 1 << 64)
LETTERS = "ab0 _-.:/=\"'\\{}[]$,#\n\r\t\0\x1b\x7f\x85\xa0é中\u2028\ufeff\U0001f600"
DEEPEST = 5  # of what is recursive


class Strategy:
    def __init__(self, draw: Callable[[random.Random], Any]) -> None:
        self.draw = draw

    def map(self, change: Callable[[Any], Any]) -> "Strategy":
        return Strategy(lambda chosen: change(self.draw(chosen)))

    def flatmap(self, change: Callable[[Any], "Strategy"]) -> "Strategy":
        return Strategy(lambda chosen: change(self.draw(chosen)).draw(chosen))


def none() -> Strategy:
    return Strategy(lambda _chosen: None)


def booleans() -> Strategy:
    return Strategy(lambda chosen: chosen.random() < 0.5)


def integers(min_value: int = -(1 << 70), max_value: int = 1 << 70) -> Strategy:
    edges = [edge for edge in (*EDGES, min_value, max_value) if min_value <= edge <= max_value]
    return Strategy(lambda chosen: chosen.choice(edges) if chosen.random() < 0.2
                    else chosen.randint(min_value, max_value))


def floats() -> Strategy:
    return Strategy(lambda chosen: chosen.choice((0.0, -0.0, 1.5, 1e308, 5e-324, float("inf"), float("-inf"),
                                                  float("nan"), chosen.uniform(-1e6, 1e6))))


def binary(min_size: int = 0, max_size: int = 20) -> Strategy:
    return Strategy(lambda chosen: bytes(chosen.choice((chosen.randrange(256), chosen.randrange(32, 127)))
                                         for _ in range(chosen.randint(min_size, max_size))))


def text(max_size: int = 20) -> Strategy:
    return Strategy(lambda chosen: "".join(chosen.choice(LETTERS) for _ in range(chosen.randint(0, max_size))))


def sampled_from(values: Sequence[Any]) -> Strategy:
    return Strategy(lambda chosen: chosen.choice(values))


def one_of(*strategies: Any) -> Strategy:
    every = list(strategies[0]) if len(strategies) == 1 and isinstance(strategies[0], list) else list(strategies)
    return Strategy(lambda chosen: chosen.choice(every).draw(chosen))


def tuples(*strategies: Strategy) -> Strategy:
    return Strategy(lambda chosen: tuple(one.draw(chosen) for one in strategies))


def lists(inner: Strategy, min_size: int = 0, max_size: int = 5) -> Strategy:
    return Strategy(lambda chosen: [inner.draw(chosen) for _ in range(chosen.randint(min_size, max_size))])


def dictionaries(keys: Strategy, values: Strategy, max_size: int = 5) -> Strategy:
    return Strategy(lambda chosen: {keys.draw(chosen): values.draw(chosen) for _ in range(chosen.randint(0, max_size))})


def recursive(leaf: Strategy, extend: Callable[[Strategy], Strategy], max_leaves: int = 12) -> Strategy:
    strategy = leaf
    for _ in range(min(DEEPEST, max_leaves)):
        strategy = one_of(leaf, extend(strategy))
    return strategy


def tried_with(number: int, fault_of: Callable[[bytes], str], inputs: Strategy, end: float,
               shrinking: float) -> Tuple[int, Optional[Tuple[bytes, str]]]:
    """How many inputs there were with this seed, and the smallest that breaks the reader, with its fault."""
    chosen, tried = random.Random(number), 0
    while time.monotonic() < end:
        data = inputs.draw(chosen)
        tried += 1
        fault = fault_of(data)
        if fault:
            return tried, smaller(data, fault, fault_of, time.monotonic() + shrinking)
        if tried == 100:
            break
    return tried, None


def smaller(data: bytes, fault: str, fault_of: Callable[[bytes], str], end: float) -> Tuple[bytes, str]:
    """The same fault's kind with as few bytes as there is time for: parts are left out, the longest first."""
    kind, length = fault.split(":")[0], max(1, len(data) // 2)
    while length:
        at = 0
        while at < len(data) and time.monotonic() < end:
            shorter = data[:at] + data[at + length:]
            again = fault_of(shorter)
            if again.split(":")[0] == kind:
                data, fault = shorter, again
            else:
                at += length
        length //= 2
    return data, fault
