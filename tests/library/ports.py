"""Free ports for tests whose services have them side by side."""
import random

from lambda_local.service import is_taken


def free_range(count):
    """Returns the first of `count` consecutive ports on which no one listens, none of them one that the system gives
    to connections."""
    with open("/proc/sys/net/ipv4/ip_local_port_range") as file:
        lowest, highest = map(int, file.read().split())
    sides = [side for side in ((20000, lowest), (highest + 1, 65536)) if side[1] - side[0] >= 10 * count]
    for _ in range(1000):
        begin, end = random.choice(sides or [(20000, 65536)])
        first = random.randrange(begin, end - count + 1)
        if not any(map(is_taken, range(first, first + count))):
            return first
    raise OSError(f"there are no {count} free ports side by side")
