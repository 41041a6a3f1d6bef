"""The file descriptors of this process (`ulimit -n`), and how many requests it may answer at once by them."""
import resource

MOST, LEAST = 256, 16  # requests
A_REQUEST = 2  # descriptors: the connection by which it is handed over, and one by which a function is invoked
# Of the process itself, and of each environment: its output, the watch over it
OTHERS, AN_ENVIRONMENT = 128, 6


def most_at_once(environments: int, of_proxies: int = 0) -> int:
    """How many requests may be answered at once. The process takes more descriptors if it may, and no more than it
    needs, since what it starts has the same limit."""
    others = OTHERS + AN_ENVIRONMENT * environments + of_proxies
    soft, hard = resource.getrlimit(resource.RLIMIT_NOFILE)
    wanted = others + A_REQUEST * MOST
    if soft != resource.RLIM_INFINITY and soft < wanted:
        soft = wanted if hard == resource.RLIM_INFINITY else min(wanted, hard)
        resource.setrlimit(resource.RLIMIT_NOFILE, (soft, hard))
    left = wanted if soft == resource.RLIM_INFINITY else soft
    return max(LEAST, min(MOST, (left - others) // A_REQUEST))
