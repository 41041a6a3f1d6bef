"""The words of a history: what a call is answered with, the kinds of calls, and the phases of environments
(docs/trace.md)."""
import enum
from typing import FrozenSet, Tuple


class Word(str, enum.Enum):
    """What an answer says, by its word."""

    DELIVER = "deliver"
    TELL = "tell"
    SHUTDOWN = "shutdown"
    REGISTERED = "registered"
    OUTPUT = "output"
    ERROR = "error"
    TIMEOUT = "timeout"
    INIT_TIMEOUT = "init-timeout"
    TOO_LARGE_OUTPUT = "too-large-output"
    THROTTLED = "throttled"
    STOPPED = "stopped"
    WITHDRAWN = "withdrawn"
    RESERVED = "reserved"
    UNRESERVED = "unreserved"
    ACCEPTED = "accepted"
    DONE = "done"
    REFUSED = "refused"

    def __str__(self) -> str:
        return str.__str__(self)


for each in Word:
    type.__setattr__(Word, each.name, each)  # (Python 3.11 calls a function for each use of a member's name)


# An invocation that was served is answered by one of these: by its function, or in its place.
SERVED: Tuple[Word, ...] = (Word.OUTPUT, Word.ERROR, Word.TIMEOUT, Word.INIT_TIMEOUT, Word.TOO_LARGE_OUTPUT)
# An invocation that was admitted ends with one of these.
ENDINGS: FrozenSet[Word] = frozenset((*SERVED, Word.STOPPED))

INVOKE, NEXT, RESPONSE, RESPONSE_TOO_LARGE, FAILURE = "invoke", "next", "response", "response-too-large", "failure"
INIT_FAILURE, REGISTER, EXT_NEXT = "init-failure", "register", "ext-next"
EXT_INIT_FAILURE, EXT_EXIT_FAILURE = "ext-init-failure", "ext-exit-failure"
WITHDRAW, SPINDOWN, RESERVE, STOP, TICK, EXPIRE = "withdraw", "spindown", "reserve", "stop", "tick", "expire"
POLLS = (NEXT, EXT_NEXT)
WAITING = (INVOKE, *POLLS)  # the calls that may wait for their answer
FAILURES = (INIT_FAILURE, EXT_INIT_FAILURE, EXT_EXIT_FAILURE)  # of an Init or of an extension
OF_EXTENSIONS = (REGISTER, EXT_NEXT, EXT_INIT_FAILURE, EXT_EXIT_FAILURE)

STARTING, IDLE, BUSY, CLOSING, OFF = "starting", "idle", "busy", "closing", "off"
PHASES = (STARTING, IDLE, BUSY, CLOSING, OFF)
SHUTDOWN_REASONS = ("TIMEOUT", "FAILURE", "SPINDOWN")
THROTTLE_REASONS = ("ReservedFunctionConcurrentInvocationLimitExceeded", "ConcurrentInvocationLimitExceeded",
                    "LocalEnvironmentLimitExceeded")
REFUSALS = ("State", "Replaced", "BadId", "Unknown", "TooLarge", "Container", "NameInUse", "TooMany", "NotIdle",
            "BadReservation")
