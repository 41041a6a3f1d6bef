"""An event that the handler of a signal may set."""
import threading


class SignalEvent:
    """As `threading.Event`, whose `set` waits for ever in a handler that runs while the same thread is in its `wait`:
    the lock here may be taken again by the thread that has it. A `wait` may not notice a `set` from a handler until its
    time is over, so that it has one."""

    def __init__(self) -> None:
        self.condition, self.is_here = threading.Condition(threading.RLock()), False

    def is_set(self) -> bool:
        return self.is_here

    def set(self) -> None:
        self.is_here = True
        with self.condition:
            self.condition.notify_all()

    def wait(self, seconds: float) -> bool:
        """Whether it is set, once it is or this time is over."""
        with self.condition:
            if not self.is_here:
                self.condition.wait(seconds)
        return self.is_here
