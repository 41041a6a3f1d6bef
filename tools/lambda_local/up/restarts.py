"""When an environment's processes are started again."""
PAUSES = (1, 2, 4, 5)
MOST_WITH_RELOAD = 3  # after this many in vain, only a changed file helps


class Restarts:
    """The next generation follows at once after one that ends well, and after the first that ends early. There is a
    pause after each further early one in a row."""

    def __init__(self, waits_for_changes: bool):
        self.waits_for_changes, self.early = waits_for_changes, 0

    def note(self, ended_early: bool) -> None:
        self.early = self.early + 1 if ended_early else 0

    @property
    def needs_a_change(self) -> bool:
        return self.waits_for_changes and self.early >= MOST_WITH_RELOAD

    @property
    def pause(self) -> int:
        """Seconds until the next start."""
        return PAUSES[min(self.early - 2, len(PAUSES) - 1)] if self.early > 1 else 0
