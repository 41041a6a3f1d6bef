"""The last calls of a service that runs, and what goes on around them: of bounded size, however long it runs."""
from collections import deque
from typing import Deque

from ..history.entries import Entry
from ..history.opening import Configuration
from .drawing import Drawing
from .window import Window
from .world import World

ENTRIES_OF_A_CALL = 4  # the most entries kept for each call that is shown: others may be hidden, or expiries
AT_ONCE = 1000  # entries are taken before those that are not shown any more are dropped


class Recent:
    def __init__(self, configuration: Configuration, limit: int, shows_all: bool) -> None:
        self.configuration, self.limit, self.shows_all = configuration, limit, shows_all
        self.kept = Drawing(configuration)
        self.world = World(configuration, Window(shows_all=shows_all, spans=[self.kept]))
        self.tickets: Deque[int] = deque(maxlen=limit)

    def take(self, entry: Entry) -> None:
        """Follows what has come."""
        call = self.world.take(entry)
        if call is not None and not call.hidden:
            self.tickets.append(call.ticket)
        if entry.ticket % AT_ONCE == 0:
            self.forget()

    def forget(self) -> None:
        """Drops what lies before the calls that are shown."""
        first = self.tickets[0] if self.tickets else self.world.entry
        self.kept.forget(max(first, self.world.entry - ENTRIES_OF_A_CALL * self.limit))

    def drawing(self) -> Drawing:
        """What there is now, with what still goes on."""
        self.forget()
        drawing = self.kept.copied(Drawing(self.configuration))
        drawing.links = True
        self.world.finish(Window(shows_all=self.shows_all, spans=[drawing]))
        drawing.draw()
        return drawing
