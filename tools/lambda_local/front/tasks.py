"""Tasks that run for as long as a port or a connection does: one that ends by an exception is reported."""
import asyncio
from typing import Any, Callable, Coroutine


def begin_task(work: Coroutine[Any, Any, None], name: str, tell: Callable[[str], None]) -> "asyncio.Task[None]":
    """Begins a task in the running loop. `tell` is given a line if it ends by an exception."""
    def look(task: "asyncio.Task[None]") -> None:
        fault = None if task.cancelled() else task.exception()
        if fault is not None:
            tell(f"{name} cannot go on: {fault!r}"[:300])

    task = asyncio.get_running_loop().create_task(work)
    task.add_done_callback(look)
    return task
