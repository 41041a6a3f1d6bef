"""How a tool ends: as its interpreter would, but for taking everything apart, which takes as long as a start."""
import atexit
import os
import sys
import threading


def leave(status: int) -> int:
    """Ends this process once its threads have ended, what is to be done at its end is done, and all is written. Returns
    the status if something cannot be written: then the interpreter ends it, and says so."""
    threading._shutdown()  # type: ignore[attr-defined]
    atexit._run_exitfuncs()
    try:
        for stream in (sys.stdout, sys.stderr):
            if stream is not None:
                stream.flush()
    except (OSError, ValueError):
        return status
    os._exit(status & 0xFF)
