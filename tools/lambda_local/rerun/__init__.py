"""Runs recorded invocations against today's functions. A history's invocations (`record`) are sent again (`play`) to
the functions of an UP.json (`functions`), and their outputs are compared (`compare`, `report`)."""
from .command import main

__all__ = ["main"]
