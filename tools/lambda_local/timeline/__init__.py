"""Draws what happened in lambda_local. A history or a script is read (`read`), followed by the life cycle (`world`),
and shown as a log (`text`), as trace events (`trace`), as a drawing (`drawing`, of what is `kept`), or as a page with
it (`page`)."""
from .command import main

__all__ = ["main"]
