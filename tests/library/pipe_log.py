"""A log of lambda_local up that a test reads, or leaves unread."""
import fcntl
import os

from lambda_local.up.log import Log


def pipe_log(**options):
    """A log into a pipe of 4 KiB, and the end to read it."""
    reading, writing = os.pipe()
    fcntl.fcntl(writing, 1031, 4096)  # F_SETPIPE_SZ
    return Log(stream=os.fdopen(writing, "w"), **options), os.fdopen(reading, "rb")
