"""lambda_local up: a service with a runtime for each environment, kept alive. `command` has its words and options,
`session` one run from the start to the end; a newcomer reads on in `environments`."""
from .command import main

__all__ = ["main"]
