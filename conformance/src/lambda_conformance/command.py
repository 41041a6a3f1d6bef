"""Checks runtimes, extensions and other local Lambdas against the public documents.

  lambda_local conformance runtime [OPTION..] -- COMMAND ..            a runtime
  lambda_local conformance extension --name NAME -- COMMAND ..         an external extension
  lambda_local conformance service --invoke URL --runtime HOST:PORT    another local Lambda

`lambda_local conformance SUBCOMMAND --help` has the options, docs/conformance.md the checks."""
import importlib
import sys

from lambda_local.outgoing import tell
from lambda_local.service import Fault

from .kit import EndedEarly

SUBCOMMANDS = ("runtime", "extension", "service")


def main() -> int:
    words = sys.argv[1:]
    if words and words[0] in ("-h", "--help"):
        print(__doc__)
        return 0
    if not words or words[0] not in SUBCOMMANDS:
        usage = "lambda_local conformance --help"
        tell(f"conformance: write one of {', '.join(SUBCOMMANDS)} as its first word (`{usage}`)")
        return 2
    try:
        return int(importlib.import_module(f"{__package__}.{words[0]}").main(words[1:]))
    except Fault as fault:
        tell(f"conformance: {fault}")
        for line in fault.wrote if isinstance(fault, EndedEarly) else ():
            tell(f"  {line}")
        return fault.status
    except BrokenPipeError:
        return 1


if __name__ == "__main__":
    sys.exit(main())
