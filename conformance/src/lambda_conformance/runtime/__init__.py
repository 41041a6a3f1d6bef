"""Checks whether a runtime does what the Runtime API prescribes.

  lambda_local conformance runtime -- COMMAND ..           all checks
  lambda_local conformance runtime --only error_type --pictures failed -- COMMAND ..
  lambda_local conformance runtime --list                  the checks, each with its public page

COMMAND is started for each scenario, in this folder, with the variables that Lambda sets; it runs the handler of the
kit (docs/conformance.md defines it, examples/conformance has it for four runtimes). Each check is a PASS, a FAIL, a
SHOULD if it does not do what the documents recommend, as some clients of AWS's own, or a NOTE if they leave it open.

Exit statuses: 0; 1 if a check is a FAIL, or with --strict a SHOULD; 2 for wrong usage, or a command that cannot be
tested; 4 if there is no program to start."""
from typing import List

from ..run import check_arguments, listed, parser_of, play, split
from . import another, connections, context, errors, failed_inits, first, life, load, payloads, refusals

MODULES = (first, payloads, context, errors, failed_inits, life, refusals, connections, another, load)
SCENARIOS = [scenario for module in MODULES for scenario in module.SCENARIOS]


def main(words: List[str]) -> int:
    words, command = split(words)
    parser = parser_of("runtime", __doc__,
                       "[--init-seconds S] [--only NAME] [--strict] [--junit FILE] [--pictures DIR] [--program P]",
                       "1000, or as many as there are in 6 s")
    options = parser.parse_args(words)
    check_arguments(options, command, SCENARIOS)
    if options.list:
        return listed(SCENARIOS)
    return play("conformance runtime", SCENARIOS, options, command, f"conformance runtime: {' '.join(command)}")
