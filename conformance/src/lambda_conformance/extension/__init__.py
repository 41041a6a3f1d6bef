"""Checks whether an external extension does what the Extensions API prescribes.

  lambda_local conformance extension --name NAME -- COMMAND ..                   one for INVOKE and SHUTDOWN
  lambda_local conformance extension --name NAME --events SHUTDOWN -- COMMAND ..
  lambda_local conformance extension --list                                      the checks, each with its public page

COMMAND is started for each scenario, in this folder, with the variables that Lambda sets; the kit plays the runtime
beside it. NAME is what it registers as: for Lambda the full file name of the extension. With CONFORMANCE_FAILS=init or
exit in its environment an extension may show how it reports errors (docs/conformance.md). Each check is a PASS, a FAIL,
a SHOULD if it does not do what the documents recommend, or a NOTE if they leave it open or the extension does not do
what the check is about.

Exit statuses: 0; 1 if a check is a FAIL, or with --strict a SHOULD; 2 for wrong usage, or a command that cannot be
tested; 4 if there is no program to start."""
import argparse
from typing import List

from lambda_local.service import Fault

from ..run import check_arguments, listed, parser_of, play, split
from . import another, batches, delivery, last_batches, load, reports, scenarios, telemetry
from .stage import ExtensionStage

MODULES = (scenarios, telemetry, delivery, batches, last_batches, reports, another, load)
SCENARIOS = [scenario for module in MODULES for scenario in module.SCENARIOS]

EVENTS = ("INVOKE", "SHUTDOWN")


def events(text: str) -> List[str]:
    found = [word for word in text.split(",") if word]
    if not set(found) <= set(EVENTS) or len(set(found)) < len(found):
        raise argparse.ArgumentTypeError(f"{text}: write INVOKE, SHUTDOWN or both, with a comma")
    return found


def main(words: List[str]) -> int:
    words, command = split(words)
    parser = parser_of("extension", __doc__,
                       "--name NAME [--events INVOKE,SHUTDOWN] [--init-seconds S] [--only NAME] [--strict] "
                       "[--junit FILE] [--pictures DIR] [--program P]", "2000, or as many as there are in 8 s")
    parser.add_argument("--name", metavar="NAME", help="the name under which it registers")
    parser.add_argument("--events", metavar="EVENTS", type=events, default=list(EVENTS),
                        help="what it registers for (INVOKE,SHUTDOWN)")
    options = parser.parse_args(words)
    check_arguments(options, command, SCENARIOS)
    if options.list:
        return listed(SCENARIOS)
    if not options.name:
        raise Fault(2, "write --name NAME, the name under which the extension registers")
    title = f"conformance extension {options.name}: {' '.join(command)}"
    return play("conformance extension", SCENARIOS, options, command, title, ExtensionStage)
