"""Sends the invocations of a recorded history to today's functions, and compares what they answer.

  lambda_local rerun history.txt UP.json                          with the concurrency that was recorded
  lambda_local rerun --one-by-one history.txt UP.json             one at a time
  lambda_local rerun --ignore /time --ignore '/items/*/id' ..     ignoring these members of outputs
  lambda_local rerun --exact history.txt UP.json                  comparing whole error reports, with their stacks
  lambda_local rerun --update history.txt UP.json                 writes the new history over the old one

HISTORY is what GET /_local/history gives, and what `lambda_local up --history FILE` saves. UP.json is that of
`lambda_local up`. Invocations that reached no function then (throttled, stopped, not answered) are not sent.
docs/rerun.md has an example.

Each invocation is equal; changed, with what differs by JSON pointer; failed now (with what), or failed then.
Exit statuses: 0, all are equal; 1, something differs; 2, a fault in the arguments or the files, or the functions could
not be run to the end; 4, there is no program to start."""
import argparse
import io
import sys

from ..outgoing import tell, written
from ..program import Fault, NoProgram
from ..usage import parser_of
from .again import rerun
from .compare import pointer_of
from .functions import Functions
from .record import read
from .report import EQUAL, text_of, write_junit


def options_of() -> argparse.Namespace:
    parser = parser_of("rerun", __doc__)
    parser.add_argument("history", metavar="HISTORY")
    parser.add_argument("up", metavar="UP.json")
    parser.add_argument("--one-by-one", action="store_true", help="never two invocations at once")
    parser.add_argument("--ignore", metavar="POINTER", action="append", default=[],
                        help="leave this member of outputs out of the comparison; * is any member (may be repeated)")
    parser.add_argument("--exact", action="store_true",
                        help="compare error reports as a whole, and not by type and message alone")
    parser.add_argument("--update", action="store_true", help="write the new history over HISTORY")
    parser.add_argument("--junit", metavar="FILE", help="write a report for CI systems")
    parser.add_argument("--ready", metavar="SECONDS", type=float, default=60,
                        help="wait up to SECONDS for the functions (60)")
    parser.add_argument("--verbose", action="store_true",
                        help="show the lines of lambda_local up and of the functions")
    parser.add_argument("--program", metavar="P",
                        help="the program (default: LAMBDA_LOCAL_PROGRAM, else the one that comes with the tools)")
    return parser.parse_args()


def write(path: str, text: str) -> None:
    """Writes a history over the one that was recorded."""
    try:
        with written(path) as file:
            file.write(text)
    except OSError as fault:
        raise Fault(2, f"--update: {path}: {fault.strerror}") from None


def run(options: argparse.Namespace) -> int:
    pointers = [pointer_of(text) for text in options.ignore]
    recording = read(options.history, options.program)
    functions = Functions(options.up, recording, options.program, options.ready, options.verbose)
    results, history, notes = functions.used(
        lambda: rerun(functions.service, recording, pointers, options.one_by_one, functions.happened.is_set,
                      options.exact))
    print("\n".join([*text_of(results, recording), *notes]))
    if options.junit:
        write_junit(options.junit, results)
    if options.update:
        write(options.history, history)
    return 0 if all(result.verdict == EQUAL for result in results) else 1


def main() -> int:
    """Runs again what the command line names."""
    options = options_of()
    if isinstance(sys.stdout, io.TextIOWrapper):
        sys.stdout.reconfigure(errors="backslashreplace")
    try:
        return run(options)
    except Fault as fault:
        tell(f"rerun: {fault}")
        return fault.status if fault.status > 128 or isinstance(fault, NoProgram) else 2
