"""Replays a saved history and compares with its own answers: a regression test of what a service did.

  lambda_local check HISTORY     HISTORY as GET /_local/history gives it, or `-` for standard input

A history is a script that contains its answers, in lines `# ENTRY TICKET WORDS`; other lines that begin with `#` are
comments. The given program answers its calls again, and each answer is compared with the one at the same place.

Exit statuses: 0, the answers are the same; 1, they differ, and the first difference is named with its line; 2, this is
not a history; 4, the program could not be started or ended otherwise."""
import sys

from .history.comparison import compared
from .history.script import FORM_2, Script
from .outgoing import printable, several, tell
from .program import Fault, program_path
from .usage import parser_of


def check(path: str, program: str) -> int:
    """Compares a history with its replay, says what came of it, and returns the status."""
    script = Script(path, of="a history")
    try:
        first = script.line(1) or b""
        if first != FORM_2 and not first.startswith(b"{"):
            raise Fault(
                2, f"{path}: line 1 must be `form 2` or a configuration: a history is what GET /_local/history returns")
        seen = compared(script, program)
    finally:
        script.close()
    if seen.answers and not seen.saved:
        raise Fault(2, f"{path}: this script has no answers to compare: no line has the form `# ENTRY TICKET WORDS`")
    if seen.difference:
        tell(f"check: {path}: {seen.difference}")
        return 1
    print(printable(f"{path}: the replay gives the same {several(seen.answers, 'answer')}"))
    return 0


def main() -> int:
    """Compares the history that the command line names."""
    parser = parser_of("check", __doc__)
    parser.add_argument("history", metavar="HISTORY")
    parser.add_argument("--program", metavar="P",
                        help="the program (default: LAMBDA_LOCAL_PROGRAM, else the repository's ./lambda_local)")
    options = parser.parse_args()
    try:
        return check(options.history, program_path(options.program))
    except Fault as fault:
        tell(f"check: {fault}")
        return fault.status


if __name__ == "__main__":
    sys.exit(main())
