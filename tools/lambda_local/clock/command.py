"""Shows and sets the clock of a service that runs, which decides about timeouts, retries, schedules and idle time.

  lambda_local clock                  shows it
  lambda_local clock pause            stops it: nothing times out or becomes due
  lambda_local clock advance 15m      moves it forward: what is due by then happens at once
  lambda_local clock resume           lets it go on

A time is a number with a unit, ms, s, m, h or d, or several of these: 500ms, 90s, 15m, 2h, 1d, 1h30m. Each form prints
what the clock reads then, as milliseconds since 1970 and as a time, and whether it is running or paused:

  1795983304355 2026-11-29T20:15:04.355Z running

The service is that of AWS_ENDPOINT_URL_LAMBDA, which `lambda_local up` prints and sets, else http://127.0.0.1:9000.

Exit statuses: 0; 2, a fault in the arguments; 4, the service cannot be reached, or does not answer."""
import argparse
from typing import Tuple

from ..endpoint import add_option, asked
from ..outgoing import printable, tell
from ..program import Fault
from ..usage import parser_of
from .asked import PAUSE, RESUME, SETTLED, SHOW, NotClock, Reading, advance, reading_of, time_of
from .durations import EXPECTED, NotDuration, milliseconds_in

USAGE = "[OPTION..] [show | pause | resume | advance TIME]"
FORMS = {"show": SHOW, "pause": PAUSE, "resume": RESUME}
SECONDS = 60.0  # for an answer


def parser() -> argparse.ArgumentParser:
    made = parser_of("clock", __doc__, USAGE)
    made.add_argument("form", metavar="show | pause | resume | advance", nargs="?", default="show")
    made.add_argument("time", metavar="TIME", nargs="?", help="how far an advance goes: 500ms, 90s, 15m, 2h, 1d")
    add_option(made)
    return made


def request_of(options: argparse.Namespace) -> Tuple[str, str]:
    """The method and the target of what is asked."""
    if options.form == "advance":
        if options.time is None:
            raise Fault(2, f"advance: how far? {EXPECTED}")
        try:
            return advance(milliseconds_in(options.time))
        except NotDuration as fault:
            raise Fault(2, f"advance {options.time[:80]}: {fault}") from None
    if options.form not in FORMS:
        raise Fault(2, f"{options.form[:80]}: write show, pause, resume or advance TIME")
    if options.time is not None:
        raise Fault(2, f"{options.form} {options.time[:80]}: only advance has a time")
    return FORMS[options.form]


def line_of(reading: Reading) -> str:
    return f"{reading.now} {time_of(reading.now)} {'running' if reading.is_running else 'paused'}"


def ask(options: argparse.Namespace) -> Reading:
    """What the clock reads. If it is set, and `lambda_local up` runs the service, that has taken what came before, and
    begun what is due after it."""
    request = request_of(options)
    if request != SHOW:
        asked(options.endpoint, *SETTLED, seconds=SECONDS)
    status, _, body = asked(options.endpoint, *request, seconds=SECONDS)
    try:
        reading = reading_of(status, body)
        if request != SHOW:
            asked(options.endpoint, *SETTLED, seconds=SECONDS)
        return reading
    except NotClock as fault:
        if status == 400:
            raise Fault(2, f"{options.form} {options.time}: {fault.said}") from None
        if status == 404:
            raise Fault(4, "the service has no clock that can be set: its program is an older one") from None
        raise Fault(4, f"the service answers {' '.join(str(fault).split())[:300]}") from None


def main() -> int:
    try:
        print(printable(line_of(ask(parser().parse_args()))), flush=True)
        return 0
    except Fault as fault:
        tell(f"clock: {fault}")
        return fault.status
    except KeyboardInterrupt:
        return 130
    except BrokenPipeError:
        return 0  # (what reads the output has gone)
