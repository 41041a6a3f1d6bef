"""Draws what happened in lambda_local: a history or a script as a picture, as a trace, or as a log.

  curl -s http://127.0.0.1:9000/_local/history | lambda_local timeline -o timeline.html
  lambda_local timeline examples/timeout.txt                 one line an event
  lambda_local timeline --trace -o trace.json history.txt    for https://ui.perfetto.dev or chrome://tracing
  lambda_local timeline --svg -o picture.svg script.txt      the drawing alone
  lambda_local timeline --otlp -o spans.json history.txt     for a collector of OpenTelemetry
  lambda_local timeline --from +1.5 --to +2 history.txt      half a second of it
  lambda_local timeline --live http://127.0.0.1:9000         a page that follows a running service, until Ctrl-C

What is shown is the program's trace of the calls (docs/trace.md), or one that was saved (--answers). A history (what
GET /_local/history gives) has its answers in it: if its replay answers otherwise, as after an edit, the page and the
text say so. docs/formats.md has both formats, docs/timeline.md shows pictures.

A MOMENT is one of the history, in milliseconds (1795556558434), or +SECONDS from its first entry (+1.5).

Exit statuses: 0; 2 for a fault in the arguments or in the input; 3 if a trace is none, or not of the
calls; 4 if the program could not be run or the output not be written.
"""
import argparse
import contextlib
import gc
import os
import re
import sys
import time
from typing import Callable, Iterable, Iterator, List, Optional, Sequence, TextIO, Tuple

from .. import outgoing
from ..history.comparison import answers_of, compared
from ..history.entries import Entry
from ..history.replay import Traced
from ..history.script import Script, opened
from ..history.words import WAITING
from ..outgoing import written
from ..program import Fault, program_path
from ..usage import parser_of
from .drawing import Drawing, svg
from .live import serve
from .otlp import Otlp
from .page import html
from .refused import Refused, with_refusals
from .rest import Rest
from .sink import Sink
from .text import Text
from .trace import Trace
from .window import Moment, Window
from .world import World

Closing = List[Callable[[], object]]
Say = Callable[[str], object]
MOST_DRAWN, MOST_LIVE = 1000, 300  # calls in a drawing, and on a live page, if nothing else is asked
DIFFERS = "differs"
OBJECTS = 100_000  # that are made before those in circles are looked for: entries are in none


def moment(word: str) -> Moment:
    """A MOMENT of the command line."""
    match = re.fullmatch(r"(\+?)(\d+)(?:\.(\d{1,3}))?", word)
    if not match or (match[3] and not match[1]):
        raise argparse.ArgumentTypeError(f"{word!r} is not a moment: write milliseconds as in the history, such as "
                                         "1795556558434, or +SECONDS from its first entry, such as +1.5")
    if match[1]:
        return Moment(1000 * int(match[2]) + int((match[3] or "0").ljust(3, "0")), True)
    return Moment(int(match[2]), False)


def arguments(words: Optional[Sequence[str]] = None) -> argparse.Namespace:
    """What is asked for, by these words or those of the command line."""
    parser = parser_of("timeline", __doc__)
    form = parser.add_mutually_exclusive_group()
    for name, meaning in (("text", "one line an event (the default)"),
                          ("trace", "trace-event JSON for Perfetto and chrome://tracing"),
                          ("html", "one self-contained page"), ("svg", "the drawing alone"),
                          ("otlp", "OpenTelemetry's traces as OTLP/JSON: a span for each invocation, Init and "
                                   "shutdown")):
        form.add_argument(f"--{name}", dest="form", action="store_const", const=name, help=meaning)
    parser.add_argument("-o", metavar="FILE", dest="output", help="write there; .html, .json and .svg choose the form")
    given = parser.add_mutually_exclusive_group()
    given.add_argument("--program", metavar="P",
                       help="have the calls traced by this program (else LAMBDA_LOCAL_PROGRAM, else the one that comes "
                            "with the tools)")
    given.add_argument("--answers", metavar="FILE", help="take what happened from a trace that was saved")
    parser.add_argument("--script", action="store_true",
                        help="read the input as a script, though it looks like a history: its answers are not compared")
    parser.add_argument("--limit", metavar="N", type=int,
                        help=f"show at most this many calls (a drawing: {MOST_DRAWN:,}; else all)")
    parser.add_argument("--from", metavar="MOMENT", type=moment, dest="begin",
                        help="show what happened from this moment on")
    parser.add_argument("--to", metavar="MOMENT", type=moment, dest="end", help="show what happened up to this moment")
    parser.add_argument("--all", action="store_true",
                        help="show what lambda_local up itself does as well: the extension lambda_local.up")
    parser.add_argument("--live", metavar="URL",
                        help=f"show the last calls of the service at this address (--limit, else {MOST_LIVE})")
    parser.add_argument("--scale", choices=("entries", "time"), default="entries",
                        help="a place for each entry, or an axis true to scale")
    parser.add_argument("input", nargs="?", default="-", help="a history or a script (standard input)")
    chosen = parser.parse_args(words)
    by_name = {".html": "html", ".json": "trace", ".svg": "svg"}
    chosen.form = chosen.form or by_name.get(os.path.splitext(chosen.output or "")[1], "text")
    if chosen.limit is not None and chosen.limit < 1:
        parser.error("--limit is at least 1")
    if chosen.begin and chosen.end and chosen.begin.is_after(chosen.end):
        parser.error("--to is before --from")
    if chosen.live:
        refuse_beside_live(parser, chosen)
    return chosen


def refuse_beside_live(parser: argparse.ArgumentParser, chosen: argparse.Namespace) -> None:
    """A live page takes --limit and --all alone."""
    given = {"-o": chosen.output, "--program": chosen.program, "--answers": chosen.answers, "--script": chosen.script,
             "--from": chosen.begin, "--to": chosen.end, "an input": chosen.input != "-",
             f"--{chosen.form}": chosen.form != "text", "--scale time": chosen.scale == "time"}
    for name, value in given.items():
        if value:
            parser.error(f"--live shows a running service: leave out {name}")


def watched(entries: Iterable[Entry]) -> Iterator[Entry]:
    """The entries; on a terminal, how many have been read where that takes longer than a second."""
    last, shows = time.monotonic(), sys.stderr.isatty()
    for n, entry in enumerate(entries):
        if shows and n % 4096 == 0 and time.monotonic() - last > 1:
            last = time.monotonic()
            print(f"\rtimeline: {n:,} entries ..", end="", file=sys.stderr, flush=True)
        yield entry


def opened_script(chosen: argparse.Namespace, closing: Closing, say: Say, data: Optional[bytes]) -> Tuple[Script, bool]:
    """What is read, and whether it is a history: then a line that is cut off is left out."""
    script = Script(chosen.input, data)
    closing.append(script.close)
    is_history = script.configuration.is_of_a_history and not (chosen.answers or chosen.script)
    if is_history and (cut := script.leave_out_cut_line()):
        say(f"line {cut} has no line end, so it may be cut off: ignored")
    return script, is_history


def traced(chosen: argparse.Namespace, script: Script, closing: Closing) -> Traced:
    """The entries, as the program traces them, or as a file has them."""
    if chosen.answers:
        file = opened(chosen.answers, "a trace")
        closing.append(file.close)
        return Traced(script, trace=file)
    made = Traced(script, program_path(chosen.program))
    closing.append(made.close)
    return made


def follow(chosen: argparse.Namespace, script: Script, is_history: bool, sink: Window,
           closing: Closing) -> Tuple[World, List[Tuple[str, str]]]:
    """Follows the input to its end. Gives the world, and what is to be said of it: pairs of a class and a text."""
    source, world = traced(chosen, script, closing), World(script.configuration, sink)
    entries = watched(source)
    if is_history:
        has_answers = next(answers_of(script), None) is not None
        for entry in entries:
            if not has_answers and entry.own and entry.call.kind not in WAITING:
                raise Fault(2, f"{chosen.input} begins like a history but has no answers: if it is a script, add "
                               "--script")
            world.take(entry)
            if sink.is_over and has_answers:
                Rest(world, sink).take_all(source.rest())
                break
    else:
        for one in with_refusals(script, entries):
            if isinstance(one, Refused):
                world.full(one.moment, one.words)
            else:
                world.take(one)
    world.finish(sink)
    notes = [differences(script, program_path(chosen.program))] if is_history else []
    return world, notes + [("note", words) for words in [sink.left_out()] if words]


def differences(script: Script, program: str) -> Tuple[str, str]:
    """A class and a text: what a comparison of the history with its replay says."""
    words = compared(script, program).difference
    if words is None:
        return "", "Its replay gives the same answers."
    return DIFFERS, f"This history differs from its replay: {words}. What is shown is the replay."


def tell(words: str) -> None:
    outgoing.tell(f"timeline: {words}")


def run(chosen: argparse.Namespace, write: Say, closing: Closing, say: Say = tell,
        data: Optional[bytes] = None) -> None:
    """Writes what is asked for, of these bytes if there are some, and says what is to be said beside it."""
    script, is_history = opened_script(chosen, closing, say, data)
    configuration, limit = script.configuration, chosen.limit
    log: List[str] = []

    def window(events: Sequence[Sink] = (), spans: Sequence[Sink] = ()) -> Window:
        return Window(chosen.begin, chosen.end, limit, chosen.all, events, spans)
    if chosen.form == "text":
        sink = window(events=[Text(configuration, write)])
    elif chosen.form == "trace":
        sink = window(spans=[Trace(configuration, write)])
    elif chosen.form == "otlp":
        sink = window(spans=[Otlp(configuration, write)])
    else:
        drawing = Drawing(configuration, chosen.scale)
        drawing.name = "Timeline" if chosen.input == "-" else f"Timeline of {os.path.basename(chosen.input)}"
        limit = limit or MOST_DRAWN
        sink = window(events=[Text(configuration, log.append)] if chosen.form == "html" else [], spans=[drawing])
    world, notes = follow(chosen, script, is_history, sink, closing)
    if chosen.form == "svg":
        write(svg(drawing))
    elif chosen.form == "html":
        write(html(drawing, world, notes, log))
    for kind, words in notes:
        if chosen.form == "text" and kind == DIFFERS:
            write(words + "\n")
        elif kind:
            say(words)


def drawn(history: str, *words: str) -> str:
    """What it writes of a history, asked for by these words. Raises what ends it."""
    written: List[str] = []
    closing: Closing = []
    try:
        run(arguments(words), written.append, closing, lambda _: None, history.encode())
    finally:
        for close in closing:
            close()
    return "".join(written)


@contextlib.contextmanager
def output_of(path: Optional[str]) -> Iterator[TextIO]:
    """What is written to: a file, which is there once it is whole, or standard output."""
    if path is not None:
        with written(path) as file:
            yield file
        return
    with open(sys.stdout.fileno(), "w", encoding="utf-8", closefd=False) as file:
        yield file


def main() -> int:
    chosen = arguments()
    closing: Closing = []
    gc.set_threshold(OBJECTS)
    try:
        if chosen.live:
            return serve(chosen.live, chosen.limit or MOST_LIVE, chosen.all)
        try:
            with output_of(chosen.output) as out:
                run(chosen, out.write, closing)
        except BrokenPipeError:
            os.dup2(os.open(os.devnull, os.O_WRONLY), sys.stdout.fileno())
            return 4
        except OSError as fault:
            raise Fault(4, f"{chosen.output or 'standard output'}: {fault.strerror}") from None
    except Fault as fault:
        tell(str(fault))
        return fault.status
    except KeyboardInterrupt:
        return 130
    finally:
        for close in closing:
            close()
    return 0
