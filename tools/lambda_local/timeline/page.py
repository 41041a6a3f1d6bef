"""The page: the drawing with its legend, its counts, and the same as text; one file that needs nothing else."""
from typing import List, Tuple
from xml.sax.saxutils import escape

from ..outgoing import several
from .call import FAILED, outcome
from .drawing import Drawing
from .style import COLOURS, DRAWING, LABELS
from .words import axis_words, length_words, moment_words, what
from .world import World

LEGEND = (
    ("good", "answered: output, accepted, done"), ("error", "the function failed"), ("timeout", "timed out"),
    ("throttled", "throttled"), ("refused", "refused"), ("handed", "a poll that got an invocation or an event"),
    ("ending", "notified that its environment ends"), ("ended", "stopped, withdrawn, or ended with its environment"),
    ("open", "no answer yet"),
)
PAGE = """
body{margin:0;padding:1rem 1.25rem 3rem;background:var(--page);color:var(--ink);
font:15px/1.5 system-ui,"Segoe UI",Helvetica,Arial,sans-serif}
h1{font-size:1.35rem;margin:.2rem 0}
p{max-width:60rem;margin:.4rem 0}
.note,.differs{border-left:4px solid var(--deadline);padding-left:.7rem}
.differs{font-weight:600}
figure{margin:1rem 0}
.scroll{display:flex;overflow-x:auto;scroll-padding:0 3rem 0 13rem;border:1px solid var(--line);border-radius:6px}
.scroll svg{flex:none;display:block}
.scroll .names{position:sticky;left:0;background:var(--page);border-right:1px solid var(--line);z-index:1}
ul{list-style:none;margin:.6rem 0;padding:0;display:flex;flex-wrap:wrap;gap:.3rem 1.2rem;font-size:.9rem}
li{display:flex;align-items:center;gap:.45rem;white-space:nowrap}
li svg{flex:none}
.failed{flex-direction:column;flex-wrap:nowrap;gap:.1rem;max-height:9.5rem;overflow:auto}
a{color:inherit}
.call:target{outline:3px solid var(--deadline);outline-offset:2px}
h2{font-size:1rem;margin:1rem 0 0}
pre{overflow-x:auto;font-size:.8rem;line-height:1.5;padding:.7rem;background:var(--stripe);border-radius:6px}
summary{cursor:pointer;margin-top:1rem}
@media (max-width:40rem){body{padding:.6rem .75rem 2rem}.legend{flex-wrap:nowrap;overflow-x:auto}
.scroll{scroll-padding-left:9rem}
.scroll .names{width:116px}.scroll .names text{font-size:10px}.scroll .names .head{font-size:9px}}
"""


def sign(kind: str, inset: int = 0) -> str:
    """Returns the sign of an outcome in a list."""
    if kind == "refused":
        shape = '<path class="cross" d="M7 4l8 8m0 -8l-8 8"/>'
    else:
        shape = f'<rect class="{kind}" x="{1 + inset}" y="2" width="{20 - 2 * inset}" height="12" rx="3"/>'
    return f'<svg width="22" height="16" aria-hidden="true">{shape}</svg>'


def legend() -> str:
    items = []
    for kind, words in LEGEND:
        items.append(f"<li>{sign(kind)}{words}</li>")
    items.append('<li><svg width="22" height="16" aria-hidden="true"><path class="reset" d="M11 0V16"/></svg>a reset, '
                 'with its reason</li>')
    items.append('<li><svg width="22" height="16" aria-hidden="true"><path class="deadline" stroke-dasharray="2 3" '
                 'd="M0 9H18"/><path class="deadline" d="M18 4v9"/></svg>a deadline</li>')
    items.append('<li><svg width="22" height="16" aria-hidden="true"><rect class="handed" x="1" y="5" width="20" '
                 'height="6" rx="3"/></svg>a thin bar: a poll waits</li>')
    items.append('<li><svg width="22" height="16" aria-hidden="true"><path class="mark good" d="M11 2l6 6l-6 6l-6 '
                 '-6z"/></svg>a call that is answered at once</li>')
    return '<ul class="legend">' + "".join(items) + "</ul>"


def count_rows(world: World) -> str:
    """How many calls of each kind ended how."""
    counts = sorted(world.outcomes.items(), key=lambda item: (item[0][0] != "invoke", item[0]))
    rows = [(f"{kind}: {word}", count) for (kind, word), count in counts]
    rows += [("no answer yet", len(world.open)), ("refused: the journal is full", world.refused_full)]
    return "<ul>" + "".join(f"<li>{escape(words)} <b>{count:,}</b></li>" for words, count in rows if count) + "</ul>"


def failures(drawing: Drawing, newest_first: bool = False) -> str:
    """The failed calls that are drawn, each with a link to its place."""
    failed = [(call.end, f"call-{call.ticket}", outcome(call), what(drawing.configuration, call), call.said)
              for call in drawing.calls if outcome(call) in FAILED]
    failed += [(moment, f"full-{i}", "refused", words, "the journal is full")
               for i, (moment, words) in enumerate(drawing.refused)]
    if not failed:
        return ""
    items = "".join(f'<li>{sign(kind, 2)}<a href="#{place}">{axis_words(moment, drawing.zero or 0)}: {escape(words)}: '
                    f'{escape(said)}</a></li>'
                    for moment, place, kind, words, said in sorted(failed, key=lambda each: each[0],
                                                                   reverse=newest_first))
    return f"<h2>Failed: {len(failed):,}</h2>\n<ul class=\"failed\">{items}</ul>\n"


def figure(drawing: Drawing) -> str:
    """The drawing, with its labels in a column that stays while the rest is scrolled."""
    return (f'<figure><div class="scroll" tabindex="0">\n<svg class="names" xmlns="http://www.w3.org/2000/svg" '
            f'width="{LABELS}" height="{drawing.height:.0f}">\n' + "\n".join(drawing.labels)
            + f'\n</svg>\n<svg xmlns="http://www.w3.org/2000/svg" width="{drawing.width:.0f}" '
            f'height="{drawing.height:.0f}" role="img" aria-label="the calls as spans over time">\n'
            + "\n".join(drawing.chart) + "\n</svg>\n</div></figure>\n")


def summary(drawing: Drawing, world: World) -> str:
    """How much there is, and how much of it is drawn."""
    invokes = sum(count for (kind, _), count in world.outcomes.items() if kind == "invoke")
    invokes += sum(call.kind == "invoke" for call in world.open.values())
    words = (f"{several(world.calls, 'call')}, {invokes:,} of them invocations, in {world.entry + 1:,} "
             f"{'entry' if world.entry == 0 else 'entries'}.")
    if drawing.moments:
        words += (f" Drawn: {length_words(drawing.moments[-1] - drawing.moments[0])}, from "
                  f"{moment_words(drawing.moments[0])} to {moment_words(drawing.moments[-1])}.")
    return words


def scale_words(drawing: Drawing) -> str:
    if drawing.scale == "time":
        return "The axis is true to scale."
    return ("The axis is not to scale: each entry has a place of its own, and a longer wait is drawn wider, "
            "but not in proportion.")


def document(title: str, body: str) -> str:
    return ('<!DOCTYPE html>\n<html xmlns="http://www.w3.org/1999/xhtml" lang="en">\n<head>\n<meta charset="utf-8"/>\n'
            '<meta name="viewport" content="width=device-width, initial-scale=1"/>\n<meta name="color-scheme" '
            'content="light dark"/>\n'
            f"<title>{escape(title)}</title>\n<style>{COLOURS}{DRAWING}{PAGE}</style>\n</head>\n"
            f"<body>\n{body}</body>\n</html>\n")


def html(drawing: Drawing, world: World, notes: List[Tuple[str, str]], log: List[str]) -> str:
    """The page: `notes` are pairs of a class and a text, `log` the lines of the text."""
    drawing.links = True
    drawing.draw()
    remarks = " ".join(words for kind, words in notes if not kind)
    told = "".join(f'<p class="{kind}">{escape(words)}</p>\n' for kind, words in notes if kind)
    return document(drawing.name, (
        f"<h1>{escape(drawing.name)}</h1>\n<p>{summary(drawing, world)} {escape(remarks)} {scale_words(drawing)} Rest "
        f"the pointer on a thing to read more of it.</p>\n{told}{legend()}\n{failures(drawing)}{figure(drawing)}"
        f"<h2>Counts</h2>\n{count_rows(world)}\n"
        f"<details><summary>The same as text</summary><pre>{escape(''.join(log))}</pre></details>\n"))
