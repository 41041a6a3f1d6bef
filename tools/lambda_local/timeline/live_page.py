"""The live page: its frame, what is drawn in it, and the script that asks for news."""
from typing import Optional
from xml.sax.saxutils import escape

from .drawing import Drawing
from .page import count_rows, document, failures, figure, legend, summary
from .world import World

SCRIPT = """"use strict";
const drawn = document.querySelector("#drawn"), pause = document.querySelector("#pause");
const lost = document.querySelector("#lost");
let version = drawn.dataset.version, paused = false;

function box() { return drawn.querySelector(".scroll"); }

// What is new is in sight if the newest was; else the place that is looked at stays.
function show(news) {
  const before = box(), list = drawn.querySelector(".failed");
  const left = before.scrollLeft, atEnd = left + before.clientWidth >= before.scrollWidth - 60;
  const top = list ? list.scrollTop : 0;
  drawn.innerHTML = news.drawn;
  version = String(news.version);
  box().scrollLeft = atEnd ? box().scrollWidth : left;
  if (drawn.querySelector(".failed")) drawn.querySelector(".failed").scrollTop = top;
}

async function look() {
  if (!paused && !document.hidden) {
    try {
      const answer = await fetch("drawing?after=" + version);
      if (answer.status === 200) show(await answer.json());
      lost.hidden = true;
    } catch {
      lost.hidden = false;
    }
  }
  setTimeout(look, 700);
}

pause.hidden = false;
pause.addEventListener("click", () => {
  paused = !paused;
  pause.textContent = paused ? "Go on" : "Pause";
});
box().scrollLeft = box().scrollWidth;
look();
"""
STYLE = """
button{font:inherit;padding:.15rem .8rem;border:1px solid var(--line);border-radius:6px;background:var(--stripe);
color:inherit}
header{display:flex;align-items:center;gap:1rem;flex-wrap:wrap}
"""


def fragment(drawing: Drawing, world: World, limit: int, gone: Optional[str]) -> str:
    """What changes: counts, failed calls and the drawing."""
    said = ""
    if gone:
        said = (f'<p class="differs">The service has been unreachable since {escape(gone)}. Its last calls stay here; '
                "if a service answers there again, that is shown.</p>\n")
    words = "No calls yet." if world.entry < 0 else f"{summary(drawing, world)} The last {limit:,} calls are shown."
    return (f"{said}<p>{words}</p>\n{failures(drawing, newest_first=True)}{figure(drawing)}"
            f"<h2>Counts</h2>\n{count_rows(world)}\n")


def page(url: str, version: int, drawn: str) -> str:
    """The whole page. Without scripts it shows what there is when it is loaded."""
    title = f"Live timeline of {url}"
    return document(title, (
        f"<style>{STYLE}</style>\n<header><h1>{escape(title)}</h1><button id=\"pause\" "
        f"hidden=\"hidden\">Pause</button></header>\n"
        '<p class="note" id="lost" hidden="hidden">The tool that serves this page has ended: what is shown stays as it '
        'is.</p>\n'
        "<noscript><p>Reload the page to see what is new: updates need JavaScript.</p></noscript>\n"
        f"{legend()}\n<div id=\"drawn\" data-version=\"{version}\">{drawn}</div>\n<script src=\"live.js\"></script>\n"))
