"""The drawing: a row for each caller, environment, runtime and extension, as the elements of an SVG."""
import bisect
from typing import Dict, List, Optional, Tuple
from xml.sax.saxutils import escape, quoteattr

from ..history.words import POLLS, Word
from .call import FAILED, Call, Lane, outcome
from .kept import Band, Kept, Step
from .labels import short_names, without_middle
from .style import COLOURS, DRAWING, LABELS, LANE, LETTER, width_of
from .words import WALL_CLOCK, extension_words, length_words, payload_words, since_words, what, who
from .world import Work


class Drawing(Kept):
    """Draws what is kept."""

    name = "Timeline"
    links = False  # whether what failed has a name that a link can lead to

    def moment(self, moment: int) -> str:
        return since_words(moment, self.zero)

    def rows(self) -> List[Tuple[int, str, str, Lane]]:
        """The rows from top to bottom: (height, label, class of the label, key)."""
        lanes = {call.lane for call in self.calls}
        rows: List[Tuple[int, str, str, Lane]] = [(18, "", "muted", ("axis",))]
        callers = sorted(lane for lane in lanes if lane[0] == "caller")
        rows += [(LANE, f"caller {lane[1]}", "", lane) for lane in callers]
        if ("account",) in lanes or self.refused:
            rows.append((LANE, "account", "", ("account",)))
        for f in sorted({step.function for step in self.steps}):
            rows.append((LANE, f"reserved for {self.configuration.names[f]}", "", ("reserved", f)))
        for e, f in enumerate(self.configuration.owners, 1):
            own = [lane for lane in lanes if lane[0] in ("environment", "runtime", "extension") and lane[1] == e]
            if not own and len(self.configuration.owners) > 8:
                continue
            rows.append((20, f"{self.configuration.names[f]} \u00b7 environment {e}", "head", ("why", e)))
            rows.append((LANE, "phase", "", ("environment", e)))
            rows.append((LANE, "runtime", "", ("runtime", e)))
            names = {lane[2]: None for call in self.calls for lane in [call.lane] if lane[0] == "extension"
                     and lane[1] == e}
            rows += [(LANE, extension_words(name), "", ("extension", e, name)) for name in names]
        return rows

    def short(self, label: str, room: int, key: Lane) -> str:
        """A label in so many letters. Of an environment's the name comes first, and at last its number."""
        if len(label) <= room:
            return label
        if key[0] == "why":
            number = f" \u00b7 {key[1]}"
            names = short_names(self.configuration.names, room - len(number))
            return names[self.configuration.names[self.configuration.owners[key[1] - 1]]] + number
        if key[0] == "reserved":
            begin = "reserved for "
            return begin + short_names(self.configuration.names, room - len(begin))[self.configuration.names[key[1]]]
        return without_middle(label, room)

    def draw(self) -> None:
        """The labels and the chart, each as the elements of an SVG, and the height of both."""
        self.labels: List[str] = []
        self.chart: List[str] = []
        self.tops: Dict[Lane, int] = {}
        top = 8
        rows = self.rows()
        for i, (height, label, kind, key) in enumerate(rows):
            if key[0] == "why":
                top += 8
                self.chart.append(f'<path class="grid" d="M0 {top - 2}H{self.width:.0f}"/>')
                self.labels.append(f'<path class="grid" d="M0 {top - 2}H{LABELS}"/>')
            self.tops[key] = top
            if key[0] in ("caller", "account", "reserved", "runtime", "extension"):
                self.chart.append(
                    f'<rect class="stripe" x="0" y="{top + 2}" width="{self.width:.0f}" height="{height - 4}"/>')
            room = int((LABELS - (12 if kind == "head" else 24)) / (7.4 if kind == "head" else LETTER))
            short = self.short(label, room, key)
            indent = 6 if kind == "head" else 16
            title = f"<title>{escape(label)}</title>" if short != label else ""
            self.labels.append(
                f'<text class="{kind}" x="{indent}" y="{top + height / 2 + 4:.0f}">{escape(short)}{title}</text>')
            top += height
        self.height = top + 26
        self.draw_axis(top)
        taken: Dict[Lane, List[Tuple[float, float]]] = {}  # per lane, what is where: no label is written over it
        for band in self.bands:
            self.draw_band(band)
        for worked in self.works:
            taken.setdefault(worked.work.lane, []).append((self.x(worked.work.entry), self.x(worked.entry)))
        for call in self.calls:
            taken.setdefault(call.lane, []).append((self.x(call.entry), self.x(call.end_entry)))
        self.occupied = {lane: sorted(spans) for lane, spans in taken.items()}
        self.draw_steps()
        for worked in self.works:
            self.draw_work(*worked)
        for call in self.calls:
            self.draw_call(call)
        self.draw_resets()
        for i, (moment, words) in enumerate(self.refused):
            place = self.x_of_moment(moment)
            shape = self.cross(self.width - 24 if place is None else place, self.tops[("account",)])
            self.put("full refused", f"{words}\nrefused: the journal is full", shape, name=f"full-{i}")

    def put(self, kind: str, title: str, *shapes: str, name: Optional[str] = None) -> None:
        named = f' id="{name}"' if name and self.links else ""
        self.chart.append(f'<g class={quoteattr(kind)}{named}><title>{escape(title)}</title>{"".join(shapes)}</g>')

    def room(self, lane: Lane, x: float) -> float:
        """How much room a lane has right of a place; none where something is drawn over it."""
        spans = self.occupied.get(lane, [])
        i = bisect.bisect_right(spans, (x + 0.5, float("inf")))
        if any(right > x + 0.5 for _, right in spans[max(0, i - 8):i]):
            return 0
        return (spans[i][0] - 6 if i < len(spans) else self.width) - x

    def beside(self, lane: Lane, x: float, *labels: str) -> str:
        """The first of some labels that has room right of a mark."""
        room = self.room(lane, x)
        for label in labels:
            if width_of(label) + 8 <= room:
                return f'<text class="muted" x="{x + 9:.1f}" y="{self.tops[lane] + 15}">{escape(label)}</text>'
        return ""

    def draw_axis(self, bottom: int) -> None:
        top, right = self.tops[("axis",)], -100.0
        clock = bool(self.moments) and self.zero in WALL_CLOCK
        self.labels.append(
            f'<text class="muted" x="16" y="{bottom + 16}">{"seconds" if clock else "milliseconds"}</text>')
        last = None
        for moment, x in zip(self.moments, self.places):
            if moment == last:
                continue
            last = moment
            words = f"{(moment - (self.zero or 0)) / 1000:.3f}" if clock else str(moment)
            half = width_of(words) / 2
            if x - half < right + 4 or x - half < 0 and right > 0:
                continue
            right = x + half
            self.chart.append(f'<path class="grid" d="M{x:.1f} {top + 16}V{bottom + 4}"/>')
            for y in (top + 11, bottom + 16):
                self.chart.append(
                    f'<text class="muted" x="{max(x, half):.1f}" y="{y}" text-anchor="middle">{words}</text>')

    def draw_band(self, band: Band) -> None:
        key, phase = ("environment", band.environment), band.phase
        if key not in self.tops or band.since_entry == band.entry:
            return
        left, right, top = self.x(band.since_entry), self.x(band.entry), self.tops[key]
        if right <= left:
            return
        name = phase + (f": {band.reason}" if band.reason else "")
        title = (f"{self.configuration.place(band.environment)}, generation {band.generation}\n{name}\n"
                 f"{self.moment(band.since)} to {self.moment(band.moment)}: {length_words(band.moment - band.since)}")
        if band.deadline is not None:
            title += f"\nat most until {self.moment(band.deadline)}"
        shapes = [f'<rect class="{phase}" x="{left:.1f}" y="{top + 3}" width="{right - left:.1f}" height="16" rx="3"/>']
        for words in (name, phase):
            if width_of(words) <= right - left:
                shapes.append(f'<text x="{left + 4:.1f}" y="{top + 15}">{words}</text>')
                break
        if band.deadline is not None and phase != "Busy" and (band.entry is None or band.deadline <= band.moment):
            shapes.append(self.deadline_shape(left, band.deadline, top + 21))
        self.put("phase", title, *shapes)

    def deadline_shape(self, left: float, deadline: int, y: int) -> str:
        x = self.x_of_moment(deadline)
        if x is None:
            right = self.width - 10
            return f'<path class="deadline" stroke-dasharray="2 3" d="M{left:.1f} {y}H{right:.1f}m-5 -3l5 3l-5 3"/>'
        return (f'<path class="deadline" stroke-dasharray="2 3" d="M{left:.1f} {y}H{x:.1f}"/>'
                f'<path class="deadline" d="M{x:.1f} {y - 4}v7"/>')

    def draw_steps(self) -> None:
        """A function's reservation, from one change to the next."""
        by_function: Dict[int, List[Step]] = {}
        for step in self.steps:
            by_function.setdefault(step.function, []).append(step)
        for f, steps in by_function.items():
            if ("reserved", f) not in self.tops:
                continue
            top = self.tops[("reserved", f)]
            for i, step in enumerate(steps):
                left = self.x(step.entry)
                right = self.x(steps[i + 1].entry) if i + 1 < len(steps) else self.width - 24
                if right <= left or step.reserved is None:
                    continue
                words = str(step.reserved)
                text = (f'<text x="{left + 4:.1f}" y="{top + 15}">{words}</text>'
                        if width_of(words) <= right - left else "")
                self.put("step", f"{self.configuration.names[f]}: {words} reserved from {self.moment(step.moment)} on",
                         f'<rect class="ended" x="{left:.1f}" y="{top + 4}" width="{right - left:.1f}" height="15" '
                         f'rx="3"/>', text)

    def draw_work(self, work: Work, moment: int, entry: Optional[int]) -> None:
        if work.lane not in self.tops:
            return
        left, right, top = self.x(work.entry), self.x(entry), self.tops[work.lane]
        kind = work.outcome if work.lane[0] == "runtime" else ("ending" if work.name.isupper() else "handed")
        title = (f"works on {work.name}\n{self.moment(work.moment)} to {self.moment(moment)}: "
                 f"{length_words(moment - work.moment)}\nat most until {self.moment(work.until)}")
        shapes = []
        if work.lane[0] == "runtime" or kind == "ending":
            if entry is None or moment >= work.until:
                shapes.append(self.deadline_shape(left, work.until, top + 21))
        if right > left:
            shapes.append(f'<rect class="work {kind}" x="{left:.1f}" y="{top + 3}" width="{right - left:.1f}" '
                          f'height="15" rx="2"/>')
            if width_of(work.name) <= right - left - 4:
                shapes.append(f'<text x="{left + 7:.1f}" y="{top + 14}">{escape(work.name)}</text>')
        if shapes:
            self.put("works", title, *shapes)

    def draw_call(self, call: Call) -> None:
        kind = outcome(call)
        name = f"call-{call.ticket}" if kind in FAILED else None
        is_cut = self.is_after(call.end_entry)
        kind = "open" if is_cut else kind
        left, right = self.x(call.entry), self.x(call.end_entry)
        words = what(self.configuration, call)
        title = f"{who(self.configuration, call)}: {words}\ncall {call.ticket}, {self.moment(call.moment)}"
        if call.end_entry != call.entry:
            title += f" to {self.moment(call.end)}: {length_words(call.end - call.moment)}"
        title += f"\n{call.said or 'no answer yet'}"
        if payload := payload_words(call):
            title += f"\npayload: {payload}"
        top = self.tops[call.lane]
        if right - left < 1:
            short = {"ext-next": "next", "response-too-large": "too large", "ext-exit-failure": "exit",
                     "ext-init-failure": "init failure"}
            label = short.get(call.kind, words if call.kind in ("reserve", "invoke") else call.kind)
            labels = [label]
            if call.answer and kind in ("refused", "throttled", "ended"):
                why = str(call.answer.reason if call.answer.word is Word.REFUSED else call.answer.word)
                labels = [f"{label}: {why}", why]
            text = self.beside(call.lane, left, *labels)
            if kind == "refused":
                shape = self.cross(left, top)
            else:
                shape = f'<path class="mark {kind}" d="M{left:.1f} {top + 5}l6 6l-6 6l-6 -6z"/>'
            self.put(f"call {kind}", title, shape, text, name=name)
        elif call.kind in POLLS:
            shape = f'<rect class="{kind}" x="{left:.1f}" y="{top + 8}" width="{right - left:.1f}" height="6" rx="3"/>'
            self.put(f"call {kind}", title, shape, name=name)
        else:
            answer = "is answered later" if is_cut else str(call.answer.word) if call.answer else "no answer yet"
            text = ""
            for label in (f"{words}: {answer}", answer, words):
                if width_of(label) + 2 <= right - left:
                    text = f'<text x="{left + 5:.1f}" y="{top + 15}">{escape(label)}</text>'
                    break
            shape = f'<rect class="{kind}" x="{left:.1f}" y="{top + 4}" width="{right - left:.1f}" height="15" rx="3"/>'
            self.put(f"call {kind}", title, shape, text, name=name)

    @staticmethod
    def cross(x: float, top: int) -> str:
        return f'<path class="cross" d="M{x - 4:.1f} {top + 7}l8 8m0 -8l-8 8"/>'

    def draw_resets(self) -> None:
        """A line through the environment's lanes where it closes, with the reason above."""
        ends: Dict[int, Optional[Tuple[int, int]]] = {}
        for e in {reset.environment for reset in self.resets}:
            own = [top for key, top in self.tops.items() if key[0] in ("environment", "runtime", "extension")
                   and key[1] == e]
            ends[e] = (self.tops[("why", e)], max(own) + LANE - 2) if own else None
        places: Dict[int, List[float]] = {}
        for reset in self.resets:
            places.setdefault(reset.environment, []).append(self.x(reset.entry))
        for e, moment, entry, reason, generation in self.resets:
            span = ends[e]
            if span is None:
                continue
            (top, bottom), x = span, self.x(entry)
            cause = next((f"\nthe deadline of {phase} had come" for at, number, phase in self.expiries
                          if at == entry and number == e), "")
            title = (f"{self.configuration.place(e)} closes: {reason}{cause}\n"
                     f"{self.moment(moment)}, the end of generation {generation}")
            words = f"reset: {reason}"
            room = min((place - x for place in places[e] if place > x), default=self.width - x)
            text = (f'<text class="why" x="{x + 4:.1f}" y="{top + 14}">{words}</text>'
                    if width_of(words) + 10 <= room else "")
            self.put("resets", title, f'<path class="reset" d="M{x:.1f} {top + 4}V{bottom}"/>', text)


def svg(drawing: Drawing) -> str:
    """The drawing alone, with its labels beside it."""
    drawing.draw()
    width, height = drawing.width + LABELS, drawing.height
    return (f'<svg xmlns="http://www.w3.org/2000/svg" viewBox="0 0 {width:.0f} {height:.0f}" width="{width:.0f}" '
            f'height="{height:.0f}" role="img">\n'
            f'<title>{escape(drawing.name)}</title>\n<style>{COLOURS}{DRAWING}</style>\n'
            f'<rect width="{width:.0f}" height="{height:.0f}" fill="var(--page)"/>\n' + "\n".join(drawing.labels)
            + f'\n<g transform="translate({LABELS} 0)">\n' + "\n".join(drawing.chart) + "\n</g>\n</svg>\n")
