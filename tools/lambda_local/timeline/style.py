"""The colours and classes of the drawing, in light and in dark, and its measures."""

LABELS, LANE, LETTER = 176, 24, 6.6  # the width of the labels, the height of a row, the width of a letter
COLOURS = """
:root{--page:#fff;--ink:#1f2328;--muted:#59636e;--line:#d1d9e0;--stripe:#f6f8fa;
--good:#8ddb9f;--error:#ffb871;--timeout:#ff9a90;--throttled:#d0b3fa;--refused:#cf222e;--ended:#c3cad2;
--handed:#a9cdf7;--ending:#f0d264;--mark:#1a7f37;--deadline:#a40e26;
--Starting:#fdf0cf;--Idle:#e3f4e5;--Busy:#d5e6fc;--Closing:#fbd9d6;--Off:#dfe3e8}
@media (prefers-color-scheme:dark){:root{--page:#0d1117;--ink:#f0f6fc;--muted:#9ea7b1;--line:#3d444d;--stripe:#151b23;
--good:#237a37;--error:#9c5510;--timeout:#ad3029;--throttled:#6f42ad;--refused:#ff7b72;--ended:#59626c;
--handed:#2b5f9e;--ending:#86690b;--mark:#4cc36a;--deadline:#ff8f87;
--Starting:#4a3c12;--Idle:#173a20;--Busy:#163a66;--Closing:#5c221f;--Off:#30363d}}
"""
DRAWING = """
svg{font:11px system-ui,"Segoe UI",Helvetica,Arial,sans-serif}
svg text{fill:var(--ink)}
svg .muted{fill:var(--muted)}
svg .head{font-weight:600;font-size:12px}
svg .stripe{fill:var(--stripe)}
svg .grid{stroke:var(--line);stroke-width:1}
svg .deadline{stroke:var(--deadline);fill:none;stroke-width:1.4}
svg .reset{stroke:var(--deadline);fill:none;stroke-width:1.6;stroke-dasharray:4 3}
svg .why{fill:var(--deadline);font-weight:600}
svg .work{stroke:var(--ink);stroke-opacity:.35}
svg .mark{stroke:var(--page);stroke-width:1}
svg .cross{fill:none;stroke:var(--refused);stroke-width:2.4}
"""
for _name in ("good", "error", "timeout", "throttled", "ended", "handed", "ending"):
    DRAWING += f"svg rect.{_name},svg path.{_name}{{fill:var(--{_name})}}\n"
for _name in ("Starting", "Idle", "Busy", "Closing", "Off"):
    DRAWING += f"svg .{_name}{{fill:var(--{_name})}}\n"
DRAWING += """svg rect.open,svg path.open{fill:var(--page);stroke:var(--muted);stroke-dasharray:3 2}
svg path.mark.good{fill:var(--mark)}
"""


def width_of(text: str) -> float:
    return LETTER * len(text) + 6
