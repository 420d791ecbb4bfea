"""The plot of docs/SPEED.md as SVG."""

from xml.sax.saxutils import escape

from report import CALL_INSTRUCTIONS, CALL_TIME, LINE_INSTRUCTIONS, LINE_TIME, of

ROW, LEFT, WIDTH, RIGHT = 17, 270, 420, 90


def bars(title, entries, top, most, target):
    """SVG of one panel: for each entry a name, the ratio of its bar, and further ticks."""
    def across(value):
        return LEFT + WIDTH * min(value, most) / most
    parts = [f'<text x="10" y="{top}" font-weight="bold">{escape(title)}</text>']
    low, high = top + 10, top + 14 + ROW * len(entries)
    for at, dash in ((1.0, "none"), (target, "5 3")):
        x = across(at)
        parts.append(f'<line x1="{x:.1f}" x2="{x:.1f}" y1="{low}" y2="{high}" stroke="#333"'
                     f' stroke-dasharray="{dash}"/>'
                     f'<text x="{x:.1f}" y="{high + 12}" text-anchor="middle">{at}</text>')
    for i, (name, value, ticks) in enumerate(entries):
        y = top + 14 + ROW * i
        colour = "#4a7a4a" if value <= target else "#b5543c"
        parts.append(f'<text x="{LEFT - 6}" y="{y + 10}" text-anchor="end">{escape(name)}</text>'
                     f'<rect x="{LEFT}" y="{y}" width="{across(value) - LEFT:.1f}" height="12"'
                     f' fill="{colour}" fill-opacity="0.75"/>'
                     f'<text x="{LEFT + WIDTH + 10}" y="{y + 10}">{value:.2f}</text>')
        parts += [f'<line x1="{across(tick):.1f}" x2="{across(tick):.1f}" y1="{y + 1}"'
                  f' y2="{y + 11}" stroke="#111"/>' for tick in ticks if tick <= most]
    return parts, high + 50


def drawn(profiles, ratios, name, emulated):
    """Ratios as bars: each profile by instructions and by time, and each call by its highest with a
    tick for every shape."""
    by_call = {}
    for (_, call), value in ratios.items():
        by_call.setdefault(call, []).append(value)
    calls = [(call, max(values), sorted(values)[:-1]) for call, values in by_call.items()]
    what = "instructions" if emulated else "time"
    panels = [("Trace lines: the program to the C baseline, instructions", LINE_INSTRUCTIONS,
               [(p["name"], of(p, "instructions") or 0, []) for p in profiles])]
    if not emulated:
        panels.append(("Trace lines: the program to the C baseline, time", LINE_TIME,
                       [(p["name"], of(p, "times") or 0, []) for p in profiles]))
    panels.append((f"Public calls at N = 1,024: libpieces.a to C, {what}, the highest of the shapes "
                   "(ticks: the others)", CALL_INSTRUCTIONS if emulated else CALL_TIME, calls))
    most = min(4.0, max([2.0] + [entry[1] for _, _, entries in panels for entry in entries]) * 1.05)
    parts, top = [], 50
    for title, target, entries in panels:
        panel, top = bars(title, entries, top, most, target)
        parts += panel
    width = LEFT + WIDTH + RIGHT
    return "\n".join([
        f'<svg xmlns="http://www.w3.org/2000/svg" width="{width}" height="{top}"'
        f' viewBox="0 0 {width} {top}" font-family="sans-serif" font-size="11">',
        f'<rect width="{width}" height="{top}" fill="white"/>',
        f'<text x="10" y="22" font-size="14">Ratios to plain C, {escape(name)}; '
        'below 1.0 is less than C</text>', *parts, "</svg>", ""])
