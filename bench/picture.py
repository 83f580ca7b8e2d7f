"""Draws a table of measurements as an SVG, which has its own background in light and in dark."""
import math

# Of each row: its colour on a light and on a dark background, the dashes of its line, and the shape of its points. A
# line shows the one that lies below it between its dashes.
LOOKS = [("#c62828", "#ff8a80", "", "disc"), ("#b85c00", "#ffb066", "9 5", "square"),
         ("#1f6fb2", "#7fb8ff", "2 3", "up"), ("#0a7f8c", "#5fd6e3", "12 3 2 3", "diamond"),
         ("#23812b", "#79d883", "5 3", "down"), ("#7e4fb3", "#c9a2ff", "1 4", "cross"),
         ("#7a463b", "#d3a79b", "14 4", "ring"), ("#5f6368", "#b5bac0", "6 2 1 2 1 2", "frame"),
         ("#77730a", "#d9d46a", "3 2", "star")]
STYLE = [(".back", "fill", "#fff", "#12161d"), (".ink", "fill", "#111", "#e7ebf2"), (".dim", "fill", "#555", "#a8b2c3"),
         (".tens", "stroke", "#bbb", "#4b5563"), (".parts", "stroke", "#eee", "#252c37")]


def style():
    """The colours: those of a light background, and those of a dark one, which hold if a reader prefers that."""
    rules = STYLE + [(f".c{number}", "color", light, dark) for number, (light, dark, _, _) in enumerate(LOOKS)]
    light, dark = ("".join(f"{rule[0]}{{{rule[1]}:{rule[at]}}}" for rule in rules) for at in (2, 3))
    return f"<style>{light}@media (prefers-color-scheme:dark){{{dark}}}</style>"


def point(shape, x, y, size):
    """A point of this shape, as large as a disc of this radius, in the colour of what it stands in."""
    if shape in ("disc", "ring"):
        return f'<circle cx="{x:.1f}" cy="{y:.1f}" r="{size}" {filled(shape == "disc")}/>'
    if shape in ("square", "frame"):
        half, look = size * 0.9, filled(shape == "square")
        side = f"{2 * half:.1f}"
        return f'<rect x="{x - half:.1f}" y="{y - half:.1f}" width="{side}" height="{side}" {look}/>'
    if shape in ("cross", "star"):
        strokes = [(1, 1), (1, -1)] + [(0, 1.3), (1.3, 0)] * (shape == "star")
        path = "".join(f"M{x - size * right:.1f},{y - size * down:.1f}L{x + size * right:.1f},{y + size * down:.1f}"
                       for right, down in strokes)
        return f'<path d="{path}" stroke="currentColor" stroke-width="1.8" fill="none"/>'
    corners = {"up": [(0, -1.3), (1.2, 0.9), (-1.2, 0.9)], "down": [(0, 1.3), (1.2, -0.9), (-1.2, -0.9)],
               "diamond": [(0, -1.4), (1.2, 0), (0, 1.4), (-1.2, 0)]}
    places = " ".join(f"{x + size * right:.1f},{y + size * down:.1f}" for right, down in corners[shape])
    return f'<polygon points="{places}" fill="currentColor"/>'


def filled(is_full):
    return 'fill="currentColor"' if is_full else 'class="back" stroke="currentColor" stroke-width="1.8"'


def draw(title, joined, unit, columns, points, names=(), ours=(), shown=None):
    """Medians as points over the columns, on a scale of powers of ten, with their quartiles; lines join them if
    `joined`.

    `points` has for each row a list with (first quartile, median, third quartile), or None, for each column. `names`
    gives rows their looks, `ours` are drawn bold, and `shown` has the names to print. A column's name may have several
    lines."""
    floor = 0.01
    all_values = [max(floor, value) for of in points.values() for it in of if it for value in it]
    low, high = (math.floor(math.log10(min(all_values))),
                 math.ceil(math.log10(max(all_values)))) if all_values else (0, 1)
    high = max(high, low + 1)
    width, height, left, top, right, bottom = 880, 440, 70, 50, 210, 50
    inner, step = height - top - bottom, (width - left - right) / len(columns)

    def y(value):
        return top + inner * (1 - (math.log10(max(floor, value)) - low) / (high - low))

    out = [f'<svg xmlns="http://www.w3.org/2000/svg" viewBox="0 0 {width} {height}" font-family="sans-serif" '
           f'font-size="12">', style(),
           f'<rect class="back" width="{width}" height="{height}"/>',
           f'<text class="ink" x="{left}" y="22" font-size="15">{title}</text>',
           f'<text class="dim" x="{left}" y="40">{unit}</text>']
    scale = [(part, part * 10 ** power) for power in range(low, high + 1)
             for part in ((1, 2, 5) if power < high else (1,))]
    for kind, parts in (("tens", (1,)), ("parts", (2, 5))):
        lines = "".join(f"M{left},{y(value):.1f}H{width - right}" for part, value in scale if part in parts)
        out.append(f'<path class="{kind}" d="{lines}"/>')
    out.append("".join(f'<text class="dim" x="{left - 6}" y="{y(value) + 4:.1f}" text-anchor="end">{value:,g}</text>'
                       for _, value in scale))
    out.append('<g class="ink" text-anchor="middle" font-size="11">' + "".join(
        f'<text x="{left + step * (place + 0.5):.1f}" y="{height - bottom + 20 + 13 * below}">{line}</text>'
        for place, column in enumerate(columns) for below, line in enumerate(column.split("\n"))) + "</g>")
    last = sorted(points, key=lambda row: -(points[row][-1] or (0, 0, 0))[1])
    for number, (row, of) in enumerate(points.items()):
        look, bold = (names.index(row) if row in names else number) % len(LOOKS), row in ours
        _, _, dashes, shape = LOOKS[look]
        line = f'fill="none" stroke="currentColor" stroke-width="{3 if bold else 1.5}"'
        line += f' stroke-dasharray="{dashes}"' if dashes else ""
        at = [(left + step * (place + 0.5 + (number - (len(points) - 1) / 2) * (0.02 if joined else 0.08)), it)
              for place, it in enumerate(of) if it]
        out.append(f'<g class="c{look}">')
        if joined:
            out.append(f'<polyline points="{" ".join(f"{x:.1f},{y(it[1]):.1f}" for x, it in at)}" {line}/>')
        quartiles = "".join(f"M{x:.1f},{y(it[0]):.1f}V{y(it[2]):.1f}" for x, it in at)
        out.append(f'<path d="{quartiles}" stroke="currentColor"/>')
        out.append("".join(point(shape, x, y(it[1]), 4.5 if bold else 3.2) for x, it in at))
        place = top + 14 + 20 * last.index(row)
        if joined:
            out.append(f'<polyline points="{width - right + 8},{place - 4} {width - right + 40},{place - 4}" {line}/>')
        out.append(point(shape, width - right + 24, place - 4, 5 if bold else 4))
        weight = "bold" if bold else "normal"
        out.append(f'</g>\n<text class="ink" x="{width - right + 46}" y="{place}" '
                   f'font-weight="{weight}">{(shown or {}).get(row, row)}</text>')
    return "\n".join(out) + "\n</svg>\n"
