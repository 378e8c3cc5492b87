"""Pictures of plans: a route through places, a way over a plane, bars over time, a table of sets; as SVG and as lines of a terminal."""

import math
import textwrap
from xml.sax.saxutils import escape

COLOURS = ["#1f6fb4", "#d9822b", "#2f9e5f", "#b5413c", "#7a5aa6", "#86653f", "#c45a9e", "#5f6b73", "#9a9a1f", "#1fa3a8"]
FONT = 'font-family="sans-serif" font-size="12"'
MOST_COLUMNS = 96
LEAST_COLUMNS = 16
TOP = 44


def svg(width, height, parts):
    head = f'<svg xmlns="http://www.w3.org/2000/svg" width="{width:.0f}" height="{height:.0f}" viewBox="0 0 {width:.0f} {height:.0f}">'
    return "\n".join([head, f'<rect width="{width:.0f}" height="{height:.0f}" fill="white"/>', *parts, "</svg>"]) + "\n"


def text(x, y, words, more=""):
    return f'<text x="{x:.1f}" y="{y:.1f}" {FONT} {more}>{escape(words)}</text>'


class Label(str):
    """What a bar is called, and in short."""

    def __new__(cls, whole, short):
        found = super().__new__(cls, whole)
        found.short = short
        return found


# ---- a route

def laid_out(count, way):
    """Points for places, so that those that are near by the table are near in the picture; on a circle where there is no table."""
    if way is None or count < 3:
        return [(math.cos(2 * math.pi * k / max(1, count)), math.sin(2 * math.pi * k / max(1, count))) for k in range(count)]
    square = [[((way(i, j) + way(j, i)) / 2) ** 2 for j in range(count)] for i in range(count)]
    rows = [sum(row) / count for row in square]
    whole = sum(rows) / count
    gram = [[-(square[i][j] - rows[i] - rows[j] + whole) / 2 for j in range(count)] for i in range(count)]
    axes = []
    for start in range(2):
        axis = axis_of(gram, count, start, axes)
        axes.append(axis)
    return list(zip(*axes))


def axis_of(gram, count, start, before):
    """A main axis of the points, by the power method, apart from those before."""
    v = [math.cos(1 + start + k * (2 + start)) for k in range(count)]
    size = 0.0
    for _ in range(300):
        for other in before:
            length = sum(x * x for x in other) or 1
            share = sum(a * b for a, b in zip(v, other)) / length
            v = [a - share * b for a, b in zip(v, other)]
        w = [sum(a * b for a, b in zip(row, v)) for row in gram]
        size = math.sqrt(sum(x * x for x in w))
        if size < 1e-9:
            return [0.0] * count
        v = [x / size for x in w]
    return [x * math.sqrt(size) for x in v]


def fitted(points, width, height, radius):
    """The points in a frame of that width and at most that height, so far apart that circles do not cover each other; and how high the
    frame is."""
    spans = [max(p[k] for p in points) - min(p[k] for p in points) for k in (0, 1)]
    if spans[1] > spans[0] and height < width:
        points, spans = [(y, x) for x, y in points], spans[::-1]
    scale = min(side / span for side, span in zip((width, height), spans) if span > 0) if any(spans) else 1
    at = pushed_apart([(x * scale, y * scale) for x, y in points], 2 * radius + 16)
    least = [min(p[k] for p in at) for k in (0, 1)]
    spans = [max(p[k] for p in at) - least[k] for k in (0, 1)]
    shrunk = min(1, width / (spans[0] or 1))
    return [((x - least[0]) * shrunk + (width - spans[0] * shrunk) / 2, (y - least[1]) * shrunk) for x, y in at], spans[1] * shrunk


def pushed_apart(points, least):
    """The points, those that are nearer than that moved away from each other."""
    at = [list(p) for p in points]
    for _ in range(200 if len(at) <= 100 else 20):
        moved = False
        for i, a in enumerate(at):
            for j, b in enumerate(at[:i]):
                dx, dy = a[0] - b[0], a[1] - b[1]
                gap = math.hypot(dx, dy)
                if gap < least - 0.01:
                    dx, dy = (dx / gap, dy / gap) if gap > 1e-6 else (math.cos(i + j), math.sin(i + j))
                    step = (least - gap) / 2
                    a[0], a[1], b[0], b[1] = a[0] + dx * step, a[1] + dy * step, b[0] - dx * step, b[1] - dy * step
                    moved = True
        if not moved:
            break
    return [tuple(p) for p in at]


def route_svg(points, tours, labels, title):
    """Tours are lists of places; each has a colour. Labels that are too long for a circle stand below it."""
    radius, margin = 13, 34
    inside = max(map(len, labels), default=0) <= 3
    wide = max(480, 2 * margin + 73 * math.sqrt(len(points)))
    if not inside:
        margin, wide = margin + 20, wide * 1.4
    at, high = fitted(points, wide - 2 * margin, wide - 2 * margin, radius if inside else 2 * radius)
    radius = radius if inside else 6
    at = [(x + margin, y + TOP + margin - 14) for x, y in at]
    parts = [text(16, 24, title, 'font-weight="bold"')]
    used = {}
    for t, tour in enumerate(tours):
        colour = COLOURS[t % len(COLOURS)]
        for a, b in zip(tour, tour[1:]):
            used[(a, b)] = used.get((a, b), 0) + 1
            hidden = any(k not in (a, b) and distance_to(p, at[a], at[b]) < radius + 2 for k, p in enumerate(at))
            parts.append(arrow(at[a], at[b], radius, colour, 9 * used[(a, b)] if (b, a) in used else 18 if hidden else 0))
    start = tours[0][0] if tours else None
    for k, (x, y) in enumerate(at):
        fill = "#ffe9a8" if k == start else "white"
        parts.append(f'<circle cx="{x:.1f}" cy="{y:.1f}" r="{radius}" fill="{fill}" stroke="#333"/>')
        halo = "" if inside else ' stroke="white" stroke-width="3" paint-order="stroke"'
        parts.append(text(x, y + (4 if inside else radius + 13), labels[k], f'text-anchor="middle"{halo}'))
    return svg(max(wide, 32 + 7 * len(title)), high + TOP + 2 * margin - 14, parts)


def distance_to(p, a, b):
    """How far a point is from the line between two others."""
    dx, dy = b[0] - a[0], b[1] - a[1]
    share = ((p[0] - a[0]) * dx + (p[1] - a[1]) * dy) / (dx * dx + dy * dy or 1)
    share = max(0, min(1, share))
    return math.hypot(p[0] - a[0] - share * dx, p[1] - a[1] - share * dy)


def arrow(a, b, radius, colour, bend):
    """A line with a head from one place to another."""
    (x1, y1), (x2, y2) = a, b
    length = math.hypot(x2 - x1, y2 - y1) or 1
    ux, uy = (x2 - x1) / length, (y2 - y1) / length
    mx, my = (x1 + x2) / 2 - uy * 2 * bend, (y1 + y2) / 2 + ux * 2 * bend
    dx, dy = (x2 - mx, y2 - my) if bend else (ux, uy)
    size = math.hypot(dx, dy) or 1
    dx, dy = dx / size, dy / size
    ex, ey = x2 - dx * (radius + 2), y2 - dy * (radius + 2)
    path = f"M {x1 + ux * radius:.1f} {y1 + uy * radius:.1f} Q {mx:.1f} {my:.1f} {ex:.1f} {ey:.1f}"
    return f'<path d="{path}" fill="none" stroke="{colour}" stroke-width="2"/>{head(ex, ey, dx, dy, colour)}'


def head(x, y, dx, dy, colour):
    """The head of an arrow that comes to a point in a direction."""
    corners = f"{x:.1f},{y:.1f} {x - 9 * dx - 4 * dy:.1f},{y - 9 * dy + 4 * dx:.1f} {x - 9 * dx + 4 * dy:.1f},{y - 9 * dy - 4 * dx:.1f}"
    return f'<polygon points="{corners}" fill="{colour}"/>'


# ---- a way over a plane

def way_svg(points, title, plane):
    """A way over a plane, from point to point; y grows downward. Each cell has the numbers of the steps that end there."""
    (left, right), (low, high) = plane.spans
    unit = max(8, min(52, 620 / (right - left + 1)))

    def corner(x, y):
        return 16 + (x - left) * unit, TOP + (y - low) * unit

    parts = [text(16, 24, title, 'font-weight="bold"')]
    for y in range(low, high + 1):
        for x in range(left, right + 1):
            (cx, cy), fill = corner(x, y), "#5f6b73" if (x, y) in plane.walls else "white"
            parts.append(f'<rect x="{cx:.1f}" y="{cy:.1f}" width="{unit:.1f}" height="{unit:.1f}" fill="{fill}" stroke="#ddd"/>')
            if (x, y) in plane.labels and unit >= 40:
                parts.append(text(cx + 3, cy + unit - 4, plane.labels[x, y], 'style="font-size:9px" fill="#86653f"'))
    for (x, y), fill in ((points[0], "#ffe9a8"), (points[-1], "#bfe3cc")):
        cx, cy = corner(x, y)
        parts.append(f'<rect x="{cx + 2:.1f}" y="{cy + 2:.1f}" width="{unit - 4:.1f}" height="{unit - 4:.1f}" fill="{fill}"/>')
        if (x, y) in plane.labels and unit >= 40:
            parts.append(text(cx + 3, cy + unit - 4, plane.labels[x, y], 'style="font-size:9px" fill="#86653f"'))
    parts += [leg(corner(*a), corner(*b), unit) for a, b in zip(points, points[1:]) if a != b]
    if unit >= 24:
        for (x, y), steps in plane.steps(points).items():
            cx, cy = corner(x, y)
            parts.append(text(cx + 3, cy + 11, " ".join(map(str, steps)), 'style="font-size:10px" fill="#333"'))
    width = max(32 + (right - left + 1) * unit, 32 + 7 * len(title))
    bottom = TOP + (high - low + 1) * unit
    caption = textwrap.wrap("The numbers are those of the steps that end in a cell; 0 is the beginning, and the last cell is green.", int((width - 32) / 6.2))
    parts += [text(16, bottom + 20 + 16 * k, line, 'fill="#555"') for k, line in enumerate(caption)]
    return svg(width, bottom + 14 + 16 * len(caption), parts)


def leg(a, b, unit):
    """An arrow from the middle of a cell to that of another, a little to the right of the way, so that the way back does not cover it."""
    length = math.hypot(b[0] - a[0], b[1] - a[1])
    dx, dy = (b[0] - a[0]) / length, (b[1] - a[1]) / length
    side, half = unit / 9, unit / 2
    x1, y1 = a[0] + half - dy * side, a[1] + half + dx * side
    x2, y2 = b[0] + half - dy * side, b[1] + half + dx * side
    line = f'<line x1="{x1:.1f}" y1="{y1:.1f}" x2="{x2 - 5 * dx:.1f}" y2="{y2 - 5 * dy:.1f}" stroke="{COLOURS[0]}" stroke-width="2"/>'
    return line + head(x2, y2, dx, dy, COLOURS[0])


# ---- bars over time

def ticks(end):
    step = 1
    for step in (1, 2, 5, 10, 20, 25, 50, 100, 200, 250, 500, 1000, 2000, 5000, 10000, 10**9):
        if end / step <= 12:
            break
    return list(range(0, int(end) + 1, step))


def bars_svg(lanes, title, axis):
    """Lanes are pairs of a name and bars: start, end, label, colour's number."""
    end = max((bar[1] for _, bars in lanes for bar in bars), default=1) or 1
    left, height, wide = 30 + 7 * max(len(name) for name, _ in lanes), 30, 640
    scale = wide / end
    bottom = TOP + height * len(lanes)
    parts = [text(16, 24, title, 'font-weight="bold"')]
    for tick in ticks(end):
        x = left + tick * scale
        parts.append(f'<line x1="{x:.1f}" y1="{TOP - 4}" x2="{x:.1f}" y2="{bottom + 4}" stroke="#ddd"/>')
        parts.append(text(x, bottom + 18, str(tick), 'text-anchor="middle" fill="#555"'))
    for k, (name, bars) in enumerate(lanes):
        y = TOP + height * k
        parts.append(text(left - 8, y + 19, name, 'text-anchor="end"'))
        for start, stop, label, colour in bars:
            w = (stop - start) * scale
            parts.append(f'<rect x="{left + start * scale:.1f}" y="{y + 3}" width="{max(w, 1):.1f}" height="{height - 6}" fill="{COLOURS[colour % len(COLOURS)]}" stroke="white"/>')
            shown = label if 7 * len(label) <= w else label.short
            if 7 * len(shown) <= w + 2:
                parts.append(text(left + (start + stop) / 2 * scale, y + 19, shown, 'text-anchor="middle" fill="white"'))
    parts.append(text(left + wide / 2, bottom + 36, axis, 'text-anchor="middle" fill="#555"'))
    return svg(left + wide + 24, bottom + 46, parts)


def columns_of_bars(lanes, end, columns):
    """How many columns a unit has: four, or as many as the labels need, where there are so many."""
    width = max(len(name) for name, _ in lanes)
    wanted = max(((len(label) + 1) / (stop - start) for _, bars in lanes for start, stop, label, _ in bars if stop > start), default=4)
    return min(max(4.0, min(10.0, wanted)), max(LEAST_COLUMNS, min(MOST_COLUMNS, columns - width - 3)) / end)


def bars_text(lanes, axis, columns):
    """The same in a terminal: each lane a line, each bar between `|`, with as much of its label as fits."""
    end = max((bar[1] for _, bars in lanes for bar in bars), default=1) or 1
    scale = columns_of_bars(lanes, end, columns)
    width = max(len(name) for name, _ in lanes)
    out = []
    for name, bars in lanes:
        row = [" "] * (int(end * scale) + 2)
        for start, stop, label, _ in bars:
            a, b = int(start * scale), max(int(stop * scale), int(start * scale) + 1)
            row[a : b + 1] = ["|", *("-" * (b - a - 1)), "|"]
            shown = label if len(label) <= b - a - 1 else label.short
            if len(shown) <= b - a - 1:
                middle = a + 1 + (b - a - 1 - len(shown)) // 2
                row[middle : middle + len(shown)] = list(shown)
        out.append(f"{name.rjust(width)}  {''.join(row).rstrip()}")
    marks = [" "] * (int(end * scale) + 8)
    free = 0
    for mark in ticks(end):
        at = int(mark * scale)
        if at >= free and at + len(str(mark)) <= len(marks):
            marks[at : at + len(str(mark))] = list(str(mark))
            free = at + len(str(mark)) + 1
    line = " " * width + "  " + "".join(marks).rstrip()
    named = f"{line}  {axis}"
    return [*out, *([named] if len(named) <= columns else [line, " " * width + "  " + axis])]


# ---- a table of sets

def sets_text(columns, rows, most):
    """A row for each step, and a column for each member that a set may have: `*` where it has it. Columns are pairs of a set's name and
    its members; rows are pairs of a step and its sets, in the order of the members."""
    widths = [[len(str(k)) for k in members] for _, members in columns]
    left = max([len(name) for name, _ in rows] + [4])
    blocks = [max(sum(w) + len(w) - 1, len(name)) for w, (name, _) in zip(widths, columns)]
    if left + sum(blocks) + 3 * len(blocks) > most:
        return [f"{name.ljust(left)}   " + "   ".join("{" + ", ".join(map(str, value)) + "}" for value in sets) for name, sets in rows]

    def line(name, cells):
        return (name.ljust(left) + "".join("   " + cell.ljust(block) for cell, block in zip(cells, blocks))).rstrip()

    out = [line("", [name for name, _ in columns]), line("step", [" ".join(map(str, members)) for _, members in columns])]
    for name, sets in rows:
        cells = [" ".join(("*" if k in value else ".").rjust(w) for k, w in zip(members, wide)) for value, (_, members), wide in zip(sets, columns, widths)]
        out.append(line(name, cells))
    return out


def sets_svg(columns, rows, title):
    """The same as a picture: a square is full where the set has the member."""
    left, unit, gap = 30 + 7 * max(len(name) for name, _ in rows), 22, 26
    longest = max((len(str(member)) for _, members in columns for member in members), default=0)
    top = TOP + (6 * longest if longest > 3 else 0)
    parts, x = [text(16, 24, title, 'font-weight="bold"')], left
    for number, (name, members) in enumerate(columns):
        parts.append(text(x, TOP + 6, name, 'font-weight="bold"'))
        for k, member in enumerate(members):
            parts.append(text(x + k * unit + unit / 2, top + 24, str(member), (f'text-anchor="start" fill="#555" transform="rotate(-60 {x + k * unit + unit / 2:.1f} {top + 24:.1f})"' if longest > 3 else 'text-anchor="middle" fill="#555"')))
            for j, (_, sets) in enumerate(rows):
                fill = COLOURS[number % len(COLOURS)] if member in sets[number] else "white"
                parts.append(f'<rect x="{x + k * unit:.1f}" y="{top + 32 + j * unit:.1f}" width="{unit}" height="{unit}" fill="{fill}" stroke="#ddd"/>')
        x += max(len(members) * unit, 8 * len(name)) + gap
    parts += [text(left - 10, top + 47 + j * unit, name, 'text-anchor="end"') for j, (name, _) in enumerate(rows)]
    return svg(max(x, 32 + 7 * len(title)), top + 48 + unit * len(rows), parts)
