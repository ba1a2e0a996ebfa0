"""Draws growth curves as SVG from what the parts of bench/all printed."""
import math, os, re

WIDE, HIGH, LEFT, LOW, GAP = 300, 190, 52, 44, 24


def rows(path):
    if not os.path.exists(path):
        return []
    lines = [line for line in open(path).read().split("\n") if line.startswith("|")]
    return [[cell.strip() for cell in line.strip("|").split("|")] for line in lines[2:]]


def number(text):
    found = re.search(r"[\d,]+(\.\d+)?", text)
    return float(found[0].replace(",", "")) if found else None


def deliveries(out):
    """Milliseconds of a delivery by how many messages the store has, and of dovecot-lda."""
    points, peer = [], None
    for what, took, *_ in rows(f"{out}/deliver.txt"):
        found = re.search(r"8 kB, into a store of ([\d,]+) messages", what)
        if found:
            points.append((float(found[1].replace(",", "")), number(took)))
        elif "dovecot-lda" in what:
            peer = number(took)
    lines = [("a process with an open each", points)]
    if peer and points:
        lines.append(("dovecot-lda", [(points[0][0], peer), (points[-1][0], peer)]))
    return "A delivery by messages in the store", "messages", "ms", lines


def opens(out):
    points = [(number(size), number(took)) for what, size, took, *_ in rows(f"{out}/opens.txt") if "replies" not in what]
    return "An open by the store's size", "MB", "ms", [("folders", points)]


def grows(out):
    points = [(number(what), number(less)) for what, _, less, *_ in rows(f"{out}/grows.txt")]
    return "Mail that moves, less an open", "messages", "ms", [("one run of drain", points)]


def life(out):
    lines = {}
    for drain, after, _, _, median, *_ in rows(f"{out}/life.txt"):
        lines.setdefault("drained every 5 s" if drain != "never" else "never drained", []).append((number(after), number(median)))
    return "Ten deliveries a second, the median", "seconds", "ms", list(lines.items())


def ticks(most):
    step = 10 ** math.floor(math.log10(most)) if most > 0 else 1
    step = next(step * part for part in (0.2, 0.5, 1, 2) if most / (step * part) <= 5)
    return [step * at for at in range(int(most / step) + 1)]


def plain(value):
    return f"{value:,.0f}" if value >= 1 or value == 0 else f"{value:g}"


def panel(left, top, what):
    title, x_name, y_name, lines = what
    lines = [(name, [(x, y) for x, y in points if x is not None and y is not None]) for name, points in lines]
    lines = [line for line in lines if line[1]]
    if not lines:
        return []
    most_x = max(x for _, points in lines for x, _ in points) or 1
    most_y = (max(y for _, points in lines for _, y in points) or 1) * 1.08
    inner_w, inner_h = WIDE - LEFT - 12, HIGH - LOW - 30
    at = lambda x, y: (left + LEFT + inner_w * x / most_x, top + 30 + inner_h * (1 - y / most_y))
    made = [f'<text class="title" x="{left + LEFT}" y="{top + 16}">{title}</text>']
    for value in ticks(most_y):
        _, y = at(0, value)
        made.append(f'<line class="grid" x1="{left + LEFT}" y1="{y:.1f}" x2="{left + WIDE - 12}" y2="{y:.1f}"/>')
        made.append(f'<text class="tick" text-anchor="end" x="{left + LEFT - 6}" y="{y + 4:.1f}">{plain(value)}</text>')
    for value in ticks(most_x):
        x, y = at(value, 0)
        made.append(f'<text class="tick" text-anchor="middle" x="{x:.1f}" y="{y + 16:.1f}">{plain(value)}</text>')
    made.append(f'<text class="tick" text-anchor="middle" x="{left + LEFT + inner_w / 2:.1f}" y="{top + HIGH - 10}">{x_name}</text>')
    made.append(f'<text class="tick" x="{left + 4}" y="{top + 24}">{y_name}</text>')
    for kind, (name, points) in enumerate(lines, 1):
        path = " ".join(f"{x:.1f},{y:.1f}" for x, y in (at(*point) for point in points))
        made.append(f'<polyline class="line{kind}" points="{path}"/>')
        made += [f'<circle class="dot{kind}" cx="{x:.1f}" cy="{y:.1f}" r="2.5"/>' for x, y in (at(*point) for point in points)]
        made.append(f'<text class="name{kind}" x="{left + LEFT + 8}" y="{top + 30 + 14 * kind}">{name}</text>')
    return made


STYLE = """text { font-family: sans-serif; fill: #333; } .title { font-size: 13px; font-weight: bold; } .tick { font-size: 11px; }
.grid { stroke: #ddd; } polyline { fill: none; stroke-width: 2; } .line1 { stroke: #1f6fb2; } .dot1 { fill: #1f6fb2; } .line2 { stroke: #c2571a; }
.dot2 { fill: #c2571a; } .name1 { font-size: 11px; fill: #1f6fb2; } .name2 { font-size: 11px; fill: #c2571a; }"""


def draw(out, path):
    """Writes the picture of all curves whose figures are there."""
    panels = [what for what in (deliveries(out), opens(out), grows(out), life(out)) if any(points for _, points in what[3])]
    if not panels:
        return
    across, down = min(2, len(panels)), (len(panels) + 1) // 2
    width, height = across * (WIDE + GAP), down * (HIGH + GAP)
    made = [f'<svg xmlns="http://www.w3.org/2000/svg" viewBox="0 0 {width} {height}" width="{width}" height="{height}" role="img">',
            "<title>How deliveries, opens and drains grow</title>", f"<style>{STYLE}</style>", f'<rect width="{width}" height="{height}" fill="#fff"/>']
    for at, what in enumerate(panels):
        made += panel((at % 2) * (WIDE + GAP), (at // 2) * (HIGH + GAP), what)
    with open(path, "w", encoding="utf-8") as file:
        file.write("\n".join([*made, "</svg>", ""]))
