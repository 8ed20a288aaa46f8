"""Drawings as SVG: the graph of a proof's lines, and curves. They need no colours: lines differ by their dashes, boxes by their borders."""
import math
from html import escape

WIDTH, HEIGHT, GAP, RISE = 168, 40, 14, 34
MOST_POINTS = 1500
MOST_ACROSS = 6
DASHES = ("", "8 3", "2 3", "10 3 2 3", "5 5", "1 5", "12 2", "8 3 2 3 2 3")


def layers_of(lines):
    """Returns the lines in layers: each line stands below those that it uses, and a goal right above the line that uses it."""
    depth = {}
    for line in lines:
        depth[line.name] = 1 + max((depth[name] for name in line.parents), default=-1)
    for line in lines:
        if line.rule == "file" and not line.positive:
            depth[line.name] = max(0, min((depth[user.name] for user in lines if line.name in user.parents), default=1) - 1)
    layers = [[] for _ in range(1 + max(depth.values(), default=-1))]
    for line in lines:
        layers[depth[line.name]].append(line)
    return layers


def order_layers(layers, most):
    """Orders each layer by where its parents stand, and breaks a layer that is too wide into several."""
    rows, middle = [], {}
    for layer in layers:
        places = {line.name: [middle[name] for name in line.parents] for line in layer}
        layer = sorted(layer, key=lambda line: sum(places[line.name]) / max(1, len(places[line.name])))
        for start in range(0, len(layer), most):
            row = layer[start : start + most]
            rows.append(row)
            for number, line in enumerate(row):
                middle[line.name] = (number + 0.5) / len(row)
    return rows


def places_of(rows, wide):
    """Returns the upper left corner of each line's box."""
    places = {}
    for depth, row in enumerate(rows):
        free = wide - len(row) * (WIDTH + GAP) + GAP
        for number, line in enumerate(row):
            places[line.name] = (free / 2 + number * (WIDTH + GAP), 8 + depth * (HEIGHT + RISE))
    return places


def graph(lines, label):
    """Draws the lines of a proof as boxes with an arrow from each line to those that use it."""
    rows = order_layers(layers_of(lines), MOST_ACROSS)
    wide = max((len(row) for row in rows), default=1) * (WIDTH + GAP) - GAP + 16
    high = len(rows) * (HEIGHT + RISE) - RISE + 16
    places = places_of(rows, wide)
    pieces = [
        f'<svg class="graph" role="img" aria-label="The lines of the proof and what uses what" width="{wide}" height="{high}" '
        f'viewBox="0 0 {wide} {high}" xmlns="http://www.w3.org/2000/svg">',
        '<defs><marker id="tip" viewBox="0 0 8 8" refX="7" refY="4" markerWidth="7" markerHeight="7" orient="auto">'
        '<path d="M0 0L8 4L0 8z"/></marker></defs>',
    ]
    pieces += [arrow(places[name], places[line.name]) for line in lines for name in line.parents]
    pieces += [box(line, *places[line.name], label(line)) for line in lines]
    return "\n".join([*pieces, "</svg>"])


def arrow(start, end):
    """Draws an arrow from the box at one place to the box at another."""
    x, y, to_x, to_y = start[0] + WIDTH / 2, start[1] + HEIGHT, end[0] + WIDTH / 2, end[1]
    bend = RISE * 0.8
    curve = f"M{x:.0f} {y:.0f}C{x:.0f} {y + bend:.0f} {to_x:.0f} {to_y - bend:.0f} {to_x:.0f} {to_y - 1:.0f}"
    return f'<path class="edge" marker-end="url(#tip)" d="{curve}"/>'


def kind_of(line):
    """Returns what a line is, as a class of the page."""
    if line.rule == "file":
        return "axiom" if line.positive else "goal"
    return "end" if line.rule == "refute" else "lemma"


def box(line, x, y, text):
    """Draws one line of a proof: its name and a part of its equation."""
    short = text if len(text) <= 24 else text[:23] + "…"
    kind = kind_of(line)
    inner = f'<rect x="{x + 3:.0f}" y="{y + 3:.0f}" width="{WIDTH - 6}" height="{HEIGHT - 6}"/>' if kind == "axiom" else ""
    return (
        f'<a class="{kind}" href="#{line.name}" data-line="{line.name}"><title>{escape(f"{line.name}: {text}")}</title>'
        f'<rect x="{x:.0f}" y="{y:.0f}" width="{WIDTH}" height="{HEIGHT}" rx="{14 if kind == "lemma" else 0}"/>{inner}'
        f'<text x="{x + WIDTH / 2:.0f}" y="{y + 17:.0f}" class="name">{escape(line.name)}</text>'
        f'<text x="{x + WIDTH / 2:.0f}" y="{y + 31:.0f}" class="small">{escape(short)}</text></a>'
    )


def thinned(points):
    """Returns so many points at most, with the least and the greatest value of each stretch among them."""
    if len(points) <= MOST_POINTS:
        return points
    step = -(-len(points) * 2 // MOST_POINTS)
    kept = []
    for start in range(0, len(points), step):
        stretch = points[start : start + step]
        ends = {stretch.index(min(stretch, key=lambda point: point[1])), stretch.index(max(stretch, key=lambda point: point[1]))}
        kept += [stretch[number] for number in sorted(ends)]
    return kept


def marks(least, most):
    """Returns round numbers for an axis."""
    step = 1
    while (most - least) / step > 6:
        step *= 2 if str(step)[0] == "1" else 2.5 if str(step)[0] == "2" else 2
    step = max(1, int(step)) if most - least >= 1 else (most - least) / 5 or 1
    first = -(-least // step) * step
    found = []
    while first <= most + 1e-9:
        found.append(first)
        first += step
    return found


def number_text(value):
    """Returns a number for an axis, with a comma between thousands."""
    return f"{value:,.0f}" if float(value).is_integer() else f"{value:g}"


def powers(least, most):
    """Returns the powers of ten for an axis whose numbers are logarithms."""
    return list(range(math.floor(least), math.ceil(most) + 1))


class Axes:
    """A pair of axes, and where a point stands on them. With `logarithmic` the upright one goes by powers of ten, from a hundredth on."""

    wide, high, left, right, top, low = 720, 260, 64, 16, 30, 40

    def __init__(self, points, logarithmic, span):
        self.logarithmic = logarithmic
        self.x0, self.x1 = span or (min(x for x, _ in points), max(max(x for x, _ in points), 1))
        highest = max(self.height(y) for _, y in points)
        self.y0, self.y1 = (-2, max(math.ceil(highest), 0)) if logarithmic else (0, max(highest, 1))

    def height(self, value):
        """Returns how high a value stands."""
        return math.log10(max(value, 0.01)) if self.logarithmic else value

    def across(self, value):
        """Returns the place of a value on the level axis."""
        return self.left + (value - self.x0) * (self.wide - self.left - self.right) / ((self.x1 - self.x0) or 1)

    def up(self, height):
        """Returns the place of a height on the upright axis."""
        return self.high - self.low - (height - self.y0) * (self.high - self.top - self.low) / ((self.y1 - self.y0) or 1)

    def at(self, point):
        """Returns the place of a point."""
        return self.across(point[0]), self.up(self.height(point[1]))

    def drawn(self):
        """Draws the axes with their numbers."""
        low, end = self.high - self.low, self.wide - self.right
        pieces = [f'<path d="M{self.left} {self.top}V{low}H{end}" fill="none" stroke="black"/>']
        for value in powers(self.y0, self.y1) if self.logarithmic else marks(self.y0, self.y1):
            y, told = self.up(value), number_text(10.0**value if self.logarithmic else value)
            pieces.append(f'<path d="M{self.left - 4} {y:.1f}H{end}" stroke="#ccc"/>')
            pieces.append(f'<text x="{self.left - 8}" y="{y + 4:.1f}" text-anchor="end">{told}</text>')
        for value in marks(self.x0, self.x1):
            x = self.across(value)
            pieces.append(f'<path d="M{x:.1f} {low}v4" stroke="black"/>')
            pieces.append(f'<text x="{x:.1f}" y="{low + 17}" text-anchor="middle">{number_text(value)}</text>')
        return pieces


def chart(title, across, up, curves, dots=False, logarithmic=False, span=None):
    """Draws curves over one pair of axes; each curve is a name and its points. With `dots` each point is a dot.

    The level axis goes over the numbers of `span`, or else as far as the points.
    """
    axes = Axes([point for _, curve in curves for point in curve] or [(0, 0)], logarithmic, span)
    end = axes.wide - axes.right
    names = [name for name, _ in curves] if len(curves) > 1 else []
    pieces = [
        f'<svg class="chart" role="img" aria-label="{escape(title)}" viewBox="0 0 {axes.wide} {axes.high + 16 * len(names)}" '
        'xmlns="http://www.w3.org/2000/svg" font-family="sans-serif" font-size="12">',
        f'<text x="{axes.left}" y="18" font-weight="bold">{escape(title)}</text>',
        f'<text x="{end}" y="{axes.high - 6}" text-anchor="end">{escape(across)}</text>',
        f'<text x="{end}" y="18" text-anchor="end">{escape(up)}</text>',
        *axes.drawn(),
    ]
    for number, (_, curve) in enumerate(curves):
        pieces += drawn_curve([axes.at(point) for point in thinned(curve)], DASHES[number % len(DASHES)], dots)
    return "\n".join([*pieces, *legend(names, axes.left, axes.high), "</svg>"])


def drawn_curve(spots, dash, dots):
    """Draws one curve as a line with its dashes, or as dots."""
    if dots or len(spots) == 1:
        return [f'<circle cx="{x:.1f}" cy="{y:.1f}" r="1.6"/>' for x, y in spots]
    line = "L".join(f"{x:.1f} {y:.1f}" for x, y in spots)
    return [f'<path d="M{line}" fill="none" stroke="black" stroke-width="1.5" stroke-dasharray="{dash}"/>'] if spots else []


def legend(names, x, y):
    """Draws the names of curves below each other, each beside its dashes."""
    pieces = []
    for number, name in enumerate(names):
        here = y + 6 + 16 * number
        dash = DASHES[number % len(DASHES)]
        pieces.append(f'<path d="M{x} {here}h36" stroke="black" stroke-width="1.5" stroke-dasharray="{dash}"/>')
        pieces.append(f'<text x="{x + 44}" y="{here + 4}">{escape(name)}</text>')
    return pieces
