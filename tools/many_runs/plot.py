"""Draws a plot as SVG: lines with marks over one or two logarithmic axes or plain ones, and words along the x axis if wanted."""
import math
from xml.sax.saxutils import escape

WIDTH, HEIGHT = 800, 440
LEFT, RIGHT, TOP, BOTTOM = 84, 566, 44, 366
# These can be told apart by colour-blind people (Okabe and Ito), and each has a mark of its own.
COLOURS = ("#0072b2", "#d55e00", "#009e73", "#cc79a7", "#e69f00", "#56b4e9", "#000000", "#8a6d3b")
MARKS = ("circle", "square", "up", "diamond", "down", "cross", "ring", "bar")
GREY = "#666666"


def mark(kind, x, y, colour):
    """One of the marks, with its middle at a place."""
    shapes = {
        "square": "M-4 -4H4V4H-4Z", "up": "M0 -5L5 4H-5Z", "down": "M0 5L5 -4H-5Z", "diamond": "M0 -6L5 0L0 6L-5 0Z",
        "cross": "M-4 -4L4 4M-4 4L4 -4", "bar": "M-6 0H6",
    }
    place = f'transform="translate({x:.1f} {y:.1f})"'
    if kind in ("circle", "ring"):
        fill = colour if kind == "circle" else "#ffffff"
        return f'<circle {place} r="4.5" fill="{fill}" stroke="{colour}" stroke-width="2"/>'
    return f'<path {place} d="{shapes[kind]}" fill="{colour}" stroke="{colour}" stroke-width="2"/>'


def text(x, y, words, anchor="middle", more=""):
    return f'<text x="{x:.1f}" y="{y:.1f}" text-anchor="{anchor}"{more}>{escape(words)}</text>'


def spell(value):
    """A number for an axis, with a comma behind each third digit."""
    return f"{value:,.0f}" if value >= 1 or value == 0 else f"{value:g}"


class Axis:
    """Where the values of an axis lie between two places, and which of them have a label."""

    def __init__(self, low, high, start, end, log=False, labels=None):
        self.log, self.start, self.end = log, start, end
        self.low, self.high = (math.log10(low), math.log10(high)) if log else (low, high)
        self.labels = labels or [(value, spell(value)) for value in self.ticks(low, high)]

    def ticks(self, low, high):
        if self.log:
            exponents = range(math.ceil(self.low - 1e-9), math.floor(self.high + 1e-9) + 1)
            return [10.0**exponent for exponent in exponents]
        rough = (high - low) / 6
        unit = 10.0 ** math.floor(math.log10(rough))
        step = next(unit * factor for factor in (1, 2, 5, 10) if unit * factor >= rough)
        return [step * number for number in range(math.ceil(low / step), math.floor(high / step + 1e-9) + 1)]

    def place(self, value):
        value = math.log10(value) if self.log else value
        return self.start + (self.end - self.start) * (value - self.low) / (self.high - self.low)


class Plot:
    """A plot with a title, two axes, and lines. What lies outside of the axes, or is 0 on a logarithmic one, is not drawn."""

    def __init__(self, title, x, y, x_range, y_range, x_log=False, y_log=False, x_labels=None):
        self.title, self.x, self.y = title, x, y
        self.across = Axis(*x_range, LEFT, RIGHT, x_log, x_labels)
        self.up = Axis(*y_range, BOTTOM, TOP, y_log)
        self.parts, self.legend, self.used = [], [], 0

    def line(self, name, points, joined=True):
        """A line with marks through points, or the marks alone."""
        colour, kind = COLOURS[self.used % len(COLOURS)], MARKS[self.used % len(MARKS)]
        self.used += 1
        self._path(points, colour, "" if joined else None)
        self.parts += [mark(kind, x, y, colour) for x, y in self._places(points) if LEFT <= x <= RIGHT and TOP <= y <= BOTTOM]
        self._row(name, colour, "" if joined else None, kind)

    def guide(self, name, points, dashes="7 5"):
        """A dashed grey line, for what a law or a paper says."""
        self._path(points, GREY, dashes)
        self._row(name, GREY, dashes, None)

    def _places(self, points):
        low, high = (0 if axis.log else -math.inf for axis in (self.across, self.up))
        return [(self.across.place(x), self.up.place(y)) for x, y in points if x > low and y > high]

    def _path(self, points, colour, dashes):
        if dashes is not None:
            way = " ".join(f"{x:.1f},{y:.1f}" for x, y in self._places(points))
            self.parts.append(f'<polyline points="{way}" fill="none" stroke="{colour}" stroke-width="2" '
                              f'stroke-dasharray="{dashes or "none"}" clip-path="url(#inside)"/>')

    def _row(self, name, colour, dashes, kind):
        y = TOP + 12 + 25 * len([row for row in self.legend if row.startswith("<text")])
        if dashes is not None:
            self.legend.append(f'<line x1="582" y1="{y}" x2="612" y2="{y}" stroke="{colour}" stroke-width="2" '
                               f'stroke-dasharray="{dashes or "none"}"/>')
        if kind:
            self.legend.append(mark(kind, 597, y, colour))
        self.legend.append(text(620, y + 5, name, "start"))

    def _frame(self):
        rows = []
        for value, label in self.up.labels:
            y = self.up.place(value)
            rows += [f'<line x1="{LEFT}" y1="{y:.1f}" x2="{RIGHT}" y2="{y:.1f}" stroke="#dddddd"/>',
                     text(LEFT - 8, y + 5, label, "end")]
        for number, (value, label) in enumerate(self.across.labels):
            x = self.across.place(value)
            # Words are longer than numbers, so each second one stands lower.
            lower = 17 * (number % 2) if any(not label[0].isdigit() for _, label in self.across.labels) else 0
            rows += [f'<line x1="{x:.1f}" y1="{BOTTOM}" x2="{x:.1f}" y2="{BOTTOM + 6 + lower}" stroke="#000000"/>',
                     text(x, BOTTOM + 22 + lower, label)]
        rows += [f'<path d="M{LEFT} {TOP}V{BOTTOM}H{RIGHT}" fill="none" stroke="#000000"/>',
                 text((LEFT + RIGHT) / 2, BOTTOM + 62, self.x),
                 text(20, (TOP + BOTTOM) / 2, self.y, more=f' transform="rotate(-90 20 {(TOP + BOTTOM) // 2})"'),
                 text(LEFT - 60, 24, self.title, "start", ' font-weight="bold"')]
        return rows

    def svg(self):
        inside = f'<rect x="{LEFT}" y="{TOP - 6}" width="{RIGHT - LEFT}" height="{BOTTOM - TOP + 6}"/>'
        head = (f'<svg xmlns="http://www.w3.org/2000/svg" viewBox="0 0 {WIDTH} {HEIGHT}" width="{WIDTH}" height="{HEIGHT}" '
                f'font-family="sans-serif" font-size="14" role="img"><title>{escape(self.title)}</title>'
                f'<defs><clipPath id="inside">{inside}</clipPath></defs>'
                f'<rect width="{WIDTH}" height="{HEIGHT}" fill="#ffffff"/>')
        return "\n".join([head, *self._frame(), *self.parts, *self.legend, "</svg>"]) + "\n"
