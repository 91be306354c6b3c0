"""Panels of a picture, as SVG. Python 3 alone."""

import math

WIDE, HIGH = 640, 250  # of a panel's field
LEFT, TOP, GAP = 70, 40, 44


def span(numbers, margin):
    """The least and the greatest of the finite ones, widened by a part of their distance."""
    finite = [min(max(x, -1e300), 1e300) for x in numbers if math.isfinite(x)] or [0.0, 1.0]
    low, high = min(finite), max(finite)
    size = max(abs(low), abs(high))
    if size < 1e-280:
        return -1.0, 1.0
    wider = margin * (high - low) if high - low > 1e-9 * size else 0.1 * size
    return low - wider, high + wider


def ticks(low, high):
    """Some round numbers."""
    step = 10.0 ** math.floor(math.log10((high - low) / 4))
    step *= max(times for times in (1, 2, 5) if times * step <= (high - low) / 4)
    return [k * step for k in range(math.ceil(low / step), math.floor(high / step) + 1)]


def escaped(text):
    text = "".join(c if c.isprintable() else "?" for c in text)
    return text.replace("&", "&amp;").replace("<", "&lt;")


def text(x, y, what, more=""):
    return f'<text x="{x:.1f}" y="{y:.1f}" {more}>{escaped(what)}</text>'


class Panel:
    """A field with its ranges; y grows upwards, and nothing leaves the field by much."""

    def __init__(self, xs, ys, label, whole):
        """`whole` says that x is counted and has no parts."""
        self.xs, self.ys, self.label, self.whole = xs, ys, label, whole
        self.shapes = []

    def x(self, x):
        part = (x - self.xs[0]) / (self.xs[1] - self.xs[0])
        return WIDE * min(max(part, 0.0), 1.0)

    def y(self, y, beyond=0.0):
        part = (y - self.ys[0]) / (self.ys[1] - self.ys[0])
        return HIGH * (1.0 - min(max(part, -beyond), 1.0 + beyond))

    def shade(self, left, right, low, high):
        """What no value may enter, with a line at the limit; a limit that is NaN or infinite forbids nothing."""
        limit = high if low == -math.inf else low
        x, wide = self.x(left), self.x(right) - self.x(left)
        if not math.isfinite(limit) or wide <= 0:
            return
        top, bottom = self.y(high), self.y(low)
        self.shapes.append(f'<rect x="{x:.1f}" y="{top:.1f}" width="{wide:.1f}" height="{bottom - top:.1f}" fill="#d9d9d9"/>')
        if self.ys[0] < limit < self.ys[1]:
            at = self.y(limit)
            self.shapes.append(f'<path d="M{x:.1f} {at:.1f}h{wide:.1f}" stroke="#595959" stroke-width="0.8"/>')

    def curve(self, points):
        """A line through the points; it is interrupted where one has no number."""
        d, pen = "", "M"
        for x, y in points:
            if y == y:
                d += f"{pen}{self.x(x):.1f} {self.y(y, 0.2):.1f}"
                pen = "L"
            else:
                pen = "M"
        if d:
            self.shapes.append(f'<path d="{d}" fill="none" stroke="#1f77b4" stroke-width="1.2"/>')

    def dot(self, x, y, broken):
        if y == y and self.xs[0] <= x <= self.xs[1]:
            colour = "#d62728" if broken else "#1f77b4"
            self.shapes.append(f'<circle cx="{self.x(x):.1f}" cy="{self.y(y):.1f}" r="{3 if broken else 1.6}" fill="{colour}"/>')

    def axes(self):
        parts = [f'<rect width="{WIDE}" height="{HIGH}" fill="none" stroke="black" stroke-width="0.8"/>']
        for tick in ticks(*self.xs):
            if self.whole and tick != round(tick):
                continue
            parts.append(f'<path d="M{self.x(tick):.1f} {HIGH}v4" stroke="black"/>')
            parts.append(text(self.x(tick), HIGH + 16, f"{tick:.6g}", 'text-anchor="middle"'))
        for tick in ticks(*self.ys):
            parts.append(f'<path d="M0 {self.y(tick):.1f}h-4" stroke="black"/>')
            parts.append(text(-7, self.y(tick) + 4, f"{tick:.6g}", 'text-anchor="end"'))
        middle = f'text-anchor="middle" transform="translate(-54 {HIGH / 2}) rotate(-90)"'
        return parts + [text(0, 0, self.label, middle)]

    def svg(self, at):
        lines = "\n".join(self.shapes + ["</g>"] + self.axes())
        return f'<g transform="translate({LEFT} {at})">\n<g clip-path="url(#field)">\n{lines}\n</g>'


def page(title, axis, panels):
    """The panels one below the other, with what their x means at the end."""
    wide = LEFT + WIDE + 20
    high = TOP + len(panels) * (HIGH + GAP) + 6
    middle = 'text-anchor="middle"'
    parts = [
        f'<svg xmlns="http://www.w3.org/2000/svg" viewBox="0 0 {wide} {high}" font-family="Helvetica, Arial, sans-serif" font-size="11">',
        f'<clipPath id="field"><rect width="{WIDE}" height="{HIGH}"/></clipPath>',
        f'<rect width="{wide}" height="{high}" fill="white"/>',
        text(LEFT + WIDE / 2, 24, title, middle + ' font-size="13"'),
    ]
    parts += [panel.svg(TOP + k * (HIGH + GAP)) for k, panel in enumerate(panels)]
    parts.append(text(LEFT + WIDE / 2, high - 10, axis, middle))
    return "\n".join(parts + ["</svg>", ""])
