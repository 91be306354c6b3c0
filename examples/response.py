#!/usr/bin/python3
"""Draws the rows' values at a found point between the limits of its job.

usage: response.py JOB ANSWER PICTURE.svg

ANSWER is what `reference answer < JOB` writes. Needs nothing but Python 3. If each row of the table is 1, 2 cos w, 2 cos 2w, .. for
some w, its value is the square of the filter's response at w and is drawn there; else the rows are drawn at their numbers.
"""

import math
import sys

sys.dont_write_bytecode = True  # the folder stays as it is
import records
from picture import Panel, page, span

CLOSE = 1e-11  # what rounding does to a cosine of up to 31 w, and to w itself
PASS, MIDDLE, STOP = range(3)


def frequency(row):
    """The row's w as a part of half the sampling rate, or None if it is no row of cosines."""
    cosine = row[1] / 2
    if not (abs(row[0] - 1) <= CLOSE and abs(cosine) <= 1 + CLOSE):
        return None
    w = math.acos(min(max(cosine, -1.0), 1.0))
    if all(abs(a - 2 * math.cos(w * j)) <= CLOSE for j, a in enumerate(row[1:], 1)):
        return w / math.pi
    return None


def dot(row, point):
    total = row[0] * point[0]
    for a, x in zip(row[1:], point[1:]):
        total += a * x
    return total


def response(point, w):
    """The square of the filter's response between the rows."""
    return dot([1] + [2 * math.cos(math.pi * w * j) for j in range(1, len(point))], point)


def decibels(square):
    return 10 * math.log10(max(square, 1e-30)) if square == square else square


class Drawn:
    """The rows of a job with their places, bands and values."""

    def __init__(self, job, point):
        self.job, self.point = job, point
        ws = [frequency(row) for row in job.rows]
        self.cosines = None not in ws
        self.places = ws if self.cosines else list(range(len(ws)))
        self.ends = (0, 1) if self.cosines else (-0.5, len(ws) - 0.5)
        nwpass, nwstop = job.bands
        self.bands = [PASS if r < nwpass else MIDDLE if r < nwstop else STOP for r in range(len(ws))]
        self.values = [dot(row, point) for row in job.rows]
        lp, up, sp = job.limits
        self.limits = [(lp, up), (0.0, math.inf), (0.0, sp)]
        self.broken = [v > self.limits[b][1] or v < self.limits[b][0] for v, b in zip(self.values, self.bands)]

    def stretches(self):
        """Band, first and last place of neighbours in one band."""
        stretches = []
        for place, band in sorted(zip(self.places, self.bands)):
            if stretches and stretches[-1][0] == band:
                stretches[-1][2] = place
            else:
                stretches.append([band, place, place])
        for band, first, last in stretches:
            alone = 0.004 if first == last else 0.0
            wider = alone if self.cosines else 0.5
            yield band, first - wider, last + wider

    def draw(self, panel, bands, scale):
        """The limits, the response between the rows if there is one, and the rows."""
        for band, first, last in self.stretches():
            low, high = self.limits[band]
            if band in bands:
                panel.shade(first, last, -math.inf, scale(low))
                panel.shade(first, last, scale(high), math.inf)
        if self.cosines:
            left, right = panel.xs
            ws = [left + (right - left) * k / 600 for k in range(601)]
            panel.curve([(w, scale(response(self.point, w))) for w in ws])
        for place, band, value, broken in zip(self.places, self.bands, self.values, self.broken):
            if band in bands:
                panel.dot(place, scale(value), broken)


def whole_panel(drawn):
    """All rows, in decibels where they are a response."""
    if not drawn.cosines:
        limits = [limit for pair in drawn.limits for limit in pair]
        return Panel(drawn.ends, span(drawn.values + limits, 0.1), "value of the row", True), lambda value: value
    _, up, sp = drawn.job.limits
    known = [decibels(v) for v in (up, sp, *drawn.values) if math.isfinite(v)]
    low = min(-60.0, 10 * math.floor(decibels(sp) / 10) - 20) if 0 < sp < math.inf else -60.0
    high = max([5.0] + [5 * math.ceil(db / 5) + 5 for db in known if db > 5])
    return Panel(drawn.ends, (low, high), "response in dB", False), decibels


def pass_panel(drawn):
    """The rows of the pass band from near by."""
    rows = [r for r, band in enumerate(drawn.bands) if band == PASS]
    limits = [limit for limit in drawn.limits[PASS] if math.isfinite(limit)]
    ys = span(limits or [drawn.values[r] for r in rows], 0.5)
    left, right = drawn.ends
    end = left + 1.6 * (max(drawn.places[r] for r in rows) - left)
    xs = (left, min(end, right) if end > left else right)
    what = "square of the response" if drawn.cosines else "value of the row"
    return Panel(xs, ys, what + ", pass band", not drawn.cosines)


def title_of(name, drawn, steps):
    count = lambda number, what: f"{number} {what}" + ("" if number == 1 else "s")
    title = f"{name}: n = {drawn.job.n}, {count(len(drawn.job.rows), 'row')}, found after {count(steps, 'cut')}"
    lost = sum(value != value for value in drawn.values)
    for number, what in [(sum(drawn.broken), "outside the limits"), (lost, "no number")]:
        title += f"; {count(number, 'value')} {what}" if number else ""
    return title


def read(path, what, reader):
    with open(path, "rb") as file:
        record = file.read(records.LONGEST + 1)
    try:
        return reader(record)
    except records.Refused as refused:
        sys.exit(f"{path}: cannot be read as {what}: refusal %d at byte %d" % refused.args)


def main(job_path, answer_path, picture):
    job = read(job_path, "a job", records.read_job)
    length = read(answer_path, "an answer", records.point_length)
    if length not in (None, job.n):
        sys.exit(f"{answer_path}: its point has {length} numbers, but n is {job.n} in {job_path}")
    answer = read(answer_path, "an answer", lambda record: records.read_answer(record, job.n))
    if answer.point is None:
        sys.exit(f"{answer_path}: the answer is none, it has no point to draw")
    drawn = Drawn(job, answer.point)
    panel, scale = whole_panel(drawn)
    drawn.draw(panel, (PASS, MIDDLE, STOP), scale)
    panels = [panel]
    if PASS in drawn.bands:
        panels.append(pass_panel(drawn))
        drawn.draw(panels[1], (PASS,), lambda value: value)
    axis = "frequency, as a part of half the sampling rate" if drawn.cosines else "number of the row (not every row is one of cosines)"
    with open(picture, "w", encoding="utf-8", errors="replace") as file:
        file.write(page(title_of(job_path.split("/")[-1], drawn, answer.steps), axis, panels))


if __name__ == "__main__":
    if len(sys.argv) != 4:
        sys.exit(__doc__)
    try:
        main(*sys.argv[1:])
    except OSError as error:
        sys.exit(f"{error.filename or sys.argv[3]}: {error.strerror}")
