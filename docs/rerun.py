#!/usr/bin/python3 -S
"""A rerun of a job without either toolchain: rerun.py < job prints what `filterrun` prints.

Written from docs/ARCHIVE.md alone, with nothing but Python's floats, which are IEEE 754's binary64, and its correctly rounded root.
It is slow and proves nothing; it is here to be read, and to be held beside the program."""
import struct
import sys
from math import copysign, inf, nan, sqrt as root

LONGEST = 65536
LENGTHS = {1: (2, 0, 0), 2: (4, 0, 0), 3: (24, 0, 0), 4: (0, 8, 1), 5: (0, 8, 1), 6: (6, 0, 0), 7: (8, 0, 0), 8: (0, 8, 2), 9: (10, 0, 0)}


class Refused(Exception):
    """A refusal's number and place."""


# ---- what Python does in another way than IEEE 754


def sqrt(x):
    return nan if x != x or x < 0.0 else inf if x == inf else root(x)


def over(a, b):
    """a / b, where Python refuses to divide by zero."""
    if b != 0.0:
        return a / b
    return nan if a == 0.0 or a != a else copysign(inf, a) * copysign(1.0, b)


def bits(x):
    return "7FF8000000000000" if x != x else "%016X" % struct.unpack("<Q", struct.pack("<d", x))


# ---- the record


def fields_of(record):
    """Tag, place and content of each field, front to back."""
    fields, at = [], 0
    while at < len(record):
        left = len(record) - at
        if left < 3:
            raise Refused(7, at)
        tag, size = struct.unpack_from("<BH", record, at)
        if tag not in LENGTHS:
            raise Refused(8, at)
        if tag != 4 and any(tag == field[0] for field in fields):
            raise Refused(9, at)
        if left - 3 < size:
            raise Refused(7, at)
        fields.append((tag, at, record[at + 3 : at + 3 + size]))
        at += 3 + size
    return fields


class Job:
    def __init__(self, record):
        if len(record) > LONGEST:
            raise Refused(11, LONGEST)
        fields = fields_of(record)
        by_tag = {field[0]: field for field in fields}
        if len(by_tag) < 9:
            raise Refused(10, len(record))
        _, place, content = by_tag[1]
        if len(content) != 2:
            raise Refused(2, place)
        self.n = n = struct.unpack("<H", content)[0]
        if not 2 <= n <= 32:
            raise Refused(1, place)
        for tag, at, content in fields:
            base, factor, power = LENGTHS[tag]
            if len(content) != base + factor * n**power:
                raise Refused(2, at)
        floats = lambda content: list(struct.unpack("<%dd" % (len(content) // 8), content))
        self.rows = [floats(content) for tag, _, content in fields if tag == 4]
        nwpass, nwstop = struct.unpack("<HH", by_tag[2][2])
        if not (len(self.rows) <= 1024 and nwpass <= nwstop <= len(self.rows)):
            raise Refused(3, by_tag[2][1])
        self.bands = [(0, nwpass), (nwpass, nwstop), (nwstop, len(self.rows))]
        self.cur = list(struct.unpack("<hhh", by_tag[6][2]))
        if not all(lo - 1 <= cur <= hi - 1 for cur, (lo, hi) in zip(self.cur, self.bands)):
            raise Refused(4, by_tag[6][1])
        self.lp_sq, self.up_sq, self.sp_sq = floats(by_tag[3][2])
        self.x = floats(by_tag[5][2])
        self.kappa = floats(by_tag[7][2])[0]
        self.mq = floats(by_tag[8][2])
        self.limit, self.tolerance = struct.unpack("<Hd", by_tag[9][2])
        self.tsq = 0.0


# ---- the verdict on a point


def dot(row, x):
    total = -0.0
    for a, b in zip(row, x):
        total = total + a * b
    return total


def scan(job, band, lower, upper):
    """The first row of the band, from behind the cursor on, that breaks a limit; the cursor stays there."""
    lo, hi = job.bands[band]
    for _ in range(hi - lo):
        job.cur[band] += 1
        if job.cur[band] == hi:
            job.cur[band] = lo
        value = dot(job.rows[job.cur[band]], job.x)
        if upper is not None and value > upper:
            return job.cur[band], value, True
        if value < lower:
            return job.cur[band], value, False
    return None


def cut_of(job):
    """Group, row, side, beta0, beta1 and gradient of the cut, or None for a feasible point."""
    for group, band, lower, upper in (("pass", 0, job.lp_sq, job.up_sq), ("stop", 2, 0.0, job.sp_sq), ("middle", 1, 0.0, None)):
        broken = scan(job, band, lower, upper)
        if broken:
            row, value, is_over = broken
            if is_over:
                return group, row, "over", value - upper, value - lower, list(job.rows[row])
            beta1 = None if upper is None else upper - value
            return group, row, "under", lower - value, beta1, [-a for a in job.rows[row]]
    if job.x[0] < 0.0:
        return "sign", "-", "under", -job.x[0], None, [-1.0] + [0.0] * (job.n - 1)
    return None


# ---- the update of the ellipsoid


def bias(n, beta, tsq):
    """Status, rho, sigma and delta of a cut with one beta."""
    if tsq < beta * beta:
        return "NoSoln", 0.0, 0.0, 0.0
    tau = sqrt(tsq)
    rho = (tau + n * beta) / (n + 1.0)
    alpha = over(beta, tau)
    return "Success", rho, over(2.0 * rho, tau + beta), (n * n) / (n * n - 1.0) * (1.0 - alpha * alpha)


def parallel(n, beta0, beta1, tsq):
    """The same with two."""
    if beta1 < beta0:
        return "NoSoln", 0.0, 0.0, 0.0
    if beta1 > 0.0 and tsq <= beta1 * beta1:
        return bias(n, beta0, tsq)
    b0b1 = beta0 * beta1
    zeta0, zeta1 = tsq - beta0 * beta0, tsq - beta1 * beta1
    half = n / 2.0 * (beta1 * beta1 - beta0 * beta0)
    xi = sqrt(zeta0 * zeta1 + half * half)
    both = beta0 + beta1
    sigma = over(2.0 * (tsq + n * b0b1), tsq + b0b1 + n / 2.0 * (both * both) + xi)
    delta = over((n * n) / (n * n - 1.0) * ((zeta0 + zeta1) / 2.0 + xi / n), tsq)
    return "Success", sigma * both / 2.0, sigma, delta


def update(job, grad, beta0, beta1):
    n, mq = job.n, job.mq
    grad_t = []
    for i in range(n):
        total = 0.0
        for j in range(n):
            total += mq[i * n + j] * grad[j]
        grad_t.append(total)
    omega = dot(grad, grad_t)
    if omega <= 2.0**-1022:
        return "NoEffect"
    job.tsq = job.kappa * omega
    status, rho, sigma, delta = bias(float(n), beta0, job.tsq) if beta1 is None else parallel(float(n), beta0, beta1, job.tsq)
    if status == "Success":
        step, ratio = over(rho, omega), over(sigma, omega)
        for i in range(n):
            job.x[i] = job.x[i] - step * grad_t[i]
        for i in range(n):
            factor = ratio * grad_t[i]
            for j in range(i + 1):
                mq[i * n + j] = mq[j * n + i] = mq[i * n + j] - factor * grad_t[j]
        job.kappa = job.kappa * delta
    return status


# ---- the run


def lines(record):
    try:
        job = Job(record)
    except Refused as refused:
        yield "refused %d %d" % refused.args
        return
    for step in range(job.limit):
        cut = cut_of(job)
        if cut is None:
            yield "found %d" % step
            return
        group, row, side, beta0, beta1, grad = cut
        status = update(job, grad, beta0, beta1)
        yield "%d %s %s %s %s %s %s" % (step, group, row, side, bits(beta0), "-" if beta1 is None else bits(beta1), status)
        if status != "Success" or job.tsq < job.tolerance:
            yield "none %d" % step
            return
    yield "none %d" % job.limit


for line in lines(sys.stdin.buffer.read(LONGEST + 1)):
    sys.stdout.buffer.write(line.encode() + b"\n")
