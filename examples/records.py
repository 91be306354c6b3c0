"""Reads job and answer records, as docs/ARCHIVE.md describes them. Python 3 alone."""

import struct
from collections import namedtuple

LONGEST = 65536
# Each tag's length: base, factor and power of n.
JOB = {1: (2, 0, 0), 2: (4, 0, 0), 3: (24, 0, 0), 4: (0, 8, 1), 5: (0, 8, 1), 6: (6, 0, 0), 7: (8, 0, 0), 8: (0, 8, 2), 9: (10, 0, 0)}
ANSWER = {0x20: (1, 0, 0), 0x21: (2, 0, 0), 0x22: (0, 8, 1)}
ROW, POINT = 4, 0x22

Job = namedtuple("Job", "n bands limits rows")
Answer = namedtuple("Answer", "steps point")


class Refused(Exception):
    """A refusal's number and place."""


def walk(record, rules):
    """Tag, place and content of each field, front to back."""
    if len(record) > LONGEST:
        raise Refused(11, LONGEST)
    fields, met, at = [], set(), 0
    while at < len(record):
        left = len(record) - at
        if left < 3:
            raise Refused(7, at)
        tag, size = struct.unpack_from("<BH", record, at)
        if tag not in rules:
            raise Refused(8, at)
        if tag in met and tag != ROW:
            raise Refused(9, at)
        if left - 3 < size:
            raise Refused(7, at)
        fields.append((tag, at, record[at + 3 : at + 3 + size]))
        met.add(tag)
        at += 3 + size
    if not set(rules) - {POINT} <= met:
        raise Refused(10, len(record))
    return fields


def test_lengths(fields, rules, n):
    for tag, at, content in fields:
        base, factor, power = rules[tag]
        if len(content) != base + factor * n**power:
            raise Refused(2, at)


def floats(content):
    return struct.unpack(f"<{len(content) // 8}d", content)


def read_job(record):
    fields = walk(record, JOB)
    of = {tag: (at, content) for tag, at, content in reversed(fields)}
    at, content = of[1]
    if len(content) != 2:
        raise Refused(2, at)
    (n,) = struct.unpack("<H", content)
    if not 2 <= n <= 32:
        raise Refused(1, at)
    test_lengths(fields, JOB, n)
    rows = [floats(content) for tag, _, content in fields if tag == ROW]
    nwpass, nwstop = struct.unpack("<HH", of[2][1])
    if not (len(rows) <= 1024 and nwpass <= nwstop <= len(rows)):
        raise Refused(3, of[2][0])
    ends = [(0, nwpass), (nwpass, nwstop), (nwstop, len(rows))]
    cursors = struct.unpack("<hhh", of[6][1])
    if not all(lo - 1 <= cur <= hi - 1 for cur, (lo, hi) in zip(cursors, ends)):
        raise Refused(4, of[6][0])
    return Job(n, (nwpass, nwstop), floats(of[3][1]), rows)


def read_answer(record, n):
    fields = walk(record, ANSWER)
    of = {tag: (at, content) for tag, at, content in fields}
    test_lengths(fields, ANSWER, n)
    at, outcome = of[0x20]
    if outcome[0] > 1 or outcome[0] != (POINT in of):
        raise Refused(12, at)
    (steps,) = struct.unpack("<H", of[0x21][1])
    return Answer(steps, floats(of[POINT][1]) if POINT in of else None)


def point_length(record):
    """How many numbers an answer's point has, if that can be said."""
    contents = [content for tag, _, content in walk(record, ANSWER) if tag == POINT]
    return len(contents[0]) // 8 if contents and len(contents[0]) % 8 == 0 else None
