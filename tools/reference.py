#!/usr/bin/env python3
"""What cutline should print of a file, worked out a second time and in another way.

Nothing here is shared with the proved code: the header is matched as one pattern, every sum is
taken anew for every cut, and all numbers are exact.

    python3 tools/reference.py FILE..     what cutline prints of each
"""

import re
import sys
from fractions import Fraction

READ_LIMIT = 65536  # cutline looks at no more of a file than this
PIXEL_LIMIT = 65536  # a station takes no more than this

# How far a header can be told from other bytes: each number behind white bytes, and one white byte at the end.
HEADER = re.compile(
    rb"P5(?:[ \t\n\r]+(?:([0-9]+)(?:[ \t\n\r]+(?:([0-9]+)(?:[ \t\n\r]+(?:([0-9]+)([ \t\n\r])?)?)?)?)?)?)?"
)
RANGES = ((1, 4096), (1, 4096), (1, 255))  # columns, rows, maxval

# A number may have any number of leading zeros.
if hasattr(sys, "set_int_max_str_digits"):
    sys.set_int_max_str_digits(0)


class Fault(Exception):
    def __init__(self, layer, number, detail):
        super().__init__(layer, number, detail)
        self.line = f"fault {layer} {number} {detail}\n"


def samples_of(data):
    """The samples of a file, or its first fault."""
    head = HEADER.match(data)
    if not head:
        raise Fault(1, 11, 0)
    stop = head.end()  # the header is whole, or the byte here cannot stand, or the file ends here
    for group, (least, most) in enumerate(RANGES, 1):
        # A number out of range is found at the white byte behind it.
        if head[group] and head.end(group) < stop and not least <= int(head[group]) <= most:
            raise Fault(1, 13, head.start(group))
    if not head[4]:
        raise Fault(1, 12, stop)
    columns, rows, maxval = (int(head[group]) for group in (1, 2, 3))
    samples = data[stop : stop + columns * rows]
    if len(samples) < columns * rows:
        raise Fault(1, 14, len(data))
    for place, sample in enumerate(samples, stop):
        if sample > maxval:
            raise Fault(1, 15, place)
    return samples


def weights(counts, levels):
    """How many pixels have one of the levels, and the sum of their levels."""
    return sum(counts[v] for v in levels), sum(counts[v] * v for v in levels)


def score(counts, k):
    n0, s0 = weights(counts, range(k + 1))
    n1, s1 = weights(counts, range(k + 1, 256))
    return Fraction(s0 * s0 * n1 + s1 * s1 * n0, n0 * n1)


def best_cuts(pixels):
    """Every k with the largest score, in order."""
    counts = [pixels.count(v) for v in range(256)]
    scores = {k: score(counts, k) for k in range(min(pixels), max(pixels))}
    largest = max(scores.values())
    return [k for k in scores if scores[k] == largest]


def nearest(pixels):
    """The whole number nearest to the mean, the lower one at a half."""
    mean = Fraction(sum(pixels), len(pixels))
    return min(range(256), key=lambda level: (abs(level - mean), level))


def station(pixels):
    """The three lines of a picture."""
    if len(pixels) > PIXEL_LIMIT:
        raise Fault(3, 32, 0)
    if len(set(pixels)) < 2:
        raise Fault(3, 34, len(set(pixels)))
    k = best_cuts(pixels)[0]
    low = [p for p in pixels if p <= k]
    high = [p for p in pixels if p > k]
    l0, l1 = nearest(low), nearest(high)
    gaps = sum((p - l0) ** 2 for p in low) + sum((p - l1) ** 2 for p in high)
    return f"pixels {len(pixels)}\nrange {min(pixels)} {max(pixels)}\notsu {k} {l0} {l1} {gaps}\n"


def listing(data):
    """What is printed of the bytes of a file."""
    try:
        return station(samples_of(data))
    except Fault as fault:
        return fault.line


def main(names):
    for name in names:
        with open(name, "rb") as file:
            sys.stdout.write(listing(file.read(READ_LIMIT)))


if __name__ == "__main__":
    main(sys.argv[1:])
