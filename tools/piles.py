#!/usr/bin/env python3
"""What the crate `piles` should print of a script, worked out a second time from the definitions.

A script has a line for each picture, layer or call:

    case                              new stations, and no cut set
    bytes COLUMNS V V ..              a byte picture, without a layer
    ramp COLUMNS COUNT FIRST STEP     a byte picture of the bytes FIRST, FIRST + STEP, .. modulo 256
    doses COLUMNS B B ..              a dose picture of samples by their bits, without a layer
    window LEFT TOP COLUMNS ROWS      a layer on the picture; so are `negative` and `halving`
    clip                              the first clipped sample of the dose picture
    show, at X Y                      all levels of the pile, or the one at a place
    lay, lift, otsu, paint LENGTH     calls to the stations, with the pile

    python3 tools/piles.py SCRIPT     what is printed of a script
"""

import collections
import math
import struct
import sys
from fractions import Fraction

import reference

MOST = 4096  # columns, and rows
TOLERANCE = 2


class Picture:
    """Columns, rows and a level for each place, as a function of the place."""

    def __init__(self, columns, rows, level):
        self.columns, self.rows, self.level = columns, rows, level

    def at(self, x, y):
        return self.level(x, y) if x < self.columns and y < self.rows else None

    def levels(self):
        return [self.level(x, y) for y in range(self.rows) for x in range(self.columns)]


def sampled(samples, columns):
    if not 1 <= columns <= MOST:
        return Picture(0, 0, None)
    return Picture(columns, min(MOST, len(samples) // columns), lambda x, y: samples[y * columns + x])


def window(below, left, top, columns, rows):
    across = range(below.columns)[left : left + columns]
    down = range(below.rows)[top : top + rows]
    return Picture(len(across), len(down), lambda x, y: below.level(across[x], down[y]))


def negative(below):
    return Picture(below.columns, below.rows, lambda x, y: 255 - below.level(x, y))


def halving(below):
    def level(x, y):
        block = [below.level(i, j) for i in (2 * x, 2 * x + 1) for j in (2 * y, 2 * y + 1)]
        return math.floor(Fraction(sum(block), 4))

    return Picture(below.columns // 2, below.rows // 2, level)


def dose(bits):
    """The level of a sample, and whether it is clipped."""
    value = struct.unpack("<f", struct.pack("<I", bits))[0]
    if math.isnan(value) or value < 0:
        return 0, True
    if value >= 256:
        return 255, True
    return math.floor(value), False


class Bench:
    """The pixels in hand and the last cut set."""

    def __init__(self):
        self.hand = collections.Counter()
        self.cut = None

    def lay(self, levels):
        if not levels:
            return "fault 3 31 0"
        if self.hand.total() + len(levels) > reference.PIXEL_LIMIT:
            return "fault 3 32 0"
        self.hand.update(levels)
        return "accepted"

    def lift(self, levels):
        if not levels:
            return "fault 3 31 0"
        wanted = collections.Counter(levels)
        lacking = [level for level in wanted if wanted[level] > self.hand[level]]
        if lacking:
            return f"fault 3 23 {min(lacking)}"
        self.hand.subtract(wanted)
        self.hand = +self.hand
        return "accepted"

    def print_hand(self):
        return " ".join([f"hand {self.hand.total()}"] + [f"{level}:{self.hand[level]}" for level in sorted(self.hand)])

    def otsu(self):
        if not self.hand:
            return "fault 3 33 0"
        if len(self.hand) < 2:
            return f"fault 3 34 {len(self.hand)}"
        pixels = list(self.hand.elements())
        k = reference.best_cuts(pixels)[0]
        bands = [[p for p in pixels if p <= k], [p for p in pixels if p > k]]
        self.cut = k, [reference.nearest(band) for band in bands]
        gaps = [abs(p - level) for band, level in zip(bands, self.cut[1]) for p in band]
        sums = sum(g * g for g in gaps), sum(gaps), sum(g > TOLERANCE for g in gaps)
        edges = (min(pixels), k), (k + 1, max(pixels))
        parts = [f"{low} {high} {level} {len(band)}" for (low, high), level, band in zip(edges, self.cut[1], bands)]
        return " ".join(["cut 2", *map(str, sums), *parts])

    def paint(self, levels, buffer):
        if self.cut is None:
            return "fault 3 22 0"
        if len(levels) > len(buffer):
            return f"fault 3 41 {len(levels)}"
        threshold, (low, high) = self.cut
        buffer[: len(levels)] = [low if level <= threshold else high for level in levels]
        return "accepted"


def run(script):
    """The lines that are printed of a script's lines."""
    bench, base, clipped, layers = Bench(), sampled([], 0), sampled([], 0), []
    for line in script:
        word, *given = line.split()
        given = [int(number) for number in given]
        pile = base
        for layer in layers:
            pile = layer(pile)
        if word == "case":
            bench = Bench()
            yield "case"
        elif word in ("bytes", "ramp", "doses"):
            layers = []
            if word == "bytes":
                base = sampled(given[1:], given[0])
            elif word == "ramp":
                base = sampled([(given[2] + given[3] * i) % 256 for i in range(given[1])], given[0])
            else:
                base = sampled([dose(bits)[0] for bits in given[1:]], given[0])
                clipped = sampled([dose(bits)[1] for bits in given[1:]], given[0])
        elif word == "window":
            layers.append(lambda below, g=tuple(given): window(below, *g))
        elif word in ("negative", "halving"):
            layers.append({"negative": negative, "halving": halving}[word])
        elif word == "clip":
            places = [(x, y) for y in range(clipped.rows) for x in range(clipped.columns) if clipped.level(x, y)]
            yield "clip {} {}".format(*places[0]) if places else "clip none"
        elif word == "show":
            yield " ".join(map(str, ["show", pile.columns, pile.rows, *pile.levels()]))
        elif word == "at":
            level = pile.at(*given)
            yield "at none" if level is None else f"at {level}"
        elif word in ("lay", "lift"):
            yield getattr(bench, word)(pile.levels())
            yield bench.print_hand()
        elif word == "otsu":
            yield bench.otsu()
        elif word == "paint":
            buffer = [(7 * i + 3) % 256 for i in range(given[0])]
            yield bench.paint(pile.levels(), buffer)
            yield " ".join(map(str, ["buffer", *buffer]))
        else:
            raise ValueError(line)


def main(name):
    with open(name) as script:
        for line in run(script.read().splitlines()):
            print(line)


if __name__ == "__main__":
    main(*sys.argv[1:])
