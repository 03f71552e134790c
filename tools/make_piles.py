#!/usr/bin/env python3
"""Makes the script that the crate `piles` is run on, and what it should print.

    python3 tools/make_piles.py [--start N] [--out FOLDER]

FOLDER/stdin is the script (tools/piles.py has its lines), FOLDER/stdout what it should print. The
same N gives the same script.
"""

import argparse
import collections
import pathlib
import random
import struct
import sys

import piles

M = "bytes 4 10 10 12 12 50 50 52 60"
HUGE = (4096, 4097, 2**32, 2**63, 2**64 - 1)


def bits(value):
    return struct.unpack("<I", struct.pack("<f", value))[0]


# Both zeros, the smallest and largest of each kind, the edges of the levels, infinities, and several that are not a number.
EDGES = [0x00000000, 0x80000000, 0x00000001, 0x80000001, 0x007FFFFF, 0x807FFFFF, 0x00800000, 0x80800000, 0x7F7FFFFF, 0xFF7FFFFF]
EDGES += [0x7F800000, 0xFF800000, 0x7FC00000, 0xFFC00000, 0x7F800001, 0xFFFFFFFF]
EDGES += [bits(level) + step for level in (1.0, 2.0, 127.0, 128.0, 255.0, 256.0, 257.0) for step in (-1, 0, 1)]
EDGES += [bits(value) for value in (0.5, 0.75, 255.75, -0.5, -1.0, -255.0, 1e-40, 254.5, 300.0, 65536.0, 4294967296.0)]


def worked():
    """Chosen pictures and calls."""
    yield [M, "show", "at 3 1", "at 4 1", "at 0 2", "at 18446744073709551615 18446744073709551615", "lay", "otsu", "paint 10", "paint 8", "paint 7", "paint 0"]
    yield [M, "halving", "show", M, "window 2 0 5 1", "show", M, "negative", "show", "halving", "show", "window 1 0 1 1", "show"]
    yield ["paint 4", M, "paint 8", "lift", "otsu", "paint 3", "lay", "paint 8", "otsu", "paint 8", "bytes 1", "paint 3", "paint 0", "lay", "lift"]
    yield ["bytes 3 0 2 4", "lay", "otsu", "bytes 6 0 1 2 3 4 255", "paint 9", "negative", "paint 6"]
    yield [M, "lay", "otsu", "bytes 4 0 10 12 13 50 61 255 52", "paint 8", "lift", "window 1 0 1 1", "lift", "bytes 1 60", "lift", "lift", "otsu", "paint 1"]
    yield ["bytes 2 9 9", "lay", "otsu", "paint 2", "bytes 2 9 8", "lift", "window 0 0 1 1", "lift", "lift", "lift"]
    for columns in (0, 1, 3, 8, 9, *HUGE):
        yield [f"bytes {columns} 10 20 30 40 50 60 70 80", "show", "lay", "halving", "show"]
    for dose in EDGES:
        yield [f"doses 1 {dose}", "show", "clip"]
    yield ["doses 4 " + " ".join(map(str, EDGES)), "show", "clip", "negative", "show"]


def limits():
    """As many columns, rows and pixels as there may be, and one more."""
    yield ["ramp 4096 4096 0 1", "at 4095 0", "at 4096 0", "lay", "otsu"]
    yield ["ramp 4097 4097 0 1", "at 0 0", "lay"]
    yield ["ramp 1 4097 0 1", "at 0 4095", "at 0 4096", "lay"]
    yield ["ramp 256 65536 0 1", "lay", "otsu", M, "lay", "lift", "ramp 256 65535 0 3", "lift", "lift", "lay"]
    yield ["ramp 1 1 9 0", "lay", "ramp 256 65536 0 1", "lay", "ramp 255 65535 7 5", "lay", "lay", "lift"]
    yield ["ramp 4096 69632 0 1", "lay", "lift", M, "lay", "ramp 4096 69632 11 49", "lift", "halving", "lay", "lift"]
    yield ["ramp 331 65868 0 7", "lay", "negative", "lift", "window 0 0 330 198", "lay", "otsu"]


def windows(rng, count):
    """Windows on windows, with any numbers."""
    for _ in range(count):
        columns, rows = rng.randrange(1, 6), rng.randrange(1, 6)
        lines = [f"bytes {columns} " + " ".join(str(rng.randrange(256)) for _ in range(columns * rows + rng.randrange(columns)))]
        for _ in range(rng.randrange(1, 4)):
            numbers = [rng.choice([rng.randrange(7), rng.randrange(7), rng.randrange(7), rng.choice(HUGE)]) for _ in range(4)]
            lines.append("window " + " ".join(map(str, numbers)))
        yield lines + ["show", f"at {rng.randrange(6)} {rng.randrange(6)}", f"at {rng.choice(HUGE)} 0"]


def layer(rng):
    kind = rng.choice(("window", "negative", "halving"))
    return kind if kind != "window" else f"window {rng.randrange(2)} {rng.randrange(2)} {rng.randrange(1, 12)} {rng.randrange(1, 12)}"


def picture(rng):
    """A picture of any kind, with up to three layers."""
    columns, rows = rng.randrange(1, 12), rng.choice((0, *range(1, 12)))
    count = columns * rows
    if rng.randrange(3):
        levels = rng.sample(range(256), rng.randrange(1, 8))
        lines = [f"bytes {columns} " + " ".join(str(rng.choice(levels)) for _ in range(count))]
    else:
        top = rng.choice((4.0, 60.0, 260.0))
        samples = [rng.choice(EDGES) if rng.randrange(40) == 0 else bits(rng.random() * top) for _ in range(count)]
        lines = [f"doses {columns} " + " ".join(map(str, samples)), "clip"]
    return lines + [layer(rng) for _ in range(rng.randrange(4))] + ["show"]


def benches(rng, count):
    """Calls in any order on a few pictures."""
    for _ in range(count):
        shelf = [picture(rng) for _ in range(rng.randrange(1, 4))]
        lines = shelf[0] + rng.choice((["lay"], ["lay", "otsu"], ["lay", "otsu"], []))
        for _ in range(rng.randrange(3, 10)):
            lines += rng.choice(shelf) if rng.randrange(2) else []
            lines.append(rng.choice(("lay", "lay", "lift", "otsu", "otsu", f"paint {rng.randrange(90)}", "paint 100")))
        yield lines


def main():
    options = argparse.ArgumentParser(description="Makes the script of the crate piles, and what it should print.")
    options.add_argument("--start", type=int, default=1, help="what the random numbers start from")
    options.add_argument("--out", type=pathlib.Path, default=pathlib.Path(__file__).resolve().parent.parent / "crates" / "piles")
    options = options.parse_args()
    rng = random.Random(options.start)
    script = []
    for lines in (*worked(), *limits(), *windows(rng, 60), *benches(rng, 160)):
        script += ["case", *lines]
    printed = list(piles.run(script))
    options.out.mkdir(parents=True, exist_ok=True)
    (options.out / "stdin").write_text("".join(line + "\n" for line in script))
    (options.out / "stdout").write_text("".join(line + "\n" for line in printed))
    kinds = collections.Counter(" ".join(line.split()[: 3 if line.startswith("fault") else 1]) for line in printed)
    print(f"{len(script)} lines:", ", ".join(f"{kind} {n}" for kind, n in sorted(kinds.items())), file=sys.stderr)


if __name__ == "__main__":
    main()
