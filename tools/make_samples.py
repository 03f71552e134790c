#!/usr/bin/env python3
"""Draws the sample pictures: solder joints as an X-ray shows them, and one of eight pixels.

    python3 tools/make_samples.py [--start N] [--out FOLDER]

All in whole numbers, so that the same N gives the same bytes on every machine.
"""

import argparse
import pathlib
import random

FINE = 16  # parts of a pixel, for centres and radii
EDGE = 2 * FINE  # how soft an outline is


def covered(x, y, disc):
    """How far a disc covers the point, from 0 to 256, falling off over its edge."""
    cx, cy, radius = disc
    away = (x * FINE - cx) ** 2 + (y * FINE - cy) ** 2
    inner, outer = (radius - EDGE) ** 2, (radius + EDGE) ** 2
    return 256 * (outer - min(outer, max(inner, away))) // (outer - inner)


def level(x, y, picture, joints):
    """The level at a point without noise: thicker in a joint's middle, thinner in a void."""
    value = picture["ground"] * 256 + picture["slope"] * x
    for joint in joints:
        cx, cy, radius = joint["disc"]
        dome = radius * radius - min(radius * radius, (x * FINE - cx) ** 2 + (y * FINE - cy) ** 2)
        body = picture["body"] + picture["dome"] * dome // (radius * radius)
        for void in joint["voids"]:
            body -= body * picture["depth"] * covered(x, y, void) // (100 * 256)
        value += body * covered(x, y, joint["disc"])
    return value // 256


def place_voids(rng, disc, count):
    """Voids inside a joint; they may touch."""
    cx, cy, radius = disc
    voids = []
    while len(voids) < count:
        size = rng.randrange(radius // 12, radius // 4)
        dx, dy = (rng.randrange(-radius, radius) for _ in range(2))
        if dx * dx + dy * dy < (radius - size - EDGE) ** 2:
            voids.append((cx + dx, cy + dy, size))
    return voids


def draw(rng, picture):
    columns, rows, noise = picture["columns"], picture["rows"], picture["noise"]
    joints = []
    for (cx, cy, radius), count in picture["joints"]:
        disc = (cx * FINE, cy * FINE, radius * FINE)
        joints.append({"disc": disc, "voids": place_voids(rng, disc, count)})
    samples = bytearray()
    for y in range(rows):
        for x in range(columns):
            # Four throws together are close to the noise of a detector.
            grain = sum(rng.randrange(-noise, noise + 1) for _ in range(4)) // 2
            samples.append(min(255, max(0, level(x, y, picture, joints) + grain)))
    return b"P5\n%d %d\n255\n" % (columns, rows) + samples


# Centres and radii in pixels, with the number of voids; `depth` is how much of the body a void takes, in hundredths.
PICTURES = {
    "joint": dict(columns=96, rows=64, ground=52, slope=40, body=88, dome=40, depth=62, noise=6, joints=[((46, 32, 26), 6)]),
    "ball": dict(columns=64, rows=64, ground=40, slope=0, body=110, dome=60, depth=68, noise=9, joints=[((32, 31, 24), 3)]),
    "pair": dict(columns=128, rows=96, ground=60, slope=-30, body=90, dome=30, depth=70, noise=7, joints=[((36, 46, 28), 7), ((94, 50, 25), 2)]),
}
EIGHT = b"P5 4 2 255\n" + bytes([10, 10, 12, 12, 50, 50, 52, 60])


def main():
    options = argparse.ArgumentParser(description="Draws the sample pictures.")
    options.add_argument("--start", type=int, default=1, help="what the random numbers start from")
    options.add_argument("--out", type=pathlib.Path, default=pathlib.Path(__file__).resolve().parent.parent / "samples")
    options = options.parse_args()
    options.out.mkdir(parents=True, exist_ok=True)
    (options.out / "m.pgm").write_bytes(EIGHT)
    for name, picture in PICTURES.items():
        (options.out / f"{name}.pgm").write_bytes(draw(random.Random(options.start), picture))


if __name__ == "__main__":
    main()
