#!/usr/bin/env python3
"""Makes the table of cases that the crate `vectors` is run on.

    python3 tools/make_vectors.py [--start N] [--out FOLDER]

FOLDER/stdin has for each case the file's length in digits, LF, and the file's bytes. FOLDER/stdout
has for each case the line `case I`, and then what is printed of the file. The same N gives the
same table.
"""

import argparse
import collections
import pathlib
import random
import sys

import reference

WHITE = (b" ", b"\t", b"\n", b"\r")
EIGHT = bytes([10, 10, 12, 12, 50, 50, 52, 60])
GOOD = b"P5 4 2 255\n" + EIGHT
BLANKS = (b" ", b" ", b" ", b"\n")  # before columns, rows and maxval, and behind maxval


def head(columns, rows, maxval, blanks=BLANKS):
    parts = [b"P5"]
    for blank, number in zip(blanks, (columns, rows, maxval)):
        parts += [blank, number if isinstance(number, bytes) else b"%d" % number]
    return b"".join(parts) + blanks[3]


def row(pixels, maxval=255):
    """A picture of one row."""
    return head(len(pixels), 1, maxval) + bytes(pixels)


def at(index, blank):
    return tuple(blank if place == index else usual for place, usual in enumerate(BLANKS))


def headers():
    """Good files: white bytes, leading zeros, each kind of maxval, bytes behind the samples."""
    for index in range(4):
        for white in WHITE:
            yield head(4, 2, 255, at(index, white)) + EIGHT
    for index in range(3):
        for run in (b"  ", b" \t\n\r", b"\r\n", b"\n" * 40):
            yield head(4, 2, 255, at(index, run)) + EIGHT
    # A second white byte behind maxval is a sample.
    for white in WHITE:
        yield head(4, 2, 255) + white + EIGHT[1:]
    for zeros in (1, 2, 19, 20, 21, 300):
        yield head(b"0" * zeros + b"4", 2, 255) + EIGHT
        yield head(4, b"0" * zeros + b"2", 255) + EIGHT
        yield head(4, 2, b"0" * zeros + b"255") + EIGHT
    for maxval in (1, 2, 3, 9, 10, 31, 32, 33, 48, 57, 99, 100, 127, 128, 200, 254, 255):
        yield row([0, maxval, maxval // 2, maxval], maxval)
        yield row([maxval, 0, maxval], maxval) + b"\xff"
    yield GOOD + b"\xff" * 30
    yield GOOD + GOOD


def other_bytes():
    """11, and 12: bytes that cannot stand where they do, and headers that end early."""
    for data in (b"", b"P", b"5", b"P6", b"p5", b"PP5 ", b" P5", b"\nP5 4 2 255\n", b"P2 4 2 255\n", b"\xef\xbb\xbfP5"):
        yield data
        yield data + GOOD[2:]
    wrong = (b"x", b"#", b"-", b"+", b".", b"\0", b"\x0b", b"\x0c", b"/", b":", b"\x1f", b"!", b"\x80", b"\x85", b"\xa0", b"\xb2", b"\xff")
    for place in (2, 3, 4, 5, 6, 7, 8, 10):
        for byte in wrong if place in (2, 4, 10) else wrong[:5]:
            yield GOOD[:place] + byte + GOOD[place + 1 :]
    yield b"P5 # made by hand\n4 2 255\n" + EIGHT
    yield b"P54 2 255\n" + EIGHT
    yield b"P5 4 2 255" + b"\xff" * 8
    yield b"P5 4\x002 255\n" + EIGHT
    for ended in (b"P5", b"P5 ", b"P5 4", b"P5 4 ", b"P5 4 2", b"P5 4 2 ", b"P5 4 2 255", b"P5 \n\t", b"P5 0", b"P5 4097", b"P5 4 0", b"P5 4 2 0", b"P5 4 2 256"):
        yield ended


def numbers():
    """13, and which of several header faults comes first."""
    sizes = (b"0", b"00", b"4097", b"04097", b"5000", b"10000", b"65537", b"65540", b"4294967296", b"4294967300", b"9223372036854775808",
             b"18446744073709551615", b"18446744073709551616", b"18446744073709551620", b"99999999999999999999", b"9" * 200)
    for size in sizes:
        yield head(size, 2, 255) + EIGHT
        yield head(4, size, 255) + EIGHT
    for maxval in (b"0", b"000", b"256", b"257", b"511", b"512", b"999", b"1000", b"65535", b"65536", b"65791", b"4294967551", b"18446744073709551871", b"99999999999999999999"):
        yield head(4, 2, maxval) + EIGHT
    yield head(4096, 4096, 255) + EIGHT
    yield head(4096, 1, 255) + EIGHT
    for data in (b"P5 0x", b"P5 0 x", b"P5 0\t#", b"P5 x 0 ", b"P5 0 0 0 ", b"P5 4 0 0 ", b"P5 4097 2 x", b"P5 4 4097 256 ", b"P5 4 4097x256 ",
                 b"P5 4 2 256x", b"P5 4 2 0\n", b"P5 4 0", b"P5 4 0\r", b"P5 0 2 256 ", b"P5  00  2 1 ", b"P5 4x0 0 ", b"P50 0 0 ", b"P6 0 0 0 "):
        yield data


def samples():
    """14 and 15."""
    for missing in (1, 2, 7, 8):
        yield GOOD[: len(GOOD) - missing]
    yield head(1, 1, 255)
    yield head(4096, 1, 255) + bytes(4095)
    for maxval in (1, 59, 100, 254):
        for place in (0, 3, 7):
            pixels = bytearray([0, maxval] * 4)
            pixels[place] = maxval + 1
            yield head(4, 2, maxval) + bytes(pixels)
            yield head(4, 2, maxval) + bytes(pixels[:7])
            yield head(4, 2, maxval) + bytes(pixels[: place + 1]) + b"\xff" * (7 - place)
    yield head(4, 2, 59) + EIGHT
    yield head(4, 2, 60) + EIGHT + b"\xff"
    yield head(1, 1, 7, at(0, b"\n\n")) + b"\x08"


def pictures():
    """Chosen pictures for the cut."""
    for pixels in ([0, 2, 4], [4, 2, 0], [0, 4, 8, 12], [10, 20, 30], [0, 1], [254, 255], [0, 255], [255, 0], [3] * 5 + [250] * 7,
                   [1, 2, 100, 101], [1, 2, 2, 100], [7, 7, 8, 200, 201, 201], [0, 0, 0, 1], [0] * 200 + [255], [0] + [255] * 200,
                   [0, 1, 2, 3], [5, 5, 9, 9, 13, 13], [0, 0, 128, 255, 255], list(range(256)), list(range(255, -1, -1)),
                   list(range(0, 256, 5)), [100] * 40 + [101] * 40, [0, 127, 128, 255], [0, 100, 200], [0, 100, 101, 200]):
        yield row(pixels)
    for level in (0, 1, 77, 255):
        yield row([level])
        yield row([level] * 30)
    yield head(1, 256, 255) + bytes(range(256))
    yield head(16, 16, 255) + bytes(range(256))
    yield head(1, 4096, 255) + bytes(v % 256 for v in range(4096))


def damaged(rng):
    """Copies of a good file with one byte changed, left out or put in, and cut at each length."""
    for place in range(len(GOOD)):
        yield GOOD[:place]
        yield GOOD[:place] + GOOD[place + 1 :]
    for _ in range(50):
        data = bytearray(head(b"03", 3, rng.choice((12, 60, 255)), (b"\n", b" ", b"\r\n", b"\t")) + bytes(rng.randrange(13) for _ in range(9)))
        place = rng.randrange(len(data))
        byte = rng.choice((rng.randrange(256), *b" \t\n\r0129#P5"))
        yield bytes(data[:place] + bytes([byte]) + data[place + rng.randrange(2) :])


def few_levels(rng, count):
    """Small pictures of few levels, so that several cuts are often equally good."""
    for _ in range(count):
        levels = rng.sample(range(0, rng.choice((5, 9, 13, 256))), rng.randrange(2, 5))
        columns, rows = rng.randrange(1, 5), rng.randrange(1, 4)
        pixels = bytes(rng.choice(levels) for _ in range(columns * rows))
        yield head(columns, rows, rng.randrange(max(1, max(pixels)), 256)) + pixels


def even_steps(rng, count):
    """Pictures that are their own mirror image, where two far cuts are equally good."""
    for _ in range(count):
        step = rng.randrange(1, 40)
        half = [rng.randrange(0, 4) * step for _ in range(rng.randrange(1, 6))]
        pixels = half + [6 * step - p for p in half] + [3 * step] * rng.randrange(3)
        rng.shuffle(pixels)
        yield row(pixels)


def clusters(rng, columns, rows):
    """A picture of two or three blurred levels."""
    middles = [rng.randrange(256) for _ in range(rng.randrange(2, 4))]
    spread = rng.randrange(1, 60)
    pixels = (rng.choice(middles) + rng.randrange(-spread, spread + 1) for _ in range(columns * rows))
    return head(columns, rows, 255) + bytes(min(255, max(0, p)) for p in pixels)


def large(rng):
    """As many pixels as a station takes, twice, and the least number above that a file can have."""
    yield head(256, 256, 255) + bytes(rng.randrange(256) for _ in range(65536))
    yield clusters(rng, 4096, 16)
    yield clusters(rng, 331, 198)


def cases(rng):
    made = [GOOD, *headers(), *other_bytes(), *numbers(), *samples(), *pictures(), *damaged(rng), *few_levels(rng, 60), *even_steps(rng, 30)]
    made += [clusters(rng, rng.randrange(4, 24), rng.randrange(4, 24)) for _ in range(25)]
    made += large(rng)
    return list(dict.fromkeys(made))  # each once


def main():
    options = argparse.ArgumentParser(description="Makes the table of cases of the crate vectors.")
    options.add_argument("--start", type=int, default=1, help="what the random numbers start from")
    options.add_argument("--out", type=pathlib.Path, default=pathlib.Path(__file__).resolve().parent.parent / "crates" / "vectors")
    options = options.parse_args()
    given, wanted, kinds = bytearray(), [], collections.Counter()
    for number, data in enumerate(cases(random.Random(options.start)), 1):
        answer = reference.listing(data)
        given += b"%d\n" % len(data) + data
        wanted.append(f"case {number}\n{answer}")
        kinds[" ".join(answer.split()[:3]) if answer.startswith("fault") else "good"] += 1
    options.out.mkdir(parents=True, exist_ok=True)
    (options.out / "stdin").write_bytes(given)
    (options.out / "stdout").write_text("".join(wanted))
    print(f"{len(wanted)} cases, {len(given)} bytes:", ", ".join(f"{kind} {n}" for kind, n in sorted(kinds.items())), file=sys.stderr)


if __name__ == "__main__":
    main()
