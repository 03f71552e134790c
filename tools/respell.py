#!/usr/bin/env python3
"""Respells this repository's own definitions, constructors and fields from camel case to snake case, in sources, definitions, proofs
and must-fail edits. Run once, at the top of the repository, after the toolchain's port.py. The names in TAKEN get another spelling than
the plain one, mostly since that would fall together with a function's. Names of functions, strings, inputs and outputs stay."""

import pathlib
import re

# Another spelling than the plain one.
TAKEN = {
    "bandSum": "band_sum_of",
    "doseLevel": "dose_level_of",
    "faultLine": "fault_line_of",
    "firstAbove": "first_above_of",
    "firstLargest": "first_largest_of",
    "meanBand": "mean_band_of",
    "noneAbove": "none_above_maxval",
    "twoClasses": "two_classes_of",
    "at-lo": "at_lo",
}
NAME = re.compile(r"(?<![A-Za-z0-9_])(?:at-lo(?![A-Za-z0-9_-])|[a-z][a-z0-9]*(?:[A-Z][a-z0-9]*)+)")


def spelled(found):
    word = found[0]
    return TAKEN.get(word) or re.sub("[A-Z]", lambda m: "_" + m[0].lower(), word)


def main():
    for path in sorted(pathlib.Path("crates").rglob("*")):
        if path.suffix in (".antt", ".rt", ".edit") and "out" not in path.parts:
            old = path.read_text()
            new = NAME.sub(spelled, old)
            if new != old:
                path.write_text(new)


main()
