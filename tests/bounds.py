#!/usr/bin/env python3
"""bounds.py DRIVER [SEED]: 02, item 4. Have DRIVER (tests/driver.c, linked with the library) take every code of every setting to its scene
number, and pixels to ACES: some at random, and those whose three scene numbers are farthest off, each to the side that moves the ACES
number the same way. Hold each scene number to 51/100 of a unit of the exact value, and each ACES number to 9/8 of a unit of the matrix
row of the exact values. These come from the printed curves with 150 digits (decoded.py); nothing of the project's code or tables is
used."""
import random, sys, time
from fractions import Fraction
from itertools import product
from math import floor

from aces import made_of
from decoded import SETTINGS, codes_of, exact
from rules import MATRICES, PIXEL_TO_ACES, PIXEL_TO_SCENE

DECODED, ACES = Fraction(51, 100), Fraction(9, 8)  # the bounds, in units
TOO_LITTLE = Fraction(11, 10)  # some ACES number is farther off
PART = 2 ** 64  # of a unit: exact values are cut to whole numbers of parts,
CUT = Fraction(1, PART)  # by less than this
TWO_NUMBERS = 14378  # codes of all settings with two numbers within the bound
FARTHEST, AT_RANDOM = 12, 200  # codes of a side, pixels of a setting
TOP = 7881936077  # the number of curve 4's top code, whose exact value is 2349/5


def scenes(driver, s, parts):
    """the number of each code, the farthest that one is off in the power part, and how many codes have a second number within the bound"""
    made = made_of(driver, PIXEL_TO_SCENE, s, [(n, n, n) for n in parts])
    assert all(len(set(ys)) == 1 for ys in made), s
    numbers = {n: ys[0] for n, ys in zip(parts, made)}
    farthest, second = Fraction(0), 0
    for n, (toe, part) in parts.items():
        off = Fraction(abs(numbers[n] * PART - part), PART)
        assert off + CUT < DECODED, (s, n, numbers[n], float(off))
        if not toe:
            farthest = max(farthest, off)
            second += 1 - off < DECODED
            assert abs(1 - off - DECODED) > CUT, (s, n)  # so no number is exactly as far off as the bound
    assert s[0] != 4 or numbers[codes_of(s)[-1]] == TOP, s
    return numbers, farthest, second


def chosen(s, parts, numbers):
    """for each row of the matrix the pixels whose numbers are farthest above the exact values under a positive entry and below them under a
    negative one, and those with above and below exchanged"""
    low_first = sorted(parts, key=lambda n: numbers[n] * PART - parts[n][1])
    ends = low_first[:FARTHEST], low_first[-FARTHEST:]
    for row in MATRICES[s[0]][1]:
        for side in (0, 1):
            yield from product(*(ends[side ^ (entry > 0)] for entry in row))


def aces_off(s, parts, pixel, triple):
    """the farthest that an ACES number of a pixel is from the row of the exact values"""
    scale, rows = MATRICES[s[0]]
    values = [parts[n][1] for n in pixel]
    return max(
        Fraction(abs(a * scale * PART - sum(e * v for e, v in zip(row, values))) + sum(map(abs, row)), scale * PART)  # with what was cut
        for a, row in zip(triple, rows)
    )


def main():
    begun = time.time()
    driver, pick = sys.argv[1], random.Random(int(sys.argv[2]) if len(sys.argv) > 2 else 1)
    farthest, codes, second, worst, count = Fraction(0), 0, 0, (Fraction(0), None, None), 0
    for s in SETTINGS:
        parts = {n: (toe, floor(value * PART)) for n, (toe, value) in zip(codes_of(s), exact(*s))}
        numbers, off, twice = scenes(driver, s, parts)
        farthest, codes, second = max(farthest, off), codes + len(parts), second + twice
        if s[0] in MATRICES:
            pixels = [*chosen(s, parts, numbers), *(tuple(pick.choices(codes_of(s), k=3)) for _ in range(AT_RANDOM))]
            count += len(pixels)
            for pixel, triple in zip(pixels, made_of(driver, PIXEL_TO_ACES, s, pixels)):
                off = aces_off(s, parts, pixel, triple)
                assert off < ACES, (s, pixel, triple, float(off))
                worst = max(worst, (off, s, pixel))
    assert second == TWO_NUMBERS, second
    assert worst[0] > TOO_LITTLE, float(worst[0])
    print(f"bounds: {codes} scene numbers are less than {float(DECODED)} units from the exact value, in the power part at most {float(farthest):.9f}; {second} codes have a second such number")
    print(f"bounds: the ACES numbers of {count} pixels are less than {float(ACES)} units from the row of the exact values; the farthest is {float(worst[0]):.6f} off, at curve {worst[1][0]}, width {worst[1][1]}, EI {worst[1][2]}, pixel {worst[2]} ({time.time() - begun:.0f} s)")


if __name__ == "__main__":
    main()
