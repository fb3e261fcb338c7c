#!/usr/bin/env python3
"""decoded.py PROGRAM: have PROGRAM (crates/test_codes/out/test_codes) decode every code of every setting, and settings and codes that must be
refused, and hold each answer to the curves as 01 and, for curve 2, source document 001 print them, computed with 150 digits (powers) and
fractions (the toe): each number is the nearest whole number of units. Nothing of the project's code or tables is used."""
import subprocess, sys, time
from decimal import Decimal, getcontext
from fractions import Fraction
from math import floor

getcontext().prec = 150
UNIT = 2 ** 24
HALF = Decimal("0.5")
DIGITS = 130  # of a value that is compared; the computation is good to more
CONSTANTS = {  # of a curve that has them by its EI: cut a b c d e f
    2: {
        160: "0.003907 36.439829 -0.053366 0.269035 0.391007 45.593473 -0.069772",
        200: "0.003907 45.549786 -0.088959 0.266007 0.391007 55.709581 -0.106114",
        250: "0.003907 56.937232 -0.133449 0.262978 0.391007 67.887153 -0.150510",
        320: "0.003907 72.879657 -0.195737 0.259627 0.391007 84.167616 -0.210597",
        400: "0.003907 91.099572 -0.266922 0.256598 0.391007 101.811426 -0.276349",
        500: "0.003907 113.874465 -0.355903 0.253569 0.391007 122.608379 -0.354421",
        640: "0.003907 145.759315 -0.480477 0.250218 0.391007 149.703304 -0.456760",
        800: "0.003907 182.199144 -0.622848 0.247189 0.391007 178.216873 -0.564981",
        1000: "0.003907 227.748930 -0.800811 0.244161 0.391007 210.785040 -0.689043",
        1280: "0.003907 291.518630 -1.049959 0.240810 0.391007 251.689459 -0.845336",
        1600: "0.003907 364.398287 -1.334700 0.237781 0.391007 293.073575 -1.003841",
    },
    3: {
        160: "0.005561 5.555556 0.080216 0.269036 0.381991 5.842037 0.092778",
        200: "0.006208 5.555556 0.076621 0.266007 0.382478 5.776265 0.092782",
        250: "0.006871 5.555556 0.072941 0.262978 0.382966 5.710494 0.092786",
        320: "0.007622 5.555556 0.068768 0.259627 0.383508 5.637732 0.092791",
        400: "0.008318 5.555556 0.064901 0.256598 0.383999 5.571960 0.092795",
        500: "0.009031 5.555556 0.060939 0.253569 0.384493 5.506188 0.092800",
        640: "0.009840 5.555556 0.056443 0.250219 0.385040 5.433426 0.092805",
        800: "0.010591 5.555556 0.052272 0.247190 0.385537 5.367655 0.092809",
        1000: "0.011361 5.555556 0.047996 0.244161 0.386036 5.301883 0.092814",
        1280: "0.012235 5.555556 0.043137 0.240810 0.386590 5.229121 0.092819",
        1600: "0.013047 5.555556 0.038625 0.237781 0.387093 5.163350 0.092824",
    },
}
WIDTHS = {2: (10, 12), 3: (10, 12, 16), 4: (12, 16, 140)}  # of each curve
CODES = {(4, 16): range(0, 65521, 16), (4, 140): range(256, 3761)}  # of a curve and a width where they are not all from 0 to the top code
EIS = {2: tuple(CONSTANTS[2]), 3: tuple(CONSTANTS[3]), 4: (0,)}
SETTINGS = [(curve, width, ei) for curve in WIDTHS for width in WIDTHS[curve] for ei in EIS[curve]]
COUNT = 845233  # codes of all settings
LISTED = {  # some codes of a setting and their numbers
    (4, 140, 0): {256: -302946, 581: -581, 1231: 3014569, 3760: 7881936077},
    (4, 16, 0): {0: -302946, 65520: 7881936077},
}


def top_code(width):
    """02, item 2: two to the width, less one, for a width from 1 to 16, and 0 for any other number"""
    return 2 ** width - 1 if 1 <= width <= 16 else 0


def codes_of(s):
    """the codes of a setting, from the first to the top code"""
    return CODES.get(s[:2], range(top_code(s[1]) + 1))


def number(x):
    return Decimal(x.numerator) / Decimal(x.denominator)


def exact(curve, width, ei):
    """of each code in turn: whether it is in the toe, and the exact value in units (a fraction in the toe, else a decimal)"""
    last = len(codes_of((curve, width))) - 1
    if curve == 4:
        base, first, step = 2, 6 - Fraction(14 * 95, 928), Fraction(14 * 1023, 928 * last)
        less, factor, border = Decimal(64), Decimal(783) / Decimal(1747520), Fraction(-1)
    else:
        cut, a, b, c, d, e, f = (Fraction(x) for x in CONSTANTS[curve][ei].split())
        base, first, step = 10, -d / c, 1 / (c * last)
        less, factor, border = number(b), 1 / number(a), e * cut + f
    power, ratio = Decimal(base) ** number(first), Decimal(base) ** number(step)
    for k in range(last + 1):
        t = Fraction(k, last)
        if t > border:
            yield False, (power - less) * factor * UNIT
        else:
            yield True, (t - f) / e * UNIT
        power *= ratio


def setting_refusal(curve, width, ei):
    """the refusal of a setting, or 0"""
    if curve not in WIDTHS:
        return 3
    if width not in WIDTHS[curve]:
        return 4
    return 0 if ei in EIS[curve] else 5


def refusal(curve, width, ei, code):
    """the refusal of a setting and a code, or 0"""
    number = setting_refusal(curve, width, ei)
    if number:
        return number
    codes = codes_of((curve, width))
    if code % codes.step:
        return 13
    if code < codes[0]:
        return 11
    return 6 if code > codes[-1] else 0


def record(curve, width, ei, code):
    return bytes((curve, width)) + ei.to_bytes(2, "little") + code.to_bytes(2, "little")


def main():
    begun = time.time()
    accepted = [record(*s, n) for s in SETTINGS for n in codes_of(s)]
    odd = [
        (curve, width, ei, code)
        for curve in (0, 1, 2, 3, 4, 5, 255)
        for width in (0, 8, 10, 12, 14, 16, 17, 140, 255)
        for ei in (0, 1, 159, 160, 800, 1600, 1601, 2000, 65535)
        for code in (0, 1, 8, 15, 17, 255, 256, 1023, 1024, 3760, 3761, 4095, 4096, 65519, 65520, 65521, 65535)
        if refusal(curve, width, ei, code)
    ]
    text = b"".join(accepted) + b"".join(record(*r) for r in odd) + b"\x03"
    out = subprocess.run([sys.argv[1]], input=text, stdout=subprocess.PIPE, check=True).stdout.decode()
    lines = out.split("\n")
    assert len(lines) == len(accepted) + len(odd) + 2, len(lines)
    assert lines[len(accepted):] == [f"refused {refusal(*r)}" for r in odd] + ["tail 1", ""], "a refusal differs"
    assert {13, 11, 6, 5, 4, 3} == {refusal(*r) for r in odd}
    answers = iter(lines)
    numbers = {}
    tiny = Decimal(10) ** (10 - DIGITS)
    worst = Decimal(0)
    for s in SETTINGS:
        last = None
        for n, (toe, value) in zip(codes_of(s), exact(*s)):
            y = int(next(answers))
            assert y == LISTED.get(s, {}).get(n, y), (s, n, y)
            if toe:
                assert y == floor(value + Fraction(1, 2)), (s, y, value)
            else:
                off = abs(y - value)
                assert off + tiny < HALF, (s, y, value)
                worst = max(worst, off)
            assert last is None or last < y, (s, y)
            last = numbers[(*s, n)] = y
    for n in codes_of((4, 12)):  # 02, item 5
        assert numbers[4, 16, 0, 16 * n] == numbers[4, 12, 0, n], n
    assert len(accepted) == COUNT
    print(f"decoded: {len(accepted)} codes of {len(SETTINGS)} settings have the nearest whole number to the exact value, and rise with the code")
    print(f"decoded: {len(codes_of((4, 16)))} codes of curve 4, width 16, have the numbers of the 12-bit codes that they are 16 times")
    print(f"decoded: the largest distance in the power part is {worst:.9f}")
    print(f"decoded: {len(odd)} settings and codes are refused as listed ({time.time() - begun:.0f} s)")


if __name__ == "__main__":
    main()
