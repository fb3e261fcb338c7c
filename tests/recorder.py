#!/usr/bin/env python3
"""recorder.py DRIVER [SEED]: 02, item 5. Have DRIVER (tests/driver.c, linked with the library) convert at curve 4, width 16, and hold it to width 12:
a code is a 12-bit code times 16. Each of the 65536 codes of two bytes is tried in each channel: the multiples of 16 have the numbers of the 12-bit
codes, and any other is refused by 13 (in a strip of several, with the output untouched); curve 3 takes them all. Scene numbers at and beside every place where the code
changes, and some at random, become the 12-bit answer times 16, within two thirds of a 12-bit code of the exact curve. Strips of widths 12, 16 and
140 go to ACES and come back."""
import random, subprocess, sys, time
from decimal import Decimal
from struct import calcsize

from aces import drive, made_of
from decoded import UNIT, codes_of
from legal import signal_of
from rules import LIMIT, NUMBERS, PIXEL, PIXEL_TO_SCENE, SCENE_TO_PIXEL, numbers

SIXTEEN, TWELVE, LEGAL, CURVE_3 = (4, 16, 0), (4, 12, 0), (4, 140, 0), (3, 16, 800)
SETTING = calcsize("<BBH")
AT_RANDOM, MIXED = 20000, 30000
WORDS = {13: b"a code of curve 4, width 16, is not a multiple of 16"}


def decoded(driver, s, codes):
    return [ys[0] for ys in made_of(driver, PIXEL_TO_SCENE, s, [(n, n, n) for n in codes])]


def encoded(driver, s, scenes):
    pixels = made_of(driver, SCENE_TO_PIXEL, s, [(x, x, x) for x in scenes])
    assert all(red == green == blue for red, green, blue in pixels)
    return [red for red, _, _ in pixels]


def every_code(driver):
    """each code of two bytes in each channel, alone: how many pass, and how many are refused by 13"""
    pixels = [PIXEL.pack(*SIXTEEN, *(n if k == channel else 0 for k in range(3))) for channel in range(3) for n in range(2 ** 16)]
    answers = [b"refused 13 0" if n % 16 else b"done 1" for _ in range(3) for n in range(2 ** 16)]
    for conversion in "pixel-to-scene", "pixel-to-aces":
        lines = drive(driver, "records", conversion, b"".join(pixels)).split(b"\n")
        assert lines.pop() == b"" and lines == answers, conversion
        made = drive(driver, "strip", conversion, pixels[16] + pixels[32] + pixels[2 ** 16 + 17] + pixels[16])
        assert made == b"refused 13 2\n" + bytes(4 * NUMBERS.size), made[:20]
    assert len(decoded(driver, CURVE_3, range(2 ** 16))) == 2 ** 16
    return answers.count(b"done 1"), answers.count(b"refused 13 0")


def place(x):
    """where the exact curve stands at a scene number, counted in 12-bit codes"""
    return 4095 * signal_of(Decimal(x) / UNIT)


def answers(driver, pick, ys):
    """scene numbers to codes: how many"""
    ends = [(a + b) // 2 + k for a, b in zip(ys, ys[1:]) for k in (-1, 0, 1, 2)]
    scenes = ends + [-LIMIT, LIMIT, ys[0] - 1, ys[-1] + 1, *ys, *(pick.randrange(ys[0], ys[-1]) for _ in range(AT_RANDOM))]
    sixteen, twelve = encoded(driver, SIXTEEN, scenes), encoded(driver, TWELVE, scenes)
    assert sixteen == [16 * n for n in twelve]
    for x, n in zip(scenes, sixteen):
        i = n // 16
        assert all(abs(x - ys[i]) <= abs(x - ys[j]) for j in (i - 1, i + 1) if 0 <= j < len(ys)), (x, n)
        assert i == 4095 or x < ys[0] or place(x) <= i + Decimal(2) / 3, (x, n)
        assert i == 0 or place(x) >= i - Decimal(2) / 3, (x, n)
    return len(scenes)


def mixed(driver, pick):
    """a strip of the three widths goes to ACES and comes back; the records of width 16 have the ACES numbers of their 12-bit codes"""
    pixels, twins = [], []
    for _ in range(MIXED):
        s = pick.choice((SIXTEEN, SIXTEEN, TWELVE, LEGAL))
        codes = pick.choices(codes_of(s), k=3)
        pixels.append(PIXEL.pack(*s, *codes))
        twins.append(PIXEL.pack(*TWELVE, *(n // 16 for n in codes)) if s == SIXTEEN else pixels[-1])
    done = b"done %d\n" % MIXED
    made, other = (drive(driver, "strip", "pixel-to-aces", b"".join(records)).removeprefix(done) for records in (pixels, twins))
    assert all(made[k + SETTING:k + NUMBERS.size] == other[k + SETTING:k + NUMBERS.size] for k in range(0, MIXED * NUMBERS.size, NUMBERS.size))
    assert drive(driver, "strip", "aces-to-pixel", made) == done + b"".join(pixels)
    return MIXED


def main():
    begun = time.time()
    driver, pick = sys.argv[1], random.Random(int(sys.argv[2]) if len(sys.argv) > 2 else 1)
    ys = list(numbers(TWELVE).values())
    assert decoded(driver, SIXTEEN, range(0, 65521, 16)) == decoded(driver, TWELVE, range(4096)) == ys
    words = subprocess.run([driver, "words"], stdout=subprocess.PIPE, check=True).stdout.split(b"\n")
    assert all(words[number] == said for number, said in WORDS.items()), words
    passed, refused = every_code(driver)
    print(f"recorder: {len(ys)} codes of curve 4, width 16, have the numbers of 12-bit codes; in the three channels {passed} codes pass, and {refused} are refused by 13")
    print(f"recorder: {answers(driver, pick, ys)} scene numbers become the 12-bit answer times 16, nearest, and within two thirds of a 12-bit code of the exact curve")
    print(f"recorder: {mixed(driver, pick)} records of widths 12, 16 and 140 go to ACES as their 12-bit codes do, and come back ({time.time() - begun:.0f} s)")


if __name__ == "__main__":
    main()
