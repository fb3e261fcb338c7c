#!/usr/bin/env python3
"""halves.py DRIVER [SEED]: 02, item 6. Have DRIVER (tests/driver.c, linked with the library) read and write half floats, and hold it to their values
by the fields of IEEE 754, as fractions, and to Python's own binary16 (struct's 'e') below the ends. Each of the 65,536 patterns is read in each channel;
each finite one is read and written again; between any two neighbouring halves the midpoint and the numbers beside it are written, and those beside
each half; and numbers of every length up to the ends of 8 bytes. Records are refused by the setting, and by 8 in the channel."""
import random, sys, time
from fractions import Fraction
from struct import pack, unpack

from aces import drive, made_of
from binary16 import END, MINUS_ZERO, PATTERNS, UNIT, VALUES, finite, half_of, units_of
from rules import ACES_TO_HALF, HALF_TO_ACES, HALVES, NUMBERS, PIXEL_TO_ACES

AT_RANDOM = 200000
SETTING, SENSOR = (3, 12, 800), (2, 12, 800)  # with a matrix, and without


def struct_half(v):
    """the same by Python's binary16, for what it does not take to an infinity; v / 2^24 is a float exactly"""
    return int.from_bytes(pack("<e", v / 2 ** 24), "little")


def written(driver, numbers):
    """the halves that the library writes for numbers, three in a record"""
    rows = list(zip(*[iter(numbers + [0] * (-len(numbers) % 3))] * 3))
    return [h for row in made_of(driver, ACES_TO_HALF, SETTING, rows) for h in row][:len(numbers)]


def hold(driver, numbers):
    """numbers are written as the nearest half"""
    for v, h in zip(numbers, written(driver, numbers)):
        assert h == half_of(v), (v, h, half_of(v))
        if abs(v) < 65520 * 2 ** 24:
            assert h == struct_half(v), (v, h)
    return len(numbers)


def read(driver):
    """the units that the library reads of each finite half, which stands in each channel once, beside others"""
    known = [h for h in PATTERNS if finite(h)]
    rows = list(zip(known, known[1:] + known[:1], known[2:] + known[:2]))
    units = made_of(driver, HALF_TO_ACES, SETTING, rows)
    assert units == [tuple(map(units_of, row)) for row in rows]
    assert all(Fraction(*unpack("<e", h.to_bytes(2, "little"))) == row[0] * UNIT for h, row in zip(known, units))
    return {h: row[0] for h, row in zip(known, units)}


def every_pattern(driver):
    """each pattern in each channel, beside others that pass: how many pass, and how many are refused by 8"""
    records = [HALVES.pack(*SETTING, *(h if k == channel else 0x3C00 for k in range(3))) for channel in range(3) for h in PATTERNS]
    answers = [b"done 1" if finite(h) else b"refused 8 0" for _ in range(3) for h in PATTERNS]
    lines = drive(driver, "records", "half-to-aces", b"".join(records)).split(b"\n")
    assert lines.pop() == b"" and lines == answers
    made = drive(driver, "strip", "half-to-aces", records[0] + records[1] + records[0x7C00] + records[2])
    assert made == b"refused 8 2\n" + bytes(4 * NUMBERS.size), made[:20]
    return answers.count(b"done 1"), answers.count(b"refused 8 0")


def again(driver, units):
    """what was read of each finite half is written again: how many, of which one differs"""
    back = written(driver, list(units.values()))
    assert [(h, b) for h, b in zip(units, back) if h != b] == [(MINUS_ZERO, 0)]
    return len(back)


def neighbours():
    """the numbers at and beside the midpoint of any two neighbouring halves, and beside each half"""
    seen = set()
    for a, b in zip(VALUES, VALUES[1:]):
        middle = (a + b) // 2
        seen.update((a, a + 1, middle - 1, middle, middle + 1, middle + 2, b - 1, b))
    return sorted(seen)


def at_random(pick):
    """numbers of every length, of ones, of a one and zeros, and at random; the ends of 8 bytes; and those about the last half and the first infinity"""
    ends = [-2 ** 63, -2 ** 63 + 1, 2 ** 63 - 1, *(sign * (end * 2 ** 24 + k) for end in (END, 65520, 65536) for k in (-1, 0, 1) for sign in (-1, 1))]
    shapes = [sign * (2 ** k + d) for k in range(63) for d in (-1, 0, 1) for sign in (-1, 1)]
    return ends + shapes + [pick.choice((-1, 1)) * pick.getrandbits(pick.randrange(1, 64)) for _ in range(AT_RANDOM)]


def settings(driver):
    """3, 4, 5 and 12 come before 8, and in writing too; 8 is in the channel"""
    causes = {(1, 12, 800): 3, (2, 16, 800): 4, (2, 12, 0): 5, SENSOR: 12, SETTING: 8}
    for s, number in causes.items():
        refused = b"refused %d 0\n" % number
        assert drive(driver, "records", "half-to-aces", HALVES.pack(*s, 0x7C00, 0, 0)) == refused, (s, number)
        assert drive(driver, "records", "aces-to-half", NUMBERS.pack(*s, 2 ** 62, 0, 0)) == (b"done 1\n" if s == SETTING else refused), (s, number)
    return len(causes)


def shared(driver):
    """two pixels with one half record, and the halves"""
    s, pair = (3, 16, 800), [(1001, 1001, 1001), (1002, 1001, 1001)]
    first, second = made_of(driver, PIXEL_TO_ACES, s, pair)
    assert first != second
    one, other = made_of(driver, ACES_TO_HALF, s, [first, second])
    assert one == other
    return pair, one


def main():
    begun = time.time()
    driver, pick = sys.argv[1], random.Random(int(sys.argv[2]) if len(sys.argv) > 2 else 1)
    passed, refused = every_pattern(driver)
    units = read(driver)
    print(f"halves: in the three channels {passed} patterns pass, and {refused} infinities and NaN are refused by 8; {len(units)} finite halves are read exactly")
    print(f"halves: {again(driver, units)} of them are written again the same, save that minus zero becomes plus zero")
    between, more = hold(driver, neighbours()), hold(driver, at_random(pick))
    print(f"halves: {between} numbers at and beside halves and the midpoints of any two neighbours, and {more} others, are written as the nearest half")
    pair, half = shared(driver)
    print(f"halves: {settings(driver)} settings are refused as they should be; the pixels {pair} of curve 3, width 16, EI 800 share the halves {half} ({time.time() - begun:.0f} s)")


if __name__ == "__main__":
    main()
