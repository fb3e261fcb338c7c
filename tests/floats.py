#!/usr/bin/env python3
"""floats.py PROGRAM [SEED]: have PROGRAM (crates/test_floats/out/test_floats) decode every code of every setting to floats, encode these floats again, and encode
other floats: random bits, halves of a unit where the code changes, subnormals, both zeros, the ends of the range, infinities, and floats that are not
numbers. Each answer is held to Python's exact fractions and to the rules of 01 (rules.py)."""
import random, subprocess, sys, time
from fractions import Fraction
from math import floor, inf, isfinite, nan, nextafter
from struct import Struct

from decoded import COUNT, codes_of, setting_refusal
from rules import SETTINGS, first_refusal, nearest, numbers
from strips import INVALID, ends

UNIT = 2 ** 24
DECODE, ENCODE = 0, 1
CODES, FLOATS = Struct("<BBBH3Q"), Struct("<BBBH3d")
BITS, FLOAT = Struct("<3Q"), Struct("<3d")
ENDS = [sign * x for sign in (1, -1) for x in (
    0.0, 5e-324, 2.0 ** -1022, nextafter(2.0 ** -1022, 0), 2.0 ** -26, 2.0 ** -25, nextafter(2.0 ** -25, 0), nextafter(2.0 ** -25, 1), 3 * 2.0 ** -25,
    65536.0, nextafter(65536.0, 0), nextafter(65536.0, inf), 131072.0, 2.0 ** 63, 1.7976931348623157e308, inf, nan,
)]


def run(program, records):
    out = subprocess.run([program], input=b"".join(records), stdout=subprocess.PIPE, check=True).stdout.decode().split("\n")
    assert out[-1] == "" and len(out) == len(records) + 1, len(out)
    return out


def refused(x):
    """the refusal of a float, or 0"""
    if not isfinite(x):
        return 8
    return 9 if abs(Fraction(x)) > 65536 else 0


def units(x):
    return floor(Fraction(x) * UNIT + Fraction(1, 2))


def encoded(table, s, xs):
    """the line for a float pixel"""
    number = setting_refusal(*s) or next(filter(None, map(refused, xs)), 0)
    return f"refused {number}" if number else " ".join(str(nearest(table, s, units(x))) for x in xs)


def any_float(pick):
    if pick.randrange(3):
        return FLOAT.unpack(BITS.pack(pick.getrandbits(1) << 63 | pick.randrange(990, 1041) << 52 | pick.getrandbits(52), 0, 0))[0]
    return pick.choice((FLOAT.unpack(BITS.pack(pick.getrandbits(64), 0, 0))[0], pick.choice(ENDS), pick.uniform(-500, 500)))


def pixels(pick, table):
    """float pixels to encode, each with a setting"""
    for s, ys in table.items():
        # the last scene number of a code, and half a unit above it, where the next code begins
        codes = codes_of(s)
        for k in sorted(pick.sample(range(len(codes) - 1), 200)):
            middle = (ys[codes[k]] + ys[codes[k + 1]]) // 2
            x = (middle + 0.5) / UNIT
            assert units(x) == middle + 1 and nearest(table, s, units(x)) == codes[k + 1]
            yield s, (nextafter(x, -inf), x, nextafter(x, inf))
        for _ in range(300):
            yield s, [any_float(pick) for _ in range(3)]
        for x in ENDS:
            for place in range(3):
                yield s, [x if i == place else pick.choice((0.18, pick.choice(ENDS))) for i in range(3)]
    for s in INVALID:
        yield s, [any_float(pick) for _ in range(3)]


def main():
    begun = time.time()
    program, pick = sys.argv[1], random.Random(int(sys.argv[2]) if len(sys.argv) > 2 else 1)
    table = {s: numbers(s) for s in SETTINGS}

    # every code, three to a pixel; then settings that there are not, and codes at and beyond the ends
    asked = []
    for s in SETTINGS:
        codes = codes_of(s)
        asked += [(s, tuple(codes[min(k + i, len(codes) - 1)] for i in range(3))) for k in range(0, len(codes), 3)]
    asked += [(s, (0, 1, 2)) for s in INVALID]
    asked += [(s, codes) for s in SETTINGS for codes in ends(s)]
    answers = run(program, [CODES.pack(DECODE, *s, *codes) for s, codes in asked])
    decoded, floats = set(), []
    for (s, codes), line in zip(asked, answers):
        number = first_refusal(s, codes)
        if number:
            assert line == f"refused {number}", (s, codes, line)
            continue
        xs = FLOAT.unpack(BITS.pack(*map(int, line.split())))
        for n, x in zip(codes, xs):
            y, (over, under) = table[s][n], x.as_integer_ratio()
            assert over * UNIT == y * under and (y or str(x) == "0.0"), (s, n, x)
        decoded.update((s, n) for n in codes)
        floats.append((s, codes, xs))

    assert len(decoded) == COUNT
    back = run(program, [FLOATS.pack(ENCODE, *s, *xs) for s, _, xs in floats])
    for (s, codes, xs), line in zip(floats, back):
        assert line == " ".join(map(str, codes)), (s, codes, line)

    others = list(pixels(pick, table))
    lines = run(program, [FLOATS.pack(ENCODE, *s, *xs) for s, xs in others])
    wrong = 0
    for (s, xs), line in zip(others, lines):
        assert line == encoded(table, s, xs), (s, xs, line)
        wrong += line.startswith("refused")
    print(f"floats: {len(decoded)} codes decoded to their numbers over 2^24 exactly, and encoded back to themselves")
    print(f"floats: {len(others)} other float pixels, {wrong} of them refused, are encoded as the rules say ({time.time() - begun:.0f} s)")


if __name__ == "__main__":
    main()
