#!/usr/bin/env python3
"""aces.py DRIVER [SEED]: have DRIVER (tests/driver.c, linked with the library) convert a million pixels to ACES and back, a million ACES
triples one unit off, and strips that are short, long, damaged or random, by every conversion; hold every answer and every byte to
the rules of 01 and 02 (rules.py)."""
import random, subprocess, sys, time

from decoded import codes_of
from rules import (
    ACES_TO_HALF, ACES_TO_PIXEL, ACES_TO_PIXEL_TOLERANT, APART, GRADED, GRADED_TO_PIXEL, HALF_TO_ACES, NUMBERS, PIXEL, PIXEL_TO_ACES, PIXEL_TO_SCENE,
    READ, SCENE_TO_PIXEL, SETTINGS, WAYS_BACK, WITH_MATRIX, WITHOUT_MATRIX, WRITTEN, aces, apart, numbers, pixel_of,
)
from strips import ENDS, end_jobs, hold, jobs, returned

STRIPS, RECORDS = 20, 50000
BORDERS = 1, 15, 16, 17, 1000, 4095, 4096, 4097, 20000  # records of a strip: where the library takes another way, and beside it
SAMPLE = 1000  # of the records of each strip: the way back by definition
LISTED = (3, 12, 800)
NAMES = (  # of the driver's conversions
    "pixel-to-scene", "scene-to-pixel", "pixel-to-aces", "aces-to-pixel", "aces-to-half", "half-to-aces", "graded-to-pixel", "graded-to-scene",
    "aces-to-pixel-tolerant",
)


def drive(driver, command, conversion, data):
    return subprocess.run([driver, command, conversion, "/dev/stdin"], input=data, stdout=subprocess.PIPE, check=True).stdout


def made_of(driver, conversion, s, rows):
    """what the channels of the records of one setting become"""
    line, made = drive(driver, "strip", NAMES[conversion], b"".join(READ[conversion].pack(*s, *row) for row in rows)).split(b"\n", 1)
    assert line == b"done %d" % len(rows), (s, line)
    records = list(WRITTEN[conversion].iter_unpack(made))
    assert all(r[:3] == s for r in records), s
    return [r[3:] for r in records]


def same(got, want, record, asked):
    """the answer's line and every byte of the output; where they differ, the first record that does"""
    if got != want:
        line, made = got.split(b"\n", 1)
        wanted = want.split(b"\n", 1)[1]
        k = next((k for k in range(len(asked)) if made[k * record:(k + 1) * record] != wanted[k * record:(k + 1) * record]), None)
        raise AssertionError((line, k, k is not None and (asked[k].hex(), made[k * record:(k + 1) * record].hex(), wanted[k * record:(k + 1) * record].hex())))


def code(pick, codes):
    """one of some codes, one in sixteen near an end"""
    return codes[pick.randrange(len(codes)) if pick.getrandbits(4) else pick.choice((0, 1, -2, -1))]


def mixed(pick, table, count):
    """pixel records in runs of one setting, their ACES records, and for each an ACES record with one channel one unit off"""
    pixels, made, off = [], [], []
    while len(pixels) < count:
        s = pick.choice(WITH_MATRIX)
        ys, codes = table[s], codes_of(s)
        for _ in range(min(pick.choice((1, 2, 30, 100)), count - len(pixels))):
            pixel = code(pick, codes), code(pick, codes), code(pick, codes)
            triple = aces(s, *(ys[n] for n in pixel))
            pixels.append(PIXEL.pack(*s, *pixel))
            made.append(NUMBERS.pack(*s, *triple))
            triple[pick.randrange(3)] += pick.choice((-1, 1))
            off.append(NUMBERS.pack(*s, *triple))
    return pixels, made, off


def million(driver, pick, table):
    """pixels to ACES, and back, by the tolerant way and the graded road too; triples one unit off, each alone, which the tolerant way takes back"""
    for _ in range(STRIPS):
        pixels, made, off = mixed(pick, table, RECORDS)
        done = b"done %d\n" % RECORDS
        same(drive(driver, "strip", "pixel-to-aces", b"".join(pixels)), done + b"".join(made), NUMBERS.size, pixels)
        for back, records in ("aces-to-pixel", made), ("graded-to-pixel", made), ("aces-to-pixel-tolerant", made), ("aces-to-pixel-tolerant", off):
            same(drive(driver, "strip", back, b"".join(records)), done + b"".join(pixels), PIXEL.size, records)
        for r, found in zip(made[:SAMPLE] + off[:SAMPLE], pixels[:SAMPLE] + [None] * SAMPLE):
            *s, x, y, z = NUMBERS.unpack(r)
            codes = pixel_of(table, tuple(s), [x, y, z])
            assert (codes and PIXEL.pack(*s, *codes)) == found, (s, x, y, z, codes)
        lines = drive(driver, "records", "aces-to-pixel", b"".join(off)).split(b"\n")
        assert len(lines) == RECORDS + 1 and not lines.pop()
        for line, r in zip(lines, off):
            assert line == b"refused 10 0", (line, NUMBERS.unpack(r))


def borders(driver, pick, way, records):
    """strips of chosen lengths on a way back: whole; with one record that no pixel gives, or of a curve without a matrix, and others behind it. Of a
    count of them RECORDS gives pixels, ACES records that come back as these, and some that are refused by 10: how many strips were refused"""
    tried = 0
    for n in BORDERS:
        pixels, made, off = records(n)
        same(drive(driver, "strip", NAMES[way], b"".join(made)), b"done %d\n" % n + b"".join(pixels), PIXEL.size, made)
        for k in {0, n // 2, n - 1}:
            for number, wrong in (10, off[k]), (12, NUMBERS.pack(*pick.choice(WITHOUT_MATRIX), *NUMBERS.unpack(made[k])[3:])):
                strip = made[:k] + [wrong] + pick.choice((made, off))[k + 1:]
                got = drive(driver, "strip", NAMES[way], b"".join(strip))
                assert got == b"refused %d %d\n" % (number, k) + bytes(n * PIXEL.size), (n, k, got[:40])
                tried += 1
    return tried


def listed():
    """the pixel and the triple that 01 lists, and triples at the ends of the range, alone and after a record that passes"""
    pixel, triple = PIXEL.pack(*LISTED, 100, 0, 0), NUMBERS.pack(*LISTED, -238167, -283566, -289928)
    none = NUMBERS.pack(*LISTED, -290085, -290085, -290084)
    yield PIXEL_TO_ACES, pixel, bytes(NUMBERS.size)
    yield PIXEL_TO_ACES, bytes(11), bytes(100)
    for c in PIXEL_TO_ACES, *WAYS_BACK:
        yield c, b"", b""
        yield c, b"", b"kept"
    for c in WAYS_BACK:
        yield c, triple, bytes(PIXEL.size)
        yield c, none, bytes(PIXEL.size)
        yield c, triple + none, bytes(30)
        yield c, bytes(29), bytes(100)
        for s in SETTINGS:
            for x in ENDS:
                yield c, triple + NUMBERS.pack(*s, x, x, x), bytes(20)
                yield c, NUMBERS.pack(*s, x, 0, -x - 1), bytes(PIXEL.size)


def main():
    begun = time.time()
    driver, pick = sys.argv[1], random.Random(int(sys.argv[2]) if len(sys.argv) > 2 else 1)
    table = {s: numbers(s) for s in SETTINGS}
    least = min(apart(table, s) for s in WITH_MATRIX)
    assert least >= APART, least  # so a triple one unit off is no other pixel's
    assert aces(LISTED, *(table[LISTED][n] for n in (100, 0, 0))) == [-238167, -283566, -289928]
    assert pixel_of(table, LISTED, [-290085, -290085, -290084]) is None
    million(driver, pick, table)
    tried = borders(driver, pick, ACES_TO_PIXEL, lambda n: mixed(pick, table, n))
    print(f"aces: {STRIPS * RECORDS} pixels of {len(WITH_MATRIX)} settings in mixed strips: their ACES strips are exact in every byte, and give the pixels back, by the tolerant way and the graded road too")
    print(f"aces: {STRIPS * RECORDS} ACES triples one unit off in one channel are each refused by 10 (two pixels are {float(least):.1f} units apart or more), and give the pixels back by the tolerant way")
    print(f"aces: strips of {', '.join(map(str, BORDERS))} ACES records give the pixels back; {tried} with a record one unit off or of curve 2 are refused there, and their outputs stay")
    todo = [*listed(), *end_jobs(table), *jobs(pick, table, (PIXEL_TO_ACES, *WAYS_BACK), 6000)]
    todo += jobs(pick, table, (PIXEL_TO_SCENE, SCENE_TO_PIXEL, ACES_TO_HALF, HALF_TO_ACES, *GRADED), 3000)
    seen, done = hold([driver, "jobs"], table, todo)
    assert all(f"refused {n}" in seen for n in (*range(1, 9), *range(10, 15))), seen
    strips, _ = returned([driver, "jobs"], done, PIXEL_TO_ACES, ACES_TO_PIXEL)
    assert all(returned([driver, "jobs"], done, PIXEL_TO_ACES, back)[0] == strips for back in (ACES_TO_PIXEL_TOLERANT, GRADED_TO_PIXEL))
    print(f"aces: {len(todo)} strips, short, long, damaged or random, are converted or refused as the rules say, every byte of the outputs too: {seen}; {strips} ACES strips give the pixels back ({time.time() - begun:.0f} s)")


if __name__ == "__main__":
    main()
