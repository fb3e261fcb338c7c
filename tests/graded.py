#!/usr/bin/env python3
"""graded.py PROGRAM DRIVER [SEED]: 02, item 7. Have PROGRAM (crates/test_graded/out/test_graded) give the scene numbers of graded ACES records, each by a
call of its own, and DRIVER (tests/driver.c, linked with the library) convert strips of the same to scene numbers and to codes. Tried are for
each setting with a matrix all corners of the limits, random triples of every size, and triples of pixels, some with channels moved. The ACES
numbers of an answer are within two units of those given, and the most that any of them is off is one. Encoding takes every answer. The answers
are those of the rules (rules.py), and the codes are the nearest. Other records are refused by the setting, and by 14 in the channel. An inverse
over 10^9 shows that the check of the distance sees a wrong one, and that it takes large numbers to see it."""
import random, subprocess, sys, time
from itertools import product as every

from aces import NAMES, drive, made_of
from decoded import codes_of
from rules import (
    GRADED, GRADED_LIMIT, GRADED_OFF, GRADED_TO_PIXEL, GRADED_TO_SCENE, INVERSES, LIMIT, NUMBERS, WITH_MATRIX, WRITTEN, aces, graded, inverse_over, nearest,
    numbers, product, setting_check, units_off,
)
from strips import BEYOND, ENDS, GRADED_ENDS
from way_back import SETTING_BYTES, asked_of

EACH = 1500  # triples of each setting: at random, of pixels, and of these moved
OFF = 0, 1, 2, 3, 5, 8, 12, 16, 40, 300, 2 ** 20, 2 ** 30, 2 ** 36  # units that a channel is moved
FAR = *BEYOND, *(x for x in ENDS if abs(x) > GRADED_LIMIT), 2 ** 39, -2 ** 39, 2 ** 62, -2 ** 62
WRONG_SCALE, SEEN_OFF = 10 ** 9, {3: 187, 4: 277}  # of a wrong inverse, and the most units that it is off at the corners of the limits
SMALL = 2 ** 28  # 16.0
WORDS = {14: b"a graded ACES number is outside -2^38 to 2^38"}


def corners(limit):
    return list(every((-limit, 1 - limit, 0, limit - 1, limit), repeat=3))


def signed(pick, number):
    return pick.choice((-1, 1)) * number


def triples(pick, ys, s):
    """graded triples of a setting, within the limits"""
    yield from corners(GRADED_LIMIT)
    for _ in range(EACH):
        yield [signed(pick, pick.getrandbits(pick.randint(1, 38))) for _ in range(3)]
        triple = aces(s, *(ys[n] for n in pick.choices(codes_of(s), k=3)))
        yield triple
        yield [x + signed(pick, pick.choice(OFF)) for x in triple]


def far(pick):
    """records with a number beyond the limits in one channel, in two and in all, of settings with a matrix, without one, and not valid"""
    for s in WITH_MATRIX + SETTING_BYTES:
        for x in FAR:
            for places in (0,), (1,), (2,), (0, 1), (1, 2), (0, 2), (0, 1, 2):
                yield s, [x if k in places else pick.choice((0, *GRADED_ENDS)) for k in range(3)]


def one_by_one(program, passing):
    """each triple by a call of its own: how many, the most units that the ACES numbers of an answer are off, and the largest scene number"""
    records = [(s, triple) for s, some in passing.items() for triple in some]
    most = largest = 0
    for (s, triple), line in zip(records, asked_of(program, records)):
        assert "refused" not in line, (s, triple, line)
        scenes = [int(x) for x in line.split(" ")]
        most, largest = max(most, units_off(s, scenes, triple)), max(largest, *map(abs, scenes))
        assert most <= GRADED_OFF and largest <= LIMIT, (s, triple, scenes)
        assert scenes == graded(s, triple), (s, triple, scenes, graded(s, triple))
    return len(records), most, largest


def in_strips(driver, table, passing):
    """the same by the library, in a strip for each setting: how many codes, each the nearest"""
    count = 0
    for s, some in passing.items():
        scenes = made_of(driver, GRADED_TO_SCENE, s, some)
        assert scenes == [tuple(graded(s, triple)) for triple in some], s
        codes = made_of(driver, GRADED_TO_PIXEL, s, some)
        assert codes == [tuple(nearest(table, s, x) for x in row) for row in scenes], s
        count += 3 * len(codes)
    return count


def refusals(program, driver, pick):
    """records that are refused, each by a call and as a strip of its own; and one in a strip, whose output stays: how many by each number"""
    records, seen = list(far(pick)), {}
    wanted = [f"refused {setting_check(GRADED_TO_SCENE, s) or 14}" for s, _ in records]
    for record, line, want in zip(records, asked_of(program, records), wanted):
        assert line == want, (record, line, want)
        seen[want] = seen.get(want, 0) + 1
    packed = [NUMBERS.pack(*s, *triple) for s, triple in records]
    good, bad = NUMBERS.pack(*WITH_MATRIX[0], 0, *GRADED_ENDS[:2]), packed[0]
    for conversion in GRADED:
        lines = drive(driver, "records", NAMES[conversion], b"".join(packed)).decode().split("\n")
        assert not lines.pop() and lines == [f"{want} 0" for want in wanted]
        assert drive(driver, "strip", NAMES[conversion], good * 2 + bad + good) == b"refused 14 2\n" + bytes(4 * WRITTEN[conversion].size)
    assert sorted(seen) == [f"refused {n}" for n in (12, 14, 3, 4, 5)], seen
    return seen


def wrong_inverse(curve, limit):
    """the most units that a wrong inverse is off at the corners of some limits, by the same check"""
    return max(units_off((curve,), product(*inverse_over(curve, WRONG_SCALE), *triple), triple) for triple in corners(limit))


def main():
    begun = time.time()
    program, driver = sys.argv[1:3]
    pick = random.Random(int(sys.argv[3]) if len(sys.argv) > 3 else 1)
    table = {s: numbers(s) for s in WITH_MATRIX}
    passing = {s: list(triples(pick, table[s], s)) for s in WITH_MATRIX}
    words = subprocess.run([driver, "words"], stdout=subprocess.PIPE, check=True).stdout.split(b"\n")
    assert all(words[number] == said for number, said in WORDS.items()), words
    count, most, largest = one_by_one(program, passing)
    assert most == 1, most
    print(f"graded: {count} triples of {len(WITH_MATRIX)} settings, each by a call of its own: the ACES numbers of an answer are at most {most} unit off, its scene numbers within {largest / LIMIT:.3f} of 2^40")
    print(f"graded: the library gives the same in strips, and {in_strips(driver, table, passing)} codes, each the nearest")
    print(f"graded: beyond the limits all are refused: {refusals(program, driver, pick)}")
    off = {curve: wrong_inverse(curve, GRADED_LIMIT) for curve in INVERSES}
    assert off == SEEN_OFF and all(wrong_inverse(curve, SMALL) <= GRADED_OFF for curve in INVERSES), off
    print(f"graded: an inverse over 10^9 is seen to be {off[3]} (curve 3) and {off[4]} (curve 4) units off; up to {SMALL} it would pass ({time.time() - begun:.0f} s)")


if __name__ == "__main__":
    main()
