#!/usr/bin/env python3
"""tolerant.py PROGRAM DRIVER [SEED]: 02, item 8. Have PROGRAM (crates/test_way_back/out/test_way_back) take moved ACES records back, each by a call of its own, and
DRIVER (tests/driver.c, linked with the library) strips of the same. Tried are for each setting with a matrix pixels at the ends, about the border of
the toe, greys and random ones. Moved by five units or less in every channel each comes back as its pixel; moved by six or more in one it comes back
or is refused as the rules say (rules.py), which try every pixel that can be as near. So it is with numbers at the ends of 8 bytes, with those that a
power of two is off, and with those about 2^38. Strips of mixed settings and of the lengths where the library takes another way are refused at their
first record that no pixel is near, and their outputs stay. An unmoved master gives the same bytes by either way. And it is computed how near two
pixels of a setting really come, over all pairs of pixels."""
import random, sys, time
from fractions import Fraction
from itertools import product as every, takewhile

from aces import NAMES, borders, drive, made_of, mixed
from decoded import codes_of, exact
from rules import (
    ACES_TO_PIXEL_TOLERANT, APART, INVERSES, MATRICES, NUMBERS, TOLERATED, WAYS_BACK, WITH_MATRIX, WITHOUT_MATRIX, aces, numbers, setting_check, units_off,
)
from strips import BEYOND, ENDS, GRADED_ENDS, nudged
from way_back import SETTING_BYTES, answer, asked_of, line_of

AT_RANDOM = 60  # greys of each setting, and as many other pixels
CORNERS = list(every((-TOLERATED, TOLERATED), repeat=3))
FARTHER = 6, 7, 11, 12, 17, 24, 29, 30, 35, 40, 300, 5000
POWERS = [2 ** k for k in (8, 16, 31, 32, 33, 38, 39, 40, 48, 53, 62, 63)]
FAR = *ENDS, *GRADED_ENDS, *BEYOND, 2 ** 63 - 1 - TOLERATED, -2 ** 63 + TOLERATED
LEAST = {(3, 10): 1909, (3, 12): 476, (3, 16): 29, (4, 12): 349, (4, 16): 349, (4, 140): 409}  # units that two pixels of a width differ by at least


# ---- how near two pixels come

def differences(ys, reach):
    """how far apart two decoded numbers of a setting are, as far as this, with a place where they are so"""
    found = {}
    for i, low in enumerate(ys):
        for j in range(i + 1, len(ys)):
            if ys[j] - low > reach:
                break
            found.setdefault(ys[j] - low, (i, j))
    return found


def nearest_pixels(s, ys):
    """the least number of units by which some channel of two pixels' ACES numbers differs, over all pairs of pixels of a setting, with the differences
    of their decoded numbers; and the differences that were tried in each channel. A row of the matrix takes three such differences to t units, and
    the ACES numbers differ by t, rounded up or down. Two pixels that differ in red alone set a bound. For less than that the difference in a channel
    is at most the bound and one, times the sum of the entries of its row of the inverse without their signs"""
    scale, rows = MATRICES[s[0]]
    over, inverse = INVERSES[s[0]]

    def least_of(differ):
        return max(abs(Fraction(sum(m * d for m, d in zip(row, differ)), scale)) // 1 for row in rows)

    step = min(b - a for a, b in zip(ys, ys[1:]))
    bound = least_of((step, 0, 0))
    reached = [differences(ys, Fraction((bound + 1) * sum(map(abs, row)), over)) for row in inverse]
    tried = every(*((0, *some, *(-d for d in some)) for some in reached))
    return min((least_of(differ), differ) for differ in tried if differ > (0, 0, 0)), reached


def met(s, ys, differ, reached, least):
    """two pixels of a setting that differ so in their decoded numbers, and by so many units in the channel in which they differ most"""
    codes = codes_of(s)
    for k in range(0, len(codes), max(1, len(codes) // 997)):
        places = [some[abs(d)][::-1 if d < 0 else 1] if d else (k, k) for d, some in zip(differ, reached)]
        one, other = ([pair[side] for pair in places] for side in (0, 1))
        if units_off(s, [ys[i] for i in other], aces(s, *(ys[i] for i in one))) == least:
            return [codes[i] for i in one], [codes[i] for i in other]
    raise AssertionError((s, differ, least))


def neighbours_apart(pick, s, ys, least):
    """pixels whose codes differ by one or none in each channel differ by as much, about random pixels"""
    for _ in range(20):
        places = [pick.randrange(1, len(ys) - 1) for _ in range(3)]
        own = aces(s, *(ys[i] for i in places))
        for by in every((-1, 0, 1), repeat=3):
            assert by == (0, 0, 0) or units_off(s, [ys[i + k] for i, k in zip(places, by)], own) >= least, (s, places, by)


def how_near(pick, table):
    """the least distance of two pixels for each curve and width, with a pair that is so near"""
    found = {}
    for s in WITH_MATRIX:
        ys = list(table[s].values())
        (least, differ), reached = nearest_pixels(s, ys)
        assert least >= APART, (s, least)
        neighbours_apart(pick, s, ys, least)
        if least < found.get(s[:2], (least + 1,))[0]:
            found[s[:2]] = (least, s[2], *met(s, ys, differ, reached, least))
    return found


# ---- records

def pixels(pick, s):
    """pixels of a setting that are worth trying"""
    codes = codes_of(s)
    yield from every((codes[0], codes[-1]), repeat=3)
    toe = sum(1 for _ in takewhile(lambda of: of[0], exact(*s)))
    for n in codes[max(toe - 2, 0):toe + 2]:
        yield n, n, n
        yield n, *pick.choices(codes, k=2)
    for _ in range(AT_RANDOM):
        n = pick.choice(codes)
        yield n, n, n
        yield tuple(pick.choices(codes, k=3))


def moved_alone(triple, channel, by, beside=None):
    """a triple with one channel moved, beside two others of its own or of another triple"""
    return [x + by if k == channel else y for k, (x, y) in enumerate(zip(triple, beside or triple))]


def near(pick, triple):
    """a triple moved by five units or less in every channel"""
    yield triple
    yield from ([x + d for x, d in zip(triple, by)] for by in CORNERS)
    yield from (nudged(pick, triple, TOLERATED) for _ in range(3))


def farther(pick, triple):
    """a triple moved by six units or more in a channel, and by five or less in the others"""
    for channel in range(3):
        for sign in -1, 1:
            yield moved_alone(triple, channel, sign * (TOLERATED + 1))
            yield moved_alone(triple, channel, sign * pick.choice(FARTHER), nudged(pick, triple, TOLERATED))


def in_eight_bytes(triple):
    return all(-2 ** 63 <= x < 2 ** 63 for x in triple)


def far(pick, triple):
    """a triple with a channel a power of two off, or at an end or a limit, and all channels so"""
    for by in POWERS:
        channel = pick.randrange(3)
        yield from filter(in_eight_bytes, (moved_alone(triple, channel, sign * by + k) for sign in (-1, 1) for k in (-TOLERATED, 0, TOLERATED)))
        yield from filter(in_eight_bytes, ([x + sign * by for x in triple] for sign in (-1, 1)))
    for x in FAR:
        yield from ([x if k == channel else y for k, y in enumerate(triple)] for channel in range(3))
        yield [x, x, x]
        yield [x, *pick.choices(FAR, k=2)]


def by_records(program, driver, asked):
    """each record by a call of its own and as a strip of its own, on either way: how many come back"""
    back = 0
    strips = [drive(driver, "records", NAMES[way], b"".join(NUMBERS.pack(*s, *triple) for s, triple, _ in asked)).decode().split("\n") for way in WAYS_BACK]
    assert all(not lines.pop() for lines in strips)
    for (s, triple, answers), line, *of_strips in zip(asked, asked_of(program, [record[:2] for record in asked]), *strips):
        assert line == line_of(answers), (s, triple, line, answers)
        assert of_strips == [f"refused {found} 0" if isinstance(found, int) else "done 1" for found in answers], (s, triple, of_strips, answers)
        back += not isinstance(answers[-1], int)
    return back


def moved_masters(program, driver, pick, table):
    """each pixel's triple, moved by five units or less, comes back as the pixel, and exactly only where it is not moved: how many"""
    asked = []
    for s in WITH_MATRIX:
        made = [(pixel, aces(s, *(table[s][n] for n in pixel))) for pixel in pixels(pick, s)]
        rows = [(s, moved, (pixel if moved == own else 10, pixel)) for pixel, own in made for moved in near(pick, own)]
        assert made_of(driver, ACES_TO_PIXEL_TOLERANT, s, [moved for _, moved, _ in rows]) == [pixel for *_, (_, pixel) in rows], s
        asked += rows
    assert by_records(program, driver, asked) == len(asked)
    return len(asked)


def others(program, driver, pick, table, moves):
    """triples of pixels, moved some way, come back or are refused as the rules say: how many, and of these how many come back"""
    asked = []
    for s in WITH_MATRIX:
        for pixel in pick.sample(list(pixels(pick, s)), 8):
            for triple in moves(pick, aces(s, *(table[s][n] for n in pixel))):
                asked.append((s, triple, [answer(table, s, triple, way) for way in WAYS_BACK]))
    back = by_records(program, driver, asked)
    assert 0 < back < len(asked), back
    return len(asked), back


def settings(program, driver):
    """3, 4, 5 and 12 come before 10: how many settings"""
    asked = []
    for s in SETTING_BYTES + WITHOUT_MATRIX:
        number = setting_check(ACES_TO_PIXEL_TOLERANT, s)
        asked += [(s, [x, 0, -1 - x], (number, number)) for x in (0, *ENDS) if number]
    assert by_records(program, driver, asked) == 0 and {answers[0] for *_, answers in asked} == {3, 4, 5, 12}
    return len({s for s, *_ in asked})


# ---- strips

def moved_strip(pick, table, count):
    """pixel records in runs of one setting, their ACES records moved by five units or less, and for each one with a channel six off"""
    own, made, _ = mixed(pick, table, count)
    records = [NUMBERS.unpack(record) for record in made]
    moved = [NUMBERS.pack(*record[:3], *nudged(pick, record[3:], TOLERATED)) for record in records]
    off = [NUMBERS.pack(*record[:3], *moved_alone(record[3:], pick.randrange(3), pick.choice((-1, 1)) * (TOLERATED + 1))) for record in records]
    return own, moved, off


def unmoved(driver, pick, table):
    """an unmoved master gives the same bytes by either way: how many records"""
    own, made, _ = mixed(pick, table, 50000)
    want = b"done %d\n" % len(own) + b"".join(own)
    assert all(drive(driver, "strip", NAMES[way], b"".join(made)) == want for way in WAYS_BACK)
    return len(own)


def main():
    begun = time.time()
    program, driver = sys.argv[1:3]
    pick = random.Random(int(sys.argv[3]) if len(sys.argv) > 3 else 1)
    table = {s: numbers(s) for s in WITH_MATRIX}
    found = how_near(pick, table)
    for (curve, width), (least, ei, one, other) in found.items():
        print(f"tolerant: curve {curve}, width {width}: two pixels differ by {least} units or more in some channel, as {one} and {other} at EI {ei}")
    assert {widths: least for widths, (least, *_) in found.items()} == LEAST, found
    count = moved_masters(program, driver, pick, table)
    print(f"tolerant: {count} triples of {len(WITH_MATRIX)} settings, moved by {TOLERATED} units or less in every channel, come back as their pixels")
    for what, moves in ("moved farther in one channel", farther), ("at the ends, at 2^38, or powers of two off", far):
        count, back = others(program, driver, pick, table, moves)
        print(f"tolerant: {count} triples {what} come back ({back}) or are refused by 10 ({count - back}) as the rules say")
    print(f"tolerant: {settings(program, driver)} settings are refused by 3, 4, 5 and 12 before 10")
    strips = borders(driver, pick, ACES_TO_PIXEL_TOLERANT, lambda n: moved_strip(pick, table, n))
    print(f"tolerant: {strips} strips with a record six units off or of curve 2 are refused there, and their outputs stay; without it they come back")
    print(f"tolerant: {unmoved(driver, pick, table)} records of an unmoved master give the same bytes by either way ({time.time() - begun:.0f} s)")


if __name__ == "__main__":
    main()
