#!/usr/bin/env python3
"""way_back.py PROGRAM [SEED]: have PROGRAM (crates/test_way_back/out/test_way_back) take ACES records back one by one, each by a call of its own, exactly and
tolerantly: those of random pixels of all settings with a matrix, the same with a channel some units off, random numbers of every size, settings
without a matrix, and settings that are not valid; hold each answer to the rules of 01 and 02 (rules.py), which search the pixels for one that gives
the numbers, or numbers near them."""
import random, subprocess, sys, time

from decoded import codes_of
from rules import NUMBERS, WAYS_BACK, WITH_MATRIX, WITHOUT_MATRIX, aces, numbers, pixel_of, setting_check

EACH = 3000  # pixels of each setting
OFF = 1, 2, 3, 5, 8, 12, 16, 40, 300, 2 ** 33, 2 ** 38, 2 ** 40  # units that a channel is moved
ENDS = 0, 1, -1, 2 ** 38, 2 ** 38 + 1, -2 ** 38, -2 ** 38 - 1, 2 ** 40, 2 ** 62, 2 ** 63 - 1, -2 ** 63
SETTING_BYTES = [(c, w, e) for c in (0, 2, 3, 4, 5, 255) for w in (0, 10, 12, 16, 140) for e in (0, 160, 800, 1601)]


def records(pick, table):
    """records, some of which a pixel gives"""
    for s in WITH_MATRIX:
        ys, codes = table[s], codes_of(s)
        ends = codes[0], codes[1], codes[-2], codes[-1]
        for _ in range(EACH):
            triple = aces(s, *(ys[pick.choice((pick.choice(codes), pick.choice(ends)))] for _ in range(3)))
            yield s, triple
            i = pick.randrange(3)
            yield s, [x + pick.choice((-1, 1)) * pick.choice(OFF) * (i == j) for j, x in enumerate(triple)]
        for _ in range(EACH // 10):
            yield s, [pick.choice((-1, 1)) * pick.getrandbits(pick.randint(1, 62)) for _ in range(3)]
        for x in ENDS:
            yield s, [x, x, x]
            yield s, [x, 0, -1 - x]
    for s in WITHOUT_MATRIX:
        for x in ENDS:
            yield s, [x, x, x]
            yield s, [pick.randint(-2 ** 34, 2 ** 34) for _ in range(3)]
    for s in SETTING_BYTES:
        yield s, [pick.randint(-2 ** 34, 2 ** 34) for _ in range(3)]


def asked_of(program, asked):
    """the line that PROGRAM prints for each record"""
    data = b"".join(NUMBERS.pack(*s, *triple) for s, triple in asked)
    lines = subprocess.run([program], input=data, stdout=subprocess.PIPE, check=True).stdout.decode().split("\n")
    assert not lines.pop() and len(lines) == len(asked), len(lines)
    return lines


def answer(table, s, triple, way):
    """what the rules give for a record on a way back: the codes, or the number of its refusal"""
    return setting_check(way, s) or pixel_of(table, s, triple, WAYS_BACK[way]) or 10


def line_of(answers):
    """the line that the program prints for a record: its answers on each way back"""
    return " | ".join(f"refused {found}" if isinstance(found, int) else " ".join(map(str, found)) for found in answers)


def main():
    begun = time.time()
    pick = random.Random(int(sys.argv[2]) if len(sys.argv) > 2 else 1)
    table = {s: numbers(s) for s in WITH_MATRIX}
    asked = list(records(pick, table))
    seen = {way: {} for way in WAYS_BACK}
    for line, (s, triple) in zip(asked_of(sys.argv[1], asked), asked):
        answers = [answer(table, s, triple, way) for way in WAYS_BACK]
        assert line == line_of(answers), (s, triple, line, answers)
        for counts, found in zip(seen.values(), answers):
            kind = f"refused {found}" if isinstance(found, int) else "pixels"
            counts[kind] = counts.get(kind, 0) + 1
    exact, tolerant = seen.values()
    assert {*exact} == {*tolerant} == {"pixels", "refused 3", "refused 4", "refused 5", "refused 12", "refused 10"}, seen
    print(f"way_back: {len(asked)} records, each by a call of its own, come back or are refused as the rules say: {exact}; tolerantly {tolerant} ({time.time() - begun:.0f} s)")


if __name__ == "__main__":
    main()
