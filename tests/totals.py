#!/usr/bin/env python3
"""totals.py PROGRAM DRIVER [SEED]: 02, item 9. Have PROGRAM (tests/reel_calls.c, linked with the library) make lists of calls on reels, and hold the
number, the count, the three sums and every byte of the strip after each call to the rules (rules.py). From an empty reel, over any bytes, go random
lists that append, replace and drop, with records of mixed settings and such as each cause refuses; a reel is filled to its last record, changed all
over and emptied; and the sums are added up anew from the records that the rules hold. 15 and 16 come before the record's checks. And lists begin at
states that no calls lead to: strips that are short, or long, or hold other bytes, counts beyond the strip, and sums at the ends of eight bytes.
DRIVER (tests/driver.c) decodes a whole reel, whose scene numbers have the same sums, and says the words of 15 and 16."""
import random, subprocess, sys, time
from struct import Struct

from aces import made_of
from decoded import codes_of
from rules import PIXEL, PIXEL_TO_SCENE, REEL, Reel, WITH_MATRIX, judged, numbers
from strips import INVALID, SENSOR, codes, ends

APPEND, REPLACE, DROP = range(3)
LIST, CALL = Struct("<IQ3qI"), Struct("<BQ10s")
BYTES = REEL * PIXEL.size
EMPTY = 0, (0, 0, 0)
NOTHING = bytes(PIXEL.size)  # what a call is given that takes no record
CAUSES = 3, 4, 5, 6, 11, 12, 13, 15, 16
WORDS = {15: b"the reel is full", 16: b"the reel does not hold the record to replace or drop"}
FAR = 2 ** 32, 2 ** 63, 2 ** 64 - 1, -(-2 ** 64 // PIXEL.size)  # indices and counts; ten times the last leaves eight bytes and is 4
LENGTHS = 0, 1, 9, 10, 11, 25, 100, 999, BYTES - 1, BYTES, BYTES + 9, BYTES + 30
LEAST, MOST = -2 ** 63, 2 ** 63 - 1
SUMS = (0, 0, 0), (MOST, LEAST, 0), (LEAST, MOST, MOST), (MOST - 10 ** 6, LEAST + 10 ** 6, -1)


# ---- what is tried

def passing(pick):
    s = pick.choice(WITH_MATRIX)
    return PIXEL.pack(*s, *codes(pick, s))


def wrong(pick):
    """a record with a setting that there is not, or of curve 2, or with codes at and beyond the ends of its width, some of which pass"""
    if pick.randrange(2):
        return PIXEL.pack(*pick.choice(INVALID + SENSOR), *(pick.choice((0, 16, 300, 5000, 65535)) for _ in range(3)))
    s = pick.choice(WITH_MATRIX)
    return PIXEL.pack(*s, *pick.choice(list(ends(s))))


def call(pick, reel):
    """a call on a reel: mostly one that passes"""
    what = pick.choice((APPEND, APPEND, APPEND, REPLACE, REPLACE, DROP, DROP))
    held = min(reel.count, reel.room)
    index = pick.choice((*(pick.randrange(held or 1) for _ in range(12)), held, reel.count, reel.count + 1, reel.room, pick.choice(FAR)))
    return what, index % 2 ** 64, NOTHING if what == DROP else passing(pick) if pick.randrange(4) else wrong(pick)


def made(table, reel, what, index, record):
    """the call by the rules: its number"""
    if what == APPEND:
        return reel.append(table, record)
    return reel.replace(table, index, record) if what == REPLACE else reel.drop(table)


def any_list(pick, table, strip, count, sums, length):
    """a list of random calls from a state; the indices are chosen by how the reel is then"""
    reel, calls = Reel(strip, count, sums), []
    for _ in range(length):
        calls.append(call(pick, reel))
        made(table, reel, *calls[-1])
    return strip, count, sums, calls


def from_empty(pick, table):
    """lists from an empty reel, over any bytes"""
    for _ in range(400):
        yield any_list(pick, table, pick.randbytes(pick.choice((BYTES, pick.randrange(120)))), *EMPTY, pick.randrange(1, 120))
    for length in LENGTHS:
        yield any_list(pick, table, pick.randbytes(length), *EMPTY, 300)


def whole(pick):
    """a list that fills a reel, tries to append more, replaces every record in any order and some once more, and empties it; and fills it again"""
    for strip in pick.randbytes(BYTES), pick.randbytes(BYTES + 1000):
        calls = [(APPEND, 0, passing(pick)) for _ in range(REEL)]
        calls += [(APPEND, 0, record) for record in (passing(pick), wrong(pick), NOTHING)]
        calls += [(REPLACE, index, passing(pick)) for index in pick.sample(range(REEL), REEL)]
        calls += [(REPLACE, pick.randrange(REEL + 3), wrong(pick)) for _ in range(500)]
        calls += [(DROP, 0, NOTHING)] * 1000 + [(APPEND, 0, passing(pick)) for _ in range(1001)]
        calls += [(DROP, 0, NOTHING)] * (REEL + 2) + [(APPEND, 0, passing(pick)) for _ in range(9)]
        yield strip, *EMPTY, calls


def at_the_ends(table):
    """reels of the record with the greatest number of all, and with the least: the sums that are farthest from 0"""
    each = [(y, s, n) for s, ys in table.items() for n, y in ys.items()]
    for y, s, n in max(each), min(each):
        yield bytes(BYTES), *EMPTY, [(APPEND, 0, PIXEL.pack(*s, n, n, n))] * REEL + [(REPLACE, 7, PIXEL.pack(*s, n, n, n)), (DROP, 0, NOTHING)]


def order():
    """each cause of the record, with others behind it that it comes before; on a reel that is full, at an index that is not held, and else"""
    tried = [PIXEL.pack(*record) for record in (
        (7, 99, 9, 9, 9, 9), (0, 12, 800, 0, 0, 0), (2, 16, 9, 9, 9, 9), (3, 140, 0, 0, 0, 0), (4, 10, 800, 65535, 0, 0), (2, 12, 0, 5000, 0, 0), (4, 140, 800, 0, 0, 0),
        (4, 16, 160, 1, 1, 1), (3, 12, 2000, 5000, 0, 0), (2, 12, 800, 4096, 0, 0), (2, 10, 160, 0, 0, 0), (2, 12, 1600, 0, 0, 65535),
        (4, 16, 0, 17, 0, 0), (4, 16, 0, 16, 65535, 1), (4, 16, 0, 0, 32, 8), (4, 140, 0, 100, 5000, 256), (4, 140, 0, 5000, 100, 256), (4, 140, 0, 256, 3761, 0),
        (4, 140, 0, 3760, 256, 255), (3, 10, 800, 1023, 1024, 0), (4, 12, 0, 0, 0, 4096), (3, 12, 160, 4096, 65535, 65535),
    )]
    good = PIXEL.pack(3, 12, 800, 100, 0, 0)
    for record in tried:
        for strip, before in (bytes(30), 2), (bytes(20), 2), (bytes(BYTES), 0), (bytes(9), 0):
            calls = [(APPEND, 0, good)] * before
            calls += [(APPEND, 0, record), *((REPLACE, index, record) for index in (0, 1, 2, 3, *FAR)), (DROP, 0, record), (REPLACE, 0, good)]
            yield strip, *EMPTY, calls


def odd(pick, table):
    """lists from states that no calls lead to"""
    for length in LENGTHS:
        room = min(REEL, length // PIXEL.size)
        for count in {0, 1, room, room + 1, max(room - 1, 0), REEL - 1, REEL, REEL + 1, *FAR}:
            for sums in SUMS:
                yield any_list(pick, table, mixed_bytes(pick, length), count, sums, 20)


def mixed_bytes(pick, length):
    """a strip with records that pass among others: refused ones, and random bytes"""
    data, few = b"", [passing(pick), passing(pick), wrong(pick), pick.randbytes(PIXEL.size), NOTHING]
    while len(data) < length:
        data += pick.choice(few) * pick.choice((1, 1, 2, 30))
    return data[:length]


# ---- what is held

def sums_of(table, reel):
    """the sums of the records that a reel holds, added up anew"""
    held = [judged(table, reel.record(index)) for index in range(reel.count)]
    assert not any(number for number, _ in held)
    return [sum(column) for column in zip((0, 0, 0), *(scenes for _, scenes in held))]


def run(program, lists):
    """what is shown of each call"""
    text = b"".join(LIST.pack(len(strip), count, *sums, len(calls)) + strip + b"".join(CALL.pack(*c) for c in calls) for strip, count, sums, calls in lists)
    lines = subprocess.run([program], input=text, stdout=subprocess.PIPE, check=True).stdout.decode().split("\n")
    assert not lines.pop() and len(lines) == sum(len(calls) for *_, calls in lists), len(lines)
    return iter(lines)


def hold(program, table, lists):
    """make lists of calls, and hold all that is shown of each call to the rules; from an empty reel the sums are those of the records held, and no
    number leaves 2^45: how many calls gave each number"""
    lists, seen = list(lists), {}
    lines = run(program, lists)
    for strip, count, sums, calls in lists:
        reel, shown = Reel(strip, count, sums), bytearray(strip)
        for k, each in enumerate(calls, 1):
            number = made(table, reel, *each)
            line = next(lines)
            *got, changed = line.split(" ", 5) if line.count(" ") > 4 else [*line.split(" "), ""]
            for place, value in (word.split("=") for word in changed.split()):
                assert 0 <= int(place) < len(shown), (each, line)
                shown[int(place)] = int(value)
            assert [int(word) for word in got] == [number, reel.count, *reel.sums], (each, line, number, reel.count, reel.sums)
            assert shown == reel.strip, (each, line)
            if (count, sums) == EMPTY and (reel.count < 50 or k == len(calls) or k % 1000 == 0):
                assert sums_of(table, reel) == reel.sums and all(abs(x) < 2 ** 45 for x in reel.sums), (each, reel.sums)
            seen[number] = seen.get(number, 0) + 1
    return dict(sorted(seen.items()))


def decoded(program, driver, pick, table):
    """a whole reel, of one setting and of another: its sums are those of the scene numbers that the library writes for its records"""
    for s in pick.sample(WITH_MATRIX, 6):
        rows = [codes(pick, s) for _ in range(REEL)]
        line = list(run(program, [(bytes(BYTES), *EMPTY, [(APPEND, 0, PIXEL.pack(*s, *row)) for row in rows])]))[-1].split(" ")
        assert [int(word) for word in line[:5]] == [0, REEL, *map(sum, zip(*made_of(driver, PIXEL_TO_SCENE, s, rows)))], (s, line)


def main():
    begun = time.time()
    program, driver = sys.argv[1:3]
    pick = random.Random(int(sys.argv[3]) if len(sys.argv) > 3 else 1)
    table = {s: numbers(s) for s in WITH_MATRIX}
    words = subprocess.run([driver, "words"], stdout=subprocess.PIPE, check=True).stdout.split(b"\n")
    assert all(words[number] == said for number, said in WORDS.items()), words
    lists = [*from_empty(pick, table), *order()]
    seen = hold(program, table, lists)
    assert {0, *CAUSES} == {*seen}, seen
    print(f"totals: {len(lists)} lists of calls from an empty reel: number, count, sums and every byte of the strip are as the rules say after each of {sum(seen.values())} calls: {seen}")
    seen = hold(program, table, [*whole(pick), *at_the_ends(table)])
    assert {0, 15, 16} <= {*seen}, seen
    decoded(program, driver, pick, table)
    print(f"totals: whole reels of {REEL} records are filled, changed and emptied, of the numbers that are farthest from 0 too, {sum(seen.values())} calls: {seen}; their sums are those of the library's scene records")
    lists = list(odd(pick, table))
    seen = hold(program, table, lists)
    assert {0, 15, 16} <= {*seen}, seen
    print(f"totals: {len(lists)} lists from states that no calls lead to, {sum(seen.values())} calls: {seen} ({time.time() - begun:.0f} s)")


if __name__ == "__main__":
    main()
