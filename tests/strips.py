#!/usr/bin/env python3
"""strips.py PROGRAM [SEED]: have PROGRAM (crates/test_strips/out/test_strips) convert strips, whole, short and damaged, and hold each answer and every byte
of each output strip to the rules of 01 and 02 (rules.py)."""
import random, subprocess, sys, time

from binary16 import END, units_of
from decoded import codes_of
from rules import (
    ACES_TO_HALF, ACES_TO_PIXEL, ACES_TO_PIXEL_TOLERANT, CONVERSIONS, GRADED, GRADED_LIMIT, GRADED_TO_PIXEL, HALF_TO_ACES, LIMIT, PIXEL, PIXEL_TO_ACES,
    PIXEL_TO_SCENE, READ, SCENE_TO_PIXEL, SETTINGS, WAYS_BACK, WRITTEN, aces, convert, numbers, setting_check,
)

CHOSEN = [s for s in SETTINGS if s[1] != 16] + [(3, 16, 160), (3, 16, 800), (3, 16, 1600), (4, 16, 0)]
INVALID = [
    (1, 12, 800), (5, 12, 0), (0, 0, 0), (3, 14, 800), (4, 10, 0), (3, 12, 2000), (3, 16, 0), (4, 12, 800), (4, 16, 65535), (3, 140, 800), (4, 140, 800),
    (2, 16, 800), (2, 140, 0), (2, 12, 0), (2, 10, 2000),
]
SENSOR = [(2, 10, 160), (2, 12, 800)]  # valid, except in conversions to and from ACES
PASSES = 3, 12, 800  # in every conversion
ENDS = (-2 ** 63, -2 ** 63 + 1, 2 ** 63 - 1, -2 ** 40 - 1, 2 ** 40 + 1, 2 ** 34, -2 ** 34, 0)
GRADED_ENDS = tuple(sign * (GRADED_LIMIT - k) for k in (0, 1) for sign in (-1, 1))  # of an ACES number on the graded road, which pass
BEYOND = -GRADED_LIMIT - 1, GRADED_LIMIT + 1


def codes(pick, s):
    known = codes_of(s)
    return [pick.choice((known[0], known[-1], pick.choice(known), pick.choice(known))) for _ in range(3)]


def scene(pick, ys, s):
    """a scene number worth trying under a setting whose numbers are ys"""
    known = codes_of(s)
    k = pick.randrange(len(known) - 1)
    least, most, one, two = (ys[n] for n in (known[0], known[-1], known[k], known[k + 1]))
    middle = one + two
    return pick.choice((
        one, least - pick.randrange(9), most + pick.randrange(9), middle // 2, (middle + 1) // 2, middle // 2 + 1, -LIMIT, LIMIT,
        pick.randrange(-LIMIT, LIMIT + 1), pick.randrange(least, most + 1),
    ))


def nudged(pick, triple, off):
    """a triple, each number moved by so many units at most, often by all of them"""
    return [x + pick.choice((-off, 0, off, pick.randint(-off, off))) for x in triple]


def triple(pick, ys, s, off):
    """the ACES triple of a pixel, moved by so many units at most in every channel; of one in thirty a channel is moved farther, or changed"""
    made = nudged(pick, aces(s, *(ys[n] for n in codes(pick, s))), off)
    if pick.randrange(30) == 0:
        i = pick.randrange(3)
        made[i] = pick.choice((made[i] - off - 1, made[i] + off + 1, pick.choice(ENDS), pick.randrange(-2 ** 63, 2 ** 63)))
    return made


def moved(pick, x):
    """an ACES number on the graded road: one of a pixel, that or some units off, or any within the limit"""
    any_size = pick.choice((-1, 1)) * pick.getrandbits(pick.randrange(1, 39))
    return pick.choice((x, x, x + pick.randrange(-9, 10), x + pick.randrange(-2 ** 30, 2 ** 30), any_size, pick.choice(GRADED_ENDS)))


def graded_triple(pick, ys, s):
    """three of them; of one in thirty a channel is at an end of some limit, or beyond"""
    made = [moved(pick, x) for x in aces(s, *(ys[n] for n in codes(pick, s)))]
    if pick.randrange(30) == 0:
        made[pick.randrange(3)] = pick.choice((*BEYOND, *ENDS))
    return made


def half(pick):
    """a finite half; one in a hundred an infinity or NaN"""
    h = pick.choice((0, 0x8000)) + pick.randrange(0x7C00)
    return h | 0x7C00 if pick.randrange(100) == 0 else h


def beside_half(pick):
    """a number at or beside a half, or between two, or beyond the ends"""
    a = units_of(pick.randrange(0x7C00))
    return pick.choice((-1, 1)) * pick.choice((a, a + 1, 3 * a // 2, END * 2 ** 24 + pick.randrange(-9, 2 ** 29), pick.getrandbits(pick.randrange(1, 64)), *map(abs, ENDS[1:])))


def channels(pick, ys, s, conversion):
    if READ[conversion] is PIXEL:
        return codes(pick, s)
    one = {SCENE_TO_PIXEL: lambda: scene(pick, ys, s), ACES_TO_HALF: lambda: beside_half(pick), HALF_TO_ACES: lambda: half(pick)}
    if conversion in one:
        return [one[conversion]() for _ in range(3)]
    return graded_triple(pick, ys, s) if conversion in GRADED else triple(pick, ys, s, WAYS_BACK[conversion])


def strip(pick, table, conversion):
    """a strip of records in runs of one setting"""
    data, settings = b"", [s for s in table if not setting_check(conversion, s)]
    for _ in range(pick.randrange(4)):
        s = pick.choice(settings)
        for _ in range(pick.choice((1, 1, 2, 5, 40))):
            data += READ[conversion].pack(*s, *channels(pick, table[s], s, conversion))
    return data


def noise(pick, table, conversion):
    """random bytes, or records of random bytes after a valid setting"""
    if pick.randrange(2):
        return pick.randbytes(pick.randrange(200))
    whole = READ[conversion]
    return b"".join(whole.pack(*pick.choice(list(table)), *whole.unpack(pick.randbytes(whole.size))[3:]) for _ in range(pick.randrange(1, 9)))


def damage(pick, conversion, data):
    """one or two things that may be wrong with a strip"""
    data = bytearray(data)
    size = READ[conversion].size
    for _ in range(pick.choice((0, 0, 1, 2))):
        how = pick.randrange(6)
        if how == 0:
            data += bytes(pick.randrange(1, size))
        elif how == 1 and data:
            del data[pick.randrange(len(data)):]
        elif len(data) >= size:
            k = pick.randrange(len(data) // size) * size
            if how == 2:
                data[k + pick.randrange(4)] = pick.randrange(256)
            elif how == 3:
                data[k:k + 4] = PIXEL.pack(*pick.choice(INVALID + SENSOR), 0, 0, 0)[:4]
            else:
                high = (size - 4) // 3 * pick.randrange(1, 4) + 3  # the highest byte of a channel
                data[k + high] = pick.choice((0, pick.randrange(256)))
    return bytes(data)


def jobs(pick, table, conversions, count):
    """strips to convert: the conversion, the input, and the output before it, with room for it or more, or less"""
    for _ in range(count):
        c = pick.choice(conversions)
        data = noise(pick, table, c) if pick.randrange(8) == 0 else damage(pick, c, strip(pick, table, c))
        need = len(data) // READ[c].size * WRITTEN[c].size
        yield c, data, pick.randbytes(max(0, need + pick.choice((0, 0, 0, 1, 50, -1, -20))))


def ends(s):
    """pixels at the ends of a setting's codes, which pass; then with a code beyond an end in each channel, alone and beside one beyond the other end;
    and the same with codes beside a code, where codes are apart"""
    known = codes_of(s)
    first, top = known[0], known[-1]
    below, above = max(first - 1, 0), min(top + 1, 65535)
    yield first, top, first
    beside = [(first + 1, top - 1), (top + known.step - 1, first + known.step // 2)] if known.step > 1 else []
    for one, other in (below, above), (above, below), *beside:
        yield from ((one, first, top), (first, one, top), (first, top, one), (one, other, top), (one, top, other), (top, one, other))


def end_jobs(table):
    """the same as strips to convert, each after a record that passes"""
    for s in table:
        for codes in ends(s):
            for c in PIXEL_TO_SCENE, PIXEL_TO_ACES:
                before = PASSES if setting_check(c, s) else s
                yield c, PIXEL.pack(*before, *next(ends(before))) + PIXEL.pack(*s, *codes), bytes(2 * WRITTEN[c].size)


def run(command, todo):
    """the answer's line and the output strip of each job"""
    text = b"".join(bytes((c,)) + len(i).to_bytes(2, "little") + len(o).to_bytes(2, "little") + i + o for c, i, o in todo)
    out = subprocess.run(command, input=text, stdout=subprocess.PIPE, check=True).stdout
    start = 0
    for _, _, o in todo:
        end = out.index(b"\n", start)
        after = end + 1 + len(o)
        yield out[start:end].decode(), out[end + 1:after]
        start = after
    assert start == len(out)


def hold(command, table, todo):
    """run the jobs and hold each to the rules: how many of each cause, and the jobs that were converted with their outputs"""
    seen, done = {}, []
    for job, got in zip(todo, run(command, todo)):
        c, data, output = job
        want = convert(table, c, data, output)
        assert got == want, (c, data.hex(), output.hex(), got, want)
        cause = want[0].rsplit(" ", 1)[0]
        seen[cause] = seen.get(cause, 0) + 1
        if cause == "done":
            done.append((job, got[1]))
    return dict(sorted(seen.items())), done


def returned(command, done, there, back):
    """the strips that a conversion made are taken back by another, byte by byte: how many, and of how many records"""
    pixels = [data for (c, data, _), _ in done if c == there]
    made = [output[:len(data) // READ[there].size * READ[back].size] for (c, data, _), output in done if c == there]
    todo = [(back, strip, bytes(len(data))) for strip, data in zip(made, pixels)]
    for data, got in zip(pixels, run(command, todo)):
        assert got == (f"done {len(data) // READ[there].size}", data), (data.hex(), got)
    return len(pixels), sum(len(data) // READ[there].size for data in pixels)


def main():
    begun = time.time()
    pick = random.Random(int(sys.argv[2]) if len(sys.argv) > 2 else 1)
    table = {s: numbers(s) for s in CHOSEN}
    todo = [(0, bytes(11), bytes(100)), (0, b"", b""), (1, b"", b""), *end_jobs(table), *jobs(pick, table, CONVERSIONS, 9000)]
    seen, done = hold([sys.argv[1]], table, todo)
    assert all(f"refused {n}" in seen for n in (*range(1, 9), *range(10, 15))), seen
    print(f"strips: {len(todo)} strips are converted or refused as the rules say, every byte of the outputs too: {seen}")
    for name, there, back in (
        ("scene", PIXEL_TO_SCENE, SCENE_TO_PIXEL), ("ACES", PIXEL_TO_ACES, ACES_TO_PIXEL), ("graded", PIXEL_TO_ACES, GRADED_TO_PIXEL),
        ("tolerant ACES", PIXEL_TO_ACES, ACES_TO_PIXEL_TOLERANT),
    ):
        strips, records = returned([sys.argv[1]], done, there, back)
        print(f"strips: {strips} pixel strips are returned by {name} to pixel, {records} records")
    print(f"strips: {time.time() - begun:.0f} s")


if __name__ == "__main__":
    main()
