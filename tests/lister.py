#!/usr/bin/env python3
"""lister.py PROGRAM [SEED]: have PROGRAM (crates/lister/out/lister) list pixel records, valid, refused and random, with tails and without, fewer
and more than its buffer holds, piped in odd pieces; hold every byte that it prints to the rules of 01 (rules.py)."""
import random, subprocess, sys, threading, time

from rules import PIXEL, PIXEL_TO_ACES, SETTINGS, WITH_MATRIX, numbers, one, setting_check
from decoded import codes_of
from strips import INVALID, SENSOR

EXAMPLE = bytes.fromhex("030C2003640000000000040A0000000000000000")
LISTED = b"0 ok -238167 -283566 -289928\n1 refused 4\n"
PIECE = 6553  # records that the program reads at a time
RECORDS = 200000


def listed(table, data):
    """what is printed for an input"""
    whole = len(data) // PIXEL.size * PIXEL.size
    lines = []
    for k, (*s, r, g, b) in enumerate(PIXEL.iter_unpack(data[:whole])):
        made = setting_check(PIXEL_TO_ACES, s) or one(table, PIXEL_TO_ACES, tuple(s), (r, g, b))
        lines.append(f"{k} refused {made}\n" if isinstance(made, int) else "%d ok %d %d %d\n" % (k, *made))
    if whole < len(data):
        lines.append(f"tail {len(data) - whole}\n")
    return "".join(lines).encode()


def code(pick, codes):
    """one of some codes, one in sixteen at or past an end"""
    first, top = codes[0], codes[-1]
    return pick.choice(codes) if pick.getrandbits(4) else pick.choice((0, max(first - 1, 0), first, codes[1], codes[-2], top, min(top + 1, 65535), 65535))


def pixel(pick, s):
    return PIXEL.pack(*s, *(code(pick, codes_of(s)) for _ in range(3)))


def mixed(pick, count):
    """records in runs of one setting; some of a setting that is refused, some of random bytes"""
    data = []
    while len(data) < count:
        s = pick.choice(WITH_MATRIX)
        data += [pixel(pick, s) for _ in range(pick.choice((1, 2, 30, 100)))]
        if pick.getrandbits(1):
            data.append(PIXEL.pack(*pick.choice(INVALID + SENSOR), *(pick.getrandbits(16) for _ in range(3))))
        if pick.getrandbits(2) == 0:
            data.append(pick.randbytes(PIXEL.size))
    return b"".join(data[:count])


def run(program, data):
    return subprocess.run([program], input=data, stdout=subprocess.PIPE, check=True).stdout


def fed(program, data, sizes):
    """the same through a pipe that is filled piece by piece"""
    def fill():
        start = 0
        for n in sizes:
            p.stdin.write(data[start:start + n])
            p.stdin.flush()
            time.sleep(0.002)
            start += n
        p.stdin.close()
    with subprocess.Popen([program], stdin=subprocess.PIPE, stdout=subprocess.PIPE) as p:
        filling = threading.Thread(target=fill)
        filling.start()
        out = p.stdout.read()
        filling.join()
    assert p.returncode == 0
    return out


def same(got, want):
    if got != want:
        a, b = got.split(b"\n"), want.split(b"\n")
        k = next((k for k, (x, y) in enumerate(zip(a, b)) if x != y), min(len(a), len(b)))
        raise AssertionError((k, a[k:k + 2], b[k:k + 2], len(a), len(b)))


def inputs(pick):
    """short inputs: none, tails alone, each with records before it; each setting and each cause; inputs about as long as a piece"""
    yield b""
    for n in range(PIXEL.size):
        yield EXAMPLE + bytes(n)
        yield pick.randbytes(n)
    for s in SETTINGS:
        first, top = codes_of(s)[0], codes_of(s)[-1]
        yield PIXEL.pack(*s, first, first, first) + PIXEL.pack(*s, top, top, top) + b"".join(pixel(pick, s) for _ in range(50))
    yield b"".join(PIXEL.pack(*s, code, 0, 0) for s in INVALID + SENSOR for code in (0, 4096))
    for at in range(3):
        yield PIXEL.pack(3, 10, 800, *(1024 if i == at else 1023 for i in range(3)))
        yield PIXEL.pack(4, 140, 0, *(255 if i == at else 256 for i in range(3))) + PIXEL.pack(4, 140, 0, *(3761 if i == at else 3760 for i in range(3)))
    yield PIXEL.pack(4, 140, 0, 100, 5000, 256) + PIXEL.pack(4, 140, 0, 5000, 100, 256)
    for n in (PIECE - 1, PIECE, PIECE + 1, 2 * PIECE, 3 * PIECE + 5):
        yield mixed(pick, n) + pick.randbytes(pick.choice((0, 0, 1, 9)))
    for _ in range(200):
        yield mixed(pick, pick.randrange(40)) + pick.randbytes(pick.randrange(PIXEL.size))
        yield pick.randbytes(pick.randrange(300))


def main():
    begun = time.time()
    program, pick = sys.argv[1], random.Random(int(sys.argv[2]) if len(sys.argv) > 2 else 1)
    table = {s: numbers(s) for s in SETTINGS}
    assert listed(table, EXAMPLE) == LISTED
    count = records = 0
    for data in inputs(pick):
        same(run(program, data), listed(table, data))
        count, records = count + 1, records + len(data) // PIXEL.size
    long = mixed(pick, RECORDS) + b"\x03\x0c\x20"
    want = listed(table, long)
    assert all(b" refused %d\n" % n in want for n in (3, 4, 5, 6, 11, 12, 13)) and want.endswith(b"tail 3\n")
    same(run(program, long), want)
    for steps in (1, 3, 7, 999, 4097), (65535, 65536, 65537), (131071,):
        part = long[:sum(steps) * 3]
        same(fed(program, part, steps * 3), listed(table, part))
    print(f"lister: {count} inputs of {records} records are listed as the rules say, and one of {RECORDS}, whole and piped in odd pieces, to the last byte ({time.time() - begun:.0f} s)")


if __name__ == "__main__":
    main()
