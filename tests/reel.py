#!/usr/bin/env python3
"""reel.py BYTES FILE [SEED]: write a reel of random pixel records, as many as BYTES hold, all of which go to ACES, in runs of one setting; every setting
with an ACES matrix occurs in a reel of 36 runs or more."""
import random, sys
from struct import calcsize

from decoded import codes_of
from rules import PIXEL, WITH_MATRIX

RUN = 20000  # records


def low_and_high(pick, codes, count):
    """the low bytes and the high bytes of random codes. All are computed at once, in one whole number with four bytes for each: a random number
    below 2^16, times how many codes there are, is the place of a code, times 2^16, and a fraction, which goes where codes are apart"""
    data = bytearray(4 * count)
    data[::4], data[1::4] = pick.randbytes(count), pick.randbytes(count)
    first = (codes[0] << 16).to_bytes(4, "little") * count
    made = int.from_bytes(data, "little") * len(codes)
    if codes.step > 1:
        data = bytearray(made.to_bytes(4 * count, "little"))
        data[::4] = data[1::4] = bytes(count)
        made = int.from_bytes(data, "little") * codes.step
    data = (made + int.from_bytes(first, "little")).to_bytes(4 * count, "little")
    return data[2::4], data[3::4]


def run(pick, setting, count):
    """records of one setting, with random codes"""
    curve, width, ei = setting
    data = bytearray(PIXEL.size * count)
    for place, byte in enumerate((curve, width, *ei.to_bytes(2, "little"))):
        data[place::PIXEL.size] = bytes((byte,)) * count
    for place in range(calcsize("<BBH"), PIXEL.size, calcsize("<H")):  # the codes, behind the setting
        data[place::PIXEL.size], data[place + 1::PIXEL.size] = low_and_high(pick, codes_of(setting), count)
    return data


def reel(pick, records):
    """the runs of a reel"""
    settings = list(WITH_MATRIX)
    pick.shuffle(settings)
    for k, begin in enumerate(range(0, records, RUN)):
        yield run(pick, settings[k % len(settings)], min(RUN, records - begin))


def main():
    if len(sys.argv) not in (3, 4) or not all(word.isdigit() for word in sys.argv[1:2] + sys.argv[3:]):
        sys.exit(f"usage: {__doc__}\nas in: tests/reel.py 1000000000 shot.pixels")
    pick = random.Random(int(sys.argv[3]) if len(sys.argv) > 3 else 1)
    with open(sys.argv[2], "wb") as file:
        for data in reel(pick, int(sys.argv[1]) // PIXEL.size):
            file.write(data)


if __name__ == "__main__":
    main()
