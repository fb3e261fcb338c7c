#!/usr/bin/env python3
"""top_code.py DRIVER: have DRIVER (tests/driver.c, linked with the library) give the top code of every width byte, and hold each to the tests'
own reading of 02, item 2. At every setting of full range that code must be decoded, and the next one, where there is one in two bytes, refused
by 6."""
import subprocess, sys

from decoded import CODES, SETTINGS, top_code
from rules import PIXEL

LISTED = {0: 0, 1: 1, 2: 3, 8: 255, 10: 1023, 12: 4095, 15: 32767, 16: 65535, 17: 0, 32: 0, 33: 0, 44: 0, 140: 0, 255: 0}  # of some widths


def told(*arguments, **more):
    return subprocess.run([sys.argv[1], *arguments], stdout=subprocess.PIPE, check=True, **more).stdout.split()


def main():
    tops = [int(top) for top in told("tops")]
    assert tops == [top_code(width) for width in range(256)], tops
    assert all(tops[width] == top for width, top in LISTED.items()), tops

    full = [s for s in SETTINGS if s[:2] not in CODES]
    tried = [(s, code, 0 if code == tops[s[1]] else 6) for s in full for code in (tops[s[1]], tops[s[1]] + 1) if code < 2 ** 16]
    out = told("records", "pixel-to-scene", "/dev/stdin", input=b"".join(PIXEL.pack(*s, code, code, code) for s, code, _ in tried))
    answers = b" ".join(b"refused %d 0" % number if number else b"done 1" for *_, number in tried)
    assert out == answers.split(), (out, answers)
    refused = sum(number == 6 for *_, number in tried)
    print(f"top_code: {len(tops)} width bytes have the top code of 02, item 2; it passes at {len(full)} settings, and the next is refused at {refused}")


if __name__ == "__main__":
    main()
