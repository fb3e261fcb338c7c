#!/usr/bin/env python3
"""stops.py PROGRAM: hold what PROGRAM (crates/test_stops/out/test_stops) prints to the third-stop table of source document 002, appendix D: the scene
numbers are 0.18 times two to the stops, to the nearest unit (2^-24), and the codes are those of the 12-bit full column, save the row at
-2 stops, where 742 is printed and 741 is right (the exact curve stands at 741.495)."""
import subprocess, sys

FIRST = -19  # the first row, in thirds of a stop
PRINTED = """409 416 425 436 449 465 484 507 534 566 602 643 690 742 798 859 924 993 1065 1140 1217 1297 1378 1461 1544 1629 1714 1800 1887
    1974 2061 2149 2236 2324 2412 2500 2588 2676 2765 2853 2941 3030 3118 3206 3295 3383 3472 3560 3648 3737 3825 3914 4002 4091"""


def is_nearest(x, thirds):
    """x - 1/2 <= 0.18 * 2^24 * 2^(thirds / 3) < x + 1/2, by cubes"""
    over = 2 ** max(0, -thirds) * 10 ** 6
    cube = 8 * 18 ** 3 * 2 ** (72 + max(0, thirds))
    return (2 * x - 1) ** 3 * over <= cube < (2 * x + 1) ** 3 * over


def main():
    lines = subprocess.run([sys.argv[1]], stdout=subprocess.PIPE, check=True).stdout.decode().split("\n")
    codes = [int(n) for n in PRINTED.split()]
    assert lines[-1] == "" and len(lines) - 1 == len(codes) == 54
    for row, (line, printed) in enumerate(zip(lines, codes)):
        stops, x, code = line.split()
        thirds = FIRST + row
        assert stops == f"{thirds}/3" and is_nearest(int(x), thirds), line
        assert int(code) == (741 if thirds == -6 else printed), (line, printed)
    print(f"stops: {len(codes)} rows of the third-stop table, 12-bit full: 53 as printed, and 741 at -2 stops")


main()
