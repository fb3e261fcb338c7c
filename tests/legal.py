#!/usr/bin/env python3
"""legal.py DRIVER: have DRIVER (tests/driver.c, linked with the library) encode the rows of both tables of source document 002, appendices C and
D, at width 140, and hold the codes to the 12-bit legal columns.

Appendix C: a signal in each row, of which the scene number is the exact curve's, to the nearest unit. The first row's signal is 95/1023, black,
which is printed as 9.29 %. All codes are as printed.

Appendix D: 0.18 times two to the stops, in thirds. At -2, 0 and +4 stops 891, 1232 and 2095 are printed, and 890, 1231 and 2094 are right: the
exact curve stands at 890.481, 1231.499 and 2094.496."""
import sys
from decimal import Decimal
from fractions import Fraction

from aces import made_of
from decoded import UNIT, codes_of, number
from rules import SCENE_TO_PIXEL

S = (4, 140, 0)
SIGNALS = [Fraction(95, 1023), *sorted([Fraction(n, 100) for n in range(10, 101)] + [Fraction("0.2784")])]
BY_SIGNAL = """581 606 641 676 712 747 782 817 852 887 922 957 992 1027 1062 1097 1132 1167 1202 1232 1237 1272 1307 1342 1377 1412 1447 1482 1517
    1552 1588 1623 1658 1693 1728 1763 1798 1833 1868 1903 1938 1973 2008 2043 2078 2113 2148 2183 2218 2253 2288 2323 2358 2393 2428 2464 2499
    2534 2569 2604 2639 2674 2709 2744 2779 2814 2849 2884 2919 2954 2989 3024 3059 3094 3129 3164 3199 3234 3269 3304 3340 3375 3410 3445 3480
    3515 3550 3585 3620 3655 3690 3725 3760"""
THIRDS = range(-19, 35)  # of a stop
BY_STOPS = """606 612 620 629 640 654 670 690 713 740 771 807 846 891 939 991 1047 1106 1167 1232 1298 1366 1435 1506 1578 1650 1723 1797 1871 1945
    2020 2095 2170 2245 2320 2395 2471 2546 2622 2697 2773 2848 2924 3000 3075 3151 3227 3302 3378 3454 3529 3605 3681 3756"""
RIGHT = {-6: (890, "890.481"), 0: (1231, "1231.499"), 12: (2094, "2094.496")}  # thirds: the code, and where the exact curve stands
SLOPE = Decimal(783) / Decimal(1747520)  # value = (2^P - 64) * SLOPE, with P = 6 + 14 * (1023 * signal - 95) / 928


def value(signal):
    return (Decimal(2) ** number(6 + Fraction(14, 928) * (1023 * signal - 95)) - 64) * SLOPE


def signal_of(value):
    """the signal at which the exact curve has a value"""
    power = (value / SLOPE + 64).ln() / Decimal(2).ln()
    return ((power - 6) * 928 / 14 + 95) / 1023


def place(value):
    """where the exact curve stands among the legal codes"""
    codes = codes_of(S)
    return codes[0] + (codes[-1] - codes[0]) * signal_of(value)


def encoded(driver, values):
    """the codes of scene values, each to the nearest unit"""
    units = [int((value * UNIT).to_integral_value()) for value in values]
    pixels = made_of(driver, SCENE_TO_PIXEL, S, [(x, x, x) for x in units])
    assert all(red == green == blue for red, green, blue in pixels)
    return [red for red, _, _ in pixels]


def main():
    printed = [int(n) for n in BY_SIGNAL.split()]
    assert len(printed) == len(SIGNALS) == 93
    codes = encoded(sys.argv[1], [value(signal) for signal in SIGNALS])
    assert codes == printed, [row for row in zip(SIGNALS, codes, printed) if row[1] != row[2]]

    printed = [int(n) for n in BY_STOPS.split()]
    assert len(printed) == len(THIRDS) == 54
    stops = [Decimal("0.18") * Decimal(2) ** (Decimal(thirds) / 3) for thirds in THIRDS]
    for thirds, x, code, column in zip(THIRDS, stops, encoded(sys.argv[1], stops), printed):
        right, stands = RIGHT.get(thirds, (column, None))
        assert code == right and round(place(x)) == right, (thirds, code, column)
        assert stands is None or round(place(x), 3) == Decimal(stands) and column == right + 1, (thirds, place(x))
    print(f"legal: {len(SIGNALS)} rows of the 1 % table, 12-bit legal, as printed")
    print(f"legal: {len(THIRDS)} rows of the third-stop table, 12-bit legal: 51 as printed, and 890, 1231 and 2094 at -2, 0 and +4 stops")


if __name__ == "__main__":
    main()
