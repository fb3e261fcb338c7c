"""Half floats, IEEE 754 binary16: the value of one by its fields, as a fraction, and the nearest to a number of units by search among all. Nothing of the
project's code is used, and no binary16 of Python's."""
from bisect import bisect_left
from fractions import Fraction

UNIT = Fraction(1, 2 ** 24)
PATTERNS = range(2 ** 16)
END, MINUS_ZERO = 65504, 0x8000


def fields(h):
    return h >> 15, h >> 10 & 31, h & 1023


def finite(h):
    return fields(h)[1] != 31


def value(h):
    """the value of a finite half by its sign, exponent and fraction"""
    sign, exponent, fraction = fields(h)
    size = Fraction(fraction, 2 ** 10) / 2 ** 14 if exponent == 0 else (1 + Fraction(fraction, 2 ** 10)) * Fraction(2 ** exponent, 2 ** 15)
    return -size if sign else size


def units_of(h):
    """the units of a finite half: a whole number"""
    units = value(h) / UNIT
    assert units.denominator == 1
    return int(units)


FINITE = sorted((h for h in PATTERNS if finite(h) and h != MINUS_ZERO), key=value)  # in the order of their values; of the zeros plus zero
VALUES = [units_of(h) for h in FINITE]


def half_of(v):
    """the finite half whose units are nearest to v, of two the one with the even fraction: by search among all"""
    i = bisect_left(VALUES, v)
    near = [k for k in (i - 1, i) if 0 <= k < len(VALUES)]
    return FINITE[min(near, key=lambda k: (abs(VALUES[k] - v), FINITE[k] % 2))]
