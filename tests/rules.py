"""The rules of 01 and 02 for strips, read anew from the printed curves and matrices with whole numbers and fractions. Nothing of the project's
code or tables is used. The tests hold the programs to what stands here."""
from bisect import bisect_left, bisect_right
from fractions import Fraction
from math import floor
from struct import Struct

from binary16 import finite, half_of, units_of
from decoded import SETTINGS, codes_of, exact, refusal, setting_refusal

LIMIT = 2 ** 40  # of a scene number to encode
GRADED_LIMIT = 2 ** 38  # of an ACES number on the graded road
GRADED_OFF = 2  # 02, item 7: the units that its scene numbers' ACES numbers may be off
EXACT, TOLERATED = 0, 5  # the units that a pixel's ACES numbers may be off in a channel: on the way back, and, 02, item 8, on the tolerant one
APART = 12  # 02, item 8: the units that some channel of two pixels' ACES numbers differs at least
REEL = 4096  # 02, item 9: the most records of a reel
CONVERSIONS = range(9)
(
    PIXEL_TO_SCENE, SCENE_TO_PIXEL, PIXEL_TO_ACES, ACES_TO_PIXEL, ACES_TO_HALF, HALF_TO_ACES, GRADED_TO_PIXEL, GRADED_TO_SCENE, ACES_TO_PIXEL_TOLERANT,
) = CONVERSIONS
GRADED = GRADED_TO_PIXEL, GRADED_TO_SCENE
WAYS_BACK = {ACES_TO_PIXEL: EXACT, ACES_TO_PIXEL_TOLERANT: TOLERATED}
# a record: curve, width, EI, and three codes, numbers, or halves by their bits
PIXEL, NUMBERS, HALVES = Struct("<BBH3H"), Struct("<BBH3q"), Struct("<BBH3H")
READ = (PIXEL, NUMBERS, PIXEL, NUMBERS, NUMBERS, HALVES, NUMBERS, NUMBERS, NUMBERS)  # by each conversion
WRITTEN = (NUMBERS, PIXEL, NUMBERS, PIXEL, HALVES, NUMBERS, PIXEL, NUMBERS, PIXEL)
TO_OR_FROM_ACES = PIXEL_TO_ACES, ACES_TO_HALF, HALF_TO_ACES, *GRADED, *WAYS_BACK
MATRICES = {  # curve: scale, rows; 02, item 3: none is published for curve 2
    4: (10 ** 18, (
        (750957362824734131, 144422786709757084, 104619850465508965),
        (821837079380207, 1007397584885003194, -8219421964383583),
        (-499952143533471, -854177231436971, 1001354129374970370),
    )),
    3: (10 ** 6, (
        (680205, 236137, 83658),
        (85415, 1017471, -102886),
        (2057, -62563, 1060506),
    )),
}
WITH_MATRIX = [s for s in SETTINGS if s[0] in MATRICES]
WITHOUT_MATRIX = [s for s in SETTINGS if s[0] not in MATRICES]


def numbers(s):
    """the decoded number of each code of a setting; decoded.py shows that each is the nearest whole number"""
    return {n: floor(value + (Fraction(1, 2) if toe else 1 / (value * 0 + 2))) for n, (toe, value) in zip(codes_of(s), exact(*s))}


def nearest(table, s, x):
    """the code of a setting whose number is nearest to x; of two, the lower"""
    codes, ys = codes_of(s), table[s]
    i = bisect_left(codes, x, key=ys.get)
    return min(codes[max(i - 1, 0):i + 1], key=lambda n: (abs(x - ys[n]), n))


def product(scale, rows, r, g, b):
    """a matrix of whole numbers over a scale, by three numbers: the row product over the scale, to the nearest whole number, a half going up"""
    return [(2 * (i * r + j * g + k * b) + scale) // (2 * scale) for i, j, k in rows]


def aces(s, r, g, b):
    """the ACES numbers of three scene numbers"""
    return product(*MATRICES[s[0]], r, g, b)


def inverse(scale, rows):
    """the inverse of a matrix over its scale, as rows of whole numbers over a whole number (Cramer's rule)"""
    def cofactor(i, j):
        (a, b), (c, d) = ([x for k, x in enumerate(row) if k != j] for h, row in enumerate(rows) if h != i)
        return (a * d - b * c) * (-1) ** (i + j)
    return sum(rows[0][j] * cofactor(0, j) for j in range(3)), [[scale * cofactor(j, i) for j in range(3)] for i in range(3)]


INVERSES = {curve: inverse(*matrix) for curve, matrix in MATRICES.items()}


def inverse_over(curve, scale):
    """the scale, and the inverse of a curve's matrix with each entry times the scale, to the nearest whole number"""
    over, rows = INVERSES[curve]
    return scale, [[floor(Fraction(scale * m, over) + Fraction(1, 2)) for m in row] for row in rows]


# what takes graded numbers to scene numbers; 02 leaves free which these are, and docs/FORMAT.md gives this inverse
GRADING = {curve: inverse_over(curve, 2 ** 40) for curve in MATRICES}


def units_off(s, scenes, triple):
    """the most units that the ACES numbers of three scene numbers are off a triple in a channel"""
    return max(abs(made - given) for made, given in zip(aces(s, *scenes), triple))


def graded(s, triple):
    """02, item 7: the scene numbers of a graded triple within the limit. Their ACES numbers are as near as it asks, and encoding takes them"""
    scenes = product(*GRADING[s[0]], *triple)
    assert units_off(s, scenes, triple) <= GRADED_OFF and all(abs(x) <= LIMIT for x in scenes), (s, triple, scenes)
    return scenes


def pixel_of(table, s, triple, off=EXACT):
    """the codes of the pixel of a setting whose ACES triple is at most so many units off this one in every channel, or None. A channel of the
    pixel's decoded numbers is the inverse's row product with numbers at most a half from its ACES triple, and so at most that and a half from this
    one. So it lies in an interval; each pixel in the intervals is tried."""
    over, rows = INVERSES[s[0]]
    codes, number = codes_of(s), table[s].get
    found = [()]
    for row in rows:
        middle, reach = 2 * sum(m * x for m, x in zip(row, triple)), (2 * off + 1) * sum(abs(m) for m in row)
        low, high = -((reach - middle) // (2 * over)), (middle + reach) // (2 * over)
        between = codes[bisect_left(codes, low, key=number):bisect_right(codes, high, key=number)]
        found = [some + (n,) for some in found for n in between]
    found = [pixel for pixel in found if units_off(s, map(number, pixel), triple) <= off]
    assert len(found) < 2, (s, triple, off, found)
    return found[0] if found else None


def apart(table, s):
    """a number of units such that some channel of two different pixels' ACES triples differs by as much: a channel of their decoded numbers
    differs by the least step, and each ACES number is at most a half from its row product"""
    over, rows = INVERSES[s[0]]
    ys = list(table[s].values())
    step = min(b - a for a, b in zip(ys, ys[1:]))
    return Fraction(step * over, max(sum(abs(m) for m in row) for row in rows)) - 1


def setting_check(conversion, s):
    """the refusal of a setting in a conversion, or 0; 02, item 3: to or from ACES 12 comes after 5"""
    number = setting_refusal(*s)
    return number or (12 if conversion in TO_OR_FROM_ACES and s[0] not in MATRICES else 0)


def first_refusal(s, codes):
    """the refusal of a setting and its codes, red, green and blue in turn, or 0"""
    return next(filter(None, (refusal(*s, n) for n in codes)), 0)


def one(table, conversion, s, channels):
    """what the channels of a record become, or the number of its refusal; the setting has passed"""
    if conversion in (PIXEL_TO_SCENE, PIXEL_TO_ACES):
        number = first_refusal(s, channels)
        if number:
            return number
        scenes = [table[s][n] for n in channels]
        return scenes if conversion == PIXEL_TO_SCENE else aces(s, *scenes)
    if conversion == SCENE_TO_PIXEL:
        if any(not -LIMIT <= x <= LIMIT for x in channels):
            return 7
        return [nearest(table, s, x) for x in channels]
    if conversion == ACES_TO_HALF:
        return [half_of(v) for v in channels]
    if conversion == HALF_TO_ACES:
        return 8 if any(not finite(h) for h in channels) else [units_of(h) for h in channels]
    if conversion in GRADED:
        if any(not -GRADED_LIMIT <= a <= GRADED_LIMIT for a in channels):
            return 14
        scenes = graded(s, channels)
        return scenes if conversion == GRADED_TO_SCENE else [nearest(table, s, x) for x in scenes]
    return pixel_of(table, s, channels, WAYS_BACK[conversion]) or 10


def convert(table, conversion, data, output):
    """the answer's line, and the output strip after it"""
    size, to = READ[conversion].size, WRITTEN[conversion].size
    if len(data) % size:
        return "refused 1 0", output
    count = len(data) // size
    if len(output) < count * to:
        return "refused 2 0", output
    written = []
    for k, (curve, width, ei, *channels) in enumerate(READ[conversion].iter_unpack(data)):
        s = curve, width, ei
        made = setting_check(conversion, s) or one(table, conversion, s, channels)
        if isinstance(made, int):
            return f"refused {made} {k}", output
        written.append(WRITTEN[conversion].pack(*s, *made))
    return f"done {count}", b"".join(written) + output[count * to:]


def judged(table, record):
    """02, item 9: the number of the refusal of a record for a reel, or 0, and the scene numbers that it counts for, which are 0 where it is refused"""
    curve, width, ei, *codes = PIXEL.unpack(record)
    s = curve, width, ei
    number = setting_check(PIXEL_TO_ACES, s) or first_refusal(s, codes)
    return number, [0 if number else table[s][n] for n in codes]


def in_eight_bytes(x):
    """what is left of a number in eight bytes, with its sign"""
    return (x + 2 ** 63) % 2 ** 64 - 2 ** 63


class Reel:
    """02, item 9: a reel in a strip, how many records it holds, and the three sums of their scene numbers. All of it may be any bytes and numbers, and
    what a call does then is as include/ropeinstant.h says. A call gives 0 or the number of the refusal"""

    def __init__(self, strip, count=0, sums=(0, 0, 0)):
        self.strip, self.count, self.sums = bytearray(strip), count, list(sums)
        self.room = min(REEL, len(strip) // PIXEL.size)

    def record(self, index):
        return self.strip[PIXEL.size * index:PIXEL.size * (index + 1)]

    def write(self, index, record):
        self.strip[PIXEL.size * index:PIXEL.size * (index + 1)] = record

    def holds(self, index):
        return 0 <= index < min(self.count, self.room)

    def add(self, new, old):
        self.sums = [in_eight_bytes(x + a - b) for x, a, b in zip(self.sums, new, old)]

    def append(self, table, record):
        if self.count >= self.room:
            return 15
        number, new = judged(table, record)
        if not number:
            self.add(new, (0, 0, 0))
            self.write(self.count, record)
            self.count += 1
        return number

    def replace(self, table, index, record):
        if not self.holds(index):
            return 16
        number, new = judged(table, record)
        if not number:
            self.add(new, judged(table, self.record(index))[1])
            self.write(index, record)
        return number

    def drop(self, table):
        if not self.holds(self.count - 1):
            return 16
        self.count -= 1
        self.add((0, 0, 0), judged(table, self.record(self.count))[1])
        return 0
