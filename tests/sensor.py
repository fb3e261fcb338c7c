#!/usr/bin/env python3
"""sensor.py DRIVER: have DRIVER (tests/driver.c, linked with the library) convert records of curve 2, LogC of SUP 2.x firmware, whose scene numbers are
units of sensor value. Every code of its settings is decoded and encoded again; the toe's border and the end numbers are those of the list below. The
codes of black, 256/65535 of the sensor's range, and of the whole range are held to the black and the clipping level that source document 001 prints.
Of records that are refused, alone and in strips, each conversion has to give the listed number: curve 2 has no ACES matrix."""
import random, subprocess, sys
from decimal import Decimal

from decoded import EIS, UNIT, codes_of, exact
from rules import ACES_TO_PIXEL, LIMIT, NUMBERS, PIXEL, PIXEL_TO_ACES, PIXEL_TO_SCENE, READ, SCENE_TO_PIXEL, SETTINGS, WITHOUT_MATRIX, WRITTEN, numbers
from strips import codes, hold, returned, run

ROWS = {  # EI: the first codes of the power part at widths 10 and 12, the numbers of code 0 and of the top code, black and clipping level
    160: (111, 444, 25674, 84506445, "0.1083", "0.8110"),
    200: (115, 457, 31957, 71749529, "0.1115", "0.8320"),
    250: (118, 470, 37196, 61004241, "0.1146", "0.8524"),
    320: (121, 485, 41979, 51067291, "0.1181", "0.8743"),
    400: (125, 498, 45539, 43554090, "0.1213", "0.8935"),
    500: (128, 511, 48497, 37204169, "0.1245", "0.9121"),
    640: (132, 525, 51189, 31311294, "0.1280", "0.9320"),
    800: (135, 538, 53187, 26839606, "0.1311", "0.9494"),
    1000: (138, 551, 54844, 23046438, "0.1343", "0.9662"),
    1280: (142, 566, 56349, 19513546, "0.1378", "0.9841"),
    1600: (145, 579, 57466, 16822237, "0.1409", "0.9997"),
}
LEAST = 9  # units between the numbers of two codes: code 582 to 583 at EI 1600 and width 12
LEVELS = round(Decimal(256 * UNIT) / 65535), UNIT  # scene numbers: black, and the whole range
NEAR = Decimal("0.0001") + Decimal("0.5") / 4095  # of a printed level: its last digit, and half a code

# The setting and the three channels of a record, and its refusal, 0 where it passes: by pixel to scene and by pixel to ACES, or by scene to pixel and
# by ACES to pixel.
PIXELS = [
    ((2, 12, 800, 0, 538, 4095), 0, 12), ((2, 10, 160, 1023, 0, 111), 0, 12), ((3, 12, 800, 100, 0, 0), 0, 0), ((4, 12, 0, 0, 0, 0), 0, 0),
    ((1, 12, 800, 0, 0, 0), 3, 3), ((5, 12, 800, 0, 0, 0), 3, 3), ((0, 10, 160, 0, 0, 0), 3, 3), ((255, 12, 0, 0, 0, 0), 3, 3),
    ((2, 16, 800, 0, 0, 0), 4, 4), ((2, 140, 0, 300, 300, 300), 4, 4), ((2, 14, 0, 0, 0, 0), 4, 4), ((2, 0, 800, 5000, 0, 0), 4, 4),
    ((2, 12, 0, 0, 0, 0), 5, 5), ((2, 10, 2000, 0, 0, 0), 5, 5), ((2, 12, 3200, 4096, 0, 0), 5, 5), ((2, 10, 159, 0, 0, 0), 5, 5),
    ((2, 12, 800, 4096, 0, 0), 6, 12), ((2, 12, 800, 0, 0, 65535), 6, 12), ((2, 10, 1600, 0, 1024, 0), 6, 12), ((3, 12, 800, 0, 4096, 0), 6, 6),
]
TRIPLES = [
    ((2, 12, 800, 53187, 65554, 26839606), 0, 12), ((2, 10, 160, 0, -1, 1), 0, 12), ((2, 12, 1600, LIMIT, -LIMIT, 0), 0, 12),
    ((2, 12, 800, 0, LIMIT + 1, 0), 7, 12), ((2, 10, 640, 0, 0, -LIMIT - 1), 7, 12), ((2, 12, 160, 2 ** 63 - 1, -2 ** 63, 0), 7, 12),
    ((1, 12, 800, 0, 0, 0), 3, 3), ((2, 16, 800, 0, 0, 0), 4, 4), ((2, 140, 800, LIMIT + 1, 0, 0), 4, 4), ((2, 12, 0, LIMIT + 1, 0, 0), 5, 5),
    ((3, 12, 800, -238167, -283566, -289928), 0, 0), ((3, 12, 800, 0, 0, LIMIT + 1), 7, 10),
]
PASSING = {PIXEL: PIXEL.pack(3, 12, 800, 100, 0, 0), NUMBERS: NUMBERS.pack(3, 12, 800, -238167, -283566, -289928)}  # in each conversion
WORDS = {3: b"the curve is not 2, 3 or 4", 12: b"the curve has no ACES matrix"}


def converted(driver, conversion, data, record):
    """the records that a strip becomes"""
    out = subprocess.run([driver, "strip", conversion, "/dev/stdin"], input=data, stdout=subprocess.PIPE, check=True).stdout
    line, made = out.split(b"\n", 1)
    assert line == b"done %d" % (len(made) // record.size), line
    return made


def every_code(driver, s):
    """that each code of a setting has its number, and its number gives the code again: the least step"""
    ei, known, ys = s[2], codes_of(s), numbers(s)
    first = next(n for n, (toe, _) in zip(known, exact(*s)) if not toe)
    listed = ROWS[ei][0 if s[1] == 10 else 1], *ROWS[ei][2:4]
    assert (first, ys[known[0]], ys[known[-1]]) == listed, (s, first, ys[known[0]], ys[known[-1]])
    pixels = b"".join(PIXEL.pack(*s, n, known[-1 - n], n) for n in known)
    made = converted(driver, "pixel-to-scene", pixels, NUMBERS)
    for n, record in zip(known, NUMBERS.iter_unpack(made)):
        assert record == (*s, ys[n], ys[known[-1 - n]], ys[n]), (s, n, record)
    assert converted(driver, "scene-to-pixel", made, PIXEL) == pixels, s
    return min(ys[n + 1] - ys[n] for n in known[:-1])


def levels(driver):
    """that black and the whole range have the codes of the printed levels, at width 12"""
    for ei in EIS[2]:
        made = converted(driver, "scene-to-pixel", NUMBERS.pack(2, 12, ei, *LEVELS, 0), PIXEL)
        for code, printed in zip(PIXEL.unpack(made)[3:], ROWS[ei][4:]):
            assert abs(Decimal(code) / 4095 - Decimal(printed)) < NEAR, (ei, code, printed)


def refusals(driver):
    """each listed record alone; behind one that passes; then with a record short of its end, and with an output that is too short: how many strips"""
    todo, answers = [], []
    for listed, (to_scene, to_aces) in (PIXELS, (PIXEL_TO_SCENE, PIXEL_TO_ACES)), (TRIPLES, (SCENE_TO_PIXEL, ACES_TO_PIXEL)):
        for channels, *refused in listed:
            for c, number in zip((to_scene, to_aces), refused):
                record, need = READ[c].pack(*channels), WRITTEN[c].size
                both = PASSING[READ[c]] + record
                for data, room, answer in (
                    (record, need, f"refused {number} 0" if number else "done 1"), (both, 2 * need, f"refused {number} 1" if number else "done 2"),
                    (both + record[:-1], 3 * need, "refused 1 0"), (both, 2 * need - 1, "refused 2 0"),
                ):
                    todo.append((c, data, bytes(room)))
                    answers.append(answer)
    for job, answer, (line, output) in zip(todo, answers, run([driver, "jobs"], todo)):
        assert line == answer and (output == job[2] or answer.startswith("done")), (job, answer, line)
    return len(todo)


def mixed(driver, pick):
    """strips of records of all curves go to scene numbers and come back: how many records"""
    some = [s for s in SETTINGS if s[:2] != (3, 16)]
    table = {s: numbers(s) for s in some}
    todo = []
    for _ in range(100):
        data = b"".join(PIXEL.pack(*s, *codes(pick, s)) for s in pick.choices(some, k=50))
        todo.append((PIXEL_TO_SCENE, data, bytes(50 * NUMBERS.size)))
    _, done = hold([driver, "jobs"], table, todo)
    strips, records = returned([driver, "jobs"], done, PIXEL_TO_SCENE, SCENE_TO_PIXEL)
    assert strips == len(todo)
    return records


def main():
    driver = sys.argv[1]
    assert tuple(ROWS) == EIS[2] and len(WITHOUT_MATRIX) == 22
    least = min(every_code(driver, s) for s in WITHOUT_MATRIX)
    assert least == LEAST, least
    levels(driver)
    words = subprocess.run([driver, "words"], stdout=subprocess.PIPE, check=True).stdout.split(b"\n")
    assert all(words[number] == said for number, said in WORDS.items()), words
    count = sum(len(codes_of(s)) for s in WITHOUT_MATRIX)
    print(f"sensor: {count} codes of {len(WITHOUT_MATRIX)} settings of curve 2 have their numbers, {least} units apart or more, and come back; borders and ends as listed")
    print(f"sensor: black and clipping level at {len(ROWS)} EIs as printed; {mixed(driver, random.Random(1))} records of all curves in mixed strips come back from scene")
    print(f"sensor: {refusals(driver)} strips are refused or pass as listed, by 12 where curve 2 meets ACES, and their outputs stay")


if __name__ == "__main__":
    main()
