#!/usr/bin/env python3
"""float_causes.py PROGRAM: hold what PROGRAM (crates/test_float_causes/out/test_float_causes) prints, the answers of the calls on float pixels that
refuse with a cause, to Python's exact fractions and to the rules of 01 (rules.py): each line has the call, what it is asked and its answer. Every
cause of each call has to be there, and an answer that is none."""
import subprocess, sys
from fractions import Fraction

from decoded import SETTINGS
from floats import BITS, FLOAT, UNIT, encoded
from rules import first_refusal, numbers

NUMBERS = {"decode": {0, 3, 4, 5, 6, 11, 13}, "encode": {0, 3, 4, 5, 8, 9}}  # 0 where there is an answer


def main():
    lines = subprocess.run([sys.argv[1]], stdout=subprocess.PIPE, check=True).stdout.decode().split("\n")
    assert lines.pop() == ""
    table, seen = {}, {call: [] for call in NUMBERS}
    for line in lines:
        call, *words = line.split()
        s, asked, answer = tuple(map(int, words[:3])), tuple(map(int, words[3:6])), words[6:]
        if s in SETTINGS and s not in table:
            table[s] = numbers(s)
        number = int(answer[1]) if answer[0] == "refused" else 0
        if call == "encode":
            assert answer == encoded(table, s, FLOAT.unpack(BITS.pack(*asked))).split(), line
        elif number:
            assert answer == ["refused", str(first_refusal(s, asked))], line
        else:
            xs = FLOAT.unpack(BITS.pack(*map(int, answer)))
            assert not first_refusal(s, asked) and [Fraction(x) * UNIT for x in xs] == [table[s][n] for n in asked], line
        seen[call].append(number)
    assert {call: {*ns} for call, ns in seen.items()} == NUMBERS, seen
    given = sum(ns.count(0) for ns in seen.values())
    print(f"float_causes: {given} float pixels and pixels are given as the rules say, and {len(lines) - given} calls refused, one or more for each cause")


if __name__ == "__main__":
    main()
