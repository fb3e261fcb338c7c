#!/usr/bin/env python3
"""tables.py [--check]: write the seeds of the curves' tables (crates/curve_table/specs/Seeds.antt), the tables themselves
(crates/curve_table/src/values.rt) and the lines of the search's guess (crates/nearest_code/src/log_line.rt), or with --check say whether the committed
files are what this prints.

The numbers are the associated constants of the curves' types (crates/curves/src), which are proved to be those of the rules. A seed is a power with
a fractional exponent at the scale 2^128, rounded down, and lowered until repeated squaring with rounding shows that it is
not above the power; the proofs run the same squaring (crates/power/proofs/Certificate.antt)."""
import re, sys
from decimal import Decimal, getcontext
from pathlib import Path

ROOT = Path(__file__).resolve().parent.parent
SCALE = 2 ** 128
LIFT = 2  # the exponents of every curve are above -2
LEGAL = 140  # the width byte of the legal range
LEGAL_LAST = 3504  # its last step
getcontext().prec = 120


def constants(module):
    """the associated constants of a curve's type: its numbers, its lists, and the rows of its table. A row may name a number."""
    text = (ROOT / f"crates/curves/src/{module}.rt").read_text()
    number = lambda x: int(x.replace("_", ""))
    out = {name: number(x) for name, x in re.findall(r"pub const (\w+): \w+ = ([\d_]+);", text)}
    for name, xs in re.findall(r"pub const (\w+): \[\w+; \d+\] = \[([\d, ]+)\];", text):
        out[name] = [number(x) for x in xs.split(",")]
    value = lambda x: number(x) if x[-1].isdigit() else out[x.split("::")[1]]
    table = re.search(r"pub const TABLE: [^=]*= \[(.*?)\n    \];", text, re.S)
    rows = re.findall(r"LogC \{([^}]*)\}", table[1]) if table else []
    out["rows"] = [{k: value(x) for k, x in re.findall(r"(\w+): ([-\w:]+),", row)} for row in rows]
    return out


def eis():
    """the EIs of a curve with a toe, in the order of their rows"""
    text = (ROOT / "crates/curves/src/log_c.rt").read_text()
    rows = {int(row): int(ei) for ei, row in re.findall(r"(\d+) => (\d+),", text)}
    return [rows[i] for i in range(constants("log_c")["ROWS"])]


class Curve:
    """exponent (rise * t + plus - minus) / over, and (base ^ exponent - less) * times / timesOver, of a signal t"""

    def __init__(self, name, number, widths, base, rise, plus, minus, over, times, times_over):
        self.name, self.number, self.widths, self.base = name, number, widths, base
        self.rise, self.plus, self.minus, self.over = rise, plus, minus, over
        self.times, self.times_over = times, times_over


def with_toe(number):
    """a curve with a toe, 2 or 3, at each EI"""
    k = constants(f"log_c{number}")
    assert len(k["rows"]) == len(eis()), k["rows"]
    return [Curve(f"LOGC{number}_EI{ei}", number, k["WIDTHS"], 10, 10 ** 6, 0, row["d"], row["c"], 10 ** 6, row["a"]) for ei, row in zip(eis(), k["rows"])]


def curves():
    """curve 4, and each curve with a toe at each of its EIs"""
    c4 = constants("log_c4")
    plus, minus = c4["BEGIN"] * c4["RANGE"], c4["STOPS"] * c4["BLACK"]
    rise = c4["STOPS"] * c4["WHITE"]
    return [Curve("LOGC4", 4, c4["WIDTHS"], 2, rise, plus, minus, c4["RANGE"], c4["TIMES"], c4["OVER"])] + with_toe(2) + with_toe(3)


def not_above(base, q, m, front, y):
    """whether (base^front * y / SCALE) ^ q, computed with squares and products rounded up, is at most base ^ m"""

    def product(z, w):
        carry = 1 if z * w >= base * SCALE * SCALE else 0
        return carry, z * w // (base ** carry * SCALE) + 1

    e, z = front, y
    for bit in bin(q)[3:]:
        carry, z = product(z, z)
        e = e + e + carry
        if bit == "1":
            carry, z = product(z, y)
            e = e + front + carry
    return z * base ** max(e - m, 0) <= base ** max(m - e, 0) * SCALE


def seed(base, q, m):
    """base ^ (m / q) is base ^ front times a number below base: front, and that number at SCALE, rounded down"""
    front = m // q
    y = int((Decimal(m - front * q) / Decimal(q) * Decimal(base).ln()).exp() * SCALE)
    for less in range(64):
        if not_above(base, q, m, front, y - less):
            return front, y - less
    raise AssertionError((base, q, m))


def squared(x, n):
    for _ in range(n):
        x = x * x // SCALE
    return x


def progression(count, first, ratio, t, c):
    out = []
    for _ in range(count):
        out.append(first * t // (c * SCALE))
        first = first * ratio // SCALE
    return out


def top_code(width):
    """02, item 2: two to the width, less one, for a width from 1 to 16, and 0 for any other number"""
    return 2 ** width - 1 if 1 <= width <= 16 else 0


def last_step(number, width):
    """the last step of a width of a curve. 02, item 5: at curve 4, width 16, a step is a 12-bit code"""
    if number == 4 and width == LEGAL:
        return LEGAL_LAST
    return top_code(12 if number == 4 and width == 16 else width)


# by the last step, 2^63 over the scale of the middle digit's entries
SHIFT = {top_code(10): 2 ** 13, top_code(12): 2 ** 3, top_code(16): 1, LEGAL_LAST: 2 ** 4}


def steps(curve):
    """the last steps of a curve's widths, each once, with the first width that has it"""
    out = {}
    for width in curve.widths:
        out.setdefault(last_step(curve.number, width), width)
    return out


def table(curve, last, front, first, ratio):
    count = last // 1024 + 1
    shift = SHIFT[last]
    high = progression(count, curve.base ** front * first, squared(ratio, 10), 4 * shift * 2 ** 51 * curve.times, curve.times_over * curve.base ** LIFT)
    middle = progression(32, SCALE, squared(ratio, 5), 2 ** 63 // shift, 1)
    low = progression(32, SCALE, ratio, 2 ** 63, 1)
    out = high + [0] * (64 - count) + middle + low
    assert all(x < 2 ** 64 for x in out) and len(out) == 128
    return out


def written():
    seeds, consts, by_width = {2: [], 3: [], 4: []}, [], {}
    for c in curves():
        front, first = seed(c.base, c.over, c.plus + LIFT * c.over - c.minus)
        ratios = ""
        for last, w in steps(c).items():
            zero, ratio = seed(c.base, c.over * last, c.rise)
            assert zero == 0
            ratios += f"at {last} {ratio} ∷ "
            entries = "".join(f"    {x},\n" for x in table(c, last, front, first, ratio))
            consts.append(f"\npub const {c.name}_W{w}: [u64; 128] = [\n{entries}];\n")
            if c.number in (2, 3):
                by_width.setdefault(f"LOGC{c.number}_W{w}", []).append(f"{c.name}_W{w}")
        seeds[c.number].append(f"seed {front} {first} ({ratios}[])")
    antt = (
        "-- The numbers that the tables are computed from. Written by tools/tables.py.\n"
        "-- Assumes nothing.\n"
        "use Rattle.std.specs.Prelude.{List, [], ◌∷◌, ℕ}\n"
        "\n"
        "-- a value for a number\n"
        "pub record At (A : Type 0) : Type 0 where\n  pub number : ℕ\n  pub value : A\n"
        "\n"
        "abbrev pub at : {A : Type 0} → ℕ → A → At A\n"
        "at number value = record { number = number; value = value }\n"
        "\n"
        "-- At the scale 2 ^ 128, rounded down: base ^ (exponent at signal 0, and 2) is base ^ front * first; and for each last step the ratio of\n"
        "-- a step's power to the power of the step before it.\n"
        "pub record Seed : Type 0 where\n"
        "  pub front : ℕ\n  pub first : ℕ\n  pub ratios : List (At ℕ)\n"
        "\n"
        "abbrev pub seed : (front first : ℕ) → List (At ℕ) → Seed\n"
        "seed front first ratios = record { front = front; first = first; ratios = ratios }\n"
        "\n"
        "abbrev pub log_c4_seed : Seed\n"
        f"log_c4_seed = {seeds[4][0]}\n"
        "\n"
        "-- a curve with a toe: one for each row of its constants\n"
        + "\n".join(
            f"abbrev pub log_c{number}_seeds : List Seed\nlog_c{number}_seeds =\n    " + "\n    ∷ ".join(seeds[number]) + "\n    ∷ []\n"
            for number in (2, 3)
        )
    )
    by_rows = "".join(
        f"\npub const {name}: [[u64; 128]; {len(rows)}] = [\n" + "".join(f"    {row},\n" for row in rows) + "];\n" for name, rows in by_width.items()
    )
    rt = (
        "// The tables of the curves, one for each setting, and those of a curve with a toe at a width by the rows of its constants. Written by\n"
        "// tools/tables.py.\n"
        + "".join(consts)
        + by_rows
    )
    return {"crates/curve_table/specs/Seeds.antt": antt, "crates/curve_table/src/values.rt": rt, "crates/nearest_code/src/log_line.rt": lines()}


def line(curve):
    """where z is 2^51 * base ^ exponent * times / timesOver, the signal is a line in log2(z): its slope, and what is taken off"""
    two = Decimal(2).ln()
    slope = curve.over / (curve.rise * Decimal(curve.base).ln() / two)
    start = slope * (51 + (Decimal(curve.times) / curve.times_over).ln() / two) - Decimal(curve.minus - curve.plus) / curve.rise
    return round(slope * 2 ** 32), round(start * 2 ** 48)


def by_row(number, names):
    """the function that gives the line of a row of a curve's constants"""
    arms = "".join(f"            {row} => LogLine::{name},\n" for row, name in enumerate(names))
    return (
        f"    // The line of a row of curve {number}'s constants.\n"
        f"    fn log_c{number}(row: usize) -> LogLine\n"
        "        ensures { result.slope < 2 ^ 29 }\n"
        "    {\n"
        "        match row {\n"
        f"{arms}"
        "            _ => LogLine::NONE,\n"
        "        }\n"
        "    }\n\n"
    )


def lines():
    consts, names = "", {2: [], 3: [], 4: []}
    for c in curves():
        slope, start = line(c)
        consts += f"    pub const {c.name}: LogLine = LogLine {{\n        slope: {slope},\n        start: {start},\n    }};\n\n"
        names[c.number].append(c.name)
    return (
        "// The lines of the guess, one for each curve, and for each EI of a curve with a toe. Written by tools/tables.py.\n"
        "ghost use Rattle.std.specs.Prelude.{◌^◌, ◌<◌};\n"
        "\n"
        "use curves::log_c::LogC;\n"
        "use curves::log_c2::LogC2;\n"
        "use curves::log_c3::LogC3;\n"
        "use curves::log_c4::LogC4;\n"
        "use rules::Setting;\n"
        "\n"
        "// Above the toe a step's number, less the decoder's bias, is a number z over 2^27, and the signal is slope * log2(z) - start. The slope is\n"
        "// in units of 2^-32, the start in units of 2^-48.\n"
        "#[derive(Clone, Copy)]\n"
        "pub struct LogLine {\n    pub slope: u64,\n    pub start: u64,\n}\n"
        "\n"
        "impl LogLine {\n"
        f"{consts}"
        "    // of no curve\n"
        "    pub const NONE: LogLine = LogLine { slope: 0, start: 0 };\n\n"
        f"{by_row(2, names[2])}"
        f"{by_row(3, names[3])}"
        "    // The line of a setting. (It goes by the curve's number: to name the curve first took 4 % of the\n"
        "    // way back's time.)\n"
        "    pub fn of(s: Setting) -> LogLine\n"
        "        ensures { result.slope < 2 ^ 29 }\n"
        "    {\n"
        "        let curve = s.curve;\n"
        "        match curve {\n"
        "            LogC2::NUMBER => LogLine::log_c2(LogC::row(s.ei)),\n"
        "            LogC3::NUMBER => LogLine::log_c3(LogC::row(s.ei)),\n"
        "            LogC4::NUMBER => LogLine::LOGC4,\n"
        "            _ => LogLine::NONE,\n"
        "        }\n"
        "    }\n"
        "}\n"
    )


def main():
    bad = []
    for name, text in written().items():
        path = ROOT / name
        if "--check" in sys.argv[1:]:
            if not path.exists() or path.read_text() != text:
                bad.append(name)
        else:
            path.write_text(text)
    if bad:
        sys.exit("not what tools/tables.py prints: " + ", ".join(bad))
    print("tables: as printed" if "--check" in sys.argv[1:] else "tables: written")


main()
