#!/usr/bin/env python3
"""Functions of src/ that are alike but for names, types and numbers.

tools/twins.py [FOLDER]   FOLDER is a checkout; without one it is the folder where this is run

Each function's text is taken without comments and clauses. Names, types and numbers are replaced by one sign each, and any number of cases of a
match by one. Functions whose texts are then equal are printed in a line.
"""
import collections
import glob
import re
import sys

ROOT = sys.argv[1] if len(sys.argv) > 1 else "."
KEPT = set("fn let mut if else match return while for in as pub extern self impl loop break true false".split())


def functions(text):
    """the functions of a file: name, line, and the lines of each"""
    lines = text.split("\n")
    i = 0
    while i < len(lines):
        start = re.match(r'(\s*)(?:pub )?(?:extern "C" )?fn (\w+)', lines[i])
        if not start:
            i += 1
            continue
        pad, j, body = start[1], i, []
        while True:
            body.append(lines[j])
            one_line = j == i and "{" in lines[j] and lines[j].rstrip().endswith("}")
            no_body = lines[j].startswith(pad + "    ensures") and lines[j].rstrip().endswith(";")
            if lines[j] == pad + "}" or one_line or no_body or j + 1 == len(lines):
                break
            j += 1
        yield start[2], i + 1, body
        i = j + 1


def shape(body):
    """a function's text with one sign for each name, type and number"""
    text = "\n".join(line for line in body if not re.match(r"\s*(//|requires|ensures|#\[)", line))
    signs = []
    for word in re.findall(r'"[^"]*"|\w+|[^\w\s]', re.sub(r"//.*", "", text)):
        named = word.startswith('"') or re.fullmatch(r"\w+", word) and word not in KEPT
        signs.append("_" if named else word)
    path = re.sub(r"_ (: : _ )+", "_ ", " ".join(signs))
    return re.sub(r"(_ = > _ (\( _ (, _ )*\) )?, )+", "_ => _ , ", path)


def main():
    groups = collections.defaultdict(list)
    for path in sorted(glob.glob(ROOT + "/crates/*/src/*.rt")):
        if not path.endswith("values.rt"):
            crate, file = path.split("/")[-3], path.split("/")[-1]
            for name, line, body in functions(open(path).read()):
                groups[shape(body)].append(f"{crate}/{file}:{line} {name}")
    twins = sorted(group for group in groups.values() if len(group) > 1)
    for group in twins:
        print("; ".join(group))
    print(f"{sum(map(len, twins))} functions in {len(twins)} groups")


main()
