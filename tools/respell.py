#!/usr/bin/env python3
"""Brings the names of this repository's own definitions and lemmas to the spelling of today's Rattle: words in snake case.

usage: tools/respell.py        at the top of the repository, right after port.py, once

It goes by text. The names are those that specs/*.antt and proofs/*.antt declare. A name in lower camel case, or one of words joined by
dashes, becomes one of words joined by underscores; where a part of a dashed name is itself the name of a definition, its dash stays. A
lemma whose new name is taken gets _lem. Types, records and facts keep their capitals, and what Rattle names after the code (in proofs/F/)
and the names of std stay as they are. Files: .antt and .rt of crates/, and the old: and new: lines of must-fail/*.edit. In a comment only
names in camel case are turned, since a dashed word there may be English.
"""
import glob
import re
import sys

WORD = r"[^\s:(){}\[\];,.\"`⌜⌝]+"
DECLARED = [
    re.compile(r"^ *(?:(?:abbrev|unfoldable|pub|private|rec|mutual) )*(" + WORD + r") *:(?: |$)"),
    re.compile(r"^ *(?:(?:pub|abbrev) )*(?:record|data|ruleset) (" + WORD + r")"),
]
TOKEN = re.compile(WORD)
# lemmas that port.py left with the name that their definition gets now: the name, and the module where it stands
LEMMAS = [
    ("read_at", "Rattle.float_unit.proofs.Fractions"),
    ("read_back", "Rattle.whole.proofs.Words"),
    ("room_in", "Rattle.rules.proofs.Reel"),
    ("row_small", "Rattle.row_product.proofs.Sizes"),
    ("signed_units", "Rattle.half.proofs.read.Proof"),
]


def declared(path):
    for line in open(path, encoding="utf-8"):
        for form in DECLARED:
            m = form.match(line)
            if m:
                yield m.group(1)


def snake(part):
    return re.sub(r"(?<=[a-z0-9])([A-Z])", lambda m: "_" + m.group(1), part).lower()


def camel(name):
    return re.fullmatch(r"[a-z][A-Za-z0-9_]*[A-Z][A-Za-z0-9_]*'*", name) is not None


def dashed(name):
    return re.fullmatch(r"[a-z][A-Za-z0-9_]*(-[A-Za-z0-9_]+)+'*", name) is not None


def new_name(name):
    parts = name.split("-")
    if any(camel(p) for p in parts[:-1]) or (len(parts) > 1 and camel(parts[-1])):
        return "-".join(snake(p) if camel(p) else p for p in parts)
    if any(re.match("[A-Z]", p) for p in parts):
        return name
    return "_".join(snake(p) for p in parts)


def words(path):
    """The names that a file could confuse with another: not fields (x.f), parts of a path, or Rust's functions."""
    text = open(path, encoding="utf-8").read()
    if path.endswith(".rt"):
        text = re.sub(r"(?<=requires|.ensures) [a-z_0-9]+(?= \{)", "", re.sub(r"//.*", "", text))
        ghost = " ".join(re.findall(r"^ghost use .*?;|^ *(?:requires|ensures).*?$", text, re.M))
        bound = re.findall(r"\blet (?:mut )?([a-z_0-9]+)\b|\b([a-z_0-9]+): ", text)
        bound = [x for pair in bound for x in pair if x]
        return set(TOKEN.findall(re.sub(r"(?<=[\w)'])\.(?:[a-z_0-9-]+\.?)+", " ", ghost))) | set(bound)
    text = re.sub(r"-- .*", "", text)
    return set(TOKEN.findall(re.sub(r"(?<![\s({])\.[^\s(){}\[\];,]+", " ", re.sub(r"Rattle\.[\w.+'-]+?\.\{", "{", re.sub(r"Rattle\.[\w.+'-]+(?=\s)", "", text)))))


def texts(name):
    return sorted(glob.glob("crates/*/" + name))


def turn_lemmas():
    for name, home in LEMMAS:
        crate, rest = home.removeprefix("Rattle.").split(".", 1)
        at = f"crates/{crate}/{rest.replace('.', '/')}.antt"
        for p in sorted(glob.glob("crates/**/*.antt", recursive=True)):
            text = open(p, encoding="utf-8").read()
            if p == at or re.search(re.escape(home) + r"\.\{[^}]*(?<![\w-])" + name + r"(?![\w'-])", text):
                text = re.sub(r"(?<![\w.'-])" + name + r"(?![\w'-])", name + "_lem", text)
                open(p, "w", encoding="utf-8").write(text)


def main():
    turn_lemmas()
    homes = texts("specs/*.antt") + texts("proofs/*.antt")
    own = sorted({n for p in homes for n in declared(p)})
    everything = sorted(set(homes + glob.glob("crates/*/proofs/**/*.antt", recursive=True) + glob.glob("crates/*/src/**/*.rt", recursive=True)))
    uses = {p: words(p) for p in everything}
    new = {}
    takers = {}
    # a definition before a lemma: a name in camel case is a definition's
    for name in sorted((n for n in own if camel(n) or dashed(n)), key=lambda n: (not camel(n), n)):
        to = new_name(name)
        if to == name:
            continue
        for to in (to, to + "_lem"):
            clash = [p for p in everything if name in uses[p] and (to in uses[p] or takers.get(to) in uses[p])]
            if not clash:
                break
            print(f"{name} -> {to}: taken in {clash[0]}" + (f" by {takers[to]}" if to in takers else ""))
        else:
            sys.exit(f"{name}: no name is free")
        takers[to] = name
        new[name] = to

    def turn(text, all_words):
        return TOKEN.sub(lambda m: new[m.group(0)] if m.group(0) in new and (all_words or camel(m.group(0))) else m.group(0), text)

    def turn_line(line, mark):
        code, found, comment = line.partition(mark)
        return turn(code, True) + (found + turn(comment, False) if found else "")

    count = 0
    for p in sorted(set(everything)) + texts("must-fail/*.edit"):
        old = open(p, encoding="utf-8").read()
        if p.endswith(".edit"):
            mark = "//" if re.search(r"^file: .*\.rt", old, re.M) else "-- "
            lines = [turn_line(l, mark) if re.match("(old|new): ", l) else l for l in old.split("\n")]
        else:
            mark = "//" if p.endswith(".rt") else "-- "
            lines = [turn_line(l, mark) for l in old.split("\n")]
        text = "\n".join(lines)
        if text != old:
            count += 1
            open(p, "w", encoding="utf-8").write(text)
    print(f"{len(new)} names in {count} files")
    with open("docs/respelled.txt", "w", encoding="utf-8") as f:
        f.writelines(f"{a} {b}\n" for a, b in sorted(new.items()))


main()
