#!/usr/bin/env python3
"""documents.py [--papers FOLDER]: hold README.md and the documents of docs/ to the sources.

Whatever they name in backticks has to exist and to stand where they say. Every must-fail edit and
every open function has to be in PROMISES.md, under an id that has both of its rows, and every
theorem of a file `Theorems`. No edit of a crate stands there twice. Every crate has to be in
ARCHITECTURE.md. The figures of FORMAT.md have to be those of the code, the bounds in the documents,
the header and the help those of the rules, and links have to lead somewhere. No line of docs/ but a
table's row is longer than 100 columns. How names are written is said in PROMISES.md. With the
folder of the demands and of 01, which are not in the repository, what the tables quote is also
compared with them, letter for letter."""
import functools, os, re, sys
from collections import namedtuple
from pathlib import Path

from decoded import top_code

ROOT = Path(__file__).resolve().parent.parent
README, PROMISES, DECISIONS = "README.md", "docs/PROMISES.md", "docs/DECISIONS.md"
ARCHITECTURE, FORMAT = "docs/ARCHITECTURE.md", "docs/FORMAT.md"
COMMAND, BENCHMARKS = "docs/COMMAND.md", "docs/BENCHMARKS.md"
DOCUMENTS = README, ARCHITECTURE, FORMAT, COMMAND, PROMISES, DECISIONS, BENCHMARKS
COLUMNS = 100  # of a line that is no table's row

# Columns of the tables, and where the names in them stand: folders of a crate.
PLACES = {"Definition": ("specs", "src"), "Proof": ("proofs", "src"), "Edits": ("must-fail", "proofs"),
          "Open function": ("src",), "Stated by": ("specs",)}
ANYWHERE = ("specs", "proofs", "src", "must-fail")

# Names that are of nothing in the repository, and why.
ALLOWED = {
    "requires": "a word of the language", "ensures": "a word of the language",
    "&mut u64": "a type of the language",
    "rt": "the toolchain's command", "rt ci": "the toolchain's command",
    "axioms=": "a word of the toolchain's reports",
    "axioms=2": "a word of the toolchain's reports", "N passed, 0 failed": "the toolchain's last line",
    "libc::read": "a function of the toolchain's", "libc::write": "a function of the toolchain's",
    "cp": "a program of the system", "perf record": "a program of the system",
    "nan": "a value of the logic's floats",
    "-": "standard input, on the command line",
    ".OUT.ropeinstant-0": "a name that the command makes", "-1": "its end", "-31": "its end",
}

Block = namedtuple("Block", "document line column text")  # a paragraph, or a cell and its column
Function = namedtuple("Function", "crate path type name public contract")


# ---- the sources

def stated(text):
    """the names that a file of definitions or proofs states; a case or a field by its type's name"""
    names, owner, margin = set(), None, 0
    for line in text.splitlines():
        form = re.match(r"( *)((?:(?:abbrev|unfoldable|pub|record|data) )*)([^\s:]+)( :)?", line)
        if not form:
            continue
        indent, words, name = len(form[1]), form[2].split(), form[3]
        if owner and indent <= margin:
            owner = None
        if "record" in words or "data" in words:
            names.add(name)
            owner, margin = name, indent
        elif form[4] and owner:
            names.add(f"{owner}.{name}")
        elif form[4] and (indent == 0 or "pub" in words):
            names.add(name)
    return names


def coded(crate, path, text):
    """the names that a file of code declares, and its functions with their contracts"""
    names, functions, owner = set(), [], None
    lines = text.splitlines()
    for i, line in enumerate(lines):
        owner = re.match(r"impl (\w+)", line)[1] if line.startswith("impl ") else None if line == "}" else owner
        item = re.match(r'\s*(pub )?(?:extern "C" )?(fn|struct|enum|const) (\w+)', line)
        if not item:
            continue
        names |= {item[3], f"{owner}::{item[3]}"} if owner else {item[3]}
        if item[2] == "fn":
            end = next(j for j in range(i, len(lines)) if lines[j].endswith("{"))
            functions.append(Function(crate, path, owner, item[3], bool(item[1]), "\n".join(lines[i + 1:end])))
    return names, functions


class Sources:
    def __init__(self):
        self.crates = sorted(p.name for p in (ROOT / "crates").iterdir() if p.is_dir())
        listed = re.findall(r"\w+", re.sub("#.*", "", (ROOT / "crates.txt").read_text()))
        self.libraries = set(listed) - set(self.crates)  # the toolchain's
        self.declared, self.functions, self.code, self.theorems = {}, [], {}, []
        for path in sorted((ROOT / "crates").rglob("*")):
            name, crate = str(path.relative_to(ROOT)), path.relative_to(ROOT).parts[1]
            if "out" in path.relative_to(ROOT).parts:
                continue  # what checks keep
            if path.suffix == ".rt":
                self.code[name] = re.sub("//.*", "", path.read_text())
                self.declared[name], functions = coded(crate, name, self.code[name])
                self.functions += functions
            elif path.suffix == ".antt" and path.parent.name in ("specs", "proofs"):
                self.declared[name] = stated(path.read_text())
                if path.stem == "Theorems":
                    self.theorems += [(name, n) for n in re.findall(r"(?m)^\s*(?:\w+ )*pub ([^\s:]+) :", path.read_text())]
            elif path.suffix == ".edit":
                self.declared[name] = {path.stem}
        self.placed = [(path, *path.split("/")[1:3], Path(path).stem) for path in self.declared]
        self.tool = "\n".join(p.read_text() for p in sorted((ROOT / "tool/src").rglob("*.rs")))
        self.gate = (ROOT / "gate").read_text()
        self.installed = (ROOT / "Makefile").read_text() + (ROOT / "include/ropeinstant.h").read_text()
        self.texts = [p.read_text() for p in sorted((ROOT / "crates").glob("*/s[rp]*/*")) if p.is_file()]
        scripts = "\n".join(p.read_text() for p in ROOT.iterdir() if p.is_file() and os.access(p, os.X_OK))
        literals = re.findall(r'"[^"\n]*"', "\n".join([self.tool, *self.code.values()]))
        self.words = {*re.findall(r"[\w-]+", " ".join([scripts, *literals]))}  # that programs take or print

    def stands(self, name, crates, folders, file=None):
        """the files in which a name stands, in these crates and folders of theirs"""
        return [path for path, crate, folder, stem in self.placed
                if name in self.declared[path] and crate in crates and folder in folders and file in (None, stem)]

    @functools.lru_cache(maxsize=None)
    def outside(self, f):
        """whether other crates see a function, if it is public: it is in lib.rt or in a public module"""
        library = self.code.get(f"crates/{f.crate}/src/lib.rt", "")
        return f.path.endswith("/lib.rt") or f"pub mod {Path(f.path).stem};" in library

    @functools.lru_cache(maxsize=None)
    def called(self, f):
        """whether another library, or another file of its own crate, calls a function"""
        inside = rf"\b{f.name}\b"
        outside = rf"\b{f.type}::{f.name}\b|\.{f.name}\(" if f.type else rf"\b{f.crate}::(\w+::)*{f.name}\b"
        for path, text in self.code.items():
            own = path.split("/")[1] == f.crate
            if path != f.path and path.split("/")[-1] != "main.rt" and re.search(inside if own else outside, text):
                return True
        return False


# ---- the documents

@functools.lru_cache(maxsize=None)
def blocks(document, text):
    """the paragraphs and the cells of a document, without the lines that are set as code"""
    found, titles, paragraph = [], None, None
    for number, line in enumerate(text.splitlines(), 1):
        if line.startswith("|"):
            cells = [c.strip() for c in line.strip().strip("|").split("|")]
            if titles is None:
                titles = cells
            elif not re.fullmatch("[|: -]+", line):
                found += [Block(document, number, *pair) for pair in zip(titles, cells)]
            paragraph = None
        elif not line.strip() or line.startswith(("    ", "#")):
            titles = paragraph = None
        elif paragraph is None:
            paragraph = len(found)
            found.append(Block(document, number, None, line))
        else:
            found[paragraph] = found[paragraph]._replace(text=found[paragraph].text + " " + line.strip())
    return found


JOINED = {", ", " and ", ", and ", "; ", " .. ", " or "}
PATH = r"(?:[\w-]+/)*[\w-]+\.(?:md|py|rt|rs|c|h|antt|txt)"


class Reader:
    """reads one block: each name in backticks, with the crate and the file that stand before it"""

    def __init__(self, sources, block, folder):
        self.sources, self.block, self.folder = sources, block, folder
        self.crate = self.file = self.test = None
        self.edits, self.cited, self.wrong = set(), set(), []

    def read(self):
        parts = re.split("`([^`]*)`", re.sub('"[^"]*"', '""', self.block.text))
        last, listed = None, []  # the name before, and those of a list: `a`, `b` in `path`
        within = behind = None  # the path before, and where it is followed by names that are to stand in it
        for before, name in zip(parts[::2], parts[1::2] + [None]):
            for bare in re.findall(rf"(?<![\w./-]){PATH}(?![\w/])", before):
                self.path(bare)
            if name is None:
                break
            word = re.search(r"(\w+) $", before)
            if word and word[1] in self.sources.crates:
                self.crate, self.file = word[1], None
            elif last in self.sources.crates and before in (" ", ": ", " ("):
                self.crate, self.file = last, None
            elif self.block.column is None and before not in JOINED:
                self.crate = self.file = None
            if word and (word[1] == "test" or (ROOT / f"tests/{word[1]}.py").exists()):
                self.test = word[1]
            if within and re.fullmatch(r": |: [a-z]+( \w+)? of ", before) or before in JOINED and behind:
                behind = within  # `path`: `a`, `b`
            else:
                behind = None
            place = self.one(name)
            if behind and not place and not self.holds(behind, name):
                self.complain(name, f"is not in {behind}")
            within = place or behind
            for other in listed if re.sub(r" \([^()]*\)", "", before) in (" in ", " (") else ():
                if other.split(".")[-1] not in self.sources.declared.get(place, {other.split(".")[-1]}):
                    self.complain(other, f"is not in {place}")
            listed = [] if place else listed + [name] if before in JOINED else [name]
            last = name
        return self

    def holds(self, path, name):
        """whether a file has a name: it declares it or, where it is no file of a crate, has it as a word"""
        if path in self.sources.declared:
            return name.split(".")[-1] in self.sources.declared[path] | {Path(path).stem}
        return not (ROOT / path).is_file() or bool(re.search(rf"\b{re.escape(name)}\b", (ROOT / path).read_text()))

    def complain(self, name, why):
        self.wrong.append(f"{self.block.document}:{self.block.line}: `{name}` {why}")

    def one(self, name):
        """look for one name; if it is a path, which"""
        first, column = name.split()[0], self.block.column
        if name in ALLOWED and (column not in PLACES or name in ("requires", "ensures")):
            return
        if "/" in first or re.fullmatch(PATH, first) or self.entry(name):
            return self.path(first)
        if column == "Tests":
            test = ROOT / f"tests/{self.test}.py"
            text = test.read_text() if test.exists() else self.sources.tool  # "unit test": of the command
            if not re.search(rf"\b(def|fn) {name}\(", text):
                self.complain(name, f"is no function of the test {self.test}")
        elif column in PLACES or name not in {*self.sources.crates, *self.sources.libraries}:
            self.inside(name)

    def entry(self, name):
        """whether a word is the name of a file or folder of the repository or of a crate"""
        if self.block.column in PLACES or not re.fullmatch("[a-z-]+", name):
            return False
        return (ROOT / name).exists() or any((ROOT / "crates").glob(f"*/{name}"))

    def path(self, name):
        """a path from the repository, its crates, the crate before it, or the path before it; a word in
        capitals stands for any name"""
        if {"target", "out"} & {*name.split("/")}:
            return None if name in self.sources.gate else self.complain(name, "is not built by ./gate")
        folders = [ROOT, ROOT / "crates"] + ([ROOT / "crates" / self.crate] if self.crate else [])
        folders += [self.folder, *self.folder.parents] if self.folder else []
        for folder in folders:
            if (folder / name).exists():
                self.folder = (folder / name).resolve()
                return str(self.folder.relative_to(ROOT))
        pattern = re.sub(r"\b[A-Z]{3,}\b", "*", name)
        if not any(ROOT.glob(pattern)) and not any((ROOT / "crates").glob(f"*/{pattern}")):
            self.complain(name, "is no path of the repository")

    def inside(self, name):
        """a definition, a theorem, something of the code, or an edit"""
        column, file, written = self.block.column, None, name
        crates, folders = [self.crate] if self.crate else self.sources.crates, PLACES.get(column, ANYWHERE)
        name = re.sub(r"(?<=\w)\(.*\)$", "", name)
        first, colons, rest = name.partition("::")
        if first in self.sources.libraries:
            return
        if colons and first in self.sources.crates:
            crates, name = [first], rest
        elif column in PLACES and not self.crate:
            return self.complain(written, "has no crate before it")
        elif re.fullmatch(r"[A-Z]\w*\.[^ ]+", name):
            file, name = name.split(".", 1)
        elif column in PLACES and self.sources.stands(name, crates, folders, self.file or ""):
            file = self.file
        elif column in PLACES:  # not in the file before it: something of the code, or an edit
            folders = [f for f in folders if f in ("src", "must-fail")]
        found = self.sources.stands(name, crates, folders, file)
        self.file = file or self.file
        self.edits |= {path for path in found if path.endswith(".edit") and self.crate}
        self.cited |= {(path, name) for path in found if column == "Proof"}
        if not found and (column in PLACES or not self.said(written)):
            where = crates[0] if len(crates) == 1 else "any crate"
            self.complain(written, f"is not in {' or '.join(folders)} of {where}")

    def said(self, name):
        """a file of definitions or proofs, a word that a program prints or takes, or code as it stands"""
        if self.folder and self.folder.suffix in (".py", ".rs", ".c", ".h"):
            if self.holds(str(self.folder.relative_to(ROOT)), name):
                return True
        literal = re.sub("^[A-Z]+(?=[.])", "", name)  # a word in capitals stands for any name
        installed = re.fullmatch(r"[A-Z_]+|\w+\.\w+", name) and re.search(rf"\b{re.escape(name)}\b", self.sources.installed)
        if f'"{literal}"' in self.sources.tool or installed:
            return True
        called = name.removeprefix("ropeinstant ").split()  # words of the command, options, and what stands for names
        options = [word.removeprefix("--") for word in called if re.fullmatch("[a-z-]+", word)]
        if all(re.fullmatch(r"[A-Z]+(\.\.)?|[a-z][a-z-]*|--[a-z-]+", word) for word in called) and name != name.upper():
            if {*options} <= {*self.sources.words, "help"}:
                return True
        if re.fullmatch("[A-Z][A-Za-z]+", name):
            return any(stem == name and self.crate in (None, crate) for _, crate, _, stem in self.sources.placed)
        if re.fullmatch("[a-z-]+( [a-z.-]+)?", name) and name.split()[0] in self.sources.words:
            return True
        return not re.fullmatch(r"[A-Za-z_][\w.:-]*", name) and any(name in text for text in self.sources.texts)


def tests(sources, block):
    """each word of the column of tests is a stored run or a test that the gate runs"""
    for word in re.split("[,;]", re.sub(r"`[^`]*`.*|\(.*\)", "", block.text)):
        word = word.strip()
        stored = any((ROOT / "crates" / name / "stdout").exists() for name in (word, f"test_{word}"))
        if word and word != "unit test" and not (word.isidentifier() and (stored or f"tests/{word}.py" in sources.gate)):
            yield f"{block.document}:{block.line}: {word} is no test of ./gate"


def surface(sources, found):
    """the open functions: no `requires`, an `ensures` by the definitions named; others are for other crates only"""
    listed, f = set(), None
    for block in found:
        if block.column == "Open function":
            cell = re.fullmatch(r"(\w+) `(\w+)`", block.text)
            f = next((f for f in sources.functions if cell and (f.crate, f.name) == cell.groups() and f.public), None)
            listed.add(f)
            if f is None or "requires" in f.contract or "ensures" not in f.contract:
                yield f"{block.document}:{block.line}: {block.text} is not public with `ensures` and no `requires`"
        elif block.column == "Stated by" and f:
            for name in re.findall(r"`(?:\w+\.)?(\w+)`", block.text):
                if not re.search(rf"\b{name}\b", f.contract):
                    yield f"{block.document}:{block.line}: the contract of {f.crate} `{f.name}` does not cite {name}"
    for f in sources.functions:
        if f.public and f.path.endswith("main.rt"):
            yield f"{f.path}: {f.name} is a public function of a program"
        elif f.public and f not in listed and not sources.called(f):
            yield f"{f.path}: {f.name} is public, is not listed as open, and no other crate calls it"
        elif f.public and sources.outside(f) and "ensures" not in f.contract:
            yield f"{f.path}: {f.name} is public and has no `ensures`"


def rows(document, text):
    """the rows of the tables of a document: the line, and the cells by their columns"""
    found = {}
    for block in blocks(document, text):
        if block.column is not None:
            found.setdefault(block.line, {})[block.column] = block.text
    return found.items()


def ids(texts):
    """each id has a row with its sentence and a row with its edits and tests, and "as ID" means such a row"""
    for column, other in ("Sentence", "Edits"), ("Edits", "Sentence"):
        there = [row["Id"] for _, row in rows(PROMISES, texts[PROMISES]) if "Id" in row and other in row]
        yield from (f"{PROMISES}: {name} has two rows with {other}" for name in {*there} if there.count(name) > 1)
        for line, row in rows(PROMISES, texts[PROMISES]):
            if column in row and not (re.fullmatch(r"[A-Z]\d*\.?\d+", row.get("Id", "")) and row["Id"] in there):
                yield f"{PROMISES}:{line}: {row.get('Id')} has no row with {other}"
            for name in re.findall(r"\bas ([A-Z][\d.]+)\b", row.get("Proof", "")):
                if name not in there:
                    yield f"{PROMISES}:{line}: there is no {name}"


def links(texts):
    """each link leads to a file of the repository and, behind a #, to a heading there"""
    for document, text in texts.items():
        for name, _, heading in (link.partition("#") for link in re.findall(r"\]\(([^()\s]+)\)", text)):
            path = (ROOT / document).parent / name if name else ROOT / document
            other = texts.get(os.path.relpath(path, ROOT), "") if heading else ""
            there = re.findall("(?m)^#+ (.*)", other)
            there = [re.sub(r"[^\w -]", "", title.lower()).replace(" ", "-") for title in there]
            if not path.exists() or heading and there.count(heading) != 1:
                yield f"{document}: the link to {name}#{heading} leads nowhere"


def long_lines(texts):
    others = {os.path.relpath(p, ROOT): p.read_text() for p in sorted((ROOT / "docs").rglob("*.md"))}
    for document, text in {**others, **texts}.items():
        for number, line in enumerate(text.splitlines(), 1):
            if len(line) > COLUMNS and not line.startswith("|"):
                yield f"{document}:{number}: the line has {len(line)} columns"


# ---- the figures

def curve(module):
    """the associated constants of a curve's type: its number, its widths, its EIs, and what stands for each EI, as decimals"""
    text = (ROOT / f"crates/curves/src/{module}.rt").read_text()
    limits = dict(re.findall(r"pub const (\w+): [^=]+ = ([^{};]+);", text))
    listed = re.findall(r"(\d+) => \d+,", (ROOT / "crates/curves/src/log_c.rt").read_text())
    rows = [re.findall(r"(\w+): (?:\w+::)?(\S+),", row) for row in re.findall(r"LogC \{([^}]*)\}", text)]
    rows = [{name: limits.get(value, value).replace("_", ".") for name, value in row} for row in rows]
    eis = listed if rows else [limits["EI"]]
    return limits["NUMBER"], limits["WIDTHS"].strip("[]"), ", ".join(eis), dict(zip(eis, rows))


def figures(sources, texts):
    """the tables of FORMAT.md and COMMAND.md that hold figures: the settings, the constants, the matrices and their inverses, the
    bytes of a record and the refusals' numbers are those of the code and of the rules; the top codes that FORMAT.md
    gives are those of the widths in bits; and README.md has the count of settings"""
    curves = [curve("log_c2"), curve("log_c3"), curve("log_c4")]
    record = (ROOT / "crates/rules/specs/Record.antt").read_text()
    code, number, half = (4 + 3 * int(re.search(rf"(?m)^{name} = (\d+)", record)[1]) for name in ("code_bytes", "number_bytes", "half_bytes"))
    refused = re.findall(r"(?m)^number_of \w+ = (\d+)", (ROOT / "crates/rules/specs/Refusal.antt").read_text())
    entries, inverse = ([line.split(", ") for line in re.findall(r"\[(-?\d+, -?\d+, -?\d+)\]", (ROOT / f"crates/{crate}/src/entries.rt").read_text())]
                        for crate in ("aces", "aces_inverse"))
    wanted = {
        ("Curve", "Widths", "EI"): [[n, widths, eis] for n, widths, eis, _ in curves],
        ("Kind", "Bytes"): [["pixel", str(code)], ["scene", str(number)], ["ACES", str(number)], ["half", str(half)]],
        ("EI", *"a b c e f".split()): [[ei] + [row[k] for k in "a b c e f".split()] for ei, row in curves[0][3].items()],
        ("EI", *"cut b c d e f".split()): [
            [ei] + [row[k] for k in "cut b c d e f".split()] for ei, row in curves[1][3].items()],
        ("from red", "from green", "from blue"): entries,
        ("times red", "times green", "times blue"): inverse,
        ("No.",): [[n] for n in refused],
    }
    widths = sorted({int(width) for _, some, *_ in curves for width in some.split(", ")})
    *tops, last = filter(int, (str(top_code(width)) for width in widths))
    if f"{', '.join(tops)} or {last}" not in " ".join(texts[FORMAT].split()):
        yield f"{FORMAT}: the top codes of the widths in bits are {', '.join(tops)} or {last}"
    for name, value in {(k, row[k]) for row in curves[0][3].values() for k in ("cut", "d")}:
        if value not in texts[FORMAT]:
            yield f"{FORMAT}: {name} of curve 2 is {value}"
    count = sum(len(some.split(", ")) * len(eis.split(", ")) for _, some, eis, _ in curves)
    if f"all {count} settings" not in " ".join(texts[README].split()):
        yield f"{README}: there are {count} settings"
    for document in FORMAT, COMMAND:
        for columns, right in wanted.items():
            found = [[row[c] for c in columns] for _, row in rows(document, texts[document]) if {*columns} <= {*row}]
            found = [[re.sub(r"^(\d+), LogC.*|,(?=\d{3})", r"\1", cell) for cell in row] for row in found]
            if columns == ("No.",) and document == COMMAND:
                right = [[n] for n in re.findall(r"number: (\d+), when", sources.tool)]
            if found != right and (found or document == FORMAT):
                yield f"{document}: {' | '.join(columns)}: {[row for row in found if row not in right]} for {right}"


def bounds(sources, texts):
    """a bound that is given as a fraction of a unit is one of the rules', and that of an ACES number is in each of these places"""
    rules = [(ROOT / f"crates/rules/specs/{file}.antt").read_text() for file in ("Decoding", "ExactRow")]
    decoded, aces = ("/".join(re.search(r"(?m)^\w*[tT]olerance = ratio (\d+) (\d+)", text).groups()) for text in rules)
    places = {d: texts[d] for d in (README, FORMAT, COMMAND, PROMISES, BENCHMARKS)}
    for place, text in {**places, "include/ropeinstant.h": sources.installed, "the help": sources.tool}.items():
        said = re.findall(r"(\d+/\d+) of a unit", " ".join(text.split()))
        if aces not in said:
            yield f"{place}: the bound of an ACES number is {aces} of a unit"
        yield from (f"{place}: {figure} of a unit is no bound of the rules" for figure in {*said} - {decoded, aces})


# How far ACES numbers are from one another: what is said, its definition, the form of the sentences that say it, and where there are some beside
# README.md, FORMAT.md, the header and the help.
DISTANCES = (
    ("graded numbers are off by at most", "graded/specs/Graded", "reached", r"(?:within|by at most) (\d+) units? (?:of them|in each channel)", ()),
    ("the tolerant way back finds what is within", "rules/specs/WayBack", "tolerated", r"within (\d+) units(?: of [\w' ]+?)? in every channel", (COMMAND,)),
    ("two pixels differ by at least", "rules/specs/WayBack", "apart", r"differ by at least (\d+) units", (COMMAND,)),
)


def distances(sources, texts):
    """each of the distances is said in each of its places, and is that of the rules or what is proved"""
    for what, file, name, form, more in DISTANCES:
        units = re.search(rf"(?m)^{name} = (\d+)$", (ROOT / f"crates/{file}.antt").read_text())[1]
        places = {**{d: texts[d] for d in (README, FORMAT, *more)}, "include/ropeinstant.h": sources.installed, "the help": sources.tool}
        for place, text in places.items():
            if {*re.findall(form, re.sub(r"[ *\n]+", " ", text))} != {units}:
                yield f"{place}: {what} {units}"


def reels(sources, texts):
    """how many records a reel holds at most, and their bytes, are said as the rules have it"""
    most = int(re.search(r"(?m)^reel_most = (\d+)$", (ROOT / "crates/rules/specs/Reel.antt").read_text())[1])
    code = int(re.search(r"(?m)^code_bytes = (\d+)", (ROOT / "crates/rules/specs/Record.antt").read_text())[1])
    header = f"#define ROPEINSTANT_REEL_RECORDS {most}\n#define ROPEINSTANT_REEL_BYTES {most * (4 + 3 * code)}\n"
    places = {"include/ropeinstant.h": (sources.installed, header), "tool/src/totals.rs": (sources.tool, f"\nconst MOST: usize = {most};\n")}
    places.update((d, (" ".join(texts[d].split()), f"reel of up to {most:,} " if d == README else f"at most {most:,}")) for d in (README, FORMAT, COMMAND))
    for place, (text, words) in places.items():
        if words not in text:
            yield f"{place}: a reel holds {most} records at most"


@functools.lru_cache(maxsize=None)
def read(sources, document, text):
    """what is wrong with the names of a document, the edits that it names, and the proofs that it cites"""
    wrong, edits, cited, row, folder = [], set(), set(), None, None
    for block in blocks(document, text):
        reader = Reader(sources, block, folder if block.line == row else None).read()
        row, folder = block.line, reader.folder
        wrong += reader.wrong
        edits |= reader.edits
        cited |= reader.cited
        wrong += tests(sources, block) if block.column == "Tests" else ()
    return wrong, edits, cited


def complaints(sources, texts):
    wrong = [complaint for document, text in texts.items() for complaint in read(sources, document, text)[0]]
    _, edits, cited = read(sources, PROMISES, texts[PROMISES])
    wrong += surface(sources, blocks(PROMISES, texts[PROMISES]))
    there = [path for path in sources.declared if path.endswith(".edit")]
    wrong += [f"{path} is not named in {PROMISES}" for path in there if path not in edits]
    wrong += [f"{path}: {name} is not in {PROMISES}" for path, name in sources.theorems if (path, name) not in cited]
    held = [(path.split("/")[1], (ROOT / path).read_text()) for path in there]
    wrong += [f"{path} is {there[held.index(edit)]} once more" for path, edit in zip(there, held) if there[held.index(edit)] != path]
    said = re.findall(r"(\d+) must-fail edits", texts[BENCHMARKS])
    if said != [str(len(there))]:
        wrong.append(f"{BENCHMARKS}: there are {len(there)} must-fail edits, not {said}")
    listed = {row.get("Crate", "") for _, row in rows(ARCHITECTURE, texts[ARCHITECTURE])}
    listed = {name for cell in listed for name in re.findall("`([^`]*)`", cell)}
    wrong += [f"crates/{c} is not in {ARCHITECTURE}" for c in sources.crates if c not in listed]
    named = " ".join(" ".join(texts.values()).split())
    wrong += [f"tests/documents.py: no document has `{name}`" for name in ALLOWED if f"`{name}`" not in named]
    return [*wrong, *ids(texts), *links(texts), *long_lines(texts), *figures(sources, texts), *bounds(sources, texts), *distances(sources, texts),
            *reels(sources, texts)]


# ---- the quotations

def quoted(texts, papers):
    """what the columns Sentence and Place quote: each part between `..` is in one of the papers, in this order"""
    found = [b for d, t in texts.items() for b in blocks(d, t) if papers and b.column in ("Sentence", "Place")]
    for block in found:
        for quote in re.findall('"([^"]*)"', block.text):
            parts = [re.escape(p.strip()) for p in quote.split("..")]
            if not any(re.search(".*?".join(parts), paper) for paper in papers):
                yield f'{block.document}:{block.line}: nobody wrote "{quote}"'


# ---- the test of this test

def damaged(sources, texts):
    """copies of the documents, each with one fault, and the word that a complaint about it has to hold"""
    def swap(old, new, document=PROMISES):
        return {**texts, document: texts[document].replace(old, new)}

    def first(column, form, wanted=lambda m: True):
        cells = [re.search(form, b.text) for b in blocks(PROMISES, texts[PROMISES]) if b.column == column]
        return next(m for m in cells if m and wanted(m))

    theorem = first("Proof", r"`(Theorems\.[\w-]+)`")[1]
    crate, edit = first("Edits", r"(\w+) `(\w+)`",
                        lambda m: sources.stands(m[2], [m[1]], ["must-fail"])).groups()
    other = next(c for c in sources.crates if not sources.stands(edit, [c], ["must-fail"]))
    alone = {(f.crate, f.name) for f in sources.functions if not sources.called(f)}
    open_one = first("Open function", r"(\w+) `(\w+)`", lambda m: m.groups() in alone)
    asks = next(f for f in sources.functions if f.public and "requires" in f.contract)
    path = re.search(r"`(include/[\w.]+)`", texts[ARCHITECTURE])[1]
    given, held = re.search(r"`(crates/\S+\.rt)`: `(\w+)`", texts[ARCHITECTURE]).groups()
    sentence = next(row for _, row in rows(PROMISES, texts[PROMISES]) if "Sentence" in row)
    named, place = re.search(r"(`\w+`) in (`crates/\S+\.rt`)", texts[DECISIONS]).groups()
    yield "a theorem renamed", swap(f"`{theorem}`", f"`{theorem}-renamed`"), f"{theorem}-renamed"
    yield "a theorem not cited", swap(f"`{theorem}`", "", PROMISES), f"{theorem.split('.')[1]} is not in {PROMISES}"
    yield "an edit not named", swap(f"`{edit}`", "none"), f"{edit}.edit"
    yield "an edit of another crate", swap(f"{crate} `{edit}`", f"{other} `{edit}`"), f"`{edit}`"
    yield "a path that is not there", swap(f"`{path}`", f"`{path}.no`", ARCHITECTURE), f"{path}.no"
    yield "a name that its path does not hold", swap(f"`{given}`: `{held}`", f"`{given}`: `main`", ARCHITECTURE), "`main` is not in"
    yield "an id without its edits", swap(f"| {sentence['Id']} | {sentence['Sentence']}", f"| D9 | {sentence['Sentence']}"), "D9 has no row"
    yield "a crate that is not listed", swap(f"`{crate}`", "", ARCHITECTURE), f"crates/{crate} is not in"
    yield "another count of edits", swap("must-fail edits", "edits", BENCHMARKS), "must-fail edits"
    yield "a link that leads nowhere", swap("](docs/", "](docs/no/", README), "leads nowhere"
    yield "a heading that is not there", swap("\n## ", "\n## No ", DECISIONS), "leads nowhere"
    yield "a line that is too long", swap("\n\n", "\n\n" + "long " * COLUMNS, README), "columns"
    for figure in "| 10 | a code", "10, 12, 16 |", "10, 12 |", "| 0.005561 |", "| -0.069772 |", "0.391007", "| 680205 |", "| 9 | a float":
        yield f"another figure in {figure}", swap(figure, figure.replace("0", "7").replace("9", "8"), FORMAT), FORMAT
    yield "another top code", swap("1023, ", "1024, ", FORMAT), "the top codes"
    yield "another count of settings", swap(" settings", " curves", README), "settings"
    yield "another bound", swap("51/100 of a unit", "50/100 of a unit", README), "50/100 of a unit is no bound"
    yield "no bound of an ACES number", swap("9/8 of a unit", "a unit", FORMAT), "the bound of an ACES number is 9/8"
    yield "another distance of graded numbers", swap("within 1 unit", "within 2 units", README), "graded numbers are off by at most 1"
    yield "another distance of the tolerant way back", swap("within 5 units", "within 6 units", FORMAT), "finds what is within 5"
    yield "no distance of two pixels", swap("at least 12 units", "12 units", COMMAND), "two pixels differ by at least 12"
    yield "another count of records of a reel", swap("at most 4,096", "at most 4,095", FORMAT), "a reel holds 4096 records"
    yield "another entry of an inverse", swap("| 1666845747229 |", "| 1666845747228 |", FORMAT), FORMAT
    yield "a name of another file", swap(f"{named} in {place}", f"`main` in {place}", DECISIONS), "`main` is not in"
    yield "an open function with a `requires`", swap(open_one[0], f"{asks.crate} `{asks.name}`"), asks.name
    yield "an open function not listed", swap(f"| {open_one[0]} |", "| |"), open_one[2]


def unseen(sources, texts, papers):
    """the faults that this test does not see"""
    before = {*complaints(sources, texts), *quoted(texts, papers)}
    for what, copy, word in damaged(sources, texts):
        if not any(word in c for c in {*complaints(sources, copy)} - before):
            yield f"tests/documents.py does not see {what}"
    if papers and {*quoted({PROMISES: re.sub(r'(?m)^(\| [A-Z][\d.]+ \| [^|"]*")', r'\1no ', texts[PROMISES], count=1)}, papers)} <= before:
        yield "tests/documents.py does not see a sentence that nobody wrote"


def main():
    sources, texts, papers = Sources(), {d: (ROOT / d).read_text() for d in DOCUMENTS}, []
    if sys.argv[1:]:
        papers = [" ".join(p.read_text().split()) for p in sorted(Path(sys.argv[-1]).glob("0[012]-*.md"))]
        if sys.argv[1:-1] != ["--papers"] or len(papers) != 3:
            sys.exit("documents.py [--papers FOLDER], where the folder holds 00-*.md, 01-*.md and 02-*.md")
    wrong = [*unseen(sources, texts, papers), *complaints(sources, texts), *quoted(texts, papers)]
    print("\n".join(wrong + [f"documents: {len(wrong)} wrong"]))
    sys.exit(1 if wrong else 0)


if __name__ == "__main__":
    main()
