#!/usr/bin/env python3
"""command.py PROGRAM [SEED]: try the command `ropeinstant` as a new user would: help, wrong usage, conversions held to the rules of 01
(rules.py), each refusal with its words, and each way in which reading and writing can fail, a full disk and a kill in mid-run among
them. Whatever fails must leave the old output as it was, and no litter that a rerun does not clear."""
import errno, hashlib, json, os, pty, random, re, shutil, signal, subprocess, sys, tempfile, time
from fractions import Fraction
from math import floor
from pathlib import Path

from calls import DONE, FILES, GOOD, LOOKING, NAMES, NOBODY, NO_MATRIX, OLD, PROGRAM, REFUSED, USAGE, begun, call, holds, keeps, limited, litter, until
from binary16 import fields, finite
from decoded import SETTINGS, UNIT, WIDTHS, codes_of
from peak import watched
from reel import reel
from rules import (
    ACES_TO_HALF, ACES_TO_PIXEL, ACES_TO_PIXEL_TOLERANT, GRADED, GRADED_LIMIT, GRADED_TO_PIXEL, GRADED_TO_SCENE, HALF_TO_ACES, HALVES, LIMIT, NUMBERS,
    PIXEL, PIXEL_TO_ACES, PIXEL_TO_SCENE, READ, SCENE_TO_PIXEL, TOLERATED, WAYS_BACK, WRITTEN, convert, judged, numbers,
)
from strips import BEYOND, jobs

CHOSEN = [s for s in SETTINGS if s[:2] != (3, 16) or s[2] == 800]  # one of the eleven with 65536 codes
CHANNELS = "red", "green", "blue"
SUBCOMMANDS = [*dict.fromkeys(name.split()[0] for name in NAMES.values()), *LOOKING]
REFUSALS = {  # of each conversion, in the order in which they are tried
    PIXEL_TO_ACES: "1 3 4 5 12 13 11 6", ACES_TO_PIXEL: "1 3 4 5 12 10", PIXEL_TO_SCENE: "1 3 4 5 13 11 6", SCENE_TO_PIXEL: "1 3 4 5 7",
    ACES_TO_HALF: "1 3 4 5 12", HALF_TO_ACES: "1 3 4 5 12 8", GRADED_TO_PIXEL: "1 3 4 5 12 14", GRADED_TO_SCENE: "1 3 4 5 12 14",
    ACES_TO_PIXEL_TOLERANT: "1 3 4 5 12 10",
}
WHICH_WAY = "to-camera is for an untouched master"  # of what the help says of the ways to codes
NOT_ADDED = "gives sensor values, which cannot be added to scene values: to-scene converts its pixel records"  # how `totals` says refusal 12


# ---- help and wrong usage

def help_and_version():
    status, said, wrong = call("--help")
    assert status == DONE and not wrong and all(f"\n  {name} " in said for name in (*SUBCOMMANDS, "demo")), said
    for words in (
        "160, 200, 250, 320, 400, 500, 640, 800, 1000, 1280, 1600", "one unit is 2^-24", "10  no pixel of the setting",
        "3   the curve is not 2, 3 or 4\n", "12  the curve has no ACES matrix\n", "14  a graded ACES number is outside -2^38 to 2^38\n", "no OpenEXR file",
        WHICH_WAY, "\nto-camera --tolerant is for a master whose numbers another package moved",
    ):
        assert words in said, said
    for name in SUBCOMMANDS:
        for words in ((name, "--help"), (name, "-h"), ("help", name)):
            status, said, wrong = call(*words)
            assert status == DONE and not wrong and f"\nUsage: ropeinstant {name} [OPTIONS]" in said and "Exit status: 0 done" in said, said
    for conversion, numbered in REFUSALS.items():
        said = call(*NAMES[conversion].split(), "--help")[1]
        assert re.findall(r"(?m)^    (\d+) ", said) == numbered.split(), (numbered, said)
        assert ("refuses the whole file:\nkeep its reels apart." in said) == (conversion == PIXEL_TO_ACES), said
        assert ("A HALF FILE IS NO MASTER." in said) == (conversion == ACES_TO_HALF), said
        assert ("within 9/8 of a unit of what the exact curve and matrix give" in said) == (conversion == PIXEL_TO_ACES), said
        assert ("within 51/100 of a unit" in said) == (conversion == PIXEL_TO_SCENE), said
        assert (WHICH_WAY in said) == (conversion in (*WAYS_BACK, *GRADED)), said
        assert ("\n      --tolerant " in said and "within 5 units of these in\nevery channel" in said) == (conversion in WAYS_BACK), said
        assert ("differ from those given by at most 1 unit in each" in said) == (conversion == GRADED_TO_SCENE), said
    assert re.findall(r"(?m)^    (\d+) ", call("totals", "--help")[1]) == REFUSALS[PIXEL_TO_ACES].split()
    status, said, wrong = call("--version")
    assert status == DONE and not wrong and re.fullmatch(r"ropeinstant \d+\.\d+\.\d+\n", said), said
    with open("/dev/full", "wb") as full:
        assert subprocess.run([PROGRAM, "--help"], stdout=full, stderr=subprocess.DEVNULL).returncode == FILES


def wrong_usage(folder):
    source, out = folder / "in", folder / "out"
    source.write_bytes(GOOD)
    for words, saying in (
        ((), "no subcommand"), (("to-acse", source, out), "'to-acse'"), (("to-aces",), "IN OUT"), (("to-aces", source), "IN OUT"),
        (("to-aces", source, out, out), "IN OUT"), (("verify",), "verify [OPTIONS] IN"), (("check",), "check [OPTIONS] ACES"), (("totals",), "totals [OPTIONS] IN"),
        (("to-aces", source, out, "--fast"), "'--fast'"), (("to-aces", source, out, "--threads"), "--threads"),
        (("to-aces", source, out, "--threads", "0"), "1..=256"), (("to-aces", source, out, "--chunk", "many"), "--chunk"),
        (("to-aces", source, "-"), "a pipe cannot promise"), (("to-aces", source, source), "the same file"),
        (("to-aces", source, out, "--tolerant"), "'--tolerant'"), (("check", source, "--tolerant"), "'--tolerant'"),
        (("verify", source, "--pair"), "two names"), (("verify", source, source, "--pair", "--scene"), "'--scene'"),
        (("--help", "more"), "'more'"), (("--version", "more"), "'more'"),
        (("help", "to-aces", "more"), "'more'"), (("to-aces", source, out, out, "--help"), "'"), (("demo", "more"), "'more'"), (("help", "none"), "'none'"),
    ):
        keeps(out, *words, status=USAGE, saying=saying)
        assert source.read_bytes() == GOOD
        pointed = f"Try 'ropeinstant {words[0]} --help'." if words[:1] in (("to-aces",), ("verify",), ("check",), ("totals",), ("demo",)) else "Try 'ropeinstant --help'."
        assert call(*words)[2].endswith(f"{pointed}\n"), (words, call(*words))
    link = folder / "link"
    os.link(source, link)
    keeps(out, "to-aces", source, link, status=USAGE, saying="the same file")
    with open(source, "rb") as file:
        keeps(out, "to-aces", "-", link, status=USAGE, saying="the same file", stdin=file)


def demo(folder):
    """a reel of the settings with a matrix goes to ACES and back, one of the others to scene and back, a damaged copy is refused, and comes back by the
    tolerant way; and nothing stays"""
    status, said, wrong = call("demo", env=dict(os.environ, TMPDIR=str(folder)))
    assert status == DONE and not wrong and not list(folder.iterdir()), (status, said, wrong)
    for words in (
        "A reel of 36 settings", "reel.pixels has 360000 bytes", "reel.aces has 1008000 bytes", "the 22 settings without an ACES matrix",
        "sup2.scene has 616000 bytes", "refused 10", "as it was",
        "ropeinstant to-camera --tolerant damaged.aces back.pixels\n    damaged.aces: moved records: 1 of 36000, the farthest by 1 unit\n",
    ):
        assert words in said, said
    assert said.count("the reel came back, byte for byte") == 3, said


# ---- the rules

def words_of(number, k, conversion, data, twelve=None):
    """what the command says of a refusal, with the conversion's words for 12, or others that are given"""
    record = READ[conversion]
    if number == 1:
        return f"refused 1: the input has {len(data)} bytes, which is not a whole number of records of {record.size} bytes"
    curve, width, ei, *channels = record.unpack_from(data, k * record.size)
    where = f"refused {number}: record {k} (byte {k * record.size}): "
    if number == 13:
        apart = codes_of((curve, width)).step
        name, code = next((name, code) for name, code in zip(CHANNELS, channels) if code % apart)
        return where + f"{name} code {code} is not a multiple of {apart}\n"
    if number in (6, 11):
        first, top = codes_of((curve, width))[0], codes_of((curve, width))[-1]
        name, code = next((name, code) for name, code in zip(CHANNELS, channels) if not first <= code <= top)
        return where + f"{name} code {code} is {f'below {first}' if number == 11 else f'above {top}'}\n"
    if number in (7, 14):
        what, limit = ("scene number", 1099511627776) if number == 7 else ("ACES number", 274877906944)
        name, x = next((name, x) for name, x in zip(CHANNELS, channels) if abs(x) > limit)
        return where + f"{name} {what} {x} is outside -{limit} to {limit}\n"
    if number == 8:
        name, half = next((name, half) for name, half in zip(CHANNELS, channels) if not finite(half))
        sign, _, fraction = fields(half)
        return where + f"{name} half {half:#06x} is {'not a number' if fraction else 'minus infinity' if sign else 'plus infinity'}\n"
    *widths, last = WIDTHS.get(curve, (0,))
    triple = ", ".join(map(str, channels))
    found = f"ACES numbers within 5 units of {triple} in every channel" if conversion == ACES_TO_PIXEL_TOLERANT else f"the ACES numbers {triple}"
    return where + {
        3: f"curve {curve} is not 2, 3 or 4\n",
        4: f"width {width} is not one of curve {curve}'s, which are {', '.join(map(str, widths))} and {last}\n",
        5: f"EI {ei} is not one of curve {curve}'s, which ",
        12: f"curve {curve} {twelve or f'has no ACES matrix{NO_MATRIX[record]}'}\n",
        10: f"no pixel of curve {curve}, width {width}, EI {ei} has {found}\n",
    }[number]


def held_to_rules(folder, pick, table, count):
    """strips, whole and damaged, through files and pipes, with random threads and chunks: how many of each answer"""
    seen = {}
    source, out = folder / "in", folder / "out"
    for conversion, data, _ in listed() + list(jobs(pick, table, tuple(NAMES), count)):
        room = len(data) // READ[conversion].size * WRITTEN[conversion].size
        answer, made = convert(table, conversion, data, bytes(room))
        piped = pick.randrange(2)
        source.write_bytes(data)
        options = f"--threads={pick.randrange(1, 5)}", "--chunk", pick.choice((1, 2, 5, 30, 1000))
        run = *NAMES[conversion].split(), "-" if piped else source, out, *options
        how, number, *at = answer.replace("done", "done 0").split()
        if how == "done":
            options = ("--allow-empty", "--quiet") if not data or conversion == ACES_TO_PIXEL_TOLERANT else ()
            assert call(*run, *options, data=data if piped else None) == (DONE, "", ""), (run, data.hex())
            assert out.read_bytes() == made and not litter(folder), (run, data.hex())
        else:
            saying = f"{'standard input' if piped else source}: {words_of(int(number), int(at[0]), conversion, data)}"
            keeps(out, *run, status=REFUSED, saying=saying, data=data if piped else None)
        cause = "done" if how == "done" else f"refused {number}"
        seen[cause] = seen.get(cause, 0) + 1
    assert all(cause in seen for cause in ("done", *(f"refused {n}" for n in (1, *range(3, 9), *range(10, 15))))), seen
    return dict(sorted(seen.items()))


def listed():
    """an input for each cause, with the refused value after records that pass; an empty one; a cause after a length that is refused first"""
    scene = NUMBERS.pack(3, 12, 800, 0, 0, 0)
    aces = NUMBERS.pack(3, 12, 800, -238167, -283566, -289928)
    of_pixels = [PIXEL.pack(*record) for record in (
        (7, 12, 800, 0, 0, 0), (4, 10, 0, 0, 0, 0), (3, 14, 800, 0, 0, 0), (3, 12, 2000, 0, 0, 0), (4, 12, 800, 0, 0, 0),
        (3, 10, 800, 1023, 1024, 2000), (3, 12, 800, 0, 0, 4096), (4, 12, 0, 65535, 0, 0),
        (3, 140, 800, 256, 256, 256), (4, 140, 800, 256, 256, 256), (4, 140, 0, 256, 255, 0), (4, 140, 0, 3760, 256, 3761), (4, 140, 0, 100, 5000, 256),
        (4, 140, 0, 5000, 100, 256),
        (4, 16, 0, 16, 17, 65535), (4, 16, 0, 65520, 0, 65535), (4, 16, 0, 1, 16, 32), (4, 16, 800, 1, 0, 0), (4, 16, 0, 65520, 0, 16), (3, 16, 800, 17, 65535, 1),
        (2, 12, 800, 0, 538, 4095), (2, 12, 800, 0, 4096, 0), (2, 10, 160, 0, 0, 1024), (2, 16, 800, 0, 0, 0), (2, 140, 0, 300, 300, 300), (2, 12, 0, 4096, 0, 0),
    )]
    tried = [(c, GOOD * 7 + bad + GOOD, b"") for c in (PIXEL_TO_ACES, PIXEL_TO_SCENE) for bad in of_pixels]
    tried += [(SCENE_TO_PIXEL, scene * 3 + NUMBERS.pack(3, 12, 800, 0, x, 0), b"") for x in (LIMIT, LIMIT + 1, -LIMIT - 1, 2 ** 63 - 1)]
    tried += [(c, aces * 3 + NUMBERS.pack(3, 12, 800, -290085, -290085, -290085 + off), b"") for c in WAYS_BACK for off in (0, 1, TOLERATED, TOLERATED + 1)]
    half = HALVES.pack(3, 12, 800, 0x3C00, 0x8000, 0x7BFF)
    tried += [(HALF_TO_ACES, half * 5 + HALVES.pack(*s, *halves), b"") for s, halves in (
        ((3, 12, 800), (0x7BFF, 0x7C00, 0xFFFF)), ((3, 12, 800), (0, 0, 0xFC00)), ((4, 12, 0), (0x7C01, 0, 0)), ((2, 12, 800), (0x7C00, 0, 0)), ((4, 10, 0), (0x7C00, 0, 0)),
    )]
    tried += [(ACES_TO_HALF, aces * 4 + NUMBERS.pack(*s, -2 ** 63, 2 ** 63 - 1, 0), b"") for s in ((3, 12, 800), (2, 12, 800), (3, 12, 2000))]
    end, (low, high) = GRADED_LIMIT, BEYOND
    tried += [(c, aces * 6 + NUMBERS.pack(*s, *triple), b"") for c in GRADED for s, triple in (
        ((3, 12, 800), (end, -end, end)), ((4, 140, 0), (-end, end, -end)), ((4, 16, 0), (high, low, high)), ((3, 12, 800), (0, low, 2 ** 63 - 1)),
        ((3, 10, 800), (end, -end, high)), ((4, 12, 0), (-2 ** 63, 0, 0)), ((3, 16, 800), (0, 0, 2 ** 63 - 1)),
        ((2, 12, 800), (high, 0, 0)), ((2, 12, 0), (high, 0, 0)), ((2, 16, 800), (high, 0, 0)), ((7, 12, 800), (high, 0, 0)),
    )]
    tried += [(c, aces * 3 + NUMBERS.pack(2, 12, 800, 53187, x, 0), b"") for c in (SCENE_TO_PIXEL, *WAYS_BACK) for x in (65554, LIMIT + 1)]
    tried += [(c, b"", b"") for c in NAMES] + [(c, bytes(29), b"") for c in NAMES]
    return tried + [(PIXEL_TO_ACES, of_pixels[0] + GOOD * 40 + b"tail", b"")]


def any_split(folder, pick):
    """the same bytes, and the same first refusal, for any chunk and threads: how many splits"""
    source, out = folder / "in", folder / "out"
    whole = b"".join(reel(pick, 60000))
    damaged = bytearray(whole)
    for k in (31234, 31300, 59999):
        damaged[PIXEL.size * k] = 9
    splits = [(chunk, threads) for chunk in (1, 7, 1000, 16384, 1000000) for threads in (1, 2, 7)]
    sums = set()
    for chunk, threads in splits:
        run = "to-aces", source, out, "--chunk", chunk, "--threads", threads
        source.write_bytes(whole)
        assert call(*run) == (DONE, "", "")
        sums.add(hashlib.sha256(out.read_bytes()).digest())
        source.write_bytes(damaged)
        keeps(out, *run, status=REFUSED, saying="refused 3: record 31234 (byte 312340): curve 9 is not 2, 3 or 4\n")
    assert len(sums) == 1
    source.write_bytes(whole)
    assert call("to-aces", source, out) == (DONE, "", "") and {hashlib.sha256(out.read_bytes()).digest()} == sums
    assert call("to-camera", out, folder / "back") == (DONE, "", "") and (folder / "back").read_bytes() == whole
    return len(splits)


def verified(folder, pick):
    source = folder / "in"
    for data in b"", GOOD, b"".join(reel(pick, 100000)):
        source.write_bytes(data)
        said = f"{len(data) // PIXEL.size} records come back the same\n"
        assert call("verify", source)[:2] == (DONE, f"{source}: {said}")
        assert call("verify", "-", "--allow-empty", data=data)[:2] == (DONE, f"standard input: {said}")
    source.write_bytes(GOOD * 5 + b"\3\14")
    holds(call("verify", source), REFUSED, "refused 1: the input has 52 bytes")
    source.write_bytes(GOOD * 5 + PIXEL.pack(3, 10, 800, 0, 0, 1024))
    holds(call("verify", source), REFUSED, "refused 6: record 5 (byte 50): blue code 1024 is above 1023\n")
    assert sorted(p.name for p in folder.iterdir()) == ["in"]


def mean_of(total, records):
    """the mean scene value of a channel: to nine places the nearest decimal, of two the higher"""
    size = floor(Fraction(total * 10 ** 9, records * UNIT) + Fraction(1, 2))
    return f"{'-' if size < 0 else ''}{abs(size) // 10 ** 9}.{abs(size) % 10 ** 9:09}"


def totals_of(rows):
    """what `totals` says of records with these scene numbers, as words and as JSON"""
    count, sums = len(rows), [sum(column) for column in zip((0, 0, 0), *rows)]
    means = [mean_of(total, count) if count else None for total in sums]
    lines = [f"{count} records"]
    for name, total, mean in zip(CHANNELS, sums, means):
        lines.append(f"    {name:5}  sum {total} units, {f'mean scene value {mean}' if mean else 'no mean, since there is no record'}")
    as_json = {"records": count, "sums": dict(zip(CHANNELS, map(str, sums))), "means": dict(zip(CHANNELS, means))}
    return "\n".join(lines) + "\n", as_json


def totalled(folder, pick, table):
    """totals: strips, whole and damaged, by files and pipes, are added up or refused as the rules say; of reels longer than the library's the sums are
    those of what to-scene writes, and the first refusal is the same, for any split: how many of each answer"""
    source, scene, seen = folder / "in", folder / "out", {}
    strips = [data for c, data, _ in listed() + list(jobs(pick, table, (PIXEL_TO_ACES,), 150)) if c == PIXEL_TO_ACES]
    for data in strips:
        answer, _ = convert(table, PIXEL_TO_ACES, data, bytes(len(data) // PIXEL.size * NUMBERS.size))
        piped = pick.randrange(2)
        source.write_bytes(data)
        name, more = ("standard input", {"data": data}) if piped else (source, {})
        run = "totals", "-" if piped else source, f"--threads={pick.randrange(1, 5)}", "--chunk", pick.choice((1, 2, 5, 30, 1000))
        how, number, *at = answer.replace("done", "done 0").split()
        if how == "done":
            rows = [judged(table, record)[1] for record in (data[k:k + PIXEL.size] for k in range(0, len(data), PIXEL.size))]
            words, value = totals_of(rows)
            status, said, wrong = call(*run, "--allow-empty", **more)
            assert (status, said, wrong) == (DONE, f"{name}: {words}", "" if data else f"{name}: it is empty: 0 records\n"), (run, data.hex(), said, wrong)
            got = json.loads(call(*run, "--allow-empty", "--json", **more)[1])
            assert got == {**value, "command": "totals", "file": str(name), "manifest": False, "status": DONE}, got
        else:
            holds(call(*run, **more), REFUSED, f"{name}: {words_of(int(number), int(at[0]), PIXEL_TO_ACES, data, NOT_ADDED)}")
        cause = "done" if how == "done" else f"refused {number}"
        seen[cause] = seen.get(cause, 0) + 1
    assert all(cause in seen for cause in ("done", *(f"refused {n}" for n in REFUSALS[PIXEL_TO_ACES].split()))), seen
    holds(call("totals", "-", data=b""), FILES, "nothing is done without --allow-empty")
    for records in 4095, 4096, 4097, 50000:
        data = b"".join(reel(pick, records))
        source.write_bytes(data)
        assert call("to-scene", source, scene) == (DONE, "", "")
        words, _ = totals_of([record[3:] for record in NUMBERS.iter_unpack(scene.read_bytes())])
        damaged = bytearray(data)
        for k in records - 1, records // 2, records * 2 // 3:
            damaged[PIXEL.size * k] = 9
        for split in ("--threads=1",), ("--threads=3", "--chunk=7"), ("--chunk=5000",), ("--chunk=100000", "--threads=2"), ():
            source.write_bytes(data)
            assert call("totals", source, *split) == (DONE, f"{source}: {words}", ""), (records, split)
            source.write_bytes(damaged)
            holds(call("totals", source, *split), REFUSED, f"refused 3: record {records // 2} (byte {PIXEL.size * (records // 2)}): curve 9 is not 2, 3 or 4\n")
    source.write_bytes(GOOD)
    (folder / "bad").write_bytes(GOOD + b"tail")
    status, said, wrong = call("totals", source, folder / "bad", source)
    assert status == REFUSED and said.count("red    sum -213758 units, mean scene value -0.012740970\n") == 2 and "refused 1: " in wrong, (said, wrong)
    assert said.endswith("3 files: 2 held, 1 refused, 0 could not be read\n") and call("totals", source, "--quiet") == (DONE, "", ""), said
    (folder / "shot.aces").write_bytes(GOOD)
    holds(call("totals", folder / "shot.aces"), USAGE, "is named as ACES records, and pixel records are read here")
    return dict(sorted(seen.items()))


# ---- standard input and the terminal

def dripped(folder, pick):
    """a pipe that gives its bytes in odd pieces"""
    data, out = b"".join(reel(pick, 3000)), folder / "out"
    run = subprocess.Popen([PROGRAM, "to-aces", "-", out, "--chunk", "50"], stdin=subprocess.PIPE)
    for begin in range(0, len(data), 777):
        run.stdin.write(data[begin:begin + 777])
        run.stdin.flush()
    run.stdin.close()
    assert run.wait() == DONE
    (folder / "in").write_bytes(data)
    with open(folder / "in", "rb") as file:
        assert call("to-aces", "-", folder / "other", stdin=file) == (DONE, "", "")
    assert out.read_bytes() == (folder / "other").read_bytes() and len(out.read_bytes()) == 3000 * NUMBERS.size


def bar(folder, pick):
    """a bar with rate and time left on a terminal; every other run of these tests shows that it is absent elsewhere"""
    (folder / "in").write_bytes(b"".join(reel(pick, 200000)))
    master, slave = pty.openpty()
    run = subprocess.Popen([PROGRAM, "verify", folder / "in", "--threads", "1", "--chunk", "1"], stdout=subprocess.PIPE, stderr=slave)
    os.close(slave)
    shown = b""
    while True:
        try:
            shown += os.read(master, 4096)
        except OSError:  # the terminal's other end is closed
            break
    os.close(master)
    assert run.communicate()[0].endswith(b": 200000 records come back the same\n") and run.returncode == DONE
    assert re.search(rb"verify \[#*\.*\] \d+% of \d\.\d+ MiB, \d+\.\d+ [KM]iB/s, \d+m?s left", shown), shown
    assert shown.endswith(b"\x1b[2K"), shown


# ---- reading and writing that fails

def unreadable(folder):
    source, out = folder / "in", folder / "out"
    keeps(out, "to-aces", folder / "none", out, status=FILES, saying="none: cannot read: No such file")
    keeps(out, "to-aces", folder, out, status=FILES, saying="it is a folder")
    keeps(out, "to-aces", "/proc/self/mem", out, status=FILES, saying="/proc/self/mem: cannot read: Input/output error")
    source.write_bytes(GOOD)
    holds(call("to-aces", source, folder / "none" / "out"), FILES, "its folder: No such file")
    holds(call("to-aces", source, folder), FILES, "it is a folder")
    holds(call("to-aces", source, "/dev/full"), FILES, "it is not a regular file")
    os.mkfifo(folder / "fifo")
    holds(call("to-aces", source, folder / "fifo"), FILES, "it is not a regular file")
    holds(call("to-aces", source, ""), USAGE, "[OUT]")
    holds(call("to-aces", source, f"{folder}/new/"), FILES, "there is no such folder")
    holds(call("to-aces", source, "/proc/out"), FILES, "/proc/out: cannot write")
    holds(call("to-aces", source, folder / ("x" * 256)), FILES, "File name too long")
    assert not litter(folder)


def forbidden(folder):
    """what a user may not read or write, tried as a user without privileges"""
    program, source, secret, out = (folder / name for name in ("program", "in", "secret", "out"))
    shutil.copy(PROGRAM, program)
    folder.chmod(0o777)
    for path, data, mode in ((source, GOOD, 0o444), (secret, GOOD, 0o000), (out, OLD, 0o444)):
        path.write_bytes(data)
        path.chmod(mode)
    closed = folder / "closed"
    closed.mkdir(mode=0o555)
    for words, saying in (
        ((secret, folder / "new"), "secret: cannot read: Permission denied"), ((source, out), "out: cannot write: Permission denied"),
        ((source, closed / "new"), "a new file beside it: Permission denied"),
    ):
        run = subprocess.run([program, "to-aces", *words], capture_output=True, **NOBODY)
        assert run.returncode == FILES and saying in run.stderr.decode(), run
    assert out.read_bytes() == OLD and not litter(folder) and not (folder / "new").exists() and not list(closed.iterdir())
    closed.chmod(0o755)


def links_and_modes(folder):
    """an output that is a link stays one, and its file is replaced; a link to nothing is refused; the old file's mode is kept"""
    source, real, link = folder / "in", folder / "real", folder / "link"
    source.write_bytes(GOOD)
    real.write_bytes(OLD)
    real.chmod(0o640)
    link.symlink_to("real")
    assert call("to-aces", source, link) == (DONE, "", "")
    assert link.is_symlink() and len(real.read_bytes()) == NUMBERS.size and real.stat().st_mode & 0o777 == 0o640
    real.unlink()
    holds(call("to-aces", source, link), FILES, "a link to a file that does not exist")
    assert not real.exists() and not litter(folder)
    assert call("to-aces", "in", "-out", cwd=folder)[0] == USAGE
    assert call("to-aces", "--", "in", "-out", cwd=folder) == (DONE, "", "") and len((folder / "-out").read_bytes()) == NUMBERS.size


def full_disk(folder, pick):
    """a limit on the size of files, and a small file system where one can be mounted: whether it could"""
    source, out, small = folder / "in", folder / "out", folder / "small"
    source.write_bytes(b"".join(reel(pick, 100000)))
    keeps(out, "to-aces", source, out, status=FILES, saying="File too large", preexec_fn=limited(fsize=1 << 20))
    assert call("to-aces", source, out) == (DONE, "", "") and not litter(folder)
    small.mkdir()
    if subprocess.run(["mount", "-t", "tmpfs", "-o", "size=1m", "tmpfs", small], capture_output=True).returncode:
        return False
    try:
        keeps(small / "out", "to-aces", source, small / "out", status=FILES, saying="No space left on device")
        source.write_bytes(GOOD)
        assert call("to-aces", source, small / "out") == (DONE, "", "") and len((small / "out").read_bytes()) == NUMBERS.size
    finally:
        subprocess.run(["umount", small], check=True)
    return True


def killed(folder, pick):
    """a kill in mid-run, of a file's conversion and of a pipe's: the old output stays, and a rerun succeeds and clears the litter"""
    source, out = folder / "in", folder / "out"
    with open(source, "wb") as file:
        for run in reel(pick, 3000000):
            file.write(run)
    out.write_bytes(OLD)
    for words, stdin in ((source, None), ("-", subprocess.PIPE)):
        run = subprocess.Popen([PROGRAM, "to-aces", words, out, "--threads", "1", "--chunk", "1"], stdin=stdin)
        if stdin:
            run.stdin.write(GOOD * 100000)
            run.stdin.flush()
        until(lambda: begun(folder))
        run.kill()
        assert run.wait() == -signal.SIGKILL, "it ended before the kill"
        if stdin:
            run.stdin.close()
        assert out.read_bytes() == OLD and len(litter(folder)) == 1
        (folder / "little").write_bytes(GOOD)
        assert call("to-aces", folder / "little", out) == (DONE, "", "")
        assert len(out.read_bytes()) == NUMBERS.size and not litter(folder)
        out.write_bytes(OLD)


def at_once(folder):
    """two runs to one output: the file of the one that still runs is left alone, and each ends well"""
    out = folder / "out"
    run = subprocess.Popen([PROGRAM, "to-aces", "-", out, "--chunk", "10"], stdin=subprocess.PIPE)
    run.stdin.write(GOOD * 1000)
    run.stdin.flush()
    until(lambda: begun(folder))
    assert call("to-aces", "-", out, data=GOOD) == (DONE, "", "") and len(out.read_bytes()) == NUMBERS.size and len(litter(folder)) == 1
    run.stdin.close()
    assert run.wait() == DONE and len(out.read_bytes()) == 1000 * NUMBERS.size and not litter(folder)


def changed(folder):
    """an input that grows while it is read is no input that was converted"""
    source, out = folder / "in", folder / "out"
    source.write_bytes(GOOD * 600000)
    out.write_bytes(OLD)
    run = subprocess.Popen([PROGRAM, "to-aces", source, out, "--chunk=1", "--threads=1"], stderr=subprocess.PIPE)
    until(lambda: begun(folder))
    with open(source, "ab") as file:
        file.write(GOOD)
    said = run.communicate()[1].decode()
    assert run.returncode == FILES and "has changed while it was read" in said, (run.returncode, said)
    assert out.read_bytes() == OLD and not litter(folder)


def injected(folder):
    """calls that fail (faults.c), and the order of those that keep the output: the file is flushed, renamed, and the folder flushed"""
    shim, notes, source, out = folder / "faults.so", folder / "notes", folder / "in", folder / "out"
    subprocess.run(["gcc", "-O1", "-Wall", "-Werror", "-shared", "-fPIC", Path(__file__).parent / "faults.c", "-o", shim, "-ldl"], check=True)
    source.write_bytes(GOOD * 10000)

    def under(**more):
        return dict(os.environ, LD_PRELOAD=str(shim), **more)

    assert call("to-aces", source, out, env=under(NOTES=str(notes))) == (DONE, "", "")
    assert notes.read_text() == "fsync file\nrename\nfsync folder\n", notes.read_text()
    for fault, error, saying in (
        ("read:1", errno.EIO, "cannot read"), ("read:5", errno.EIO, "Input/output error"), ("pwrite:1", errno.ENOSPC, "No space left on device"),
        ("pwrite:7", errno.EDQUOT, "Disk quota exceeded"), ("fsync:1", errno.EIO, "Input/output error"), ("rename:1", errno.EACCES, "Permission denied"),
        ("fallocate:1", errno.ENOSPC, "No space left on device"),
    ):
        keeps(out, "to-aces", source, out, "--chunk=1000", status=FILES, saying=saying, env=under(FAULT=f"{fault}:{error}"))
    assert call("to-aces", source, out, env=under(FAULT=f"fallocate:1:{errno.EOPNOTSUPP}")) == (DONE, "", "")  # a file system that gives no room
    for fault in "read:3", "pwrite:3", "fallocate:1":  # interrupted: it goes on
        assert call("to-aces", source, out, "--chunk=1000", env=under(FAULT=f"{fault}:{errno.EINTR}")) == (DONE, "", "")
        assert len(out.read_bytes()) == 10000 * NUMBERS.size
    assert call("to-aces", source, out, env=under(FAULT=f"fsync:2:{errno.EINVAL}")) == (DONE, "", "")  # a file system that flushes no folder
    holds(call("to-aces", source, out, env=under(FAULT=f"fsync:2:{errno.EIO}")), FILES, "its folder could not be flushed")
    assert not litter(folder)


def bounded(folder, pick):
    """the peak memory of a run over a file of 30 MB with two threads, in MB"""
    with open(folder / "in", "wb") as file:
        for run in reel(pick, 3000000):
            file.write(run)
    status, most = watched([PROGRAM, "to-aces", folder / "in", folder / "out", "--threads", "2"])
    assert status == DONE and 1000 < most < 10000, most
    return most / 1000


def main():
    begin = time.time()
    pick = random.Random(int(sys.argv[2]) if len(sys.argv) > 2 else 1)
    table = {s: numbers(s) for s in CHOSEN}

    def apart(test, *more):
        with tempfile.TemporaryDirectory() as folder:
            return test(Path(folder), *more)

    help_and_version()
    apart(wrong_usage)
    apart(demo)
    print("command: help and version, and wrong usage, which touches no file")
    print(f"command: converted or refused as the rules say, in words, by files and pipes: {apart(held_to_rules, pick, table, 500)}")
    print(f"command: scene numbers are added up or refused as the rules say: {apart(totalled, pick, table)}")
    print(f"command: the same bytes, and the same first refusal, in {apart(any_split, pick)} splits of chunk and threads")
    for test in verified, dripped, bar, full_disk, killed:
        answer = apart(test, pick)
        if test is full_disk:
            print(f"command: a full disk: by a limit on files{', and a small file system' if answer else ' (no file system could be mounted)'}")
    for test in unreadable, forbidden, links_and_modes, at_once, changed, injected:
        apart(test)
    print("command: whatever fails, a kill among them, leaves the old output and no litter that a rerun does not clear")
    print(f"command: a peak of {apart(bounded, pick):.1f} MB for a file of 30 MB; {time.time() - begin:.0f} s in all")


if __name__ == "__main__":
    main()
