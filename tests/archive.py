#!/usr/bin/env python3
"""archive.py PROGRAM [TEST..]: what an archive does with its masters by the command: check, inspect and verify them, several at once too, and hold them to their manifests;
with half floats, which are no master; with masters that another package moved by a few units, and with graded ones, which the exact way back refuses;
and with reels of older firmware, which have no master."""
import hashlib, json, random

from binary16 import units_of
from calls import DONE, FILES, GOOD, NO_MATRIX, OLD, REFUSED, USAGE, begin, begun, call, each, holds, keeps, litter, until
from reel import reel, run
from rules import GRADED_TO_PIXEL, HALVES, NUMBERS, PIXEL, TOLERATED, WITHOUT_MATRIX, convert, numbers
from strips import nudged

ACES = NUMBERS.pack(3, 12, 800, -238167, -283566, -289928)  # of GOOD
OTHER = PIXEL.pack(3, 12, 800, 101, 0, 0)
BAD = PIXEL.pack(3, 10, 800, 0, 1024, 0)  # refused by 6


def made(folder, name="shot", records=40000, options=()):
    """a reel and its master"""
    pixels, aces = folder / f"{name}.pixels", folder / f"{name}.aces"
    pixels.write_bytes(b"".join(reel(random.Random(1), records)))
    assert call("to-aces", pixels, aces, *options) == (DONE, "", "")
    return pixels, aces


def damaged(path, to, byte):
    """a copy with one bit of a byte changed"""
    data = bytearray(path.read_bytes())
    data[byte] ^= 1
    to.write_bytes(data)
    return to


def lines(got):
    """the objects that `--json` gave"""
    return [json.loads(line) for line in got[1].splitlines()]


def checked(folder):
    """check: every record comes from a pixel, or the first that does not is named; several files, summed up; nothing is written"""
    _, aces = made(folder)
    assert call("check", aces) == (DONE, f"{aces}: 40000 records, each from a pixel\n", "")
    assert call("check", "-", data=aces.read_bytes())[:2] == (DONE, "standard input: 40000 records, each from a pixel\n")
    bad = damaged(aces, folder / "bad.aces", NUMBERS.size * 31000 + 4)
    before = sorted(folder.iterdir())
    for options in (), ("--chunk=7", "--threads=3"):
        status, said, wrong = call("check", bad, *options)
        assert status == REFUSED and not said and wrong.startswith(f"{bad}: refused 10: record 31000 (byte {NUMBERS.size * 31000}): no pixel of curve "), wrong
    status, said, wrong = call("check", aces, bad, folder / "none.aces", aces)
    assert status == REFUSED and said.endswith("4 files: 2 held, 1 refused, 1 could not be read\n") and len(wrong.splitlines()) == 2, (said, wrong)
    assert call("check", aces, folder / "none.aces")[0] == FILES
    assert call("check", aces, bad, "--quiet")[:2] == (REFUSED, "")
    first, second, total = lines(call("check", aces, bad, "--json"))
    assert (first["file"], first["records"], first["status"]) == (str(aces), 40000, DONE)
    assert (second["refusal"]["number"], second["refusal"]["record"], second["refusal"]["byte"], second["status"]) == (10, 31000, NUMBERS.size * 31000, REFUSED)
    assert (total["files"], total["held"], total["refused"], total["failed"], total["status"]) == (2, 1, 1, 0, REFUSED)
    assert sorted(folder.iterdir()) == before


def held_to_master(folder):
    """verify PIXELS ACES: that this master gives these pixels; and several pixel files, summed up"""
    pixels, aces = made(folder)
    assert call("verify", pixels, aces) == (DONE, f"{pixels}: 40000 records are what {aces} gives\n", "")
    plain, reel_of = folder / "master", folder / "reel"
    plain.write_bytes(aces.read_bytes())
    reel_of.write_bytes(pixels.read_bytes())
    for words in ((reel_of, plain), (reel_of, plain, "--pair"), ("-", aces)):  # the records of a master can be no pixels
        assert call("verify", *words, "--chunk=100", data=pixels.read_bytes())[0] == DONE, words
    wrong_pixels = damaged(pixels, folder / "wrong.pixels", PIXEL.size * 25000 + 4)
    status, said, wrong = call("verify", wrong_pixels, aces, "--threads=4", "--chunk=50")
    assert status == REFUSED and not said and wrong == f"{wrong_pixels}: differs: record 25000 (byte 250000) is not what {aces} gives there\n", wrong
    wrong_aces = damaged(aces, folder / "wrong.aces", NUMBERS.size * 25000 + 4)
    holds(call("verify", pixels, wrong_aces), REFUSED, f"{wrong_aces}: refused 10: record 25000 (byte {NUMBERS.size * 25000})")
    short, long = folder / "short.pixels", folder / "long.pixels"
    short.write_bytes(pixels.read_bytes()[:-PIXEL.size])
    holds(call("verify", short, aces), REFUSED, f"{short}: differs: it has 39999 records, and {aces} has 40000")
    long.write_bytes(pixels.read_bytes() + GOOD)
    holds(call("verify", long, aces), REFUSED, f"{long}: differs: record 40000 (byte 400000) is not what {aces} gives there")
    for words in ((pixels, reel_of), (pixels, pixels, pixels)):
        status, said, wrong = call("verify", *words)
        assert status == DONE and said.count(" 40000 records come back the same\n") == len(words) and f"{len(words)} files: {len(words)} held" in said, said
    (folder / "bad.pixels").write_bytes(BAD)
    status, said, wrong = call("verify", folder / "bad.pixels", pixels)
    assert status == REFUSED and "2 files: 1 held, 1 refused, 0 could not be read\n" in said and "bad.pixels: refused 6: record 0" in wrong, (said, wrong)


def manifests(folder):
    """a manifest says kind, records, settings and sums; what does not hold to it is refused; one that is there is written anew"""
    pixels, aces = made(folder, options=("--manifest",))
    listed = folder / "shot.aces.manifest"
    value = json.loads(listed.read_text())
    assert (value["kind"], value["records"], value["bytes"], value["record_bytes"]) == ("ACES", 40000, 40000 * NUMBERS.size, NUMBERS.size)
    assert value["sha256"] == hashlib.sha256(aces.read_bytes()).hexdigest()
    assert value["from"] == {"kind": "pixel", "bytes": 400000, "sha256": hashlib.sha256(pixels.read_bytes()).hexdigest()}
    counts = {}
    for record in PIXEL.iter_unpack(pixels.read_bytes()):
        counts[record[:3]] = counts.get(record[:3], 0) + 1
    assert {(s["curve"], s["width"], s["ei"]): s["records"] for s in value["settings"]} == counts
    for words in (("check", aces), ("verify", pixels, aces)):
        status, said, wrong = call(*words)
        assert status == DONE and said.endswith(", and it is as its manifest says\n") and not wrong, (said, wrong)
    back = folder / "back.pixels"
    assert call("to-camera", aces, back, "--manifest") == (DONE, "", "") and back.read_bytes() == pixels.read_bytes()
    assert json.loads((folder / "back.pixels.manifest").read_text())["from"]["sha256"] == value["sha256"]
    assert call("totals", back)[1].startswith(f"{back}: 40000 records, and it is as its manifest says\n    red    sum ")

    # ACES records as scene records would give wrong codes: by its manifest, and by its name where it has none
    keeps(folder / "out", "from-scene", aces, folder / "out", status=REFUSED, saying=f"{aces}: differs: {listed} says that it holds ACES records")
    keeps(folder / "out", "from-scene", aces, folder / "out", "--no-manifest", status=USAGE, saying=f"{aces} is named as ACES records")
    assert call("from-scene", aces, folder / "out", "--no-manifest", "--kind", "scene")[0] == DONE

    # a record that gives another pixel: only the sum tells
    data = aces.read_bytes()
    another = folder / "another"
    another.write_bytes(OTHER)
    assert call("to-aces", another, folder / "record") == (DONE, "", "")
    aces.write_bytes(data[:NUMBERS.size] + (folder / "record").read_bytes() + data[2 * NUMBERS.size:])
    assert call("check", aces, "--no-manifest")[0] == DONE
    for words in (("check", aces), ("verify", pixels, aces, "--pair")):
        assert call(*words)[0] == REFUSED, words
    holds(call("check", aces), REFUSED, f"{aces}: differs: {listed} says SHA-256 {value['sha256']}, and it has ")
    keeps(back, "to-camera", aces, back, status=REFUSED, saying="differs: ")
    aces.write_bytes(data[:-NUMBERS.size])
    holds(call("check", aces), REFUSED, "says 40000 records, and it has 39999")
    aces.write_bytes(data)
    holds(call("verify", back, aces), REFUSED, "")
    back.write_bytes(pixels.read_bytes())
    (folder / "back.pixels.manifest").unlink()
    assert call("verify", back, aces)[0] == DONE

    listed.write_text(json.dumps(dict(value, **{"from": dict(value["from"], sha256="0" * 64)})))
    holds(call("verify", back, aces), REFUSED, f"{back}: differs: {listed} says that the master was made from another file")

    # a manifest that is there stays true; one that cannot be read is a failure
    pixels.write_bytes(GOOD)
    status, _, wrong = call("to-aces", pixels, aces)
    assert status == DONE and wrong == f"{listed}: it was there, and is written anew\n", wrong
    assert json.loads(listed.read_text())["records"] == 1 and call("check", aces)[0] == DONE
    listed.write_text("{}")
    for name in ("check", aces), ("to-camera", aces, folder / "out"):
        holds(call(*name), FILES, f"{listed}: it is not a manifest")
    assert not litter(folder)


def unreplaced(folder):
    """--no-clobber: no file is replaced, not even one that appears while the run is at work"""
    source, out = folder / "in", folder / "out"
    source.write_bytes(GOOD * 300000)
    keeps(out, "to-aces", source, out, "--no-clobber", status=FILES, saying=f"{out}: cannot write: it is there")
    out.unlink()
    (folder / "out.manifest").write_bytes(OLD)
    holds(call("to-aces", source, out, "--no-clobber", "--manifest"), FILES, "out.manifest: cannot write: it is there")
    (folder / "out.manifest").unlink()
    run = begin("to-aces", source, out, "--no-clobber", "--chunk=1", "--threads=1")
    until(lambda: begun(folder))
    out.write_bytes(OLD)
    said = run.communicate()[1].decode()
    assert run.returncode == FILES and said == f"{out}: cannot write: File exists\n" and out.read_bytes() == OLD and not litter(folder), said
    out.unlink()
    assert call("to-aces", source, out, "--no-clobber", "--json", "--manifest")[0] == DONE and out.stat().st_size == 8400000


def inspected(folder):
    """inspect: the kind by option, manifest, name or records; settings with counts, ranges and the first refusal"""
    pixels, aces = made(folder)
    counts, ranges = {}, [[], [], []]
    for curve, width, ei, *codes in PIXEL.iter_unpack(pixels.read_bytes()):
        counts[curve, width, ei] = counts.get((curve, width, ei), 0) + 1
        for seen, code in zip(ranges, codes):
            seen.append(code)
    plain = folder / "plain"

    def seen(*words):
        got = call("inspect", *words, "--json")
        value = lines(got)[0]
        assert value["status"] == got[0]
        return value["known_by"], {view["kind"]: view for view in value["as"]}

    for name, by in ((pixels, "name"), (plain, "records")):
        plain.write_bytes(pixels.read_bytes())
        known, views = seen(name)
        assert known == by and list(views) == ["pixel"], views
        view = views["pixel"]
        assert (view["bytes"], view["records"], view["refusal"]) == (400000, 40000, None)
        assert {(s["curve"], s["width"], s["ei"]): s["records"] for s in view["settings"]} == counts
        assert [view["ranges"][channel] for channel in ("red", "green", "blue")] == [[min(r), max(r)] for r in ranges]
    plain.write_bytes(aces.read_bytes())
    known, views = seen(plain)
    assert (known, sorted(views)) == ("records", ["ACES", "scene"]) and not any(view["refusal"] for view in views.values())
    assert seen(plain, "--kind", "aces")[0] == "option"
    plain.write_bytes(GOOD * 3 + BAD + b"\x09" + GOOD)
    known, views = seen(plain, "--kind", "pixel")
    assert views["pixel"]["refusal"]["number"] == 1 and views["pixel"]["records"] == 5
    plain.write_bytes(GOOD * 3 + BAD + bytes(PIXEL.size) + GOOD)
    status, said, wrong = call("inspect", plain, "--kind", "pixel")
    assert status == REFUSED and "refused 6: record 3 (byte 30): green code 1024 is above 1023" in said and "no setting that there is         1 records" in said, said
    status, said, wrong = call("inspect", plain)
    assert status == REFUSED and "refused as each kind" in said, said
    plain.write_bytes(GOOD * 3 + BAD)
    status, said, wrong = call("inspect", plain)
    assert status == REFUSED and said.startswith(f"{plain}: refused as each kind\n") and "green code 1024 is above 1023" in said, said
    plain.write_bytes(GOOD * 3)
    status, said, wrong = call("inspect", plain)
    assert status == DONE and said.startswith(f"{plain}: pixel records, as its length and settings allow (half records look alike: --kind half)\n"), said
    holds(call("inspect", "-", data=GOOD), USAGE, "--kind")
    status, said, wrong = call("inspect", "-", "--kind=pixel", data=GOOD)
    assert status == DONE and said.endswith("\n    nothing is refused\n") and "matrix" not in said, said
    assert call("to-aces", pixels, folder / "master", "--manifest")[0] == DONE and seen(folder / "master")[0] == "manifest"
    assert call("inspect", pixels, aces)[1].endswith("2 files: 2 held, 0 refused, 0 could not be read\n")


def halves(folder):
    """a master goes to half floats and back; the same halves come again, and no pixels: a half file is no master"""
    pixels, aces = made(folder)
    half, read, again, back = (folder / name for name in ("shot.half", "read.aces", "again.half", "back.pixels"))
    assert call("to-half", aces, half, "--manifest") == (DONE, "", "") and half.stat().st_size == pixels.stat().st_size
    assert call("from-half", half, read) == (DONE, "", "") and call("to-half", read, again) == (DONE, "", "")
    assert again.read_bytes() == half.read_bytes() and read.read_bytes() != aces.read_bytes()
    keeps(back, "to-camera", read, back, status=REFUSED, saying=f"{read}: refused 10: record ")
    keeps(aces, "to-half", read, aces, status=USAGE, saying=f"{aces} is named as ACES records, and half records would be written there")
    keeps(back, "to-camera", again, back, status=USAGE, saying="is named as half records, and ACES records are read here")
    keeps(back, "to-camera", half, back, status=REFUSED, saying="says that it holds half records, and ACES records are read")
    holds(call("check", read), REFUSED, f"{read}: refused 10: ")
    view = lines(call("inspect", half, "--json"))[0]["as"][0]
    units = [units_of(red) for _, _, _, red, _, _ in HALVES.iter_unpack(half.read_bytes())]
    assert (view["kind"], view["records"], view["refusal"], view["ranges"]["red"]) == ("half", 40000, None, [min(units), max(units)]), view
    again.write_bytes(half.read_bytes()[:20] + HALVES.pack(3, 12, 800, 0x3C00, 0xFC00, 0x7E00))
    out = folder / "out"
    keeps(out, "from-half", again, out, status=REFUSED, saying=f"{again}: refused 8: record 2 (byte 20): green half 0xfc00 is minus infinity\n")
    status, said, _ = call("inspect", again)
    assert status == REFUSED and said.startswith(f"{again}: half records, as its name says\n    30 bytes, 3 records\n") and "red halves, in units" in said, said
    assert said.endswith("refused 8: record 2 (byte 20): green half 0xfc00 is minus infinity\n"), said


def changed_by(aces, to, change):
    """a copy of a master with each record's triple changed"""
    to.write_bytes(b"".join(NUMBERS.pack(*record[:3], *change(record[3:])) for record in NUMBERS.iter_unpack(aces.read_bytes())))


def nudged_master(folder):
    """a master that another package moved by five units or less comes back by the tolerant way, which says how many records were moved, and how far; the
    exact way refuses it; an unmoved one comes back the same by either way; and what is moved farther is refused in both"""
    pixels, aces = made(folder)
    moved, out, again = (folder / name for name in ("moved.aces", "back.pixels", "again.aces"))
    assert call("to-camera", "--tolerant", aces, out) == (DONE, f"{aces}: moved records: 0 of 40000\n", "") and out.read_bytes() == pixels.read_bytes()
    out.unlink()
    assert call("to-camera", aces, out, "--tolerant", "--quiet") == (DONE, "", "") and out.read_bytes() == pixels.read_bytes()

    pick = random.Random(1)
    changed_by(aces, moved, lambda triple: nudged(pick, triple, TOLERATED))
    pairs = zip(NUMBERS.iter_unpack(aces.read_bytes()), NUMBERS.iter_unpack(moved.read_bytes()))
    count = sum(own != other for own, other in pairs)
    keeps(out, "to-camera", moved, out, status=REFUSED, saying=f"{moved}: refused 10: record 0 (byte 0): no pixel of curve ")
    for name in "check", "inspect":
        assert call(name, moved)[0] == REFUSED
    assert call("to-camera", "--tolerant", moved, out) == (DONE, f"{moved}: moved records: {count} of 40000, the farthest by 5 units\n", "")
    assert out.read_bytes() == pixels.read_bytes()
    out.unlink()
    value, = lines(call("to-camera", "--tolerant", moved, out, "--json", "--manifest", "--chunk=7", "--threads=3"))
    assert (value["command"], value["records"], value["moved"]) == ("to-camera --tolerant", 40000, {"records": count, "units": TOLERATED}), value
    assert call("to-aces", out, again) == (DONE, "", "") and again.read_bytes() == aces.read_bytes()  # the master as it was

    # a record that is six units off, among others that are moved: number, place and words; no new output
    data, k = bytearray(moved.read_bytes()), 31000
    *s, red, green, blue = NUMBERS.unpack_from(aces.read_bytes(), k * NUMBERS.size)
    NUMBERS.pack_into(data, k * NUMBERS.size, *s, red, green - TOLERATED - 1, blue)
    bad, new = folder / "bad.aces", folder / "new.pixels"
    bad.write_bytes(data)
    words = f"no pixel of curve {s[0]}, width {s[1]}, EI {s[2]} has ACES numbers within 5 units of {red}, {green - 6}, {blue} in every channel"
    words = f"{bad}: refused 10: record {k} (byte {k * NUMBERS.size}): {words}\n"
    (folder / "back.pixels.manifest").unlink()
    keeps(out, "to-camera", "--tolerant", bad, out, status=REFUSED, saying=words)
    assert call("to-camera", "--tolerant", bad, new, "--chunk=7", "--threads=3") == (REFUSED, "", words) and not new.exists() and not litter(folder)
    refusal = lines(call("to-camera", "--tolerant", bad, new, "--json"))[0]["refusal"]
    assert (refusal["number"], refusal["record"], refusal["byte"]) == (10, k, k * NUMBERS.size), refusal
    bad.write_bytes(moved.read_bytes()[:-1])
    keeps(out, "to-camera", "--tolerant", bad, out, status=REFUSED, saying=f"{bad}: refused 1: ")
    bad.write_bytes(ACES + NUMBERS.pack(2, 12, 800, 0, 0, 0))
    keeps(out, "to-camera", "--tolerant", bad, out, status=REFUSED, saying=f"refused 12: record 1 (byte {NUMBERS.size}): curve 2 has no ACES matrix{NO_MATRIX[NUMBERS]}\n")
    bad.write_bytes(b"")
    assert call("to-camera", "--tolerant", bad, new)[:2] == (DONE, f"{bad}: moved records: 0 of 0\n") and new.read_bytes() == b""

    # the manifest of the master, beside a moved copy, does not hold; left aside it comes back
    _, listed = made(folder, "listed", options=("--manifest",))
    listed.write_bytes(moved.read_bytes())
    keeps(out, "to-camera", "--tolerant", listed, out, status=REFUSED, saying="differs: ")
    assert call("to-camera", "--tolerant", "--no-manifest", listed, out)[0] == DONE and out.read_bytes() == pixels.read_bytes()


def warmer(triple):
    """a triple as a colourist may leave it: an eighth more red, an eighth less blue"""
    return [x * k // 8 for x, k in zip(triple, (9, 8, 7))]


def graded(folder):
    """a graded master goes to the nearest codes, at once and by way of scene records, where the exact way back refuses it; an unmoved one comes back the same by
    either road; and the graded road says nothing of damage"""
    pixels, aces = made(folder)
    changed, out, scene, again = (folder / name for name in ("graded.aces", "graded.pixels", "graded.scene", "again.pixels"))
    for road in "to-camera", "graded-to-camera":
        assert call(road, aces, out) == (DONE, "", "") and out.read_bytes() == pixels.read_bytes(), road

    changed_by(aces, changed, warmer)
    keeps(out, "to-camera", changed, out, status=REFUSED, saying=f"{changed}: refused 10: record ")
    holds(call("check", changed), REFUSED, f"{changed}: refused 10: record ")
    holds(call("verify", pixels, changed), REFUSED, f"{changed}: refused 10: record ")
    assert call("graded-to-camera", changed, out, "--manifest") == (DONE, "", "")
    data = changed.read_bytes()
    table = {s: numbers(s) for s in {record[:3] for record in NUMBERS.iter_unpack(data)}}
    assert convert(table, GRADED_TO_PIXEL, data, bytes(len(out.read_bytes()))) == ("done 40000", out.read_bytes())
    value = json.loads((folder / "graded.pixels.manifest").read_text())
    assert (value["kind"], value["records"], value["from"]["kind"]) == ("pixel", 40000, "ACES"), value
    assert call("graded-to-scene", changed, scene) == (DONE, "", "") and call("from-scene", scene, again) == (DONE, "", "")
    assert again.read_bytes() == out.read_bytes() != pixels.read_bytes()

    # most ACES records that were half floats are no pixel's: the graded road takes them
    half, read = folder / "shot.half", folder / "read.aces"
    assert call("to-half", aces, half) == (DONE, "", "") and call("from-half", half, read) == (DONE, "", "")
    keeps(again, "to-camera", read, again, status=REFUSED, saying=f"{read}: refused 10: record ")
    assert call("graded-to-camera", read, again) == (DONE, "", "")

    place = f"record 31000 (byte {NUMBERS.size * 31000})"
    bad = damaged(aces, folder / "bad.aces", NUMBERS.size * 31000 + 7)
    keeps(again, "to-camera", bad, again, status=REFUSED, saying=f"{bad}: refused 10: {place}: no pixel of curve ")
    assert call("graded-to-camera", bad, again) == (DONE, "", "")
    both = zip(PIXEL.iter_unpack(pixels.read_bytes()), PIXEL.iter_unpack(again.read_bytes()))
    assert [k for k, (own, other) in enumerate(both) if own != other] == [31000]
    bad.write_bytes(data[:56] + NUMBERS.pack(3, 12, 800, 2 ** 38, -2 ** 38 - 1, 2 ** 40))
    words = f"{bad}: refused 14: record 2 (byte 56): green ACES number -274877906945 is outside -274877906944 to 274877906944\n"
    keeps(again, "graded-to-camera", bad, again, status=REFUSED, saying=words)
    keeps(scene, "graded-to-scene", bad, scene, status=REFUSED, saying=words)

    keeps(scene, "graded-to-camera", changed, scene, status=USAGE, saying=f"{scene} is named as scene records, and pixel records would be written there")
    keeps(aces, "graded-to-scene", changed, aces, status=USAGE, saying=f"{aces} is named as ACES records, and scene records would be written there")
    keeps(again, "graded-to-camera", scene, again, status=USAGE, saying=f"{scene} is named as scene records, and ACES records are read here")
    keeps(scene, "graded-to-scene", out, scene, status=REFUSED, saying="says that it holds pixel records, and ACES records are read")


def older_firmware(folder):
    """reels of curve 2 go to scene and come back; what needs ACES refuses them, by name and place, and says which conversion takes them"""
    pick, pixels, scene, out = random.Random(1), folder / "old.pixels", folder / "old", folder / "out"
    reel_of = b"".join(run(pick, s, 100) for s in WITHOUT_MATRIX)
    pixels.write_bytes(GOOD * 5 + reel_of)
    assert call("to-scene", pixels, scene) == (DONE, "", "") and call("from-scene", scene, out) == (DONE, "", "")
    assert out.read_bytes() == pixels.read_bytes()
    words = f"curve 2 has no ACES matrix{NO_MATRIX[PIXEL]}\n"
    keeps(out, "to-aces", pixels, out, status=REFUSED, saying=f"{pixels}: refused 12: record 5 (byte 50): {words}")
    holds(call("verify", pixels), REFUSED, f"{pixels}: refused 12: record 5 (byte 50): {words}")
    same = f"{pixels}: 2205 records come back from scene numbers the same\n"
    assert call("verify", pixels, pixels, "--scene")[:2] == (DONE, same * 2 + "2 files: 2 held, 0 refused, 0 could not be read\n")
    (folder / "bad.pixels").write_bytes(reel_of[:100] + b"\2\x10" + reel_of[102:])
    words = "width 16 is not one of curve 2's, which are 10 and 12\n"
    holds(call("verify", folder / "bad.pixels", "--scene"), REFUSED, f"{folder / 'bad.pixels'}: refused 4: record 10 (byte 100): {words}")

    # its scene records are no ACES records, and no master
    words = f"refused 12: record 5 (byte {5 * NUMBERS.size}): curve 2 has no ACES matrix{NO_MATRIX[NUMBERS]}\n"
    keeps(out, "to-camera", scene, out, status=REFUSED, saying=f"{scene}: refused ")
    scene.write_bytes(ACES * 5 + scene.read_bytes()[5 * NUMBERS.size:])
    keeps(out, "to-camera", scene, out, status=REFUSED, saying=f"{scene}: {words}")
    holds(call("check", scene), REFUSED, f"{scene}: {words}")
    status, said, _ = call("inspect", scene, "--kind", "aces")
    assert status == REFUSED and words in said, said
    status, said, _ = call("inspect", scene)
    assert status == DONE and said.startswith(f"{scene}: scene records, as its length and settings allow\n"), said
    assert said.endswith("\n    nothing is refused\n"), said

    no_aces = "    to-aces refuses the file: it takes no record without an ACES matrix\n"
    status, said, _ = call("inspect", pixels)
    assert status == DONE and "\n    curve 2, width 12, EI 1600       100 records\n" in said, said
    assert "\n    curve 3, width 12, EI 800        5 records\n    of these without an ACES matrix  2200 records\n" in said, said
    assert said.endswith(f"\n    to-scene refuses nothing\n{no_aces}"), said
    view = lines(call("inspect", pixels, "--json"))[0]["as"][0]
    assert (view["records"], view["no_matrix"], view["no_setting"], view["refusal"]) == (2205, 2200, 0, None), view
    pixels.write_bytes(reel_of + BAD)
    status, said, _ = call("inspect", pixels)
    assert status == REFUSED and said.endswith(f"green code 1024 is above 1023\n{no_aces}"), said


if __name__ == "__main__":
    each((checked, held_to_master, manifests, unreplaced, inspected, halves, nudged_master, graded, older_firmware))
