#!/usr/bin/env python3
"""reel.py PROGRAM BYTES: generate a reel, and print the time, the computing time of all threads and the peak memory of `ropeinstant verify`,
`totals`, `to-aces` and `to-camera` over it; it must come back the same."""
import filecmp, os, random, resource, sys, tempfile, time
from pathlib import Path

sys.path.insert(0, str(Path(__file__).resolve().parent.parent / "tests"))
from peak import watched
from reel import reel
from rules import PIXEL


def computed():
    """seconds that the commands run so far have computed"""
    used = resource.getrusage(resource.RUSAGE_CHILDREN)
    return used.ru_utime + used.ru_stime


def measured(*words):
    begun, before = time.time(), computed()
    status, most = watched([str(word) for word in words])
    assert status == 0, words
    return time.time() - begun, computed() - before, most


def main():
    program, records = os.path.abspath(sys.argv[1]), int(sys.argv[2]) // PIXEL.size
    with tempfile.TemporaryDirectory() as folder:
        pixels, aces, back = (Path(folder) / name for name in ("pixels", "aces", "back"))
        with open(pixels, "wb") as file:
            for data in reel(random.Random(1), records):
                file.write(data)
        print(f"a reel of {pixels.stat().st_size:,} bytes, {records:,} random pixels of all settings with an ACES matrix; {os.cpu_count()} threads", flush=True)
        for words in ("verify", pixels), ("totals", pixels), ("to-aces", pixels, aces), ("to-camera", aces, back):
            seconds, work, most = measured(program, *words)
            rate = f"{seconds:.1f} s, {records / seconds / 1e6:.1f} million records a second"
            print(f"{words[0]}: {rate}, {work / records * 1e9:.0f} ns of computing a record, peak memory {most / 1000:.1f} MB", flush=True)
        assert filecmp.cmp(pixels, back, shallow=False)
        print("the reel came back the same")


if __name__ == "__main__":
    main()
