"""What the tests of the command share: running it, and what must hold of a run that fails."""
import os, resource, signal, subprocess, sys, tempfile, time
from pathlib import Path

from rules import (
    ACES_TO_HALF, ACES_TO_PIXEL, ACES_TO_PIXEL_TOLERANT, GRADED_TO_PIXEL, GRADED_TO_SCENE, HALF_TO_ACES, HALVES, NUMBERS, PIXEL, PIXEL_TO_ACES,
    PIXEL_TO_SCENE, SCENE_TO_PIXEL,
)

DONE, REFUSED, USAGE, FILES = range(4)  # exit statuses
NAMES = {  # of each conversion: its subcommand, with the option that asks for it
    PIXEL_TO_ACES: "to-aces", ACES_TO_PIXEL: "to-camera", PIXEL_TO_SCENE: "to-scene", SCENE_TO_PIXEL: "from-scene", ACES_TO_HALF: "to-half",
    HALF_TO_ACES: "from-half", GRADED_TO_PIXEL: "graded-to-camera", GRADED_TO_SCENE: "graded-to-scene", ACES_TO_PIXEL_TOLERANT: "to-camera --tolerant",
}
LOOKING = "verify", "check", "inspect", "totals"  # those that write no file
NO_MATRIX = {  # how the words of refusal 12 go on, by the records that are read
    PIXEL: ": to-scene converts its pixel records, and from-scene converts them back",
    NUMBERS: ", and so no ACES records: from-scene converts its scene records",
    HALVES: ", and so no half records: from-scene converts its scene records",
}
OLD = b"the old output"
GOOD = PIXEL.pack(3, 12, 800, 100, 0, 0)
PROGRAM = os.path.abspath(sys.argv[1]) if len(sys.argv) > 1 else sys.exit(f"as in: {sys.argv[0]} tool/target/release/ropeinstant")
NOBODY = {"user": 65534, "group": 65534, "extra_groups": []} if os.geteuid() == 0 else {}


# A test that was started with signals ignored, as in the background or under nohup, would hand that on to the command, which heeds it.
for number in signal.SIGINT, signal.SIGTERM, signal.SIGHUP:
    signal.signal(number, signal.SIG_DFL)


def call(*words, data=None, **more):
    """run the command: its status, and what it says on standard output and standard error"""
    done = subprocess.run([PROGRAM, *map(str, words)], input=data, capture_output=True, **more)
    return done.returncode, done.stdout.decode(), done.stderr.decode()


def begin(*words, **more):
    """begin a run"""
    return subprocess.Popen([PROGRAM, *map(str, words)], stdout=subprocess.PIPE, stderr=subprocess.PIPE, **more)


def litter(folder):
    return [p.name for p in Path(folder).iterdir() if ".ropeinstant-" in p.name]


def holds(got, status, words=""):
    """that a run ended with this status, and says these words where it did not succeed, and nothing else"""
    assert got[0] == status and words in got[2] and (got[2] or status == DONE), (status, words, got)
    assert "panicked" not in got[2] and (status == DONE or not got[1]), got


def keeps(out, *words, status, saying, **more):
    """that a run fails, leaves the old output, its mode and its inode, and no litter"""
    out.write_bytes(OLD)
    before = out.stat()
    holds(call(*words, **more), status, saying)
    after = out.stat()
    assert out.read_bytes() == OLD and (before.st_ino, before.st_mode, before.st_mtime_ns) == (after.st_ino, after.st_mode, after.st_mtime_ns)
    assert not litter(out.parent), (words, litter(out.parent))


def until(what, seconds=20):
    end = time.time() + seconds
    while not what():
        assert time.time() < end
        time.sleep(0.001)


def begun(folder):
    """whether a run has written something that is not yet the output"""
    return any(size(folder / name) for name in litter(folder))


def size(path):
    """of a file that may have gone"""
    try:
        return path.stat().st_size
    except FileNotFoundError:
        return 0


def limited(**limits):
    """for a process about to begin: limits, as `fsize=1000`"""
    def limit():
        signal.signal(signal.SIGXFSZ, signal.SIG_DFL)
        for name, most in limits.items():
            resource.setrlimit(getattr(resource, f"RLIMIT_{name.upper()}"), (most, most))
    return limit


def each(tests):
    """run tests, or those that the command line names, each in a folder of its own"""
    begin = time.time()
    named = [test for test in tests if test.__name__ in sys.argv[2:]] if sys.argv[2:] else tests
    for test in named:
        with tempfile.TemporaryDirectory() as folder:
            test(Path(folder))
    name = os.path.basename(sys.argv[0]).removesuffix(".py")
    print(f"{name}: {', '.join(test.__name__.replace('_', ' ') for test in named)}: {time.time() - begin:.0f} s")
