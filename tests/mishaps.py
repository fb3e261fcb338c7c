#!/usr/bin/env python3
"""mishaps.py PROGRAM [TEST..]: mishaps that an operator of the command meets: an upstream that failed, few processes or little memory,
signals, an endless pipe, a file that is written while it is read, other runs, a crowded folder, a full disk, and what a replaced file keeps.
Each test fails on a command without its care."""
import fcntl, os, shutil, signal, stat, subprocess, time
from pathlib import Path

from calls import DONE, FILES, GOOD, NOBODY, OLD, PROGRAM, REFUSED, USAGE, begin, begun, call, each, holds, keeps, limited, litter, size, until
from rules import NUMBERS, PIXEL

BAD = PIXEL.pack(3, 10, 800, 0, 1024, 0)  # refused by 6


def empty_input(folder):
    """an empty or closed standard input is no input, unless it is said to be one; an empty file is one, with a word"""
    source, out = folder / "in", folder / "out"
    run_to_out = f"{PROGRAM} to-aces - {out}"
    for line in f"false | {run_to_out}", f"{run_to_out} <&-", f"{run_to_out} --allow-empty <&-":
        out.write_bytes(OLD)
        run = subprocess.run(["sh", "-c", line], capture_output=True)
        assert out.read_bytes() == OLD and run.returncode == FILES, (line, run)
        assert b"standard input: " in run.stderr and not litter(folder), run
    assert b"cannot read: it is closed" in run.stderr, run
    with open("/dev/null", "rb") as nothing:
        keeps(out, "to-aces", "-", out, status=FILES, saying="standard input: it is empty", stdin=nothing)
    for name in "verify", "check", "totals":
        run = subprocess.run(["sh", "-c", f"{PROGRAM} {name} - <&-"], capture_output=True)
        assert run.returncode == FILES and not run.stdout, run
        holds(call(name, "-", data=b""), FILES, "standard input: it is empty")
        assert call(name, "-", "--allow-empty", data=b"")[0] == DONE
    os.mkfifo(folder / "fifo")
    held = os.open(folder / "fifo", os.O_RDWR)
    run = begin("to-aces", folder / "fifo", out)
    until(lambda: litter(folder))
    os.close(held)
    assert run.communicate()[1].startswith(f"{folder / 'fifo'}: it is empty".encode()) and run.returncode == FILES
    assert out.read_bytes() == OLD
    assert call("to-aces", "-", out, "--allow-empty", data=b"") == (DONE, "", "standard input: it is empty: 0 records\n") and out.read_bytes() == b""
    out.write_bytes(OLD)
    source.write_bytes(b"")
    assert call("to-aces", source, out) == (DONE, "", f"{source}: it is empty: 0 records\n") and out.read_bytes() == b""
    assert call("to-aces", source, out, "--quiet") == (DONE, "", "")


def few_resources(folder):
    """few processes, little memory, small files: it works, or fails with words, and no status is outside 0 to 3"""
    program, source = folder / "program", folder / "in"
    shutil.copy(PROGRAM, program)
    folder.chmod(0o777)
    source.write_bytes(GOOD * 100000)
    for most in 0, 1, 3:
        out = folder / f"out-{most}"
        run = subprocess.run([program, "to-aces", source, out, "--threads", "8"], capture_output=True, preexec_fn=limited(nproc=most), **NOBODY)
        assert run.returncode == DONE and out.stat().st_size == 2800000, (most, run)
    out, seen = folder / "out", set()
    for megabytes in (*range(2, 12), 16, 24, 32, 64):
        def tried(*words):
            traced = {**os.environ, "RUST_BACKTRACE": "1"}  # with which Rust itself can wait forever where memory runs out
            return subprocess.run([program, *words], capture_output=True, timeout=60, env=traced, preexec_fn=limited(**{"as": megabytes << 20}))
        if tried("--version").returncode:
            continue  # too little for the program to begin at all
        for chunk in 4096, 1000000:
            out.write_bytes(OLD)
            run = tried("to-aces", source, out, "--threads", "8", "--chunk", str(chunk))
            assert run.returncode in (DONE, FILES) and (run.returncode == DONE or run.stderr), (megabytes, run)
            assert (out.read_bytes() == OLD) == (run.returncode == FILES), (megabytes, run)
            seen.add(run.returncode)
    assert seen == {DONE, FILES}, seen
    for path in folder.glob(".out*"):
        path.unlink()
    keeps(out, "to-aces", source, out, status=FILES, saying="out: cannot write: File too large", preexec_fn=limited(fsize=1 << 20))


def signals(folder):
    """a signal ends a run in order: the old output, no new file, the word `interrupted`, and an end by the signal; one that is ignored is"""
    source, out = folder / "in", folder / "out"
    source.write_bytes(GOOD * 3000000)
    out.write_bytes(OLD)
    for number in signal.SIGINT, signal.SIGTERM, signal.SIGHUP:
        for name, stdin in ((source, None), ("-", subprocess.PIPE)):  # while it works, and while it waits
            run = begin("to-aces", name, out, "--threads", "2", "--chunk", "1", stdin=stdin)
            if stdin:
                run.stdin.write(GOOD * 1000)
                run.stdin.flush()
            until(lambda: begun(folder))
            run.send_signal(number)
            said = run.communicate(timeout=20)[1].decode() if not stdin else (run.wait(20), run.stderr.read().decode())[1]
            assert run.returncode == -number and not litter(folder), (number, run.returncode, litter(folder))
            assert said == f"{'standard input' if stdin else source}: interrupted\n" and out.read_bytes() == OLD, said
    run = begin("to-aces", "-", out, stdin=subprocess.PIPE, preexec_fn=lambda: signal.signal(signal.SIGHUP, signal.SIG_IGN))
    run.stdin.write(GOOD)
    run.stdin.flush()
    until(lambda: begun(folder))
    run.send_signal(signal.SIGHUP)
    run.communicate()
    assert run.returncode == DONE and len(out.read_bytes()) == NUMBERS.size
    os.mkfifo(folder / "fifo")
    run = begin("to-aces", folder / "fifo", out)  # nobody writes to it
    until(lambda: litter(folder))
    run.send_signal(signal.SIGINT)
    assert run.wait(20) == -signal.SIGINT and not litter(folder)


def endless_pipe(folder):
    """a refusal on a pipe is said at once; the verdict comes with the end, and a partial record there goes before it"""
    out = folder / "out"
    for end, verdict in ((b"", "refused 6: record 9 (byte 90): green code 1024 is above 1023"), (b"xyz", "refused 1: the input has 113 bytes")):
        out.write_bytes(OLD)
        run = begin("to-aces", "-", out, "--threads", "4", stdin=subprocess.PIPE)
        os.set_blocking(run.stderr.fileno(), False)
        run.stdin.write(GOOD * 9 + BAD + GOOD)
        run.stdin.flush()
        said = bytearray()

        def heard():
            said.extend(run.stderr.read() or b"")
            return b"\n" in said
        until(heard, 5)
        assert said.startswith(b"standard input: refused so far by 6: record 9 (byte 90): green code 1024 is above 1023; reading on"), said
        assert run.poll() is None
        run.stdin.write(end)
        run.stdin.close()
        assert run.wait(20) == REFUSED
        last = (bytes(said) + run.stderr.read()).decode().splitlines()
        assert len(last) == 2 and last[1].startswith(f"standard input: {verdict}"), last
        assert out.read_bytes() == OLD and not litter(folder)


def paused_pipe(folder):
    """a pipe that pauses within a record; and one on which a later part is refused before an earlier one, which is the first all the same"""
    out = folder / "out"
    run = begin("to-aces", "-", out, stdin=subprocess.PIPE)
    for piece in GOOD * 3 + GOOD[:4], GOOD[4:9], GOOD[9:] + GOOD:
        run.stdin.write(piece)
        run.stdin.flush()
        time.sleep(0.15)
    run.stdin.close()
    assert run.wait(20) == DONE
    (folder / "in").write_bytes(GOOD * 5)
    assert call("to-aces", folder / "in", folder / "whole") == (DONE, "", "") and out.read_bytes() == (folder / "whole").read_bytes()
    good, bad = NUMBERS.pack(3, 12, 800, -238167, -283566, -289928), NUMBERS.pack(3, 12, 800, 0, 0, 1)
    run = begin("to-camera", "-", out, "--chunk", "100000", "--threads", "2", stdin=subprocess.PIPE)
    run.stdin.write(good * 99999 + bad * 100001)
    run.stdin.flush()
    assert run.stderr.readline().startswith(b"standard input: refused so far by 10: record 99999 (byte %d): " % (NUMBERS.size * 99999))
    run.communicate()
    assert run.returncode == REFUSED


def names_in_messages(folder):
    """each message begins with the file's name, and nothing in it moves a terminal's cursor"""
    odd, out = folder / "a\n\x1b[2J\u202eb", folder / "out"
    shown = f"{folder}/a\\n\\u{{1b}}[2J\\u{{202e}}b"
    odd.write_bytes(BAD)
    keeps(out, "to-aces", odd, out, status=REFUSED, saying=f"{shown}: refused 6: record 0")
    holds(call("verify", odd), REFUSED, f"{shown}: refused 6: record 0")
    holds(call("to-aces", folder / "\x07none", out), FILES, f"{folder}/\\u{{7}}none: cannot read: No such file")
    odd.write_bytes(GOOD)
    holds(call("to-aces", odd, folder / "no\tne" / "out"), FILES, f"{folder}/no\\tne/out: cannot write: its folder")
    holds(call("\x1b[2J"), USAGE, "\\u{1b}[2J")


def written_meanwhile(folder):
    """an input that is written in place while it is read, with its length kept, is no input that was converted"""
    source, out = folder / "in", folder / "out"
    for words in (("to-aces", source, out), ("verify", source), ("totals", source)):
        source.write_bytes(GOOD * 600000)
        out.write_bytes(OLD)
        time.sleep(0.02)  # so that the times of the file differ
        run = begin(*words, "--chunk=1", "--threads=1")
        until(lambda: begun(folder) or words[0] != "to-aces")
        time.sleep(0.05)
        with open(source, "r+b") as file:
            file.write(GOOD)
        said = run.communicate()[1].decode()
        assert run.returncode == FILES and said.startswith(f"{source}: it has changed while it was read"), (run.returncode, said)
        assert out.read_bytes() == OLD and not litter(folder)


def other_runs(folder):
    """a file that another run holds locked is left alone, wherever that run lives; what nobody holds is cleared, of this OUT only"""
    source, out = folder / "in", folder / "out"
    source.write_bytes(GOOD)
    held, dead, other, listing = (folder / f".{name}.ropeinstant-{k}" for name, k in (("out", 0), ("out", 5), ("other", 0), ("out.manifest", 0)))
    for path in held, dead, other, listing:
        path.write_bytes(b"x")
    with open(held, "r+b") as file:
        fcntl.flock(file, fcntl.LOCK_EX)  # as a run in another container or on another machine does, which no process here shows
        assert call("to-aces", source, out) == (DONE, "", "")
        assert held.exists() and other.exists() and not dead.exists() and not listing.exists() and len(out.read_bytes()) == NUMBERS.size
    assert call("to-aces", source, out) == (DONE, "", "") and not held.exists() and other.exists()
    run = begin("to-aces", "-", out, "--chunk", "10", stdin=subprocess.PIPE)
    run.stdin.write(GOOD * 1000)
    run.stdin.flush()
    until(lambda: size(held))
    with open(held, "r+b") as file:
        try:
            fcntl.flock(file, fcntl.LOCK_EX | fcntl.LOCK_NB)
            raise AssertionError("a run holds no lock on its new file")
        except BlockingIOError:
            pass
    run.communicate()
    assert run.returncode == DONE and len(out.read_bytes()) == 1000 * NUMBERS.size
    racing = [begin("to-aces", source, out) for _ in range(60)]
    assert all(run.wait() in (DONE, FILES) and b"32 other runs" in run.stderr.read() + b"32 other runs" * (run.returncode == DONE) for run in racing)
    assert len(out.read_bytes()) == NUMBERS.size and litter(folder) == [".other.ropeinstant-0"], litter(folder)


def crowded_folder(folder):
    """a run beside many files takes no longer than beside none: it reads no folder"""
    source, out, notes = folder / "in", folder / "out", folder / "notes"
    source.write_bytes(GOOD)
    shim = folder / "faults.so"
    subprocess.run(["gcc", "-O1", "-Wall", "-Werror", "-shared", "-fPIC", Path(__file__).parent / "faults.c", "-o", shim, "-ldl"], check=True)
    assert call("to-aces", source, out, env=dict(os.environ, LD_PRELOAD=str(shim), NOTES=str(notes)))[0] == DONE
    assert "opendir" not in notes.read_text(), notes.read_text()


def no_room(folder):
    """where there is no room for the output, nothing is written; a name may have 255 bytes"""
    source, small = folder / "in", folder / "small"
    with open(source, "wb") as file:
        file.truncate(PIXEL.size * 10**8)  # 1 GB of zeros, refused by 3 once it is read: the room is asked for before
    small.mkdir()
    if not subprocess.run(["mount", "-t", "tmpfs", "-o", "size=1m", "tmpfs", small], capture_output=True).returncode:
        try:
            keeps(small / "out", "to-aces", source, small / "out", status=FILES, saying="out: cannot write: No space left on device")
        finally:
            subprocess.run(["umount", small], check=True)
    source.write_bytes(GOOD)
    for length in 200, 218, 237, 255:
        out = folder / ("x" * length)
        assert call("to-aces", source, out) == (DONE, "", "") and len(out.read_bytes()) == NUMBERS.size and not litter(folder)
    out.write_bytes(OLD)
    source.write_bytes(BAD)
    keeps(out, "to-aces", source, out, status=REFUSED, saying="refused 6")


def replaced(folder):
    """what replacing a file keeps: mode, owner and group; what it drops: attributes; other hard links keep the old content, with a word"""
    source, out, link = folder / "in", folder / "out", folder / "link"
    source.write_bytes(GOOD)
    out.write_bytes(OLD)
    out.chmod(0o640)
    if os.geteuid() == 0:
        os.chown(out, 12345, 23456)
    try:
        os.setxattr(out, "user.note", b"of the old content")
    except OSError:
        pass  # a file system without them
    before = out.stat()
    assert call("to-aces", source, out) == (DONE, "", "")
    after = out.stat()
    assert (before.st_mode, before.st_uid, before.st_gid) == (after.st_mode, after.st_uid, after.st_gid) and after.st_ino != before.st_ino
    assert stat.S_IMODE(after.st_mode) == 0o640 and not os.listxattr(out)
    out.write_bytes(OLD)
    os.link(out, link)
    assert call("to-aces", source, out) == (DONE, "", f"{out}: the other names of the old file keep the old content\n")
    assert link.read_bytes() == OLD and len(out.read_bytes()) == NUMBERS.size
    if os.geteuid() == 0:  # another user's file in a folder that all may write
        program = folder / "program"
        shutil.copy(PROGRAM, program)
        folder.chmod(0o777)
        out.chmod(0o666)
        run = subprocess.run([program, "to-aces", source, out], capture_output=True, **NOBODY)
        assert run.returncode == DONE and b"its owner was 12345:23456, and is now 65534:65534" in run.stderr, run
        assert stat.S_IMODE(out.stat().st_mode) == 0o666
    assert "keeps its mode" in call("to-aces", "--help")[1]


def reels(folder):
    """the generator of reels says how it is used"""
    script = Path(__file__).parent / "reel.py"
    for words in (), ("10",), ("many", folder / "reel"), ("10", folder / "reel", "1", "2"):
        run = subprocess.run([script, *words], capture_output=True)
        assert run.returncode == 1 and run.stderr.startswith(b"usage: reel.py BYTES FILE [SEED]") and b"Traceback" not in run.stderr, run
    assert not list(folder.iterdir())


if __name__ == "__main__":
    each((
        empty_input, few_resources, signals, endless_pipe, paused_pipe, names_in_messages, written_meanwhile, other_runs, crowded_folder, no_room, replaced,
        reels,
    ))
