"""The peak memory of a command."""
import os, re, subprocess, time
from pathlib import Path


def peak(pid, program):
    """the most memory in kB that a process has held since it became the program; 0 before, and after its end"""
    try:
        if os.path.realpath(f"/proc/{pid}/exe") != os.path.realpath(program):
            return 0
        found = re.search(r"VmHWM:\s+(\d+) kB", Path(f"/proc/{pid}/status").read_text())
        return int(found[1]) if found else 0
    except OSError:
        return 0


def watched(command):
    """run a command: its status, and its peak memory in kB, as last seen before its end"""
    run = subprocess.Popen(command, stdout=subprocess.DEVNULL)
    most = 0
    while run.poll() is None:
        most = max(most, peak(run.pid, command[0]))
        time.sleep(0.002)
    return run.returncode, most
