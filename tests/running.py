#!/usr/bin/env python3
"""running.py FOLDER    counts the compilers that run in a folder, twenty times a second, until it gets TERM

Prints the most that ran at once, and how often it looked. A compiler is one of those that nvcc starts; its working directory is the
folder or below it. One that waits for a lock or a file counts too.
"""
import os
import signal
import sys
import time
from types import FrameType

COMPILERS = {"cc1plus", "cudafe++", "cicc", "ptxas"}
ended = False


def end(_number: int, _frame: FrameType | None) -> None:
    global ended
    ended = True


def running(folder: str) -> int:
    """Returns how many compilers run in the folder now."""
    count = 0
    for process in filter(str.isdigit, os.listdir("/proc")):
        try:
            with open(f"/proc/{process}/comm", encoding="utf-8") as file:
                if file.read().rstrip("\n") not in COMPILERS:
                    continue
            count += (os.readlink(f"/proc/{process}/cwd") + "/").startswith(folder + "/")
        except OSError:
            pass  # it has ended
    return count


signal.signal(signal.SIGTERM, end)
most = looks = 0
while not ended:
    most = max(most, running(os.path.realpath(sys.argv[1])))
    looks += 1
    time.sleep(0.05)
print(most, looks)
