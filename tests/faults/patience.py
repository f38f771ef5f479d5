#!/usr/bin/env python3
"""Has the kernel lose its patience while a command waits for a file that another still writes, as root may have it at any time.

    tests/faults/patience.py [--trials N] DRIVER

A trial makes a call with stand-ins for nvcc and its tools, of which cudafe++ or cicc takes three seconds. Once the command has begun that waits for
its file, but before it opens that, fs.lease-break-time goes down to a second, and comes back after the trial. The call has to make the product of
one that nothing holds up. If it's cicc that is slow, the host compile has to be made once.

The last line is 'N passed, M failed'.
"""
import argparse
import shutil
import signal
import sys
import tempfile
import time
from pathlib import Path

from inject import Room, Setup, reference

LONGEST_WAIT = Path("/proc/sys/fs/lease-break-time")
SETUP = Setup(has_make=False, is_late=True, slots=8)
# In milliseconds: how long the slow tool takes, and how long the one that waits for it parses.
SLOW, PARSING = 3000, 500


class Impatience:
    """The kernel as it is with a patience of a second, until it is left."""

    def __init__(self) -> None:
        self.usual = LONGEST_WAIT.read_text()

    def __enter__(self) -> "Impatience":
        return self

    def begin(self) -> None:
        LONGEST_WAIT.write_text("1")

    def __exit__(self, *_: object) -> None:
        LONGEST_WAIT.write_text(self.usual)


def may_be_set() -> bool:
    try:
        LONGEST_WAIT.write_text(LONGEST_WAIT.read_text())
    except OSError:
        return False
    return True


def wait_for_reader(room: Room, slow: str) -> bool:
    """Waits until there is the file for which a command waits while this tool runs."""
    pattern = "*/*/zigrunk.tmp/module_id.*" if slow == "cudafe++" else "*/*/*.cudafe1.stub.c"
    for _ in range(1000):
        if any(slow == "cudafe++" or file.is_symlink() for file in room.path("tmp").glob(pattern)):
            return True
        time.sleep(0.01)
    return False


def problem_of(room: Room, slow: str, wanted: tuple[bytes | None, bytes | None]) -> str:
    """What is wrong with a call in which this tool is slow."""
    room.renew()
    ran = room.path("ran")
    waiting = "cicc" if slow == "cudafe++" else "gcc"
    call = room.start("patience", SETUP, ["env", f"PAUSE_{slow}={SLOW}", f"BEFORE_{waiting}={PARSING}", f"RAN={ran}"])
    with Impatience() as kernel:
        waits = wait_for_reader(room, slow)
        kernel.begin()
        status = call.wait()
    said = room.path("said.patience").read_text(errors="replace")
    compiles = ran.read_text().splitlines().count("gcc -S")
    if not waits:
        return "no command begins early"
    if status != 0 or room.made() != wanted or said:
        return f"status {status}, {room.made()!r}, {said[:200]!r}"
    if slow == "cicc" and compiles != 1:
        return f"{compiles} host compiles"
    return ""


def main() -> int:
    parser = argparse.ArgumentParser(usage=__doc__)
    parser.add_argument("driver", type=Path)
    parser.add_argument("--trials", type=int, default=2)
    args = parser.parse_args()
    if not may_be_set() or not shutil.which("cc"):
        print("the kernel's patience: skipped, only root may change it, and it takes a C compiler\n0 passed, 0 failed, 1 skipped")
        return 0
    # (an end by a signal puts the kernel's patience back, too)
    signal.signal(signal.SIGTERM, lambda *_: sys.exit(1))
    failed = 0
    with tempfile.TemporaryDirectory(prefix="patience.") as folder:
        room = Room(args.driver.resolve(), Path(folder))
        wanted, _ = reference(room, SETUP)
        for number in range(args.trials):
            slow = ["cudafe++", "cicc"][number % 2]
            problem = problem_of(room, slow, wanted)
            failed += bool(problem)
            if problem:
                print(f"trial {number}, a slow {slow}: {problem}", flush=True)
    print(f"{args.trials - failed} passed, {failed} failed")
    return int(failed > 0)


if __name__ == "__main__":
    sys.exit(main())
