#!/usr/bin/env python3
"""Says what the client costs for each command of a call, and for a call's first: processor, beside what a program takes that does nothing, and memory
for ACTIONS of them, four at a time. Its status is 1 if that is more than it should be.

    costs.py ZIGRUNK-REMOTE ADDRESS ACTIONS    the server runs actions on this machine
"""
import os
import resource
import subprocess
import sys
import tempfile
from concurrent.futures import ThreadPoolExecutor
from pathlib import Path

PROGRAM, ADDRESS, ACTIONS = sys.argv[1], sys.argv[2], int(sys.argv[3])
# Does what a tool does, and costs the client nothing: the server runs it.
TOOL = '#!/bin/sh\nwhile [ "$1" != -o ]; do input=$1; shift; done\nread -r line < "$input"\necho "$line" > "$2"\n'
ONCE = 300
AT_ONCE = 4
MOST_FOUND, MOST_RAN, MOST_MEMORY = 1.0, 3.0, 200


def processor(words: "list[str]", variables: "dict[str, str]") -> float:
    """Runs a program. Gives the milliseconds of processor that it took."""
    process = subprocess.Popen(words, env={**os.environ, **variables})
    _, status, used = os.wait4(process.pid, 0)
    process.returncode = os.waitstatus_to_exitcode(status)
    assert process.returncode == 0, words
    took: float = used.ru_utime + used.ru_stime
    return 1000 * took


def command(room: Path, number: int, usage: str, is_first: bool = False) -> "tuple[float, str]":
    """Runs a command by the server. Gives the milliseconds of processor that it took here, and its way."""
    for name in ("k.cubin", "note", "servers")[:3 if is_first else 2]:
        (room / name).unlink(missing_ok=True)
    (room / "k.ptx").write_text(f"input {number}\n")
    files = ["--read", f"{room}/k.ptx", "--write", f"{room}/k.cubin", "--note", f"{room}/note"]
    words = [PROGRAM, "--cwd", "/", "--root", str(room), "--tool", "digest", *files, "--", str(room.parent / "ptxas"), "-arch=sm_80", f"{room}/k.ptx",
             "-o", f"{room}/k.cubin"]
    took = processor(words, {"ZIGRUNK_REMOTE": ADDRESS, "ZIGRUNK_REMOTE_USE": usage})
    assert (room / "k.cubin").read_text() == f"input {number}\n"
    return took, (room / "note").read_text().split()[0]


def usual(times: "list[float]") -> float:
    """The tenth part of them takes less: what else runs here makes the others slower."""
    return sorted(times)[len(times) // 10]


def each(room: Path, usage: str, way: str, is_first: bool = False) -> float:
    """The milliseconds of processor of one of these commands."""
    ran = [command(room, number, usage, is_first) for number in range(ONCE)]
    assert {one for _, one in ran} == {way}, ran
    return usual([took for took, _ in ran])


with tempfile.TemporaryDirectory() as scratch:
    rooms = [Path(scratch) / str(number) for number in range(AT_ONCE)]
    for each_room in rooms:
        each_room.mkdir()
    (Path(scratch) / "ptxas").write_text(TOOL)
    (Path(scratch) / "ptxas").chmod(0o755)
    ran = each(rooms[0], "run", "ran")
    found, first = each(rooms[0], "run", "found"), each(rooms[0], "run", "found", True)
    nothing = usual([processor(["/bin/true"], {}) for _ in range(ONCE)])
    with ThreadPoolExecutor(AT_ONCE) as pool:
        list(pool.map(lambda lane: [command(rooms[lane], one % ONCE, "cache") for one in range(lane, ACTIONS, AT_ONCE)], range(AT_ONCE)))
    memory = AT_ONCE * resource.getrusage(resource.RUSAGE_CHILDREN).ru_maxrss / 1000
print(f"{found - nothing:.2f} ms of processor for a found action, {first - nothing:.2f} for a call's first, {ran - nothing:.2f} for one that runs,",
      f"beside {nothing:.2f} ms of a program that does nothing; {memory:.0f} MB for {ACTIONS} actions")
sys.exit(found - nothing > MOST_FOUND or ran - nothing > MOST_RAN or memory > MOST_MEMORY)
