#!/usr/bin/env python3
"""Compares keys of commands of the real nvcc with those of the driver's cache: real_keys.py ZIGRUNK KEYS SEED COUNT.

A key of the driver is a digest of more than callers hash, so what is compared is which commands have one, and which of these are equal. Each call of
tests/random_calls.py is made twice, the second time with another word or header. KEYS, bindings/rust/examples/keys.rs, prints the keys of both; the
driver makes both with an empty cache, and its log says what the cache had. The driver caches nothing of a call that keeps files, and no product that
has its file's name in it, as a cubin with debugging information: it's written elsewhere first. Its keys by tokens find more: where only lines, blanks
and comments differ of what a command reads. The last line is 'N passed, M failed', and counts commands."""

import json
import os
import random
import subprocess
import sys
import tempfile
from concurrent.futures import ThreadPoolExecutor
from pathlib import Path
from typing import Any, Dict, List, NamedTuple, Tuple

from real_calls import drawn, placed

# The tools whose commands have keys for callers.
TOOLS = ("cudafe++", "cicc", "ptxas")
# What the second call of two has behind its words. The last one has another header in its place.
CHANGES: Tuple[List[str], ...] = (["-DZZ=1"], ["-Xptxas", "-O1"], ["-lineinfo"], ["-fmad=false"], ["-G"], ["-Xcompiler", "-O2"], [])


class Keyed(NamedTuple):
    """A command of one of the tools: what the driver calls it, and its key, or whether the cache had it. `None` if it has no key. What it writes."""

    name: str
    key: Any
    writes: Tuple[str, ...] = ()


def by_callers(keys: str, base: Path, number: int, words: List[str], place: Dict[str, Any]) -> List[Keyed]:
    tmp = base / f"tmp/callers{number}"
    tmp.mkdir()
    ran = subprocess.run([keys, str(place["cwd"]), str(tmp), "nvcc", *words], **place, stdout=subprocess.PIPE, stderr=subprocess.DEVNULL, check=False)
    found = []
    for line in ran.stdout.decode(errors="surrogateescape").splitlines():
        key, targets, program, *writes = line.split("\t")
        found.append(Keyed(" ".join([os.path.basename(program), *targets.split(",")]).strip(), None if key == "-" else key, tuple(writes)))
    return [it for it in found if it.name.startswith(TOOLS)] if ran.returncode == 0 else []


def by_driver(zigrunk: str, base: Path, words: List[str], place: Dict[str, Any]) -> List[Keyed]:
    log = base / "calls"
    log.unlink(missing_ok=True)
    own: Dict[str, Any] = {**place, "env": {**place["env"], "ZIGRUNK_CACHE": str(base / "cache"), "ZIGRUNK_LOG": str(log)}}
    subprocess.run([zigrunk, "nvcc", *words], **own, stdout=subprocess.DEVNULL, stderr=subprocess.DEVNULL, check=False)
    calls = [json.loads(line) for line in log.read_text(errors="surrogateescape").splitlines()] if log.exists() else []
    commands = [it for call in calls if call.get("status") == 0 for it in call["commands"]]
    return [Keyed(it["kind"], it.get("hit")) for it in commands if it["kind"].startswith(TOOLS)]


def has_own_name(path: str) -> bool:
    return os.path.isfile(path) and os.fsencode(os.path.basename(path)) in Path(path).read_bytes()


def differences(first: Tuple[List[Keyed], List[Keyed]], second: Tuple[List[Keyed], List[Keyed]], keeps: bool) -> List[str]:
    """For each command of the second call what differs, or an empty text; the driver's are the second of two lists."""
    before = {it.key for it in first[0]}
    found = []
    for caller, driver in zip(*second):
        is_uncached = driver.key is None and caller.key and not keeps and not any(map(has_own_name, caller.writes))
        if caller.name != driver.name or (caller.key is None and driver.key is not None) or is_uncached:
            found.append(f"{caller} beside the driver's {driver}")
        elif caller.key in before and driver.key is False:
            found.append(f"{caller.name}: its key is an old one, and the driver's cache lacks it")
        else:
            found.append("")
    return found


def compared(zigrunk: str, keys: str, seed: int, number: int) -> Tuple[str, List[str]]:
    """The line of a call, and what differs for each command of its second form."""
    call, change = drawn(seed, number), random.Random(f"{seed} {number} change").choice(CHANGES)
    with tempfile.TemporaryDirectory(prefix="real-keys-") as folder:
        base = Path(folder)
        words, place = placed(call, base)
        both = []
        forms: List[List[str]] = [[], change]
        for turn, more in enumerate(forms):
            if turn and not change:
                with open(base / "work/cuda_runtime.h", "a", encoding="utf-8") as header:
                    header.write("static __device__ int more_of_it;\n")
            ours = by_callers(keys, base, turn, [*words, *more], place)
            both.append((ours, by_driver(zigrunk, base, [*words, *more], place)))
        line = f"nvcc {call.line}, then {' '.join(change) or 'another header'}"
        if any(len(ours) != len(driver) for ours, driver in both):
            return line, [] if any(not driver for _, driver in both) else [f"other commands: {both}"]
        return line, differences(both[0], both[1], any(word in call.line for word in ("keep", "save-temps")))


def main(arguments: List[str]) -> int:
    zigrunk, keys = arguments[:2]
    seed, count = int(arguments[2]), int(arguments[3])
    passed = failed = calls = 0
    with ThreadPoolExecutor(os.cpu_count()) as pool:
        for line, found in pool.map(lambda number: compared(zigrunk, keys, seed, number), range(count)):
            calls += bool(found)
            passed, failed = passed + found.count(""), failed + len(found) - found.count("")
            for difference in filter(None, found):
                print(f"{line}: {difference}", flush=True)
    print(f"{calls} of {count} calls of seed {seed} have commands with keys")
    print(f"{passed} passed, {failed} failed")
    return 1 if failed or not passed else 0


if __name__ == "__main__":
    sys.exit(main(sys.argv[1:]))
