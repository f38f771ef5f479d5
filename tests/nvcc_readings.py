#!/usr/bin/env python3
"""Plans lines with each option of nvcc, and counts those that nvcc reads otherwise than zigrunk.

An option stands in a line alone, with a value behind it, behind `=` and joined to it, and with a source behind it, each with and without
--forward-unknown-to-host-compiler. The options are those of the table in crates/nvcc_calls and of `nvcc --help`. zigrunk-nvcc plans each
line and runs nothing of it, and says if nvcc's dry run of the line itself has other lines than that of the normal form.

The table is for nvcc 13.0: this has to read each line as zigrunk does. Another nvcc may read some otherwise, and nvcc itself then makes the
call; it's a failure if no line is planned. Prints how many lines there are of each kind, and last 'N passed, M failed', by options.

zigrunk-nvcc is that of DRIVER_BIN, or what `make rust` leaves.
"""

import concurrent.futures
import os
import re
import subprocess
import sys
import tempfile
from collections import Counter
from pathlib import Path

from runner import TOOLS, Counts, skip_all

TOP = Path(__file__).resolve().parent.parent
OTHERWISE = "nvcc reads the line otherwise"
# a plan ran, and one of its commands failed
MADE_AGAIN = "a command fails, and nvcc has them in another order"
VALUES = {
    "std": "c++14", "arch": "sm_80", "gpu-architecture": "sm_80", "gpu-code": "sm_80", "code": "sm_80",
    "gencode": "arch=compute_80,code=sm_80", "generate-code": "arch=compute_80,code=sm_80", "m": "64", "machine": "64", "x": "cu",
    "maxrregcount": "32", "O": "2", "optimize": "2", "ccbin": "g++", "compiler-bindir": "g++", "dopt": "on", "rdc": "true",
    "relocatable-device-code": "true", "ftz": "true", "fmad": "false", "prec-div": "false", "prec-sqrt": "false", "cudart": "static",
    "default-stream": "per-thread", "compress-mode": "size", "t": "1", "threads": "1", "Werror": "all-warnings", "opt-info": "inline",
    "optimization-info": "inline",
}


def names() -> list[str]:
    """The names of all options."""
    table = (TOP / "crates/nvcc_calls/src/options.rt").read_text()
    said = subprocess.run(["nvcc", "--help"], capture_output=True, text=True, check=True).stdout
    listed = re.findall(r"^(--[^ \n]+)", said, re.M) + re.findall(r"^--.*\((-[^ ()]+)\) *$", said, re.M)
    return sorted({*re.findall(r'"(-[^"]+)"', table), *listed})


def lines(name: str) -> list[list[str]]:
    """The lines of an option."""
    value = VALUES.get(name.lstrip("-"), "7")
    forms = [[name], [name, value], [f"{name}={value}"], [f"{name}{value}"]]
    behind = ["-c", "k.cu", "-o", "k.o"]
    found = [form + behind for form in forms] + [[name, "one.cu", "-c", "k.cu"]]
    return found + [["--forward-unknown-to-host-compiler", *line] for line in found]


def answer(line: list[str], base: str) -> str:
    """Why nvcc makes a call, or 'planned'. A runner that fails at once takes the place of what would run."""
    with tempfile.TemporaryDirectory(dir=base) as folder:
        env = {**os.environ, "ZIGRUNK_EXPLAIN": "1", "ZIGRUNK_RUNNER": "false", "TMPDIR": folder}
        call = [str(TOOLS / "zigrunk-nvcc"), *line]
        ran = subprocess.run(call, cwd=base, env=env, stdin=subprocess.DEVNULL, capture_output=True, text=True, check=False)
    said = re.search("^zigrunk-nvcc: nvcc itself: (.*)$", ran.stderr, re.M)
    # (with several threads, a command that fails is status 255)
    return said[1] if said and said[1] != MADE_AGAIN else "planned" if ran.returncode in (1, 255) else f"status {ran.returncode}"


def main() -> int:
    try:
        version = subprocess.run(["nvcc", "--version"], capture_output=True, text=True, check=True).stdout
    except OSError:
        return skip_all("readings of nvcc", "nvcc is not on the path")
    for variable in [name for name in os.environ if name.startswith(("NVCC_", "ZIGRUNK_"))]:
        del os.environ[variable]
    counts, kinds = Counts(), Counter[str]()
    with tempfile.TemporaryDirectory() as base, concurrent.futures.ThreadPoolExecutor(os.cpu_count()) as pool:
        for source in ("k.cu", "one.cu"):
            Path(base, source).write_text("__global__ void k(int* p) { *p = 1; }\n")
        for name in names():
            said = [*pool.map(lambda line: (answer(line, base), line), lines(name))]
            kinds.update(kind if kind in ("planned", OTHERWISE) else "nvcc makes the call" for kind, _ in said)
            bad = [" ".join(line) for kind, line in said if kind == OTHERWISE and "release 13.0" in version]
            bad += [f"{' '.join(line)}: {kind}" for kind, line in said if kind.startswith("status ")]
            counts.case(name, bad)
    print(", ".join(f"{kind}: {number}" for kind, number in sorted(kinds.items())))
    if not kinds["planned"]:
        counts.case("", ["no line is planned"])
    return counts.summary()


if __name__ == "__main__":
    sys.exit(main())
