#!/usr/bin/env python3
"""Makes calls whose host compiler is a wrapper, by nvcc and by zigrunk-nvcc, and says what differs.

    tests/wrappers.py [--first N] [--jobs N] [--scratch FOLDER] [--json FILE] [--list] [--nvcc PATH] [--ours PATH] SEED COUNT

A wrapper is a script that has a host compiler's name: it adds words in front or at the end, if the line has a certain option or always;
refuses some; writes down what it gets; compiles twice, as a cache does; or is a link to another compiler. nvcc finds it by PATH, by -ccbin
with a folder or a file, or by a name with a version. The same seed draws the same wrappers, and each depends on the seed and its own number
alone: --first 7 with a COUNT of 1 makes the seventh again. --list prints the wrappers and makes no call.

tests/compare_calls.py compares the two tools: statuses, files, what is printed, and what the wrapper got. nvcc asks the host compiler for its
version in each dry run too, so those calls don't count. The last line is 'N passed, M failed'.
"""
import json
import random
import sys
from collections.abc import Iterator
from pathlib import Path

from compare_calls import Call, common_options, compare_all, loud, makes, record_of, show, shows_nothing, version_of
from runner import Counts

# What a wrapper adds.
ADDED = ["--coverage", "-DWRAPPED=1", "-DNAME='\"a b\"'", "-O1", "-O2", "-fstack-protector-all", "-fno-inline", "-Wall -Wextra", "-g", "-g1",
         "-Wold-style-cast", "-D_FORTIFY_SOURCE=2 -O2", "-fPIE", "-pipe", "-fno-ident", "-frecord-gcc-switches", "-Wa,--noexecstack",
         "-Wa,--fatal-warnings", "-include added.h", "-ffunction-sections -fdata-sections", "-fstack-usage", "-w", "-ftest-coverage",
         "-Wp,-DPASSED", "-fprofile-arcs", "-B/usr/bin", "-no-canonical-prefixes", "-fdiagnostics-color=never", "-Werror"]
# When: a pattern for the line, which begins and ends with a blank.
WHEN = ["*", "*", "*' -c '*", "*' -c '*", "*' -S '*", "*' -E '*", "*' -x c++ '*", "*.cudafe1.cpp*", "*' -D__CUDA_ARCH__='*", "*' -m64 '*", "*' -o '*",
        "*assembler*"]
# What a wrapper refuses.
REFUSED = ["*' -S '*", "*' -x assembler '*", "*late.s*", "*zigrunk.tmp*", "*.s' '*", "*' -fdirectives-only '*", "*' -dD '*", "*' -E '*' -c '*",
           "*' -DREFUSED '*", "*' -Wold-style-cast '*"]
# What else it does before it calls the compiler.
ELSE = ["export LC_ALL=C", "export GCC_COLORS=", "umask 027", "echo wrapped >&2", "for word; do last=$word; done", "unset TMPDIR", "ulimit -c 0",
        "[ -t 1 ] || true", "case \"$line\" in *' -c '*) echo compiles >&2;; esac", "case \"$line\" in *.cudafe1.cpp*) echo compiles;; esac"]
# As a cache: the compile is preprocessed first.
CACHE = """case "$line" in *' -c '*)
    "$real" "$@" -E -o "${TMPDIR:-/tmp}/wrapped.$$" 2> /dev/null; rm -f "${TMPDIR:-/tmp}/wrapped.$$";;
esac"""
# Words of nvcc's calls.
CALLS = ["-c kernel.cu -o k.o", "-c kernel.cu -o k.o", "-dc static.cu -o k.o", "-O2 -c sub/k2.cu -o k.o", "-Xcompiler -fPIC -c kernel.cu -o k.o",
         "-gencode arch=compute_75,code=sm_75 -gencode arch=compute_80,code=sm_80 -c kernel.cu -o k.o", "-MD -MF k.d -c kernel.cu -o k.o",
         "-c gccwarn.cu -Xcompiler -Wall -o k.o", "-c hosterr.cu -o k.o", "-ptx dev.cu -o k.ptx", "-c lambda.cu -extended-lambda -o k.o",
         "-g -c kernel.cu -o k.o", "-c host.cpp -o k.o", "-t2 -arch=sm_80 -c kernel.cu -o k.o", "-fatbin -arch=sm_80 kernel.cu -o k.fatbin"]
# How nvcc finds a wrapper: its folder's names, and the words and the folder of PATH by which it's found.
BY_PATH, BY_FOLDER, BY_FILE, BY_NAME = "by PATH", "by its folder", "by its file", "by a name with a version"
NAMES = {BY_PATH: ["gcc", "g++"], BY_FOLDER: ["gcc", "g++"], BY_FILE: ["g++"], BY_NAME: ["g++-12", "x86_64-linux-gnu-g++"]}
BIN = '"$WORK/bin"'
# What the wrapper got. If a call fails, ours may have begun more commands, or fewer: it has another order.
AFTER = 'if ls k.* > /dev/null 2>&1; then sort "$COMPARE_LOG.words" 2> /dev/null; fi; rm -f "$COMPARE_LOG.words"'
# The call by which nvcc asks for the version.
ASKS = "'-E '*tmpxft*.cpp"


def script(draw: random.Random, real: str) -> str:
    """A wrapper around a compiler."""
    lines = ["#!/bin/sh", f"real=/usr/bin/{real} line=\" $* \"",
             f'case "$*" in {ASKS}) exec "$real" "$@";; esac', 'printf "%s\\n" "$*" >> "$COMPARE_LOG.words"']
    for _ in range(draw.choice([0, 0, 1])):
        lines.append(draw.choice(ELSE))
    for _ in range(draw.choice([0, 1, 1, 2])):
        added, at_front = draw.choice(ADDED), draw.random() < 0.5
        words = f'{added} "$@"' if at_front else f'"$@" {added}'
        lines.append(f'case "$line" in {draw.choice(WHEN)}) set -- {words};; esac')
    for _ in range(draw.choice([0, 0, 1, 1])):
        lines.append(f'case "$line" in {draw.choice(REFUSED)}) echo "wrapper: refused" >&2; exit {draw.choice([1, 3, 77])};; esac')
    if draw.random() < 0.15:
        lines.append(CACHE)
    return "\n".join([*lines, draw.choice(['exec "$real" "$@"', '"$real" "$@"', '"$real" "$@"; status=$?; exit $status']), ""])


def setup(draw: random.Random, name: str) -> str:
    """What puts a host compiler of a name into place, as shell commands."""
    real = "gcc" if name.startswith("gcc") else "g++"
    kind = draw.random()
    if kind < 0.08:
        clang = {"gcc": "clang-14", "g++": "clang++-14"}[real]
        return f"ln -s /usr/bin/{clang} {BIN}/{name}\n"
    if kind < 0.14:
        return f"ln -s /usr/bin/ccache {BIN}/{name}\n"
    if kind < 0.2:
        return f"ln -s /usr/bin/{real} {BIN}/other; ln -s other {BIN}/{name}\n"
    return f"cat > {BIN}/{name} << 'END_OF_WRAPPER'\n{script(draw, real)}END_OF_WRAPPER\nchmod +x {BIN}/{name}\n"


def drawn(seed: int, number: int) -> Call:
    """The call of a number."""
    draw = random.Random(f"wrapper {seed} {number}")
    found = draw.choice([BY_PATH, BY_FOLDER, BY_FILE, BY_NAME])
    names = NAMES[found] if found != BY_NAME else [draw.choice(NAMES[BY_NAME])]
    state = draw.getstate()
    put = ""
    for name in names:
        draw.setstate(state)
        put += setup(draw, name)
    words = {BY_PATH: "", BY_FOLDER: "-ccbin @WORK@/bin ", BY_FILE: f"-ccbin @WORK@/bin/{names[0]} ", BY_NAME: f"-ccbin {names[0]} "}[found]
    call = Call(f"@name='wrapper {seed} {number} {found}' {words}{draw.choice(CALLS)}", number)
    call.setup = f"mkdir {BIN}; echo '#define ADDED 1' > added.h\n{put}"
    call.after = AFTER
    call.env = {"CCACHE_DIR": "@WORK@/../ccache"}
    if found in (BY_PATH, BY_NAME):
        call.env["PATH"] = "@WORK@/bin:/usr/local/bin:/usr/bin:/bin"
    return call


def problems(calls: list[Call], totals: list[tuple[bool, bool, bool]]) -> Iterator[str]:
    """Why the calls show nothing."""
    failing, compiling, split = (sum(one[place] for one in totals) for place in range(3))
    if len(calls) > 5:
        yield from shows_nothing(len(calls), failing, compiling, split)


def main() -> int:
    parser = common_options(__doc__)
    parser.add_argument("seed", type=int)
    parser.add_argument("count", type=int)
    parser.add_argument("--first", type=int, default=1)
    parser.add_argument("--list", action="store_true")
    args = parser.parse_args()
    calls = [drawn(args.seed, number) for number in range(args.first, args.first + args.count)]
    if args.list:
        for call in calls:
            print(f"{call.line}\n{call.setup}")
        return 0
    args.version, args.keep = version_of(args.nvcc), None
    counts, records, totals = Counts(), [], []
    for compared in compare_all(calls, args):
        _, want, got, differences, _ = compared
        differs = bool(loud(differences))
        counts.passed += not differs
        counts.failed += differs
        if differs:
            show("DIFFERS", compared)
            print(compared[0].setup)
        totals.append((want["status"] != 0 and got["status"] != 0, makes(want), got["reason"] is None))
        records.append(record_of(compared))
    if args.json:
        Path(args.json).write_text(json.dumps(records, indent=1))
    if found := list(problems(calls, totals)):
        counts.case("", found)
    print(f"{sum(split for *_, split in totals)} of {len(calls)} calls were split, {sum(failing for failing, *_ in totals)} failed by both")
    return counts.summary()


if __name__ == "__main__":
    sys.exit(main())
