#!/usr/bin/env python3
"""Makes random calls by nvcc and by zigrunk-nvcc, and says what differs.

    tests/random_calls.py [--seed N] [--count N] [--first N] [--jobs N] [--scratch FOLDER] [--json FILE] [--list] [--nvcc PATH]
        [--ours PATH]

The words of a call are drawn from nvcc's options, as crates/nvcc_calls has them, with values from a small grammar: most are good, some
are odd, and some name files, relative or not. A third of the calls ask for line information or debug code. Some words go into
NVCC_PREPEND_FLAGS, NVCC_APPEND_FLAGS or an options file. The same seed draws the same calls, and each call depends on the seed and its own
number alone: --first 7 --count 1 makes the seventh again. --list prints the calls and makes none.

tests/compare_calls.py compares the two tools: statuses, files, what is printed, and what is left in TMPDIR. A difference that
docs/DIFFERENCES.md lists for such words isn't a failure. KNOWN below has a rule for each of its rows. Each other difference is printed
with its call as a line that fits the call lists, such as tests/calls_odd.txt.

The last line is 'N passed, M failed'. It is a failure too if most calls fail by both tools, or if none compiles anything or is split.
"""
import argparse
import collections
import json
import random
import re
import shlex
import sys
from collections.abc import Callable, Iterator
from pathlib import Path

from compare_calls import Call, Compared, Difference, Ran, common_options, compare_all, loud, makes, record_of, shows_nothing, version_of
from runner import Counts

TABLE = Path(__file__).resolve().parent.parent / "crates/nvcc_calls/src/options.rt"
Draw = random.Random

# Sources, how often each is drawn, and the words without which it doesn't compile.
SOURCES: list[tuple[int, str, list[str]]] = [
    (20, "dev.cu", []), (12, "sub/k2.cu", []), (8, "sp ace.cu", []), (12, "useinc.cu", ["-Iinc"]), (8, "define.cu", []),
    (8, "value.cu", ["-DV=3"]), (8, "static.cu", []), (6, "warn.cu", []), (6, "gccwarn.cu", []), (4, "kern.cpp", ["-x", "cu"]),
    (3, "host.cpp", []), (2, "host.c", []), (1, "syntax.cu", []), (1, "hosterr.cu", []), (1, "deverr.cu", []), (1, "asmerr.cu", []),
    (1, "archerr.cu", []), (1, "missing.cu", []), (8, "sub/file.cu", ["-Iinc"]), (6, "line.cu", ["-Iinc"]), (2, "lineerr.cu", []),
]
PHASES = [(40, "-c"), (5, "--compile"), (22, "-ptx"), (3, "--ptx"), (8, "-cubin"), (2, "--cubin"), (10, "-fatbin"), (2, "--fatbin"), (10, "-dc"),
          (3, "--device-c"), (3, "-dw"), (2, "-optix-ir")]
SUFFIXES = {"ptx": ".ptx", "cubin": ".cubin", "fatbin": ".fatbin", "optix-ir": ".optixir"}
SWITCH = ["true", "false"]

# Good values by the options' short names. The setup of a call makes the folders od and kd, and the options file o.rsp.
VALUES: dict[str, list[str]] = {
    "-arch": ["sm_75", "sm_80", "sm_86", "sm_90", "compute_80", "compute_90", "sm_80"],
    "-gencode": ["arch=compute_80,code=sm_80", "arch=compute_75,code=sm_75", "arch=compute_80,code=compute_80",
                 "arch=compute_80,code=[sm_80,compute_80]", "arch=compute_80,code=[sm_80,sm_86]", "arch=compute_86,code=sm_86",
                 "arch=compute_80,code=lto_80"],
    "-code": ["sm_80", "compute_80", "sm_80,compute_80"],
    "-std": ["c++11", "c++14", "c++17", "c++20"],
    "-O": ["0", "1", "2", "3"], "--optimize": ["0", "2", "3"], "-m": ["64"], "-maxrregcount": ["16", "32", "255"],
    "-ftz": SWITCH, "-prec-div": SWITCH, "-prec-sqrt": SWITCH, "-fmad": SWITCH, "-rdc": SWITCH, "-brief-diag": SWITCH,
    "-device-entity-has-hidden-visibility": SWITCH, "-device-stack-protector": SWITCH, "-static-global-template-stub": SWITCH,
    "-D": ["A", "V=1", "V=2", "A=B=C", "A,B", "NAME=\"a b\"", "NAME='c'", "F(x)=x", "E=", "a.b", "N=1,V=4"],
    "-U": ["A", "V", "NAME", "unix", "A,V"],
    "-I": ["inc", "./inc", ".", "sub", "@WORK@/inc", "no such", "inc,sub", "in\"c"],
    "-isystem": ["inc", ".", "@WORK@/inc", "sub"],
    "-include": ["inc/b.h", "./inc/b.h", "@WORK@/inc/b.h", "cuda_runtime.h"],
    "-L": [".", "/usr/lib", "no such"], "-l": ["m", "z", "m,z"],
    "-Xcompiler": ["-Wall", "-O2", "-fno-inline", "-Wall,-Wextra", "-g", "-fPIC", "-DX=1", "-w", "-march=x86-64-v2", "-Wno-all -O1",
                   "-fno-exceptions", "-Wall -Wextra", "-fvisibility=hidden", "-pthread", "-UX,-Iinc", "-include,inc/b.h", "-MMD,-MF,g.d",
                   "-MD,-MF,@WORK@/sub/g.d", "-save-temps", "-fstack-usage", "-pedantic", "-Iinc,-I@WORK@/sub", "-imacros,inc/b.h",
                   "-iquote,inc", "-idirafter,@WORK@/inc", "-include,@WORK@/inc/b.h", "-aux-info,a.txt", "-fdump-tree-optimized=sub/t.txt",
                   "-fopt-info-all=@WORK@/o.txt", "-ffile-prefix-map=sub=x", "-Wp,-MMD,w.d", "-dumpdir,sub/", "-save-temps=obj"],
    "-Xptxas": ["-v", "-O1", "-O3", "-warn-spills", "-v,-O2", "--verbose", "-dlcm=ca", "-maxrregcount=32", "-w", "--compiler-stats-file=s.txt",
                "--compiler-stats-file=@WORK@/sub/s.txt", "-o,x.cubin"],
    "-Xcudafe": ["--diag_suppress=177", "--display_error_number", "--diag_suppress=177,--display_error_number", "--error_output=e.txt",
                 "--error_output=@WORK@/e.txt", "--preinclude=inc/b.h", "--preinclude=@WORK@/inc/b.h"],
    "-Xcicc": ["-opt=1", "-ftz=1", "--error_output=e.txt", "--error_output=@WORK@/sub/e.txt", "--list=l.txt", "--preinclude=@WORK@/inc/b.h"],
    "-Xfatbin": ["-compress-all", "-compress=false", "--compress-all", "--create=x.fatbin", "--embedded-fatbin=@WORK@/x.c"],
    "-Xlinker": ["-z,now", "--as-needed"], "-Xarchive": ["x"], "-Xnvlink": ["-v"],
    "-cudart": ["none", "shared", "static"], "-cudadevrt": ["none", "static"], "-default-stream": ["legacy", "per-thread", "null"],
    "-diag-suppress": ["177", "20012", "177,550"], "-diag-warn": ["177"], "-diag-error": ["1,2", "550"],
    "-Werror": ["all-warnings", "cross-execution-space-call", "reorder", "deprecated-declarations", "default-stream-launch"],
    "-arbin": ["ar", "/usr/bin/ar"], "-ccbin": ["g++", "gcc", "/usr/bin/g++", "/usr/bin", "c++"],
    "-compress-mode": ["default", "size", "speed", "balance", "none"], "-dopt": ["on"], "-e": ["k", "one"], "-frandom-seed": ["1", "a"],
    "-ftemplate-backtrace-limit": ["10"], "-ftemplate-depth": ["100"], "-jtd": ["0", "50", "101"], "-ldir": ["."],
    "-Ofc": ["0", "min", "mid", "max"], "-opt-info": ["inline"], "-target-dir": ["x86_64-linux"], "-qpp-config": ["gcc"], "-run-args": ["a"],
    "-sanitize": ["x"], "-split-compile": ["0", "1", "2", "4"], "-split-compile-extended": ["0", "2"],
    "-t": ["0", "1", "2", "4"], "-keep-dir": ["kd"], "-odir": ["od"], "-x": ["cu", "cu", "cu", "c++", "c"], "-MF": ["d.d", "sub/x.d", "@WORK@/y"],
    "-MT": ["t", "a b", "sub/x.o", "$(X)"], "-optf": ["o.rsp", "./o.rsp", "@WORK@/o.rsp"], "-time": ["t.csv"], "-fdevice-time-trace": ["-", "t.json"],
    "-ddp": ["x"], "-dp": ["x"], "-idp": ["x"], "-hls": ["gen-lcs"],
}
# Values that any option may get, and words that nvcc doesn't know.
ODD = ["", "x", "-c", "a b", "a;b", "$HOME", "a,b", "=", ",", "1", "-", "dev.cu", "\"", "it's", "a\\b", "k.cpp1.ii", "é", "*", "@f", "#",
       "a&b", "`x`"]
UNKNOWN = ["-Wall", "-fPIC", "-march=x86-64-v2", "-O4x", "--no-such", "-foo", "-fno-rtti", "-Wl,-z,now", "-pipe", "-P", "-iquoteinc", "-ok.o",
           "--", "@k"]
# How often each option of a purpose is drawn.
WEIGHTS = {
    "Plain": 4, "Forward": 1, "Unquoted": 4, "Quoted": 8, "Define": 10, "Undefine": 4, "Include": 10, "PreInclude": 5, "OptimizationInfo": 2,
    "TargetDirectory": 1, "Phase": 1, "OutputDirectory": 3, "Language": 4, "Keep": 4, "KeepDirectory": 5, "Threads": 8, "Dependencies": 10,
    "DependencyPhonies": 6, "DependencyFile": 8, "DependencyTarget": 6, "File": 12, "Passes": 1,
}


class Option:
    """An option of nvcc: a spelling, whether it takes a value and how, what it is for, and its short name."""

    def __init__(self, text: str, form: str, purpose: str, short: str) -> None:
        self.text, self.form, self.purpose, self.short = text, form, purpose, short

    def words(self, draw: Draw) -> list[str]:
        """The option with a value, if it takes one."""
        if self.form == "flag":
            return [self.text]
        good = VALUES[self.short]
        value = draw.choice(good) if draw.random() < 0.93 else draw.choice(ODD)
        if self.form == "JOINED" or (self.form == "EITHER_WAY" and value and draw.random() < 0.6):
            return [self.text + value]
        if self.form == "EITHER_WAY_OR_EQUALS" and draw.random() < 0.5:
            return [f"{self.text}={value}"]
        return [self.text, value]


def options() -> list[Option]:
    """The options of the table, but the output and standard input, which are drawn apart."""
    table = re.sub(r"//.*", "", TABLE.read_text())
    found = []
    for form, purpose, texts in re.findall(r"(\w+) Purpose::(\w+)(?:\(\S+\))? =>\s+((?:\"\S+\"\s*)+);", table):
        names = re.findall(r'"(\S+?)"', texts)
        for at, text in enumerate(names):
            short = names[at + 1] if text.startswith("--") and at + 1 < len(names) and not names[at + 1].startswith("--") else text
            if purpose != "Output" and text != "-":
                found.append(Option(text, form, purpose, SHORT.get(text, short).rstrip("=")))
    return found


# The short names of options that the table has in another group.
SHORT = {"--include-path": "-I", "--library-path": "-L", "--define-macro": "-D", "--undefine-macro": "-U", "--threads": "-t", "--library": "-l",
         "--optimize": "-O"}


def weighted(draw: Draw, rows: list[tuple[int, str]]) -> str:
    return draw.choices([row[1] for row in rows], [row[0] for row in rows])[0]


def output_words(draw: Draw, phase: str, source: str) -> list[str]:
    """The output of a call, in one of its spellings, or none."""
    if draw.random() < 0.25:
        return []
    suffix = SUFFIXES.get(phase.lstrip("-"), ".o")
    name = draw.choice([f"k{suffix}", f"k{suffix}", f"sub/k{suffix}", f"@WORK@/k{suffix}", f"o ut{suffix}", "k", f"a.b{suffix}", f"./k{suffix}",
                        Path(source).stem + suffix, f"od/k{suffix}"])
    if draw.random() < 0.04:
        name = draw.choice(ODD)
    return draw.choice([["-o", name], ["-o", name], ["-o", name], [f"-o={name}"], [f"--output-file={name}"], ["--output-file", name]])


def drawn_options(draw: Draw, table: list[Option], weights: list[int]) -> list[list[str]]:
    groups = []
    for option in draw.choices(table, weights, k=draw.choice([0, 1, 1, 2, 2, 2, 3, 3, 4, 6])):
        groups.append(option.words(draw))
        if option.purpose in ("DependencyFile", "DependencyTarget", "DependencyPhonies") and draw.random() < 0.85:
            groups.append([draw.choice(["-MD", "-MMD"])])
        if option.purpose == "KeepDirectory" and draw.random() < 0.85:
            groups.append(["--keep"])
    if draw.random() < 0.08:
        groups.append([draw.choice(UNKNOWN)])
        if draw.random() < 0.7:
            groups.append(["-forward-unknown-to-host-compiler"])
    return groups


def elsewhere(draw: Draw, groups: list[list[str]]) -> Iterator[str]:
    """Moves words into variables and into an options file, and yields the fields that say so."""
    for name in ("NVCC_PREPEND_FLAGS", "NVCC_APPEND_FLAGS"):
        if groups and draw.random() < 0.08:
            yield f"@env={name}={' '.join(groups.pop(draw.randrange(len(groups))))}"
    if any("o.rsp" in word for group in groups for word in group):
        own = [group for group in groups if "o.rsp" not in " ".join(group)]
        moved = draw.choice(own) if own else ["-DR=1"]
        if moved in groups:
            groups.remove(moved)
        text = " ".join(f'"{word}"' if " " in word else word for word in moved)
        yield f"@setup=printf '%s\\n' {shlex.quote(text)} > o.rsp; mkdir -p od kd"
    else:
        yield "@setup=mkdir -p od kd"


def line_of(seed: int, number: int, table: list[Option], weights: list[int]) -> str:
    """The line of a call."""
    draw = Draw(f"{seed} {number}")
    _, source, needed = draw.choices(SOURCES, [row[0] for row in SOURCES])[0]
    phase = weighted(draw, PHASES)
    groups = drawn_options(draw, table, weights)
    if draw.random() < 0.33:
        groups.append([draw.choice(["-lineinfo", "--generate-line-info", "-G", "--source-in-ptx"])])
    if draw.random() < 0.97:
        groups.append([phase])
    if needed and draw.random() < 0.95:
        groups.append(needed)
    if output := output_words(draw, phase, source):
        groups.append(output)
    draw.shuffle(groups)
    fields = [f"@name=random-{seed}-{number}", *elsewhere(draw, groups)]
    groups.insert(draw.choice([len(groups), draw.randint(0, len(groups))]), [source] if draw.random() < 0.98 else [source, "host.c"])
    return " ".join(shlex.quote(word) for word in [*fields, *(word for group in groups for word in group)])


def both_fail(want: Ran, got: Ran) -> bool:
    return want["status"] != 0 and got["status"] not in (0, "timeout")


def is_debug(line: str, want: Ran, got: Ran, found: Difference) -> bool:
    """-G: a cubin, and what packs it, holds ptxas's line with the name of a temporary file. PTX alone has none."""
    return found[0] == "CONTENT" and re.search(r"-G\b|device-debug", line) is not None and not found[1].endswith(".ptx")


def is_later_failure(line: str, want: Ran, got: Ran, found: Difference) -> bool:
    """A command fails: others run at the same time, and what they write stays. Of several targets a later one may fail first."""
    kept = found[0] == "FILE-EXTRA" and re.search(r"-keep|save-temps|-Xcompiler\b|-compiler-options", line) is not None
    other = found[0] in ("SAID", "STATUS") and len(re.findall(r"sm_\d\d|compute_\d\d|all-major", line)) > 1
    return both_fail(want, got) and (kept or other)


def is_failure_of_threads(line: str, want: Ran, got: Ran, found: Difference) -> bool:
    """--threads: several commands fail at once, or others speak: nvcc tells of them as they end, also if it makes our call."""
    told = want["status"] == 255 or got["reason"] is not None
    return both_fail(want, got) and told and found[0] in ("SAID", "ORDER") and re.search(r"--threads|-t[ =\d]", line) is not None


def is_left_by_nvcc(line: str, want: Ran, got: Ran, found: Difference) -> bool:
    """nvcc leaves a file of a failed cicc in TMPDIR: ours leaves nothing."""
    return found[0] == "LEFT" and both_fail(want, got) and not got["left"]


# The rows of docs/DIFFERENCES.md that such calls can show.
KNOWN: list[Callable[[str, Ran, Ran, Difference], bool]] = [is_debug, is_later_failure, is_failure_of_threads, is_left_by_nvcc]


def row_of(line: str, want: Ran, got: Ran, found: Difference) -> str:
    """The rule that explains a difference, or nothing."""
    return next((rule.__name__ for rule in KNOWN if rule(line, want, got, found)), "")


class Totals:
    """What the calls showed."""

    def __init__(self) -> None:
        self.counts = Counts()
        self.rows: collections.Counter[str] = collections.Counter()
        self.failing = self.compiling = self.split = self.wrong = 0

    def add(self, compared: Compared) -> list[Difference]:
        """Counts a call, and prints it if it differs in a way that no rule explains. Returns what differs so."""
        call, want, got, found, _ = compared
        self.failing += want["status"] != 0 and got["status"] != 0
        self.compiling += makes(want)
        self.split += not got["reason"]
        unknown = []
        for difference in found:
            if difference[0] in loud([difference]):
                row = row_of(call.line, want, got, difference)
                self.rows[row] += bool(row)
                unknown += [] if row else [difference]
        self.wrong += got["status"] == 0 and any(kind in ("CONTENT", "FILE-LACKS", "FILE-EXTRA") for kind, _ in unknown)
        self.counts.passed += not unknown
        self.counts.failed += bool(unknown)
        if unknown:
            print(call.line)
            for kind, text in unknown:
                print(f"#     {kind}: {text}"[:500])
            print(f"#     statuses {want['status']} and {got['status']}, {got['reason'] or 'split'}", flush=True)
        return unknown


def arguments() -> argparse.Namespace:
    parser = common_options(__doc__)
    parser.set_defaults(keep=None)
    parser.add_argument("--seed", type=int, default=1)
    parser.add_argument("--count", type=int, default=100)
    parser.add_argument("--first", type=int, default=1)
    parser.add_argument("--list", action="store_true")
    return parser.parse_args()


def main() -> int:
    args = arguments()
    table = options()
    weights = [WEIGHTS[option.purpose] for option in table]
    lines = [line_of(args.seed, number, table, weights) for number in range(args.first, args.first + args.count)]
    if args.list:
        print("\n".join(lines))
        return 0
    args.version = version_of(args.nvcc)
    totals, records = Totals(), []
    calls = [Call(line, number) for number, line in enumerate(lines, args.first)]
    for compared in compare_all(calls, args):
        records.append(record_of(compared, unknown=totals.add(compared)))
    if args.json:
        Path(args.json).write_text(json.dumps(records, indent=1))
    print(f"seed {args.seed}, calls {args.first} to {args.first + len(calls) - 1}: {totals.split} were split, {totals.compiling} make something by "
          f"nvcc, {totals.failing} fail by both tools")
    print("as docs/DIFFERENCES.md says:", ", ".join(f"{row} {count}" for row, count in sorted(totals.rows.items()) if row) or "none")
    print(f"wrong products with status 0: {totals.wrong}")
    if nothing := [*shows_nothing(len(calls), totals.failing, totals.compiling, totals.split)]:
        totals.counts.case("", nothing)
    return totals.counts.summary()


if __name__ == "__main__":
    sys.exit(main())
