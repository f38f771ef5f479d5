#!/usr/bin/env python3
"""Tests that keys of commands tell what a cache has to know: makes calls of nvcc by the key maker, bindings/rust/examples/keys.rs, and compares what
commands with equal keys make, byte for byte. First the variations of tests/callers/keys.txt, and then pairs of calls by lot that differ in little.

    tests/callers_keys.py [OPTIONS] KEYS      KEYS: the key maker, as `cargo build --example keys` leaves it

    --seed N     the seed of the lot, 1 by default
    --count N    so many pairs by lot, 200 by default
    --jobs N     so many calls at once, 2 by default
    --only TEXT  only the variations whose names have this text, and no pairs
    --first N    only the pairs from this one on, and no variations

A false hit is a failure: two commands with one key make other files, or only one of them succeeds. All commands of the lot that ran in one place are
compared with each other. It also counts false misses: commands at one place of two calls that make the same, with other keys or with none. Of the
variations the list says which there are; of the lot it prints them. The last line is 'N passed, M failed'."""
import argparse
import concurrent.futures
import itertools
import os
import random
import re
import shutil
import struct
import subprocess
import sys
import tempfile
from collections import Counter, defaultdict
from collections.abc import Callable
from dataclasses import dataclass, field, replace
from hashlib import sha256
from pathlib import Path

from compare_calls import path_of, shell_words
from runner import Counts, skip_all

HERE = Path(__file__).resolve().parent
TOOLS = ("cudafe++", "cicc", "ptxas")
KERNEL = """#include "k.h"
#ifndef A
#define A 2
#endif
__global__ void scale(float *x) { x[threadIdx.x] *= A + H; }
void run(float *x) { scale<<<1, 32>>>(x); }
"""
SOURCES = {
    "k.cu": KERNEL,
    "k.h": "#define H 1\n",
    "file.cpp": "const char *name() { return __FILE__; }\n__global__ void k(int *a) { *a = 1; }\n",
    "incbin.cu": "asm(\".section .rodata\\n.incbin \\\"data.bin\\\"\\n\");\n" + KERNEL,
    "data.bin": "data",
    "static.cu": "static __global__ void k(int *a) { *a = 1; }\nstatic void f() { k<<<1, 1>>>(0); }\nstruct S { S() { f(); } };\nstatic S s;\n",
    "cosine.cu": "__global__ void k(double *x) { *x = cos(8.1764856122660277); }\n",
    "named.cu": "__global__ void k(int *a) { asm volatile(\".loc 1 3 0\\nret;\\n}\\n.file 1 \\\"../w/k.cu\\\"\\n.func more() {\"); }\n",
    "sine.cu": "__global__ void k(float *x) { x[threadIdx.x] = sinf(x[threadIdx.x]); }\n",
    "inc/none.h": "", "inc2/none.h": "",
}
PRODUCTS = {"-c": "k.o", "-dc": "k.o", "-ptx": "k.ptx", "-cubin": "k.cubin", "-fatbin": "k.fatbin"}


@dataclass(frozen=True)
class Call:
    """A call of nvcc, and all that it depends on."""

    words: tuple[str, ...] = ()
    phase: str = "-c"
    source: str = "k.cu"
    product: str = ""
    cwd: str = "w"
    tmp: str = "t"
    env: tuple[tuple[str, str], ...] = ()
    files: tuple[tuple[str, str], ...] = ()
    do: str = ""
    is_absolute: bool = False

    def line(self, cwd: Path) -> list[str]:
        source = str(cwd / self.source) if self.is_absolute else self.source
        return [self.phase, source, "-o", self.product or PRODUCTS[self.phase], *self.words]


@dataclass
class Ran:
    """A command that ran: its key, or "-", and a digest of what it made."""

    tool: str
    key: str
    made: str


def program(path: Path, text: str) -> None:
    path.parent.mkdir(parents=True, exist_ok=True)
    path.unlink(missing_ok=True)
    path.write_text(text)
    path.chmod(0o755)


def with_assembler(folder: Path, env: dict[str, str]) -> None:
    program(folder / "as", f"#!/bin/sh\nexec {path_of('as')} --gdwarf-4 \"$@\"\n")
    env["PATH"] = f"{folder}:{env['PATH']}"


def toolkit(folder: Path, env: dict[str, str]) -> Path:
    """A toolkit of links, whose nvcc and library are its own. nvcc finds its tools by its own place."""
    said = subprocess.run(["nvcc", "--dryrun", "-c", "none.cu"], capture_output=True, text=True, env=env).stderr
    real = Path(re.findall(r"^#\$ _HERE_=(.*)", said, re.MULTILINE)[0]).resolve().parent
    for name in ("bin", "nvvm"):
        (folder / name).mkdir(parents=True)
        for it in (real / name).iterdir():
            (folder / name / it.name).symlink_to(it)
    for it in real.iterdir():
        if it.name not in ("bin", "nvvm"):
            (folder / it.name).symlink_to(it)
    for name in ("bin/nvcc", "bin/nvcc.profile"):
        (folder / name).unlink()
        shutil.copy(real / name, folder / name)
    (folder / "nvvm/libdevice").unlink()
    shutil.copytree(real / "nvvm/libdevice", folder / "nvvm/libdevice")
    env["PATH"] = f"{folder}/bin:{env['PATH']}"
    return folder


def with_toolkit(folder: Path, env: dict[str, str]) -> None:
    toolkit(folder, env)


def with_library(folder: Path, env: dict[str, str]) -> None:
    for library in (toolkit(folder, env) / "nvvm/libdevice").iterdir():
        library.write_bytes(library.read_bytes()[:-4096])


def with_libm(folder: Path, env: dict[str, str]) -> None:
    """A libm whose cosine is another one: its polynomial has another factor."""
    system = subprocess.run(["cc", "-print-file-name=libm.so.6"], capture_output=True, text=True, check=True).stdout.strip()
    library = Path(system).read_bytes().replace(struct.pack("<d", -1.66666666666664880952546298448555e-01), struct.pack("<d", -0.17))
    folder.mkdir(parents=True)
    (folder / "libm.so.6").write_bytes(library)
    env["LD_LIBRARY_PATH"] = str(folder)


def with_wrapper(folder: Path, env: dict[str, str]) -> None:
    real = (toolkit(folder, env) / "bin/ptxas").resolve()
    program(folder / "bin/ptxas", f"#!/bin/sh\nexec {real} \"$@\"\n")


def with_part(cwd: Path, _: dict[str, str]) -> None:
    program(cwd / "tools/as", f"#!/bin/sh\nexec {path_of('as')} --gdwarf-4 \"$@\"\n")


def touched(cwd: Path, _: dict[str, str]) -> None:
    os.utime(cwd / "k.cu", (1, 1))


def with_host_function(cwd: Path, _: dict[str, str]) -> None:
    (cwd / "k.cu").write_text(KERNEL + "int more() { return 1; }\n")


DO: dict[str, Callable[[Path, dict[str, str]], None]] = {"part": with_part, "touch": touched, "host": with_host_function}
DO_BESIDE = {"assembler": with_assembler, "toolkit": with_toolkit, "library": with_library, "libm": with_libm,
             "wrapper": with_wrapper}


def contents(path: str) -> bytes:
    return Path(path).read_bytes() if os.path.isfile(path) else b"none"


# How the module id of a source without an external name ends: in a sum and the number of cudafe++'s process, which are others each time.
MADE_UP = re.compile(rb"_[0-9a-f]{8}_\d+$")


def as_numbers(name: bytes) -> bytes:
    """A name as the elements of an array, as cudafe++ writes those of kernels."""
    return b",".join(b"0x%02x" % byte for byte in name)


def without_id(text: bytes, ids: set[bytes]) -> bytes:
    """A text without what cudafe++ makes up of a module id."""
    for name in ids:
        known = MADE_UP.sub(b"", name)
        text = text.replace(name, known).replace(as_numbers(name), as_numbers(known))
    return text


class Maker:
    """A place, in which calls are made one after the other."""

    def __init__(self, keys: str, place: Path) -> None:
        self.keys, self.place = keys, place

    def make(self, call: Call) -> list[Ran]:
        shutil.rmtree(self.place, ignore_errors=True)
        cwd, tmp = self.place / call.cwd, self.place / call.tmp
        for name, text in {**SOURCES, **dict(call.files)}.items():
            (cwd / name).parent.mkdir(parents=True, exist_ok=True)
            (cwd / name).write_text(text)
        tmp.mkdir(parents=True)
        env = {name: value for name, value in os.environ.items() if not name.startswith("NVCC_")}
        env.update({name: value.replace("$PATH", env["PATH"]) for name, value in call.env})
        DO.get(call.do, lambda *_: None)(cwd, env)
        DO_BESIDE.get(call.do, lambda *_: None)(self.place / "tools", env)
        nvcc = shutil.which("nvcc", path=env["PATH"]) or "nvcc"
        run = subprocess.run([self.keys, str(cwd), str(tmp), nvcc, *call.line(cwd)], cwd=cwd, env=env, stdin=subprocess.DEVNULL,
                             capture_output=True, text=True, errors="replace", timeout=600)
        lines = [line.split("\t") for line in run.stdout.splitlines() if re.match(r"([0-9a-f]{16}|-)\t", line)]
        ids = {text for _, _, _, *paths in lines for text in map(contents, paths) if len(text) < 1000 and MADE_UP.search(text)}
        ran = []
        for number, (key, _, of, *paths) in enumerate(lines):
            failed = run.returncode != 0 and number == len(lines) - 1
            texts = [without_id(contents(path), ids) for path in paths]
            made = "failed" if failed else sha256(b"".join(sha256(text).digest() for text in texts)).hexdigest()
            ran.append(Ran(os.path.basename(of), key, made))
        return ran or [Ran("nothing ran", "-", run.stderr[-300:])]


def outcome(first: list[Ran], second: list[Ran]) -> str:
    """What comes of the commands of a tool, from a first call to a second."""
    if not first or not second:
        return "-"
    told = set()
    for one, other in zip(first, second):
        same = one.made == other.made
        refused = "-" in (one.key, other.key)
        told.add("refused" if refused else "hit" if one.key == other.key else "missed" if same else "other")
    return "+".join(sorted(told)) + ("" if len(first) == len(second) else "+other" if told != {"other"} else "")


def of_tool(ran: list[Ran], tool: str) -> list[Ran]:
    return [it for it in ran if it.tool == tool]


class Known:
    """What was made under each key, and by which call."""

    def __init__(self) -> None:
        self.made: dict[str, tuple[str, Call]] = {}
        self.pairs = 0

    def false_hits(self, call: Call, ran: list[Ran]) -> list[str]:
        found = []
        for it in ran:
            if it.key == "-":
                continue
            before, other = self.made.setdefault(it.key, (it.made, call))
            self.pairs += other != call
            if before != it.made:
                found.append(f"a false hit of {it.tool}: {call} after {other}")
        return found

    @staticmethod
    def keys_of_others(ran: list[Ran]) -> list[str]:
        return [f"{it.tool} has a key" for it in ran if it.key != "-" and it.tool not in TOOLS]


@dataclass
class Variation:
    """A line of the list."""

    name: str = ""
    wanted: str = ""
    calls: list[Call] = field(default_factory=lambda: [Call(), Call()])

    @staticmethod
    def of(line: str) -> "Variation":
        words = shell_words(line)
        told = [word[1:].partition("=") for word in words if word.startswith("@")]
        values: dict[str, list[str]] = defaultdict(list)
        for key, _, value in told:
            values[key].append(value)

        def one(key: str, usual: str) -> str:
            return (values.pop(key, None) or [usual])[0]

        made = Variation(one("name", ""), one("is", ""))
        both, do = values.pop("both", []), one("do", "")
        shared = Call(phase=one("phase", "-c"), source=one("source", "k.cu"), is_absolute=do == "absolute")
        first = replace(shared, words=(*both, *values.pop("first", [])), do="toolkit" if do in ("library", "wrapper") else "")
        pairs = [tuple((it.partition("=")[0], it.partition("=")[2]) for it in values.pop(key, [])) for key in ("env", "file")]
        second = replace(shared, words=(*both, *(word for word in words if not word.startswith("@"))), product=one("product", ""),
                         cwd=one("cwd", "w"), tmp=one("tmp", "t"), env=pairs[0], files=pairs[1], do=do)
        if values or do not in ("", "absolute", *DO, *DO_BESIDE):
            sys.exit(f"{line}: no such field: {[*values, do]}")
        made.calls = [first, second]
        return made

    def findings(self, maker: Maker) -> list[str]:
        first, second = (maker.make(call) for call in self.calls)
        known = Known()
        found = [*known.false_hits(self.calls[0], first), *known.false_hits(self.calls[1], second), *known.keys_of_others(first + second)]
        told = ",".join(outcome(of_tool(first, tool), of_tool(second, tool)) for tool in TOOLS)
        return found + ([] if told == self.wanted else [f"{told}, not {self.wanted}; the last made {second[-1]}"])


# What calls of the lot are drawn from. Each list is one thing in which two calls may differ.
CHOICES: dict[str, list[tuple[str, ...]]] = {
    "macro": [(), ("-DA=1",), ("-DA=5",), ("-DNOTHING",)],
    "targets": [(), ("-arch=sm_80",), ("-gencode", "arch=compute_80,code=[sm_80,compute_80]"),
                ("-gencode", "arch=compute_80,code=sm_80", "-gencode", "arch=compute_90,code=sm_90")],
    "standard": [(), ("-std=c++14",), ("-std=c++20",)],
    "optimization": [(), ("-O0",), ("-O3",), ("-Xptxas", "-O1"), ("-use_fast_math",), ("-ftz=true",), ("-fmad=false",)],
    "registers": [(), ("-maxrregcount=32",), ("-Xptxas", "-dlcm=cg")],
    "debugging": [(), (), ("-lineinfo",), ("-g",), ("-G",)],
    "language": [(), ("--expt-relaxed-constexpr",), ("--extended-lambda",), ("-rdc=true",), ("-Xcudafe", "--diag_suppress=177")],
    "messages": [(), ("-Xptxas", "-v"), ("-w",), ("-res-usage",), ("-Xcompiler", "-Wall,-O1")],
    "others": [(), ("-split-compile=2",), ("-Iinc",), ("-t2",), ("-MD",), ("-extra-device-vectorization",), ("-keep-device-functions",)],
}
HOST = ["", "int more() { return 1; }\n", "int more() { return 2; }\n", "// a comment\n"]
KERNELS = ["", "__device__ int d = 1;\n", "__global__ void other(double *x) { *x = sin(*x); }\n", "__device__ int d = 2;\n"]
PLACES = ["w", "other", "a/longer/one"]


@dataclass(frozen=True)
class Drawn:
    """A call by lot, as what was drawn for it."""

    words: tuple[tuple[str, tuple[str, ...]], ...]
    phase: str
    host: str
    kernel: str
    header: str
    cwd: str
    tmp: str
    source: str

    def call(self) -> Call:
        text = (self.kernel + SOURCES[self.source] + self.host, SOURCES["k.h"] if not self.header else f"#define H {self.header}\n")
        words = tuple(itertools.chain.from_iterable(words for _, words in self.words))
        return Call(words, self.phase, self.source, cwd=self.cwd, tmp=self.tmp, files=((self.source, text[0]), ("k.h", text[1])))


def draw(lot: random.Random) -> Drawn:
    words = tuple((name, lot.choice(choices) if lot.random() < 0.4 else ()) for name, choices in CHOICES.items())
    phase = lot.choice(["-c", "-dc", "-fatbin", "-cubin", "-cubin", "-ptx"])
    return Drawn(words, phase, lot.choice(HOST), lot.choice(KERNELS), lot.choice(["", "7"]), lot.choice(PLACES), lot.choice(["t", "other/t"]),
                 lot.choice(["k.cu", "k.cu", "k.cu", "static.cu", "sine.cu"]))


def varied(lot: random.Random, drawn: Drawn) -> tuple[str, Drawn]:
    """A call that differs in one thing, and in which."""
    what = lot.choice([*CHOICES, "host", "kernel", "header", "cwd", "tmp"])
    another = draw(lot)
    if what in CHOICES:
        words = tuple((name, lot.choice([it for it in CHOICES[name] if it != old]) if name == what else old) for name, old in drawn.words)
        return what, replace(drawn, words=words)
    return what, replace(drawn, **{what: getattr(another, what)})


def lot_of(maker: Maker, known: Known, misses: Counter[str], numbers: list[int], seed: int) -> list[str]:
    """The pairs of some numbers, in one place."""
    found = []
    for number in numbers:
        lot = random.Random(f"{seed} {number}")
        first = draw(lot)
        what, second = varied(lot, first)
        ran = [maker.make(it.call()) for it in (first, second)]
        for call, it in zip((first, second), ran):
            found += [f"pair {number}: {hit}" for hit in known.false_hits(call.call(), it) + known.keys_of_others(it)]
        for tool in TOOLS:
            told = outcome(of_tool(ran[0], tool), of_tool(ran[1], tool))
            refused = "refused" in told and [it.made for it in of_tool(ran[0], tool)] == [it.made for it in of_tool(ran[1], tool)]
            for kind in told.split("+"):
                misses[f"{tool}: {kind if kind != 'refused' else 'refused, the same' if refused else 'refused'}"] += 1
            if "missed" in told:
                misses[f"{tool}: missed for another {what}"] += 1
    return found


def by_lot(args: argparse.Namespace, scratch: Path, counts: Counts) -> None:
    first = args.first or 1
    numbers = range(first, first + args.count)
    places = [(Maker(args.keys, scratch / f"lot{at}"), Known(), Counter[str]()) for at in range(args.jobs)]
    with concurrent.futures.ThreadPoolExecutor(args.jobs) as pool:
        found = list(pool.map(lambda at: lot_of(*places[at], [it for it in numbers if it % args.jobs == at], args.seed), range(args.jobs)))
    misses = sum((it for *_, it in places), Counter[str]())
    pairs = sum(known.pairs for _, known, _ in places)
    for what, count in sorted(misses.items()):
        print(f"    {count:4} {what}")
    counts.case(f"{args.count} pairs of seed {args.seed}, {pairs} commands with the key of another call", itertools.chain.from_iterable(found))
    counts.case("the lot has hits", [] if pairs > args.count / 8 else [f"only {pairs}"])


def main() -> int:
    parser = argparse.ArgumentParser(usage=__doc__)
    parser.add_argument("keys", type=lambda name: os.path.abspath(name))
    for name, usual in (("--seed", 1), ("--count", 200), ("--jobs", 2)):
        parser.add_argument(name, type=int, default=usual)
    parser.add_argument("--only", default="")
    parser.add_argument("--first", type=int, default=0)
    args = parser.parse_args()
    if not shutil.which("nvcc"):
        return skip_all("keys", "nvcc is not on the path")
    lines = [line for line in (HERE / "callers/keys.txt").read_text().splitlines() if line and line[0] != "#"]
    variations = [it for it in map(Variation.of, lines) if args.only in it.name and not args.first]
    counts = Counts()
    with tempfile.TemporaryDirectory(prefix="keys.") as folder:
        scratch = Path(folder).resolve()
        with concurrent.futures.ThreadPoolExecutor(args.jobs) as pool:
            told = pool.map(lambda at: variations[at].findings(Maker(args.keys, scratch / f"variation{at}")), range(len(variations)))
            for variation, findings in zip(variations, told):
                counts.case(variation.name, findings)
        if not args.only:
            by_lot(args, scratch, counts)
    return counts.summary()


if __name__ == "__main__":
    sys.exit(main())
