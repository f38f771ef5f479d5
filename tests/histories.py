#!/usr/bin/env python3
"""Makes calls by zigrunk-nvcc under strace, and checks that what ran could happen: by the needs of its parts, and by what it opened.

    tests/histories.py [--calls N] [--seed N] [--jobs N] [--only KIND] [--driver FILE] [--library FILE]

The seed draws the calls: N that are split, 50 unless given, some at once by --jobs. There are four kinds: calls of the lists (tests/calls*.txt),
calls of tests/random_calls.py, calls of a few sources, and calls of builds, which make -j or ninja starts at once. A command that began early
counts as two parts, its head and the rest, each with the needs that the log has. For each call

- strace has to show each command of the log. It says when they began and ended, and when one got a file that it had to wait for;
- a schedule of the parts has to accept these starts and ends in the order of their times, whatever fails. libzigrunk's is the proved one, by which
  `may_happen` of the crate schedule_orders is defined;
- a command that opened a file which an earlier one opened to write, or the other way round, has to need that one; a head, for what it opened;
- commands that ran at the same time, those of a build's other calls too, may open no file that one of them opened to write;
- each file has to hold what it holds after the plan's commands one after the other, and each product what nvcc's holds (tests/premises.py).

It says how many parts began before all that their commands need had ended, and how many calls and files of each kind there were. The last line is
'N passed, M failed', and the status is 1 if one failed. It needs nvcc, strace, make, ninja, and what `make rust` and
`cargo build --release -p capi` leave.
"""

import argparse
import concurrent.futures
import glob
import itertools
import json
import os
import random
import re
import shlex
import shutil
import subprocess
import sys
import tempfile
from collections import Counter
from collections.abc import Iterator
from pathlib import Path
from typing import Any, NamedTuple

import premises
import random_calls
from compare_calls import Call, path_of, version_of, write_sources
from runner import TOOLS, Counts, skip_all

TOP = Path(__file__).resolve().parent.parent
PROGRAMS = {"cicc", "cudafe++", "ptxas", "fatbinary", "nvlink", "gcc", "g++", "cc", "c++", "nvcc"}
TARGET = re.compile(r"\w+-linux-\w+-")
TRACED = "trace=execve,open,openat,creat,chdir,clone,clone3,fork,vfork,exit_group,unlinkat"
# Of ten calls so many are of the lists, so many are random, and so many are those of builds. The others are of the sources below.
SHARES = {"lists": 4, "random": 3, "builds": 2, "few": 1}
# How many calls are drawn for one that is split.
TRIES = 6
# The log's times have four digits.
ROUNDING = 0.0001
# strace's have six.
TICK = 0.000001

FILES = {
    "k.cu": "template <int N> __global__ void scale(float* v) { v[threadIdx.x] *= N; }\nvoid run(float* v) { scale<2><<<1, 32>>>(v); }\n",
    "d.cu": '#include "h.h"\n__device__ int table[64];\nstatic __global__ void fill(int v) { table[threadIdx.x] = v + H; }\n'
            "void run() { fill<<<1, 64>>>(4); }\n",
    "g.cu": "__device__ int g(int x) { return x * 2; }\n",
    "host.cu": "int host() { return 3; }\n",
    "wrong.cu": "__global__ void k(int* p) { *p = missing; }\n",
    "h.h": "#define H 3\n",
}
PHASES = ["-c", "-c", "-c", "-dc", "-ptx", "-cubin", "-fatbin"]
TARGETS: list[list[str]] = [
    [], ["-arch=sm_80"], ["-gencode", "arch=compute_80,code=sm_80", "-gencode", "arch=compute_90,code=[sm_90,compute_90]"],
    ["-gencode", "arch=compute_75,code=sm_75", "-gencode", "arch=compute_80,code=sm_80", "-gencode", "arch=compute_86,code=sm_86"]]
OTHERS: list[list[str]] = [
    [], [], ["-O2"], ["-G"], ["-lineinfo"], ["-MD", "-MF", "OUT.d"], ["-t", "2"], ["-Xcompiler", "-Wall"], ["-rdc=true"], ["-std=c++17"]]


class Part(NamedTuple):
    """A part of a command: when it began and ended, which commands it needs, and whether it is the last of its command."""

    command: int
    begin: float
    end: float
    needs: list[int]
    is_last: bool


class Process(NamedTuple):
    """What a tool and the processes below it did: when, which files they opened, and when, and which they opened to write."""

    kind: str
    begin: float
    end: float
    written: set[str]
    opened: dict[str, float]


class Traced(NamedTuple):
    """A call: its words, its commands as the log has them, its tools, and which files the driver opened, and when."""

    words: str
    commands: list[dict[str, Any]]
    tools: list[Process]
    opened: list[tuple[float, str]]


# what strace saw

LINE = re.compile(r"(\d+) +([\d.]+) (.*)")
RESUMED = re.compile(r"<\.\.\. \w+ resumed>(.*)")
CHILD = re.compile(r"(?:clone3?|v?fork)\(.*= (\d+)$")
RUN = re.compile(r'execve\("([^"]*)", \[(.*)\], 0x.* = 0$')
WORD = re.compile(r'"((?:[^"\\]|\\.)*)"')
MOVE = re.compile(r'chdir\("([^"]*)"\) += 0$')
OPENED = re.compile(r'(?:open\(|openat\(AT_FDCWD, |creat\()"([^"]*)"(?:, ([\w|]+))?.*= \d+$')


def whole_lines(trace: str) -> Iterator[tuple[int, float, str]]:
    """The calls of a trace, each whole and with the time of its end."""
    begun: dict[int, str] = {}
    for line in trace.splitlines():
        if not (found := LINE.match(line)):
            continue
        number, time, text = int(found[1]), float(found[2]), found[3]
        if text.endswith("<unfinished ...>"):
            begun[number] = text.removesuffix("<unfinished ...>")
        else:
            resumed = RESUMED.match(text)
            yield number, time, begun.pop(number, "") + resumed[1] if resumed else text


def kind_of(program: str, words: list[str]) -> str:
    """What the log calls a command of these words."""
    if program == "nvcc":
        return "nvcc -M" if {"-M", "-MM"} & {*words} else "nvcc"
    does = [word for word in words if word in ("-E", "-S", "-c")]
    named = [word.removeprefix("-D") if word.startswith("-D__CUDA_ARCH__=") else after if word == "-arch" else word.split("arch=")[-1]
             for word, after in zip(words, [*words[1:], ""]) if word == "-arch" or re.match("-D__CUDA_ARCH__=|--?arch=", word)]
    targets = [name for name in named if name.startswith(("sm_", "compute_", "lto_", "__CUDA_ARCH__="))]
    return " ".join([program, *does[:1], *targets[:1]])


class Trace:
    """What the processes of a trace did, which began in a folder."""

    def __init__(self, text: str, folder: str) -> None:
        lines = [*whole_lines(text)]
        found = ((number, CHILD.match(line)) for number, _, line in lines)
        self.parent = {int(child[1]): number for number, child in found if child}
        self.folder: dict[int, str] = {}
        self.start = folder
        self.tool: dict[int, int] = {}
        self.tools: list[dict[str, Any]] = []
        self.others: dict[int, list[tuple[float, str]]] = {}
        for number, time, line in lines:
            self.see(number, time, line)

    def folder_of(self, number: int) -> str:
        """Where a process is. A new one is where its parent is."""
        if number not in self.folder:
            self.folder[number] = self.folder_of(self.parent[number]) if number in self.parent else self.start
        return self.folder[number]

    def tool_of(self, number: int) -> int | None:
        """The tool that a process belongs to: its own, or that of its parent."""
        if number not in self.tool and number in self.parent and (above := self.tool_of(self.parent[number])) is not None:
            self.tool[number] = above
        return self.tool.get(number)

    def see(self, number: int, time: float, line: str) -> None:
        folder, tool = self.folder_of(number), self.tool_of(number)
        if move := MOVE.match(line):
            self.folder[number] = os.path.normpath(os.path.join(folder, move[1]))
        elif (run := RUN.match(line)) and tool is None and TARGET.sub("", os.path.basename(run[1])).split("-")[0] in PROGRAMS:
            self.tool[number] = len(self.tools)
            kind = kind_of(os.path.basename(run[1]), WORD.findall(run[2])[1:])
            self.tools.append({"kind": kind, "begin": time, "end": None, "root": number, "written": set(), "opened": {}})
        elif opened := OPENED.match(line):
            self.open(number, time, os.path.normpath(os.path.join(folder, opened[1])), opened[2] or "O_CREAT")
        elif line.startswith("+++ exited") and tool is not None and self.tools[tool]["root"] == number:
            self.tools[tool]["end"] = time

    def open(self, number: int, time: float, path: str, how: str) -> None:
        tool = self.tool_of(number)
        if tool is None:
            self.others.setdefault(number, []).append((time, path))
        # (ccache's own files are made for calls at the same time)
        elif not path.startswith(("/dev/", "/proc/")) and not re.search("/ccache(-tmp)?/", path):
            self.tools[tool]["opened"].setdefault(path, time)
            if re.search("O_WRONLY|O_RDWR|O_CREAT", how):
                self.tools[tool]["written"].add(path)

    def is_below(self, number: int, driver: int) -> bool:
        while number != driver and number in self.parent:
            number = self.parent[number]
        return number == driver

    def call(self, log: str, words: str) -> Traced:
        """The call that has written a log."""
        driver = next((number for number, opened in self.others.items() if any(path == log for _, path in opened)), 0)
        tools = [process(one) for one in self.tools if self.is_below(one["root"], driver)]
        return Traced(words, logged(log), tools, self.others.get(driver, []))


def process(one: dict[str, Any]) -> Process:
    return Process(one["kind"], one["begin"], one["end"] or float("inf"), one["written"], one["opened"])


def entry_of(path: str) -> dict[str, Any]:
    """What a log has of its call."""
    lines = Path(path).read_text(encoding="utf-8").splitlines() if os.path.exists(path) else []
    return next((json.loads(line) for line in lines if '"commands"' in line), {})


def logged(path: str) -> list[dict[str, Any]]:
    """The commands of the call that a log has."""
    return entry_of(path).get("commands", [])


def status_of(path: str) -> int:
    return entry_of(path).get("status", -1)


# what the log says of it

def tools_of(call: Traced) -> list[Process | None]:
    """The tool of each command. One that was made again has more than one, of which the last counts."""
    found: dict[int, Process] = {}
    kinds = [one["kind"] for one in call.commands]
    for kind in {*kinds}:
        numbers = sorted((number for number, own in enumerate(kinds) if own == kind), key=lambda number: float(call.commands[number]["begin"]))
        tools = sorted((tool for tool in call.tools if tool.kind == kind), key=lambda tool: tool.begin)
        found.update(zip(reversed(numbers), reversed(tools)))
    return [found.get(number) for number in range(len(call.commands))]


def seen(call: Traced) -> tuple[list[dict[str, Any]], list[str]]:
    """The commands of a call with the times that strace has, and what is wrong with these."""
    commands, problems = [], list[str]()
    for one, tool in zip(call.commands, tools_of(call)):
        if tool is None:
            problems.append(f"strace shows no {one['kind']}")
        else:
            commands.append({**one, "begin": tool.begin, "end": tool.end})
        if tool is None or "went_on" not in one:
            continue
        # The driver reads what it is about to give.
        given = [time for time, path in call.opened if path.endswith((".module_id", "/stub.c")) and time >= one["went_on"] - ROUNDING]
        late = [time for path, time in tool.opened.items() if "/zigrunk.tmp/module_id." in path]
        if not given or min(late, default=given[0]) < given[0]:
            problems.append(f"{one['kind']} gets a file before the driver has read it")
        else:
            # (a process that was started, but isn't its program yet, has done nothing)
            commands[-1].update(begin=min(tool.begin, given[0] - TICK), went_on=given[0])
    return commands, problems


def parts_of(commands: list[dict[str, Any]]) -> list[Part]:
    parts: list[Part] = []
    for number, one in enumerate(commands):
        at = one.get("went_on")
        if at is not None:
            parts.append(Part(number, one["begin"], at, one["head"], False))
        parts.append(Part(number, at if at is not None else one["begin"], one["end"], one["needs"], True))
    return parts


def refusals(zigrunk: Any, commands: list[dict[str, Any]]) -> Iterator[str]:
    """What of a call's commands a schedule of their parts refuses."""
    parts = sorted(parts_of(commands), key=lambda part: (part.begin, part.command, part.is_last))
    place = {(part.command, part.is_last): number for number, part in enumerate(parts)}
    needs: list[list[int]] = []
    for number, part in enumerate(parts):
        own = [place[part.command, False]] if part.is_last and (part.command, False) in place else []
        of_others = [place[need, is_last] for need in part.needs for is_last in (False, True) if (need, is_last) in place]
        late = [need for need in own + of_others if need >= number]
        if late:
            yield f"part {number} begins before part {late[0]}, which it needs"
            return
        needs.append(sorted({*own, *of_others}))
    # (what ends goes before what begins at the same time)
    events = sorted([(part.end, 0, number) for number, part in enumerate(parts)] + [(part.begin, 1, number) for number, part in enumerate(parts)])
    schedule = zigrunk.Schedule(needs, len(parts), zigrunk.AfterFailure.GO_ON)
    for _, is_start, number in events:
        if is_start:
            started = next(schedule.start_ready(), None)
            if started != number:
                yield f"part {number} of command {parts[number].command} may not start: {started} may"
                return
        else:
            failed = parts[number].is_last and commands[parts[number].command]["status"] != 0
            schedule.ended(number, zigrunk.Outcome.FAILED if failed else zigrunk.Outcome.SUCCEEDED)


def both_touch(one: Process, other: Process) -> list[str]:
    """Files that one of two commands wrote, and the other opened."""
    return sorted((one.written & other.opened.keys()) | (one.opened.keys() & other.written))


def shared(found: list[Process]) -> Iterator[str]:
    """Files that one of two commands wrote that ran at the same time, and the other opened."""
    for one, other in itertools.combinations(found, 2):
        if one.begin < other.end and other.begin < one.end:
            yield from (f"{one.kind} and {other.kind} ran at the same time, and both opened {path}" for path in both_touch(one, other))


def unordered(commands: list[dict[str, Any]], tools: list[Process | None]) -> Iterator[str]:
    """Files that one of two commands of a call wrote, and the other opened, though it doesn't need it, or its head doesn't, which opened it."""
    def opened_by(tool: Process, end: float) -> Process:
        early = {path: time for path, time in tool.opened.items() if time < end}
        return tool._replace(opened=early, written=tool.written & early.keys())

    behind: list[set[int]] = []
    for number, (one, tool) in enumerate(zip(commands, tools)):
        behind.append({*one["needs"], *(far for need in one["needs"] for far in behind[need])})
        of_head = {*one.get("head", []), *(far for need in one.get("head", []) for far in behind[need])}
        parts = [(behind[number], tool), (of_head, opened_by(tool, one["went_on"]) if tool and "went_on" in one else None)]
        for needs, part in parts:
            for earlier, other in enumerate(tools[:number]):
                if part and other and earlier not in needs:
                    yield from (f"{part.kind} doesn't need {other.kind}, and both opened {path}" for path in both_touch(part, other))


# the calls

def drawn(lot: random.Random, output: str) -> list[str]:
    """The words of a call of the few sources."""
    source = lot.choice(["k.cu", "k.cu", "d.cu", "d.cu", "g.cu", "host.cu", "wrong.cu"])
    phase, targets = lot.choice(PHASES), lot.choice(TARGETS)
    if phase in ("-ptx", "-cubin"):
        targets = lot.choice(TARGETS[:2])
    return [phase, *targets, *(word.replace("OUT", output) for word in lot.choice(OTHERS)), source, "-o", output]


def listed() -> list[str]:
    """The calls of the lists that are split, but for those that don't run as they stand."""
    lines = [line for path in sorted(glob.glob(f"{TOP}/tests/calls*.txt")) for line in Path(path).read_text(encoding="utf-8").splitlines()]
    return [line for line in lines if "@how=split" in line and not re.search("@(ours|both|launched|headers|unset)=", line)]


def makefile(calls: list[list[str]], logs: list[str]) -> str:
    rules = "".join(f"r{number}:\n\t+ZIGRUNK_LOG={logs[number]} $(DRIVER) {shlex.join(words)}\n" for number, words in enumerate(calls))
    return f"all: {' '.join(f'r{number}' for number in range(len(calls)))}\n.PHONY: all\n{rules}"


def ninja_file(calls: list[list[str]], logs: list[str]) -> str:
    rules = [f"rule r{number}\n  command = ZIGRUNK_LOG={logs[number]} $$DRIVER {shlex.join(words)}\nbuild r{number}: r{number}\n"
             for number, words in enumerate(calls)]
    return "".join(rules)


class Made(NamedTuple):
    """What was made at once: calls, all their tools, and how what each call left compares with what its plan's commands leave, and nvcc."""

    calls: list[Traced]
    tools: list[Process]
    compared: list[premises.Compared]


class Caller:
    """Makes calls by a driver, each in a folder of its own."""

    def __init__(self, driver: str, seed: int) -> None:
        self.driver, self.seed = driver, seed
        self.comparer = premises.Comparer(driver, nvcc := path_of("nvcc"), version_of(nvcc))
        self.lines, self.table = listed(), random_calls.options()
        random.Random(seed).shuffle(self.lines)
        self.weights = [random_calls.WEIGHTS[option.purpose] for option in self.table]

    def make(self, kind: str, number: int) -> Made:
        """Makes the call of a kind with a number, or the calls of one build."""
        lot = random.Random(f"{self.seed} {kind} {number}")
        with tempfile.TemporaryDirectory() as folder:
            os.mkdir(f"{folder}/tmp")
            write_sources(Path(f"{folder}/work"), "")
            for name, text in FILES.items():
                Path(f"{folder}/work/{name}").write_text(text, encoding="utf-8")
            if kind == "builds":
                return self.build(premises.Room(folder), lot)
            return self.call(premises.Room(folder), self.line(kind, number, lot), lot)

    def line(self, kind: str, number: int, lot: random.Random) -> str:
        if kind == "lists":
            return self.lines[number % len(self.lines)]
        return shlex.join(drawn(lot, "out")) if kind == "few" else random_calls.line_of(self.seed, number, self.table, self.weights)

    def call(self, room: premises.Room, line: str, lot: random.Random) -> Made:
        """Makes the call of a line."""
        call, work = Call(line, 0), str(room.work)
        if call.setup:
            subprocess.run(["bash", "-c", call.setup], cwd=work, env={**os.environ, "WORK": work}, capture_output=True, check=False)
        room.keep()
        log, cwd = f"{room.folder}/log.0", f"{work}/{call.cwd}"
        env = self.environment(room, {"ZIGRUNK_LOG": log, **{name: value.replace("@WORK@", work) for name, value in call.env.items()}}, lot)
        words = [word.replace("@WORK@", work) for word in call.words]
        ran, trace = traced([self.driver, *words], room, cwd, env)
        one = trace.call(log, line)
        compared = [self.comparer.compare(room, line, words, Path(cwd), env, room.left(ran))] if one.commands else []
        return Made([one], [process(tool) for tool in trace.tools], compared)

    def build(self, room: premises.Room, lot: random.Random) -> Made:
        """Makes the calls of a build."""
        calls = [drawn(lot, f"out{number}") for number in range(lot.choice([4, 5, 6]))]
        logs = [f"{room.folder}/log.{number}" for number in range(len(calls))]
        Path(f"{room.work}/Makefile").write_text(makefile(calls, logs), encoding="utf-8")
        Path(f"{room.work}/build.ninja").write_text(ninja_file(calls, logs), encoding="utf-8")
        room.keep()
        builder = lot.choice([["make", "-k"], ["ninja", "-k", "0"]])
        env = self.environment(room, {}, lot)
        ran, trace = traced([*builder, f"-j{lot.choice([3, 4, 6])}"], room, str(room.work), env)
        made = [trace.call(log, f"by {builder[0]}: {shlex.join(words)}") for log, words in zip(logs, calls)]
        left = room.left(ran)
        compared = [self.comparer.compare(room, one.words, words, room.work, env, left._replace(status=status_of(log), said=None))
                    for one, words, log in zip(made, calls, logs) if one.commands]
        return Made(made, [process(one) for one in trace.tools], compared)

    def environment(self, room: premises.Room, more: dict[str, str], lot: random.Random) -> dict[str, str]:
        """The variables of a call. It shares slots with no call outside its room, since nobody removes what it waits by there."""
        (room.folder / "run").mkdir(mode=0o700)
        kept = {name: value for name, value in os.environ.items() if not name.startswith(("ZIGRUNK", "NVCC_", "MAKEFLAGS"))}
        return {**kept, "TMPDIR": str(room.temporary), "XDG_RUNTIME_DIR": f"{room.folder}/run", "ZIGRUNK_SLOTS": str(lot.choice([2, 4, 8])),
                "DRIVER": self.driver, **more}


def traced(words: list[str], room: premises.Room, cwd: str, env: dict[str, str]) -> tuple["subprocess.CompletedProcess[bytes]", Trace]:
    """What some words start in a folder."""
    file = room.folder / "trace"
    strace = ["strace", "-f", "--seccomp-bpf", "-ttt", "-q", "-s", "4096", "-e", TRACED, *premises.KEEPING, "-e", "signal=none", "-o", str(file)]
    ran = subprocess.run([*strace, *words], cwd=cwd, env=env, stdin=subprocess.DEVNULL, capture_output=True, check=False)
    return ran, Trace(file.read_text(encoding="utf-8", errors="replace"), os.path.normpath(cwd))


class Totals:
    """What the calls showed."""

    def __init__(self, zigrunk: Any) -> None:
        self.zigrunk, self.counts = zigrunk, Counts()
        self.kinds, self.seen = Counter[str](), Counter[str]()

    def add(self, kind: str, made: Made, most: int) -> None:
        """Counts what was made at once, but for calls that weren't split, or are more than are wanted of the kind."""
        together = [*shared(made.tools)]
        split = [call for call in made.calls if call.commands]
        for call, compared in [*zip(split, made.compared)][:most - self.kinds[kind]]:
            commands, problems = seen(call)
            problems += [] if problems else [*refusals(self.zigrunk, commands), *unordered(commands, [*tools_of(call)])]
            self.counts.case(call.words, [*problems, *compared.problems, *together])
            self.seen.update(compared.seen)
            together = []
            self.kinds[kind] += 1
            self.seen.update(parts=len(parts_of(call.commands)), heads=sum("went_on" in one for one in call.commands),
                             halves=sum(" -S" in one["kind"] for one in call.commands))

    def say(self, seed: int) -> None:
        """Prints how much there was to see. It is a failure if that was nothing of a kind."""
        kinds = ", ".join(f"{self.kinds[kind]} of {kind}" for kind in SHARES if self.kinds[kind])
        calls, shown = self.counts.passed + self.counts.failed, self.seen
        print(f"seed {seed}: {calls} calls, {kinds}; {shown['parts']} parts, {shown['heads']} of them heads, {shown['halves']} halves of compiles")
        print(f"{shown['succeeded']} calls succeeded. Beside the plan's commands one after the other: {shown['products']} products, "
              f"{shown['temporary']} temporary files, {shown['moved']} that stand for others; {shown['undecided']} differ between two such runs")
        if lacking := [what for what in ("heads", "halves", "succeeded", "temporary", "products", "moved") if not self.seen[what]]:
            self.counts.case("", [f"there were no {' and no '.join(lacking)}"])


def run(asked: argparse.Namespace, totals: Totals) -> None:
    """Makes calls of each kind until so many of them were split."""
    caller, jobs = Caller(asked.driver, asked.seed), asked.jobs
    with concurrent.futures.ThreadPoolExecutor(jobs) as pool:
        for kind in [asked.only] if asked.only else SHARES:
            most = asked.calls if asked.only else asked.calls * SHARES[kind] // 10
            for first in range(1, most * TRIES, jobs):
                if totals.kinds[kind] >= most:
                    break
                for made in pool.map(lambda number, kind=kind: caller.make(kind, number), range(first, first + jobs)):
                    totals.add(kind, made, most)


def arguments() -> argparse.Namespace:
    parser = argparse.ArgumentParser(description=(__doc__ or "").split("\n", maxsplit=1)[0])
    parser.add_argument("--calls", type=int, default=50)
    parser.add_argument("--seed", type=int, default=random.randrange(1 << 32))
    parser.add_argument("--jobs", type=int, default=1)
    parser.add_argument("--only", choices=SHARES)
    parser.add_argument("--driver", default=f"{TOOLS}/zigrunk-nvcc")
    parser.add_argument("--library", default=f"{TOP}/out/rust/target/release/libzigrunk_c.so")
    return parser.parse_args()


def main() -> int:
    asked = arguments()
    missing = [tool for tool in ("nvcc", "strace", "make", "ninja") if not shutil.which(tool)]
    missing += [file for file in (asked.driver, asked.library) if not os.path.exists(file)]
    if missing:
        return skip_all("histories", f"there is no {' and no '.join(missing)}")
    os.environ["ZIGRUNK_LIBRARY"] = asked.library
    sys.path.insert(0, f"{TOP}/bindings/python")
    import zigrunk  # pylint: disable=import-outside-toplevel

    totals = Totals(zigrunk)
    run(asked, totals)
    totals.say(asked.seed)
    return totals.counts.summary()


if __name__ == "__main__":
    sys.exit(main())
