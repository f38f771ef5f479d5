#!/usr/bin/env python3
"""Compares the commands of a plan with those that nvcc itself starts, as strace sees them: programs, words, variables and directories.
They are compared in the plan's order, since with -MD nvcc preprocesses for a device first. nvcc keeps generated files in a folder of the test.
A plan has other names of them, so on both sides each is named by when it first occurs. A planned command that runs in the call's temporary
directory names them without it, and the call's product by its whole path.

    tests/own_commands.py [--only TEXT] [--jobs N] [FILE..]

The calls are those of FILE (tests/calls_quick.txt unless given), which tests/compare_calls.py describes. Those that nvcc makes itself aren't
compared, nor those with several threads, whose commands overlap. Of a call that fails, what nvcc starts is. With an nvcc before version 12 a
plan has cudafe++ make the module id in place of cicc (docs/TRIED.md). Prints a line for each difference, then how many calls and commands
were compared, and last 'N passed, M failed'; the status is 1 if something differs.
"""
import argparse
import concurrent.futures
import json
import os
import re
import shutil
import subprocess
import sys
import tempfile
from collections.abc import Callable, Iterator
from dataclasses import dataclass, replace
from pathlib import Path
from typing import Any

from compare_calls import Call, earlier, environment, help_of, suited, values_in, version_of, write_sources
from runner import TOOLS, Counts, skip_all

TOP = Path(__file__).resolve().parent.parent
# A plan, as zigrunk-plan(1) describes its JSON.
Plan = dict[str, Any]
# What each shell sets for itself, and what a plan adds for sccache.
NOT_COMPARED = {"_", "OLDPWD", "PWD", "SHLVL", "__SCCACHE_THIS_IS_A_CUDA_COMPILATION__"}
# How the names of generated files end.
ENDINGS = "ii|i|c|cpp|gpu|ptx|cubin|fatbin|module_id|o|ltoir"
# How those end that a command names without a folder, wherever it runs.
BARE = r"fatbin\.c|stub\.c"
# Words that have zigrunk name the source by its whole path (docs/DIFFERENCES.md).
WHOLE_NAMES = {"-lineinfo", "--generate-line-info", "-G", "--device-debug"}
# What has a tool make the module id, and the first version of nvcc in which cudafe++ makes it for an object.
MAKES_ID = "--gen_module_id_file"
CUDAFE_MAKES_ID = 12.0
STRACE = ("strace", "-f", "-qq", "-v", "-xx", "-s", "1000000", "-e", "signal=none", "-e", "trace=execve,fork,vfork,clone,clone3", "-o")
# Lines of strace. What another process interrupts has a second line, which says how it ended.
STARTED = re.compile(r'^(\d+) +execve\("([^"]*)", \[([^]]*)\], \[([^]]*)\](?:\) += (\S+).*| <unfinished \.\.\.>)$')
RESUMED = re.compile(r"^(\d+) +<\.\.\. execve resumed>.* = (\S+)")
FORKED = re.compile(r"^(\d+) +(?:<\.\.\. )?(?:v?fork|clone3?)\b.* = (\d+)$")


@dataclass
class Command:
    """What one command is started with."""

    program: str
    words: list[str]
    variables: dict[str, str]
    cwd: str


def unescaped(text: str) -> list[str]:
    """The strings of a list that strace writes in hexadecimal form."""
    return [bytes.fromhex(it.replace("\\x", "")).decode("utf-8", "surrogateescape") for it in re.findall(r'"([^"]*)"', text)]


def started(trace: str) -> Iterator[re.Match[str]]:
    """The lines of a trace that start programs, in order."""
    begun: dict[str, re.Match[str]] = {}
    for line in trace.splitlines():
        if start := STARTED.match(line):
            begun[start[1]] = start
            if start[5] == "0":
                yield start
        elif (resumed := RESUMED.match(line)) and resumed[2] == "0":
            yield begun[resumed[1]]


def by_nvcc(trace: str, cwd: str) -> list[Command]:
    """The commands that nvcc's shells start."""
    # (a new process may start its program before the line that says whose it is)
    parents = {forked[2]: forked[1] for line in trace.splitlines() if (forked := FORKED.match(line))}
    shells: set[str] = set()
    found = []
    for start in started(trace):
        process, words = start[1], unescaped(start[3])
        if words[:2] == ["sh", "-c"]:
            shells.add(process)
        elif shells & {process, parents.get(process, "")}:
            shells -= {process, parents.get(process, "")}
            variables = dict(it.split("=", 1) for it in unescaped(start[4]))
            found.append(Command(unescaped(f'"{start[2]}"')[0], words[1:], variables, cwd))
    return found


def step(command: Command) -> tuple[str, ...]:
    """What tells a command of a call from the others: its program, whether it preprocesses, and the target."""
    return Path(command.program).name, *re.findall(r"(?<!\S)(?:-E|-D__CUDA_ARCH__=\d+|-arch[ =]\S+)", " ".join(command.words))


def paired(planned: list[Command], commands: list[Command]) -> tuple[list[tuple[Command, Command]], list[Command]]:
    """Planned commands with nvcc's that make the same step, and those that nvcc starts besides, but for what no plan has: the preprocessor
    for a dependency file alone, and what asks for the machine's GPU."""
    pairs, left = [], list(commands)
    for one in planned:
        if other := next((it for it in left if step(it) == step(one)), None):
            left.remove(other)
            pairs.append((one, other))
    return pairs, [it for it in left if "-E" not in it.words and Path(it.program).name != "__nvcc_device_query"]


def renamed(commands: list[Command], generated: Callable[[Command], re.Pattern[str]]) -> list[list[str]]:
    """The words of commands, with numbers for the names of generated files."""
    numbers: dict[str, int] = {}

    def number(found: re.Match[str]) -> str:
        return f"<file {numbers.setdefault(found[0].rpartition('/')[2], len(numbers))}>"

    return [[generated(it).sub(number, word) for word in it.words] for it in commands]


def first_difference(words: list[str], other: list[str]) -> str:
    pairs = list(zip(words + [""] * len(other), other + [""] * len(words)))
    return next(f"word {at} is {one!r}, and nvcc's {two!r}" for at, (one, two) in enumerate(pairs) if one != two)


def without_id(command: Command) -> Command:
    """A command without the word that has it make the module id."""
    return replace(command, words=[it for it in command.words if it != MAKES_ID])


class Both:
    """A call's plan and the commands that nvcc started for it, with the folder in which nvcc kept its files, nvcc's variables, and whether a plan
    has another tool make the module id than this nvcc."""

    def __init__(self, call: Call, plan: Plan, commands: list[Command], keep: Path, given: dict[str, str], moves_id: bool) -> None:
        self.call, self.plan, self.commands, self.keep, self.cwd = call, plan, commands, keep, commands[0].cwd
        self.moves_id = moves_id and any(Path(it["exe"]).name == "cudafe++" for it in plan["commands"])
        ordered = sorted(plan["commands"], key=lambda it: int(it["line"]))
        self.planned = [Command(it["exe"], it["args"], {**given, **dict(it["env"])}, it["cwd"]) for it in ordered]
        self.pairs, self.besides = paired(self.planned, commands)
        self.files = {name for it in plan["commands"] for key in ("reads", "writes", "may_write") for name in it[key]}
        self.source = next(iter(ordered[0]["reads"]), "")

    def generated(self, folder: str, bare: str) -> re.Pattern[str]:
        """The names of generated files: with the folder that they are in, or with one of the endings `bare` as a whole value. A plan gives
        some of them numbers."""
        source = Path(self.source)
        name = rf"(?!{re.escape(source.name)}(?![\w.]))(?:{re.escape(source.stem)}|x_\d+)\.(?:[\w.]+\.)?"
        return re.compile(rf"{re.escape(folder)}/{name}(?:{ENDINGS})(?![\w.])|(?<![^=, ]){name}(?:{bare})(?![^, ])")

    def differences(self, status: int) -> list[str]:
        """What differs. Of a call that fails, nvcc needn't start all."""
        tmp = self.plan["tmp"]
        found = [f"nvcc starts {' '.join(step(it))} too" for it in self.besides]
        if status == 0 and len(self.pairs) < len(self.planned):
            found.append(f"nvcc starts {len(self.pairs)} of {len(self.planned)} commands")
        if self.moves_id:
            found += self.makers_of_id()
            self.pairs = [(without_id(one), without_id(other)) for one, other in self.pairs]
        words = renamed([one for one, _ in self.pairs], lambda it: self.generated(tmp, ENDINGS if it.cwd == tmp else BARE))
        others = renamed([other for _, other in self.pairs], lambda _: self.generated(str(self.keep), BARE))
        return found + [it for pair, ours, own in zip(self.pairs, words, others) for it in self.of_pair(*pair, ours, own)]

    def makers_of_id(self) -> Iterator[str]:
        """What is wrong if a plan has cudafe++ make the module id, and nvcc a cicc, unless it fails before."""
        plans, own = ({Path(it.program).name for it in commands if MAKES_ID in it.words} for commands in (self.planned, self.commands))
        if plans != {"cudafe++"} or not own <= {"cicc"}:
            yield f"{sorted(plans)} make the module id in the plan, and {sorted(own)} by nvcc"

    def of_pair(self, planned: Command, other: Command, words: list[str], others: list[str]) -> list[str]:
        found = []
        if planned.program != other.program:
            found.append(f"nvcc starts {other.program}")
        if (named := self.named_by_nvcc(planned, words, others)) != others:
            found.append(first_difference(named, others))
        if odd := {name for name, _ in planned.variables.items() ^ other.variables.items()} - NOT_COMPARED:
            found.append(f"the variables {sorted(odd)} differ")
        if planned.cwd not in (other.cwd, self.plan["tmp"]):
            found.append(f"it runs in {planned.cwd}")
        return [f"{' '.join(step(planned))}: {it}" for it in found]

    def named_by_nvcc(self, planned: Command, words: list[str], others: list[str]) -> list[str]:
        """The words of a planned command, with the names that nvcc has where the plan has whole paths."""
        whole = {it for it in self.files if it.startswith(f"{self.cwd}/") and planned.cwd == self.plan["tmp"]}
        if WHOLE_NAMES & set(self.call.words):
            whole.add(self.source)
        return [other if self.is_named(one, other, whole) else one for one, other in zip(words, others)] + words[len(others):]

    def is_named(self, word: str, other: str, whole: set[str]) -> bool:
        """Whether a word, or its end behind an `=`, is one of the paths `whole`, and the other word names that file too."""
        for path in whole:
            option = word.removesuffix(path)
            is_end = word.endswith(path) and (not option or option.endswith("=")) and other.startswith(option)
            if is_end and os.path.normpath(os.path.join(self.cwd, other.removeprefix(option))) == os.path.normpath(path):
                return True
        return False


def compared(call: Call, base: Path, moves_id: bool) -> tuple[list[str], int] | None:
    """The differences of a call, and how many commands nvcc started; None if it isn't compared."""
    work, keep, trace = base / "work", base / "keep", base / "trace"
    for folder in (work, keep, base / "tmp"):
        folder.mkdir(parents=True, exist_ok=True)
    write_sources(work, call.headers)
    env = environment(call, base, base / "log")
    for name in ("ZIGRUNK_LAUNCHER", "ZIGRUNK_EXPLAIN"):
        env.pop(name, None)
    if call.setup:
        subprocess.run(["bash", "-c", call.setup], cwd=work, env={**os.environ, "WORK": str(work)}, check=True)
    words = [word.replace("@WORK@", str(work)) for word in call.words]
    cwd = work / call.cwd
    plan = subprocess.run([TOOLS / "zigrunk", "plan", "json", "nvcc", *words], cwd=cwd, env=env, capture_output=True, check=False)
    if plan.returncode != 0 or json.loads(plan.stdout)["dropped"]:
        return None
    ran = subprocess.run([*STRACE, str(trace), "nvcc", *words, "--keep", f"--keep-dir={keep}"], cwd=cwd, env=env, capture_output=True, check=False)
    commands = by_nvcc(trace.read_text(), str(cwd))
    if not commands:
        return ["nvcc starts nothing"], 0
    return Both(call, json.loads(plan.stdout), commands, keep, env, moves_id).differences(ran.returncode), len(commands)


def tried(call: Call, moves_id: bool) -> tuple[Call, tuple[list[str], int] | None]:
    base = Path(tempfile.mkdtemp(prefix="zigrunk-own-"))
    try:
        return call, compared(call, base, moves_id)
    finally:
        shutil.rmtree(base, ignore_errors=True)


def calls_of(files: list[str], only: str) -> list[Call]:
    lines = [(line, number) for file in files for number, line in enumerate(Path(file).read_text(encoding="utf-8").splitlines(), 1)]
    said = help_of("nvcc")
    values = values_in(said)
    calls = [earlier(Call(suited(line, values), number), said) for line, number in lines if line and not line.startswith("#") and only in line]
    threads = re.compile(r"^(-t\d*|--?threads(=.*)?|--split-compile.*|-split-compile.*)$")
    return [it for it in calls if not it.ours and not it.both and not any(threads.match(word) for word in it.words)]


def main() -> int:
    parser = argparse.ArgumentParser()
    parser.add_argument("--only", default="")
    parser.add_argument("--jobs", type=int, default=os.cpu_count())
    parser.add_argument("files", nargs="*", default=[str(TOP / "tests/calls_quick.txt")])
    options = parser.parse_args()
    for tool in ("nvcc", "strace"):
        if not shutil.which(tool):
            return skip_all("nvcc's own commands", f"{tool} is not on the path")
    if subprocess.run(["strace", "-o", os.devnull, "true"], capture_output=True, check=False).returncode != 0:
        return skip_all("nvcc's own commands", "strace may not trace here")
    counts, made, own = Counts(), 0, 0
    moves_id = float(version_of("nvcc")) < CUDAFE_MAKES_ID
    with concurrent.futures.ThreadPoolExecutor(options.jobs) as pool:
        for call, result in pool.map(lambda call: tried(call, moves_id), calls_of(options.files, options.only)):
            if result is None:
                own += 1
            else:
                counts.case(call.name, result[0])
                made += result[1]
    print(f"{made} commands of nvcc's compared; {own} calls that nvcc itself makes aren't")
    return counts.summary()


if __name__ == "__main__":
    sys.exit(main())
