#!/usr/bin/env python3
"""Builds a project again after each of fourteen edits: by nvcc, by compiler caches and by zigrunk-nvcc, by turns, with `make -j4`. Compares all
products with nvcc's, and prints seconds, ratios, seconds of processor, and which commands ran.

    tests/cache/table.py [--driver FOLDER] [--sccache PATH] [--out FILE] [PART..]

PART is `edits` (twelve sources, two targets), `libraries` (two sources with thrust and cub), `alone` (one call for two and for six targets)
or `jobs` (an empty cache with `make -j4` and -j16); all of them unless you say so. FILE gets the figures in JSON, from which
tests/cache/plot.py draws. `--runs N` repeats each part, for medians: unless you say so, one call five times, empty caches three times, the
rest once. `--tools` and `--edits` take some, `--sources N` fewer sources. An edit comes on top of those before it, and all sources are
compiled again after each. The last line is 'N passed, M failed'; the status is 1 if one failed."""
import argparse
import contextlib
import hashlib
import json
import os
import random
import resource
import shutil
import subprocess
import sys
import tempfile
import time
from collections import defaultdict
from collections.abc import Iterator
from dataclasses import dataclass, field
from pathlib import Path

from figures import Figure, Figures, print_goals, print_tables, seconds
from floors import wrong_examples
from project import CHECKOUT, COLD, CONSTANT, EDITS, Call, Edit, Project
from tools import CACHES, NVCC, NVCC_THREADS, OURS, OURS_CACHE, OURS_ROOT, SCCACHE, TOOLS, UNCACHED, Programs, Tool

RELEASE = Path(__file__).resolve().parent.parent.parent / "out/rust/target/release"
PROCESSORS = os.cpu_count() or 1
PAUSE = 3  # seconds between an edit and a build: caches don't trust a file that has only just been changed
SIX = ("75", "80", "86", "89", "90", "100")
LIBRARY_EDITS = [COLD, "unchanged", "line of a comment", "host function", "kernel", CONSTANT, "comment line in a header"]
Products = dict[str, str]


@dataclass
class Cases:
    """How many products are nvcc's."""

    passed: int = 0
    failed: int = 0

    def count(self, name: str, problem: str) -> None:
        """Counts a case, which has passed if there is no problem."""
        self.passed, self.failed = (self.passed, self.failed + 1) if problem else (self.passed + 1, self.failed)
        if problem:
            print(f"{name}: {problem}", flush=True)


@dataclass
class Bench:
    """A project that is built by tools below a folder."""

    room: Path
    project: Project
    jobs: int
    cases: Cases
    stripped: dict[str, str] = field(default_factory=dict)

    def write(self) -> None:
        """Writes both checkouts."""
        for checkout in ("one", "two"):
            shutil.rmtree(self.room / checkout, ignore_errors=True)
            self.project.write(self.room / checkout)

    def build(self, tool: Tool, call: Call, jobs: int) -> tuple[Figure, Products]:
        """Compiles all sources into an empty folder."""
        folder = self.room / call.checkout / call.build
        shutil.rmtree(folder, ignore_errors=True)
        folder.mkdir()
        (folder / "Makefile").write_text(self.project.makefile(tool.compiler(), folder.parent, call), encoding="utf-8")
        tool.begin()
        served, used, begun = tool.processor(), children(), time.monotonic()
        variables = tool.environment_in(folder.parent)
        made = subprocess.run(["make", "-s", f"-j{jobs}"], cwd=folder, env=variables, capture_output=True, text=True, check=False)
        passed, processor = time.monotonic() - begun, children() - used + tool.processor() - served
        self.cases.count(f"{tool.name}, build", "" if made.returncode == 0 else made.stderr[-2000:])
        work = tool.work(len(self.project.sources))
        figure = Figure(passed, processor, work.text(), work.total() / PROCESSORS, work.chain())
        self.cases.count(f"{tool.name}, floor", "" if figure.floor() <= passed else f"{passed} s are less than {figure.floor()}")
        return figure, {path.name: self.digest(path) for path in sorted(folder.glob("*.o*"))}

    def digest(self, path: Path) -> str:
        """What counts of a product: an object without the names of temporary files."""
        text = path.read_bytes()
        raw = hashlib.sha256(text).hexdigest()
        if path.suffix != ".o":
            return raw
        if raw not in self.stripped:
            to = self.room / "stripped"
            subprocess.run(["objcopy", "--strip-unneeded", path, to], check=True)
            self.stripped[raw] = hashlib.sha256(to.read_bytes()).hexdigest()
        return self.stripped[raw]

    def compare(self, name: str, tool: Tool, made: Products, wanted: Products) -> None:
        """A case: products are nvcc's. What other caches keep of another checkout, and say of another place, isn't ours to judge; under a root
        those of two checkouts are equal."""
        other = [product for product in sorted({*made, *wanted}) if made.get(product) != wanted.get(product)]
        if tool.name in (NVCC_THREADS, OURS, OURS_CACHE):
            self.cases.count(name, f"products that aren't nvcc's: {' '.join(other)}" if other else "")
        elif tool.name != OURS_ROOT and (objects := [product for product in other if product.endswith(".o")]):
            print(f"of others, {name}: objects that aren't nvcc's: {' '.join(objects)}", flush=True)


def children() -> float:
    """The processor's time of processes that have ended."""
    used = resource.getrusage(resource.RUSAGE_CHILDREN)
    return used.ru_utime + used.ru_stime


@contextlib.contextmanager
def tools_of(names: list[str], programs: Programs, room: Path) -> Iterator[list[Tool]]:
    """Tools with empty caches."""
    tools = [Tool(name, programs, room) for name in names]
    try:
        for tool in tools:
            tool.empty()
        yield tools
    finally:
        for tool in tools:
            tool.end()


def measure_edits(bench: Bench, tools: list[Tool], edits: list[Edit], figures: Figures) -> None:
    """Builds after each edit by each tool, in an order drawn by lot."""
    bench.write()
    lot, rooted = random.Random(len(edits)), dict[str, str]()
    for edit in edits:
        for checkout in ("one", "two"):
            edit.apply(bench.room / checkout)
        time.sleep(PAUSE)
        made: dict[str, Products] = {}
        for tool in lot.sample(tools, len(tools)):
            figure, made[tool.name] = bench.build(tool, edit.call, bench.jobs)
            figures[tool.name, edit.name].append(figure)
        for tool in tools:
            bench.compare(f"{edit.name}, {tool.name}", tool, made[tool.name], made.get(NVCC, {}))
        objects = {name: digest for name, digest in made.get(OURS_ROOT, {}).items() if name.endswith(".o")}
        if edit.name == CHECKOUT and rooted:
            bench.cases.count("checkouts under a root", "" if objects == rooted else "objects differ")
        rooted = objects
        print(f"  {edit.name}: " + ", ".join(f"{tool.name} {figures[tool.name, edit.name][-1].seconds:.2f}" for tool in tools), flush=True)


def measure_alone(bench: Bench, tools: list[Tool], runs: int, figures: Figures) -> None:
    """Makes one call by each tool, by turns."""
    bench.write()
    time.sleep(PAUSE)
    for count, targets in (("two", ("75", "80")), ("six", SIX)):
        for _ in range(runs):
            made: dict[str, Products] = {}
            for tool in tools:
                figure, made[tool.name] = bench.build(tool, Call(targets=targets), 1)
                figures[tool.name, f"one call, {count} targets"].append(figure)
            for tool in tools:
                bench.compare(f"one call, {count} targets, {tool.name}", tool, made[tool.name], made[NVCC])


def measure_jobs(bench: Bench, tools: list[Tool], runs: int, figures: Figures) -> None:
    """Builds with empty caches, with few and with many jobs."""
    bench.write()
    time.sleep(PAUSE)
    for jobs in (4, 16):
        for _ in range(runs):
            made: dict[str, Products] = {}
            for tool in tools:
                tool.empty()
                figure, made[tool.name] = bench.build(tool, Call(), jobs)
                figures[tool.name, f"empty cache, -j{jobs}"].append(figure)
            for tool in tools:
                bench.compare(f"empty cache, -j{jobs}, {tool.name}", tool, made[tool.name], made[NVCC])


def measure(part: str, options: argparse.Namespace, programs: Programs, room: Path, cases: Cases) -> Figures:
    """Measures a part."""
    figures: Figures = defaultdict(list)
    count = {"edits": options.sources, "jobs": options.sources, "libraries": min(2, options.sources), "alone": 1}[part]
    bench = Bench(room, Project(count, part == "libraries"), options.jobs, cases)
    names = [*UNCACHED, *([OURS_CACHE] if part == "jobs" else [])] if part in ("alone", "jobs") else TOOLS
    names = [name for name in names if name in options.tools]
    wanted = LIBRARY_EDITS if part == "libraries" else [edit.name for edit in EDITS]
    edits = [edit for edit in EDITS if edit.name in wanted and edit.name in options.edits]
    runs = options.runs or {"alone": 5, "jobs": 3}.get(part, 1)
    if part in ("alone", "jobs"):
        with tools_of(names, programs, room) as tools:
            (measure_alone if part == "alone" else measure_jobs)(bench, tools, runs, figures)
        return figures
    for _ in range(runs):
        with tools_of(names, programs, room) as tools:
            measure_edits(bench, tools, edits, figures)
    return figures


def toolkit() -> str:
    """nvcc itself, which the one on the path may start, or an empty text."""
    if not shutil.which("nvcc"):
        return ""
    said = subprocess.run(["nvcc", "--dryrun", "-c", "-x", "cu", "/dev/null"], capture_output=True, text=True, check=False).stderr
    here = next((line.partition("=")[2] for line in said.splitlines() if line.startswith("#$ _HERE_=")), "")
    return str(Path(here) / "nvcc") if here else ""


def options_of(arguments: list[str]) -> argparse.Namespace:
    """The words of the call."""
    parser = argparse.ArgumentParser()
    parser.add_argument("parts", nargs="*", metavar="PART", default=["edits", "libraries", "alone", "jobs"])
    parser.add_argument("--driver", type=Path, default=RELEASE)
    parser.add_argument("--sccache", default="sccache")
    parser.add_argument("--out", type=Path)
    parser.add_argument("--runs", type=int)
    parser.add_argument("--jobs", type=int, default=4)
    parser.add_argument("--sources", type=int, default=12)
    parser.add_argument("--tools", nargs="+", default=TOOLS, choices=TOOLS)
    parser.add_argument("--edits", nargs="+", default=[edit.name for edit in EDITS], choices=[edit.name for edit in EDITS])
    return parser.parse_args(arguments)


def programs_of(options: argparse.Namespace) -> Programs | None:
    """The programs, if they are here. Without sccache, its rows are left out."""
    nvcc, sccache = toolkit(), shutil.which(options.sccache) or ""
    lacking = [name for name in ("make", "objcopy", "ccache") if not shutil.which(name)] + ([] if nvcc else ["nvcc"])
    if lacking:
        print(f"builds through caches: skipped, {' and '.join(lacking)} isn't here\n0 passed, 0 failed, 1 skipped")
        return None
    if not sccache:
        print("sccache: skipped, it isn't on the path, nor named by --sccache")
        options.tools = [name for name in options.tools if name != SCCACHE]
    return Programs(nvcc, str(options.driver.resolve() / "zigrunk-nvcc"), str(Path(sccache).resolve()))


def versions(programs: Programs) -> str:
    """What was compared, on which machine."""
    asked = [programs.ccache] + ([programs.sccache] if Path(programs.sccache).is_file() else [])
    said = [subprocess.run([program, "--version"], capture_output=True, text=True, check=True).stdout.splitlines()[0] for program in asked]
    return f"{PROCESSORS} processors, load {os.getloadavg()[0]:.1f}, {', '.join(said)}"


def main() -> int:
    options = options_of(sys.argv[1:])
    programs = programs_of(options)
    if programs is None:
        return 0
    for name in [name for name in os.environ if name.startswith(CACHES)]:
        del os.environ[name]
    print(versions(programs), flush=True)
    cases, all_figures = Cases(), dict[str, Figures]()
    cases.count("floors", "; ".join(wrong_examples()))
    for part in options.parts:
        begun = time.monotonic()
        with tempfile.TemporaryDirectory() as folder:
            room = Path(folder).resolve()
            for name in ("tmp", "run"):
                (room / name).mkdir(mode=0o700)
            all_figures[part] = measure(part, options, programs, room, cases)
        print(f"{part}: {(time.monotonic() - begun) / 60:.1f} minutes, load {os.getloadavg()[0]:.1f}\n")
        print_tables(all_figures[part])
    print_goals(all_figures)
    if options.out:
        rows = [(part, *key, seconds(made)) for part, figures in all_figures.items() for key, made in figures.items()]
        options.out.write_text(json.dumps(rows, indent=0), encoding="utf-8")
    print(f"{cases.passed} passed, {cases.failed} failed")
    return 1 if cases.failed else 0


if __name__ == "__main__":
    sys.exit(main())
