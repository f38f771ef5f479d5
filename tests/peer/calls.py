#!/usr/bin/env python3
"""Makes calls through two builds of sccache, theirs and ours, and by nvcc, and says what differs.

    tests/peer/calls.py [OPTIONS] THEIRS OURS FILE..

    --runs N            ours makes each call with N empty caches, 1 by default
    --jobs N            N calls at once, 1 by default
    --only TEXT         only the calls whose lines contain TEXT
    --scratch FOLDER    make the calls below FOLDER
    --explain           say what theirs does wrong

THEIRS and OURS are programs of the name sccache: by another name it takes itself for a compiler. A line of FILE is the words of an nvcc
call, quoted as for bash. Words in front of them may be

    @name=TEXT          the call's name
    @cached=N           so many of its commands go through the cache
    @env=NAME=VALUE     a variable
    @cwd=FOLDER         the folder of the call, below the work folder
    @error=PATTERN      the call fails, and nvcc's message has this
    @says=PATTERN       the call doesn't fail, and what it prints has this
    @other=PATTERN      files of these names hold paths, which sccache changes: instead of nvcc's, ours have to be those of theirs
    @theirs=fails       theirs doesn't do this call right
    @theirs=random      nor this one, unless it is lucky: of eight tries at least one is wrong

A call is done right if it ends like nvcc's, and with the same files, with an empty cache and once more; if the first run has as many misses
as @cached says, and no hit, and the second run the reverse. If both do it right, each also has to find all in the other's cache. A call
that fails is right if it fails, with nvcc's message, and leaves no files.

The last line is 'N passed, M failed'. A call that theirs does right though its line says otherwise, or the reverse, is a failure too: then the list
is out of date."""
import argparse
import concurrent.futures
import json
import os
import re
import shutil
import socket
import subprocess
import sys
import tempfile
import time
from collections.abc import Iterator
from pathlib import Path
from typing import NamedTuple

sys.path.insert(0, str(Path(__file__).resolve().parent.parent))
from compare_calls import likeness, path_of, shell_words, tree, write_sources
from runner import Counts

TRIES = 8
NVCC = path_of("nvcc")


class Call:
    """A line of a file of calls."""

    def __init__(self, line: str) -> None:
        self.line = line
        self.env: dict[str, str] = {}
        self.name = self.cwd = self.error = self.says = self.theirs = ""
        self.other = "(?!)"
        self.cached = 0
        words = shell_words(line)
        while words and words[0].startswith("@"):
            key, value = words.pop(0)[1:].split("=", 1)
            if key == "env":
                name, value = value.split("=", 1)
                self.env[name] = value
            elif key == "cached":
                self.cached = int(value)
            elif key in ("name", "cwd", "error", "says", "other", "theirs"):
                setattr(self, key, value)
            else:
                sys.exit(f"{line}: no such field: {key}")
        self.words = words


class Ran(NamedTuple):
    """What a call did."""

    status: int
    said: str
    made: dict[str, bytes]


class Served(NamedTuple):
    """How many commands of a call a cache had, and how many it hadn't."""

    hits: int
    misses: int


class Server:
    """A server of sccache's with a port and a cache folder of its own."""

    def __init__(self, program: Path, cache: Path) -> None:
        self.program = program
        with socket.socket() as free:
            free.bind(("127.0.0.1", 0))
            self.port = free.getsockname()[1]
        hidden = ("SCCACHE_", "NVCC_")
        self.env = {name: value for name, value in os.environ.items() if not name.startswith(hidden)}
        self.env.update(SCCACHE_SERVER_PORT=str(self.port), SCCACHE_DIR=str(cache), SCCACHE_CONF="/dev/null", SCCACHE_IDLE_TIMEOUT="600")
        self.env["TMPDIR"] = str(cache.parent / "tmp")
        own = {**self.env, "SCCACHE_START_SERVER": "1", "SCCACHE_NO_DAEMON": "1"}
        quiet = subprocess.DEVNULL
        self.process = subprocess.Popen([program], env=own, stdin=quiet, stdout=quiet, stderr=quiet)
        self.await_start()

    def await_start(self) -> None:
        for _ in range(200):
            with socket.socket() as client:
                if client.connect_ex(("127.0.0.1", self.port)) == 0:
                    return
            time.sleep(0.05)
        sys.exit(f"{self.program} doesn't start")

    def __enter__(self) -> "Server":
        return self

    def __exit__(self, *_: object) -> None:
        self.ask("--stop-server")
        try:
            self.process.wait(20)
        except subprocess.TimeoutExpired:
            self.process.kill()

    def ask(self, *words: str) -> str:
        return subprocess.run([self.program, *words], env=self.env, capture_output=True, text=True, timeout=60).stdout

    def served(self) -> Served:
        """The counts since the last call, once all that was missing is written to the cache."""
        for _ in range(200):
            stats = json.loads(self.ask("--show-stats", "--stats-format", "json"))["stats"]
            hits, misses = (sum(stats[name]["counts"].values()) for name in ("cache_hits", "cache_misses"))
            if stats["cache_writes"] + stats["cache_write_errors"] >= misses:
                break
            time.sleep(0.05)
        self.ask("--zero-stats")
        return Served(hits, misses)

    def make(self, call: Call, work: Path) -> tuple[Ran, Served]:
        return make([self.program, NVCC], call, work, self.env), self.served()


def make(tool: list[Path | str], call: Call, work: Path, env: dict[str, str]) -> Ran:
    """Makes a call in a fresh work folder."""
    shutil.rmtree(work, ignore_errors=True)
    folder = work / call.cwd
    folder.mkdir(parents=True)
    write_sources(folder, "small")
    before = tree(work)
    ran = subprocess.run([*tool, *call.words], cwd=folder, env={**env, **call.env}, stdin=subprocess.DEVNULL, capture_output=True, timeout=300)
    made = {name: (work / name).read_bytes() for name, what in tree(work).items() if before.get(name) != what}
    return Ran(ran.returncode, (ran.stdout + ran.stderr).decode("utf-8", "replace"), made)


def wrong(call: Call, want: Ran, got: Ran, base: Path) -> Iterator[str]:
    """What a call did that nvcc doesn't."""
    if (got.status == 0) != (want.status == 0):
        yield f"status {got.status}, not {want.status}: {got.said[-300:]}"
    elif not re.search(call.error or call.says, got.said):
        yield f"no message with {call.error or call.says}: {got.said[-300:]}"
    elif sorted(got.made) != sorted(want.made):
        yield f"makes {sorted(got.made)}, not {sorted(want.made)}"
    else:
        names = [name for name in want.made if not re.search(call.other, name)]
        yield from (f"another {name}" for name in names if not likeness(want.made[name], got.made[name], base))


def unlike(call: Call, theirs: Ran, ours: Ran, base: Path) -> Iterator[str]:
    """The files that hold paths, if ours aren't those of theirs. Each call has a temporary folder with a name of its own."""
    for name in filter(lambda name: re.search(call.other, name), theirs.made):
        one, other = (re.sub(rb"sccache_nvcc\w+", b"", ran.made.get(name, b"")) for ran in (theirs, ours))
        if not likeness(one, other, base):
            yield f"{name} isn't that of theirs"


def miscounted(call: Call, served: Served, wanted: Served) -> Iterator[str]:
    if not call.error and served != wanted:
        yield f"{served.hits} hits and {served.misses} misses, not {wanted.hits} and {wanted.misses}"


def attempt(program: Path, cache: Path, call: Call, want: Ran, base: Path) -> tuple[Ran, list[str]]:
    """Makes a call twice with an empty cache: what the first run did, and what is wrong."""
    shutil.rmtree(cache, ignore_errors=True)
    with Server(program, cache) as server:
        first, cold = server.make(call, base / "work")
        found = [*wrong(call, want, first, base), *miscounted(call, cold, Served(0, call.cached))]
        if not found:
            second, warm = server.make(call, base / "work")
            again = [*wrong(call, want, second, base), *miscounted(call, warm, Served(call.cached, 0))]
            found = [f"again: {problem}" for problem in again]
    return first, found


def on_other_cache(program: Path, cache: Path, call: Call, want: Ran, base: Path) -> list[str]:
    with Server(program, cache) as server:
        ran, served = server.make(call, base / "work")
        return [*wrong(call, want, ran, base), *miscounted(call, served, Served(call.cached, 0))]


def out_of_date(call: Call, bad: int, tries: int) -> Iterator[str]:
    """What a call's line says of theirs that isn't so."""
    if call.theirs and not bad:
        yield f"the list of calls that theirs fails is out of date: of {tries} all are right"
    elif call.theirs == "fails" and bad < tries:
        yield f"the list of calls that theirs fails is out of date: of {tries} {bad} are wrong"


class Attempts(NamedTuple):
    """What one of the programs did with each empty cache: its first run, and what is wrong."""

    made: list[tuple[Ran, list[str]]]

    def wrong(self) -> list[str]:
        return [f"run {number}: {problem}" for number, (_, found) in enumerate(self.made, 1) for problem in found]

    def right(self) -> int:
        return sum(not found for _, found in self.made)

    def share(self) -> str:
        return f"{self.right():6} of {len(self.made):2}"


def problems_of(call: Call, want: Ran, theirs: Attempts, ours: Attempts, base: Path) -> Iterator[str]:
    """What isn't as the call's line says."""
    if (want.status != 0) != bool(call.error):
        yield f"nvcc: status {want.status}: {want.said}"
    yield from (f"nvcc: {problem}" for problem in wrong(call, want, want, base))
    yield from (f"ours, {problem}" for problem in ours.wrong())
    yield from out_of_date(call, len(theirs.made) - theirs.right(), len(theirs.made))
    if not call.theirs:
        yield from (f"theirs, {problem}" for problem in theirs.wrong())
        yield from unlike(call, theirs.made[0][0], ours.made[0][0], base)


def judge(call: Call, args: argparse.Namespace) -> tuple[str, list[str]]:
    """Makes a call by all three: a line of the table, and what isn't as the call's line says."""
    base = Path(tempfile.mkdtemp(prefix="peer.", dir=args.scratch))
    caches = base / "theirs", base / "ours"
    tries = TRIES if call.theirs == "random" else 1
    env = {name: value for name, value in os.environ.items() if not name.startswith("NVCC_")}
    try:
        (base / "tmp").mkdir()
        want = make([NVCC], call, base / "work", env)
        theirs = Attempts([attempt(args.theirs, caches[0], call, want, base) for _ in range(tries)])
        ours = Attempts([attempt(args.ours, caches[1], call, want, base) for _ in range(max(tries, args.runs))])
        problems, crossed = [*problems_of(call, want, theirs, ours, base)], "-"
        if not call.theirs and not call.error:
            swapped = [*on_other_cache(args.ours, caches[0], call, want, base), *on_other_cache(args.theirs, caches[1], call, want, base)]
            problems += [f"on the other's cache: {problem}" for problem in swapped]
            crossed = "differs" if swapped else "all hits"
        row = f"{call.name:34} {call.cached:8} {theirs.share()} {ours.share()}  {crossed}"
        said = theirs.wrong() if args.explain else []
        return "\n    theirs, ".join([row, *said]), problems
    finally:
        shutil.rmtree(base, ignore_errors=True)


def options() -> argparse.Namespace:
    parser = argparse.ArgumentParser(usage=__doc__)
    parser.add_argument("theirs", type=Path)
    parser.add_argument("ours", type=Path)
    parser.add_argument("files", nargs="+", type=Path)
    parser.add_argument("--runs", type=int, default=1)
    parser.add_argument("--jobs", type=int, default=1)
    parser.add_argument("--only", default="")
    parser.add_argument("--scratch", type=lambda name: os.path.abspath(name))
    parser.add_argument("--explain", action="store_true")
    return parser.parse_args()


def main() -> int:
    args = options()
    lines = [line for file in args.files for line in file.read_text().splitlines()]
    calls = [Call(line) for line in lines if line and line[0] != "#" and args.only in line]
    counts = Counts()
    print(f"{'call':34} {'commands':>8} {'theirs right':>12} {'ours right':>12}  each on the other's cache")
    with concurrent.futures.ThreadPoolExecutor(args.jobs) as pool:
        for call, (row, problems) in zip(calls, pool.map(lambda one: judge(one, args), calls)):
            print(row, flush=True)
            counts.case(f"    {call.name}", problems)
    return counts.summary()


if __name__ == "__main__":
    sys.exit(main())
