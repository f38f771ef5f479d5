#!/usr/bin/env python3
"""Proved libraries that are kept between runs, outside the clone, each under the digest of the sources that made it.

The folder is ZIGRUNK_PROOFS, or zigrunk/proofs in the user's cache folder. A library whose sources, or those of a library below it,
have changed has another digest, so nothing in the folder goes stale: remove it whenever you like. The gate never reads it.

    tests/kept.py --from-rt-ci      puts into that folder what `rt ci` has proved on this machine of the same sources, by the same kit, so that
                                    tests/quick has only what changed to prove. The last line says how many libraries are kept.
"""

import fcntl
import hashlib
import importlib.machinery
import os
import shutil
import subprocess
import sys
import tempfile
from concurrent.futures import Future, ThreadPoolExecutor
from typing import Any, Callable, Dict, List

if not shutil.which("rt"):
    sys.exit(f"{sys.argv[0]} needs the Rattle kit, whose rt is not on PATH. Without it, make rust compiles the crates.")
sys.path.insert(0, os.path.dirname(os.path.realpath(shutil.which("rt") or "rt")))
import rtlib as rtlib  # the kit's own: what it passes to its prover for a crate

# The parts of a crate that its proof reads.
PARTS = ("src", "specs", "proofs")
FOLDER = os.environ.get("ZIGRUNK_PROOFS") or f"{os.environ.get('XDG_CACHE_HOME') or os.path.expanduser('~/.cache')}/zigrunk/proofs"


def digest_of(crate: Any, parts: tuple[str, ...] = PARTS) -> str:
    """Returns a digest of these parts of a crate, and of the proofs' parts of all libraries below it."""
    total = hashlib.sha256(repr([(it.name, digest_of(it)) for it in crate.deps]).encode())
    for part in parts:
        for at, folders, names in os.walk(f"{crate.folder}/{part}"):
            folders.sort()
            for name in sorted(names):
                with open(f"{at}/{name}", "rb") as it:
                    total.update(repr((os.path.relpath(f"{at}/{name}", crate.folder), it.read())).encode())
    return total.hexdigest()


def kit() -> str:
    """Returns the kit's line: what it proves is proved by this kit alone."""
    return subprocess.run(["rt", "version"], capture_output=True, text=True, check=True).stdout


def key_of(version: str, crate: Any) -> str:
    """Returns the name under which a library of this kit is kept: it differs if its sources do, or those below."""
    return f"{crate.name}-{hashlib.sha256((version + digest_of(crate)).encode()).hexdigest()[:24]}"


def work_folder(crate: Any) -> str:
    """Returns where checks of this crate keep what they have proved of it, so that the next one proves only what changed."""
    folder = f"{FOLDER}/work/{crate.name}"
    os.makedirs(folder, exist_ok=True)
    return folder


def started(command: str, words: List[str], folder: str) -> "subprocess.Popen[str]":
    """Starts the kit's prover in a crate's folder. It ends when this program ends, and both of its streams are standard output."""
    call = [*rtlib.guarded(), rtlib.RATTLE, command, *words]
    return subprocess.Popen(
        call, cwd=folder, stdin=subprocess.DEVNULL, stdout=subprocess.PIPE, stderr=subprocess.STDOUT, text=True, errors="replace"
    )


def sum_of(rlib: str) -> str:
    """Returns the sum that tells one build of a library from another, as the libraries above it note it."""
    with open(f"{rlib}/format", "rb") as it:
        return hashlib.sha256(it.read()).hexdigest()


def is_kept(crate: Any) -> bool:
    """Returns whether a library is kept, and over the builds of those below it that are kept: one of `rt ci` fits no others."""
    if not os.path.isdir(crate.rlib):
        return False
    with open(f"{crate.rlib}/format", encoding="utf-8") as it:
        over = dict(line.split()[1:] for line in it if line.startswith("over "))
    return all(os.path.isdir(below.rlib) and over.get(below.name) in (None, sum_of(below.rlib)) for below in crate.below())


def keep(made: str, rlib: str, room: str) -> None:
    """Keeps a library, in place of another build of it, which goes into a folder that will be removed."""
    if os.path.isdir(rlib):
        os.rename(rlib, f"{room}/{os.path.basename(rlib)}.old")
    os.makedirs(os.path.dirname(rlib), exist_ok=True)
    os.rename(made, rlib)


def build(crate: Any, jobs: int, say: Callable[[str], None]) -> bool:
    """Proves and builds a library, unless it is kept. The libraries below it are built. Returns whether it is there. A second run waits for
    a first that proves the same."""
    if is_kept(crate):
        return True
    os.makedirs(os.path.dirname(crate.rlib), exist_ok=True)
    with open(f"{os.path.dirname(crate.rlib)}/lock", "w", encoding="utf-8") as lock, tempfile.TemporaryDirectory(dir=FOLDER) as room:
        fcntl.flock(lock, fcntl.LOCK_EX)
        if is_kept(crate):
            return True
        say(f"proving {crate.name}, which is below and not kept")
        made = f"{room}/{crate.name}.rlib"
        words = [*crate.words(["--jobs", str(jobs)], keeps=False), "--incremental", work_folder(crate), "-o", made]
        with started("build", words, crate.folder) as ran:
            said = ran.communicate()[0]
        if ran.returncode:
            say("\n".join(it for it in said.split("\n") if not it.endswith(": proved")))
            return False
        if key_of(kit(), crate) not in crate.rlib:
            say(f"{crate.name} isn't kept: its sources changed while it was proved")
            return False
        keep(made, crate.rlib, room)
    return True


def build_below(crates: List[Any], jobs: int, say: Callable[[str], None]) -> bool:
    """Has all libraries below these crates at hand, in the kept folder, and proves those that aren't kept, side by side. From then on
    the crates' words name the kept libraries. Returns whether all are there."""
    version, below = kit(), list(dict.fromkeys(it for crate in crates for it in crate.below()))
    for it in below:
        it.rlib = f"{FOLDER}/{key_of(version, it)}/{it.name}.rlib"
    lacking = [it for it in below if not is_kept(it)]
    os.makedirs(FOLDER, exist_ok=True)
    # its first call sets a signal's handler, which only the main thread may
    rtlib.guarded()
    each, done = max(1, jobs // max(1, min(len(lacking), jobs))), {}  # type: int, Dict[str, Future[bool]]

    def one(crate: Any) -> bool:
        return all([done[it.name].result() for it in crate.below()]) and build(crate, each, say)

    with ThreadPoolExecutor(max(1, len(below))) as lanes:
        for it in below:
            done[it.name] = lanes.submit(one, it)
        return all([it.result() for it in done.values()])


def take_from_rt_ci(top: str) -> int:
    """Copies each library that `rt ci` keeps on this machine, if it was made of these sources and of what is below them, into the kept
    folder, also in place of another build of it. It asks the kit's own code, which compares every file with the sum noted when it was
    proved. Returns how many are kept."""
    rt = importlib.machinery.SourceFileLoader("rt_ci", os.path.realpath(shutil.which("rt") or "rt")).load_module()
    version, count = kit(), 0
    os.makedirs(FOLDER, exist_ok=True)
    with tempfile.TemporaryDirectory(dir=FOLDER) as room:
        # `rt ci` puts its libraries into the crates' folders, where a check may be using others
        shutil.copytree(f"{top}/crates", f"{room}/crates", ignore=shutil.ignore_patterns("out"))
        for name in ("crates.txt", "HANDLES"):
            shutil.copy(f"{top}/{name}", room)
        os.chdir(room)
        rt.Crate.allowed = rt.handles_of(room)
        crates = rt.crates_of(room)
        store = rt.Kept(crates)
        for crate in crates:
            if crate.is_program or not all(it.name in store.rlibs for it in crate.below()) or not store.give(crate, False, store.key(crate)):
                continue
            store.is_built(crate)
            to, made = f"{FOLDER}/{key_of(version, crate)}/{crate.name}.rlib", f"{crate.folder}/out/rlib/{crate.name}.rlib"
            if os.path.isdir(made):
                count += 1
                if not os.path.isdir(to) or sum_of(to) != sum_of(made):
                    keep(made, to, room)
        os.chdir(top)
    return count


if __name__ == "__main__":
    if sys.argv[1:] != ["--from-rt-ci"]:
        print(__doc__, file=sys.stderr)
        sys.exit(2)
    print(f"{take_from_rt_ci(os.path.realpath(f'{os.path.dirname(os.path.realpath(__file__))}/..'))} libraries are kept in {FOLDER}")
