"""Compares what a call's tasks leave in files with what its plan's commands leave one after the other, and with what nvcc leaves.

tests/histories.py makes a call with early and late starts. Here the same call is made again in the same folder, in two ways: each command after
the one before, as the plan has them, and by nvcc. strace has temporary files stay: it answers each `unlinkat`, by which the driver removes them,
and nothing is removed.

- AreAlike: each file that isn't the driver's own holds what it holds after the plan's commands, temporary ones too. Before the calls they do,
  since the folder is the same.
- StandFor: the driver's own files that stand for others hold what these do: fatbinary's file, the stub file but for its name in line markers,
  and each file that is withheld. Each file is written by one task, so what is alike at the end was alike behind each task.
- AllSucceeded: only then is this compared. Of all calls status and messages are the same.

What differs between two runs of the plan's commands, as a name with a number of a process, isn't decided by the contents of files. It doesn't
count.
"""

import json
import os
import re
import shutil
import subprocess
import time
from collections import Counter
from collections.abc import Iterator
from pathlib import Path
from typing import Any, NamedTuple

from compare_calls import Call, Difference, Ran, content, differences, explained, loud, normal, tree
from random_calls import row_of

# The driver's options and variables with which a plan's commands run one after the other.
ONE_BY_ONE = {"ZIGRUNK_EARLY": "0", "ZIGRUNK_LATE": "0", "ZIGRUNK_SLOTS": "1"}
# strace's words to have temporary files stay.
KEEPING = ["-e", "inject=unlinkat:retval=0"]
# Before a call is made again to see what differs by itself: a precompiled module of gcc's has the time of day, in seconds.
SECOND = 1.1
OWN = "zigrunk.tmp/"
TEMPORARY = f"/zigrunk-{os.getuid()}/"
MARKER = b'# 1 "%s"\n'


class Left(NamedTuple):
    """What a call left: its status, what it said, if that is known, temporary files by their paths, and products by their places."""

    status: int
    said: str | None
    temporary: dict[str, bytes]
    products: dict[str, bytes]


class Compared(NamedTuple):
    """What is wrong with what a call left, and how much there was to see."""

    problems: list[str]
    seen: Counter[str]


def temporary_below(*folders: Path) -> dict[str, bytes]:
    """What the temporary files of calls below some folders hold. A link counts as the text that it has."""
    found = {}
    for root, _, names in (walked for folder in folders for walked in os.walk(folder)):
        for path in (Path(root, name) for name in names if TEMPORARY in f"{root}/"):
            found[str(path)] = os.readlink(path).encode() if path.is_symlink() else path.read_bytes()
    return found


class Room:
    """A folder for calls, in which each finds the same files by the same names."""

    def __init__(self, folder: str) -> None:
        self.folder = Path(folder)
        self.work, self.temporary = self.folder / "work", self.folder / "tmp"
        self.before = dict[str, str]()

    def keep(self) -> None:
        """Keeps the files that calls find."""
        subprocess.run(["cp", "-a", str(self.work), str(self.folder / "kept")], check=True)
        self.before = tree(self.work)

    def reset(self) -> None:
        """Has the next call find the files as they were kept."""
        for folder in (self.work, self.temporary, self.folder / "run"):
            shutil.rmtree(folder, ignore_errors=True)
        subprocess.run(["cp", "-a", str(self.folder / "kept"), str(self.work)], check=True)
        for folder in (self.temporary, self.folder / "run"):
            folder.mkdir(mode=0o700)

    def products(self) -> dict[str, bytes]:
        """The files that calls have made or changed."""
        made = {name: what for name, what in tree(self.work).items() if self.before.get(name) != what and TEMPORARY not in f"/{name}"}
        return {name: content(self.work / name, what) for name, what in made.items()}

    def left(self, ran: "subprocess.CompletedProcess[bytes]") -> Left:
        said = normal((ran.stdout + ran.stderr).decode("utf-8", "replace"), self.folder)
        return Left(ran.returncode, said, temporary_below(self.work, self.temporary), self.products())


def file_of(files: dict[str, bytes], place: str, suffix: str) -> str:
    """The name of the file of a call's folder with a suffix, which only one has."""
    found = [name for name in files if name.startswith(place) and name.endswith(suffix) and "/" not in name.removeprefix(place)]
    return found[0] if len(found) == 1 else ""


def moved(files: dict[str, bytes], other: dict[str, bytes], place: str) -> Iterator[tuple[str, bytes, str]]:
    """The driver's own files that stand for others, as they have to read, and the others."""
    for name, text in files.items():
        own = name.removeprefix(place + OWN)
        if name.startswith(place + OWN):
            if own == "fatbin.c":
                yield name, text, file_of(other, place, ".fatbin.c")
            elif own == "stub.c":
                stub = file_of(other, place, ".cudafe1.cpp").replace(".cpp", ".stub.c")
                yield name, text.replace(MARKER % name.encode(), MARKER % stub.encode()), stub
            elif own.startswith("module_id."):
                yield name, text, file_of(other, place, ".module_id")


def unlike(one: Left, other: Left, seen: Counter[str]) -> Iterator[str]:
    """The files that aren't alike after tasks and after a plan's commands."""
    for place in sorted({found[0] for name in other.temporary if (found := re.match(f".*{TEMPORARY}[^/]*/", name))}):
        pairs = [*moved(one.temporary, other.temporary, place)]
        for name, text, stands_for in pairs:
            seen.update(moved=1)
            if text != other.temporary.get(stands_for):
                yield f"{name} isn't {stands_for or 'any file'}"
        # The compiler's half reads a placeholder in place of fatbinary's file.
        instead = {stands_for for name, _, stands_for in pairs if name.endswith("/fatbin.c")}
        names = {name for name in one.temporary | other.temporary if name.startswith(place) and OWN not in name} - instead
        seen.update(temporary=len(names))
        yield from (name for name in sorted(names) if one.temporary.get(name) != other.temporary.get(name))
    seen.update(products=len(other.products))
    yield from (name for name in other.products if one.products.get(name) != other.products[name])


def one_by_one(log: Path) -> Iterator[str]:
    """What of a call's commands, as its log has them, isn't one after the other, each behind all that it needs."""
    lines = log.read_text(encoding="utf-8").splitlines() if log.exists() else []
    commands: list[dict[str, Any]] = next((json.loads(line)["commands"] for line in lines if '"commands"' in line), [])
    order = sorted(range(len(commands)), key=lambda number: float(commands[number]["begin"]))
    for place, number in enumerate(order):
        if "went_on" in commands[number] or not {*commands[number]["needs"]} <= {*order[:place]}:
            yield f"by the plan, {commands[number]['kind']} begins early"
        if place and commands[number]["begin"] < commands[order[place - 1]]["end"]:
            yield f"by the plan, {commands[number]['kind']} begins beside {commands[order[place - 1]]['kind']}"


def as_ran(left: Left) -> Ran:
    return {"status": left.status, "out": "", "err": "", "made": left.products, "gone": [], "left": [], "launched": "", "reason": None,
            "seconds": 0, "after": ""}


def is_known(line: str, want: Left, got: Left, found: Difference, version: str) -> bool:
    """Whether docs/DIFFERENCES.md or the call's line has a difference from nvcc."""
    known = explained(Call(line, 0), version) if line.startswith("@") else set()
    return found[0] in known or not loud([found]) or bool(row_of(line, as_ran(want), as_ran(got), found))


class Comparer:
    """Makes calls again, and compares what they leave."""

    def __init__(self, driver: str, nvcc: str, version: str) -> None:
        self.driver, self.nvcc, self.version = driver, nvcc, version

    def again(self, room: Room, words: list[str], cwd: Path, env: dict[str, str], tool: list[str]) -> Left:
        room.reset()
        return room.left(subprocess.run([*tool, *words], cwd=cwd, env=env, stdin=subprocess.DEVNULL, capture_output=True, check=False))

    def by_plan(self, room: Room, words: list[str], cwd: Path, env: dict[str, str]) -> Left:
        """Makes a call with each command after the one before."""
        strace = ["strace", "-f", "--seccomp-bpf", "-q", "-e", "trace=unlinkat", "-e", "signal=none", *KEEPING, "-o", "/dev/null"]
        return self.again(room, words, cwd, {**env, **ONE_BY_ONE, "ZIGRUNK_LOG": str(room.folder / "log.plan")}, [*strace, self.driver])

    def compare(self, room: Room, line: str, words: list[str], cwd: Path, env: dict[str, str], got: Left) -> Compared:
        """Compares what a call has left with what it leaves in the other two ways."""
        (room.folder / "log.plan").unlink(missing_ok=True)
        want, seen = self.by_plan(room, words, cwd, env), Counter[str]()
        problems = [*one_by_one(room.folder / "log.plan")]
        found = self.unlike(got, want, seen)
        if found:
            time.sleep(SECOND)
            other = self.by_plan(room, words, cwd, env)
            noise = {*self.unlike(other, want, Counter())}
            seen.update(undecided=len(noise))
            problems += [f"unlike what the plan's commands leave: {one}" for one in found if one not in noise]
        # (of a build's files, those of this call)
        made = {name: text for name, text in got.products.items() if got.said is not None or name in want.products}
        problems += self.against_nvcc(room, line, words, cwd, env, got._replace(products=made))
        seen.update(succeeded=got.status == 0)
        return Compared(problems, seen)

    def unlike(self, got: Left, want: Left, seen: Counter[str]) -> list[str]:
        found = [f"status {got.status}, not {want.status}"] if got.status != want.status else []
        found += ["what is said"] if got.said is not None and got.said != want.said else []
        return found + ([*unlike(got, want, seen)] if want.status == 0 else [])

    def against_nvcc(self, room: Room, line: str, words: list[str], cwd: Path, env: dict[str, str], got: Left) -> list[str]:
        """What differs from nvcc's products and status, and not between nvcc and nvcc."""
        plain = {name: value for name, value in env.items() if not name.startswith("ZIGRUNK")}
        want = self.again(room, words, cwd, plain, [self.nvcc])
        found = [one for one in differences(as_ran(want), as_ran(got), room.folder) if not is_known(line, want, got, one, self.version)]
        if not found:
            return []
        time.sleep(SECOND)
        noise = differences(as_ran(want), as_ran(self.again(room, words, cwd, plain, [self.nvcc])), room.folder)
        return [f"unlike nvcc's: {kind} {text}" for kind, text in found if (kind, text) not in noise]
