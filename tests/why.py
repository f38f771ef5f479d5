#!/usr/bin/env python3
"""Plants causes by lot, and asks `zigrunk why` for them.

    tests/why.py [--causes N] [--misses N] [--share PERCENT] [--seed N] ZIGRUNK

A project is built in two folders, with records. Between both a cause is planted that a seed draws: another word, variable, header, source,
tool, time, path, id or locale. If the objects differ, `zigrunk why` has to name the cause by its kind and its name; if they don't, it has to
name none. Each third trial plants nothing, or what no object shows. Then calls are looked up in the cache after a change that a seed draws:
`zigrunk why --miss` has to name it, or to say that the cache has the call, and then it has. Last come options of `zigrunk nvcc`: --root and
--check-twice. It fails if fewer than PERCENT of the causes that show are named. The last line is 'N passed, M failed'; a cause that isn't
named and may be is printed.
"""
import argparse
import json
import os
import random
import shutil
import subprocess
import sys
import tempfile
import time
from pathlib import Path
from typing import Callable, Dict, List, NamedTuple, Optional

from runner import Counts

SOURCE = """#include "a.h"
#include "deep/b.h"
#ifndef FACTOR
#define FACTOR 1
#endif
__global__ void kernel(int* p) { *p = scaled(*p) * FACTOR; }
const char* built() { return WHEN ID; }
void run(int* p) { kernel<<<1, 1>>>(p); }
"""
HEADERS = {
    "inc/a.h": "#pragma once\n__host__ __device__ inline int scaled(int a) { return a * 3; }\n",
    "inc/deep/b.h": '#pragma once\n#ifndef WHEN\n#define WHEN "then"\n#endif\n#ifndef ID\n#define ID "none"\n#endif\n',
    "other/deep/b.h": '#pragma once\n#define WHEN "elsewhere"\n#define ID "none"\n',
}
# A host compiler that writes something of its own into what it preprocesses.
SCRIPT = """#!/bin/bash
for word; do [ "$word" = -E ] && exec gcc "-DID=\\"VALUE\\"" "$@"; done
exec gcc "$@"
"""


class Build(NamedTuple):
    """How a build is made: where, by which words, in which environment."""

    top: Path
    words: List[str]
    variables: Dict[str, str]


class Planted(NamedTuple):
    """What a cause changes of the second build, and what has to be named: kinds, and a part of the cause's name, values or excerpts."""

    name: str
    plant: Callable[[Build, random.Random], Build]
    kinds: List[str]
    part: str


def edit(name: str, old: str, new: Callable[[random.Random], str]) -> Callable[[Build, random.Random], Build]:
    """A file with another text."""
    def plant(build: Build, lot: random.Random) -> Build:
        text = (build.top / name).read_text()
        assert old in text, name
        (build.top / name).write_text(text.replace(old, new(lot), 1))
        return build
    return plant


def with_words(*choices: str) -> Callable[[Build, random.Random], Build]:
    """A build with further words."""
    return lambda build, lot: build._replace(words=[*build.words, *lot.choice(choices).split()])


def with_variable(name: str, *values: str) -> Callable[[Build, random.Random], Build]:
    """A build in another environment."""
    return lambda build, lot: build._replace(variables={**build.variables, name: lot.choice(values).replace("TOP", str(build.top))})


def moved(build: Build, lot: random.Random) -> Build:
    """A build in another folder, perhaps with whole paths."""
    top = build.top.parent / ("m" * lot.randint(1, 9))
    shutil.move(build.top, top)
    return build._replace(top=top)


def copied_tool(build: Build, lot: random.Random) -> Build:
    """A build by a toolkit whose tool is another program: it adds a word."""
    tool, word = lot.choice([("ptxas", "-O1"), ("cicc", "-opt=0"), ("ptxas", "--maxrregcount=24")])
    path = build.top / "kit" / "bin" / tool if tool == "ptxas" else build.top / "kit" / "nvvm" / "bin" / tool
    real = os.path.realpath(path)
    path.unlink()
    path.write_text(f'#!/bin/sh\nexec "{real}" "$@" {word}\n')
    path.chmod(0o755)
    return build


SHOWN = [
    Planted("a macro", with_words("-DFACTOR=2", "-DFACTOR=7", "-DFACTOR=12"), ["word"], "FACTOR"),
    Planted("optimization", with_words("-Xptxas -O0", "-G", "-lineinfo", "-Xcompiler -O2", "-g"), ["word", "count"], "-"),
    Planted("another target", with_words("-arch=sm_80", "-arch=sm_90"), ["word", "count"], "-arch=sm_"),
    Planted("words of a variable", with_variable("NVCC_APPEND_FLAGS", "-DFACTOR=3", "-DFACTOR=4"), ["word"], "FACTOR"),
    Planted("a folder of headers", with_variable("CPATH", "TOP/other"), ["variable"], "CPATH"),
    Planted("a date by a variable", with_variable("SOURCE_DATE_EPOCH", "0", "86400000"), ["variable"], "SOURCE_DATE_EPOCH"),
    Planted("a header", edit("inc/a.h", "a * 3", lambda lot: f"a * {lot.randint(4, 99)}"), ["header"], "inc/a.h"),
    Planted("a header of a header's folder", edit("inc/deep/b.h", '"then"', lambda lot: f'"{lot.random()}"'), ["header"], "inc/deep/b.h"),
    Planted("the source", edit("k.cu", "void run", lambda lot: f"int more{lot.randint(1, 9)}() {{ return 1; }}\nvoid run"), ["source"], "k.cu"),
    Planted("a header in front", edit("k.cu", "#include", lambda lot: '#include "../other/deep/b.h"\n#include'), ["source"], "k.cu"),
    Planted("an id in a header", edit("inc/deep/b.h", '"none"', lambda lot: f'"{lot.getrandbits(64):x}"'), ["header"], "inc/deep/b.h"),
    Planted("a tool", copied_tool, ["tool"], "kit"),
    Planted("the time", lambda build, lot: build, ["time"], "__TIME__"),
    Planted("a file's time", lambda build, lot: build, ["time"], "__TIMESTAMP__"),
    Planted("a path", moved, ["path"], "k.cu"),
    Planted("an id", lambda build, lot: build, ["id", "unknown"], ".ii"),
    Planted("a locale", with_variable("LC_ALL", "de_DE.UTF-8", "C"), ["locale"], "LC_ALL"),
]
UNSHOWN = [
    Planted("nothing", lambda build, lot: build, [], ""),
    Planted("a comment", edit("k.cu", "void run", lambda lot: f"/* {lot.random()} */ void run"), [], ""),
    Planted("another folder for temporary files", with_variable("TMPDIR", "TOP/temporary"), [], ""),
    Planted("a macro that nothing uses", with_words("-DUNUSED=1", "-DUNUSED=2"), [], ""),
    Planted("a variable that counts for no tool", with_variable("WHATEVER", "1", "2"), [], ""),
]


class Trial:
    """The trials of one seed."""

    def __init__(self, zigrunk: str, room: Path) -> None:
        self.zigrunk, self.room = zigrunk, room
        (room / "any.cu").write_text("")
        said = subprocess.run(["nvcc", "--dryrun", "-c", "any.cu"], cwd=room, stderr=subprocess.PIPE, check=True).stderr.decode()
        here = next(line for line in said.splitlines() if line.startswith("#$ _HERE_="))
        self.kit = Path(here.split("=", 1)[1]).resolve().parent

    def prepared(self, top: Path, planted: Planted, lot: random.Random) -> Build:
        """The first build's sources, tools, words and environment."""
        for name, text in [*HEADERS.items(), ("k.cu", SOURCE)]:
            (top / name).parent.mkdir(parents=True, exist_ok=True)
            (top / name).write_text(text)
        (top / "temporary").mkdir()
        words = ["-c", "k.cu", "-o", "k.o", *([] if planted.name == "a folder of headers" else ["-Iinc"])]
        variables = {"NVCC": str(self.kit / "bin/nvcc")}
        if planted.name == "a folder of headers":
            variables["CPATH"] = f"{top}/inc"
            shutil.copy(top / "inc/a.h", top / "other/a.h")
        if planted.name in ("the time", "a date by a variable"):
            edit("inc/deep/b.h", '"then"', lambda _: "__TIME__")(Build(top, [], {}), lot)
        if planted.name == "a file's time":
            edit("inc/deep/b.h", '"then"', lambda _: "__TIMESTAMP__")(Build(top, [], {}), lot)
        if planted.name == "a date by a variable":
            variables["SOURCE_DATE_EPOCH"] = "1700000000"
        if planted.name in ("an id", "a locale"):
            (top / "g++").write_text(SCRIPT.replace("VALUE", "$$$RANDOM$RANDOM" if planted.name == "an id" else "$LC_ALL"))
            (top / "g++").chmod(0o755)
            words += ["-ccbin", "./g++"]
            variables["LC_ALL"] = "C.UTF-8"
        if planted.name == "a tool":
            self.copy_kit(top / "kit")
            variables["NVCC"] = str(top / "kit/bin/nvcc")
        if planted.name == "a path" and lot.random() < 0.5:
            words += ["-lineinfo"]
        return Build(top, words, variables)

    def copy_kit(self, folder: Path) -> None:
        """A toolkit whose tools are links to the real ones, but for nvcc, which finds them by its own place."""
        for part in ["bin", "nvvm/bin"]:
            (folder / part).mkdir(parents=True)
            for tool in (self.kit / part).iterdir():
                if tool.name in ("nvcc", "nvcc.profile"):
                    shutil.copy(tool, folder / part / tool.name)
                else:
                    (folder / part / tool.name).symlink_to(tool)
        for name in ["include", "targets", "lib64", "nvvm/libdevice"]:
            if (self.kit / name).exists():
                (folder / name).symlink_to(os.path.realpath(self.kit / name))

    def make(self, build: Build, records: Path) -> Optional[bytes]:
        """Makes a build with a record. Gives the object."""
        environment = {**os.environ, "ZIGRUNK_RECORDS": str(records), **build.variables}
        words = [self.zigrunk, "nvcc", environment.pop("NVCC"), *build.words]
        ran = subprocess.run(words, cwd=build.top, env=environment, stdout=subprocess.PIPE, stderr=subprocess.STDOUT, check=False)
        if ran.returncode != 0:
            print(ran.stdout.decode(errors="replace"), words)
            return None
        return (build.top / "k.o").read_bytes()

    def try_one(self, number: int, planted: Planted, lot: random.Random) -> "List[str]":
        """What is wrong with a trial."""
        room = self.room / str(number)
        first = self.prepared(room / "top", planted, lot)
        one = self.make(first, room / "one")
        if planted.name in ("the time", "a file's time"):
            time.sleep(1.05)
            (first.top / "inc/deep/b.h").touch()
        second = planted.plant(first, lot)
        other = self.make(second, room / "other")
        if one is None or other is None:
            return ["a build fails"]
        said = subprocess.run([self.zigrunk, "why", "--json", str(room / "one"), str(room / "other")], stdout=subprocess.PIPE, check=False)
        shown = subprocess.run([self.zigrunk, "why", str(room / "one"), str(room / "other")], stdout=subprocess.PIPE, check=False)
        causes = json.loads(said.stdout)["causes"]
        shutil.rmtree(room)
        if one == other:
            return [f"a cause of equal objects: {causes}"] if causes or said.returncode else []
        if not planted.kinds:
            return ["the objects differ"]
        if len(causes) != 1 or said.returncode != 1 or len(shown.stdout.splitlines()) > 24:
            return [f"{len(causes)} causes, status {said.returncode}"]
        of_line = ["line"] if planted.kinds == ["word", "count"] else []
        named = json.dumps([causes[0][part] for part in ["name", "values", "place", *of_line]])
        is_named = causes[0]["kind"] in planted.kinds and planted.part in named
        return [] if is_named else [f"{causes[0]}"]


class Change(NamedTuple):
    """A change between a call that the cache has kept and the next one, and what `why --miss` says of that: nothing, if the cache has it."""

    name: str
    make: Callable[[Path, Dict[str, str], List[str], random.Random], object]
    said: Dict[str, str]


def put(name: str, old: str, new: Callable[[random.Random], str]) -> Callable[[Path, Dict[str, str], List[str], random.Random], object]:
    """A file with another text."""
    return lambda top, _, words, lot: edit(name, old, new)(Build(top, words, {}), lot)


def of_input(change: str, name: str) -> Dict[str, str]:
    """An input that isn't as it was."""
    return {"why": "input", "change": change, "name": name}


def relink(top: Path, target: str) -> None:
    """Has a folder's link lead elsewhere."""
    (top / "link").unlink()
    (top / "link").symlink_to(target)


CHANGES = [
    Change("a header", put("inc/a.h", "a * 3", lambda lot: f"a * {lot.randint(4, 99)}"), of_input("changed", "inc/a.h")),
    Change("a header of a header's folder", put("inc/deep/b.h", "then", lambda lot: str(lot.random())), of_input("changed", "inc/deep/b.h")),
    Change("the source", put("k.cu", "void run", lambda lot: f"int more{lot.randint(1, 9)};\nvoid run"), of_input("changed", "k.cu")),
    Change("a header that is gone", lambda top, *_: (top / "inc/deep/b.h").unlink(), of_input("gone", "inc/deep/b.h")),
    Change("a header in front", lambda top, *_: shutil.copy(top / "inc/a.h", top / "first/a.h"), of_input("new", "first/a.h")),
    Change("a folder in front", lambda top, *_: shutil.copytree(top / "inc/deep", top / "first/deep"), of_input("new", "first/deep")),
    Change("a link", lambda top, *_: relink(top, "same"), of_input("place", "link")),
    Change("a word", lambda top, _, words, lot: words.append(f"-DFACTOR={lot.randint(2, 9)}"), {"why": "unknown"}),
    Change("a variable", lambda top, variables, *_: variables.update(CPATH=f"{top}/other"), {"why": "unknown"}),
    Change("no whole calls", lambda top, variables, *_: variables.update(ZIGRUNK_CALLS="no"), {"why": "not looked up"}),
    Change("no cache", lambda top, variables, *_: variables.update(ZIGRUNK_CACHE="no"), {"why": "not looked up"}),
    Change("a source that tells the time", lambda *_: None, {"why": "not kept"}),
    Change("nothing", lambda *_: None, {}),
    Change("a comment", put("k.cu", "void run", lambda lot: f"/* {lot.random()} */ void run"), {}),
    Change("a file that nothing seeks", lambda top, *_: (top / "first/c.h").write_text(""), {}),
    Change("a variable that counts for nothing", lambda top, variables, *_: variables.update(XDG_ANY="1"), {}),
]


def miss(zigrunk: str, top: Path, change: Change, lot: random.Random) -> "List[str]":
    """What is wrong with what is said of a call, and with what becomes of it, after a change."""
    for name, text in [*HEADERS.items(), ("k.cu", SOURCE)]:
        (top / name).parent.mkdir(parents=True, exist_ok=True)
        (top / name).write_text(text)
    (top / "first").mkdir()
    shutil.copytree(top / "inc", top / "same")
    (top / "link").symlink_to("inc")
    words = ["nvcc", "-Ifirst", "-Ilink" if change.name == "a link" else "-Iinc", "-c", "k.cu", "-o", "k.o"]
    if change.name == "a source that tells the time":
        put("k.cu", "WHEN", lambda _: "__TIME__")(top, {}, words, lot)
    environment = {**os.environ, "ZIGRUNK_CACHE": str(top / "cache"), "ZIGRUNK_LOG": str(top / "log")}

    def run(*first: str) -> "subprocess.CompletedProcess[bytes]":
        return subprocess.run([zigrunk, *first, *words], cwd=top, env=environment, stdout=subprocess.PIPE, stderr=subprocess.PIPE, check=False)
    # (what has only just been made may be made again in the same moment)
    time.sleep(0.3)
    if run("nvcc").returncode:
        return ["the call fails"]
    change.make(top, environment, words, lot)
    said, shown = run("why", "--json", "--miss"), run("why", "--miss")
    run("nvcc")
    looked = json.loads(said.stdout)
    commands = json.loads((top / "log").read_text().splitlines()[-1])["commands"]
    is_served = [command["kind"] for command in commands] == ["nvcc"]
    found = [] if looked["found"] == is_served == (not change.said) else [f"found: {looked['found']}, and it is served: {is_served}"]
    wrong = {key: looked.get(key) for key, value in change.said.items() if not looked.get(key, "").startswith(value)}
    is_line = said.returncode == shown.returncode == int(bool(change.said)) and len(shown.stdout.splitlines()) == 1
    return [*found, *([f"it says {looked}"] if wrong else []), *([] if is_line else [f"{shown}"])]


def options(zigrunk: str, room: Path, counts: Counts) -> None:
    """The options of `zigrunk nvcc`."""
    tops = [room / "a/top", room / "another/place"]
    for top in tops:
        top.mkdir(parents=True)
        (top / "k.cu").write_text("static __global__ void k(int* p) { *p = 1; }\nvoid run() { k<<<1, 1>>>(nullptr); }\n")

    def run(top: Path, *words: str) -> "subprocess.CompletedProcess[bytes]":
        return subprocess.run([zigrunk, *words], cwd=top, stdout=subprocess.PIPE, stderr=subprocess.STDOUT, check=False)

    def objects(*before: str) -> "List[bytes]":
        for top in tops:
            (top / "list").write_text("nvcc -rdc=true -c k.cu -o k.o\n")
            run(top, *[word.replace("TOP", str(top)) for word in before])
        return [(top / "k.o").read_bytes() for top in tops]
    call = ["-rdc=true", "-c", "k.cu", "-o", "k.o"]
    plain, rooted = objects("nvcc", *call), objects("nvcc", "--root", "TOP", *call)
    batch = objects("batch", "--root=TOP", "list")
    counts.case("--root", [] if plain[0] != plain[1] and rooted[0] == rooted[1] == batch[0] == batch[1] else ["objects of two checkouts"])
    wrong = run(tops[0], "nvcc", "--root", "relative", *call)
    counts.case("--root with a relative path", [] if wrong.returncode == 2 and b"ZIGRUNK_ROOT=relative" in wrong.stdout else [str(wrong)])
    for first, words in [("nvcc", call), ("batch", ["list"])]:
        same = run(tops[0], first, "--check-twice", *words)
        is_same = same.returncode == 0 and b"0 of " in same.stdout
        counts.case(f"{first} --check-twice of a call that is", [] if is_same else [str(same)])
        text = (tops[0] / "k.cu").read_text()
        (tops[0] / "k.cu").write_text(text + "const char* when() { return __TIME__; }\n")
        other = run(tops[0], first, "--check-twice", *words)
        is_named = other.returncode == 1 and b"k.o: time __TIME__ in k.cu" in other.stdout and b"1 of " in other.stdout
        counts.case(f"{first} --check-twice of one that isn't", [] if is_named else [str(other)])
        (tops[0] / "k.cu").write_text(text)
    failing = run(tops[0], "nvcc", "--check-twice", "-c", "missing.cu")
    counts.case("--check-twice of a call that fails", [] if failing.returncode == 1 else [str(failing)])
    by_nvcc = run(tops[0], "nvcc", "--check-twice", "-E", "k.cu", "-o", "k.ii")
    is_same = by_nvcc.returncode == 0 and b"0 of 1 commands" in by_nvcc.stdout
    counts.case("--check-twice of a call that nvcc makes", [] if is_same else [str(by_nvcc)])
    nothing = run(tops[0], "nvcc", "--check-twice", "--version")
    counts.case("--check-twice of a call that makes no file", [] if nothing.returncode == 2 and b"no call made" in nothing.stdout else [str(nothing)])


def links(zigrunk: str, room: Path, lot: random.Random) -> "List[str]":
    """What is wrong with what is said of two links, which nvcc makes itself, of one other object."""
    names = ["a", "b", "c"]
    changed = lot.choice(names)
    for top in [room / "one", room / "other"]:
        top.mkdir(parents=True)
        for name in names:
            value = lot.randint(1, 9) if top.name == "one" or name != changed else lot.randint(10, 99)
            (top / f"{name}.cu").write_text(f"int {name}() {{ return {value if name == changed else 0}; }}\n")
        (top / "main.cu").write_text("int a();\nint main() { return a(); }\n")
        for name in ["main", *names]:
            # (nvcc writes its process's number into objects)
            subprocess.run([zigrunk, "nvcc", "--root", str(top), "-c", f"{name}.cu", "-o", f"{name}.o"], cwd=top, check=True)
        words = [zigrunk, "nvcc", "main.o", *[f"{name}.o" for name in names], "-o", "program"]
        subprocess.run(words, cwd=top, env={**os.environ, "ZIGRUNK_RECORDS": str(room / f"records-{top.name}")}, check=True)
    said = subprocess.run([zigrunk, "why", "--json", str(room / "records-one"), str(room / "records-other")], stdout=subprocess.PIPE, check=False)
    causes = json.loads(said.stdout)["causes"]
    return [] if [(cause["kind"], cause["name"]) for cause in causes] == [("object", f"{changed}.o")] else [f"{changed}: {causes}"]


def main() -> int:
    parser = argparse.ArgumentParser(description=__doc__, formatter_class=argparse.RawDescriptionHelpFormatter)
    parser.add_argument("--causes", type=int, default=50)
    parser.add_argument("--misses", type=int, default=24)
    parser.add_argument("--share", type=int, default=96)
    parser.add_argument("--seed", default="1")
    parser.add_argument("zigrunk")
    given = parser.parse_args()
    lot, counts, zigrunk = random.Random(given.seed), Counts(), os.path.abspath(given.zigrunk)
    unnamed = 0
    with tempfile.TemporaryDirectory(prefix="zigrunk-why.") as name:
        trial = Trial(zigrunk, Path(name))
        for number in range(given.causes):
            planted = SHOWN[number % len(SHOWN)] if number < len(SHOWN) <= given.causes else lot.choice(SHOWN)
            findings = trial.try_one(number, planted, lot)
            unnamed += bool(findings)
            for finding in findings:
                print(f"{planted.name}: {finding}", flush=True)
        named = given.causes - unnamed
        print(f"{named} of {given.causes} causes named")
        counts.case("causes", [] if named * 100 >= given.share * given.causes else [f"{named} of {given.causes} are named"])
        for number in range((given.causes + 1) // 2):
            planted = lot.choice(UNSHOWN)
            counts.case(planted.name, trial.try_one(given.causes + number, planted, lot))
        for number in range(given.misses):
            change = CHANGES[number] if number < len(CHANGES) <= given.misses else lot.choice(CHANGES)
            counts.case(f"a miss: {change.name}", miss(zigrunk, Path(name) / f"miss{number}", change, lot))
        counts.case("two links", links(zigrunk, Path(name) / "links", lot))
        options(zigrunk, Path(name) / "options", counts)
    return counts.summary()


if __name__ == "__main__":
    sys.exit(main())
