#!/usr/bin/env python3
"""Edits the layers of the languages by lot, and looks whether what a program in that language prints changes.

    tests/layers_by_lot.py [--seed S] [--first N] [--count N] [--only N] [--layer LAYER] [--share PERCENT] [--draw] [--rust FOLDER]

An edit changes one line, as those of tests/mutants_by_lot.py, or names another member of those in lines beside it. A layer is the library below all
languages (call), that for C (capi), or the one for C++, Go or Python; that for Rust is the first. The seed and its number say which layer, line and
operator. An edit that doesn't compile is drawn again, and so is one of tests/mutants_known.txt. It's caught if the programs of tests/callers print
another answer to a row of the call table than before, crash or hang, or if another test fails: tests/callers/alone.py, tests/c/failing_memory.c, the
header beside what cbindgen writes, a unit test of call or the crate for Rust. FOLDER has the plain Rust, by default out/rust.

Prints each edit that no test finds as a diff, and last how many were caught, as tests/mutants_by_lot.py does: '1 passed, 0 failed' if enough were.
"""
import argparse
import os
import random
import re
import shutil
import subprocess
import sys
from pathlib import Path

from mutants_by_lot import BUILD, ROOT, RUST, Edit, code_lines, difference, known, least, patience, put, swaps, verdict

WORK = Path(os.environ.get("MUTANTS_WORK", ROOT / "out/mutants")) / "layers"
# How many seconds a test may take on an idle machine.
LONGEST = 120
LAYERS = {"call": "call/src/**/*.rs", "capi": "capi/src/*.rs", "cpp": "bindings/cpp/zigrunk.hpp", "go": "bindings/go/zigrunk.go",
          "python": "bindings/python/zigrunk/__init__.py"}
Operators = dict[str, list[tuple[str, str]]]
# What all these languages write as Rust does.
SHARED: Operators = {name: RUST[name] for name in ("swap equality", "move a border", "another number", "another text", "swap arguments", "swap sum")}
BRACES: Operators = {**SHARED, "swap and, or": RUST["swap and, or"], "another flag": swaps("true~false"), "negate a condition": [
    (r"\bif \((.+)\) \{$", r"if (!(\1)) {"), (r"\bif ((?:[^;{]+; )?)([^;({][^;{]*) \{$", r"if \1!(\2) {"), (r"= (\w+) \? ", r"= !\1 ? ")]}
OPERATORS: dict[str, Operators] = {
    ".rs": RUST,
    ".hpp": {**BRACES, "drop a call": [(r"^(\s*)[\w.>-]+\(.*\);$", r"\1;")], "return early": [(r"^(inline Texts .*\{)$", r"\1 return {};")]},
    ".go": {**BRACES, "drop a call": [(r"^(\s*)(?:defer )?[\w.]+\(.*\)$", r"\1")]},
    ".py": {**SHARED, "swap and, or": swaps(" and ~ or "), "another flag": [*swaps("True~False"), (r" if (.+) else ", r" if not (\1) else ")],
            "negate a condition": [(r"\bif (?!not )(.+):$", r"if not (\1):")], "drop a call": [(r"^(\s+)[\w.]+\(.*\)$", r"\1pass")]},
}
# A name that Python shows alone.
NAMED = re.compile(r'(_record|IntEnum|TypeVar)\("\w*"')
MEMBER = re.compile(r"\b([a-z_]\w*(?:\.|->))([a-z_]\w*)(?=(\(?))")


def others(lines: "list[str]", number: int) -> "list[str]":
    """A line with another member each time: one that the same name has in a line beside it, called as this is if it's called."""
    near = {it.groups() for line in lines[max(0, number - 4):number + 5] for it in MEMBER.finditer(line)}
    line = lines[number]
    return [line[:it.start(2)] + name + line[it.end(2):] for it in MEMBER.finditer(line) for owner, name, call in sorted(near)
            if name != it[2] and (owner, call) == (it[1], it[3])]


def draw(chance: random.Random, path: Path, number: int) -> "Edit | None":
    """An edit of a line, if an operator fits it."""
    lines = path.read_text().splitlines()
    line = lines[number]
    fitting = [(name, put(line, match, by, path.suffix == ".py")) for name, patterns in OPERATORS[path.suffix].items() for pattern, by in patterns
               for match in re.finditer(pattern, line) if line[:match.start()].count('"') % 2 == 0]
    fitting += [("another member", new) for new in others(lines, number)]
    if not fitting:
        return None
    operator = chance.choice(sorted({name for name, _ in fitting}))
    new = chance.choice([new for name, new in fitting if name == operator])
    return Edit(path.relative_to(ROOT), number, line, new, operator) if new != line else None


def run(words: "list[str | Path]", folder: Path = ROOT, rows: "Path | None" = None, variables: "dict[str, str] | None" = None) -> "tuple[int, bytes]":
    """The status of a command, and what it printed."""
    environment = {"PATH": os.environ["PATH"], "HOME": os.environ["HOME"], "LC_CTYPE": "C.UTF-8", "PYTHONDONTWRITEBYTECODE": "1", **(variables or {})}
    with subprocess.Popen(["timeout", "-k", "1", str(LONGEST * patience()), *map(str, words)], cwd=folder, env=environment, stdout=subprocess.PIPE,
                          stderr=subprocess.STDOUT, stdin=rows.open("rb") if rows else subprocess.DEVNULL) as process:
        said, _ = process.communicate()
    return process.returncode, said


class Lane:
    """A copy of the layers in which edits are made, one after the other."""

    def __init__(self, rust: str, layers: "list[str]") -> None:
        self.rust, self.installed, self.room, self.rows = WORK / "rust", WORK / "installed", WORK / "room", WORK / "rows"
        self.target = self.rust / "target/debug"
        shutil.copytree(rust, self.rust, symlinks=True, dirs_exist_ok=True, ignore=shutil.ignore_patterns("target"))
        for name in ("bindings", "tests/callers"):
            shutil.copytree(ROOT / name, WORK / name, dirs_exist_ok=True)
        for name, copy in (("call/src", "call/src"), ("capi/src", "capi/src"), ("bindings/rust/tests", "zigrunk/tests")):
            shutil.copytree(ROOT / name, self.rust / copy, dirs_exist_ok=True)
        self.settings = {"LD_LIBRARY_PATH": str(self.installed / "lib"), "ZIGRUNK_LIBRARY": str(self.installed / "lib/libzigrunk.so.2"),
                         "PYTHONPATH": str(WORK / "bindings/python"), "PATH": "/usr/bin:/bin", "EMPTY": "", "ODD": 'a\nb \\ "'}
        self.make_room()
        if not self.build("call"):
            sys.exit("without an edit: it does not build")
        self.must(["cc", "-D_POSIX_C_SOURCE=200809L", WORK / "tests/callers/answers.c", "-o", WORK / "answers_c", *self.library()])
        self.wanted = self.answers([WORK / "answers_c"])
        for layer in layers:
            if not self.build(layer) or (fault := self.fault(layer)):
                sys.exit(f"without an edit: {layer} fails: {fault}")

    def make_room(self) -> None:
        """The folder of stand-ins and dry runs, the rows of the call table, and a folder for the program in Go."""
        shutil.rmtree(self.room, ignore_errors=True)
        script = '. tests/lib.sh; . tests/callers/room.sh; make_room "$1" && { misuse_rows; real_rows "$1"; } > "$2"'
        self.must(["bash", "-c", script, "room", self.room, self.rows])
        (WORK / "go").mkdir(exist_ok=True)
        (WORK / "go/go.mod").write_text(f"module test\n\ngo 1.19\n\nrequire zigrunk v0.0.0\n\nreplace zigrunk => {WORK}/bindings/go\n")
        shutil.copy(WORK / "tests/callers/go/answers.go", WORK / "go")

    def library(self) -> "list[str | Path]":
        return [f"-I{self.installed}/include", f"-L{self.installed}/lib", "-lzigrunk"]

    @staticmethod
    def must(words: "list[str | Path]") -> None:
        status, said = run(words)
        if status:
            sys.exit(f"{words[0]}: {said.decode()}")

    def cargo(self, *words: str) -> bool:
        variables = {**BUILD, "ZIGRUNK_DRY_RUNS": str(ROOT / "tests/drivers/test_plans/data/dry_runs")}
        return run(["cargo", words[0], "-q", "--offline", *words[1:]], self.rust, None, variables)[0] == 0

    def build(self, layer: str) -> bool:
        """Builds what an edit of a layer is in. Says whether it compiles."""
        if layer in ("call", "capi"):
            # (together, cargo would make no archive)
            return self.cargo("build", "-p", "capi") and (layer == "capi" or self.cargo("build", "-p", "zigrunk", "--example", "answers")) and \
                run([ROOT / "bindings/c/library.sh", self.target / "libzigrunk_c.a", self.installed])[0] == 0
        if layer == "cpp":
            words: "list[str | Path]" = ["c++", "-std=c++17", "-w", f"-I{WORK}/bindings/cpp", WORK / "tests/callers/answers.cpp"]
            return run([*words, "-o", WORK / "answers_cpp", *self.library()])[0] == 0
        if layer == "go":
            variables = {"PKG_CONFIG_PATH": f"{self.installed}/lib/pkgconfig", "GOFLAGS": "-mod=mod", "GOPROXY": "off",
                         "GOCACHE": f"{WORK}/go_cache"}
            return run(["go", "build", "-o", WORK / "answers_go"], WORK / "go", None, variables)[0] == 0
        return run([sys.executable, "-m", "py_compile", WORK / LAYERS["python"]])[0] == 0

    def answers(self, program: "list[str | Path]") -> bytes:
        script = '. tests/lib.sh; . tests/callers/room.sh; made_calls "$@"'
        variables = [f"{name}={value}" for name, value in {**self.settings, "SEEN": "yes"}.items()]
        made = run(["bash", "-c", script, "made", self.room, "env", *variables, *program])
        return run([*program, self.room], rows=self.rows, variables=self.settings)[1] + made[1]

    def fault(self, layer: str) -> str:
        """The first test that fails with an edit of a layer, or nothing."""
        programs: "dict[str, list[str | Path]]" = {
            "call": [self.target / "examples/answers"], "capi": [WORK / "answers_c"], "cpp": [WORK / "answers_cpp"], "go": [WORK / "answers_go"],
            "python": [sys.executable, WORK / "tests/callers/answers.py"]}
        said = self.answers(programs[layer])
        if said != self.wanted:
            got, wanted = said.splitlines(), self.wanted.splitlines()
            at = next((at for at, (one, other) in enumerate(zip(got, wanted)) if one != other), min(len(got), len(wanted)))
            return f"an answer: {(got[at:at + 1] or [b'it ends'])[0][:90].decode(errors='replace')}"
        if layer == "call" and not self.cargo("test", "--lib", "--tests", "-p", "call", "-p", "zigrunk"):
            return "unit tests"
        if layer in ("capi", "python") and run([sys.executable, WORK / "tests/callers/alone.py", self.room, WORK / "bindings/c/zigrunk.h",
                                                (ROOT / "VERSION").read_text().strip()], variables=self.settings)[0]:
            return "alone.py"
        if layer == "capi" and shutil.which("cbindgen") and self.header() != (ROOT / "bindings/c/zigrunk.h").read_bytes():
            return "the header"
        return "failing memory" if layer == "capi" and not self.bears_failing_memory() else ""

    def header(self) -> bytes:
        """What cbindgen writes of the sources."""
        return run(["cbindgen", "-q", "--config", "cbindgen.toml", "--crate", "capi", "."], self.rust / "capi")[1]

    def bears_failing_memory(self) -> bool:
        wraps = "-Wl,--wrap=malloc,--wrap=calloc,--wrap=realloc,--wrap=posix_memalign,--wrap=free"
        self.must(["cc", "-D_POSIX_C_SOURCE=200809L", f"-I{self.installed}/include", wraps, ROOT / "tests/c/failing_memory.c", "-o", WORK / "memory",
                   self.installed / "lib/libzigrunk.a"])
        return run([WORK / "memory", self.room, "1", "500"])[0] == 0

    def edit(self, edit: Edit, makes: bool) -> None:
        """Makes an edit, or takes it back."""
        lines = (ROOT / edit.path).read_text().splitlines()
        lines[edit.line] = edit.new if makes else edit.old
        folder = self.rust if edit.path.parts[0] in ("call", "capi") else WORK
        (folder / edit.path).write_text("\n".join(lines) + "\n")


class Lot:
    """The edits of a seed."""

    def __init__(self, seed: str, layers: "list[str]") -> None:
        self.seed, self.layers, self.known = seed, layers, known()
        self.lines = {layer: [(path, number) for path in sorted(ROOT.glob(LAYERS[layer])) for number in code_lines(path)] for layer in layers}
        self.not_compiled = 0

    def changes_nothing(self, edit: Edit) -> bool:
        """Whether it is known that no test could see an edit."""
        return NAMED.sub("", edit.old) == NAMED.sub("", edit.new) or (str(edit.path), edit.old.strip(), edit.new.strip()) in self.known

    def edit(self, number: int, lane: "Lane | None") -> "tuple[str, Edit]":
        """The edit of a number and its layer, built in a lane."""
        chance = random.Random(f"{self.seed}.{number}")
        layer = chance.choice(self.layers)
        while True:
            edit = draw(chance, *chance.choice(self.lines[layer]))
            if edit is None or self.changes_nothing(edit):
                continue
            if lane is None:
                return layer, edit
            lane.edit(edit, True)
            if lane.build(layer):
                return layer, edit
            lane.edit(edit, False)
            self.not_compiled += 1


def main() -> int:
    parser = argparse.ArgumentParser(usage=__doc__)
    parser.add_argument("--seed", default="1")
    parser.add_argument("--first", type=int, default=1)
    parser.add_argument("--count", type=int, default=40)
    parser.add_argument("--only", type=int)
    parser.add_argument("--layer", choices=LAYERS)
    parser.add_argument("--share", type=float, default=95)
    parser.add_argument("--draw", action="store_true")
    parser.add_argument("--rust", default=f"{ROOT}/out/rust")
    args = parser.parse_args()
    lot = Lot(args.seed, [args.layer] if args.layer else [*LAYERS])
    lane = None if args.draw else Lane(args.rust, lot.layers)
    caught = 0
    numbers = [args.only] if args.only else [*range(args.first, args.first + args.count)]
    for number in numbers:
        layer, edit = lot.edit(number, lane)
        fault = lane.fault(layer) if lane else ""
        if lane:
            lane.edit(edit, False)
            lane.build(layer)
        caught += bool(fault)
        what = f"caught by {fault}" if fault else difference(edit, (ROOT / edit.path).read_text()).rstrip()
        print(f"edit {number}, {edit.path}:{edit.line + 1}, {edit.operator}: {what}", flush=True)
    if not lane:
        return 0
    said, is_enough = verdict(caught, len(numbers) - caught, 1 if args.only else least(len(numbers), args.share / 100))
    print(f"{lot.not_compiled} edits did not compile\nseed {args.seed}: {said}")
    return int(not is_enough)


if __name__ == "__main__":
    sys.exit(main())
