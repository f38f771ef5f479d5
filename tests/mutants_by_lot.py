#!/usr/bin/env python3
"""Edits by lot what no contract sees, and looks whether a test fails.

    tests/mutants_by_lot.py [--seed S] [--first N] [--count N] [--only N] [--kind KIND] [--lanes N] [--share PERCENT] [--draw]
                            [--unit] [--rust FOLDER]

An edit changes one line of code: it negates a condition, drops a call, and so on (RUST, SCRIPT). The seed and its number say which line and which
operator, so --only makes one edit again, and --first begins at another than the first. One that doesn't compile is drawn again, and so is one of
tests/mutants_known.txt, of a time by one, or of a border of a time. Then tests run until one fails: the unit tests of its module and all others for
each edit, and then, for those that none of them finds, the parts of the scripts, the likeliest first: not with --unit.
A test counts if it fails twice and passes without the edit. One that takes too long has failed. FOLDER has the plain Rust, by default out/rust.

An edited driver may send any signal, remove any file and take all memory. So tests run where they see no other process, can write only below the
folder of their lane, and have 4 GB each. That takes root, or a kernel that lets users make namespaces.

Prints each edit that no test finds as a diff, how many seconds of a processor each took, and in the last line but one how many were caught, how many
survived, and how many have to be caught. Tests that catch --share percent of all edits, 95 unless set, catch fewer once in 500 runs. The last line is
'1 passed, 0 failed' if enough were caught: that is one case.
"""
import argparse
import difflib
import filecmp
import json
import math
import os
import random
import re
import shutil
import subprocess
import sys
import tempfile
import threading
from collections import Counter
from concurrent.futures import ThreadPoolExecutor
from pathlib import Path
from typing import NamedTuple

ROOT = Path(__file__).resolve().parent.parent
WORK = Path(os.environ.get("MUTANTS_WORK", ROOT / "out/mutants"))
# How many seconds the unit tests or a part of a script may take on an idle machine, of time and of a processor for each process. A busy one may take
# as many times longer as it has processes for each processor.
LONGEST, LONGEST_BUSY = 240, 20
# How many seconds all processes of a test may sleep: then it hangs.
LONGEST_STILL = 40
# With which chance tests may be judged too weak by bad luck alone.
LUCK = 0.002
# How many parts a lane runs side by side: they mostly wait.
SIDE_BY_SIDE = 3
# As in a release: sums that overflow don't panic.
BUILD = {"CARGO_PROFILE_DEV_DEBUG": "0", "CARGO_PROFILE_DEV_OVERFLOW_CHECKS": "false", "CARGO_PROFILE_DEV_DEBUG_ASSERTIONS": "false"}

# What runs a command as the first process of a namespace: all but the lane's folder can only be read, and all ends with the command. A test that has
# the path of the program in it runs UNEDITED in place of EDITED, if that is set.
SANDBOX = ["unshare", *([] if os.geteuid() == 0 else ["--user", "--map-root-user"]), "--mount", "--pid", "--fork", "--kill-child", "--mount-proc",
           "bash", "-c", 'mount --make-rprivate / && mount --bind "$1" /mnt && mount --bind "$2" /tmp && mkdir -p "$1" && mount --bind /mnt "$1" &&'
           ' { [ -z "${UNEDITED-}" ] || mount --bind "$UNEDITED" "$EDITED"; } && mount -o remount,bind,ro / &&'
           ' mount -o remount,bind,ro /dev && mount -t tmpfs tmpfs /dev/shm &&'
           f' ulimit -v 4000000 -t {LONGEST_BUSY} && "${{@:3}}"; status=$?; times > /tmp/times; exit $status', "sandbox"]

# The crates that are edited.
CRATES = ("unix", "machine", "cache", "provenance", "runner", "report", "batch", "driver")
# The files of each kind, and the parts of its tests.
DRIVER_PARTS = ("driver: unit end_to_end folders early_starts late_starts compilers to_nvcc outputs products logs plans statements signals "
                "jobservers slots")
BATCH_PARTS = "driver_batch: lists places failures products databases incremental parts nodes reports stopped killed"
# Of unix, all but what tests alone need.
UNIX = [f"unix/src/{name}.rs" for name in ("files", "image", "pipes", "processes", "shared", "signals", "streams", "waits")]
KINDS = {
    "driver": ([*UNIX, *(f"{crate}/src/**/*.rs" for crate in CRATES[1:])], f"{DRIVER_PARTS} {BATCH_PARTS}"),
}
# The parts that come first for a file, by a part of its path: they are most likely to find an edit.
FIRST = {
    "batch/src/node/": "driver_batch: nodes", "batch/src/": BATCH_PARTS, "report/src/": "driver_batch: reports driver: logs",
    "provenance/src/": "driver: statements", "src/audit_program": "driver: statements",
    "cache/src/": "driver_cache: stand_ins", "unix/src/": "driver: end_to_end signals folders", "src/plan_program": "driver: plans",
    "src/slots": "driver: slots", "src/jobserver": "driver: jobservers", "src/guard": "driver: folders jobservers", "src/folder": "driver: folders",
    "src/log": "driver: logs", "src/rule": "driver: products", "src/products": "driver: products",
    "src/streams": "driver: outputs driver_batch: failures", "src/head_start": "driver: early_starts late_starts", "src/late": "driver: late_starts",
    "src/withheld": "driver: early_starts", "src/run.": "driver: end_to_end early_starts outputs", "src/host": "driver: end_to_end signals logs",
    "src/call": "driver: end_to_end to_nvcc",
}
# No other parts run anything of these files.
ALONE = ("batch/src/", "report/src/", "src/plan_program")


# An edit: the file, the number of a line, what it is before and after, and the operator.
Edit = NamedTuple("Edit", [("path", Path), ("line", int), ("old", str), ("new", str), ("operator", str)])


def swaps(*pairs: str) -> "list[tuple[str, str]]":
    """Patterns that put one text in place of another, and the other way round."""
    return [(re.escape(old), new) for pair in pairs for old, new in (pair.split("~"), pair.split("~")[::-1])]


# An operator is a name, and patterns with what takes the place of a match.
RUST: dict[str, list[tuple[str, str]]] = {
    "negate a condition": [(r"\b(if|while) (?!let\b)([^{}]+?) \{", r"\1 !(\2) {"), (r"\.filter\(\|(.+?)\| (.+)\)", r".filter(|\1| !(\2))")],
    "drop a negation": [(r"(?<!\w)!(?=[a-z(*])", "")],
    "swap equality": swaps(" == ~ != "),
    "move a border": [(r" < ", " <= "), (r" <= ", " < "), (r" > ", " >= "), (r" >= ", " > "), (r"\.\.=", ".."), (r"(?<=[\w)])\.\.(?=[\w(])", "..=")],
    "swap and, or": swaps(" && ~ || "),
    "drop a call": [(r"^(\s*)(let _ = )?[a-z_][\w.:]*(?<!return)\(.*\)\??;$", r"\1")],
    "return early": [(r"^(\s*(?:pub(?:\(crate\))? )?fn .*\{)$", r"\1 @RETURN@")],
    "another number": [(r"(?<![\w.\"#'])(\d+)(?![\w.\"'])", "@MORE@"), (r"(?<![\w.\"#'])([1-9]\d*)(?![\w.\"'])", "@LESS@")],
    "another text": [(r'"([^"{}\\]+)"', r'"\1x"'), (r'"([^"{}\\]+)"', '""')],
    "swap arguments": [(r"(?<=\w)\((&?\w[\w.]*), (&?\w[\w.]*)", r"(\2, \1")],
    "swap sum": [(r" \+ ", " - "), (r" - ", " + "), (r" \* ", " + "), (r" \+= ", " -= ")],
    "empty a branch": [(r"^(\s*.+ => )(?!\{$)[^,]+,$", r"\1{}"), (r"^(\s*.+ => )(?!\{$)(.+),$", r"\1Default::default(),")],
    "another flag": [*swaps("true~false", "TERM~KILL", "INT~HUP", "STOP~CONT", "::WouldBlock~::NotFound", "::AlreadyExists~::PermissionDenied",
                            "Access::KEPT~Access::PIPE", "Outcome::Success~Outcome::Failure"), (r" \| \d+\b", ""), (r"\bTSTP\b", "CHLD")],
    "another method": swaps(".is_some()~.is_none()", ".is_ok()~.is_err()", ".any(~.all(", ".min(~.max(", ".is_some_and(~.is_none_or(",
                            ".first()~.last()", ".starts_with(~.ends_with(", ".take_while(~.skip_while(", ".push_back(~.push_front("),
    "drop a link of a chain": [(r"\.(rev|skip|filter|trim|min|max|take|chain|filter_map)\([^()]*\)", ""),
                               (r"(?<!let )\bSome\([a-z_.]+\)(?! =)(?! \|)", "None")],
    "break, continue": swaps("break;~continue;", "continue;~return;"),
}
SCRIPT: dict[str, list[tuple[str, str]]] = {
    "drop a line": [(r"^(\s*)(?!(?:if|while|until|for|case|def|class|with|elif|return) |done|fi\b|esac|else|then|do\b|[})@\]])[^#]*[^\s:{(,&|\\]$",
                     r"\1@NOTHING@")],
    "negate a condition": [(r"^(\s*)(if|while|until|elif) (?!!)(.*[;:].*)$", r"\1\2 @NOT@ \3")],
    "swap equality": swaps(" = ~ != ", " == ~ != ", " -eq ~ -ne ", " -n ~ -z "),
    "move a border": swaps(" -lt ~ -le ", " -gt ~ -ge ", " < ~ <= ", " > ~ >= "),
    "swap and, or": swaps(" && ~ || ", " and ~ or "),
    "another number": [(r"(?<![\w.\"#'$>&/-])(\d+)(?![\w.\"'>])", "@MORE@")],
    "another text": [(r"'([^'$\\]+)'", r"'\1x'"), (r'"([^"$\\{}]+)"', r'"\1x"')],
    "swap sum": swaps(" + ~ - "),
    "another flag": [*swaps("True~False", "TERM~KILL", "INT~HUP"), (r" --?[a-z][\w-]+(?= )", "")],
    "return early": [(r"^(\s*\w+\(\) \{)$", r"\1 return 0")],
    "swap words": [(r'("\$\w+") ("\$\w+")', r"\2 \1"), (r"(?<=\w)\((\w+), (\w+)\)", r"(\2, \1)")],
}
# What no test sees: a time that is longer or shorter by one, and whether a time may be over to the nanosecond.
NEAR = re.compile(r"\bDuration::(from_\w+|new)\(")
# These values are the default ones.
EMPTY = re.compile(r"=> (\w+::(default|new)\(\)|None|false|0|0\.0|\(\)|\"\"),$")
BORDER = re.compile(r"\b(?:elapsed|silence)\(\) [<>]=? ")
NO_CODE = re.compile(r"\s*(//|#\[|#!\[|#|use |pub use |pub\(crate\) use |mod |pub mod |import |from |extern |\"\"\"|[^\w]*$)")


def returned(line: str) -> str:
    """What a function returns early, by its first line."""
    kind = found[1] if (found := re.search(r"-> (.+?) (?:where .*)?\{$", line)) else ""
    values = {"io::Result<": "Ok(Default::default())", "Result<": "Ok(Default::default())", "Option<": "None"}
    value = next((value for begin, value in values.items() if kind.startswith(begin)), "Default::default()")
    return f"return {value};" if kind else "return;"


def returns_the_same(edit: Edit) -> bool:
    """Whether a function that an edit has return early does nothing but return that."""
    body, end = (line.strip() for line in (ROOT / edit.path).read_text().splitlines()[edit.line + 1:edit.line + 3])
    values = {"Ok(Default::default())": ("Ok(())",), "None": ("None",), "Default::default()": ("false", "0", "String::new()", "Vec::new()")}
    value = returned(edit.old).removeprefix("return ").removesuffix(";")
    return edit.operator == "return early" and end == "}" and body in values.get(value, ())


def put(line: str, match: "re.Match[str]", by: str, is_python: bool) -> str:
    """The line with something in place of a match."""
    text = match.expand(by.replace("@RETURN@", returned(line).replace("\\", r"\\")))
    if by in ("@MORE@", "@LESS@"):
        text = str(int(match[1]) + (1 if by == "@MORE@" else -1))
    text = text.replace("@NOTHING@", "pass" if is_python else ":").replace("@NOT@", "not" if is_python else "!")
    return line[:match.start()] + text + line[match.end():]


def code_lines(path: Path) -> list[int]:
    """The numbers of the lines of code, without tests, comments, imports and borders of blocks."""
    lines = path.read_text().splitlines()
    found, in_tests, in_text = [], False, False
    for number, line in enumerate(lines):
        if line == "#[cfg(test)]" and number + 1 < len(lines) and lines[number + 1].endswith("{"):
            in_tests = True
        in_text ^= line.count('"""') % 2 == 1
        if not in_tests and not in_text and not NO_CODE.match(line):
            found.append(number)
        in_tests &= line != "}"
    return found


def sources(kind: str) -> list[Path]:
    """The files of a kind, without those that are compiled for tests only."""
    files = sorted(path for pattern in KINDS[kind][0] for path in ROOT.glob(pattern))
    only_tests = {path.parent / f"{name}.rs" for path in files for name in re.findall(r"#\[cfg\(test\)\]\nmod (\w+);", path.read_text())}
    return [path for path in files if path not in only_tests]


def known() -> set[tuple[str, str, str]]:
    """The edits that change nothing: file, old and new line. Ends the program if a file has a line no more."""
    text = (ROOT / "tests/mutants_known.txt").read_text()
    edits = {(file, old.strip(), new.strip()) for file, edits in re.findall(r"^file: (.*)\n((?:(?:old|new|why):.*\n)+)", text, re.M)
             for old, new in re.findall(r"^old: ?(.*)\nnew: ?(.*)\nwhy: ?.+$", edits, re.M)}
    gone = sorted({f"{file}: {old}" for file, old, _ in edits if not has_line(ROOT / file, old)})
    if gone:
        sys.exit("tests/mutants_known.txt has lines that are gone:\n" + "\n".join(gone))
    return edits


def has_line(path: Path, line: str) -> bool:
    """Whether a file has a line, whatever blanks are around it."""
    return path.exists() and line in map(str.strip, path.read_text().splitlines())


def draw(chance: random.Random, lines: list[tuple[Path, int]]) -> Edit | None:
    """An edit of a line, if the operator fits it."""
    path, number = chance.choice(lines)
    line = path.read_text().splitlines()[number]
    operators = RUST if path.suffix in (".rs", ".rt") else SCRIPT
    fitting = [(name, by, match) for name, patterns in operators.items() for pattern, by in patterns for match in re.finditer(pattern, line)
               if line[:match.start()].count('"') % 2 == 0]
    if not fitting:
        return None
    operator = chance.choice(sorted({name for name, _, _ in fitting}))
    _, by, match = chance.choice([one for one in fitting if one[0] == operator])
    new = put(line, match, by, path.suffix == ".py")
    return Edit(path.relative_to(ROOT), number, line, new, operator) if new != line else None


def patience() -> float:
    """By how much this machine is slower than an idle one."""
    return max(1.0, os.getloadavg()[0] / (os.cpu_count() or 1))


def activity(root: int) -> "tuple[list[tuple[int, int]], bool]":
    """The processes below one with the ticks of a processor that each has had, and whether any could go on now."""
    stats: dict[int, list[str]] = {}
    for path in Path("/proc").glob("[0-9]*/stat"):
        try:
            stats[int(path.parent.name)] = path.read_text().rpartition(")")[2].split()
        except OSError:
            pass
    below = {root}
    while more := {number for number, stat in stats.items() if int(stat[1]) in below} - below:
        below |= more
    found = sorted((number, int(stats[number][11]) + int(stats[number][12])) for number in below if number in stats)
    return found, any(stats[number][0] in "RD" for number, _ in found)


def processor_time(times: str) -> float:
    """The seconds of a processor in what bash says of its own time and that of its children."""
    return sum(60 * int(minutes) + float(seconds) for minutes, seconds in re.findall(r"(\d+)m([\d.]+)s", times))


def tried_any(said: str) -> bool:
    """Whether the last line of a script that succeeded, or a result of unit tests, counts cases: a script that breaks off may succeed, too."""
    units = sum(map(int, re.findall(r"^test result: ok\. (\d+) passed; 0 failed", said, re.M)))
    last = re.fullmatch(r"(\d+) passed, 0 failed(?:, (\d+) skipped)?", said.rstrip("\n").rpartition("\n")[2])
    return units > 0 or last is not None and int(last[1]) + int(last[2] or 0) > 0


# A build of the sources: the unit tests and the program.
Built = NamedTuple("Built", [("tests", "list[Path]"), ("program", Path)])


def copy_other(source: str, to: str) -> str:
    """Copies a file, with the time of now, unless the same is there: nothing is built again for that."""
    return to if os.path.exists(to) and filecmp.cmp(source, to, shallow=False) else str(shutil.copy(source, to))


class Lane:
    """A copy of the sources in which edits are made, one after the other."""

    def __init__(self, number: int, kind: str, rust: str) -> None:
        self.folder, self.kind = WORK / f"lane{number}", kind
        self.built, self.unedited, self.running = Built([], Path()), Built([], Path()), set[subprocess.Popen[str]]()
        self.program = Path()
        self.sound: dict[tuple[str, str], bool] = {}
        self.seconds = 0.0
        self.sources = self.folder / "out/rust" if kind == "driver" else self.folder
        for old in self.folder.glob("tmp*"):
            shutil.rmtree(old, ignore_errors=True)
        for name in ("tests", "examples", "bindings"):
            made = shutil.ignore_patterns("__pycache__", ".mypy_cache", "out")
            shutil.copytree(ROOT / name, self.folder / name, symlinks=True, dirs_exist_ok=True, ignore=made)
        if kind == "driver":
            others = shutil.ignore_patterns("target", *CRATES)
            shutil.copytree(rust, self.sources, symlinks=True, dirs_exist_ok=True, ignore=others, copy_function=copy_other)
            for crate in CRATES:
                shutil.copytree(ROOT / crate, self.sources / crate, dirs_exist_ok=True, copy_function=copy_other)
                for path in self.sources.glob(f"{crate}/**/*.rs"):
                    if not (ROOT / path.relative_to(self.sources)).exists():
                        path.unlink()

    def build(self, *words: str) -> list[Path]:
        """Runs cargo with these words. Says which programs it made: none, if something doesn't compile."""
        command = ["bash", "-c", '"$@"; status=$?; times >&2; exit $status', "build", "cargo", *words, "--offline", "--quiet"]
        command.append("--message-format=json")
        command += [f"--package={'zigrunk-driver' if crate == 'driver' else crate}" for crate in CRATES]
        made = subprocess.run(command, cwd=self.sources, env=os.environ | BUILD, capture_output=True, text=True, check=False)
        self.seconds += processor_time(made.stderr)
        found = [json.loads(line) for line in made.stdout.splitlines() if '"executable":"' in line]
        # Tests of a program have cargo make the program, too.
        return [Path(one["executable"]) for one in found if one["profile"]["test"] == (words[0] == "test")] if made.returncode == 0 else []

    def compiles(self, path: str) -> bool:
        """Builds the unit tests. Says whether they compile. The program comes later, since most edits are found without it."""
        if self.kind == "driver":
            tests = self.build("test", "--no-run", "--lib", *["--test", "report"] * ("report/src/" in path))
            self.built = Built(tests, self.built.program)
        return bool(self.built.tests) or self.kind != "driver"

    def keep(self) -> bool:
        """Keeps a build without an edit, in which tests that find one have to pass. Says whether there is one."""
        if self.kind != "driver":
            return True
        tests, programs = self.build("test", "--no-run", "--lib", "--test", "report"), self.build("build", "--bins")
        kept = self.folder / "out/unedited/target/debug"
        kept.mkdir(parents=True, exist_ok=True)
        copies = [Path(shutil.copy(path, kept)) for path in [*tests, *programs]]
        self.program = programs[0] if programs else self.program
        self.unedited = Built(copies[:-1], copies[-1]) if tests and programs else self.unedited
        return bool(tests and programs)

    def run(self, words: list[str], **settings: str) -> tuple[int, str]:
        """Runs a test where it can do no harm. Says its status and what it printed."""
        own = tempfile.mkdtemp(prefix="tmp", dir=self.folder)
        waited, still = 0, 0
        before: tuple[list[tuple[int, int]], bool] = ([], True)
        with subprocess.Popen([*SANDBOX, str(self.folder), own, *words], cwd=self.folder, env={**os.environ, **settings, "TMPDIR": "/tmp"}, text=True,
                              errors="replace", stdin=subprocess.DEVNULL, stdout=subprocess.PIPE, stderr=subprocess.STDOUT) as process:
            self.running.add(process)
            said = ""
            while process.returncode is None:
                try:
                    said, _ = process.communicate(timeout=5)
                except subprocess.TimeoutExpired:
                    # Time in which this process was stopped along with the test doesn't count.
                    waited, now = waited + 5, activity(process.pid)
                    still = still + 5 if now == before and not now[1] else 0
                    before = now
                    if waited > LONGEST * patience() or still > LONGEST_STILL:
                        process.kill()
        self.running.discard(process)
        times = Path(own) / "times"
        self.seconds += processor_time(times.read_text()) if times.exists() else 0.0
        shutil.rmtree(own, ignore_errors=True)
        return process.returncode, said or "it takes too long\n"

    def fault(self, built: Built, script: str, part: str) -> str:
        """Runs a part of the tests with a build. Says what fails first, or nothing. A part `unit NAME` are the unit tests whose names begin so."""
        if part.startswith("unit"):
            names = part.split()[1:]
            settings = {"UNEDITED": str(built.program), "EDITED": str(self.program)} if built == self.unedited else {}
            status, said = self.run(["sh", "-c", 'tests=$1 && shift && for test in $tests; do "$test" -q "$@" || exit; done', "unit",
                                     " ".join(map(str, built.tests)), *names], **settings)
            failures = re.findall(r"^    (\S+)$", said, re.M)
        else:
            words = [f"tests/{script}.sh", *([str(built.program)] if self.kind == "driver" else [])]
            settings = {"PARTS": part} if part != "all" else {}
            status, said = self.run(words, STOP_EARLY="1", **settings)
            failures = [line for line in said.splitlines() if ": skipped, " not in line]
        # A module may have no unit tests.
        if status == 0 and (tried_any(said) or part.startswith("unit ")):
            return ""
        return f"{script} {part}: {(failures or [said[-150:] or 'it says nothing'])[0][:150]}"

    def caught_by(self, script: str, part: str) -> str:
        """Which test of a part finds the edit, or nothing. It fails twice, and passes without the edit."""
        if not self.fault(self.built, script, part):
            return ""
        again = self.fault(self.built, script, part)
        if again and self.kind == "driver" and (script, part) not in self.sound:
            self.sound[script, part] = not self.fault(self.unedited, script, part) or not self.fault(self.unedited, script, part)
        return again if self.sound.get((script, part), True) else ""

    def edit(self, edit: Edit, makes: bool = True) -> None:
        """Makes an edit, or takes it back."""
        lines = (ROOT / edit.path).read_text().splitlines()
        lines[edit.line] = edit.new if makes else edit.old
        (self.sources / edit.path).write_text("\n".join(lines) + "\n")

    def unit_test(self, path: str) -> str:
        """Runs the unit tests until one finds the edit of a file. Says which, or nothing."""
        parts = [part for part in parts_of(path, self.kind) if part[1].startswith("unit")]
        return next(filter(None, (self.caught_by(*part) for part in parts)), "")

    def test(self, path: str) -> str:
        """Runs the parts of the scripts for a file until one finds the edit. Says which, or nothing."""
        parts = [part for part in parts_of(path, self.kind) if not part[1].startswith("unit")]
        if self.kind == "driver":
            self.built = Built([], next(iter(self.build("build", "--bins")), self.built.program))
        caught: list[str] = []

        def try_part(script_part: tuple[str, str]) -> None:
            again = "" if caught else self.caught_by(*script_part)
            if again and not caught:
                caught.append(again)
                for process in list(self.running):
                    process.kill()

        with ThreadPoolExecutor(SIDE_BY_SIDE) as pool:
            list(pool.map(try_part, parts))
        return caught[0] if caught else ""


def parts_of(path: str, kind: str) -> list[tuple[str, str]]:
    """The parts of the tests for a file, each once, in their order."""
    first = next((parts for place, parts in FIRST.items() if place in path), "")
    others = "" if any(place in path for place in ALONE) else KINDS[kind][1]
    module = path.partition("/src/")[2].removesuffix(".rs").removesuffix("/mod").replace("/", "::")
    module = "tests" if module == "lib" else module
    found: dict[tuple[str, str], None] = {("driver", f"unit {module}::"): None} if module else {}
    script = ""
    for word in ("driver: unit " * (kind == "driver") + f"{first} {others}").split():
        if word.endswith(":"):
            script = word[:-1]
        else:
            found[script, word] = None
    return list(found)


def least(count: int, share: float) -> int:
    """How many of so many edits have to be caught by tests that catch this share of all edits: they catch fewer with a chance of LUCK at most."""
    chance, caught = 0.0, 0
    while caught < count and chance + (now := math.comb(count, caught) * share**caught * (1 - share)**(count - caught)) <= LUCK:
        chance, caught = chance + now, caught + 1
    return caught


def verdict(caught: int, survived: int, wanted: int) -> tuple[str, bool]:
    """The last two lines, and whether enough edits were caught."""
    is_enough = caught >= wanted
    said = f"{caught} of {caught + survived} edits caught, {survived} survived; at least {wanted} have to be caught"
    return f"{said}\n{int(is_enough)} passed, {int(not is_enough)} failed", is_enough


def difference(edit: Edit, text: str) -> str:
    """An edit as a diff."""
    before = text.splitlines(keepends=True)
    after = before[:edit.line] + [edit.new + "\n"] + before[edit.line + 1:]
    return "".join(difflib.unified_diff(before, after, str(edit.path), str(edit.path), n=1))


class Lot:
    """The edits of a seed, and what became of them."""

    def __init__(self, args: argparse.Namespace) -> None:
        self.args, self.known = args, known()
        self.lines = [(path, number) for path in sources(args.kind) for number in code_lines(path)]
        self.numbers = iter([args.only] if args.only else range(args.first, args.first + args.count))
        self.lock, self.counts, self.caught, self.seconds = threading.Lock(), Counter[str](), Counter[str](), {True: 0.0, False: 0.0}

    def changes_nothing(self, edit: Edit) -> bool:
        """Whether it is known that no test could see an edit."""
        is_near = edit.operator == "another number" and NEAR.search(edit.old) is not None
        is_exact = BORDER.sub("", edit.old) == BORDER.sub("", edit.new)
        is_same = "Default::default()," in edit.new and EMPTY.search(edit.old) is not None or returns_the_same(edit)
        return is_near or is_exact or is_same or (str(edit.path), edit.old.strip(), edit.new.strip()) in self.known

    def edit(self, number: int, lane: Lane | None) -> Edit:
        """The edit of a number, built in a lane."""
        chance = random.Random(f"{self.args.seed}.{number}")
        while True:
            edit = draw(chance, self.lines)
            if edit is None or self.changes_nothing(edit):
                self.counts["known"] += edit is not None
                continue
            if lane is None:
                return edit
            lane.edit(edit)
            if lane.compiles(str(edit.path)):
                return edit
            self.counts["not compiled"] += 1
            lane.edit(edit, False)

    def work(self, lane: Lane) -> None:
        """Makes edits as long as there are any. The unit tests come first for all of them."""
        left: list[tuple[int, Edit, float]] = []
        while (number := self.next_number()) is not None:
            lane.seconds = 0.0
            edit = self.edit(number, lane)
            failure = lane.unit_test(str(edit.path))
            lane.edit(edit, False)
            if failure:
                self.tell(number, edit, failure, lane.seconds)
            else:
                left.append((number, edit, lane.seconds))
                print(f"edit {number}, {edit.path}:{edit.line + 1}, {edit.operator}: no unit test fails, {edit.new.strip()}", flush=True)
        for number, edit, seconds in left:
            lane.seconds, failure = seconds, ""
            if not self.args.unit:
                lane.edit(edit)
                failure = lane.test(str(edit.path))
                lane.edit(edit, False)
            self.tell(number, edit, failure, lane.seconds)

    def tell(self, number: int, edit: Edit, failure: str, seconds: float) -> None:
        """Notes what became of an edit, and how long that took of a processor."""
        with self.lock:
            self.caught[" ".join(failure.split()[:2]).rstrip(":")] += 1
            self.seconds[bool(failure)] += seconds
        what = f"caught by {failure}" if failure else f"no test fails\n{difference(edit, (ROOT / edit.path).read_text())}".rstrip()
        print(f"edit {number}, {edit.path}:{edit.line + 1}, {edit.operator}, {seconds:.0f} s: {what}", flush=True)

    def next_number(self) -> int | None:
        with self.lock:
            return next(self.numbers, None)


def main() -> int:
    parser = argparse.ArgumentParser(usage=__doc__)
    parser.add_argument("--seed", default="1")
    parser.add_argument("--first", type=int, default=1)
    parser.add_argument("--count", type=int, default=100)
    parser.add_argument("--only", type=int, help="the number of an edit")
    parser.add_argument("--kind", choices=KINDS, default="driver")
    parser.add_argument("--lanes", type=int, default=2)
    parser.add_argument("--share", type=float, default=95)
    parser.add_argument("--draw", action="store_true", help="print the edits, and make none")
    parser.add_argument("--unit", action="store_true", help="no scripts")
    parser.add_argument("--rust", default=f"{ROOT}/out/rust")
    args = parser.parse_args()
    lot = Lot(args)
    for number in lot.numbers if args.draw else []:
        edit = lot.edit(number, None)
        print(f"edit {number}, {edit.operator}\n{difference(edit, (ROOT / edit.path).read_text())}", end="")
    if args.draw:
        return 0
    if subprocess.run([*SANDBOX[:SANDBOX.index("bash")], "true"], capture_output=True, check=False).returncode != 0:
        print("edits: skipped, namespaces take root here\n0 passed, 0 failed, 1 skipped")
        return 0
    lanes = [Lane(number, args.kind, args.rust) for number in range(1, 1 + min(args.lanes, 1 if args.only else args.count))]
    if not all([lane.keep() for lane in lanes]):
        sys.exit("without an edit: it does not build")
    threads = [threading.Thread(target=lot.work, args=(lane,)) for lane in lanes]
    for thread in threads:
        thread.start()
    for thread in threads:
        thread.join()
    survived = lot.caught.pop("", 0)
    caught = lot.caught.total()
    for what, count in lot.caught.most_common():
        print(f"{count:5} by {what}")
    print(f"{lot.counts['not compiled']} edits did not compile, {lot.counts['known']} are known to change nothing")
    for is_caught, count in ((True, caught), (False, survived)):
        print(f"{lot.seconds[is_caught] / max(count, 1):.0f} s of a processor for one that {'is' if is_caught else 'is not'} caught")
    for part in sorted({part for lane in lanes for part, is_sound in lane.sound.items() if not is_sound}):
        print(f"without an edit {' '.join(part)} fails, so it counts for none")
    said, is_enough = verdict(caught, survived, 1 if args.only else least(caught + survived, args.share / 100))
    print(f"seed {args.seed}: {said}")
    return int(not is_enough)


if __name__ == "__main__":
    sys.exit(main())
