#!/usr/bin/env python3
"""Mistakes of people who begin with zigrunk: each gets a message that names the word, the reason, and what to do.

Each is made in a folder of its own, whose nvcc fails. It has to end with its status, say its texts in a message that begins with the program that was
called, print nothing else, and leave no file. Prints a line for each finding, and last 'N passed, M failed'.

    tests/mistakes.py [TEXT]    TEXT: those whose words have this text
"""

import os
import subprocess
import sys
import tempfile
from pathlib import Path

from runner import TOOLS, Counts

TOP = Path(__file__).resolve().parent.parent
FORMATS = "one of json, ninja, shell, compdb, text"
TRUTH = "expected yes or no (or 1, 0, true, false, on, off)"
ADVICE = "add nvcc's folder to PATH, or set ZIGRUNK_NVCC to its path"

# What each folder has: its name, its text. `odd` is a folder, and nvcc, which fails, is in its folder bin.
FILES = {
    "k.cu": "__global__ void k() {}\n", "text": "hello\n", "empty": "", "one": "#$ nowhere -c\n", "two": "#$ gcc -c\n",
    "object.json": '{"a": 1}\n', "entry.json": '[{"file": "k.cu"}]\n', "cut.json": '[{"file": "k.cu"\n', "quote.txt": 'nvcc -c "k.cu\n',
    "folder.json": '[{"directory": "/no/such", "command": "nvcc -c k.cu", "file": "k.cu"}]\n', "calls.txt": "nvcc -c k.cu -o k.o\n",
    "missing.txt": "nvcc-0 -c k.cu -o k.o\n",
}

# Variables and words of a call, as a shell has them; its status; texts that its message has.
CALLS: list[tuple[str, int, list[str]]] = [
    # the first word
    ("zigrunk", 2, ["zigrunk: a word is missing", "usage: zigrunk nvcc|plan|"]),
    ("zigrunk plam json nvcc -c k.cu", 2, ["unknown word plam; did you mean plan?"]),
    ("zigrunk -c k.cu -o k.o", 2, ["unknown word -c; words for nvcc stand behind zigrunk nvcc"]),
    ("zigrunk stats", 2, ["unknown word stats; did you mean zigrunk cache stats?"]),
    ("zigrunk --verson", 2, ["unknown word --verson; did you mean --version?"]),
    ("zigrunk help bacth", 2, ["unknown word bacth; did you mean batch?"]),
    ("zigrunk ''", 2, ["unknown word ''", "usage: "]),
    # nvcc
    ("PATH=/none zigrunk-nvcc -c k.cu -o k.o", 127, ["zigrunk-nvcc: cannot find nvcc in PATH", ADVICE]),
    ("PATH=/none zigrunk nvcc -c k.cu -o k.o", 127, ["zigrunk nvcc: cannot find nvcc in PATH", ADVICE]),
    ("ZIGRUNK_NVCC=/no/nvcc zigrunk-nvcc -c k.cu -o k.o", 127, ["cannot run /no/nvcc: No such file or directory", ADVICE]),
    ("ZIGRUNK_NVCC=./k.cu zigrunk-nvcc -c k.cu -o k.o", 127, ["cannot run ./k.cu: it is no program, since it has no execute bit"]),
    ("ZIGRUNK_NVCC=./odd zigrunk-nvcc -c k.cu -o k.o", 127, ["cannot run ./odd: it is a folder"]),
    ("zigrunk-nvcc nvcc-0 -c k.cu -o k.o", 127, ["cannot find nvcc-0 in PATH", ADVICE]),
    # variables
    ("ZIGRUNK_CAHCE=yes zigrunk-nvcc -c k.cu -o k.o", 2, ["unknown variable ZIGRUNK_CAHCE; did you mean ZIGRUNK_CACHE?"]),
    ("ZIGRUNK_JOB=3 zigrunk batch calls.txt", 2, ["unknown variable ZIGRUNK_JOB; did you mean ZIGRUNK_JOBS?"]),
    ("ZIGRUNK_CACHE=yess zigrunk-nvcc -c k.cu -o k.o", 2, ["ZIGRUNK_CACHE=yess: expected yes, no, or a folder's path with a slash"]),
    ("ZIGRUNK_CACHE=cache zigrunk-nvcc -c k.cu -o k.o", 2, ["ZIGRUNK_CACHE=cache: expected yes, no", "such as ./cache"]),
    ("ZIGRUNK_CACHE_SIZE=5x zigrunk-nvcc -c k.cu -o k.o", 2, ["ZIGRUNK_CACHE_SIZE=5x: expected a number of bytes", "such as 5G"]),
    ("ZIGRUNK_CACHE_SIZE=-1 zigrunk cache stats", 2, ["zigrunk cache: ZIGRUNK_CACHE_SIZE=-1: expected a number of bytes"]),
    ("ZIGRUNK_JOBS=abc zigrunk-nvcc -c k.cu -o k.o", 2, ["ZIGRUNK_JOBS=abc: expected a number of commands, such as 8"]),
    ("ZIGRUNK_SLOTS=-1 zigrunk-nvcc -c k.cu -o k.o", 2, ["ZIGRUNK_SLOTS=-1: expected a number of commands", "or 0 for no limit"]),
    ("ZIGRUNK_EXPLAIN=please zigrunk-nvcc -c k.cu -o k.o", 2, [f"ZIGRUNK_EXPLAIN=please: {TRUTH}"]),
    ("ZIGRUNK_EARLY=never zigrunk-nvcc -c k.cu -o k.o", 2, [f"ZIGRUNK_EARLY=never: {TRUTH}"]),
    ("ZIGRUNK_LATE=2 zigrunk plan json nvcc -c k.cu", 2, [f"zigrunk plan: ZIGRUNK_LATE=2: {TRUTH}"]),
    ("ZIGRUNK_CALLS=never zigrunk-nvcc -c k.cu -o k.o", 2, [f"ZIGRUNK_CALLS=never: {TRUTH}"]),
    ("ZIGRUNK_ROOT=here zigrunk-nvcc -c k.cu -o k.o", 2, ["ZIGRUNK_ROOT=here: expected a checkout's absolute path"]),
    ("ZIGRUNK_REMOTE=http://a zigrunk-nvcc -c k.cu -o k.o", 2, ["ZIGRUNK_REMOTE=http://a: expected grpc://HOST:PORT or grpcs://HOST:PORT"]),
    ("ZIGRUNK_REMOTE_FALLBACK=perhaps zigrunk-nvcc -c k.cu -o k.o", 2, [f"ZIGRUNK_REMOTE_FALLBACK=perhaps: {TRUTH}"]),
    ("ZIGRUNK_LAUNCHED=ccic zigrunk-nvcc -c k.cu -o k.o", 2, ["ZIGRUNK_LAUNCHED=ccic: expected some of -E cudafe++ cicc ptxas"]),
    ("ZIGRUNK_RUNNER=/no/runner zigrunk-nvcc -c k.cu -o k.o", 127, ["cannot run /no/runner: No such file or directory"]),
    ("ZIGRUNK_TMP=/no/shared zigrunk-nvcc -c k.cu -o k.o", 5, ["ZIGRUNK_TMP=/no/shared is not used, since nvcc makes this call"]),
    ("ZIGRUNK_LOG=/no/log zigrunk-nvcc -c k.cu -o k.o", 5, ["cannot write /no/log: No such file or directory"]),
    # plan
    ("zigrunk plan", 2, ["zigrunk plan: a format is missing", "usage: zigrunk plan FORMAT"]),
    ("zigrunk plan jsn nvcc -c k.cu", 2, ["unknown format jsn; did you mean json?"]),
    ("zigrunk plan nvcc -c k.cu", 2, ["unknown format nvcc", FORMATS]),
    ("zigrunk plan json", 2, ["nvcc and its words are missing", "usage: "]),
    ("zigrunk plan json -c k.cu -o k.o", 2, ["unexpected option -c; nvcc's name or path comes before its words"]),
    ("zigrunk plan json /no/nvcc -c k.cu", 1, ["zigrunk plan: cannot run /no/nvcc: No such file or directory", ADVICE]),
    ("PATH=/none zigrunk plan json nvcc -c k.cu", 1, ["zigrunk plan: cannot find nvcc in PATH", ADVICE]),
    ("zigrunk plan json nvcc -c k.cu -o k.o", 1, ["nvcc says no", "zigrunk plan: a dry run fails"]),
    ("zigrunk plan json nvcc k.cu -o k", 3, ["zigrunk plan: goes to nvcc: it links"]),
    ("zigrunk plan json --dry-run one two", 2, ["unexpected option --dry-run; did you mean --dry-runs?"]),
    ("zigrunk plan json --dry-runs one", 2, ["--dry-runs needs two files"]),
    ("zigrunk plan json --dry-runs one one", 1, ["one: both dry runs are the same file"]),
    ("zigrunk plan json --dry-runs none two", 1, ["cannot read none: No such file or directory"]),
    ("zigrunk plan json --dry-runs text empty", 1, ['text: no dry run: no line begins with "#$ "']),
    ("zigrunk plan json --dry-runs one two --tmp t", 1, ["--tmp t: the path has to be absolute"]),
    ("zigrunk plan json --dry-runs one two --limit 5x", 2, ["--limit needs a number of bytes, not 5x"]),
    ("zigrunk plan json --tmp t nvcc -c k.cu", 2, ["--tmp needs --dry-runs"]),
    # batch
    ("zigrunk batch none.json", 1, ["zigrunk batch: cannot read none.json: No such file or directory"]),
    ("zigrunk batch odd", 1, ["cannot read odd: Is a directory"]),
    ("zigrunk batch object.json", 1, ["object.json is no compile_commands.json: it is a JSON object, not an array"]),
    ("zigrunk batch entry.json", 1, ["entry.json is no compile_commands.json: entry 1: it has no command"]),
    ("zigrunk batch cut.json", 1, ["cut.json is no compile_commands.json"]),
    ("zigrunk batch folder.json", 2, ["zigrunk batch: no folder /no/such", "entry 1"]),
    ("zigrunk batch quote.txt", 2, ['Unterminated quoted string', 'line 1: exit status 2: nvcc -c "k.cu']),
    ("zigrunk batch missing.txt", 127, ["zigrunk batch: cannot find nvcc-0 in PATH", ADVICE, "line 1: exit status 127: nvcc-0"]),
    ("zigrunk batch -j", 2, ["-j needs a number", "usage: zigrunk batch"]),
    ("zigrunk batch -j 0 calls.txt", 2, ["-j needs a number from 1, not 0"]),
    ("zigrunk batch -k x calls.txt", 2, ["-k needs a number, not x"]),
    ("zigrunk batch --prat 1/2 calls.txt", 2, ["unexpected option --prat; did you mean --part?"]),
    ("zigrunk batch --wrokers 3 calls.txt", 2, ["unexpected option --wrokers", "usage: zigrunk batch"]),
    ("zigrunk batch --part 3 calls.txt", 2, ["--part needs two numbers from 1, such as 3/8"]),
    ("zigrunk batch --part 1/2", 2, ["--part and --missing need a list in a file"]),
    ("zigrunk batch calls.txt missing.txt", 2, ["one list at a time, not missing.txt too"]),
    ("zigrunk batch --unless-made", 2, ["--unless-made needs nvcc and its words"]),
    # the rest
    ("zigrunk report", 2, ["zigrunk report: a log is missing", "usage: zigrunk report"]),
    ("zigrunk report none", 1, ["cannot read none: No such file or directory"]),
    ("zigrunk report text", 1, ["text is no log of ZIGRUNK_LOG: none of its lines is an entry"]),
    ("zigrunk report --hmtl page text", 2, ["unexpected option --hmtl; did you mean --html?"]),
    ("zigrunk report text --html", 2, ["--html needs a file"]),
    ("zigrunk cache", 2, ["zigrunk cache: a word is missing", "usage: zigrunk cache stats|show KEY|"]),
    ("zigrunk cache stat", 2, ["unknown word stat; did you mean stats?"]),
    ("zigrunk cache limit 5x", 2, ["5x is no size: it has digits, and K, M, G or T, such as 5G"]),
    ("zigrunk cache clear now", 2, ["unexpected word now", "usage: "]),
    ("zigrunk cache observe", 2, ["observe needs a file and a command", "usage: "]),
    ("zigrunk why", 2, ["zigrunk why: two records, or folders of records, are needed", "usage: zigrunk why"]),
    ("zigrunk why none none", 2, ["zigrunk why: cannot read none"]),
    ("zigrunk why text text", 2, ["text: it is no record of ZIGRUNK_RECORDS"]),
    ("zigrunk why --mis nvcc -c k.cu", 2, ["unexpected option --mis; did you mean --miss?"]),
    ("zigrunk why --miss", 2, ["zigrunk why: --miss needs nvcc and its words", "usage: zigrunk why"]),
    ("ZIGRUNK_CACHE=yess zigrunk why --miss nvcc -c k.cu", 2, ["zigrunk why: ZIGRUNK_CACHE=yess: expected yes, no"]),
    ("zigrunk check-node", 2, ["zigrunk check-node: ", "usage: zigrunk check-node"]),
    ("zigrunk check-node none", 1, ["cannot read none (No such file or directory): mount the disk"]),
    ("zigrunk check-node --wirte node", 2, ["unexpected option --wirte; did you mean --write?"]),
]

# Goals of make that prove, on a machine without the kit: what each says.
GOALS = {"check": "make rust", "build": "make rust", "drivers": "make rust && tests/driver.sh", "test-install": "make rust-install"}


def findings(words: str, status: int, texts: list[str], room: Path) -> list[str]:
    """What is wrong with the answer to a mistake."""
    for name, text in FILES.items():
        (room / name).write_text(text, encoding="utf-8")
    (room / "odd").mkdir()
    (room / "bin").mkdir()
    (room / "bin/nvcc").write_text("#!/bin/sh\necho 'nvcc says no' >&2\nexit 5\n", encoding="utf-8")
    (room / "bin/nvcc").chmod(0o755)
    before = sorted(room.rglob("*"))
    tools = os.fspath(TOOLS)
    variables = {"PATH": f"{room}/bin:/usr/bin:/bin", "TMPDIR": f"{room}.tmp", "HOME": f"{room}.tmp", "XDG_RUNTIME_DIR": f"{room}.tmp"}
    first = next(word for word in words.split() if word.startswith("zigrunk"))
    script = words.replace(first, f"{tools}/{first}", 1)
    ended = subprocess.run(["sh", "-c", script], cwd=room, env=variables, stdin=subprocess.DEVNULL, capture_output=True, encoding="utf-8",
                           check=False, timeout=60)
    found = [f"it doesn't say {text!r}" for text in texts if text not in ended.stderr]
    if ended.returncode != status:
        found.append(f"status {ended.returncode}, not {status}")
    if not any(line.startswith(first) for line in ended.stderr.splitlines()):
        found.append(f"no line begins with {first}")
    if ended.stdout:
        found.append(f"it prints {ended.stdout[:200]!r}")
    if sorted(room.rglob("*")) != before:
        found.append("it leaves files")
    return [*found, *([f"it says {ended.stderr[:400]!r}"] if found else [])]


def without_kit(goal: str, instead: str) -> list[str]:
    """What is wrong with the answer of a goal of make that needs the kit, if that isn't there."""
    ended = subprocess.run(["make", "-s", goal], cwd=TOP, env={"PATH": "/usr/bin:/bin"}, capture_output=True, encoding="utf-8", check=False)
    wanted = f"make {goal} needs the Rattle kit, whose rt is not on PATH. Without it, run: {instead}"
    return [] if ended.returncode and wanted in ended.stderr else [f"it says {ended.stderr[:400]!r}"]


def main() -> int:
    counts = Counts()
    part = sys.argv[1] if len(sys.argv) > 1 else ""
    for words, status, texts in CALLS:
        if part in words:
            with tempfile.TemporaryDirectory() as folder:
                room = Path(folder).resolve() / "room"
                room.mkdir()
                Path(f"{room}.tmp").mkdir(mode=0o700)
                counts.case(words, findings(words, status, texts, room))
    for goal, instead in GOALS.items():
        if part in goal:
            counts.case(f"make {goal}", without_kit(goal, instead))
    return counts.summary()


if __name__ == "__main__":
    sys.exit(main())
