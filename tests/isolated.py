#!/usr/bin/env python3
"""Runs each command of five nvcc calls where only the files are that its record and its needs name, and compares what it makes.

The JSON of `zigrunk plan` names the files that each command reads and writes, and the commands that it needs. A command runs here
below a root folder of its own, in a mount namespace. That root has the system, the CUDA toolkit, and of the call's files only these:

- those that the command reads by its record;
- if the record isn't complete and the command is final, all that the commands write which it needs, directly or not;
- if the record isn't complete and the command is a preprocess step (`-E`), the headers beside its source. No command writes these. One
  takes the place of the toolkit's cuda_runtime.h; those of system and toolkit are there anyway.

Any other command with an incomplete record is a finding. A command may make only files that the record names, and they have to be, byte
for byte, those of the ordinary run, where all commands work in the call's own folders.

With --leave-out, each command also runs without one of its files, once for each file that its record names and each header. Then it has
to fail or make something else: so a record that lacked a file would be noticed, and no record names a file in vain. Commands that
get files by their needs also run without all of these at once.

Prints a line for each finding, and last 'N passed, M failed'; the status is 1 if one failed. Without nvcc or mount namespaces it is
skipped.

    tests/isolated.py [--leave-out] [--only TEXT] [--mount FOLDER] [ZIGRUNK]

ZIGRUNK is the program that `make build` leaves, unless given. FOLDER has a toolkit that is elsewhere. TARGETS='75 80' in the environment
are other targets than nvcc 13's: the last two count as two, and all as many.
"""

import argparse
import concurrent.futures
import json
import os
import shlex
import shutil
import subprocess
import sys
import tempfile
from collections.abc import Callable
from typing import Any, TypeVar

from runner import Counts, skip_all

TOP = os.path.realpath(f"{os.path.dirname(os.path.realpath(__file__))}/..")
TARGETS = [f"-gencode arch=compute_{number},code=sm_{number}" for number in os.environ.get("TARGETS", "80 90").split()]
TWO_TARGETS = " ".join(TARGETS[-2:])
MANY_TARGETS = " ".join(TARGETS) if "TARGETS" in os.environ else "-arch=all-major"
CALLS = (
    "-c k.cu -o k.o",
    f"-fatbin {TWO_TARGETS} k.cu -o k.fatbin",
    "-ptx k.cu -o k.ptx",
    f"-dc {TWO_TARGETS} k.cu -o k.o",
    f"{MANY_TARGETS} -c k.cu -o k.o",
)
SOURCES = {
    "k.cu": '#include "k.h"\n__device__ int table[SIZE];\n__global__ void add(int* values) { values[0] += table[0]; }\n'
    "void run(int* values) { add<<<1, 1>>>(values); }\n",
    "k.h": "#define SIZE 6\n",
    "cuda_runtime.h": open(f"{TOP}/tests/small/cuda_runtime.h", encoding="utf-8").read(),
}
# folders that every root has too
MOUNTS: list[str] = []
SYSTEM = ("bin", "etc", "lib", "lib32", "lib64", "libx32", "sbin", "usr")
# The words: the new root, the folder to work in, the folders to mount, an empty word, the command.
ISOLATE = """root=$1 folder=$2; shift 2
while [ -n "$1" ]; do mount --rbind "$1" "$root$1" || exit 125; shift; done
shift
exec chroot "$root" env -C "$folder" "$@"
"""
# A value of JSON, by its members.
Json = dict[str, Any]
# The contents of files, by their paths.
Files = dict[str, bytes]
# A command, its files, and some of these.
Inputs = tuple[Json, Files, list[str]]
Result = TypeVar("Result")


def needed(command: Json, plan: Json) -> list[Json]:
    """Returns the commands that a command needs, directly or not, in plan order."""
    found = set(command["needs"])
    for other in reversed(plan["commands"][: command["id"]]):
        if other["id"] in found:
            found.update(other["needs"])
    return [plan["commands"][number] for number in sorted(found)]


def headers(command: Json, work: str) -> list[str]:
    """Returns the headers that a preprocess step gets: its record doesn't name them."""
    steps = not command["complete"] and "-E" in command["args"]
    return [f"{work}/{name}" for name in SOURCES if name.endswith(".h")] if steps else []


def by_needs(command: Json, plan: Json) -> list[str]:
    """Returns the files that a final command with an incomplete record gets: what the commands write that it needs."""
    if command["complete"] or "-E" in command["args"]:
        return []
    named = {*command["reads"]}
    return [path for other in needed(command, plan) for path in other["writes"] + other["may_write"] if path not in named]


def unbound(plan: Json) -> list[str]:
    """Says which commands are neither final nor recorded: no order is promised for their plan."""
    last = plan["groups"] - 1
    odd = [one for one in plan["commands"] if not one["complete"] and "-E" not in one["args"] and one["group"] != last]
    return [f"{label(one)} isn't final, and its record isn't complete" for one in odd]


def plan_of(zigrunk: str, words: str, base: str) -> tuple[Json | None, str]:
    """Plans a call of nvcc as zigrunk-nvcc does. Returns the plan, or None and why there is none."""
    call = [zigrunk, "plan", "json", "--", "nvcc", *shlex.split(words)]
    ran = subprocess.run(call, cwd=f"{base}/work", env={**os.environ, "TMPDIR": base}, capture_output=True, text=True, check=False)
    if ran.returncode != 0:
        return None, f"no plan: {ran.stderr.strip()}"
    # the directory for temporary files may have any name
    plan = json.loads(ran.stdout.replace(json.loads(ran.stdout)["tmp"], f"{base}/tmp"))
    return (None, "the plan dropped a command") if plan["dropped"] else (plan, "")


def in_threads(plan: Json, run: Callable[[Json], Result]) -> list[Result]:
    """Runs a function for each command, each after those that the command needs. Returns the results in plan order."""
    jobs: list[concurrent.futures.Future[Result]] = []

    def wait_and_run(command: Json) -> Result:
        for need in command["needs"]:
            jobs[need].result()
        return run(command)

    with concurrent.futures.ThreadPoolExecutor(os.cpu_count()) as pool:
        for command in plan["commands"]:
            jobs.append(pool.submit(wait_and_run, command))
    return [job.result() for job in jobs]


def started(words: list[str], command: Json, base: str, folder: str) -> tuple[int, str]:
    """Runs words with a command's variables and nothing else. Returns the status and what is printed on standard error."""
    env = dict(command["env"]) | {"TMPDIR": f"{base}/scratch"}
    ran = subprocess.run(words, cwd=folder, env=env, stdin=subprocess.DEVNULL, capture_output=True, check=False)
    return ran.returncode, ran.stderr.decode("utf-8", "replace").strip()


def mounted(command: Json) -> list[str]:
    """Returns the folders that a command's root has: the system, and the toolkit and the program if they are elsewhere."""
    folders = [f"/{name}" for name in SYSTEM if os.path.isdir(f"/{name}") and not os.path.islink(f"/{name}")] + MOUNTS
    for path in (dict(command["env"]).get("TOP", "/usr"), f"{os.path.dirname(command['exe'])}/.."):
        path = os.path.realpath(path)
        if not any(f"{path}/".startswith(f"{folder}/") for folder in folders):
            folders.append(path)
    return folders


def make_root(root: str, command: Json, base: str, files: Files) -> None:
    """Makes a root folder with these files of the call, and empty folders for what is written."""
    for name in SYSTEM:
        if os.path.islink(f"/{name}"):
            os.symlink(os.readlink(f"/{name}"), f"{root}/{name}")
    for folder in (*mounted(command), command["cwd"], f"{base}/work", f"{base}/tmp", f"{base}/scratch"):
        os.makedirs(f"{root}{folder}", exist_ok=True)
    os.makedirs(f"{root}/dev")
    open(f"{root}/dev/null", "w", encoding="utf-8").close()
    for path, content in files.items():
        os.makedirs(os.path.dirname(f"{root}{path}"), exist_ok=True)
        with open(f"{root}{path}", "wb") as file:
            file.write(content)


def isolated(command: Json, base: str, files: Files) -> tuple[int, str, Files]:
    """Runs a command where only these files are. Returns the status, what it says, and the files that it makes or changes."""
    with tempfile.TemporaryDirectory(dir=base) as root:
        make_root(root, command, base, files)
        words = ["unshare", "-rm", "sh", "-c", ISOLATE, "sh", root, command["cwd"], *mounted(command), "/dev/null", ""]
        status, said = started([*words, command["exe"], *command["args"]], command, base, base)
        made = {path: content for path, content in files_below(root, base).items() if files.get(path) != content}
        return status, said, made


def files_below(root: str, base: str) -> Files:
    """Returns the files of the call's two folders below a root: their contents by their paths."""
    found = {}
    for folder in ("work", "tmp"):
        for at, _, names in os.walk(f"{root}{base}/{folder}"):
            for name in names:
                with open(f"{at}/{name}", "rb") as file:
                    found[f"{at}/{name}"[len(root):]] = file.read()
    return found


def differences(command: Json, ran: tuple[int, str, Files], wanted: Files) -> list[str]:
    """Returns what is wrong with a command that ran alone: by its record, and by the files of the ordinary run."""
    status, said, made = ran
    found = [f"status {status}: {said[:300]}"] if status else []
    found += [f"doesn't write {path}" for path in command["writes"] if path not in made]
    allowed = command["writes"] + command["may_write"]
    for path, content in made.items():
        if path not in allowed:
            found.append(f"writes {path}, which its record doesn't name")
        if wanted.get(path) != content:
            found.append(f"{path} differs from that of the ordinary run")
    return found


def normal(plan: Json) -> None:
    """Writes the paths of a plan's records without `..`."""
    for command in plan["commands"]:
        for field in ("reads", "writes", "may_write"):
            command[field] = [os.path.normpath(path) for path in command[field]]


def without_some(inputs: list[Inputs], base: str, wanted: Files) -> tuple[int, list[str]]:
    """Runs each command without one of the files that its record names, for each, and without those that it gets by its needs.
    Returns how many runs there were, and what changes nothing."""
    cases = [(command, files, [path]) for command, files, more in inputs for path in files if path not in more]
    cases += [(command, files, more) for command, files, more in inputs if more]

    def run(case: Inputs) -> list[str]:
        command, files, left_out = case
        ran = isolated(command, base, {path: content for path, content in files.items() if path not in left_out})
        same = not differences(command, ran, wanted)
        return [f"{label(command)} makes the same without {' '.join(left_out)}"] if same else []

    with concurrent.futures.ThreadPoolExecutor(os.cpu_count()) as pool:
        return len(cases), [one for found in pool.map(run, cases) for one in found]


def label(command: Json) -> str:
    return f"command {command['id']} ({os.path.basename(command['exe'])})"


def each_alone(plan: Json, base: str, store: Files, wanted: Files) -> tuple[list[str], list[Inputs]]:
    """Runs each command alone, and puts what it makes into the store. Returns the findings, and each command's files: all of them, and
    those that it gets by its needs."""
    inputs: list[Inputs] = []

    def run(command: Json) -> list[str]:
        paths = [*command["reads"], *headers(command, f"{base}/work")]
        more = [path for path in by_needs(command, plan) if path in store]
        files = {path: store[path] for path in (*paths, *more) if path in store}
        ran = isolated(command, base, files)
        inputs.append((command, files, more))
        store.update(ran[2])
        found = [f"is to read {path}, which nobody made" for path in paths if path not in files]
        return [f"{label(command)}: {one}" for one in found + differences(command, ran, wanted)]

    return [one for found in in_threads(plan, run) for one in found], inputs


def check(words: str, zigrunk: str, leave_out: bool, base: str) -> tuple[list[str], int]:
    """Returns what is wrong with a call, and how many commands ran without one of their files."""
    for folder in ("work", "tmp", "scratch"):
        os.mkdir(f"{base}/{folder}")
    for name, text in SOURCES.items():
        with open(f"{base}/work/{name}", "w", encoding="utf-8") as file:
            file.write(text)
    plan, why = plan_of(zigrunk, words, base)
    if plan is None:
        return [why], 0
    normal(plan)
    if odd := unbound(plan):
        return odd, 0
    store = files_below("", base)
    ordinary = in_threads(plan, lambda command: started([command["exe"], *command["args"]], command, base, command["cwd"]))
    wanted = files_below("", base)
    if bad := [f"{label(command)}: {said[:300]}" for command, (status, said) in zip(plan["commands"], ordinary) if status]:
        return bad, 0
    found, inputs = each_alone(plan, base, store, wanted)
    found += [f"{path}: only the ordinary run makes it" for path in wanted if path not in store]
    if found or not leave_out:
        return found, 0
    runs, found = without_some(inputs, base, wanted)
    return found, runs


def unavailable() -> str:
    """Says why nothing can be tested here; empty if it can."""
    if not shutil.which("nvcc"):
        return "nvcc is not on the path"
    words = ["unshare", "-rm", "sh", "-c", "mount --rbind /usr /usr && chroot / true"]
    if not shutil.which("unshare") or subprocess.run(words, capture_output=True, check=False).returncode:
        return "mount namespaces aren't available"
    return ""


def main() -> int:
    parser = argparse.ArgumentParser(usage=__doc__, allow_abbrev=False)
    parser.add_argument("--leave-out", action="store_true")
    parser.add_argument("--only", default="")
    parser.add_argument("--mount", action="append", default=[])
    parser.add_argument("zigrunk", nargs="?", default=f"{TOP}/out/rust/target/release/zigrunk-driver")
    args = parser.parse_args()
    MOUNTS.extend(map(os.path.realpath, args.mount))
    if why := unavailable():
        return skip_all("isolated commands", why)
    for name in ("NVCC_PREPEND_FLAGS", "NVCC_APPEND_FLAGS"):
        os.environ.pop(name, None)
    counts = Counts()
    for words in CALLS:
        if args.only in words:
            with tempfile.TemporaryDirectory() as base:
                found, runs = check(words, os.path.realpath(args.zigrunk), args.leave_out, os.path.realpath(base))
            counts.case(f"nvcc {words}", found)
            if args.leave_out and not found:
                print(f"nvcc {words}: each of {runs} runs without files differs")
    return counts.summary()


if __name__ == "__main__":
    sys.exit(main())
