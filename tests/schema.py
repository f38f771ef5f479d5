#!/usr/bin/env python3
"""Validates the JSON of the plans of real nvcc calls by docs/plan.schema.json.

The dry runs are those of tests/drivers/test_plans/data. Beyond the schema it checks that ids count from 0, that a command needs only
earlier ones, that lines have the program that the command runs, and that the plan's commands can run in threads.

Prints a line for each finding, and last 'N passed, M failed'; the status is 1 if one failed. Without python3-jsonschema it is skipped.

    tests/schema.py [ZIGRUNK]       the program is the one that `make rust` leaves, unless given
"""

import json
import os
import subprocess
import sys
import tempfile
from pathlib import Path
from typing import Any

from isolated import Json, in_threads
from runner import Counts, skip_all

try:
    import jsonschema
except ImportError:
    sys.exit(skip_all("schema", "python3-jsonschema isn't installed"))

TOP = os.path.realpath(f"{os.path.dirname(os.path.realpath(__file__))}/..")
DATA = f"{TOP}/tests/drivers/test_plans/data/dry_runs"


def program_words(lines: list[str]) -> set[str]:
    """Returns the first words of a run's commands."""
    words = (line[3:].split()[0].strip('"') for line in lines if line.startswith("#$ ") and len(line) > 3)
    return {word for word in words if "=" not in word}


def with_programs(name: str, room: str) -> list[str]:
    """Copies a pair and lets its PATH name a folder that has its programs. Returns the paths of the copies."""
    folder = f"{room}/bin"
    os.makedirs(folder, exist_ok=True)
    copies = []
    for run in ("dry1", "dry2"):
        lines = Path(f"{DATA}/{name}.{run}").read_text(encoding="utf-8").splitlines()
        for word in program_words(lines):
            Path(folder, os.path.basename(word)).touch(0o755)
        lines = [f"#$ PATH={folder}" if line.startswith("#$ PATH=") else line for line in lines]
        lines = [on_disk(line, folder) for line in lines]
        copies.append(f"{room}/{name.replace('/', '.')}.{run}")
        Path(copies[-1]).write_text("\n".join(lines) + "\n", encoding="utf-8")
    return copies


def on_disk(line: str, folder: str) -> str:
    """A command's line, with its program taken from a folder."""
    if not line.startswith("#$ "):
        return line
    first, _, rest = line[3:].partition(" ")
    if "=" in first:
        return line
    return f"#$ {folder}/{os.path.basename(first.strip(chr(34)))} {rest}"


def findings(plan: Json, runs: list[list[str]]) -> list[str]:
    """Returns what is wrong beyond the schema."""
    found = []
    for place, command in enumerate(plan["commands"]):
        if command["id"] != place:
            found.append(f"command {place} has the id {command['id']}")
        if any(need >= place for need in command["needs"]):
            found.append(f"command {place} needs a later one")
        if command["group"] >= plan["groups"]:
            found.append(f"command {place} is in no group")
    for command in plan["commands"] + plan["dropped"]:
        line = runs[command["run"] - 1][command["line"] - 1]
        if os.path.basename(command["exe"]) not in line:
            found.append(f"line {command['line']} of run {command['run']} doesn't run {command['exe']}")
    return found


def ran_in_threads(plan: Json) -> list[int]:
    """Runs a stand-in for each command, as the example in man zigrunk-plan does. Returns the ids in the order in which they ended."""
    ended: list[int] = []
    in_threads(plan, lambda command: ended.append(command["id"]))
    return ended


def check(name: str, zigrunk: str, validator: Any, room: str) -> list[str]:
    """Returns what is wrong with the JSON of a pair."""
    dry1, dry2 = with_programs(name, room)
    flag = Path(f"{DATA}/{name}.flag").read_text(encoding="utf-8").strip()
    words = ["plan", "--dry-runs", dry1, dry2, "--cwd", "/w", "--tmp", "/t", "--flag", flag, "json"]
    ran = subprocess.run([zigrunk, *words], capture_output=True, text=True, check=False)
    if ran.returncode != 0:
        return [f"status {ran.returncode}: {ran.stderr.strip()}"]
    plan = json.loads(ran.stdout)
    found = [error.message for error in validator.iter_errors(plan)]
    if json.dumps(plan, separators=(",", ":"), sort_keys=True, ensure_ascii=False) + "\n" != ran.stdout:
        found.append("the members aren't in order, or there are spaces")
    runs = [Path(path).read_text(encoding="utf-8").splitlines() for path in (dry1, dry2)]
    found += findings(plan, runs)
    if sorted(ran_in_threads(plan)) != list(range(len(plan["commands"]))):
        found.append("not every command ran")
    return found


def refused(validator: Any) -> list[str]:
    """Returns the names of wrong plans that the schema accepts."""
    command: Json = {
        "args": [], "cacheable": True, "complete": True, "cwd": "/t", "env": [["A", "b"]], "exe": "/b/cicc", "group": 0, "id": 0,
        "line": 1, "may_write": [], "needs": [], "reads": [], "run": 1, "writes": [],
    }
    plan: Json = {"commands": [command], "cwd": "/w", "dropped": [], "flag": "-c", "groups": 2, "tmp": "/t", "version": 1}
    wrong: dict[str, Json] = {
        "another version": {**plan, "version": 2},
        "a line 0": {**plan, "commands": [{**command, "line": 0}]},
        "a run 0": {**plan, "commands": [{**command, "run": 0}]},
        "a variable without a value": {**plan, "commands": [{**command, "env": [["A"]]}]},
        "a member too many": {**plan, "commands": [{**command, "more": 1}]},
        "a member too few": {key: value for key, value in plan.items() if key != "flag"},
    }
    accepted = [name for name, value in wrong.items() if validator.is_valid(value)]
    return accepted if validator.is_valid(plan) else accepted + ["no plan at all"]


def main() -> int:
    zigrunk = os.path.realpath(sys.argv[1] if len(sys.argv) > 1 else f"{TOP}/out/rust/target/release/zigrunk-driver")
    schema = json.loads(Path(f"{TOP}/docs/plan.schema.json").read_text(encoding="utf-8"))
    jsonschema.Draft202012Validator.check_schema(schema)
    validator = jsonschema.Draft202012Validator(schema)
    counts = Counts()
    with tempfile.TemporaryDirectory() as room:
        names = sorted(str(path.relative_to(DATA)).removesuffix(".flag") for path in Path(DATA).rglob("*.flag"))
        results = [(name, check(name, zigrunk, validator, room)) for name in names]
    results.append(("the schema", [f"it accepts {name}" for name in refused(validator)]))
    for name, found in results:
        counts.case(name, found)
    return counts.summary()


if __name__ == "__main__":
    sys.exit(main())
