#!/usr/bin/env python3
"""Plans random calls of the real nvcc by the driver and by each language, and compares: real_calls.py ZIGRUNK SEED COUNT -- PROGRAM.. [-- PROGRAM..].

tests/random_calls.py draws the calls. Each PROGRAM prints what answers.c does with --call: the line, the commands with their records and needs, keys,
formats and a schedule. All languages have to print the same, and the records and needs of `zigrunk plan json`, or its reason. Of every tenth
call the plan runs first, so that keys of commands read their files. The last line is 'N passed, M failed', and counts calls of all languages."""

import difflib
import json
import os
import re
import subprocess
import sys
import tempfile
from concurrent.futures import ThreadPoolExecutor
from itertools import groupby
from pathlib import Path
from typing import Any, Dict, List, Tuple

sys.path.insert(0, str(Path(__file__).resolve().parent.parent))
from compare_calls import Call, environment, write_sources
from random_calls import WEIGHTS, line_of, options

# What answers.c prints of a command, and the driver's name for it.
LISTS = {" reads": "reads", " writes": "writes", " may write": "may_write", " needs": "needs"}
HEAD = re.compile(r"command of \w+ group, (\d+), stage \d+, tool \d+, missing (\d+), reason (\d+), run (\d+), line (\d+), cacheable (\d+)")


def escaped(text: bytes) -> str:
    return "".join(chr(it) if 32 < it < 127 and it != 92 else f"\\{it:02x}" for it in text)


def by_driver(zigrunk: str, words: List[str], place: Dict[str, Any]) -> Tuple[str, List[Any], str]:
    """The directory of the plan of a call, its records, and why there is none."""
    ran = subprocess.run([zigrunk, "plan", "json", "--", "nvcc", *words], **place, stdout=subprocess.PIPE, stderr=subprocess.PIPE, check=False)
    if ran.returncode:
        return "", [], ran.stderr.decode(errors="surrogateescape").removesuffix("\n")
    plan = json.loads(ran.stdout)
    return plan["tmp"], [record(it) for it in plan["commands"]], ""


def record(of: Dict[str, Any]) -> Any:
    lists = {name: [escaped(os.fsencode(str(it))) for it in of[name]] for name in LISTS.values()}
    words = [escaped(os.fsencode(it)) for it in (of["exe"], *of["args"])]
    return of["group"], of["run"], of["line"], of["cacheable"], of["complete"], words, escaped(os.fsencode(of["cwd"])), lists


def records_in(answer: str) -> List[Any]:
    """The records of the commands of a plan, as a language prints them."""
    found: List[Any] = []
    for line in answer.splitlines():
        name, _, value = line.partition(" ") if line[:1] != " " else ("", "", "")
        if head := HEAD.match(line):
            group, missing, reason, run, number, cacheable = map(int, head.groups())
            lists: Dict[str, List[str]] = {it: [] for it in LISTS.values()}
            found.append([group, run, number, bool(cacheable), missing == 0, [], "", lists, reason])
        elif found and line.startswith(" word "):
            found[-1][5].append(line.removeprefix(" word "))
        elif found and line.startswith(" cwd "):
            found[-1][6] = line.removeprefix(" cwd ")
        elif found and name == "":
            for prefix, it in LISTS.items():
                if line.startswith(f"{prefix} "):
                    found[-1][7][it].append(line.removeprefix(f"{prefix} "))
    return [tuple(it[:8]) for it in found if it[8] == 0]


def reason_in(answer: str) -> str:
    found = re.search(r"^refused .*\nmessage (.*)\Z", answer, re.MULTILINE)
    return found[1] if found else ""


def said_by(program: List[str], tmp: str, words: List[str], place: Dict[str, Any]) -> str:
    ran = subprocess.run([*program, "--call", tmp, "nvcc", *words], **place, stdout=subprocess.PIPE, stderr=subprocess.STDOUT, check=False)
    said: str = ran.stdout.decode(errors="surrogateescape").removesuffix("\n")
    return said + f"\nended with {ran.returncode}" * (ran.returncode != 0)


def differences(driver: Tuple[str, List[Any], str], answers: List[str]) -> List[str]:
    """For each language what differs, or an empty text."""
    _, records, why = driver
    found = []
    for answer in answers:
        lines = "\n".join(list(difflib.unified_diff(answers[0].splitlines(), answer.splitlines(), lineterm="", n=0))[:12])
        if why and escaped(os.fsencode(re.sub(r"\nzigrunk plan: a dry run fails$|^zigrunk plan: ", "", why))) != reason_in(answer):
            lines = f"the driver says {why!r}, it {reason_in(answer)!r}"
        if not why and records_in(answer) != records:
            lines = f"the driver has other records: {records}\n{records_in(answer)}"[:2000]
        found.append(lines)
    return found


def placed(call: Call, base: Path) -> Tuple[List[str], Dict[str, Any]]:
    """The words of a call, and where it is made, with its sources: a new folder."""
    (base / "tmp").mkdir()
    (base / "work").mkdir()
    write_sources(base / "work", call.headers)
    place: Dict[str, Any] = {"cwd": base / "work", "env": environment(call, base, base / "log"), "stdin": subprocess.DEVNULL}
    if call.setup:
        subprocess.run(["bash", "-c", call.setup], **place, stdout=subprocess.DEVNULL, stderr=subprocess.DEVNULL, check=False)
    return [word.replace("@WORK@", str(base / "work")) for word in call.words], place


def drawn(seed: int, number: int) -> Call:
    table = options()
    return Call(line_of(seed, number, table, [WEIGHTS[it.purpose] for it in table]), number)


def compared(zigrunk: str, programs: List[List[str]], seed: int, number: int) -> Tuple[str, bool, List[str]]:
    """The line of a call, whether it is planned, and for each language what differs."""
    call = drawn(seed, number)
    with tempfile.TemporaryDirectory(prefix="real-call-") as folder:
        base = Path(folder)
        words, place = placed(call, base)
        driver = by_driver(zigrunk, words, place)
        tmp = driver[0] or str(base / "tmp/none")
        os.makedirs(tmp, exist_ok=True)
        if driver[0] and number % 10 == 0:
            script = subprocess.run([zigrunk, "plan", "shell", "--", "nvcc", *words], **place, stdout=subprocess.PIPE, check=True).stdout
            of_sh: Dict[str, Any] = {**place, "stdin": None, "stdout": subprocess.DEVNULL, "stderr": subprocess.DEVNULL}
            subprocess.run(["sh", "-c", script], **of_sh, check=False)
        answers = [said_by(program, tmp, words, place) for program in programs]
        return call.line, bool(driver[0]), differences(driver, answers)


def main(arguments: List[str]) -> int:
    zigrunk, seed, count = arguments[0], int(arguments[1]), int(arguments[2])
    programs = [list(words) for is_mark, words in groupby(arguments[3:], lambda it: it == "--") if not is_mark]
    passed = failed = planned = 0
    with ThreadPoolExecutor(os.cpu_count()) as pool:
        for line, is_planned, found in pool.map(lambda number: compared(zigrunk, programs, seed, number), range(count)):
            planned += is_planned
            for program, difference in zip(programs, found):
                passed, failed = passed + (not difference), failed + bool(difference)
                if difference:
                    print(f"{' '.join(program)}: nvcc {line}\n{difference}")
    if planned * 4 < count:
        print(f"only {planned} of {count} calls are planned")
        failed += 1
    print(f"{planned} of {count} calls of seed {seed} are planned")
    print(f"{passed} passed, {failed} failed")
    return 1 if failed or not passed else 0


if __name__ == "__main__":
    sys.exit(main(sys.argv[1:]))
