#!/usr/bin/env python3
"""Judges answers of test_std to lines of whose calls one allocation each was refused.

    judge.py LINES WHOLE REFUSED    LINES: what was asked; WHOLE: the answers with all memory; REFUSED: those without

An answer is the same as with all memory, or a beginning of it and then `refused`. Before that it may say how a value was changed: to what it
is behind the operation that comes next, since what is refused may be the text of the answer.
"""
import sys
from pathlib import Path

# Operations of the driver that change a value in more than one step.
STEPS = {"words mark", "words halve", "hash push", "hash sum", "tree take", "shared unwrap", "shared push", "shared new", "shared share"}


def facts(answer: str) -> list[str]:
    return answer.split(" ; ") if answer else []


def problem(line: str, whole: str, refused: str) -> str:
    """What is wrong with an answer, or nothing."""
    told, wanted = facts(refused), facts(whole)
    if told == wanted:
        return ""
    # Of an operation that always fails one can't say why it did, and whether there is more room.
    if line.startswith("string : ") and "fail=" in line:
        return ""
    if told[-1:] != ["refused"]:
        return "another answer than with all memory"
    told.pop()
    changed = told.pop().removeprefix("changed ") if told and told[-1].startswith("changed ") else None
    if told != wanted[:len(told)]:
        return "another beginning than with all memory"
    if changed is None:
        return ""
    operation = line.split(" : ")[1].split(" ")[len(told)].split("=")[0]
    if f"{line.split(' ')[0]} {operation}" in STEPS or changed == wanted[len(told)].split(" ")[-1]:
        return ""
    return "a refused operation changed the value"


def main() -> None:
    lines, wholes, answers = [Path(path).read_text(encoding="utf-8").split("\n") for path in sys.argv[1:4]]
    if not len(lines) - 1 == len(wholes) == len(answers):
        raise SystemExit(f"{len(answers) - 1} answers, not {len(lines) - 2}")
    found = 0
    for line, whole, answer in zip(lines, wholes, answers):
        if why := problem(line, whole, answer):
            found += 1
            if found <= 5:
                print(f"{why}:\n  {line[:400]}\n  {whole[:800]}\n  {answer[:800]}")
    refused = sum(answer.endswith("refused") for answer in answers)
    print(f"{refused} refused of {len(answers) - 1}, {found} wrong")
    if found or refused * 4 < len(answers):
        raise SystemExit(1)


main()
