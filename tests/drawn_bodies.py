#!/usr/bin/env python3
"""Wrong bodies that nobody chose: edits one line of a proved function by lot, with the operators of tests/mutants_by_lot.py, and looks whether
the prover rejects the function.

Usage: tests/drawn_bodies.py SEED COUNT [CRATE..]       proves first the libraries below that aren't kept
       tests/drawn_bodies.py --gate COUNT               over what `rt ci` has just proved in this clone; the commit's hash is the seed

An edit that doesn't compile is drawn again. One that isn't refused either changes nothing, as another capacity of a list, or what it changes is in no
contract: it is printed as a diff. The last line is 'N passed, M failed': those that aren't refused are failures if they are more than one of five."""

import difflib
import os
import random
import sys
import threading
from concurrent.futures import ThreadPoolExecutor
from pathlib import Path
from typing import Any, Dict, List, NamedTuple, Tuple

import kept
import must_fail
import mutants_by_lot
from kept import rtlib
from must_fail import TOP, Verdict

# Of so many edits, one may be proved.
ONE_OF = 5
# How often an edit is drawn again.
TRIES = 40


class Line(NamedTuple):
    """A line in the body of a function: the function's path in the crate, its file and its text, and the line's number in both."""

    function: str
    path: str
    text: str
    number: int
    inside: int


class DrawnBody(must_fail.WrongBody):
    """A function with another line."""

    def __init__(self, crate: str, line: Line, new: str, operator: str):
        lines = line.text.split("\n")
        lines[line.inside] = new
        self.name, self.function, self.pairs = f"{crate}/{operator}", line.function, [(line.path, line.text, "\n".join(lines))]


def lines_of(path: str, text: str, types: Dict[str, str]) -> List[Line]:
    """Returns the lines of code in the bodies of a source file's functions, but for those of traits."""
    lines, found = text.split("\n"), []
    for function, head, (first, last) in must_fail.functions_of(path, lines, types):
        whole = "\n".join(lines[head:last + 1])
        found += [Line(function, path, whole, at, at - head) for at in range(first + 1, last) if not mutants_by_lot.NO_CODE.match(lines[at])]
    return found


class Drawing:
    """The crates from whose lines edits are drawn."""

    def __init__(self, crates: List[Any]):
        self.texts = {it.name: must_fail.texts_of(it.folder) for it in crates}
        self.lines: List[Tuple[Any, Line]] = []
        for crate in crates:
            texts = self.texts[crate.name]
            types = must_fail.modules_of_types(texts)
            files = [it for it in sorted(texts) if it.startswith("src/") and not it.endswith("laws.rt")]
            self.lines += [(crate, line) for path in files for line in lines_of(path, texts[path], types)]

    def body(self, chance: random.Random) -> Tuple[Any, DrawnBody]:
        while True:
            crate, line = chance.choice(self.lines)
            edit = mutants_by_lot.draw(chance, [(Path(crate.folder) / line.path, line.number)])
            if edit:
                return crate, DrawnBody(crate.name, line, edit.new, edit.operator)

    def verdict(self, crate: Any, body: DrawnBody) -> Verdict:
        """Checks an edited function over the contracts of the others."""
        attempt = must_fail.Attempt(crate, [body], self.texts[crate.name], None)
        return attempt.checked([body], attempt.holed([body]), ["--allow-holes"])[0]

    def judged(self, chance: random.Random) -> Tuple[Any, DrawnBody, bool]:
        """Draws until an edit compiles. Returns it, and whether it is rejected."""
        for _ in range(TRIES):
            crate, body = self.body(chance)
            is_refused, why = self.verdict(crate, body)
            # (an edit whose proof names what it removed is neither)
            if is_refused or why.startswith(f"NOT REFUSED by {body.function}: proved"):
                return crate, body, is_refused
        sys.exit(f"none of {TRIES} edits compiles")

    @staticmethod
    def difference(body: DrawnBody) -> str:
        path, old, new = body.pairs[0]
        texts = [it.splitlines(keepends=True) for it in (f"{old}\n", f"{new}\n")]
        return "".join(difflib.unified_diff(texts[0], texts[1], path, path, n=2))


def main(words: List[str]) -> int:
    if len(words) < 2 or not words[1].isdigit():
        print(__doc__, file=sys.stderr)
        return 2
    in_gate, count = words[0] == "--gate", int(words[1])
    seed = must_fail.commit() if in_gate else words[0]
    crates = [it for it in rtlib.crates_below(f"{TOP}/crates") if not it.name.startswith("test_") and it.name in (words[2:] or [it.name])]
    if len(crates) < len(words[2:]):
        print(__doc__, file=sys.stderr)
        return 2
    rtlib.guarded()
    jobs = int(os.environ.get("RT_JOBS") or len(os.sched_getaffinity(0)))
    if not in_gate and not kept.build_below(crates, jobs, print):
        return 2
    drawing, printing, refused = Drawing(crates), threading.Lock(), [0, 0]

    def tried(number: int) -> None:
        crate, body, is_refused = drawing.judged(random.Random(f"{seed}.{number}"))
        with printing:
            refused[is_refused] += 1
            answer = "refused" if is_refused else "NOT REFUSED"
            print(f"edit {number}, {body.name}, {body.function}: {answer}", flush=True)
            if not is_refused:
                print(drawing.difference(body), end="", flush=True)

    with ThreadPoolExecutor(jobs) as lanes:
        for it in [lanes.submit(tried, number) for number in range(1, count + 1)]:
            it.result()
    failed = refused[False] if refused[False] * ONE_OF > count else 0
    print(f"refused {refused[True]} of {count}, seed {seed}\n{refused[True]} passed, {failed} failed")
    return int(failed > 0)


if __name__ == "__main__":
    sys.exit(main(sys.argv[1:]))
