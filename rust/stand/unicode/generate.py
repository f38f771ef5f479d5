#!/usr/bin/env python3
"""Writes src/word.rs, the characters that Perl's `\\w` matches, from the proved table of a Rattle kit.

    generate.py [--check] [KIT]    KIT: the kit's folder, /opt/rattle unless given; with --check it only says whether the file is current

The kit's crate ucd_perl has the set as runs: a code times 2048, and 1 if the characters right before it are in the set.
"""
import re
import sys
from pathlib import Path

HEAD = """\
// Written by generate.py from the table of Rattle's ucd_perl. Do not edit.

/// Where the characters of words begin and end: each number is the first code that is in the set unlike the one before it.
#[rustfmt::skip]
pub(crate) const BOUNDARIES: [u32; {count}] = [
"""


def boundaries(kit: Path) -> list[int]:
    source = (kit / "rattle/ucd_perl/src/tables/word.rt").read_text(encoding="utf-8")
    table = re.search(r"static WORD_RUNS: \[u32; (\d+)\] = \[([^\]]*)\];", source)
    if not table:
        raise SystemExit("no table of runs")
    runs = [int(number, 16) for number in re.findall(r"0x[0-9A-F]+", table[2])]
    if len(runs) != int(table[1]):
        raise SystemExit(f"{len(runs)} runs, not {table[1]}")
    ends = [(run >> 11, run & 2047) for run in runs]
    if [kind for _, kind in ends] != [place % 2 for place in range(len(ends))]:
        raise SystemExit("the runs don't take turns")
    if ends[-1] != (0x110000, 0):
        raise SystemExit("the last run doesn't end behind the last code")
    return [code for code, _ in ends[:-1]]


def text(codes: list[int]) -> str:
    lines = [", ".join(f"{code:#07x}" for code in codes[at:at + 12]) for at in range(0, len(codes), 12)]
    return HEAD.format(count=len(codes)) + "".join(f"    {line},\n" for line in lines) + "];\n"


def main() -> None:
    words = [word for word in sys.argv[1:] if word != "--check"]
    target = Path(__file__).resolve().parent / "src/word.rs"
    made = text(boundaries(Path(words[0] if words else "/opt/rattle")))
    if "--check" not in sys.argv:
        target.write_text(made, encoding="utf-8")
    elif target.read_text(encoding="utf-8") != made:
        raise SystemExit(f"{target} isn't what generate.py makes")


main()
