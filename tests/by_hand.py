#!/usr/bin/env python3
"""Counts the lines of code of what our programs do by hand although a library could, without tests, comments and empty lines.
docs/DECISIONS.md says why each stays by hand.

    tests/by_hand.py [LIMIT]    prints them by what they do; the status is 1 if the sum is above LIMIT, or if something isn't found

Of each row it prints the lines by hand, and all lines. A function or type is by hand unless it calls a library, or derives what that needs: it
has a name that its file takes from one of CRATES, and nothing `unsafe`.
"""
import re
import sys
from collections.abc import Iterator
from pathlib import Path

TOP = Path(__file__).resolve().parent.parent
FOLDERS = ["unix", "machine", "call", "cache", "provenance", "runner", "batch", "report", "driver"]
CRATES = ["nix", "rustix", "lexopt", "serde", "serde_json", "postcard", "strsim"]
# What is done: files, each with the items that do it, or whole.
ROWS: "list[tuple[str, dict[str, list[str]]]]" = [
    ("system calls", {f"unix/src/{file}.rs": [] for file in ["files", "pipes", "waits", "words", "shared", "processes"]}),
    ("signals by a file", {"unix/src/signals.rs": []}),
    ("starting a process", {"unix/src/image.rs": []}),
    ("starting nvcc for libzigrunk", {"unix/src/spawned.rs": []}),
    ("processors of a quota", {"machine/src/quota.rs": []}),
    ("whole files and streams", {"unix/src/streams.rs": []}),
    ("reading JSON", {"databases.rs": ["struct Written", "fn entries", "fn entry"], "log_lines.rs": ["fn truth", "fn entry"]}),
    ("writing JSON, lines of the log", {"call/src/json.rs": [], "runner/src/log.rs": [
        "struct LoggedCommand", "struct Early", "struct Line", "fn short", "fn commands", "fn append"]}),
    ("stored records", {"stored.rs": []}),
    ("words of our own options", {"plan_program.rs": ["fn text", "fn limit", "impl Options", "fn asked"], "options.rs": ["fn number", "fn parse"],
                                  "node/program.rs": ["fn parse"], "report/src/lib.rs": ["fn asked"], "nearest.rs": []}),
    ("jobserver", {"jobserver.rs": []}),
    ("temporary names, locks", {"folder.rs": ["fn lock_name", "fn lock", "fn random", "fn remove_left"]}),
    ("a store with a size", {"store.rs": ["impl Store", "fn age", "fn files", "fn is_unfinished"]}),
    ("paths, sizes", {"machine/src/places.rs": [], "settings.rs": ["fn bytes_of"], "place.rs": ["fn shown"]}),
    ("progress", {"progress.rs": []}),
    ("tests' folders and processes", {"test_folder.rs": [], "forked.rs": []}),
]
BEGIN = re.compile(r"( *)(?:pub(?:\([a-z]+\))? )?(?:const )?(?:unsafe )?(?:extern \"C\" )?((?:fn|struct|enum|impl|mod|static|type)\b.*)")


def code(text: str) -> "list[str]":
    """The lines of code of a file before its tests."""
    text = re.split(r"^#\[cfg\(test\)\]\nmod tests? ", text, flags=re.M)[0]
    return [line for line in text.splitlines() if line.strip() and not line.strip().startswith("//")]


def end_of(lines: "list[str]", at: int, indent: str) -> int:
    """The last line of the item that begins in a line."""
    if lines[at].rstrip()[-1] in ";}":
        return at
    return next((to for to in range(at + 1, len(lines)) if re.match(indent + r"\S*[};)]", lines[to])), at)


def items(lines: "list[str]", wanted: "list[str]") -> "Iterator[tuple[str, list[str]]]":
    """The items of those names, or all at the beginning of lines, each with its lines and the attributes above it."""
    at = 0
    while at < len(lines):
        found = BEGIN.match(lines[at])
        named = found and [name for name in wanted if re.match(re.escape(name) + r"\b", found[2])]
        if found and (named or not wanted and not found[1]):
            end = end_of(lines, at, found[1])
            above = next((to for to in range(at, 0, -1) if not lines[to - 1].lstrip().startswith("#[")), 0)
            yield (named[0] if named else ""), lines[above:end + 1]
            at = end
        at += 1


def parts(lines: "list[str]") -> "list[list[str]]":
    """The functions of an item that is an `impl`, and what is between them; else the item."""
    if not any(re.match(r"\s*impl\b", line) for line in lines):
        return [lines]
    found, at, rest = [], 0, []
    while at < len(lines):
        begin = BEGIN.match(lines[at])
        if begin and begin[2].startswith("fn"):
            end = end_of(lines, at, begin[1])
            found.append(lines[at:end + 1])
            at = end
        else:
            rest.append(lines[at])
        at += 1
    return [*found, rest]


def taken(lines: "list[str]") -> "set[str]":
    """The names that a file takes from the libraries, and theirs."""
    uses = re.findall(r"^use (?:" + "|".join(CRATES) + r")\b[^;]*;", "\n".join(lines), flags=re.M | re.S)
    return {*CRATES, *re.findall(r"\w+(?=[,}; ]|$)", " ".join(uses).replace("self", " "))} - {"use", "as"} | {
        module for use in uses for module in re.findall(r"(\w+)::\{self|(\w+)::\{\n\s+self", use) for module in module if module}


def is_by_hand(lines: "list[str]", names: "set[str]") -> bool:
    text = "\n".join(lines)
    return "unsafe" in text or not any(re.search(rf"\b{name}\b", text) for name in names)


def counted(file: str, wanted: "list[str]") -> "tuple[int, int, list[str]]":
    """The lines by hand of a file's items, or of the whole, all lines, and which items aren't there. A file is found by its name's end."""
    paths = [path for folder in FOLDERS for path in (TOP / folder).glob("**/*.rs") if f"/{path.relative_to(TOP)}".endswith(f"/{file}")]
    hand, every, seen = 0, 0, set()
    for path in paths:
        lines = code(path.read_text())
        names = taken(lines)
        for name, item in items(lines, wanted):
            seen.add(name)
            every += len(item)
            hand += sum(len(part) for part in parts(item) if is_by_hand(part, names))
    return hand, every, [f"{file}: {name}" for name in wanted if name not in seen] or ([] if paths else [file])


def main() -> int:
    """Prints the lines of each row, and the sums."""
    totals, missing = [0, 0], []
    for row, files in ROWS:
        sums = [counted(*file) for file in files.items()]
        hand, every = sum(one[0] for one in sums), sum(one[1] for one in sums)
        missing += [name for one in sums for name in one[2]]
        totals = [totals[0] + hand, totals[1] + every]
        print(f"{hand:5} of {every:5} {row}")
    print(f"{totals[0]:5} of {totals[1]:5} in all")
    for name in missing:
        print(f"not found: {name}")
    return int(bool(missing) or len(sys.argv) > 1 and totals[0] > int(sys.argv[1]))


if __name__ == "__main__":
    sys.exit(main())
