#!/usr/bin/env python3
"""Compares what nvcc and zigrunk-nvcc made of a project, and prints what differs; tests/field.sh calls it.

compare.py compare PLACE OTHER RESULTS NVCC    PLACE has the tree of zigrunk-nvcc, OTHER that of nvcc, which was in PLACE before
compare.py remove CALLS                        removes what these calls have made
compare.py sums CALLS                          prints a checksum of each of those files
compare.py changed PLACE RESULTS NVCC          compares the files that a change made others of with nvcc's, which it makes
compare.py table RESULTS                       prints a row for each project, and the reasons for which nvcc made calls itself

A file of calls has a line of JSON for each. RESULTS has a folder for each project and generator.
"""

import hashlib
import json
import os
import re
import struct
import subprocess
import sys
import tempfile
from collections import Counter, defaultdict
from collections.abc import Callable
from typing import Any

Call = dict[str, Any]
PHASES = {"-c", "--compile", "-dc", "--device-c", "-dw", "--device-w", "-ptx", "--ptx", "-cubin", "--cubin", "-fatbin", "--fatbin"}
# Differences that docs/DIFFERENCES.md has a row for.
KNOWN = ("nothing", "file symbol", "names in debug information")
# Names of temporary files, in what calls print and in debug information.
TEMPORARY = re.compile(rb"(?:/[\w./-]*/)?(?:tmpxft_[0-9a-f]{8}_[0-9a-f]{8}-\d+_[\w.-]*?|x_\d+)(?=\.(?:cpp|cudafe|fatbin|ii|module_id|ptx|reg))")

# The same if they are the source's, as zigrunk-nvcc gives them: only suffixes that no source has.
GENERATED = re.compile(rb"(?:/[^\s\"']*/)?[^/\s\"']+(?=\.(?:cudafe1\.|fatbin\.c))")


def without_names(text: bytes) -> bytes:
    """A text with one name for all temporary files."""
    return GENERATED.sub(b"NAME", TEMPORARY.sub(b"NAME", text))


def read_calls(path: str) -> list[Call]:
    """Returns the calls of a file, or none if there is no file, since nobody made a call."""
    try:
        with open(path, encoding="utf-8") as file:
            return [json.loads(line) for line in file]
    except FileNotFoundError:
        return []


def compiles(words: list[str]) -> bool:
    return not PHASES.isdisjoint(words)


def outputs(call: Call) -> list[str]:
    """Returns the files that a call's words name as its outputs."""
    words = call["words"]
    names = [words[at + 1] for at, word in enumerate(words[:-1]) if word in ("-o", "--output-file", "-MF")]
    return [os.path.normpath(os.path.join(call["directory"], name)) for name in names]


def read_file(path: str) -> bytes | None:
    try:
        with open(path, "rb") as file:
            return file.read()
    except FileNotFoundError:
        return None


def sections(data: bytes) -> dict[str, list[bytes]]:
    """Returns the contents of an ELF file's sections, by their names. Those of other files are one section."""
    if data[:4] != b"\x7fELF":
        return {"": [data]}
    offset, = struct.unpack_from("<Q", data, 40)
    size, count, names = struct.unpack_from("<HHH", data, 58)
    rows = [struct.unpack_from("<IIQQQQ", data, offset + size * at) for at in range(count)]
    text = data[rows[names][4]:rows[names][4] + rows[names][5]]
    found: dict[str, list[bytes]] = defaultdict(list)
    for row in rows:
        name = text[row[0]:text.index(b"\0", row[0])].decode()
        found[name].append(data[row[4]:row[4] + row[5]] if row[1] != 8 else b"")
    return found


def debug_information(data: bytes) -> list[bytes]:
    """Returns an object's debug information as objdump prints it, without offsets, and with names of files instead of their numbers."""
    with tempfile.NamedTemporaryFile() as file:
        file.write(data)
        file.flush()
        said = subprocess.run(["objdump", "--dwarf=info,rawline", file.name], capture_output=True, check=True).stdout
    names: dict[bytes, bytes] = dict(re.findall(rb"^  (\d+)\t\d+\t\(.*\): (.*)$", said, re.MULTILINE))
    text = said[said.index(b".debug_info"):said.rindex(b".debug_line")]
    text = re.sub(rb"(?<=_file)( *: )(\d+)", lambda found: bytes(found[1] + names.get(found[2], found[2])), text)
    text = re.sub(rb"<[0-9a-f]+>|<0x[0-9a-f]+>|offset: (?:0x)?[0-9a-f]+|Abbrev Number: \d+|\(DW_OP_[^)]*\)|file format.*", b"", text)
    text = re.sub(rb"(DW_AT_(?:stmt_list|low_pc|high_pc|ranges|GNU_locviews|location) *:).*|(?:Length|Abbrev Offset): .*", rb"\1", text)
    return without_names(text).split(b"\n")


def kind_of_difference(ours: bytes | None, theirs: bytes | None) -> str:
    """Says how two files differ: by nothing, by the object's file symbol, by the names of temporary files in debug information, or otherwise."""
    if ours == theirs:
        return "nothing"
    if ours is None or theirs is None:
        return "only one is there"
    mine, other = sections(ours), sections(theirs)
    if mine.keys() != other.keys():
        return "sections"
    names = sorted(name for name in mine if mine[name] != other[name] and name not in (".symtab", ".strtab"))
    if not names and ours[:4] == b"\x7fELF":
        return "file symbol"
    if names and all(name.startswith((".debug_", ".rela.debug_")) for name in names):
        return "names in debug information" if debug_information(ours) == debug_information(theirs) else "debug information"
    return " ".join(names) or "text"


def again(place: str, other: str, call: Call, path: str, nvcc: str) -> str:
    """Says how nvcc's file differs from the one that nvcc makes if its call is made once more."""
    os.rename(place, f"{place}.ours")
    os.rename(other, place)
    try:
        first = read_file(path)
        subprocess.run([nvcc, *call["words"]], cwd=call["directory"], capture_output=True, check=False)
        return kind_of_difference(first, read_file(path))
    finally:
        os.rename(place, other)
        os.rename(f"{place}.ours", place)


def said(call: Call) -> tuple[int, str, str]:
    """Returns the status of a call and what it printed, with one name for all temporary files."""
    out, err = (without_names(call[name].encode()).decode() for name in ("out", "err"))
    return int(call["status"]), out, err


def by_words(calls: list[Call]) -> dict[str, list[Call]]:
    found: dict[str, list[Call]] = defaultdict(list)
    for call in calls:
        found[json.dumps([call["directory"], call["words"]])].append(call)
    return found


def compare_calls(ours: list[Call], theirs: list[Call]) -> list[str]:
    """Returns a text for each call that only one side made, or that ended or said otherwise."""
    mine, other = by_words(ours), by_words(theirs)
    problems = []
    for words in mine.keys() | other.keys():
        if len(mine[words]) != len(other[words]):
            problems.append(f"{len(mine[words])} calls, not {len(other[words])}: {words}")
        elif (got := sorted(map(said, mine[words]))) != (wanted := sorted(map(said, other[words]))):
            problems.append(f"{got}, not {wanted}: {words}")
    return problems


def compare(place: str, other: str, results: str, nvcc: str) -> None:
    ours, theirs = read_calls(f"{results}/zigrunk.calls"), read_calls(f"{results}/nvcc.calls")
    log = [call for call in read_calls(f"{results}/zigrunk.log") if "hint" not in call]
    problems = compare_calls(ours, theirs)
    differences: Counter[str] = Counter()
    for call in ours:
        for path in outputs(call):
            theirs_path = other + path.removeprefix(place)
            if not os.path.exists(path) and not os.path.exists(theirs_path):
                if compiles(call["words"]) and call["status"] == 0:
                    problems.append(f"{path.removeprefix(place)} isn't there, so it can't be compared")
                continue
            kind = kind_of_difference(read_file(path), read_file(theirs_path))
            if kind not in KNOWN:
                own = again(place, other, call, path, nvcc)
                kind = f"nvcc's own: {own}" if own == kind else kind
                if own != kind and not kind.startswith("nvcc's own"):
                    problems.append(f"{path.removeprefix(place)} differs: {kind}")
            differences[kind] += 1
    compiling = [call for call in log if compiles(call["words"])]
    figures = {
        "calls": len(ours), "failed": sum(call["status"] != 0 for call in ours if compiles(call["words"])),
        "compile": sum(compiles(call["words"]) for call in ours), "split": sum("reason" not in call for call in compiling),
        "reasons": Counter(call["reason"] for call in log if "reason" in call),
        "unsplit": Counter(call["reason"] for call in compiling if "reason" in call),
        "differences": differences, "problems": len(problems),
    }
    with open(f"{results}/figures.json", "w", encoding="utf-8") as file:
        json.dump(figures, file, indent=1)
    if not figures["compile"]:
        problems.append("the build calls another nvcc: no call that compiles came")
    elif figures["failed"] == figures["compile"]:
        problems.append("no call that compiles succeeds")
    print("\n".join(problems), end="\n" * bool(problems))


def remove(path: str) -> None:
    for call in read_calls(path):
        for name in outputs(call):
            if os.path.exists(name):
                os.remove(name)


def sums(path: str) -> None:
    for name in sorted({name for call in read_calls(path) for name in outputs(call)}):
        data = read_file(name)
        print(hashlib.sha256(data).hexdigest() if data is not None else "none", name)


def changed(place: str, results: str, nvcc: str) -> None:
    before, after = ({name: digest for digest, name in map(str.split, open(f"{results}/{step}.sums", encoding="utf-8"))}
                     for step in ("unchanged", "changed"))
    makers = {name: call for call in read_calls(f"{results}/zigrunk.calls") for name in outputs(call)}
    names = [name for name in after if after[name] != before[name] and not name.endswith(".d")]
    if not names:
        print("the change of a kernel changes no file")
    for name in names:
        ours = read_file(name)
        subprocess.run([nvcc, *makers[name]["words"]], cwd=makers[name]["directory"], capture_output=True, check=False)
        kind = kind_of_difference(ours, read_file(name))
        if kind not in KNOWN:
            print(f"{name.removeprefix(place)} differs after the change: {kind}")


def hits(folder: str, step: str) -> str:
    """Returns how many of the commands that a build sent to the cache it found there."""
    data = read_file(f"{folder}/{step}.stats")
    stats = json.loads(data)["stats"] if data else {}
    found, missed = (sum(stats[name]["counts"].values()) if stats else 0 for name in ("cache_hits", "cache_misses"))
    return f"{found}/{found + missed}" if data else "-"


def seconds(folder: str, step: str) -> str:
    data = read_file(f"{folder}/{step}.seconds")
    return data.decode().strip() if data else "-"


def table(results: str) -> None:
    reasons: Counter[str] = Counter()
    print("| Project | Built by | Calls that compile | Fail | Split | Files equal | But for known names | Others | nvcc | zigrunk-nvcc | "
          "Cache: empty | unchanged | a kernel changed | Found then |")
    print("|" + "---|" * 14)
    for name in sorted(os.listdir(results)):
        data = read_file(f"{results}/{name}/figures.json")
        if data is None:
            continue
        figures = json.loads(data)
        reasons.update(figures["reasons"])
        kinds = figures["differences"]
        known = sum(kinds.get(kind, 0) for kind in KNOWN[1:])
        others = ", ".join(f"{count} {kind}" for kind, count in kinds.items() if kind not in KNOWN) or "0"
        times = " | ".join(seconds(f"{results}/{name}", step) for step in ("nvcc", "zigrunk", "cold", "unchanged", "changed"))
        project, built_by = name.rsplit(".", 1)
        print(f"| {project} | {built_by} | {figures['compile']} | {figures['failed']} | {figures['split']} | {kinds.get('nothing', 0)} | {known} | "
              f"{others} | {times} | {hits(f'{results}/{name}', 'changed')} |")
    for reason, count in reasons.most_common():
        print(f"{count} calls to nvcc: {reason}")


if __name__ == "__main__":
    actions: dict[str, Callable[..., None]] = {"compare": compare, "changed": changed, "remove": remove, "sums": sums, "table": table}
    actions[sys.argv[1]](*sys.argv[2:])
