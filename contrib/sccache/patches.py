#!/usr/bin/env python3
"""Writes three patches for sccache, each of which applies alone: what our planner does otherwise, in plain Rust.

    contrib/sccache/patches.py TREE FOLDER    TREE: sccache's sources, as of 0.10.0; FOLDER gets NAME.patch of each

Each folder beside this file is a patch: a message, Rust of our own, and a test. This file finds the places by names in sccache's sources. Their text
is only in the patches, as context. If a name isn't there, the status is 1 and a message has the name."""
import difflib
import re
import sys
from collections.abc import Callable
from pathlib import Path

HERE = Path(__file__).resolve().parent
NVCC = "src/compiler/nvcc.rs"


def found(pattern: str, text: str) -> re.Match[str]:
    return re.search(pattern, text, re.MULTILINE | re.DOTALL) or sys.exit(f"patches.py: {NVCC} has no {pattern}")


def replaced(pattern: str, by: Callable[[re.Match[str]], str], text: str) -> str:
    """A text in which each match is replaced. There is at least one."""
    found(pattern, text)
    return re.sub(pattern, by, text, flags=re.MULTILINE | re.DOTALL)


def before(pattern: str, added: str, text: str) -> str:
    place = found(pattern, text).start()
    return text[:place] + added + text[place:]


def with_order(text: str) -> str:
    text = replaced(r"HashMap::<String, Vec<NvccGeneratedSubcommand>>::new\(\)", lambda _: "DeviceGroups::default()", text)
    text = before(r"^(#\[[^\n]*\]\n)*async fn group_nvcc_subcommands_by_compilation_stage\b", part("order/item.rs"), text)
    return before(r"^    #\[test\]\n    fn test_parse_generate_code_flags\b", part("order/test.rs"), text)


def with_ptxas(text: str) -> str:
    made = part("ptxas/edit.rs").rstrip("\n")
    joins = r"\.find\(\|(\w+)\| \{\n +if let Some\(\w+\) = \1\.last\(\) \{.*?return \w+ == (&[^;]*);.*?\n +false\n +\}\)"
    text = replaced(joins, lambda match: made.replace("INPUT", match[2]), text)
    return before(r"^    #\[test\]\n    fn test_parse_pass_to_host_flags\b", part("ptxas/test.rs"), text)


def with_needs(text: str) -> str:
    text = replaced(r"(nvcc_subcommand_groups\[\w+\])\.chunks\((\w+)\)", lambda match: f"chunks_by_needs(&{match[1]}, {match[2]})", text)
    text = before(r"^async fn run_nvcc_subcommands_group\b", part("needs/item.rs"), text)
    return before(r"^    #\[test\]\n    fn test_parse_dlink_is_not_compilation\b", part("needs/test.rs"), text)


PATCHES = {"order": with_order, "ptxas": with_ptxas, "needs": with_needs}


def part(name: str) -> str:
    return (HERE / name).read_text()


def patch_of(name: str, text: str) -> str:
    message = part(f"{name}/message")
    changed = PATCHES[name](text)
    lines = difflib.unified_diff(text.splitlines(keepends=True), changed.splitlines(keepends=True), f"a/{NVCC}", f"b/{NVCC}")
    return f"Subject: [PATCH] {message}---\n{''.join(lines)}"


def main(words: list[str]) -> int:
    if len(words) != 2:
        print(__doc__, file=sys.stderr)
        return 2
    text = (Path(words[0]) / NVCC).read_text()
    for name in PATCHES:
        (Path(words[1]) / f"{name}.patch").write_text(patch_of(name, text))
    return 0


if __name__ == "__main__":
    sys.exit(main(sys.argv[1:]))
