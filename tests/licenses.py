#!/usr/bin/env python3
"""Checks the licenses of the crates of others that the workspace of plain Rust needs: each allows what Apache-2.0 does.

    tests/licenses.py [WORKSPACE]     WORKSPACE: as `make rust-sources` leaves it, out/rust unless given
    tests/licenses.py --write         writes into packaging/copyright which crates our programs and libzigrunk are linked with

Also checks that packaging/copyright and packaging/Cargo.lock and, of Debian 13's packages, README's table name what is needed. The last line is
"N passed, M failed".
"""
import json
import re
import shutil
import subprocess
import sys
import tempfile
from pathlib import Path
from typing import Any

TOP = Path(__file__).resolve().parent.parent
COPYRIGHT = TOP / "packaging/copyright"
ALLOWED = {"Apache-2.0", "Apache-2.0 WITH LLVM-exception", "BSD-2-Clause", "BSD-3-Clause", "CC0-1.0", "ISC", "MIT", "Unicode-3.0", "Unicode-DFS-2016",
           "Unlicense", "Zlib", "0BSD"}


def is_allowed(expression: str) -> bool:
    """Whether a license of an SPDX expression may be chosen so that all of it is allowed. A slash is an old form of OR."""
    words = re.findall(r"[()]|[^\s()]+", re.sub(r"\s+WITH\s+", "~", expression.replace("/", " OR ")))
    form = {"OR": "or", "AND": "and", "(": "(", ")": ")"}
    said = " ".join(form.get(word, str(word.replace("~", " WITH ") in ALLOWED)) for word in words)
    return bool(eval(said)) if words else False  # pylint: disable=eval-used


def linked(metadata: Any) -> "list[Any]":
    """The packages of others that the programs and libzigrunk are linked with: what they depend on, but for building and for deriving."""
    packages = {package["id"]: package for package in metadata["packages"]}
    needs = {node["id"]: [one["pkg"] for one in node["deps"] if any(kind["kind"] is None for kind in one["dep_kinds"])]
             for node in metadata["resolve"]["nodes"]}
    found: "set[str]" = set()
    left = [name for name, package in packages.items() if package["name"] in {"cudaplan", "zigrunk-driver", "capi"}]
    while left:
        name = left.pop()
        if name not in found and not any("proc-macro" in target["kind"] for target in packages[name]["targets"]):
            found.add(name)
            left += needs[name]
    return sorted((packages[name] for name in found if packages[name]["source"]), key=lambda package: str(package["name"]))


def stanza(package: Any) -> str:
    """What Debian's file of copyrights says of a crate: its authors, and the license that we choose."""
    offered = re.split(r" OR |/", package["license"])
    chosen = next((one for one in ["Apache-2.0", "MIT", "BSD-2-Clause"] if one in offered), package["license"])
    authors = ", ".join(author.replace(" <>", "") for author in package["authors"]) or f"the authors of {package['name']}"
    return f"Files: vendor/{package['name']}-*/*\nCopyright: {authors}\nLicense: {chosen}\n"


def copyrights(metadata: Any) -> str:
    """The file of copyrights as it has to be: the stanzas of crates stand between ours and the texts of licenses."""
    text = COPYRIGHT.read_text()
    licenses = text.index("\n\nLicense: ") + 1
    ours = text[:licenses].split("\n\nFiles: vendor/")[0].rstrip("\n") + "\n"
    return ours + "".join("\n" + stanza(package) for package in linked(metadata)) + text[licenses:]


def is_fitting(workspace: Path, lock: Path) -> bool:
    """Whether cargo takes a Cargo.lock for the workspace as it is, with the crates that the workspace has."""
    with tempfile.TemporaryDirectory() as scratch:
        for path in workspace.iterdir():
            if path.name not in {"Cargo.lock", "target"}:
                (Path(scratch) / path.name).symlink_to(path.resolve())
        shutil.copy(lock, Path(scratch) / "Cargo.lock")
        return not subprocess.run(["cargo", "metadata", "--locked", "--offline", "--format-version", "1"], cwd=scratch, capture_output=True,
                                  check=False).returncode


def metadata_of(workspace: Path) -> Any:
    """What cargo says of a workspace."""
    command = ["cargo", "metadata", "--offline", "--format-version", "1"]
    return json.loads(subprocess.run(command, cwd=workspace, capture_output=True, text=True, check=True).stdout)


def faults(workspace: Path) -> "list[tuple[str, str]]":
    """What was checked, and each time what is wrong, if anything."""
    metadata = metadata_of(workspace)
    packages = metadata["packages"]
    others = [package for package in packages if package["source"]]
    found = [(f"{one['name']} {one['version']}", "" if is_allowed(one["license"] or "") else f"its license is {one['license']}") for one in others]
    found.append(("packaging/Cargo.lock", "" if is_fitting(workspace, TOP / "packaging/Cargo.lock") else f"copy {workspace}/Cargo.lock there"))
    found.append(("packaging/copyright", "" if COPYRIGHT.read_text() == copyrights(metadata) else "run tests/licenses.py --write"))
    listed = re.findall("^librust.*$", (TOP / "packaging/debian.txt").read_text(), re.M)
    told = set(re.findall(r"librust-[a-z0-9-]*-dev", (TOP / "README.md").read_text()))
    found.append(("README's packages of crates", "" if set(listed) == told else f"they differ: {' '.join(sorted(set(listed) ^ told))}"))
    direct = {dependency["name"] for package in packages if not package["source"] for dependency in package["dependencies"] if dependency["source"]}
    packaged = {f"librust-{name.replace('_', '-')}-dev" for name in direct}
    found.append(("packaging/debian.txt", "" if packaged == set(listed) else f"it isn't: {' '.join(sorted(packaged))}"))
    return found


def main() -> int:
    """Prints what is wrong, or writes the file of copyrights."""
    if sys.argv[1:] == ["--write"]:
        COPYRIGHT.write_text(copyrights(metadata_of(TOP / "out/rust")))
        return 0
    checked = faults(Path(sys.argv[1] if len(sys.argv) > 1 else TOP / "out/rust"))
    wrong = [f"{what}: {fault}" for what, fault in checked if fault]
    print("\n".join([*wrong, f"{len(checked) - len(wrong)} passed, {len(wrong)} failed"]))
    return 1 if wrong else 0


if __name__ == "__main__":
    sys.exit(main())
