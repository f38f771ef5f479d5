#!/usr/bin/env python3
"""layers.py: checks the layers of what is written by hand as plain Rust: no crate needs one above it, in none of them do top-level modules use each
other in a ring, and of the driver's one module alone reads variables. What tests alone use doesn't count. Prints each ring, with a place for each
of its edges, and N passed, M failed."""

import re
import sys
import tomllib
from collections.abc import Iterator
from pathlib import Path

TOP = Path(__file__).resolve().parent.parent
# From the lowest on.
LAYERS = ("unix", "call", "bindings/rust", "capi", "machine", "cache", "provenance", "runner", "report", "batch", "driver")
ROOT = "lib"
# The module of the driver that reads variables.
SETTINGS = TOP / "machine/src/settings.rs"
OF_DRIVER = ("unix", "machine", "cache", "provenance", "runner", "report", "batch", "driver")

TESTS = re.compile(r"#\[cfg\(test\)\]\s*(?:pub(?:\([a-z]+\))? )?mod \w+ \{.*?^\}", re.DOTALL | re.MULTILINE)
TEST_LINE = re.compile(r"#\[cfg\(test\)\]\s*[^;{]*(?:\{[^}]*\})?;")
INLINE = re.compile(r"^(?:pub(?:\([a-z]+\))? )?mod \w+ \{.*?^\}", re.DOTALL | re.MULTILINE)
COMMENT = re.compile(r"//.*")
TEST_MODULE = re.compile(r"#\[cfg\(test\)\]\s*(?:pub(?:\([a-z]+\))? )?mod (\w+);")
MODULE = re.compile(r"^(?:pub(?:\([a-z]+\))? )?mod (\w+);", re.MULTILINE)
NAME = re.compile(r"\w+")
READS_VARIABLES = re.compile(r"\benv::vars?(_os)?\(")

Edges = dict[str, dict[str, str]]


def bare(text: str) -> str:
    """A source without comments and without what tests alone have. In a module within it `super` is the source itself."""
    text = TEST_LINE.sub("", TESTS.sub("", COMMENT.sub("", text)))
    return INLINE.sub(lambda found: found[0].replace("super::", "self::"), text)


def members(text: str, place: int) -> Iterator[str]:
    """The first names of the paths that begin at a place of a source: of one path, or of several in braces."""
    if not text.startswith("{", place):
        found = NAME.match(text, place)
        yield from [found[0]] if found else []
        return
    depth, is_first = 0, False
    for at in range(place, len(text)):
        depth += {"{": 1, "}": -1}.get(text[at], 0)
        if depth == 0:
            return
        if text[at] in "{,":
            is_first = depth == 1
        elif is_first and (found := NAME.match(text, at)):
            is_first = False
            yield found[0]


def named(text: str, is_top: bool) -> Iterator[str]:
    """The names of the crate's root that a source uses. At the top `super` is the root."""
    for found in re.finditer(r"\b(?:crate|super)::" if is_top else r"\bcrate::", text):
        yield from members(text, found.end())


def edges(sources: Path) -> Edges:
    """Which module of a crate uses which other, and a file where it does."""
    root = next(path for path in (sources / "lib.rs", sources / "main.rs") if path.exists())
    of_tests = set(TEST_MODULE.findall(root.read_text()))
    modules = set(MODULE.findall(bare(root.read_text()))) - of_tests
    found: Edges = {ROOT: {name: root.name for name in modules if re.search(rf"\b{name}::", bare(root.read_text()))}}
    aliases = set(re.findall(r"^use \w+ as (\w+);", root.read_text(), re.MULTILINE))
    for path in sorted(sources.rglob("*.rs")):
        place = path.relative_to(sources)
        own = place.parts[0].removesuffix(".rs")
        if own not in modules:
            continue
        is_top = len(place.parts) == 1 or (len(place.parts) == 2 and path.name == "mod.rs")
        for name in named(bare(path.read_text()), is_top):
            if name not in aliases and name != own:
                found.setdefault(own, {}).setdefault(name if name in modules else ROOT, str(place))
    return found


def way(graph: Edges, begin: str, end: str) -> list[str]:
    """The shortest way from one module to another, without its begin. Nothing if there is none."""
    ways: dict[str, list[str]] = {begin: []}
    waiting = [begin]
    for module in waiting:
        for other in graph.get(module, {}):
            if other == end:
                return [*ways[module], end]
            if other not in ways:
                ways[other] = [*ways[module], other]
                waiting.append(other)
    return []


def rings(graph: Edges) -> Iterator[str]:
    """The rings of a graph, each module in one of them."""
    seen: set[str] = set()
    for module in sorted(graph):
        ring = [] if module in seen else way(graph, module, module)
        seen.update(ring)
        if ring:
            steps = zip([module, *ring], ring)
            yield module + "".join(f" -> {other} ({graph[one][other]})" for one, other in steps)


def above(crate: str) -> Iterator[str]:
    """The crates that one needs though they aren't below it."""
    manifest = tomllib.loads((TOP / crate / "Cargo.toml").read_text())
    for table in ("dependencies", "dev-dependencies"):
        paths = [needed["path"] for needed in manifest.get(table, {}).values() if isinstance(needed, dict) and "path" in needed]
        names = [path.removeprefix("../") for path in paths]
        yield from (name for name in names if name in LAYERS and LAYERS.index(name) >= LAYERS.index(crate))


def reads_variables(crate: str) -> Iterator[str]:
    """The files of a crate that read variables themselves."""
    for path in sorted((TOP / crate / "src").rglob("*.rs")):
        if path != SETTINGS and READS_VARIABLES.search(bare(path.read_text())):
            yield str(path.relative_to(TOP))


def main() -> int:
    passed = failed = 0
    for crate in LAYERS:
        faults = [f"it needs {name}, which isn't below it" for name in above(crate)]
        faults += [f"modules in a ring: {ring}" for ring in rings(edges(TOP / crate / "src"))]
        faults += [f"{file} reads variables itself" for file in (reads_variables(crate) if crate in OF_DRIVER else ())]
        for fault in faults:
            print(f"{crate}: {fault}")
        passed, failed = passed + (not faults), failed + bool(faults)
    print(f"{passed} passed, {failed} failed")
    return 1 if failed else 0


if __name__ == "__main__":
    sys.exit(main())
