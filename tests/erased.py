#!/usr/bin/env python3
"""Checks that the plain Rust of out/rust is the proved text without its ghost text, and nothing else.

Usage: tests/erased.py [OUT [SOURCE]]     OUT: what `make rust` wrote, out/rust unless given; SOURCE: this repository unless given
       tests/erased.py --edits N --seed S [OUT [SOURCE]]
                                          edits OUT and SOURCE in N ways drawn by lot, and counts those that the check finds

It knows nothing of the program that wrote them. For each crate it reads the source and the output by tokens: the output's have to be the
source's in their order, but for ghost text, whose forms `rust_reading` lists, for imports that only ghost text used, and for the rewrites
of REWRITES. Documentation is compared too, other comments aren't. Each file has to be there, and no other, nor a crate that
has laws alone. No file may join a `let` with `&&`, which Rust 1.85 doesn't have.
"""

import argparse
import difflib
import os
import random
import re
import sys
import tomllib
from collections import Counter
from collections.abc import Iterator
from dataclasses import dataclass, replace
from pathlib import Path

import erased_edits
from runner import Counts
from rust_layout import in_one_layout
from rust_reading import Import, Reader, Reading
from rust_tokens import Token, Unreadable, tokens_of

TOP = Path(os.path.realpath(__file__)).parent.parent
# Libraries of the kit that crates name only for their definitions.
ONLY_BELOW = {"ucd_perl"}
MANIFEST_KEYS = {"package.name", "package.description", "package.version", "package.edition", "package.rust-version", "package.license",
                 "package.publish", "lints.workspace", "lib.name", "lib.crate-type", "lib.doc", "bin.name", "bin.path", "bin.doc",
                 "bin.test"}


@dataclass(frozen=True)
class Rewrite:
    """Tokens that plain Rust spells in another way."""

    name: str
    source: str
    output: str


REWRITES = [
    # A formatter of the kit's has its writer's type, one of Rust's hides it.
    Rewrite("fmt", "fn fmt<W: fmt::Write>(&self, f: &mut fmt::Formatter<W>)", "fn fmt(&self, f: &mut fmt::Formatter)"),
    # The kit starts `main` with the process, Rust doesn't: a macro of the stand-in for std does.
    Rewrite("main", "fn main(rt: HostRuntime) -> ExitCode", "std::program!(main); fn main(rt: HostRuntime) -> ExitCode"),
    # `str` has a method of this name, which allocates by itself.
    Rewrite("replace", "text.replace(alloc, old, new)", "text.replace_in(alloc, old, new)"),
    # So has `Iterator`.
    Rewrite("collect", ".collect(alloc)", ".collect_in(alloc)"),
]


def rewritten(tokens: list[Token], counts: Counter[str]) -> list[Token]:
    """Returns the tokens with each rewrite made where it applies."""
    for rewrite in REWRITES:
        old, new = [token.text for token in tokens_of(rewrite.source)], tokens_of(rewrite.output)
        made, at = list[Token](), 0
        while at < len(tokens):
            if tokens[at].text == old[0] and [token.text for token in tokens[at:at + len(old)]] == old:
                made += [replace(token, line=tokens[at].line) for token in new]
                at += len(old)
                counts[f"rewritten {rewrite.name}"] += 1
            else:
                made.append(tokens[at])
                at += 1
        tokens = made
    return tokens


def plain(tokens: list[Token], counts: Counter[str]) -> list[Token]:
    """Returns the code of a source in plain Rust: rewritten, with the attribute that the macro of a program's start needs."""
    programs = counts["rewritten main"]
    made = rewritten(tokens, counts)
    if counts["rewritten main"] == programs:
        return made
    first = next((place for place, token in enumerate(made) if not token.text.startswith("//!")), 0)
    return [*made[:first], *tokens_of("#![no_main]"), *made[first:]]


def differences(source: list[Token], output: list[Token]) -> Iterator[str]:
    """The first place where two lists of tokens, each in one layout, differ."""
    wanted, got = in_one_layout(source), in_one_layout(output)
    for place in range(max(len(wanted), len(got))):
        here = [tokens[place].text if place < len(tokens) else "the end" for tokens in (wanted, got)]
        if here[0] != here[1]:
            before = " ".join(token.text for token in got[max(0, place - 6):place])
            lines = [tokens[min(place, len(tokens) - 1)].line if tokens else 1 for tokens in (wanted, got)]
            yield f"line {lines[1]} (of the source {lines[0]}): behind `{before}` stands `{here[1]}`, not `{here[0]}`"
            return


def different_imports(source: Reading, output: Reading) -> Iterator[str]:
    """Imports that the output lacks, though code may use them, and those that the source doesn't have."""
    def key(it: Import) -> tuple[str, str, str]:
        return it.module, it.before, it.path

    wanted, got = Counter(map(key, source.imports)), Counter(map(key, output.imports))
    for it in source.imports:
        if wanted[key(it)] > got[key(it)] and not is_idle(it, source):
            yield f"`use {it.path}` of line {it.line} of the source is left out, and code may use it"
    for it in output.imports:
        if got[key(it)] > wanted[key(it)]:
            yield f"line {it.line}: `{it.before} use {it.path}` isn't in the source"


def is_idle(it: Import, source: Reading) -> bool:
    """Whether no code uses an import: only this file could, it doesn't name it, and it can't be a trait whose methods it uses, since it is
    a module or a function, or ghost text names it."""
    used = {token.text for token in source.code if token.kind == "word"} | {other.path.split("::")[0] for other in source.imports}
    is_named_by_ghosts = any(token.text == it.name for token in source.ghost)
    return not it.is_public and it.name not in used and (is_named_by_ghosts or it.name[0].islower())


def different_modules(source: Reading, output: Reading, laws: set[str]) -> Iterator[str]:
    """Modules of files that only one of both declares, and those declared in another way. Laws are left out."""
    for name in {*source.modules, *output.modules}:
        wanted = [token.text for token in source.modules.get(name, [])] if name not in laws else []
        got = [token.text for token in output.modules.get(name, [])]
        if wanted != got:
            yield f"`{' '.join(got) or 'nothing'}` declares the module {name}, not `{' '.join(wanted) or 'nothing'}`"


def compared(source: str, output: str, laws: set[str], counts: Counter[str]) -> list[str]:
    """Returns what differs between the text of a source and that of its output. `laws` are the modules of it that have laws alone."""
    try:
        wanted, got = Reader(source, True).read(), Reader(output, False).read()
        found = [*differences(plain(wanted.code, counts), got.code)]
        found += [*different_imports(wanted, got), *different_modules(wanted, got, laws)]
        counts.update(wanted.counts)
        counts["kept token"] += len(wanted.code)
        return found
    except Unreadable as error:
        return [str(error)]


# The files of both.


def listed(text: str) -> dict[str, set[str]]:
    """Returns the crates of a list as crates.txt, each with what it uses."""
    return {name: {*needs.split()} - ONLY_BELOW for name, needs in re.findall(r"^(\w+)(?: staticlib)?:(.*)$", text, re.M)}


def crates_of(source: Path) -> dict[str, set[str]]:
    """Returns the libraries and programs that crates.txt lists, without tests."""
    parts = (source / "crates.txt").read_text(encoding="utf-8").split("\n\n")
    return listed("\n".join(part for part in parts if not part.startswith("# The callers")))


def crates_there(source: Path, out: Path) -> dict[str, set[str]]:
    """Returns these, and those tests that the output has."""
    tests = listed("\n".join((source / name).read_text(encoding="utf-8") for name in ("crates.txt", "tests/drivers/drivers.txt")))
    return crates_of(source) | {name: needs for name, needs in tests.items() if (out / "crates" / name).exists()}


@dataclass
class Crate:
    """A crate of both: the texts of its sources, and those of its output, by their places in `src` without a suffix."""

    name: str
    sources: dict[str, str]
    outputs: dict[str, str]
    laws: set[str]

    @property
    def is_of_laws(self) -> bool:
        """Whether it has laws, and otherwise documentation alone."""
        others = [Reader(text, True).read() for place, text in self.sources.items() if place not in self.laws]
        return bool(self.laws) and all(not reading.items and not reading.imports and reading.modules.keys() <= self.laws for reading in others)

    def laws_below(self, place: str) -> set[str]:
        """Returns the modules of laws that the file at a place could declare."""
        folder = place.rpartition("/")[0] if place.rpartition("/")[2] in ("lib", "main") else place
        return {law.rpartition("/")[2] for law in self.laws if law.rpartition("/")[0] == folder}


def texts_below(folder: Path, suffix: str) -> dict[str, str]:
    return {str(path.relative_to(folder))[:-len(suffix)]: path.read_text(encoding="utf-8") for path in sorted(folder.rglob(f"*{suffix}"))}


def read_crate(source: Path, out: Path, name: str) -> Crate:
    driver = source / "tests/drivers" / name / "src"
    sources = texts_below(driver, ".rattle") if driver.exists() else texts_below(source / "crates" / name / "src", ".rt")
    laws = {place for place, text in sources.items() if Reader(text, True).read().is_of_laws}
    return Crate(name, sources, texts_below(out / "crates" / name / "src", ".rs"), laws)


def different_files(crate: Crate, there: set[str]) -> Iterator[str]:
    """Files that a crate of these lacks, and those that it has beyond its sources' and a manifest."""
    wanted = {f"src/{place}.rs" for place in {*crate.sources} - crate.laws} | {"Cargo.toml"}
    yield from (f"{place} isn't there" for place in sorted(wanted - there))
    yield from (f"{place} has no source" for place in sorted(there - wanted))


def files_of(folder: Path) -> set[str]:
    return {str(path.relative_to(folder)) for path in folder.rglob("*") if not path.is_dir()}


def different_manifest(text: str, needs: set[str], crates: set[str]) -> Iterator[str]:
    """What a manifest has that could make another program of the same files: other libraries, or more than a manifest has to say. It may
    lack a library, of which only ghost text used something: rustc would miss any other."""
    manifest = tomllib.loads(text)
    folders = {need: {"path": f"../{need}" if need in crates else f"../../stand/{need}"} for need in needs}
    folders["std"] = {"package": "rattle_std", "path": "../../stand/std"}
    for need, where in manifest.pop("dependencies", {}).items():
        if where != folders.get(need):
            yield f"its library {need} is {where}, not {folders.get(need)}"
    keys = {f"{table}.{key}" for table, value in manifest.items() for part in (value if isinstance(value, list) else [value]) for key in part}
    yield from (f"it sets {key}" for key in sorted(keys - MANIFEST_KEYS))
    if manifest.get("bin", [{}])[0].get("path", "src/main.rs") != "src/main.rs":
        yield "its program isn't src/main.rs"


def check_crate(crate: Crate, folder: Path, needs: set[str], crates: set[str], counts: Counts, found: Counter[str]) -> None:
    """Checks a crate: which files it has, and each of them."""
    there = files_of(folder)
    counts.case(crate.name, different_files(crate, there))
    if "Cargo.toml" in there:
        manifest = (folder / "Cargo.toml").read_text(encoding="utf-8")
        counts.case(f"{crate.name}/Cargo.toml", different_manifest(manifest, needs, crates))
    for place in sorted({*crate.sources} & {*crate.outputs} - crate.laws):
        counts.case(f"{crate.name}/src/{place}.rs", compared(crate.sources[place], crate.outputs[place], crate.laws_below(place), found))


def let_chains(tokens: list[Token]) -> Iterator[int]:
    """Lines of conditions that join a `let` with `&&`. Newer rustcs than 1.85 take them. A condition ends before `{`, that of a `match` arm
    before `=>`."""
    for place, head in enumerate(tokens):
        if head.text not in ("if", "while"):
            continue
        depth, condition = 0, list[str]()
        for token in tokens[place + 1:]:
            depth += (token.text in ("(", "[")) - (token.text in (")", "]"))
            if depth == 0 and token.text in ("{", "=>"):
                break
            condition += [token.text] if depth == 0 else []
        if "let" in condition and "&&" in condition:
            yield head.line


def too_new(out: Path) -> Iterator[str]:
    """Places below a folder that Rust 1.85 doesn't compile."""
    for file in sorted(out.rglob("*.rs")):
        if "target" not in file.relative_to(out).parts:
            lines = let_chains(tokens_of(file.read_text(encoding="utf-8")))
            yield from (f"{file.relative_to(out)}:{line}: a `let` joined with `&&`" for line in lines)


def check(source: Path, out: Path) -> int:
    """Checks all crates, and prints what was left out and rewritten. Each file is a case, and so are the files of a crate."""
    counts, found = Counts(), Counter[str]()
    crates = crates_there(source, out)
    there = {path.name for path in (out / "crates").iterdir()}
    read = [read_crate(source, out, name) for name in crates]
    kept = [crate for crate in read if not crate.is_of_laws]
    counts.case("crates", (f"{name} has no code in the sources" for name in sorted(there - {crate.name for crate in kept})))
    for crate in kept:
        check_crate(crate, out / "crates" / crate.name, crates[crate.name], {*crates}, counts, found)
    counts.case("what Rust 1.85 lacks", too_new(out))
    print(", ".join(f"{kind} {number}" for kind, number in sorted(found.items())))
    return counts.summary()


# Edits drawn by lot.


def found_in_files(lot: random.Random, crate: Crate, there: set[str]) -> tuple[str, bool]:
    """Takes a file away, or puts one there. Returns the edit, and whether it is found."""
    if lot.random() < 0.5:
        left_out = lot.choice(sorted(file for file in there if file.startswith("src/")))
        return f"{left_out} left out", any(different_files(crate, there - {left_out}))
    more = lot.choice([f"src/{lot.choice(sorted(crate.laws) or ['more'])}.rs", "build.rs", ".cargo/config.toml"])
    return f"{more} more", any(different_files(crate, there | {more}))


def found_in_text(lot: random.Random, crate: Crate) -> tuple[str, bool] | None:
    """Makes an edit of a file. Returns it, and whether it is found; or None if it isn't one: if there is no such place, or rustfmt makes
    of both texts the same."""
    place = lot.choice(sorted({*crate.sources} & {*crate.outputs} - crate.laws))
    before = crate.sources[place], crate.outputs[place]
    name, after = erased_edits.draw(lot, before)
    if after is None or after == before:
        return None
    is_found = bool(compared(*after, crate.laws_below(place), Counter()))
    if not is_found and after[0] == before[0] and erased_edits.is_the_same(before[1], after[1]):
        return None
    return f"src/{place}.rs: {name}" + ("" if is_found else f"\n{change(before, after)}\n"), is_found


def edited(number: int, seed: str, source: Path, out: Path) -> int:
    """Makes edits one by one, and counts those that the check finds. One of twenty is of a whole file."""
    counts, lot = Counts(), random.Random(seed)
    crates = [crate for crate in (read_crate(source, out, name) for name in crates_there(source, out)) if not crate.is_of_laws]
    there = {crate.name: files_of(out / "crates" / crate.name) for crate in crates}
    while counts.passed + counts.failed < number:
        crate = lot.choices(crates, [len(crate.outputs) for crate in crates])[0]
        made = found_in_files(lot, crate, there[crate.name]) if lot.random() < 0.05 else found_in_text(lot, crate)
        if made is not None:
            counts.case(f"{crate.name}/{made[0]}", [] if made[1] else ["isn't found"])
    return counts.summary()


def change(before: erased_edits.Texts, after: erased_edits.Texts) -> str:
    lines = [line for one, other in zip(before, after) for line in difflib.unified_diff(one.splitlines(), other.splitlines(), n=2, lineterm="")]
    return "\n".join(lines)


def main() -> int:
    parser = argparse.ArgumentParser(usage=str(__doc__).partition("\n\n")[2].partition("\n\n")[0])
    parser.add_argument("out", nargs="?", type=Path, default=TOP / "out/rust")
    parser.add_argument("source", nargs="?", type=Path, default=TOP)
    parser.add_argument("--edits", type=int)
    parser.add_argument("--seed", default="1")
    given = parser.parse_args()
    if given.edits is not None:
        return edited(given.edits, given.seed, given.source, given.out)
    return check(given.source, given.out)


if __name__ == "__main__":
    sys.exit(main())
