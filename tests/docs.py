#!/usr/bin/env python3
"""Checks that the pages say what is there: links, quoted code, names of files, definitions and calls, commands, and the version number.

Prints a line for each finding, and last 'N passed, M failed': a page or a kind of check counts once. The status is 1 if one failed.

    tests/docs.py --words           prints the words of each page and their sums, as `wc -w` counts them. The status is 1 if a sum is too large
    tests/docs.py --links FOLDER    checks the links of the pages below a folder alone, such as those that are installed

The sum of all pages has README, CONTRIBUTING, packaging/README, those below docs, driver/*.md and bindings/*/README.md. It leaves out the
changelog, the man pages, which have a sum of their own, and what tests/ says of its files of cases.
"""

import glob
import os
import re
import subprocess
import sys
from collections.abc import Iterable, Iterator
from pathlib import Path

from runner import Counts

TOP = os.path.realpath(f"{os.path.dirname(os.path.realpath(__file__))}/..")
READ = ["README.md", "CONTRIBUTING.md", "packaging/README",
        *sorted(path for pages in ("docs/*.md", "docs/proof/*.md", "driver/*.md", "bindings/*/README.md") for path in glob.glob(pages, root_dir=TOP))]
PAGES = [*READ, "CHANGELOG.md", "tests/LONG_INPUT.md", *sorted(glob.glob("tests/drivers/*/data/README.md", root_dir=TOP))]

# The pages of those who build with Zigrunk or call it. Those of docs/proof are for who asks what is proved, the others for contributors.
USERS = ["README.md", *(f"docs/{name}.md" for name in ("CLUSTER", "DIFFERENCES", "EMBEDDING", "PERFORMANCE", "REPRODUCIBLE", "TRIED"))]
PROOF = [page for page in READ if page.startswith("docs/proof/")]
MANUALS = sorted(glob.glob("man/*", root_dir=TOP))

# Who builds with Zigrunk should have read its pages in 40 minutes, who reads all pages in two hours, and who reads README in two minutes.
MOST = (("users' pages", USERS, 8_000), ("users' pages and docs/proof", [*USERS, *PROOF], 18_000), ("all pages", READ, 24_000),
        ("man pages", MANUALS, 6_000))
MOST_LINES = 90

# An exported function that only tests cover: std's contracts don't say which errors a file can give.
WITHOUT_CLAUSE = {"unread_of"}


def text_of(path: str) -> str:
    return Path(f"{TOP}/{path}").read_text(encoding="utf-8")


def files_below(folder: str, suffix: str) -> list[str]:
    """Returns the files below a folder with a suffix, as paths below it without the suffix."""
    return sorted(str(path.relative_to(f"{TOP}/{folder}")).removesuffix(suffix) for path in Path(TOP, folder).rglob(f"*{suffix}"))


def words_in_code(text: str) -> list[str]:
    return re.findall(r"`([^`\n]+)`", text)


def crates() -> list[str]:
    lines = (line.split("#")[0] for line in text_of("crates.txt").splitlines())
    return [line.split(":")[0].split()[0] for line in lines if ":" in line]


def specs_of(crate: str) -> list[str]:
    return [name.replace("/", ".") for name in files_below(f"crates/{crate}/specs", ".antt") if name != "Lib"]


def anchor(heading: str) -> str:
    return re.sub(r"[^\w\- ]", "", heading.strip().lower()).replace(" ", "-")


def links(page: str) -> Iterator[str]:
    """Links to files and headings that aren't there."""
    text = re.sub(r"```.*?```", "", text_of(page), flags=re.DOTALL)
    for link in re.findall(r"\]\(([^)]+)\)", text):
        if "://" in link:
            continue
        path, _, heading = link.partition("#")
        target = os.path.normpath(f"{os.path.dirname(page)}/{path}") if path else page
        if not os.path.exists(f"{TOP}/{target}"):
            yield f"no such file: {link}"
        elif heading and heading not in map(anchor, re.findall(r"^#+ (.*)$", text_of(target), re.MULTILINE)):
            yield f"no such heading: {link}"


def calling() -> Iterator[str]:
    """Lines of quoted code that aren't in the sources of the callers."""
    def lines(text: str) -> list[str]:
        return [" ".join(line.split()) for line in text.splitlines() if line.strip()]

    there = {line for name in files_below("crates/test_callers/src", ".rt") for line in lines(text_of(f"crates/test_callers/src/{name}.rt"))}
    for block in re.findall(r"```rust\n(.*?)```", text_of("docs/proof/CALLING.md"), re.DOTALL):
        for line in lines(block):
            if line not in there:
                yield f"CALLING quotes a line that test_callers lacks: {line}"


def first_sentences() -> dict[str, str]:
    """Returns what docs/files prints of each file of a crate."""
    said = subprocess.run([f"{TOP}/docs/files"], capture_output=True, encoding="utf-8", check=True).stdout
    sentences: dict[str, str] = {}
    crate = ""
    for line in said.splitlines():
        if line.startswith(" "):
            name, _, sentence = line.strip().partition(" ")
            sentences[f"{crate}/{name}"] = sentence.strip()
        else:
            crate = line
    return sentences


def files() -> Iterator[str]:
    """Files of crates that don't begin with a sentence on what they are."""
    sentences = first_sentences()
    for crate in crates():
        names = [f"src/{name}.rt" for name in files_below(f"crates/{crate}/src", ".rt")]
        names += [f"specs/{name}.antt" for name in files_below(f"crates/{crate}/specs", ".antt") if name != "Lib"]
        for name in names:
            if len(sentences.get(f"{crate}/{name}", "").split()) < 2:
                yield f"crates/{crate}/{name} doesn't begin with a sentence on what it is"


def contracts() -> Iterator[str]:
    """Functions that a library exports but docs/contracts doesn't print with a clause."""
    said = subprocess.run([f"{TOP}/docs/contracts"], capture_output=True, encoding="utf-8", check=True).stdout
    printed = set(re.findall(r"^(\w+)/.*?(?:: )?(\w+)\n    (?:requires|ensures)", said, re.MULTILINE))
    for crate in crates():
        lib = f"crates/{crate}/src/lib.rt"
        if not os.path.exists(f"{TOP}/{lib}") or crate.startswith("test_"):
            continue
        for names in re.findall(r"^pub use [\w:]+::\{([^}]*)\}|^pub use [\w:]+::([a-z_]+);", text_of(lib), re.MULTILINE):
            for name in re.findall(r"\b[a-z_0-9]+\b", " ".join(names)):
                if (crate, name) not in printed and name not in WITHOUT_CLAUSE and re.search(rf"^pub fn {name}\b", sources_of(crate), re.MULTILINE):
                    yield f"docs/contracts has no clause of {crate}'s {name}"


def sources_of(crate: str) -> str:
    return "\n".join(text_of(f"crates/{crate}/src/{name}.rt") for name in files_below(f"crates/{crate}/src", ".rt"))


def architecture() -> Iterator[str]:
    """Crates that ARCHITECTURE's picture lacks, and crates and files that it names but aren't there."""
    text = text_of("docs/ARCHITECTURE.md")
    picture = re.search(r"^    Libraries\n(?:(?:    .*)?\n)+", text, re.MULTILINE)
    pictured = re.findall(r"^    ([a-z]\w*)  ", picture[0] if picture else "", re.MULTILINE)
    yield from (f"ARCHITECTURE's picture lacks the crate {crate}" for crate in {*crates()} - {*pictured})
    yield from (f"ARCHITECTURE's picture has a crate that isn't there: {crate}" for crate in {*pictured} - {*crates()})
    for word in words_in_code(text):
        folder, slash, name = word.partition("/")
        if slash and folder in crates():
            place = f"{TOP}/crates/{folder}/src/{name}"
        elif slash and os.path.isdir(f"{TOP}/{folder}"):
            place = f"{TOP}/{word.split()[0]}"
        else:
            continue
        if not os.path.exists(place) and not os.path.exists(f"{place}.rt"):
            yield f"ARCHITECTURE names {word}, which isn't there"


def definitions() -> Iterator[str]:
    """Crates with definitions that DEFINITIONS has no place for."""
    lines = re.findall(r"^(`\w+`(?:, `\w+`)*)$", text_of("docs/proof/DEFINITIONS.md"), re.MULTILINE)
    there = {*words_in_code(" ".join(lines))}
    for crate in crates():
        if specs_of(crate) and not crate.startswith("test_") and crate not in there:
            yield f"DEFINITIONS has no place for {crate}"


def words(page: str) -> Iterator[str]:
    """Words in code that no source and no definition has."""
    there = {*crates()}
    for crate in crates():
        for folder, suffix in (("src", ".rt"), ("specs", ".antt")):
            for name in files_below(f"crates/{crate}/{folder}", suffix):
                there.add(name.split("/")[-1])
                there.update(re.findall(r"\w+", text_of(f"crates/{crate}/{folder}/{name}{suffix}")))
    for word in {*words_in_code(text_of(page))}:
        if re.fullmatch(r"[A-Za-z_]\w+", word) and word not in there:
            yield f"{page} names {word}, which isn't there"


# How each language's source has the names of EMBEDDING's table. C++ has those of Python.
RUST = ["bindings/rust/src/lib.rs", *(f"call/src/{name}.rs" for name in ("cache_key", "call", "plan", "schedule"))]
GO, PYTHON, CPP = ["bindings/go/zigrunk.go"], ["bindings/python/zigrunk/__init__.py"], ["bindings/cpp/zigrunk.hpp"]


def embedding() -> Iterator[str]:
    """Functions of libzigrunk that EMBEDDING's table lacks, and names of its columns that a language doesn't have."""
    table = re.search(r"^\| C \| Rust .*\n\|[-|]+\n((?:\|.*\n)+)", text_of("docs/EMBEDDING.md"), re.MULTILINE)
    rows = [[words_in_code(cell) for cell in line.split("|")[1:5]] for line in (table[1] if table else "").splitlines()]
    of_c = {f"zigrunk_schedule{name[2:]}" if name.startswith("..") else name for row in rows for name in row[0]}
    exports = {*re.findall(r"\b(zigrunk_\w+)\(", text_of("bindings/c/zigrunk.h"))} - {"zigrunk_free", "zigrunk_version", "zigrunk_abi_version"}
    yield from (f"EMBEDDING's table lacks {name}" for name in exports - of_c)
    yield from (f"EMBEDDING's table has {name}, which zigrunk.h lacks" for name in of_c - exports)
    for column, files_of in ((1, RUST), (2, GO), (3, PYTHON), (3, CPP)):
        text = "\n".join(map(text_of, files_of))
        # (where the page says that names are the same, C's begin with `zigrunk_`)
        for name in (name for row in rows for name in (row[column] or [name.removeprefix("zigrunk_") for name in row[0]])):
            if not re.search(rf"\b{name.split('::')[-1]}\b", text):
                yield f"EMBEDDING's table has {name}, which {files_of[0]} lacks"


# Those that zigrunk sets for itself, and the one of Python's layer.
NOT_IN_MANUALS = {"ZIGRUNK_IN_PLACE", "ZIGRUNK_INSIDE", "ZIGRUNK_LIBRARY", "ZIGRUNK_OBSERVED"}


def variables() -> Iterator[str]:
    """Variables that zigrunk knows and no page of the manual has an entry for."""
    known = re.search(r"^const VARIABLES: [^=]*= \[([^\]]*)\]", text_of("machine/src/settings.rs"), re.MULTILINE)
    entries = "\n".join(line for page in MANUALS for line in re.findall(r"^\.TP\n(.*)", text_of(page), re.MULTILINE))
    there = {*re.findall(r"\bZIGRUNK_\w+", entries.replace("\\fB", " ").replace("\\fR", " "))}
    there.add("ZIGRUNK_BATCH")
    names = {*re.findall(r"\w+", known[1] if known else "none")}
    yield from (f"no page of the manual has {name}" for name in names - there - NOT_IN_MANUALS)


def words_of(page: str) -> int:
    return len(text_of(page).split())


def lengths() -> Iterator[str]:
    """Pages that are too long, together or README alone."""
    for name, pages, most in MOST:
        if (count := sum(map(words_of, pages))) > most:
            yield f"{name} have {count} words, and {most} at most are wanted (tests/docs.py --words)"
    if (count := len(text_of("README.md").splitlines())) > MOST_LINES:
        yield f"README.md has {count} lines, and {MOST_LINES} at most are wanted"


# The crates whose laws have premises of what programs do, or of what order they run in.
WITH_PREMISES = ("command_files", "early_starts", "call_tasks", "schedule_orders")


def statements(crate: str) -> dict[str, str]:
    """Returns what each name in a crate's specs stands for, without comments."""
    found: dict[str, str] = {}
    for name in files_below(f"crates/{crate}/specs", ".antt"):
        text = re.sub(r"^ *--.*$", "", text_of(f"crates/{crate}/specs/{name}.antt"), flags=re.MULTILINE)
        for one in re.finditer(r"^(?:abbrev )?pub (?:record |data )?(\w+)[^\n]*\n(?:\1([^=\n]*)=([\s\S]*?)(?=^\S|\Z))?", text, re.MULTILINE):
            found[one[1]] = one[3] or ""
    return found


def at_arrows(text: str) -> list[str]:
    """Cuts a statement at its own arrows, those in brackets aside."""
    parts, depth = [""], 0
    for character in text:
        depth += (character in "([{") - (character in ")]}")
        if character == "→" and not depth:
            parts.append("")
        else:
            parts[-1] += character
    return parts


def premise(text: str, known: dict[str, str]) -> set[str]:
    """Returns the first known name in a part of a statement, if it isn't about variables alone."""
    text = text.strip()
    while group := re.match(r"\(\s*[\w ]+ :(?:[^()]|\([^()]*\))*\)\s*", text):
        text = text[group.end():]
    if text.startswith("(") and text.endswith(")"):
        return premise(at_arrows(text[1:-1])[-1], known)
    return {*[word for word in re.findall(r"(?<![\w.])\w+(?![\w.])", text) if word in known][:1]}


def premises_of(name: str, known: dict[str, str]) -> set[str]:
    """Returns the named premises of a statement. One of all histories has those that it names first, too."""
    text = known.get(name, "").strip()
    inner = re.match(r"(\w+) \(λ [^.]*\.([\s\S]*)\)$", text)
    of_all = premises_of(inner[1], known) if inner and inner[1] in known else set[str]()
    return of_all.union(*(premise(part, known) for part in at_arrows(inner[2] if of_all and inner else text)[:-1]))


def premises() -> Iterator[str]:
    """Laws whose row in GUARANTEES' table lacks a premise that their statement names, or has another."""
    known = {name: text for crate in crates() for name, text in statements(crate).items()}
    table = re.findall(r"^\| `([\w:]+)` \| (.*) \|$", text_of("docs/proof/GUARANTEES.md"), re.MULTILINE)
    rows = {law: {*words_in_code(names)} for law, names in table}
    for crate in WITH_PREMISES:
        own = statements(crate)
        for name in files_below(f"crates/{crate}/src", "laws.rt"):
            for law, clauses in re.findall(r"^pub fn (\w+)\(\)\n((?:    ensures .*\n)+)", text_of(f"crates/{crate}/src/{name}laws.rt"), re.MULTILINE):
                said, place = re.findall(r"\{ (?:\w+\.)?(\w+)", clauses), f"{crate}::{name}laws::{law}"
                wanted = set[str]().union(*(premises_of(one, {**known, **own}) for one in said))
                if not law.startswith("worked") and not law.endswith("_need") and wanted != rows.get(place, set()):
                    yield f"GUARANTEES' row of {place} isn't {sorted(wanted)}"


def needed() -> Iterator[str]:
    """Premises of the law on what the driver starts without a clause that says that the law is false without them."""
    text = text_of("docs/proof/GUARANTEES.md")
    laws = "\n".join(text_of(f"crates/{crate}/src/laws.rt") for crate in ("call_tasks", "schedule_orders"))
    clauses = {f"{law}::{clause}" for law, body in re.findall(r"^pub fn (\w+_need)\(\)\n((?:    ensures .*\n)+)", laws, re.MULTILINE)
               for clause in re.findall(r"ensures (\w+) ", body)}
    rows = {name: clause for names, clause in re.findall(r"^\| (`.*`) \| `(\w+::\w+)` \|.*\|$", text, re.MULTILINE) for name in words_in_code(names)}
    wanted = re.search(r"^\| `call_tasks::laws::parts` \| (.*) \|$", text, re.MULTILINE)
    for name in words_in_code(wanted[1] if wanted else ""):
        if rows.get(name) not in clauses:
            yield f"GUARANTEES names no clause by which {name} is needed, but {rows.get(name)}"
    yield from (f"GUARANTEES' table lacks {clause}" for clause in clauses - {*rows.values()})


def proved_lines() -> Iterator[str]:
    """Counts of lines in DECISIONS that the crates' folders have outgrown, by more than one in a hundred."""
    said = re.search(r"Proved are ([\d,]+) lines of code, ([\d,]+) of definitions, ([\d,]+) of proofs", text_of("docs/DECISIONS.md"))
    for number, folder in enumerate(("src", "specs", "proofs"), 1):
        count = sum(path.read_text(encoding="utf-8").count("\n") for path in Path(TOP).glob(f"crates/*/{folder}/**/*") if path.is_file())
        if abs(count - int(said[number].replace(",", "") if said else 0)) > count / 100:
            yield f"DECISIONS' lines of {folder} aren't {count:,}"


def print_words() -> int:
    for page in [*READ, *MANUALS]:
        print(f"{words_of(page):6} {page}")
    for name, pages, most in MOST:
        print(f"{sum(map(words_of, pages)):6} {name}, of {most}")
    return 1 if [*lengths()] else 0


def check_links(folder: str) -> int:
    """Checks the links of the pages below a folder, those of other projects aside. At least one page has to be there."""
    counts = Counts()
    pages = [os.path.relpath(page, TOP) for page in glob.glob(f"{folder}/**/*.md", recursive=True) if "/vendor/" not in page]
    counts.case("pages", [] if pages else [f"{folder} has none"])
    for page in sorted(pages):
        counts.case(page, sorted({*links(page)}))
    return counts.summary()


def commands(page: str) -> Iterator[str]:
    """Goals of make and scripts that the page has and the repository lacks."""
    text = text_of(page)
    code = "\n".join([*re.findall(r"```.*?```", text, re.DOTALL), *re.findall(r"^    .*$", text, re.MULTILINE), *words_in_code(text)])
    goals = {goal for line in re.findall(r"^\.PHONY: (.*)$", text_of("Makefile"), re.MULTILINE) for goal in line.split()}
    goals |= {*re.findall(r"^([a-z-]+) +nightly ", text_of("tests/parts.txt"), re.MULTILINE)}
    yield from (f"no such goal: make {goal}" for goal in re.findall(r"\bmake ([a-z][a-z-]+)\b", code) if goal not in goals | {"gcc"})
    for script in re.findall(r"(?<![\w./])((?:tests|examples|packaging|bindings|demo)/[\w./-]*\w)", code):
        if "/out/" not in script and not os.path.exists(f"{TOP}/{script}"):
            yield f"no such file: {script}"


def version() -> Iterator[str]:
    """Places whose version isn't that of VERSION."""
    number = text_of("VERSION").strip()
    places = {"CHANGELOG.md": f"## [{number}]", "driver/Cargo.toml": f'version = "{number}"',
              **{f"man/{name}": f'"zigrunk {number}"' for name in os.listdir(f"{TOP}/man")}}
    yield from (f"{place} lacks {text!r}" for place, text in places.items() if text not in text_of(place))


def main() -> int:
    checks: list[tuple[str, Iterable[str]]] = [(page, links(page)) for page in PAGES]
    checks += [(page, commands(page)) for page in READ]
    checks += [("", check()) for check in (calling, files, contracts, architecture, definitions, embedding, variables, premises, needed, lengths,
                                           proved_lines, version)]
    checks += [("", words(page)) for page in ("docs/proof/DEFINITIONS.md", "docs/proof/GUARANTEES.md")]
    counts = Counts()
    for name, findings in checks:
        counts.case(name, sorted({*findings}))
    return counts.summary()


if __name__ == "__main__":
    sys.exit(print_words() if sys.argv[1:] == ["--words"] else check_links(sys.argv[2]) if sys.argv[1:2] == ["--links"] else main())
