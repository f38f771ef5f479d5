#!/usr/bin/env python3
"""Lists where each rule of one call stands, from its words to its plan, and fails unless it is one place.

Usage: tests/rules_once.py        prints the rules, and last 'N passed, M failed'

A row of RULES has a rule, the file that it belongs to, and a pattern that code with the rule needs: a name, a text or a number of it. The
pattern has to match that file and no other of the proved crates, of `call`, `capi`, the driver and the layers. Comments and tests don't count."""

import re
import sys
from pathlib import Path
from typing import Dict, List, NamedTuple

TOP = Path(__file__).resolve().parent.parent
CODE = ("crates/*/src/**/*.rt", "call/src/**/*.rs", "capi/src/**/*.rs",
        *(f"{crate}/src/**/*.rs" for crate in ("unix", "machine", "cache", "provenance", "runner", "report", "batch", "driver")),
        "bindings/rust/src/**/*.rs", "bindings/cpp/*.hpp", "bindings/go/*.go", "bindings/python/zigrunk/*.py")


class Rule(NamedTuple):
    """A rule, the file that has it, and what code with it needs."""

    name: str
    place: str
    pattern: str


RULES = [
    # from words to an outline
    Rule("what nvcc's options are, and which take values", "crates/nvcc_calls/src/options.rt", r'"--dependency-drive-prefix"|"-ddp"'),
    Rule("which extension the product of a phase has", "crates/nvcc_calls/src/settling.rt", r"fn extension_of_phase\b|\"optixir\""),
    Rule("which files of options a line names", "crates/nvcc_calls/src/verdict.rt", r"fn file_names\b"),
    Rule("which lines go to nvcc, and why", "crates/nvcc_calls/src/reason.rt", r"it links"),
    Rule("why else nvcc makes a call", "call/src/error/reason.rs", r"nvcc reads the line otherwise"),
    Rule("how a refusal of the line is said", "call/src/error.rs", r"goes to nvcc: "),
    Rule("how many jobs a line has", "crates/nvcc_calls/src/outline.rt", r"fn number_of_jobs\b"),
    Rule("what the directory of a call is called", "crates/nvcc_calls/src/directory.rt", r"Sha256::digest"),
    Rule("which words dry runs have", "crates/host_lines/src/nvcc/command.rt", r"fn dryrun_commands\b"),
    Rule("which variables of flags a dry run lacks", "call/src/nvcc_line.rs", r"const FLAG_VARIABLES\b"),
    # dry runs
    Rule("what is a dry run", "crates/dry_runs/src/lines.rt", r"fn is_dry_run\b"),
    Rule("whether a line's dry run has a plan's commands", "crates/dry_run_pairs/src/agreement.rt", r"pub fn agree\b"),
    Rule("whether two dry runs are one call's", "call/src/pairs.rs", r"Unfit::Differ\)"),
    Rule("which names in a dry run are temporary", "crates/dry_run_pairs/src/names.rt", r"tmpxft"),
    Rule("how a dry run that fails by threads is told", "crates/dry_run_pairs/src/remarks.rt", r"fn fails_by_threads\b"),
    Rule("how commands that run side by side are told", "crates/dry_run_pairs/src/forms.rt", r"_stdout 2>"),
    Rule("what nvcc warns of a line", "crates/dry_run_pairs/src/remarks.rt", r"fn remarks_in\b"),
    Rule("how much a dry run that nvcc made may expand to", "call/src/call.rs", r"1 << 28"),
    # look-ups
    Rule("which paths a look-up tries", "crates/dry_runs/src/search_path.rt", r"fn candidates\([^)]*alloc"),
    Rule("which look-ups a plan needs", "crates/dry_runs/src/asking.rt", r"fn lookups_of_runs\b"),
    # plans
    Rule("which directories have one text", "crates/canonical_names/src/directory.rt", r"pub fn is_plain\b"),
    Rule("whether a plan can be run", "crates/plan_fitness/src/plan_to_run.rt", r"pub fn fitness\b"),
    Rule("whether a plan's source is the call's", "call/src/fitness.rs", r"Err\(unfit\(Unfit::OtherSource"),
    Rule("what a command reads and writes", "crates/command_files/src/files.rt", r"fn (cicc|fatbinary|host)_files\b"),
    Rule("which targets an image has", "call/src/plan.rs", r"--image3=kind="),
    # caches
    Rule("which words a cache trusts", "crates/command_keys/src/known_words.rt", r'"-tused"'),
    Rule("which variables count in a key", "crates/command_keys/src/environment.rt", r"pub fn tool_variables\b"),
    Rule("how many roots a key has", "crates/command_keys/src/keys.rt", r"const MOST_ROOTS\b"),
    # schedules
    Rule("which command starts next", "crates/schedules/src/chains.rt", r"pub fn chain_weights\b"),
    Rule("how long commands of a kind take", "crates/schedules/src/kinds.rt", r"fn usual_weight\b"),
    # texts
    Rule("which formats there are", "call/src/formats.rs", r'=> "compdb"'),
    Rule("how an edge of Ninja is described", "crates/plan_texts/src/description.rt", r"fn target_in\b"),
    Rule("which directory a script makes", "crates/plan_texts/src/shell.rt", r"mkdir -p"),
]


def code_of(path: Path) -> str:
    """The code of a file, without comments that begin a line, and without its tests."""
    text = path.read_text(encoding="utf-8")
    text = re.split(r"^#\[cfg\(test\)\]\nmod tests", text, maxsplit=1, flags=re.MULTILINE)[0]
    return re.sub(r"^\s*(//|#(?!\[)|ghost ).*$", "", text, flags=re.MULTILINE)


def tested_alone(name: str, texts: Dict[str, str]) -> bool:
    """Whether a file is a module that only tests have."""
    above = texts.get(str(Path(name).parent / "lib.rs"), texts.get(str(Path(name).parent / "mod.rs"), ""))
    return Path(name).stem == "tests" or bool(re.search(rf"#\[cfg\(test\)\]\nmod {Path(name).stem};", above))


def sources() -> Dict[str, str]:
    found = {str(path.relative_to(TOP)): code_of(path) for pattern in CODE for path in sorted(TOP.glob(pattern))}
    return {name: text for name, text in found.items() if not tested_alone(name, found) and "/test_callers/" not in name}


def places_of(rule: Rule, texts: Dict[str, str]) -> List[str]:
    return [name for name, text in texts.items() if re.search(rule.pattern, text)]


def main() -> int:
    texts, failed = sources(), 0
    for rule in RULES:
        places = places_of(rule, texts)
        if places == [rule.place]:
            print(f"{rule.name}: {rule.place}")
        else:
            failed += 1
            print(f"{rule.name}: {', '.join(places) or 'nowhere'}, and it belongs to {rule.place} alone")
    print(f"{len(RULES) - failed} passed, {failed} failed")
    return 1 if failed else 0


if __name__ == "__main__":
    sys.exit(main())
