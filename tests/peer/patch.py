#!/usr/bin/env python3
"""Lets sccache's sources plan, and read cicc's, ptxas's and cudafe++'s lines, by the crate zigrunk. This file has names of sccache's, and no text.

    tests/peer/patch.py TREE            adds a test to the tree: zigrunk_check.rs
    tests/peer/patch.py TREE CRATE      replaces the planner and the readers too; CRATE is the folder of the crate, as out/rust/zigrunk

It finds each function by its name, replaces the bodies of one planner and three readers by calls of the modules beside this file, and deletes
what only those used. If a name isn't there, the status is 1 and a message has the name; then no file has changed."""
import re
import shutil
import sys
from pathlib import Path

HERE = Path(__file__).resolve().parent
PLANNER = "group_nvcc_subcommands_by_compilation_stage"
PARAMETERS = ["executable", "arguments", "compilation_flag", "cwd", "tmp", "keep_dir", "env_vars", "host_compiler"]
ONLY_THE_PLANNER = ["select_nvcc_subcommands", "select_valid_dryrun_lines", "fold_env_vars_or_split_into_exe_and_args", "remap_generated_filenames"]
READERS = {"cicc": ("Cicc", "Ptx"), "ptxas": ("Ptxas", "Cubin"), "cudafe": ("CudaFe", "CudaFE")}


class Source:
    """A file of the tree, and its text with what was edited so far."""

    def __init__(self, path: Path) -> None:
        self.path = path
        self.text = path.read_text()

    def find(self, pattern: str, name: str) -> re.Match[str]:
        """The first match of a pattern. `name` is for the message if there is none."""
        found = re.search(pattern, self.text, re.MULTILINE | re.DOTALL)
        return found or sys.exit(f"patch.py: {self.path.name} has no {name}")

    def function(self, name: str, indent: str = "") -> re.Match[str]:
        """A function, with its attributes: `head` ends before its body, and `parameters` has their names."""
        head = rf"(?P<head>(?:^{indent}#\[[^\n]*\]\n)*^{indent}(?:pub )?(?:async )?fn {name}\b[^;{{]*)"
        return self.find(rf"{head}\{{\n.*?^{indent}\}}\n\n?", f"function {name}")

    def replace_body(self, function: re.Match[str], statement: str, indent: str = "") -> None:
        body = f"{{\n{indent}    {statement}\n{indent}}}\n\n"
        self.text = self.text[: function.start()] + function["head"] + body + self.text[function.end():]

    def remove(self, found: re.Match[str]) -> int:
        """Deletes what was found, and returns how many lines that were."""
        self.text = self.text[: found.start()] + self.text[found.end():]
        return found[0].count("\n")

    def insert(self, behind: str, name: str, line: str) -> None:
        end = self.find(behind, name).end()
        self.text = self.text[:end] + line + self.text[end:]


def edit_planner(nvcc: Source) -> int:
    """Lets the crate plan. Returns how many lines went."""
    planner = nvcc.function(PLANNER)
    names = re.findall(r"^    (\w+):", planner["head"], re.MULTILINE)
    if lacking := [name for name in ["creator", *PARAMETERS] if name not in names]:
        sys.exit(f"patch.py: {PLANNER} has no parameter {lacking[0]}")
    before = nvcc.text.count("\n")
    nvcc.replace_body(planner, f"super::zigrunk_plan::NvccCall {{ {', '.join(PARAMETERS)} }}.groups(creator).await")
    for name in ONLY_THE_PLANNER:
        nvcc.remove(nvcc.function(name))
    return before - nvcc.text.count("\n")


def edit_reader(source: Source, tool: str, language: str) -> int:
    """Lets the crate read a tool's lines. Returns how many lines went."""
    before = source.text.count("\n")
    read = f"super::zigrunk_lines::read(zigrunk::Tool::{tool}, Language::{language}, arguments, cwd)"
    source.replace_body(source.function("parse_arguments", "    "), read, "    ")
    if tool == "Cicc":
        source.remove(source.function("parse_arguments"))
        source.remove(source.find(r"^ArgData! \{.*?^\}\n\n?", "ArgData"))
    source.remove(source.find(r"^use (?:self|cicc)::ArgData::\*;\n\n?", "use of ArgData"))
    source.remove(source.find(r"^counted_array!\(pub static ARGS\b.*?^\]\);\n", "table ARGS"))
    return before - source.text.count("\n")


def main(words: list[str]) -> int:
    if len(words) not in (1, 2):
        print(__doc__, file=sys.stderr)
        return 2
    tree = Path(words[0])
    compiler = tree / "src/compiler"
    nvcc = Source(compiler / "nvcc.rs")
    edited, modules = [nvcc], []
    if words[1:]:
        removed = edit_planner(nvcc)
        for name, (tool, language) in READERS.items():
            edited.append(Source(compiler / f"{name}.rs"))
            removed += edit_reader(edited[-1], tool, language)
        modules = ["zigrunk_lines", "zigrunk_plan"]
        listed, manifest = Source(compiler / "mod.rs"), Source(tree / "Cargo.toml")
        listed.text += "".join(f"mod {name};\n" for name in modules)
        manifest.insert(r"^\[dependencies\]\n", "[dependencies]", f'zigrunk = {{ path = "{Path(words[1]).resolve()}" }}\n')
        edited += [listed, manifest]
        print(f"{removed} lines of sccache's went")
    nvcc.function(PLANNER)
    nvcc.text += "\n#[cfg(test)]\nmod zigrunk_check;\n"
    for source in edited:
        source.path.write_text(source.text)
    for name in modules:
        shutil.copy(HERE / f"{name}.rs", compiler)
    (compiler / "nvcc").mkdir(exist_ok=True)
    shutil.copy(HERE / "zigrunk_check.rs", compiler / "nvcc")
    return 0


if __name__ == "__main__":
    sys.exit(main(sys.argv[1:]))
