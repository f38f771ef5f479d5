#!/usr/bin/env python3
"""Makes calls of nvcc with ZIGRUNK_PROVENANCE, and checks their statements, and that zigrunk audit finds each byte that changes.

    tests/provenance.py [--rounds N] [--traces N] [--seed N] [--nvcc FILE] ZIGRUNK

The toolkit's programs are copies, and the host compiler of one call is a script. Each statement has to pass the schemas of tests/provenance, which
say in our words what in-toto and SLSA publish, and to have all files of gcc's own list. A build that nobody touches has no finding. In each round
one byte of some products, tools, sources and headers is changed, by lot from the seed: each such file has to be found in each statement that has
it, and no other. What strace shows so many calls to read has to be in their statements, but for what provenance/src/trace.rs leaves out; a
statement from which a file was deleted has that as a finding. The last line is 'N passed, M failed'.
"""
import argparse
import json
import os
import random
import shutil
import subprocess
import sys
import tempfile
from concurrent.futures import ThreadPoolExecutor
from pathlib import Path
from typing import Any
from urllib.parse import unquote

from runner import Counts, skip_all

try:
    import jsonschema
except ImportError:
    sys.exit(skip_all("provenance", "python3-jsonschema isn't installed"))

SCHEMAS = Path(__file__).resolve().parent / "provenance"
Statement = dict[str, Any]

SOURCES = {
    "inc/shape.h": "#pragma once\n#include \"deep/size.h\"\nstruct Shape { int size = SIZE; };\nint area(Shape);\n",
    "inc/deep/size.h": "#pragma once\n#define SIZE 3\n",
    "inc/device only.cuh": "#ifdef __CUDA_ARCH__\n__device__ int only() { return 1; }\n#else\n__device__ int only();\n#endif\n",
    "src/a b.cu": "#include \"shape.h\"\n#include \"device only.cuh\"\n__global__ void fill(int* to) { *to = SIZE + only(); }\n"
                  "int main() { fill<<<1, 1>>>(nullptr); return area(Shape()); }\n",
    "src/host.cpp": "#include \"shape.h\"\nint area(Shape shape) { return shape.size * shape.size; }\n",
    "wrapped/g++": "#!/bin/sh\nexec /usr/bin/g++ \"$@\"\n",
}
# The product of each call, and its words. The last one links what others have made.
CALLS = {
    "a.o": "-c src/a_b.cu -o out/a.o",
    "dc.o": "-dc src/a_b.cu -o out/dc.o",
    "a.ptx": "-ptx src/a_b.cu -o out/a.ptx",
    "a.fatbin": "-fatbin src/a_b.cu -o out/a.fatbin",
    "two.o": "-gencode arch=compute_80,code=sm_80 -gencode arch=compute_90,code=sm_90 -c src/a_b.cu -o out/two.o",
    "rule.o": "-MD -lineinfo -c src/a_b.cu -o out/rule.o",
    "host.o": "-c src/host.cpp -o out/host.o",
    "script.o": "-ccbin wrapped/g++ -c src/a_b.cu -o out/script.o",
    "program": "out/a.o out/host.o -o out/program",
}


def words_of(line: str) -> "list[str]":
    """A line's words. The source has a blank in its name."""
    return ["-Iinc", *(word.replace("a_b", "a b") for word in line.split())]


def path_of(file: "dict[str, Any]") -> str:
    """The path of a file in a statement."""
    return unquote(file["uri"].removeprefix("file://"))


def files_of(statement: Statement) -> "set[str]":
    """All files of a statement: products, tools and what was read."""
    definition = statement["predicate"]["buildDefinition"]
    tools = [command["tool"] for command in definition["internalParameters"]["commands"]]
    return {path_of(file) for file in statement["subject"] + tools + definition["resolvedDependencies"]}


def copied_toolkit(nvcc: Path, top: Path) -> Path:
    """A toolkit whose programs are copies, and whose other folders are links. Says where its nvcc is."""
    real = nvcc.parent.parent
    for name in os.listdir(real):
        if name not in ("bin", "nvvm"):
            (top / name).symlink_to(real / name)
    shutil.copytree(real / "bin", top / "bin")
    (top / "nvvm").mkdir()
    shutil.copytree(real / "nvvm/bin", top / "nvvm/bin")
    (top / "nvvm/libdevice").symlink_to(real / "nvvm/libdevice")
    return top / "bin/nvcc"


class Project:
    """A project whose calls are made with statements."""

    def __init__(self, zigrunk: str, nvcc: Path, top: Path) -> None:
        self.zigrunk, self.top, self.statements = zigrunk, top, top / "statements"
        (top / "toolkit").mkdir(parents=True)
        (top / "out").mkdir()
        for name, text in SOURCES.items():
            (top / name).parent.mkdir(parents=True, exist_ok=True)
            (top / name).write_text(text)
        (top / "wrapped/g++").chmod(0o755)
        copy = copied_toolkit(nvcc, top / "toolkit")
        kept = {name: value for name, value in os.environ.items() if not name.startswith(("ZIGRUNK", "NVCC"))}
        self.environment = {**kept, "ZIGRUNK_NVCC": str(copy), "ZIGRUNK_PROVENANCE": str(self.statements)}

    def run(self, *words: str) -> "tuple[int, str]":
        """The status of a call of zigrunk, and what it says."""
        ran = subprocess.run([self.zigrunk, *words], cwd=self.top, env=self.environment, stdout=subprocess.PIPE, stderr=subprocess.STDOUT,
                             check=False)
        return ran.returncode, ran.stdout.decode(errors="replace")

    def make(self) -> "list[str]":
        """Makes all calls, the last one when the others have ended. Says what is wrong with them."""
        *before, last = CALLS.values()
        with ThreadPoolExecutor(os.cpu_count()) as pool:
            made = [*pool.map(lambda line: self.run("nvcc", *words_of(line)), before)]
        made.append(self.run("nvcc", *words_of(last)))
        return [f"status {status}: {said}" for status, said in made if status or said]

    def read(self) -> "dict[str, Statement]":
        """The statements, by their files."""
        return {str(file): json.loads(file.read_text()) for file in sorted(self.statements.glob("*.json"))}

    def audit(self, *words: str) -> "tuple[int, set[tuple[str, str]]]":
        """What zigrunk audit says of files, and its status: the statement's file and the finding."""
        status, said = self.run("audit", *words)
        *found, last = said.splitlines()
        assert last.endswith(f"checked, {len(found)} findings"), said
        return status, {(file, finding) for file, _, finding in (line.partition(": ") for line in found)}


def schema_findings(statement: Statement) -> "list[str]":
    """What a statement has that in-toto, SLSA or our build type don't allow."""
    found = []
    for name, part in (("statement", statement), ("provenance", statement["predicate"])):
        schema = json.loads((SCHEMAS / f"{name}.schema.json").read_text())
        jsonschema.Draft202012Validator.check_schema(schema)
        errors = jsonschema.Draft202012Validator(schema).iter_errors(part)
        found += [f"{'/'.join(map(str, error.absolute_path))}: {error.message}"[:300] for error in errors]
    times = statement["predicate"]["runDetails"]["metadata"]
    return found + ["it ended before it began"] * (times["startedOn"] > times["finishedOn"])


def lacking(project: Project, statement: Statement) -> "list[str]":
    """The files of gcc's own list that a statement lacks."""
    rule = (project.top / "out/rule.d").read_text().replace("\\\n", " ").replace("\\ ", "\0").split(":", 1)[1]
    listed = {os.path.realpath(project.top / name.replace("\0", " ")) for name in rule.split()}
    known = {os.path.realpath(file) for file in files_of(statement)}
    return sorted(f"it lacks {file}" for file in listed - known) + ["the list is empty"] * (len(listed) < 50)


def change(file: Path, lot: random.Random) -> None:
    """Changes one byte of a file."""
    with open(file, "r+b") as text:
        place = lot.randrange(file.stat().st_size)
        text.seek(place)
        byte = text.read(1)[0]
        text.seek(place)
        text.write(bytes([byte ^ lot.randint(1, 255)]))


def round_findings(project: Project, statements: "dict[str, Statement]", lot: random.Random) -> "list[str]":
    """What is wrong with an audit after one byte of some files has changed, and after they are as they were."""
    own = str(project.top) + os.sep
    real = {file: {os.path.realpath(path) for path in files_of(statement)} for file, statement in statements.items()}
    everything = sorted({path for files in real.values() for path in files if path.startswith(own)})
    kinds = {"tool": own + "toolkit", "product": own + "out", "source": own + "src", "header": own + "inc"}
    chosen = {lot.choice([path for path in everything if path.startswith(begin)]) for begin in kinds.values()}
    with tempfile.TemporaryDirectory() as room:
        for number, path in enumerate(chosen):
            shutil.copy2(path, f"{room}/{number}")
            change(Path(path), lot)
        status, found = project.audit(*statements)
        for number, path in enumerate(chosen):
            shutil.copy2(f"{room}/{number}", path)
    wanted = {(file, path) for file, files in real.items() for path in chosen & files}
    said = {(file, os.path.realpath(finding.split(" ", 2)[2].removesuffix(" has changed"))) for file, finding in found
            if finding.endswith(" has changed")}
    problems = [f"{path} is not found in {file}" for file, path in sorted(wanted - said)]
    problems += [f"{path} is found in {file}, and did not change" for file, path in sorted(said - wanted)]
    return problems + [f"other findings: {found}"] * (len(found) < len(said)) + ["status 0"] * (status == 0)


def trace_findings(project: Project, file: str, statement: Statement, lot: random.Random) -> "list[str]":
    """What strace shows of a call's commands that its statement lacks, and whether a file is missed that was deleted from it."""
    status, found = project.audit("--trace", file)
    problems = [finding for _, finding in sorted(found)] + [f"status {status}"] * (status != 0)
    read = statement["predicate"]["buildDefinition"]["resolvedDependencies"]
    own = [number for number, one in enumerate(read) if path_of(one).startswith(f"{project.top}/") and "/toolkit/" not in path_of(one)]
    deleted = read.pop(lot.choice(own))
    part = project.top / "part.json"
    part.write_text(json.dumps(statement))
    status, found = project.audit("--trace", str(part))
    wanted = f"a command reads {os.path.realpath(path_of(deleted))}, which is not in the statement"
    return problems + [f"without {path_of(deleted)} it says {found}"] * (status != 1 or {finding for _, finding in found} != {wanted})


def database_findings(project: Project) -> "list[str]":
    """What is wrong with an audit of all calls, and of one that wasn't made with a statement."""
    extra = {**CALLS, "other.o": "-c src/host.cpp -o out/other.o"}
    entries = [{"directory": str(project.top), "file": name, "arguments": ["nvcc", *words_of(line)]} for name, line in extra.items()]
    database = project.top / "compile_commands.json"
    database.write_text(json.dumps(entries))
    status, found = project.audit("--compile-commands", str(database), str(project.statements))
    wanted = {("other.o", f"no statement is about the product {project.top}/out/other.o")}
    return [f"status {status}, {found}"] * (status != 1 or found != wanted)


def main() -> int:
    """Runs the trial."""
    parser = argparse.ArgumentParser(usage=__doc__)
    parser.add_argument("driver")
    parser.add_argument("--rounds", type=int, default=3)
    parser.add_argument("--traces", type=int, default=2)
    parser.add_argument("--seed", default="statements")
    parser.add_argument("--nvcc", default=shutil.which("nvcc"))
    args = parser.parse_args()
    if args.nvcc is None:
        return skip_all("provenance", "nvcc is not on the path")
    said = subprocess.run([args.nvcc, "--dryrun", "-c", "x.cu"], stdout=subprocess.PIPE, stderr=subprocess.STDOUT, check=False).stdout.decode()
    real = next(line.split("=", 1)[1] for line in said.splitlines() if line.startswith("#$ _HERE_="))
    lot, counts = random.Random(args.seed), Counts()
    with tempfile.TemporaryDirectory(prefix="provenance.") as room:
        project = Project(os.path.abspath(args.driver), Path(real) / "nvcc", Path(os.path.realpath(room)) / "project")
        counts.case("the calls", project.make())
        statements = project.read()
        products = {path_of(statement["subject"][0]) for statement in statements.values()}
        wanted = {f"{project.top}/out/{name}" for name in [*CALLS, "rule.d"]}
        counts.case("products with a statement", [f"{sorted(products ^ wanted)}"] * (products != wanted))
        for file, statement in statements.items():
            counts.case(f"the schemas, {os.path.basename(file)}", schema_findings(statement))
        by_product = {os.path.basename(path_of(statement["subject"][0])): file for file, statement in statements.items()}
        counts.case("gcc's list", lacking(project, statements[by_product["rule.o"]]))
        status, found = project.audit(*statements)
        counts.case("an untouched build", [f"status {status}, {found}"] * (status != 0 or bool(found)))
        counts.case("a list of calls", database_findings(project))
        for number in range(args.rounds):
            counts.case(f"round {number}, seed {args.seed}", round_findings(project, statements, lot))
        if shutil.which("strace") is None:
            print("traces: skipped, strace is not on the path")
        else:
            for name in lot.sample(list(CALLS), min(args.traces, len(CALLS))):
                counts.case(f"strace, {name}", trace_findings(project, by_product[name], statements[by_product[name]], lot))
    return counts.summary()


if __name__ == "__main__":
    sys.exit(main())
