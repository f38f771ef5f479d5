#!/usr/bin/env python3
"""Plans dry runs of a megabyte of each kind that we know to take work, and checks that zigrunk plan answers or refuses each one soon.

Usage: tests/hostile_input.py ZIGRUNK [--figures]     with --figures, it prints what each call took

A kind is a text of half a megabyte, or of as many lines as the limit allows, which both runs of a call have. A call may take three
seconds of the processor and 300 MB: we saw at most 0.2 s (docs/proof/HOSTILE_INPUT.md). The last line is 'N passed, M failed', and the status
1 if one failed."""

import itertools
import resource
import string
import subprocess
import sys
import tempfile
from pathlib import Path
from typing import Callable, Dict, Iterable, Iterator, List

from runner import Counts

SIZE = 500_000
SECONDS = 3
# A line counts 4,096 bytes of the 2 MiB that a run may take: so many lines of a few words are answered.
LINES = 495
MEMORY = 300 << 20
TOOLS = ("gcc", "cicc", "ptxas", "cudafe++", "fatbinary")
STEP = "#$ gcc -D__CUDA_ARCH__=1 -E -o a.cpp1.ii\n"


def names(letters: str) -> Iterator[str]:
    """Returns all words of some letters, the short ones first, but for PATH."""
    for length in itertools.count(1):
        for letter in itertools.product(letters, repeat=length):
            word = "".join(letter)
            if word != "PATH":
                yield word


def variables() -> Iterator[str]:
    return names(string.ascii_uppercase)


def files() -> Iterator[str]:
    return names(string.ascii_lowercase)


def filled(pieces: Iterable[str], size: int) -> str:
    """Returns as many pieces as fit."""
    taken = []
    for piece in pieces:
        size -= len(piece)
        if size < 0:
            break
        taken.append(piece)
    return "".join(taken)


def halves(first: Iterable[str], second: Iterable[str]) -> str:
    return filled(first, SIZE // 2) + filled(second, SIZE // 2)


def assigned(names: Iterable[str]) -> Iterator[str]:
    return (f"#$ {name}=\n" for name in names)


def doubling() -> str:
    return "".join(f"#$ {a}=${b}.${b}.\n" for a, b in itertools.pairwise(string.ascii_uppercase)) + "#$ gcc $A.\n"


def referring(pieces: Iterable[str], count: int) -> str:
    """Returns the assignments of so many variables, and a command with references to them."""
    return filled(assigned(itertools.islice(variables(), count)), SIZE) + "#$ gcc " + filled(pieces, SIZE // 2) + "\n"


def many(lines: str) -> str:
    """Returns lines often, as many as the limit allows."""
    return lines * (LINES // lines.count("\n"))


def each(lines: str) -> str:
    """Returns as many lines, with another name of a file in place of each `%`."""
    return "".join(lines.replace("%", name) for name in itertools.islice(files(), LINES // lines.count("\n")))


KINDS: Dict[str, Callable[[str], str]] = {
    "more variables than the limit allows": lambda path: path + filled(assigned(variables()), SIZE),
    "more commands than the limit allows": lambda path: path + filled(itertools.repeat("#$ gcc\n"), SIZE),
    "variables": lambda path: path + filled(assigned(itertools.islice(variables(), LINES)), SIZE) + STEP,
    "one variable set often": lambda path: path + many("#$ A=\n") + STEP,
    "PATH behind variables": lambda path: filled(assigned(itertools.islice(variables(), LINES // 2)), SIZE) + path + STEP * (LINES // 2),
    "references": lambda path: path + referring((f"${name}." for name in variables()), 400),
    "references in reverse": lambda path: path + referring((f"${name}." for name in reversed(list(itertools.islice(variables(), 400)))), 400),
    "references to variables that are set often": lambda path: path + halves(itertools.repeat("#$ A=$A\n"), itertools.repeat("#$ gcc $A.\n")),
    "many variables of one name and what is no reference": lambda path: path + "#$ A=\n" * 300 + "#$ gcc " + "$Ab" * (SIZE // 3) + "\n",
    "many variables of one name and references": lambda path: path + "#$ A=$A\n" * 300 + "#$ gcc " + "$A." * (SIZE // 3) + "\n",
    "a variable behind many of one name": lambda path: path + "#$ A=\n" * 300 + "#$ B=" + "$A." * 90_000 + "\n#$ A=\n#$ gcc $B.\n",
    "one reference often": lambda path: path + "#$ A=\n#$ gcc " + "$A." * (SIZE // 3) + "\n",
    "texts that double": lambda path: path + doubling(),
    "programs": lambda path: path + each("#$ %\n"),
    "programs in a long PATH": lambda path: path[:-1] + ":/" * 500 + "\n" + each("#$ %\n"),
    "a PATH of empty parts": lambda path: "#$ PATH=" + ":" * SIZE + "\n#$ a\n",
    "a PATH of roots": lambda path: "#$ PATH=" + "/:" * (SIZE // 2) + "\n#$ a\n",
    "a PATH and a long name": lambda path: "#$ PATH=" + ":" * (SIZE // 2) + "\n#$ " + "a" * (SIZE // 2) + "\n",
    "a long word": lambda path: path + "#$ gcc " + "a" * SIZE + "\n",
    "quotes": lambda path: path + "#$ gcc " + "'a'" * (SIZE // 3) + "\n",
    "short words": lambda path: path + "#$ gcc " + "a " * (SIZE // 2) + "\n",
    "empty words": lambda path: path + "#$ gcc " + "'' " * (SIZE // 3) + "\n",
    "generated files": lambda path: path + "#$ gcc -D__CUDA_ARCH__=1 -E " + filled((f"{name}.ii " for name in files()), SIZE) + "\n",
    "generated files of commands": lambda path: path + each("#$ gcc -D__CUDA_ARCH__=1 -E %.ii\n"),
    "names of generated files in a word": lambda path: path + "#$ gcc -D__CUDA_ARCH__=1 -E a.ii -D=" + "a.ii," * (SIZE // 5) + "\n",
    "suffixes in a word": lambda path: path + "#$ gcc -D__CUDA_ARCH__=1 -E a" + ".ii" * (SIZE // 3) + "\n",
    "groups": lambda path: path + each("#$ gcc -D__CUDA_ARCH__=1 -E -o %.cpp1.ii\n#$ cicc %.cpp1.ii -o %.ptx\n#$ ptxas %.ptx -o %.cubin\n"),
    "a group of many commands": lambda path: path + STEP + many("#$ cicc a.cpp1.ii -o a.ptx\n"),
    "a group that is opened again": lambda path: path + many(STEP + "#$ cicc a.cpp1.ii -o a.ptx\n"),
    "commands that need all before them": lambda path: path + each("#$ fatbinary --create=%.fatbin\n"),
    "a file that many commands make":
        lambda path: path + each("#$ gcc -D__CUDA_ARCH__=1 -E -o %.cpp1.ii\n#$ cicc %.cpp1.ii -o a.ptx\n#$ ptxas a.ptx -o %.cubin\n"),
    "lines without a mark": lambda path: path + "x\n" * (SIZE // 2),
}

# What a call's second run has in place of the first one's text.
SECOND: Dict[str, Callable[[str], str]] = {
    "commands that need all before them": lambda path: path + many("#$ gcc -D__NVCC__ x.i\n"),
}


def within_limits() -> None:
    resource.setrlimit(resource.RLIMIT_CPU, (SECONDS, SECONDS))
    resource.setrlimit(resource.RLIMIT_AS, (MEMORY, MEMORY))


def seconds_of(words: List[str]) -> tuple[int, float]:
    """Runs a call and returns its status and its seconds of processor."""
    before = resource.getrusage(resource.RUSAGE_CHILDREN)
    ran = subprocess.run(words, stdout=subprocess.DEVNULL, stderr=subprocess.DEVNULL, preexec_fn=within_limits, check=False)
    after = resource.getrusage(resource.RUSAGE_CHILDREN)
    return ran.returncode, after.ru_utime + after.ru_stime - before.ru_utime - before.ru_stime


def main(words: List[str]) -> int:
    if not words or words[1:] not in ([], ["--figures"]):
        print(__doc__, file=sys.stderr)
        return 2
    counts = Counts()
    with tempfile.TemporaryDirectory() as room:
        for tool in TOOLS:
            Path(room, tool).touch(0o755)
        for name, kind in KINDS.items():
            text = kind(f"#$ PATH={room}\n")
            second = SECOND.get(name, lambda path: "another first line\n" + text)(f"#$ PATH={room}\n")
            for run, said in ("first", text), ("second", second):
                Path(room, f"{run}.run").write_text(said, encoding="ascii")
            for form in "json", "ninja", "text":
                call = [words[0], "plan", "--dry-runs", f"{room}/first.run", f"{room}/second.run", "--cwd", "/w", "--tmp", "/t", form]
                status, took = seconds_of(call)
                if words[1:]:
                    print(f"{took:.2f} s  status {status}  {form:5}  {name}")
                counts.case(f"{name}, {form}", [f"status {status} after {took:.2f} s of the processor"] * (status not in (0, 1)))
    return counts.summary()


if __name__ == "__main__":
    sys.exit(main(sys.argv[1:]))
