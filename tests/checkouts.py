#!/usr/bin/env python3
"""Makes calls in two checkouts of one project under ZIGRUNK_ROOT, and compares what they leave and say.

    tests/checkouts.py [--calls N] [--seed N] [--nvcc FILE] [--user NAME] ZIGRUNK-NVCC

The checkouts have paths of other lengths, sources of other times, and directories for temporary files of their own. With --user, which needs root,
the second one is another user's, who makes its calls. A call's source, targets,
options, working directory and forms of paths are drawn by the seed. Both products have to be equal, byte for byte, and have no path of a
checkout; a dependency file has to be nvcc's; messages may differ by the checkout's folder alone. Then come the cases of a few calls that are
given. The last line is 'N passed, M failed'.
"""
import argparse
import copy
import os
import pwd
import random
import re
import shutil
import subprocess
import sys
import tempfile
from pathlib import Path
from typing import NamedTuple

HEADER = """#pragma once
#include <cassert>
inline const char* where() { return __FILE__; }
__host__ __device__ inline int checked(int a) { assert(a > 0); return a + 1; }
"""
KERNELS = """#include <cstdio>
#include "deep/h.h"
static __device__ int count;
static __global__ void kernel(int* p) { assert(p); *p = checked(*p) + count; printf("%s", __FILE__); }
namespace { __constant__ float table[4]; struct Local { int a; }; template <class T> __global__ void fill(T* p) { p->a = int(table[0]); } }
void run_NAME(int* p) { std::puts(where()); kernel<<<1, 1>>>(p); fill<<<1, 1>>>((Local*)p); }
"""
RAW = """#include "deep/h.h"
static __device__ const char text[] = R"(
# 1 "FOLDER/src/raw.cu"
)";
__global__ void raw(char* p) { *p = text[checked(*p)]; }
"""
WARNS = """#include "deep/h.h"
#line 40 "named.cuh"
__global__ void warns(int* p) { int unused; *p = checked(2); }
int host(int a) { int b; return a; }
"""
LIBRARIES = """#include <cub/cub.cuh>
#include <thrust/device_vector.h>
#include <thrust/transform.h>
#include "deep/h.h"
struct Check { __host__ __device__ int operator()(int a) const { return checked(a); } };
void transforms(thrust::device_vector<int>& v) { thrust::transform(v.begin(), v.end(), v.begin(), Check()); }
cudaError_t sums(void* t, size_t& size, int* p, int n) { return cub::DeviceReduce::Sum(t, size, p, p, n); }
"""
HOST = """#include <cassert>
const char* where() { return __FILE__; }
int checked(int a) { assert(a > 0); return a + 1; }
"""
SOURCES = {"host.cpp": HOST, "a/k.cu": KERNELS.replace("NAME", "a"), "b/k.cu": KERNELS.replace("NAME", "b"), "raw.cu": RAW, "warns.cu": WARNS}
# What takes long is in one call of so many.
LONG, LONG_SHARE = {"libraries.cu": LIBRARIES}, 20
OPTIONS = ["-O2", "-g", "-G", "-lineinfo", "-rdc=true", "-std=c++17", "-DNDEBUG", "-Xcompiler -Wall", "-Xptxas -v", "-MD", "-t2", "-use_fast_math",
           "--expt-relaxed-constexpr", "-maxrregcount=32", "-Xcompiler -g3", "-Xcompiler -ggdb,-O1", "-src-in-ptx -lineinfo", "-dopt=on -G"]
TARGETS = ["-arch=sm_80", "-arch=sm_90 -dlto -rdc=true", "-gencode arch=compute_80,code=sm_80 -gencode arch=compute_90,code=sm_90",
           "-gencode arch=compute_75,code=[sm_75,compute_75] -gencode arch=compute_80,code=sm_86"]
FORMS = ["-c", "-c", "-c", "-dc", "-ptx -arch=sm_80", "-cubin -arch=sm_80", "-fatbin -arch=sm_80"]


# What ptxas says of its own time.
TIMES = re.compile(rb"Compile time = .*")


class Call(NamedTuple):
    """A call in a checkout, without the paths."""

    source: str
    words: "list[str]"
    # The working directory below the checkout, and whether paths are absolute.
    folder: str
    is_absolute: bool

    def line(self, top: Path) -> "list[str]":
        """The words in a checkout."""
        def path(name: str) -> str:
            return str(top / name) if self.is_absolute else os.path.relpath(top / name, top / self.folder)
        return [*self.words, f"-I{path('inc')}", path(f"src/{self.source}"), "-o", "product"]


class Made(NamedTuple):
    """What a call has left and said, with a mark in the place of the checkout's folder."""

    status: int
    product: "bytes | None"
    rule: "bytes | None"
    said: bytes


class Checkout:
    """A checkout of the project, with a directory for temporary files beside it."""

    def __init__(self, top: Path, temporary: Path, source: "Checkout | None" = None, user: "str | None" = None) -> None:
        self.top, self.temporary, self.user = top, temporary, user
        temporary.mkdir()
        if source is not None:
            shutil.copytree(source.top, top, copy_function=shutil.copy)
            if user is not None:
                subprocess.run(["chown", "-R", user, top, temporary], check=True)
            return
        for folder in ["inc/deep", "src/a", "src/b", "build/deeper"]:
            (top / folder).mkdir(parents=True)
        (top / "inc/deep/h.h").write_text(HEADER)
        for name, text in {**SOURCES, **LONG}.items():
            (top / "src" / name).write_text(text.replace("FOLDER", str(top)))

    def linked(self, name: str) -> "Checkout":
        """The same by a link beside it."""
        same = copy.copy(self)
        same.top = self.top.with_name(name)
        same.top.symlink_to(self.top.name)
        return same

    def as_user(self, words: "list[str]") -> "list[str]":
        """Words that its user runs."""
        if self.user is None:
            return words
        entry = pwd.getpwnam(self.user)
        return ["setpriv", f"--reuid={entry.pw_uid}", f"--regid={entry.pw_gid}", "--clear-groups", "env", "HOME=/nonexistent", *words]

    def make(self, compiler: str, call: Call, root: "str | None") -> Made:
        """Makes a call, under a root or not."""
        folder = self.top / call.folder
        product, rule = folder / "product", folder / "product.d"
        for file in (product, rule):
            file.unlink(missing_ok=True)
        environment = {**os.environ, "TMPDIR": str(self.temporary)}
        if root is not None:
            environment["ZIGRUNK_ROOT"] = f"{self.top}{root}"
        words = self.as_user([compiler, *call.line(self.top)])
        ran = subprocess.run(words, cwd=folder, env=environment, stdout=subprocess.PIPE, stderr=subprocess.STDOUT, check=False)
        left = [file.read_bytes() if file.exists() else None for file in (product, rule)]
        said = TIMES.sub(b"", ran.stdout.replace(bytes(self.top), b"CHECKOUT"))
        return Made(ran.returncode, left[0], left[1], said)


def drawn(lot: random.Random) -> Call:
    """A call by lot."""
    form = lot.choice(FORMS)
    words = [form, *([lot.choice(TARGETS)] if "arch" not in form else []), *lot.sample(OPTIONS, lot.randint(0, 4))]
    if "-O1" in " ".join(words) and "-G" in words:
        words.remove("-G")
    sources = LONG if lot.randrange(LONG_SHARE) == 0 else SOURCES
    return Call(lot.choice(list(sources)), " ".join(words).split(), lot.choice([".", "build", "build/deeper"]), lot.random() < 0.5)


class Trial:
    """Two checkouts, and the two compilers."""

    def __init__(self, ours: str, nvcc: str, room: Path, user: "str | None") -> None:
        self.ours, self.nvcc = ours, nvcc
        # (with -t, nvcc itself fails if the path of its temporary files has a blank)
        self.one = Checkout(room / "one", room / "temporary")
        self.other = Checkout(room / "a longer name" / "checkout", room / "others-temporary", self.one, user)
        room.chmod(0o755)

    def problem_of(self, call: Call) -> str:
        """What is wrong with a call in both checkouts."""
        one, other = (checkout.make(self.ours, call, "") for checkout in (self.one, self.other))
        nvccs = self.one.make(self.nvcc, call, None)
        if one.status != nvccs.status:
            return f"status {one.status}, nvcc's is {nvccs.status}: {one.said!r}"
        if one.product != other.product:
            # (a source without a name of its own has the number of a process in its module id)
            is_nvccs_own = "-rdc=true" in call.words and self.one.make(self.nvcc, call, None).product != nvccs.product
            return "" if is_nvccs_own else "the products differ"
        if (one.product is None) != (nvccs.product is None):
            return "a product that nvcc does not make, or none"
        if one.rule != nvccs.rule and call.source != "warns.cu":
            return f"the dependency file is {one.rule!r}, nvcc's is {nvccs.rule!r}"
        names = [bytes(checkout.top) for checkout in (self.one, self.other)]
        # (a text of the source itself may have the first one's)
        if call.source != "raw.cu" and any(name in (one.product or b"") for name in names):
            return "the product has a checkout's path"
        return "" if one.said == other.said else f"one says {one.said!r}, the other {other.said!r}"

    def linked_ids(self) -> "set[bytes]":
        """The module ids in a program of two sources of one name."""
        folder = self.one.top / "build"
        objects = []
        for name in "ab":
            made = self.one.make(self.ours, Call(f"{name}/k.cu", ["-c", "-rdc=true", "-arch=sm_80"], "build", True), "")
            objects.append(f"{name}.o")
            (folder / objects[-1]).write_bytes(made.product or b"")
        (folder / "main.cu").write_text("void run_a(int*); void run_b(int*); int main() { run_a(0); run_b(0); }\n")
        words = [self.nvcc, "-arch=sm_80", "-rdc=true", "main.cu", *objects, "-o", "program"]
        subprocess.run(words, cwd=folder, check=False)
        program = folder / "program"
        return set(re.findall(rb"__fatbinwrap_([0-9a-f]{8})_", program.read_bytes())) if program.exists() else set()

    def links(self) -> bool:
        """Whether nvcc links programs here: Debian has its libraries in a package of their own."""
        source = self.one.top / "build/links.cu"
        source.write_text("int main() {}\n")
        words = [self.nvcc, "-rdc=true", str(source), "-o", str(source.with_suffix(""))]
        return subprocess.run(words, capture_output=True, check=False).returncode == 0

    def linked(self) -> "str | None":
        """What is wrong with that program. None if nvcc links nothing."""
        return ("" if len(self.linked_ids()) >= 3 else f"{self.linked_ids()}") if self.links() else None

    def given(self) -> "list[tuple[str, str | None]]":
        """The cases that are given, each with its problem; None for one that can't be tried."""
        make = self.one.make
        usual = Call("a/k.cu", ["-c", "-rdc=true", "-arch=sm_80"], "build", True)
        plain, rooted, named = (make(self.ours, usual, root) for root in (None, "", "=/src"))
        nvccs = make(self.nvcc, usual, None)
        namesake = make(self.ours, usual._replace(source="b/k.cu"), "")
        ids = [product_ids(made.product or b"") for made in (plain, rooted, namesake)]
        at_top = Call("a/k.cu", ["-c", "-g", "-arch=sm_80"], ".", True)
        owns = make(self.ours, at_top, "")
        linked = self.one.linked("one-latest").make(self.ours, at_top, "")
        return [("without a root", "" if product_ids(nvccs.product or b"") == ids[0] else f"{ids[0]}, nvcc has other ids"),
                ("a root has ids of its own", "" if ids[0] and ids[1] and not ids[0] & ids[1] else f"{ids}"),
                ("two sources of one name", "" if ids[2] and not ids[1] & ids[2] else f"{ids}"),
                ("a program of two sources of one name", self.linked()),
                ("a link that the folder's name begins", "" if owns.product and owns.product == linked.product else "the products differ"),
                ("what stands for the folder", "" if b"/src/inc/deep/h.h" in (named.product or b"") else "the product lacks /src/inc/deep/h.h")]


def product_ids(product: bytes) -> "set[bytes]":
    """The module ids in the names of a product."""
    return set(re.findall(rb"__cudaRegisterLinkedBinary_+([0-9a-f]{8})_", product))


def main() -> int:
    """Runs the trial."""
    parser = argparse.ArgumentParser(usage=__doc__)
    parser.add_argument("driver")
    parser.add_argument("--calls", type=int, default=20)
    parser.add_argument("--seed", default="roots")
    parser.add_argument("--nvcc", default=shutil.which("nvcc"))
    parser.add_argument("--user")
    args = parser.parse_args()
    if args.nvcc is None:
        print("names under a root: skipped, nvcc is not on the path\n0 passed, 0 failed, 1 skipped")
        return 0
    lot = random.Random(args.seed)
    passed = failed = skipped = 0
    with tempfile.TemporaryDirectory(prefix="roots.") as room:
        trial = Trial(os.path.abspath(args.driver), args.nvcc, Path(os.path.realpath(room)), args.user)
        os.environ.update(ZIGRUNK_NVCC=args.nvcc)
        for number in range(args.calls):
            call = drawn(lot)
            problem = trial.problem_of(call)
            passed, failed = passed + (not problem), failed + bool(problem)
            if problem:
                print(f"call {number}, {call.source} {' '.join(call.words)} in {call.folder}{' by whole paths' * call.is_absolute}: {problem}"[:1500])
        for name, fault in trial.given():
            passed, failed, skipped = passed + (fault == ""), failed + bool(fault), skipped + (fault is None)
            if fault != "":
                print(f"{name}: {fault or 'skipped, this nvcc links nothing'}"[:1500])
    print(f"{passed} passed, {failed} failed" + f", {skipped} skipped" * (skipped > 0))
    return int(failed > 0)


if __name__ == "__main__":
    sys.exit(main())
