#!/usr/bin/env python3
"""Edits a small project at random, by a seed, and builds one of its sources after each edit by nvcc and by zigrunk-nvcc with its cache. The objects
have to be alike, but for the names of temporary files. Some edits are not of sources: a killed call, damaged entries, another umask, links that lead
elsewhere, libraries that the loader finds, clocks, variables, and edits that are made while a call runs and undone later. nvcc isn't asked again for
what it has made of the same state.

    tests/driver_cache/edits.py DRIVER [--seed N] [--count N] [--calls 0] [--keep FOLDER] [--roots]

With --roots calls are made in two checkouts, of which one may differ, each under itself as a root, and what they make has to be what the driver
makes without a cache. --calls 0 has no call kept as a whole. --keep copies all folders as they are behind an edit that fails: which edits come
while a call runs depends on how fast it is, so that a seed alone doesn't make them again.

Of FEWEST edits or more it's a failure, too, if fewer than a fortieth of the calls were found whole: then whole calls aren't tested.

The last line is 'N passed, M failed'; the status is 1 if one failed. It needs nvcc and objcopy."""
import argparse
import hashlib
import os
import pathlib
import random
import shutil
import subprocess
import sys
import tempfile
import time

SMALL = pathlib.Path(__file__).resolve().parent.parent / "small"
HEADER = """#pragma once
#include <far.h>
#if __has_include("asked.h")
#define ASKED 1
#else
#define ASKED 0
#endif
// constants
#define SIZE {size}
#define OTHER {other}
#define HERE {line}
#define JOINED(a, b) a##b
#define TEXT(x) #x
inline int blocks(int count) {{ return (count + SIZE - 1 + ASKED + FAR){inside}/ {block}; }}
{lines}template <typename F> __device__ int applied(F f, int value) {{ return f(value); }}
"""
SOURCE = """#include "size.h"
{lines}// {comment}
#define WANTED(x) ((x) ? 0 : failed(#x, {line}))
__host__ __device__ inline int failed(const char* text, int line) {{ return text[0] + line; }}
template <int N> __global__ void scale_{name}(float* values) {{ values[threadIdx.x] *= N * SIZE + {kernel}; }}
static __global__ void fill(int* values) {{
#if __CUDA_ARCH__ >= 800
    values[threadIdx.x] = {newer};
#else
    values[threadIdx.x] = {older};
#endif
}}
int calls_{name} = {host};
{lines}int narrow_{name}(double value) {{ return value; }}
{large}double folded_{name}() {{ return __builtin_sin(0.5); }}
__device__ int lambda_{name}(int value) {{ {unused}return applied([=](int x) {{ return x + value; }}, 2) + WANTED(value > 1); }}
int checked_{name}(int value) {{ return WANTED(value > {host}); }}
int here_{name} = {here};
const char* text_{name}() {{ return TEXT(a{inside}+ "b // c"{inside}); }}
void run_{name}(float* values, int* numbers, int count) {{ {blank}scale_{name}<2><<<blocks(count), 32>>>(values); fill<<<1, 64>>>(numbers); }}
"""
TARGETS = ["75", "80", "90"]
CPP = """#include "size.h"
{lines}// {comment}
int narrow_{name}(double value) {{ return value; }}
int calls_{name} = SIZE + {host};
{large}double folded_{name}() {{ return __builtin_sin(0.5 + {older}); }}
int here_{name} = {here};
const char* text_{name}() {{ return TEXT(a{inside}+ "b // c"{inside}); }}
int run_{name}(int count) {{ {unused}{blank}return blocks(count) + {line} + {kernel} * {newer}; }}
"""
# A libmpfr by which gcc has another sine, and the real one behind it.
SHIM = "int mpfr_cos(void*, void*, int); int mpfr_sin(void* to, void* of, int way) { return mpfr_cos(to, of, way); }"
LIBRARY = "libmpfr.so.6"
LARGE = "char large_{name}[1 << 20] = {{1}};\n"
VARIABLES: list[dict[str, str]] = [{}, {}, {"CPATH": "far"}, {"LC_ALL": "C.UTF-8"}, {"SOURCE_DATE_EPOCH": "1"}, {"CPLUS_INCLUDE_PATH": "far"}]
PATHS = [None, None, "mod", "mod:other", "other:mod", ":mod", "mod:"]
Values = dict[str, object]
LINES = ["", "", "// a line\n", "\n", "/* two\nlines */\n", "// it's one\n", "/* a // b */ // \"c\n", "  \t\n", "#if 0\nit's\n#endif\n",
         "// joined \\\n lines\n", "/* /* */\n", "// \u00fc\n", "#if 0 // or not\n/* x\n*/ #else\n#endif\n"]
INSIDE = ["", "", " ", "/**/", " /* x */", "\n", " // x\n", "\n\n  // /* x\n", "/// \u00fc\n", "/ // \u00fc\n"]
HERE = ["0", "HERE", "JOINED(HE, RE)", "JOINED(__LI, NE__)"]
KINDS = ["comment", "lines", "lines", "header_lines", "header_lines", "header_line", "inside", "inside", "header_inside", "here", "line",
         "unused", "kernel", "newer", "older", "host", "size", "other", "block", "blank", "targets",
         "words", "words", "umask", "early", "asked", "far", "linked", "product", "touch", "touch", "touch", "back", "back", "back", "same_time",
         "link_source", "link_source", "link_folder", "link_cwd", "library", "library", "path", "path", "future", "large", "variable",
         "undone", "undone", "undone", "undone_file", "undone_library"]
WORDS: list[list[str]] = [
    [], ["-O3"], ["-lineinfo"], ["-lineinfo"], ["-fatbin"], ["-fatbin", "-lineinfo"], ["-g"], ["-dc"], ["-DX=1"], ["-std=c++20"], ["-MD"],
    ["-Xcompiler", "-fPIC"], ["-Xcompiler", "-Wconversion"], ["-Xcompiler", "-Wall"], [], [], ["-DHERE_IS=__LINE__"],
]
FEWEST = 50
# What changes beside the others under a root: where calls are made, how they name files and the root, and what is in one checkout alone.
ROOTED_KINDS = ["folder"] * 40 + ["whole"] * 3 + ["root"] * 3 + ["apart"] * 5
ROOTS = ["{}", "{}", "{}/", "{}/inc/..", "{}=/elsewhere", "{}/.."]
APART = ["inc1/size.h", "early/size.h", "inc2/far.h", "far/far.h", "inc/asked.h"]
Build = tuple[int, bytes, int | None, bytes | None]


class Project:
    """The sources of a project and the words of its calls. There are two folders with it, and a link to one of them, where calls are made."""

    def __init__(self, room: pathlib.Path, lot: random.Random, has_roots: bool) -> None:
        self.room, self.lot, self.folder = room, lot, room / "here"
        self.kinds, self.has_roots, self.root, self.is_whole = KINDS + ROOTED_KINDS * has_roots, has_roots, ROOTS[0], False
        self.apart: dict[str, str] = {}
        self.header: Values = {"size": 64, "other": 1, "block": 32, "lines": "", "line": "0", "inside": " "}
        values: Values = {"comment": "one", "kernel": 1, "newer": 2, "older": 3, "host": 4, "blank": "", "lines": "", "line": 0, "unused": "",
                          "here": "0", "inside": "", "large": ""}
        self.sources: dict[str, Values] = {name: dict(values) for name in "abmn"}
        self.targets, self.umask, self.early, self.product = ["80"], 0o022, False, "{}.o"
        self.words: list[str] = []
        self.variables: dict[str, str] = {}
        self.path: str | None = None
        self.earlier: list[tuple[Values, dict[str, Values], list[str]]] = []
        self.places = {name: "" for name in self.sources}
        for twin in ("work", "twin"):
            for folder in ("inc1", "inc2", "early", "far", "mod", "other", "src1", "src2"):
                (room / twin / folder).mkdir(parents=True)
            (room / twin / "inc").symlink_to("inc1")
            shutil.copy(SMALL / "cuda_runtime.h", room / twin)
        self.folder.symlink_to("work")
        self.write()

    def all(self, name: str) -> list[pathlib.Path]:
        """A path in both folders."""
        return [self.room / twin / name for twin in ("work", "twin")]

    def write(self) -> None:
        for number in (1, 2):
            self.put(f"inc{number}/size.h", HEADER.format(**self.header))
            self.put(f"inc{number}/far.h", f"#define FAR {number}\n")
        early_header: Values = {**self.header, "size": 7}
        self.put("early/size.h", HEADER.format(**early_header) if self.early else None)
        for name, values in self.sources.items():
            filled: Values = {**values, "large": str(values["large"]).format(name=name)}
            text = (SOURCE if name in "ab" else CPP).format(name=name, **filled)
            place = self.places[name]
            for path in self.all(self.source(name)):
                if place and not path.is_symlink() or path.is_symlink() and (not place or not os.readlink(path).startswith(place)):
                    path.unlink(missing_ok=True)
            self.put(f"{place or '.'}/{self.source(name)}", text)
            for path in self.all(self.source(name)):
                if place and not path.is_symlink():
                    path.symlink_to(f"{place}/{self.source(name)}")

    @staticmethod
    def source(name: str) -> str:
        """The file of a source."""
        return f"{name}.cu" if name in "ab" else f"{name}.cpp"

    def put(self, name: str, text: str | None) -> None:
        """Gives a file a text in both folders, or removes it."""
        for path in self.all(name):
            own = self.apart.get(name, text) if "twin" in path.parts else text
            if own is None:
                path.unlink(missing_ok=True)
            elif not path.exists() or path.read_text() != own:
                path.write_text(own)

    def edit(self, source: str) -> str:
        """Makes one edit and says which."""
        kind = self.lot.choice(self.kinds)
        self.earlier.append((dict(self.header), {name: dict(values) for name, values in self.sources.items()}, list(self.targets)))
        if kind in ("size", "other", "block"):
            self.header[kind] = self.lot.randrange(1, 4)
        elif kind in ("header_lines", "header_line", "header_inside"):
            values = {"lines": LINES, "line": ["0", "__LINE__"], "inside": INSIDE}[kind.removeprefix("header_")]
            self.header[kind.removeprefix("header_")] = self.lot.choice(values)
        elif kind in self.sources[source]:
            self.edit_source(self.sources[source], kind)
        elif kind.startswith("link_"):
            self.edit_link(source, kind)
        elif kind in ROOTED_KINDS:
            self.edit_root(kind)
        else:
            self.edit_call(source, kind)
        self.write()
        return kind

    def edit_link(self, source: str, kind: str) -> None:
        """Has a link lead elsewhere."""
        if kind == "link_source":
            self.places[source] = self.lot.choice(["", "src1", "src2"])
        elif kind == "link_folder":
            for path in self.all("inc"):
                target = "inc2" if os.readlink(path) == "inc1" else "inc1"
                path.unlink()
                path.symlink_to(target)
        else:
            link = self.room / "here"
            target = "twin" if os.readlink(link) == "work" else "work"
            link.unlink()
            link.symlink_to(target)

    def edit_root(self, kind: str) -> None:
        """Makes calls elsewhere, or names files in another way, or lets one checkout differ."""
        if kind == "folder":
            self.folder = self.room / self.lot.choice(["here", "work", "twin", "twin"])
        elif kind == "whole":
            self.is_whole = not self.is_whole
        elif kind == "root":
            self.root = self.lot.choice(ROOTS)
        elif name := self.lot.choice(["", *APART]):
            header: Values = {**self.header, "size": 5}
            self.apart[name] = self.lot.choice(["#define FAR 7\n", HEADER.format(**header)])
        else:
            self.apart.clear()
            for path in (self.room / "twin/far/far.h", self.room / "twin/inc/asked.h"):
                path.unlink(missing_ok=True)

    def edit_source(self, values: Values, kind: str) -> None:
        """Changes something in a source."""
        lot = self.lot
        if kind == "comment":
            values[kind] = lot.choice(["one", "two", "three", "two\n// lines", "it's /* one", "\u00fc"])
        elif kind in ("lines", "inside", "here"):
            values[kind] = lot.choice({"lines": LINES, "inside": INSIDE, "here": HERE}[kind])
        elif kind == "line":
            values[kind] = lot.choice(["0", "__LINE__", "__builtin_LINE()"])
        elif kind == "unused":
            values[kind] = lot.choice(["", "int never; "])
        elif kind == "blank":
            values[kind] = " " * lot.randrange(3)
        elif kind == "large":
            values[kind] = lot.choice(["", LARGE])
        else:
            values[kind] = lot.randrange(4)

    def edit_call(self, source: str, kind: str) -> None:
        """Changes something beside the text of sources."""
        lot = self.lot
        if kind == "targets":
            self.targets = sorted(lot.sample(TARGETS, lot.randrange(1, 3)))
        elif kind == "words":
            self.words = lot.choice(WORDS)
        elif kind == "umask":
            self.umask = lot.choice([0o022, 0o077, 0o002])
        elif kind == "early":
            self.early = not self.early
        elif kind in ("asked", "far"):
            # early/far.h may be a link to the latter, and lead nowhere
            name = {"asked": "inc/asked.h", "far": "far/far.h"}[kind]
            self.put(name, None if (self.folder / name).exists() else "#define FAR 3\n")
        elif kind == "linked":
            for path in self.all("early/far.h"):
                if path.is_symlink():
                    path.unlink()
                else:
                    path.symlink_to("../far/far.h")
        elif kind == "library":
            self.switch_library(lot.choice(["mod", "other", "."]))
        elif kind == "path":
            self.path = lot.choice(PATHS)
        elif kind == "variable":
            self.variables = lot.choice(VARIABLES)
        elif kind == "product":
            self.product = lot.choice(["{}.o", "{}.other.o"])
        elif kind == "touch":
            os.utime(self.folder / self.source(source), (1.6e9 + lot.randrange(99), 1.6e9 + lot.randrange(99)))
        elif kind == "future":
            os.utime(self.folder / lot.choice(["inc/size.h", self.source(source)]), (time.time(), time.time() + lot.randrange(1000)))
        elif kind == "back":
            self.header, self.sources, self.targets = lot.choice(self.earlier)
            self.header, self.sources = dict(self.header), {name: dict(values) for name, values in self.sources.items()}
        elif kind == "same_time":
            path = self.folder / "inc/size.h"
            status = path.stat()
            self.header["size"] = 1 + int(str(self.header["size"])) % 3
            self.write()
            os.utime(path, ns=(status.st_atime_ns, status.st_mtime_ns))

    def switch_library(self, folder: str) -> None:
        """Puts a library in a folder, or takes it away."""
        for path in self.all(f"{folder}/{LIBRARY}"):
            if path.exists():
                path.unlink()
            else:
                shutil.copy(self.room / LIBRARY, path)

    def call(self, name: str) -> list[str]:
        targets = [word for target in self.targets for word in ("-gencode", f"arch=compute_{target},code=sm_{target}")]
        phase = [] if {"-dc", "-fatbin"} & set(self.words) else ["-c"]
        top = f"{self.folder}/" if self.is_whole else ""
        return [*targets, *self.words, f"-I{top}early", f"-I{top}inc", *phase, f"{top}{self.source(name)}", "-o", self.product.format(name)]

    def environment(self) -> dict[str, str]:
        """The variables of a call."""
        root = {"ZIGRUNK_ROOT": self.root.format(self.folder)} if self.has_roots else {}
        return {**self.variables, **({"LD_LIBRARY_PATH": self.path} if self.path is not None else {}), **root, "PWD": str(self.folder)}

    def state(self, name: str) -> str:
        """What a call may depend on: its words, modes, variables and folder, and all files but other sources and products, with where they are.
        Their times count for line information."""
        files = [*sorted(path for path in self.folder.resolve().rglob("*.h") if path.exists()), self.folder / self.source(name)]
        libraries = [folder for folder in ("mod", "other", ".") if (self.folder / folder / LIBRARY).exists()]
        places = [self.folder, self.folder.resolve(), os.readlink(self.folder / "inc")]
        parts = [repr((self.call(name), self.umask, self.environment(), libraries, places))]
        has_times = "-lineinfo" in self.words
        for path in files:
            moment = path.stat().st_mtime_ns if has_times else 0
            parts.append(f"{path} {path.resolve()} {moment} {hashlib.sha256(path.read_bytes()).hexdigest()}")
        return hashlib.sha256("\n".join(parts).encode()).hexdigest()


def damage(lot: random.Random, cache: pathlib.Path) -> None:
    """Damages an entry, or removes some."""
    entries = sorted(path for path in cache.glob("??/*") if path.is_file())
    for path in lot.sample(entries, min(2, len(entries))):
        data = bytearray(path.read_bytes())
        if lot.random() < 0.5 and data:
            data[lot.randrange(len(data))] ^= 1 << lot.randrange(8)
        else:
            del data[lot.randrange(len(data) + 1):]
        path.write_bytes(data)


class Builds:
    """Builds a project by nvcc and with the cache, and compares."""

    def __init__(self, room: pathlib.Path, driver: pathlib.Path, lot: random.Random, calls: str) -> None:
        self.room, self.lot, self.cache = room, lot, room / "cache"
        self.own = str(room / "bin/zigrunk-nvcc")
        (room / "bin").mkdir()
        os.symlink(driver, self.own)
        (room / "tmp").mkdir()
        self.by_nvcc: dict[str, Build] = {}
        self.undid = ""
        self.environment = {**os.environ, "TMPDIR": str(room / "tmp"), "ZIGRUNK_CACHE": str(self.cache), "ZIGRUNK_LOG": str(room / "log"),
                            "ZIGRUNK_CALLS": calls, "ZIGRUNK_SLOTS": "0"}
        self.seconds = 0.0

    def start(self, program: str, project: Project, name: str, cache: str | None = None) -> "subprocess.Popen[bytes]":
        """Starts a call."""
        (project.folder / project.product.format(name)).unlink(missing_ok=True)
        command = ["sh", "-c", f'umask {project.umask:03o}; exec "$@"', "sh", program, *project.call(name)]
        environment = {**self.environment, **project.environment(), **({"ZIGRUNK_CACHE": cache} if cache is not None else {})}
        return subprocess.Popen(command, cwd=project.folder, env=environment, stdout=subprocess.PIPE, stderr=subprocess.STDOUT)

    def kill(self, project: Project, name: str, seconds: float) -> None:
        """Makes a call with the cache, and kills it after some seconds."""
        with self.start(self.own, project, name) as process:
            try:
                process.communicate(timeout=seconds)
            except subprocess.TimeoutExpired:
                process.kill()

    def run(self, program: str, project: Project, name: str, cache: str | None = None) -> Build:
        """Makes a call, and gives its status, what it says, and the modes and bytes of what it makes."""
        product = project.folder / project.product.format(name)
        with self.start(program, project, name, cache) as process:
            said = process.communicate()[0]
        if process.returncode or not product.exists():
            return process.returncode, said, None, None
        mode = product.stat().st_mode
        os.chmod(product, 0o600)
        made = product.read_bytes()
        if not made.startswith(b"\x7fELF"):
            return process.returncode, said, mode, made
        stripped = self.room / f"stripped.{name}"
        subprocess.run(["objcopy", "--strip-unneeded", product, stripped], check=True)
        return process.returncode, said, mode, stripped.read_bytes()

    def wanted(self, project: Project, name: str) -> Build:
        """What nvcc makes of a source, or under a root the driver without its cache."""
        state = project.state(name)
        if state not in self.by_nvcc:
            self.by_nvcc[state] = self.run(self.own, project, name, "") if project.has_roots else self.run("nvcc", project, name)
        return self.by_nvcc[state]

    def undo(self, project: Project, name: str, kind: str) -> None:
        """Makes an edit while a call with the cache runs, and undoes it once that has ended."""
        wait = self.lot.random() * min(self.seconds, 4)
        library = (project.folder / "mod" / LIBRARY).exists()
        with self.start(self.own, project, name) as process:
            try:
                process.communicate(timeout=wait)
            except subprocess.TimeoutExpired:
                pass
            state, there = "runs" if process.returncode is None else "has ended", "a" if library else "no"
            self.undid = f"after {wait:.3f} s of a call that {state}; mod had {there} library"
            if kind == "undone_library":
                project.switch_library("mod")
            elif kind == "undone_file":
                project.early = not project.early
            else:
                kept, project.header = project.header, {**project.header, "size": 9, "block": 5}
            project.write()
            process.communicate()
        if kind == "undone_library":
            project.switch_library("mod")
        elif kind == "undone_file":
            project.early = not project.early
        else:
            project.header = kept
        project.write()

    def problem(self, project: Project, name: str, kind: str) -> str | None:
        """What is wrong with the build of a source, if something is."""
        self.undid = ""
        if kind.startswith("undone"):
            self.undo(project, name, kind)
        wanted = self.wanted(project, name)
        if self.lot.random() < 0.05:
            self.kill(project, name, self.lot.random() / 2)
        if self.lot.random() < 0.05 and self.cache.exists():
            damage(self.lot, self.cache)
        # (a call that comes right behind an edit, and one that comes later)
        time.sleep(self.lot.choice([0, 0, 0.15, 0.3]))
        begun = time.monotonic()
        made = self.run(self.own, project, name)
        self.seconds = max(time.monotonic() - begun, self.seconds * 0.9)
        for what, one, other in zip(("status", "messages", "mode", "object"), made, wanted):
            if one != other:
                return f"{what} of {project.source(name)}: {one!r:.200}, not {other!r:.200}, by {' '.join(project.call(name))} ({self.undid})"
        return None


def make_library(room: pathlib.Path) -> None:
    """Makes the library by which gcc computes something else."""
    listed = subprocess.run(["ldd", subprocess.run(["gcc", "-print-prog-name=cc1plus"], capture_output=True, text=True, check=True).stdout.strip()],
                            capture_output=True, text=True, check=True).stdout
    real = next(line.split()[2] for line in listed.splitlines() if LIBRARY in line)
    (room / "shim.c").write_text(SHIM)
    (room / "empty.c").write_text("")
    words = ["gcc", "-shared", "-fPIC", "-nostdlib"]
    subprocess.run([*words, "empty.c", "-o", "libreal.so", f"-Wl,-soname,{real}"], cwd=room, check=True)
    subprocess.run([*words, "shim.c", "-o", LIBRARY, f"-Wl,-soname,{LIBRARY}", "-Wl,--no-as-needed", "-L.", "-lreal"], cwd=room, check=True,
                   stderr=subprocess.DEVNULL)


def main() -> int:
    parser = argparse.ArgumentParser()
    parser.add_argument("driver", type=pathlib.Path)
    parser.add_argument("--seed", type=int, default=1)
    parser.add_argument("--count", type=int, default=200)
    parser.add_argument("--calls", default="1")
    parser.add_argument("--keep", type=pathlib.Path)
    parser.add_argument("--roots", action="store_true")
    options = parser.parse_args()
    if not (shutil.which("nvcc") and shutil.which("objcopy")):
        print("random edits: skipped, nvcc or objcopy is not on the path\n0 passed, 0 failed, 1 skipped")
        return 0
    odd = ("NVCC_PREPEND_FLAGS", "NVCC_APPEND_FLAGS", "LD_LIBRARY_PATH", "CPATH", "LC_ALL")
    for name in [name for name in os.environ if name.startswith("ZIGRUNK_") or name in odd]:
        del os.environ[name]
    lot, failed, begun = random.Random(options.seed), 0, time.monotonic()
    with tempfile.TemporaryDirectory() as folder:
        room = pathlib.Path(folder)
        make_library(room)
        project, builds = Project(room, lot, options.roots), Builds(room, options.driver.resolve(), lot, options.calls)
        for number in range(options.count):
            name = lot.choice("aaabm" if options.roots else "abmmnn")
            edit = project.edit(name) if number else "none"
            problem = builds.problem(project, name, edit)
            if problem:
                failed += 1
                print(f"edit {number} of seed {options.seed}, {edit}: {problem}", flush=True)
                if options.keep:
                    shutil.copytree(room, options.keep / f"{options.seed}.{number}", symlinks=True)
            if number % 100 == 99:
                print(f"{number + 1} edits, {failed} failed, {time.monotonic() - begun:.0f} s, {len(builds.by_nvcc)} states", flush=True)
        log = (room / "log").read_text(encoding="utf-8")
    hits, misses, calls = (log.count(text) for text in ('"hit":true', '"hit":false', '[{"kind":"nvcc"'))
    print(f"{hits} hits, {calls} of them whole calls, {misses} misses")
    if options.calls != "0" and options.count >= FEWEST and calls * 40 < options.count:
        failed += 1
        print(f"only {calls} of {options.count} calls of seed {options.seed} were found whole")
    print(f"{options.count - failed} passed, {failed} failed")
    return 1 if failed else 0


if __name__ == "__main__":
    sys.exit(main())
