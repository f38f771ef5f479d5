#!/usr/bin/env python3
"""Attacks on the driver's cache. A case makes a call, changes something that the call may depend on, and makes it again: what zigrunk-nvcc makes and
says with its cache has to be what nvcc makes and says at that moment, but for the names of temporary files. Each case has a folder of its own, and
runs twice: with whole calls in the cache, and with commands alone.

    tests/driver_cache/attacks.py DRIVER [CASE..]      all cases, or these
    tests/driver_cache/attacks.py DRIVER --list        their names

The last line is 'N passed, M failed'; the status is 1 if one failed. It needs nvcc, gcc and objcopy; a case on a file system without times of
changes needs bindfs."""
import os
import pathlib
import re
import shutil
import subprocess
import sys
import tempfile
import threading
import time
from collections.abc import Callable
from concurrent.futures import ThreadPoolExecutor

SMALL = pathlib.Path(__file__).resolve().parent.parent / "small"
KERNEL = "int f() { return 1; }\n__global__ void k(int* p) { *p = 1; }\n"
USES = '#include "h.h"\nint f() { return V; }\n__global__ void k(int* p) { *p = V; }\n'
HOST = '#include "h.h"\nint f() { return V; }\n'
CUDA = ["-arch=sm_80", "-c", "k.cu", "-o", "k.o"]
CPP = ["-c", "m.cpp", "-o", "m.o"]
# The loader gives a tool this in place of a library. The real one is behind it, by its path.
SHIMS = {
    "libmpfr.so.6": "int mpfr_cos(void*, void*, int); int mpfr_sin(void* to, void* of, int way) { return mpfr_cos(to, of, way); }",
    "libm.so.6": "double cosh(double x) { return x * 0.125; }",
}
FOLDED = "double f() { return __builtin_sin(1.0); }\n"
DEVICE_FOLDED = ('int f() { return 1; }\nextern "C" __device__ __device_builtin__ double cosh(double);\n'
                 "__global__ void k(double* p) { *p = cosh(8.1764856122660277); }\n")
# What has a compile take a moment, so that an edit comes while it runs.
SLOW = "".join(f"template <int N> struct S{i} {{ static int f() {{ return N + S{i}<N - 1>::f(); }} }};\n"
               f"template <> struct S{i}<0> {{ static int f() {{ return 0; }} }};\nint u{i} = S{i}<300>::f();\n" for i in range(4))


class Wrong(Exception):
    """What was made or said isn't nvcc's."""


class Skipped(Exception):
    """The machine lacks something that a case needs."""


class Box:
    """A folder for a case."""

    def __init__(self, room: pathlib.Path, driver: pathlib.Path, calls: str) -> None:
        self.room, self.work = room, room / "work"
        for folder in ("bin", "tmp", "work", "run", "small"):
            (room / folder).mkdir()
        self.own = room / "bin/zigrunk-nvcc"
        self.own.symlink_to(driver)
        shutil.copy(SMALL / "cuda_runtime.h", room / "small")
        self.environment = {**os.environ, "TMPDIR": str(room / "tmp"), "XDG_RUNTIME_DIR": str(room / "run"), "ZIGRUNK_CACHE": str(room / "cache"),
                            "ZIGRUNK_CALLS": calls, "ZIGRUNK_SLOTS": "0", "ZIGRUNK_LOG": str(room / "log")}
        self.count = 0

    def put(self, name: str, text: str | bytes) -> pathlib.Path:
        """Writes a file, as an editor does that writes to what is there."""
        path = self.work / name
        path.parent.mkdir(parents=True, exist_ok=True)
        path.write_bytes(text if isinstance(text, bytes) else text.encode())
        return path

    def link(self, name: str, target: str) -> None:
        """Has a link lead to a target."""
        (self.work / name).unlink(missing_ok=True)
        (self.work / name).symlink_to(target)

    def shim(self, name: str, place: str) -> None:
        """Makes a library by which tools compute something else."""
        folder = self.room / "shims"
        if not (folder / name).exists():
            folder.mkdir(exist_ok=True)
            make_shim(folder, name)
        (self.work / place).mkdir(parents=True, exist_ok=True)
        shutil.copy(folder / name, self.work / place / name)

    def run(self, program: str | pathlib.Path, words: list[str], env: dict[str, str], cwd: str) -> tuple[int, str, bytes | None]:
        """Makes a call: its status, what it says, and what it makes."""
        folder = self.work / cwd
        product = folder / words[words.index("-o") + 1] if "-o" in words else None
        if product:
            product.unlink(missing_ok=True)
        environment = {**self.environment, "PWD": str(folder), **env}
        words = [*words, f"-I{self.room}/small"]
        done = subprocess.run([program, *words], cwd=folder, env=environment, stdout=subprocess.PIPE, stderr=subprocess.STDOUT, check=False)
        said = re.sub(r"tmpxft_[0-9a-f]+_[0-9a-f]+|\S*/cc\w+[.]s", "TMP", done.stdout.decode(errors="replace"))
        return done.returncode, said, self.content(product) if product and product.exists() else None

    def content(self, product: pathlib.Path) -> bytes:
        """A product without the names of temporary files. That of a C++ source has none."""
        if product.suffix != ".o" or product.stem == "m":
            return product.read_bytes()
        self.count += 1
        stripped = self.room / f"stripped.{self.count}"
        subprocess.run(["objcopy", "--strip-unneeded", product, stripped], check=True)
        return stripped.read_bytes()

    def check(self, what: str, words: list[str], env: dict[str, str] | None = None, cwd: str = ".") -> tuple[str, bytes | None]:
        """Makes a call with the cache and by nvcc, and compares. Gives what nvcc says and makes."""
        made = self.run(self.own, words, env or {}, cwd)
        wanted = self.run("nvcc", words, env or {}, cwd)
        for name, one, other in zip(("status", "messages", "product"), made, wanted):
            if one != other:
                raise Wrong(f"{what}: {name} {one!r:.300}, not {other!r:.300}")
        return wanted[1], wanted[2]

    def changes(self, words: list[str], change: Callable[[], object], env: dict[str, str] | None = None, cwd: str = ".", *, differs: bool = True,
                env_after: dict[str, str] | None = None) -> None:
        """Checks a call, and once more after a change, which is to show in what it makes or says. All is as it is for a while before both."""
        settle()
        before = self.check("before", words, env, cwd)
        self.check("again", words, env, cwd)
        change()
        after_env = env if env_after is None else env_after
        after = self.check("right behind", words, after_env, cwd)
        settle()
        after = self.check("later", words, after_env, cwd)
        if differs and before == after:
            raise Wrong("the change doesn't show: the case says nothing")

    def undone(self, words: list[str], change: Callable[[], object], undo: Callable[[], object], seconds: list[float]) -> None:
        """Makes a change while a call runs, and undoes it later: after so many seconds, and once a preprocessor has written its text."""
        for place, wait in enumerate([*seconds, None]):
            settle()
            # (a word that makes it another call)
            others = [*words, f"-DPLACE{place}=1"]
            timer = threading.Timer(wait or 0, change if wait else lambda: self.once_preprocessed(change))
            timer.start()
            self.run(self.own, others, {}, ".")
            timer.join()
            undo()
            settle()
            self.check(f"undone after {wait} s", others)

    def once_asked(self, words: list[str], change: Callable[[], object], undo: Callable[[], object]) -> None:
        """Makes a change while a call's host compile is preprocessed, which is what the cache asks first, and undoes it behind the call."""
        settle()
        with subprocess.Popen([self.own, *words, f"-I{self.room}/small"], cwd=self.work, env={**self.environment, "PWD": str(self.work)}) as process:
            while process.poll() is None and not list((self.room / "tmp").rglob("cache.*.ii")):
                pass
            if process.poll() is not None:
                raise Wrong("no preprocessor was seen: the case says nothing")
            change()
        undo()
        for what in ("right behind", "later"):
            self.check(f"undone, {what}", words)
            settle()

    def within(self, words: list[str], change: Callable[[], object], undo: Callable[[], object],
               env: dict[str, str] | None = None) -> None:
        """Makes a change while a call's host compile is preprocessed, and undoes it while the compiler proper runs."""
        settle()
        environment = {**self.environment, "PWD": str(self.work), **(env or {})}
        command = [str(self.own), *words, f"-I{self.room}/small"]
        with subprocess.Popen(command, cwd=self.work, env=environment) as process:
            while process.poll() is None and not list((self.room / "tmp").rglob("cache.*.ii")):
                time.sleep(0.001)
            change()
            while process.poll() is None and not self.compiles():
                time.sleep(0.01)
            if process.poll() is not None:
                raise Wrong("no compiler was seen: the case says nothing")
            time.sleep(0.2)
            undo()
        settle()
        self.check("undone within a call", words, env)

    def compiles(self) -> bool:
        """Whether gcc's compiler proper compiles for a call here."""
        def words_of(folder: pathlib.Path) -> list[bytes]:
            try:
                return (folder / "cmdline").read_bytes().split(b"\0")
            except OSError:
                return [b""]
        lines = [words_of(folder) for folder in pathlib.Path("/proc").iterdir() if folder.name.isdigit()]
        own = str(self.room / "tmp").encode()
        return any(line[0].endswith(b"cc1plus") and b"-E" not in line and any(own in word for word in line) for line in lines)

    def leaves(self, words: list[str], env: dict[str, str] | None = None, before: Callable[[], object] | None = None) -> None:
        """Makes a call twice with the cache and once by nvcc. Each time the files that it leaves, and their kinds and modes, are to be the same."""
        first = {path.name for path in self.work.iterdir()}
        settle()
        left: list[list[tuple[str, int, int, bool]]] = []
        for program in (str(self.own), str(self.own), "nvcc"):
            for path in [path for path in self.work.iterdir() if path.name not in first]:
                path.unlink()
            if before:
                before()
            environment = {**self.environment, "PWD": str(self.work), **(env or {})}
            subprocess.run([program, *words, f"-I{self.room}/small"], cwd=self.work, env=environment, capture_output=True, check=False)
            status = {path.name: (path.lstat(), path.stat()) for path in self.work.iterdir() if path.name not in first}
            # (names of temporary files are in some, so that their sizes differ)
            left.append(sorted((name, own.st_mode, own.st_nlink, target.st_size > 0) for name, (own, target) in status.items()))
            settle()
        for path in [path for path in self.work.iterdir() if path.name not in first]:
            path.unlink()
        if left[0] != left[2] or left[1] != left[2]:
            raise Wrong(f"files {left[0]}, then {left[1]}, not {left[2]}")

    def once_preprocessed(self, change: Callable[[], object]) -> None:
        """Makes a change once a compile's text is there that a preprocessor wrote, or after a while."""
        until = time.monotonic() + 20
        while time.monotonic() < until:
            try:
                texts = [path for path in (self.room / "tmp").rglob("cache.*.ii") if path.exists()]
            except FileNotFoundError:  # (a folder that has gone meanwhile)
                continue
            if any(b"f()" in path.read_bytes()[-200:] for path in texts):
                break
        change()


def settle() -> None:
    """Lets files become so old that their stamps tell."""
    time.sleep(2.2)


def make_shim(folder: pathlib.Path, name: str) -> None:
    """Makes a library that stands before a real one."""
    tool = subprocess.run(["gcc", "-print-prog-name=cc1plus"], capture_output=True, text=True, check=True).stdout.strip()
    listed = subprocess.run(["ldd", tool], capture_output=True, text=True, check=True).stdout
    real = next((line.split()[2] for line in listed.splitlines() if name in line), None)
    if real is None:
        raise Skipped(f"gcc has no {name}")
    said = subprocess.run(["objdump", "-p", real], capture_output=True, text=True, check=True).stdout
    versions = sorted(set(re.findall(r"\bGLIBC_[0-9.]+\b", said.partition("Version definitions:")[2].partition("Version References:")[0])))
    first = "GLIBC_2.2.5" if "GLIBC_2.2.5" in versions else "".join(versions[:1])
    script = "".join(f"{version} {{ {'global: cosh; local: *;' if version == first else ''} }};\n" for version in versions)
    (folder / "shim.c").write_text(SHIMS[name])
    (folder / "empty.c").write_text("")
    (folder / "map").write_text(script)
    words = ["gcc", "-shared", "-fPIC", "-nostdlib", "-fno-builtin", "-O1"]
    subprocess.run([*words, "empty.c", "-o", "libreal.so", f"-Wl,-soname,{real}"], cwd=folder, check=True)
    subprocess.run([*words, "shim.c", "-o", name, f"-Wl,-soname,{name}", *(["-Wl,--version-script,map"] if versions else []), "-Wl,--no-as-needed",
                    "-L.", "-lreal", "-Wl,--unresolved-symbols=ignore-all"], cwd=folder, check=True, stderr=subprocess.DEVNULL)


CASES: dict[str, Callable[[Box], None]] = {}


def case(run: Callable[[Box], None]) -> Callable[[Box], None]:
    """Notes a case."""
    CASES[run.__name__] = run
    return run


# Links, and where files really are.

@case
def source_by_a_link(box: Box) -> None:
    for folder in ("r1", "r2"):
        box.put(f"{folder}/k.cu", KERNEL)
    box.link("k.cu", "r1/k.cu")
    box.changes(["-arch=sm_80", "-dc", "k.cu", "-o", "k.o"], lambda: box.link("k.cu", "r2/k.cu"))


@case
def folder_of_a_source_by_a_link(box: Box) -> None:
    for folder in ("r1", "r2"):
        box.put(f"{folder}/k.cu", KERNEL)
    box.link("sub", "r1")
    box.changes(["-arch=sm_80", "-dc", str(box.work / "sub/k.cu"), "-o", "k.o"], lambda: box.link("sub", "r2"))


@case
def working_directory_by_a_link(box: Box) -> None:
    for folder in ("r1", "r2"):
        box.put(f"{folder}/k.cu", KERNEL)
    box.link("here", "r1")
    box.changes(["-arch=sm_80", "-dc", "k.cu", "-o", "k.o"], lambda: box.link("here", "r2"), cwd="here")


@case
def working_directory_by_a_link_for_debuggers(box: Box) -> None:
    for folder in ("r1", "r2"):
        box.put(f"{folder}/k.cu", KERNEL)
        box.put(f"{folder}/m.cpp", FOLDED)
    box.link("here", "r1")
    for words in (["-g", *CUDA], ["-g", *CPP], ["-lineinfo", "-arch=sm_80", "-cubin", "k.cu", "-o", "k.cubin"]):
        box.link("here", "r1")
        box.changes(words, lambda: box.link("here", "r2"), cwd="here", env={"PWD": "/nonsense"}, differs=False)


@case
def header_by_a_link(box: Box) -> None:
    box.put("a.h", "#define V 1\n")
    box.put("b.h", "#define V 2\n")
    box.put("k.cu", USES)
    for name in ("a.h", "b.h"):
        os.utime(box.work / name, (1e9, 1e9))
    box.link("h.h", "a.h")
    box.changes(CUDA, lambda: box.link("h.h", "b.h"))


@case
def folder_of_headers_by_a_link(box: Box) -> None:
    for folder, value in (("i1", 1), ("i2", 2)):
        box.put(f"{folder}/h.h", f"#define V {value}\n")
    box.put("m.cpp", HOST)
    box.link("inc", "i1")
    box.changes(["-Iinc", *CPP], lambda: box.link("inc", "i2"))


@case
def link_on_the_way_to_a_quoted_header(box: Box) -> None:
    """A header that is the same file beside another header, by the target of its folder's link."""
    for folder, value in (("a", 1), ("b", 2)):
        box.put(f"{folder}/h.h", '#include "v.h"\n')
        box.put(f"{folder}/v.h", f"#define V {value}\n")
    box.link("inc", "a")
    box.put("k.cu", USES.replace('"h.h"', "<h.h>"))
    box.changes([*CUDA, "-Iinc"], lambda: box.link("inc", "b"))


@case
def header_by_another_name_of_its_file(box: Box) -> None:
    path = box.put("other.txt", "#define V 1\n")
    os.link(path, box.work / "h.h")
    box.put("k.cu", USES)
    box.changes(CUDA, lambda: path.write_text("#define V 2\n"))


@case
def folder_changes_its_name(box: Box) -> None:
    for folder, value in (("i1", 1), ("i2", 2)):
        box.put(f"{folder}/h.h", f"#define V {value}\n")
        for path in (f"{folder}/h.h", folder):
            os.utime(box.work / path, (1e9, 1e9))
    (box.work / "i1").rename(box.work / "inc")
    box.put("m.cpp", HOST)

    def swap() -> None:
        (box.work / "inc").rename(box.work / "i1")
        (box.work / "i2").rename(box.work / "inc")
    box.changes(["-Iinc", *CPP], swap)


@case
def toolkit_by_a_link(box: Box) -> None:
    """A link to nvcc that leads to a toolkit with another profile."""
    first, second = toolkit(box, "t1"), toolkit(box, "t2")
    box.put("m.cpp", HOST)
    for folder, value in (("p1", 1), ("p2", 2)):
        box.put(f"{folder}/h.h", f"#define V {value}\n")
    for kit, folder in ((first, "p1"), (second, "p2")):
        with open(kit / "bin/nvcc.profile", "a", encoding="utf-8") as profile:
            profile.write(f'\nINCLUDES += "-I{box.work}/{folder}" $(_SPACE_)\n')
    box.link("kit", str(first))
    path = f"{box.work}/kit/bin:{os.environ['PATH']}"
    box.changes(CPP, lambda: box.link("kit", str(second)), env={"PATH": path})


def toolkit(box: Box, name: str) -> pathlib.Path:
    """A toolkit of links to the real one's files, with a profile and libdevice of its own."""
    real = pathlib.Path(next(line.split("=", 1)[1] for line in subprocess.run(
        ["nvcc", "--dryrun", "-c", "-x", "cu", "/dev/null", "-o", "/dev/null"], stderr=subprocess.PIPE, text=True, check=False).stderr.splitlines()
        if "_HERE_=" in line)).parent
    kit = box.room / name
    shutil.copytree(real / "bin", kit / "bin", symlinks=True)
    for path in real.iterdir():
        if path.name not in ("bin", "nvvm"):
            (kit / path.name).symlink_to(path)
    (kit / "nvvm").mkdir()
    shutil.copytree(real / "nvvm/libdevice", kit / "nvvm/libdevice")
    (kit / "nvvm/bin").symlink_to(real / "nvvm/bin")
    return kit


# Files whose times say nothing.

@case
def header_of_the_same_time(box: Box) -> None:
    path = box.put("h.h", "#define V 1\n")
    box.put("k.cu", USES)
    status = path.stat()

    def change() -> None:
        path.write_text("#define V 2\n")
        os.utime(path, ns=(status.st_atime_ns, status.st_mtime_ns))
    box.changes(CUDA, change)


@case
def header_replaced_by_one_of_the_same_time(box: Box) -> None:
    path, new = box.put("h.h", "#define V 1\n"), box.put("new.h", "#define V 2\n")
    box.put("m.cpp", HOST)
    for file in (path, new):
        os.utime(file, (1e9, 1e9))
    box.changes(CPP, lambda: new.rename(path))


@case
def file_system_without_changes(box: Box) -> None:
    """On a file system where the time of a change is that of the contents, a file of the same size and time is another."""
    if not shutil.which("bindfs") or os.geteuid():
        raise Skipped("no bindfs")
    (box.room / "under").mkdir()
    (box.work / "on").mkdir()
    subprocess.run(["bindfs", "--ctime-from-mtime", box.room / "under", box.work / "on"], check=True)
    try:
        path = box.put("on/h.h", "#define V 1\n")
        box.put("on/k.cu", USES)
        box.put("on/m.cpp", HOST)
        status = path.stat()
        for words in (CUDA, CPP):
            path.write_text("#define V 1\n")
            os.utime(path, ns=(status.st_atime_ns, status.st_mtime_ns))

            def change() -> None:
                path.write_text("#define V 2\n")
                os.utime(path, ns=(status.st_atime_ns, status.st_mtime_ns))
            box.changes(words, change, cwd="on")
    finally:
        subprocess.run(["umount", "-l", box.work / "on"], check=False)


@case
def name_appears_on_a_file_system_without_changes(box: Box) -> None:
    if not shutil.which("bindfs") or os.geteuid():
        raise Skipped("no bindfs")
    (box.room / "under").mkdir()
    (box.work / "on").mkdir()
    subprocess.run(["bindfs", "--ctime-from-mtime", box.room / "under", box.work / "on"], check=True)
    try:
        box.put("on/late/h.h", "#define V 1\n")
        (box.work / "on/early").mkdir()
        box.put("m.cpp", HOST.replace('"h.h"', "<h.h>"))
        folder = box.work / "on/early"
        os.utime(folder, (1e9, 1e9))

        def change() -> None:
            box.put("on/early/h.h", "#define V 2\n")
            for path in (folder / "h.h", folder):
                os.utime(path, (1e9, 1e9))
        box.changes(["-Ion/early", "-Ion/late", *CPP], change)
    finally:
        subprocess.run(["umount", "-l", box.work / "on"], check=False)


@case
def clocks_of_files(box: Box) -> None:
    """Sources and headers of the future and of long ago."""
    path = box.put("h.h", "#define V 1\n")
    box.put("k.cu", USES)
    os.utime(path, (time.time(), time.time() + 9999))

    def change() -> None:
        path.write_text("#define V 2\n")
        os.utime(path, (0, 0))
    box.changes(CUDA, change)


@case
def time_of_a_source_in_line_information(box: Box) -> None:
    path = box.put("k.cu", KERNEL)
    box.changes(["-lineinfo", "-arch=sm_80", "-cubin", "k.cu", "-o", "k.cubin"], lambda: os.utime(path, (1e9, 1e9)), differs=False)


@case
def mapped_page_of_tmpfs(box: Box) -> None:
    with tempfile.TemporaryDirectory(dir="/dev/shm") as folder:
        path = pathlib.Path(folder) / "h.h"
        path.write_text("#define V 1\n")
        box.put("m.cpp", HOST)

        def change() -> None:
            subprocess.run([sys.executable, "-c", "import mmap, sys; f = open(sys.argv[1], 'r+b'); m = mmap.mmap(f.fileno(), 0); m[10:11] = b'2'; "
                            "m.flush()", path], check=True)
        box.changes([f"-I{folder}", *CPP], change)


# Edits that are made while a call runs, and undone later.

@case
def undone_edit_of_a_header(box: Box) -> None:
    path = box.put("h.h", "#define V 1\n")
    box.put("m.cpp", SLOW + HOST)
    box.undone(CPP, lambda: path.write_text("#define V 22\n"), lambda: path.write_text("#define V 1\n"), [0.05, 0.15, 0.3, 0.6])


@case
def undone_edit_by_another_file(box: Box) -> None:
    path = box.put("h.h", "#define V 1\n")
    other = box.put("other.h", "#define V 2\n")
    box.put("m.cpp", SLOW + HOST)

    def swap() -> None:
        path.rename(box.work / "third.h")
        other.rename(path)
        (box.work / "third.h").rename(other)
    box.undone(CPP, swap, swap, [0.1, 0.25, 0.5])


@case
def undone_change_of_a_link(box: Box) -> None:
    for folder, value in (("i1", 1), ("i2", 2)):
        box.put(f"{folder}/h.h", f"#define V {value}\n")
    box.link("inc", "i1")
    box.put("m.cpp", SLOW + HOST)
    box.undone(["-Iinc", *CPP], lambda: box.link("inc", "i2"), lambda: box.link("inc", "i1"), [0.1, 0.25, 0.5])


@case
def undone_header_in_an_earlier_folder(box: Box) -> None:
    box.put("late/h.h", "#define V 1\n")
    (box.work / "early").mkdir()
    box.put("m.cpp", SLOW + HOST.replace('"h.h"', "<h.h>"))
    box.undone(["-Iearly", "-Ilate", *CPP], lambda: box.put("early/h.h", "#define V 2\n"), (box.work / "early/h.h").unlink, [0.1, 0.25, 0.5])


@case
def undone_edit_of_a_library(box: Box) -> None:
    box.put("m.cpp", SLOW + FOLDED)
    box.shim("libmpfr.so.6", "mod")
    path, away = box.work / "mod/libmpfr.so.6", box.work / "mod/away"
    path.rename(away)
    box.environment["LD_LIBRARY_PATH"] = str(box.work / "mod")
    box.undone(CPP, lambda: away.rename(path), lambda: path.rename(away), [0.05, 0.2, 0.4])


@case
def undone_library_before_a_compile(box: Box) -> None:
    """A library comes between the cache's look at it and the compile. The source is large, so that much time is between them."""
    box.put("k.cu", "".join(f"extern int a{number};\n" for number in range(100_000)) + FOLDED.replace("f()", "g()") + KERNEL)
    box.shim("libmpfr.so.6", "mod")
    path, away = box.work / "mod/libmpfr.so.6", box.work / "away"
    path.rename(away)
    box.environment["LD_LIBRARY_PATH"] = str(box.work / "mod")
    box.once_asked(CUDA, lambda: away.rename(path), lambda: path.rename(away))


@case
def undone_assembler_before_a_compile(box: Box) -> None:
    """An assembler comes on the path between the cache's look at gcc's parts and the compile."""
    box.put("k.cu", "".join(f"extern int a{number};\n" for number in range(100_000)) + KERNEL)
    real, path = shutil.which("as"), box.put("bin/away", "")
    path.write_text(f'#!/bin/sh\n{real} "$@"\nfor word; do [ "$last" != -o ] || out=$word; last=$word; done\n'
                    'objcopy --add-section .other=$0 "$out"\n')
    path.chmod(0o755)
    box.environment["PATH"] = f"{box.work}/bin:{os.environ['PATH']}"
    box.once_asked(CUDA, lambda: path.rename(box.work / "bin/as"), lambda: (box.work / "bin/as").rename(path))


@case
def undone_touch_of_a_source(box: Box) -> None:
    path = box.put("k.cu", KERNEL)
    os.utime(path, (1e9, 1e9))
    box.undone(["-lineinfo", "-arch=sm_80", "-cubin", "k.cu", "-o", "k.cubin"], lambda: os.utime(path, (2e9, 1.1e9)),
               lambda: os.utime(path, (1e9, 1e9)), [0.1, 0.3, 0.5])


# What tools read that no preprocessor has read.

@case
def directive_of_a_macro(box: Box) -> None:
    path = box.put("secret.h", "static const int secret = 41;\n")
    text = f'#define HASH #\nHASH include "{path}"\nint f() {{ return 1; }}\n__global__ void k(int* p) {{ *p = secret; }}\n'
    box.put("k.cu", text)
    for words in (["-arch=sm_80", "-ptx", "k.cu", "-o", "k.ptx"], CUDA):
        path.write_text("static const int secret = 41;\n")
        box.changes(words, lambda: path.write_text("static const int secret = 42;\n"))


@case
def directive_of_a_digraph_macro(box: Box) -> None:
    path = box.put("secret.h", "static const int secret = 41;\n")
    box.put("k.cu", f'#define EMPTY\n#define HASH %:\nEMPTY HASH include "{path}"\n__global__ void k(int* p) {{ *p = secret; }}\n')
    box.changes(["-arch=sm_80", "-ptx", "k.cu", "-o", "k.ptx"], lambda: path.write_text("static const int secret = 42;\n"), differs=False)


@case
def directive_behind_a_comment(box: Box) -> None:
    path = box.put("secret.h", "static const int secret = 41;\n")
    box.put("k.cu", f'#define HASH #\n/* x */ HASH include "{path}"\n__global__ void k(int* p) {{ *p = secret; }}\n')
    box.changes(["-Xcompiler", "-C", "-arch=sm_80", "-ptx", "k.cu", "-o", "k.ptx"], lambda: path.write_text("static const int secret = 42;\n"),
                differs=False)


@case
def question_of_a_macro(box: Box) -> None:
    path = box.work / "opt.h"
    box.put("k.cu", f'#define HASH #\n__global__ void k(int* p) {{\nHASH if __has_include("{path}")\n*p = 2;\nHASH else\n*p = 1;\n'
            "HASH endif\n}\n")
    box.changes(["-arch=sm_80", "-ptx", "k.cu", "-o", "k.ptx"], lambda: path.write_text("\n"), differs=False)


@case
def embed_of_a_macro(box: Box) -> None:
    path = box.put("data.txt", "A")
    box.put("k.cu", f'#define HASH #\n__device__ int a[] = {{\nHASH embed "{path}"\n}};\n__global__ void k(int* p) {{ *p = a[0]; }}\n')
    box.changes(["-arch=sm_80", "-ptx", "k.cu", "-o", "k.ptx"], lambda: path.write_text("B"), differs=False)


@case
def import_of_a_header(box: Box) -> None:
    path = box.put("unit.h", "static const int unit = 41;\n")
    box.put("k.cu", f'import "{path}";\n__global__ void k(int* p) {{ *p = unit; }}\n')
    box.changes(["-std=c++20", "-arch=sm_80", "-ptx", "k.cu", "-o", "k.ptx"], lambda: path.write_text("static const int unit = 42;\n"), differs=False)


def included_by_the_assembler(box: Box, source: str, text: str, words: list[str]) -> None:
    """A text by which the assembler reads data."""
    path = box.put("data.bin", "AAAA")
    box.put(source, text)
    box.changes(words, lambda: path.write_text("BBBB"))


@case
def data_by_a_dialect(box: Box) -> None:
    text = 'int f() { asm volatile("jmp 1f\\n.in{cbin|x} \\"data.bin\\"\\n1:" ::: "memory"); return 1; }\n'
    included_by_the_assembler(box, "m.cpp", text, CPP)


@case
def data_by_a_dialect_for_debuggers(box: Box) -> None:
    text = 'int f() { asm volatile("jmp 1f\\n.in{cbin|x} \\"data.bin\\"\\n1:" ::: "memory"); return 1; }\n__global__ void k(int* p) { *p = 1; }\n'
    included_by_the_assembler(box, "k.cu", text, ["-g", *CUDA])


@case
def data_by_a_dialect_without_late_commands(box: Box) -> None:
    box.environment["ZIGRUNK_LATE"] = "0"
    text = 'int f() { asm volatile("jmp 1f\\n.in{cbin|x} \\"data.bin\\"\\n1:" ::: "memory"); return 1; }\n__global__ void k(int* p) { *p = 1; }\n'
    included_by_the_assembler(box, "k.cu", text, CUDA)


@case
def data_by_an_identification(box: Box) -> None:
    included_by_the_assembler(box, "m.cpp", '#ident "a\\"\\n.data\\n.\\151ncbin \\"data.bin"\nint f() { return 1; }\n', CPP)


@case
def data_by_the_name_of_a_section(box: Box) -> None:
    text = '__attribute__((section(".data\\n.in\\143bin \\"data.bin\\"\\n.data#"))) int f = 1;\n'
    included_by_the_assembler(box, "m.cpp", text, CPP)


@case
def data_by_the_name_of_a_symbol(box: Box) -> None:
    text = 'extern int a asm("a\\n.data\\n.incb\\151n \\"data.bin\\"\\n.long a"); int* f() { return &a; }\n'
    path = box.put("data.bin", "AAAA")
    box.put("m.cpp", text)
    box.changes(CPP, lambda: path.write_text("BBBB"), differs=False)


@case
def data_by_a_raw_string(box: Box) -> None:
    included_by_the_assembler(box, "m.cpp", 'asm(R"(.data\n.IncBin "data.bin"\n)");\n', CPP)


@case
def data_by_operands(box: Box) -> None:
    text = ('int f() { asm volatile("jmp 1f\\n.in%c0bin \\"data.bin\\"\\n1:" :: "i"(1)); return 1; }\n'
            'asm(".data\\n.set x, 1\\n.incbin \\"data.bin\\", x");\n')
    path = box.put("data.bin", "AAAA")
    box.put("m.cpp", text)
    box.changes(CPP, lambda: path.write_text("BBBB"), differs=False)


@case
def strings_like_directives(box: Box) -> None:
    """Strings that only look like directives, and another of the same length: each is right."""
    path = box.put("m.cpp", 'const char* f() { return "/* .include \\"x\\" .incbin */\\n.macro"; }\n')
    box.changes(CPP, lambda: path.write_text('const char* f() { return "/* .include \\"y\\" .incbin */\\n.macro"; }\n'))


@case
def precompiled_header_appears(box: Box) -> None:
    box.put("h.h", "static inline int v() { return 1; }\n")
    box.put("m.cpp", '#include "h.h"\nint f() { return v(); }\n')
    box.put("old/h.h", "static inline int v() { return 2; }\n")
    line = next(line for line in subprocess.run(["nvcc", "--dryrun", *CPP], cwd=box.work, stderr=subprocess.PIPE, text=True, check=True)
                .stderr.splitlines() if " -c " in line)
    options = re.findall(r'-D\S+|-m64|-W\S+', line)
    words = ["gcc", *options, "-x", "c++-header", "old/h.h", "-o", "h.h.gch"]
    box.changes(CPP, lambda: subprocess.run(words, cwd=box.work, check=True), differs=False)


# Libraries.

@case
def module_with_a_library_of_gcc(box: Box) -> None:
    box.put("m.cpp", FOLDED)
    box.shim("libmpfr.so.6", "mod")
    box.changes(CPP, lambda: None, env_after={"LD_LIBRARY_PATH": str(box.work / "mod")})


@case
def library_of_gcc_appears(box: Box) -> None:
    box.put("m.cpp", FOLDED)
    (box.work / "mod").mkdir()
    box.changes(CPP, lambda: box.shim("libmpfr.so.6", "mod"), env={"LD_LIBRARY_PATH": str(box.work / "mod")})


@case
def folder_of_libraries_appears(box: Box) -> None:
    box.put("m.cpp", FOLDED)
    box.changes(CPP, lambda: box.shim("libmpfr.so.6", "deep/mod"), env={"LD_LIBRARY_PATH": "deep/mod"})


@case
def library_for_a_kind_of_processors(box: Box) -> None:
    box.put("m.cpp", FOLDED)
    (box.work / "mod").mkdir()
    box.changes(CPP, lambda: box.shim("libmpfr.so.6", "mod/glibc-hwcaps/x86-64-v2"), env={"LD_LIBRARY_PATH": str(box.work / "mod")}, differs=False)


@case
def library_in_the_working_directory(box: Box) -> None:
    box.put("m.cpp", FOLDED)
    box.changes(CPP, lambda: box.shim("libmpfr.so.6", "."))


@case
def library_in_another_working_directory(box: Box) -> None:
    """A source that is named by its whole path, so that its call may be found from other folders."""
    path = box.put("m.cpp", FOLDED)
    for folder in ("one", "two"):
        (box.work / folder).mkdir()
    box.shim("libmpfr.so.6", "one")
    settle()
    words = ["-c", str(path), "-o", "m.o"]
    if box.check("with it", words, cwd="one") == box.check("without it", words, cwd="two"):
        raise Wrong("the library doesn't show: the case says nothing")
    settle()
    for folder in ("one", "two", "one"):
        box.check(f"in {folder}", words, cwd=folder)


@case
def library_of_cicc_in_the_working_directory(box: Box) -> None:
    box.put("k.cu", DEVICE_FOLDED)
    box.changes(["-arch=sm_80", "-ptx", "k.cu", "-o", "k.ptx"], lambda: box.shim("libm.so.6", "x86_64"))


@case
def order_of_folders_of_libraries(box: Box) -> None:
    box.put("m.cpp", FOLDED)
    box.shim("libmpfr.so.6", "mod")
    (box.work / "real").mkdir()
    tool = subprocess.run(["gcc", "-print-prog-name=cc1plus"], capture_output=True, text=True, check=True).stdout.strip()
    listed = subprocess.run(["ldd", tool], capture_output=True, text=True, check=True).stdout
    shutil.copy(re.findall(r"=> (\S+libmpfr\S+)", listed)[0], box.work / "real/libmpfr.so.6")
    one, other = (f"{box.work}/{first}:{box.work}/{second}" for first, second in (("real", "mod"), ("mod", "real")))
    box.changes(CPP, lambda: None, env={"LD_LIBRARY_PATH": one}, env_after={"LD_LIBRARY_PATH": other})


@case
def library_that_is_loaded_before_all(box: Box) -> None:
    box.put("m.cpp", FOLDED)
    box.shim("libmpfr.so.6", "mod")
    box.shim("libmpfr.so.6", "other")
    (box.work / "mod/libmpfr.so.6").rename(box.work / "mod/libown.so")
    kept, empty = box.work / "mod/libown.so", box.work / "other/empty.so"
    subprocess.run(["gcc", "-shared", "-x", "c", "/dev/null", "-o", empty], check=True)
    (box.work / "mod/shim.so").write_bytes(kept.read_bytes())
    kept.write_bytes(empty.read_bytes())
    environment = {"LD_LIBRARY_PATH": str(box.work / "mod"), "LD_PRELOAD": "libown.so"}
    box.changes(CPP, lambda: kept.write_bytes((box.work / "mod/shim.so").read_bytes()), env=environment)


# Names that appear, or are sought elsewhere.

@case
def asked_header_appears(box: Box) -> None:
    box.put("k.cu", '#if __has_include("sub/opt.h")\n#define V 2\n#else\n#define V 1\n#endif\n' + USES.partition("\n")[2])
    box.changes(CUDA, lambda: box.put("sub/opt.h", "\n"))


@case
def header_appears_in_an_earlier_folder(box: Box) -> None:
    box.put("late/sub/h.h", "#define V 1\n")
    (box.work / "early").mkdir()
    box.put("k.cu", USES.replace('"h.h"', "<sub/h.h>"))
    box.changes(["-Iearly", "-Ilate", *CUDA], lambda: box.put("early/sub/h.h", "#define V 2\n"))


@case
def folder_appears_on_a_way_up(box: Box) -> None:
    box.put("inc/h.h", "#define V 1\n")
    (box.work / "inc/sub").mkdir()
    box.put("k.cu", USES.replace("h.h", "sub/../h.h"))

    def change() -> None:
        (box.work / "sub").mkdir()
        box.put("h.h", "#define V 2\n")
    box.changes(["-Iinc", *CUDA], change)


@case
def folder_of_the_path_appears(box: Box) -> None:
    """A folder that a variable names, which wasn't there."""
    box.put("late/h.h", "#define V 1\n")
    box.put("m.cpp", HOST.replace('"h.h"', "<h.h>"))
    box.changes(CPP, lambda: box.put("never/h.h", "#define V 2\n"), env={"CPATH": "never:late"})


@case
def order_of_a_variables_folders(box: Box) -> None:
    for folder, value in (("a", 1), ("b", 2)):
        box.put(f"{folder}/h.h", f"#define V {value}\n")
    box.put("k.cu", USES.replace('"h.h"', "<h.h>"))
    box.changes(CUDA, lambda: None, env={"CPLUS_INCLUDE_PATH": "a:b"}, env_after={"CPLUS_INCLUDE_PATH": "b:a"})


@case
def next_header_appears(box: Box) -> None:
    box.put("a/h.h", "#include_next <h.h>\n")
    box.put("c/h.h", "#define V 1\n")
    (box.work / "b").mkdir()
    box.put("k.cu", USES.replace('"h.h"', "<h.h>"))
    box.changes(["-Ia", "-Ib", "-Ic", *CUDA], lambda: box.put("b/h.h", "#define V 2\n"))


@case
def header_that_is_given_first(box: Box) -> None:
    path = box.put("given.h", "#define V 1\n")
    box.put("k.cu", USES.partition("\n")[2])
    box.changes(["-include", "given.h", *CUDA], lambda: path.write_text("#define V 2\n"))


@case
def list_of_options(box: Box) -> None:
    path = box.put("options", "-DV=1\n")
    box.put("m.cpp", HOST.partition("\n")[2])
    box.changes(["--options-file", "options", *CPP], lambda: path.write_text("-DV=2\n"))


@case
def list_of_options_of_gcc(box: Box) -> None:
    path = box.put("options", "-DV=1\n")
    box.put("m.cpp", HOST.partition("\n")[2])
    box.changes(["-Xcompiler", "@options", *CPP], lambda: path.write_text("-DV=2\n"))


@case
def program_appears_for_gcc(box: Box) -> None:
    """An assembler in a folder where gcc looks first."""
    box.put("m.cpp", FOLDED)
    (box.work / "tools").mkdir()
    script = box.put("as.c", "#include <unistd.h>\n#include <string.h>\n#include <stdlib.h>\n"
                     "int main(int n, char** w) { char** v = malloc((n + 2) * 8);"
                     ' memcpy(v, w, n * 8); v[n] = "--defsym=own=7"; v[n + 1] = 0; v[0] = "as"; execv("/usr/bin/as", v); return 1; }\n')
    words = ["gcc", str(script), "-o", f"{box.work}/tools/as"]
    box.changes(CPP, lambda: subprocess.run(words, check=True), env={"COMPILER_PATH": str(box.work / "tools")}, differs=False)


@case
def specs_appear_for_gcc(box: Box) -> None:
    version = subprocess.run(["gcc", "-dumpversion"], capture_output=True, text=True, check=True).stdout.strip()
    machine = subprocess.run(["gcc", "-dumpmachine"], capture_output=True, text=True, check=True).stdout.strip()
    box.put("m.cpp", "#ifdef OWN\nint f() { return 2; }\n#else\nint f() { return 1; }\n#endif\n")
    folder = box.work / "tools" / machine / version
    folder.mkdir(parents=True)
    environment = {name: str(box.work / "tools") for name in ("LIBRARY_PATH", "COMPILER_PATH")}
    box.changes(CPP, lambda: (folder / "specs").write_text("*cpp_unique_options:\n+ -DOWN=1\n\n"), env=environment, differs=False)


@case
def profile_changes(box: Box) -> None:
    kit = toolkit(box, "kit")
    box.put("m.cpp", HOST)
    for folder, value in (("p1", 1), ("p2", 2)):
        box.put(f"{folder}/h.h", f"#define V {value}\n")
    profile = kit / "bin/nvcc.profile"
    text = profile.read_text()
    own = '{}\nINCLUDES += "-I{}/{}" $(_SPACE_)\n'
    profile.write_text(own.format(text, box.work, "p1"))
    box.changes(CPP, lambda: profile.write_text(own.format(text, box.work, "p2")), env={"PATH": f"{kit}/bin:{os.environ['PATH']}"})


@case
def device_library_changes(box: Box) -> None:
    kit = toolkit(box, "kit")
    box.put("k.cu", DEVICE_FOLDED)
    library = next((kit / "nvvm/libdevice").iterdir())
    box.changes(["-arch=sm_80", "-ptx", "k.cu", "-o", "k.ptx"], lambda: library.write_bytes(b"no library"),
                env={"PATH": f"{kit}/bin:{os.environ['PATH']}"}, differs=False)


# Variables and words.

@case
def words_of_a_variable(box: Box) -> None:
    box.put("m.cpp", HOST.partition("\n")[2])
    box.changes(CPP, lambda: None, env={"NVCC_APPEND_FLAGS": "-DV=1"}, env_after={"NVCC_APPEND_FLAGS": "-DV=2"})


@case
def date_by_a_variable(box: Box) -> None:
    box.put("m.cpp", "const char* f() { return __DATE__ __TIME__; }\n")
    box.changes(CPP, lambda: None, env={"SOURCE_DATE_EPOCH": "1"}, env_after={"SOURCE_DATE_EPOCH": "99999999"})


@case
def time_of_a_header(box: Box) -> None:
    path = box.put("h.h", "static const char* stamp = __TIMESTAMP__;\n#define V stamp[23]\n")
    box.put("k.cu", USES.replace("*p = V", "*p = 1"))
    box.changes(CUDA, lambda: os.utime(path, (1e9, 1e9)))


@case
def variables_of_tools(box: Box) -> None:
    """Variables that EDG's front end, cicc and the assembler ask for."""
    box.put("k.cu", KERNEL)
    variables = {"EDG_BASE": "/nowhere", "EDG_SUPPRESS_ASSERTION_LINE_NUMBER": "1", "NVVM_IR_VER_CHK": "0", "AS_SECURE_LOG_FILE": "log",
                 "NOCOLOR": "1", "LIBNVVM_DISABLE_CONCURRENT_API": "1", "USR_INCLUDE": "/nowhere", "GCC_ROOT": "/nowhere", "NVVMCCWIZ": "553282",
                 "MALLOC_CONF": "narenas:1"}
    for name, value in variables.items():
        box.check(f"{name} isn't set", CUDA)
        box.check(f"{name} is set", CUDA, env={name: value})


@case
def language_of_messages(box: Box) -> None:
    box.put("m.cpp", "static int unused(int a) { return a; }\n")
    words = ["-Xcompiler", "-Wall", *CPP]
    all_variables: list[dict[str, str]] = [
        {}, {"LC_ALL": "C"}, {"LC_ALL": "C.UTF-8"}, {"LANGUAGE": "de", "LC_ALL": "C.UTF-8"}, {"LOCPATH": "/nowhere", "LC_ALL": "C.UTF-8"},
        {"GCC_COLORS": "error=01"}, {"TERM": "dumb"}, {}]
    for variables in all_variables:
        box.check(str(variables), words, env=variables)


@case
def lines_in_messages(box: Box) -> None:
    path = box.put("h.h", "static int unused(int a) { return a; }\n#define V 1\n")
    box.put("k.cu", USES)
    moved = "\n// a line\n" + path.read_text()
    box.changes(["-Xcompiler", "-Wall", *CUDA], lambda: path.write_text(moved), differs=False)


@case
def system_header_or_not(box: Box) -> None:
    box.put("inc/h.h", "inline int bad(unsigned a, int b) { int never; return a < b; }\n#define V bad(1, 2)\n")
    box.put("k.cu", USES.replace("*p = V", "*p = 1"))
    box.put("m.cpp", HOST)
    settle()
    for words in (CUDA, CPP):
        for option in ("-isystem", "-I", "-isystem"):
            box.check(option, ["-Xcompiler", "-Wall,-Wextra", option, "inc", *words])


@case
def name_of_a_source(box: Box) -> None:
    for folder in ("a", "b"):
        box.put(f"{folder}/m.cpp", "const char* f() { return __FILE__ __BASE_FILE__; }\n")
    box.link("sub", "a")
    settle()
    for path in ("sub/m.cpp", "./sub/m.cpp", "a/m.cpp", "b/m.cpp", "sub/../b/m.cpp"):
        box.check(path, ["-c", path, "-o", "m.o"])


@case
def lines_by_a_macro(box: Box) -> None:
    path = box.put("h.h", "#define LINE __LINE__\n")
    box.put("g.h", "// comment\nint g = LINE;\n")
    box.put("k.cu", '#include "h.h"\n#include "g.h"\n' + KERNEL)
    box.changes(CUDA, lambda: box.put("g.h", "// comment\n// comment\n\nint g = LINE;\n"))
    box.changes(CUDA, lambda: path.write_text("\n#define LINE 7\n"))


@case
def copies_of_a_header_that_is_read_once(box: Box) -> None:
    for folder in ("a", "b"):
        box.put(f"{folder}/h.h", "#pragma once\nstatic int once() { return 1; }\n")
        os.utime(box.work / folder / "h.h", (1e9, 1e9))
    box.put("m.cpp", '#include "a/h.h"\n#include "b/h.h"\nint f() { return once(); }\n')
    box.changes(CPP, lambda: os.utime(box.work / "b/h.h", (1.1e9, 1.1e9)))


@case
def product_is_a_source(box: Box) -> None:
    """What one call makes is what another one reads."""
    box.put("a.cpp", "int a() { return 1; }\n")
    box.put("m.cpp", '#if __has_include("a.o")\nint f() { return 2; }\n#else\nint f() { return 1; }\n#endif\n')
    box.changes(CPP, lambda: box.check("a", ["-c", "a.cpp", "-o", "a.o"]))


@case
def header_older_than_what_it_depends_on(box: Box) -> None:
    box.put("m.cpp", '#pragma GCC dependency "other.h"\nint f() { return 1; }\n')
    path = box.put("other.h", "\n")
    os.utime(path, (1e9, 1e9))
    box.changes(CPP, lambda: os.utime(path, (4e9, 4e9)), differs=False)


@case
def large_files(box: Box) -> None:
    """An entry of 24 MiB is right, and it stays."""
    path = box.put("m.cpp", "extern char big[]; char big[24 << 20] = {1};\n")
    box.changes(CPP, lambda: path.write_text("extern char big[]; char big[24 << 20] = {2};\n"))
    subprocess.run([box.own.with_name("zigrunk-cache"), "limit"], env=box.environment, check=True, stdout=subprocess.DEVNULL)
    (box.room / "log").unlink()
    box.check("it stays", CPP)
    if '"hit":true' not in (box.room / "log").read_text():
        raise Wrong("an entry of 24 MiB is gone")


@case
def readers_of_others(box: Box) -> None:
    """A header that can't be read any more, as another user sees it."""
    if os.geteuid() == 0:
        raise Skipped("root reads all")
    path = box.put("h.h", "#define V 1\n")
    box.put("m.cpp", HOST)
    box.changes(CPP, lambda: path.chmod(0), differs=False)


# What comes and goes within a call.

# A source that takes long to read, so that much time is between the cache's look at gcc and the compile, which is slow, too.
LARGE = "".join(f"extern int a{number};\n" for number in range(100_000)) + f"#ifndef __CUDA_ARCH__\n{SLOW.replace('300', '90')}#endif\n"


@case
def library_within_a_call(box: Box) -> None:
    """In the working directory, where calls put their products, and which is always one of the loader's folders."""
    box.put("k.cu", LARGE + FOLDED.replace("f()", "g()") + KERNEL)
    box.shim("libmpfr.so.6", "mod")
    path, away = box.work / "libmpfr.so.6", box.work / "mod/libmpfr.so.6"
    box.within(CUDA, lambda: away.rename(path), lambda: path.rename(away))


@case
def library_of_a_kind_of_processors_within_a_call(box: Box) -> None:
    box.put("k.cu", LARGE + FOLDED.replace("f()", "g()") + KERNEL)
    box.shim("libmpfr.so.6", "mod/glibc-hwcaps/x86-64-v2")
    path, away = box.work / "glibc-hwcaps", box.work / "mod/glibc-hwcaps"
    box.within(CUDA, lambda: away.rename(path), lambda: path.rename(away))


@case
def assembler_within_a_call(box: Box) -> None:
    """An assembler in a folder where gcc looks first, which removes itself when it is run."""
    box.put("k.cu", LARGE + KERNEL)
    real, away = shutil.which("as"), box.put("away", "")
    away.write_text(f'#!/bin/sh\nrm -f "$0"\n{real} "$@"\nfor word; do [ "$last" != -o ] || out=$word; last=$word; done\n'
                    'objcopy --add-section .other=/etc/hostname "$out"\n')
    away.chmod(0o755)
    (box.work / "tools").mkdir()
    box.environment["COMPILER_PATH"] = str(box.work / "tools")
    box.once_asked(CUDA, lambda: away.rename(box.work / "tools/as"), lambda: None)


@case
def specs_within_a_call(box: Box) -> None:
    version = subprocess.run(["gcc", "-dumpversion"], capture_output=True, text=True, check=True).stdout.strip()
    machine = subprocess.run(["gcc", "-dumpmachine"], capture_output=True, text=True, check=True).stdout.strip()
    box.put("k.cu", LARGE + KERNEL)
    folder = box.work / "tools" / machine / version
    folder.mkdir(parents=True)
    variables = {name: str(box.work / "tools") for name in ("LIBRARY_PATH", "COMPILER_PATH")}
    text = "*cc1_options:\n+ -fpatchable-function-entry=3\n\n"
    box.within(CUDA, lambda: (folder / "specs").write_text(text), lambda: (folder / "specs").unlink(), variables)


@case
def profile_within_a_call(box: Box) -> None:
    """A toolkit's profile is another while nvcc reads it."""
    kit = toolkit(box, "kit")
    box.put("m.cpp", SLOW + HOST)
    for folder, value in (("p1", 1), ("p2", 2)):
        box.put(f"{folder}/h.h", f"#define V {value}\n")
    profile, away = kit / "bin/nvcc.profile", kit / "bin/away"
    own = f'{profile.read_text()}\nINCLUDES += "-I{box.work}/{{}}" $(_SPACE_)\n'
    profile.write_text(own.format("p1"))
    away.write_text(own.format("p2"))
    variables = {"PATH": f"{kit}/bin:{os.environ['PATH']}"}
    settle()
    first = box.room / "first"
    profile.rename(first)
    away.rename(profile)
    with subprocess.Popen([box.own, *CPP, f"-I{box.room}/small"], cwd=box.work, env={**box.environment, **variables}) as process:
        while process.poll() is None and not box.compiles():
            time.sleep(0.01)
        profile.rename(away)
        first.rename(profile)
    settle()
    box.check("undone within a call", CPP, variables)


@case
def header_within_a_call(box: Box) -> None:
    """A header in an earlier folder, which comes and goes by a rename of the folder."""
    box.put("m.cpp", SLOW + HOST)
    box.put("late/h.h", "#define V 1\n")
    box.put("away/h.h", "#define V 2\n")
    path, away = box.work / "early", box.work / "away"
    box.within(["-Iearly", "-Ilate", *CPP], lambda: away.rename(path), lambda: path.rename(away))


# Files beside the product, and what is at its place.

@case
def files_beside_a_product(box: Box) -> None:
    box.put("m.cpp", HOST.partition("\n")[2].replace("V", "1"))
    box.put("k.cu", KERNEL)
    for option in ("-fstack-usage", "-gsplit-dwarf", "--coverage", "-fdump-tree-optimized", "-save-temps=obj", "-fcallgraph-info", "-Wa,-al=listing",
                   "-MMD", "-Wp,-MD,rule", "-fopt-info-all=notes", "-fdump-final-insns"):
        for words in (CPP, CUDA):
            box.leaves([f"-Xcompiler={option}", *words])


@case
def dependencies_by_a_variable(box: Box) -> None:
    box.put("h.h", "#define V 1\n")
    box.put("m.cpp", HOST)
    box.put("k.cu", USES)
    for name in ("DEPENDENCIES_OUTPUT", "SUNPRO_DEPENDENCIES"):
        for words in (CPP, CUDA):
            box.leaves(words, {name: str(box.work / "rule")})


@case
def what_is_at_a_products_place(box: Box) -> None:
    box.put("m.cpp", HOST.partition("\n")[2].replace("V", "1"))
    box.put("k.cu", KERNEL)
    box.put("kept", "old")

    def put(mode: int, name: str) -> None:
        (box.work / name).write_text("old")
        (box.work / name).chmod(mode)

    def put_twins(product: str) -> None:
        put(0o644, "twin")
        os.link(box.work / "twin", box.work / product)
    for words in (CPP, CUDA, ["-arch=sm_80", "-ptx", "k.cu", "-o", "k.ptx"], ["-arch=sm_80", "-fatbin", "k.cu", "-o", "k.fatbin"]):
        product = words[-1]
        box.leaves(words)
        box.leaves(words, before=lambda product=product: put(0o600, product))  # type: ignore[misc]
        box.leaves(words, before=lambda product=product: put(0o777, product))  # type: ignore[misc]
        box.leaves(words, before=lambda product=product: (box.work / product).symlink_to("other"))  # type: ignore[misc]
        box.leaves(words, before=lambda product=product: put_twins(product))  # type: ignore[misc]


# Words of other programs, and of the machine.

@case
def specs_by_a_word(box: Box) -> None:
    path = box.put("own.specs", "*cpp_unique_options:\n+ -DV=1\n\n")
    box.put("m.cpp", HOST.partition("\n")[2])
    box.changes(["-Xcompiler", "-specs=own.specs", *CPP], lambda: path.write_text("*cpp_unique_options:\n+ -DV=2\n\n"))


@case
def folder_of_programs_by_a_word(box: Box) -> None:
    box.put("m.cpp", FOLDED)
    script = box.put("as.c", "#include <unistd.h>\n#include <string.h>\n#include <stdlib.h>\n"
                     "int main(int n, char** w) { char** v = malloc((n + 2) * 8);"
                     ' memcpy(v, w, n * 8); v[n] = "--defsym=own=7"; v[n + 1] = 0; v[0] = "as"; execv("/usr/bin/as", v); return 1; }\n')
    (box.work / "tools").mkdir()
    words = ["gcc", str(script), "-o", f"{box.work}/tools/as"]
    box.changes(["-Xcompiler", "-Btools", *CPP], lambda: subprocess.run(words, check=True), differs=False)


@case
def host_compiler_appears(box: Box) -> None:
    """A gcc in an earlier folder of PATH, which is a program."""
    box.put("m.cpp", "#ifdef OWN\nint f() { return 2; }\n#else\nint f() { return 1; }\n#endif\n")
    script = box.put("gcc.c", "#include <unistd.h>\n#include <string.h>\n#include <stdlib.h>\n"
                     "int main(int n, char** w) { char** v = malloc((n + 2) * 8);"
                     ' memcpy(v, w, n * 8); v[n] = "-DOWN"; v[n + 1] = 0; v[0] = "gcc"; execv("/usr/bin/gcc", v); return 1; }\n')
    (box.work / "tools").mkdir()
    words = ["gcc", str(script), "-o", f"{box.work}/tools/gcc"]
    box.changes(CPP, lambda: subprocess.run(words, check=True), env={"PATH": f"{box.work}/tools:{os.environ['PATH']}"})


@case
def tool_is_replaced_by_one_of_the_same_time(box: Box) -> None:
    kit = toolkit(box, "kit")
    box.put("k.cu", KERNEL)
    ptxas, real = kit / "bin/ptxas", kit / "bin/real"
    script = box.put("ptxas.c", "#include <unistd.h>\n#include <string.h>\n#include <stdlib.h>\n"
                     "int main(int n, char** w) { char** v = malloc((n + 2) * 8);"
                     ' memcpy(v, w, n * 8); v[n] = "-O0"; v[n + 1] = 0; execv(REAL, v); return 1; }\n')

    def change() -> None:
        status = ptxas.stat()
        ptxas.rename(real)
        subprocess.run(["gcc", f'-DREAL="{real}"', str(script), "-o", str(ptxas)], check=True)
        os.truncate(ptxas, status.st_size)
        os.utime(ptxas, ns=(status.st_atime_ns, status.st_mtime_ns))
    box.changes(CUDA, change, env={"PATH": f"{kit}/bin:{os.environ['PATH']}"}, differs=False)


@case
def locale_appears(box: Box) -> None:
    """The form of quotes in messages comes from a locale, which appears in a folder of a variable. The cache doesn't notice it yet."""
    box.put("m.cpp", "static int unused(int a) { return a; }\n")
    folder = box.work / "locales"
    folder.mkdir()
    words = ["localedef", "-i", "en_GB", "-f", "UTF-8", f"{folder}/en_GB.UTF-8"]
    if not shutil.which("localedef") or not pathlib.Path("/usr/share/i18n/locales/en_GB").exists():
        raise Skipped("localedef or its sources aren't there")
    box.changes(["-Xcompiler", "-Wall", *CPP], lambda: subprocess.run(words, capture_output=True, check=False),
                env={"LOCPATH": str(folder), "LC_ALL": "en_GB.UTF-8"})


@case
def folder_for_temporary_files_goes(box: Box) -> None:
    box.put("k.cu", KERNEL)
    box.put("m.cpp", FOLDED)
    (box.work / "tmp").mkdir()
    for words in (CPP, CUDA):
        for _ in range(2):
            box.check("it is there", words, env={"TMPDIR": str(box.work / "tmp")})
        box.check("it is a file", words, env={"TMPDIR": str(box.work / "m.cpp")})
        box.check("it isn't there", words, env={"TMPDIR": str(box.work / "nowhere")})


def attempt(name: str, calls: str, driver: pathlib.Path) -> str | None:
    """Runs a case. Says what is wrong, if something is."""
    with tempfile.TemporaryDirectory() as folder:
        box = Box(pathlib.Path(folder), driver, calls)
        (box.room / "bin/zigrunk-cache").symlink_to(driver)
        try:
            CASES[name](box)
        except Skipped as reason:
            return f"skipped: {reason}"
        except Wrong as wrong:
            return str(wrong)
    return None


def main() -> int:
    if len(sys.argv) < 2:
        print(__doc__, file=sys.stderr)
        return 2
    if "--list" in sys.argv:
        print("\n".join(CASES))
        return 0
    if not all(map(shutil.which, ("nvcc", "gcc", "objcopy"))):
        print("attacks: skipped, nvcc, gcc or objcopy is not on the path\n0 passed, 0 failed, 1 skipped")
        return 0
    odd = ("NVCC_PREPEND_FLAGS", "NVCC_APPEND_FLAGS", "LD_LIBRARY_PATH", "CPATH", "LC_ALL", "LANGUAGE")
    for name in [name for name in os.environ if name.startswith("ZIGRUNK_") or name in odd]:
        del os.environ[name]
    driver, chosen = pathlib.Path(sys.argv[1]).resolve(), sys.argv[2:] or list(CASES)
    tasks = [(name, calls) for name in chosen for calls in ("1", "0")]
    counts = {"passed": 0, "failed": 0, "skipped": 0}
    with ThreadPoolExecutor(4) as threads:
        for (name, calls), problem in zip(tasks, threads.map(lambda task: attempt(task[0], task[1], driver), tasks)):
            outcome = "passed" if problem is None else "skipped" if problem.startswith("skipped") else "failed"
            counts[outcome] += 1
            if problem is not None:
                print(f"{name}, {'whole calls' if calls == '1' else 'commands'}: {problem}", flush=True)
    skipped = f", {counts['skipped']} skipped" if counts["skipped"] else ""
    print(f"{counts['passed']} passed, {counts['failed']} failed{skipped}")
    return 1 if counts["failed"] else 0


if __name__ == "__main__":
    sys.exit(main())
