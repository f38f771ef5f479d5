#!/usr/bin/env python3
"""Compares what the driver's observer says of a command (`zigrunk cache observe`) with what the kernel says (strace), for calls of nvcc. A path that
the kernel saw and the observer didn't is a failure, unless REASONS has it. Then it runs commands whose lists can't be whole, and has the observer
say so.

    tests/driver_cache/observe.py DRIVER [--calls FILE,..] [--most N] [--only TEXT] [--jobs N]

FILE has calls as tests/compare_calls.py reads them: some twenty of the first by default. --most takes this many of each, spread evenly.

The last line is 'N passed, M failed'; the status is 1 if one failed. It needs strace; calls need nvcc."""
import argparse
import codecs
import concurrent.futures
import os
import re
import shutil
import subprocess
import sys
import tempfile
from collections import Counter
from collections.abc import Callable, Iterator
from pathlib import Path
from typing import NamedTuple

HERE = Path(__file__).resolve().parent
sys.path.insert(0, str(HERE.parent))
from compare_calls import Call, write_sources  # noqa: E402
from runner import Counts, skip_all  # noqa: E402


class Asked(NamedTuple):
    """What a process asked the kernel: the call, the path in full, and the error, if it got one."""
    call: str
    path: str
    error: str


LOADER = "the loader looks for a folder of libraries; where it looks for files is in the list"
# Folders where it looks for those that suit the processor.
CAPABILITIES = "(glibc-hwcaps|tls|haswell|avx512_1|x86_64)"
# Paths that the observer doesn't see, each with the reason why nothing is lost.
REASONS = [
    (rf".*/{CAPABILITIES}(/.*)?", LOADER),
    (r"/usr/(lib|share)/locale(/.*)?|/usr/share/locale-langpack/.*", "the C library reads how messages are written: the cache knows where it looks"),
    (r"/etc/localtime|/usr/share/zoneinfo/.*", "the C library reads the time zone: a text with the time isn't kept"),
    (r"/usr/lib/[^/]+/gconv/.*", "the C library reads how messages are written; a command that converts texts isn't kept"),
    (r"/etc/(passwd|nsswitch\.conf|group)", "the C library looks for the user"),
    (r"/sys/devices/system/cpu(/.*)?|/sys/fs/cgroup/.*", "the C library counts processors"),
    (r"/etc/malloc\.conf", "cicc's allocator reads its settings before the C library has begun"),
    (r"/proc/self/.*|/proc/[0-9]+/.*|/proc/(meminfo|stat|cpuinfo|mounts)|/proc/sys/.*|/dev/(null|tty|urandom|random)", "the kernel makes it up"),
]
KINDS = ("program", "library", "read", "listed", "seen", "followed", "made", "lacking", "sought")
STRACE = ["strace", "-f", "--seccomp-bpf", "-y", "-s", "4096", "-e", "signal=none", "-e",
          "trace=open,openat,openat2,stat,lstat,newfstatat,statx,access,faccessat,faccessat2,"
          "readlink,readlinkat,execve,execveat,chdir,getdents64"]
LINE = re.compile(r"^(\d+) +(\w+)\((.*)\) += (-?\d+|\?)(?:<.*>)?(?: (E[A-Z]+))?.*$", re.DOTALL)
FOLDER = re.compile(r"^(?:AT_FDCWD|\d+)(?:<((?:[^>\\]|\\.)*)>)?, ")
TEXT = re.compile(r'^"((?:[^"\\]|\\.)*)"')


def plain(path: str) -> str:
    """A path without what says nothing, as the list has it."""
    return re.sub(r"/(\.?/)+", "/", path + "/").rstrip("/") or "/"


def text_of(escaped: str) -> str:
    return os.fsdecode(codecs.escape_decode(escaped.encode("latin-1", "surrogateescape"))[0])


def whole_lines(trace: str) -> Iterator[str]:
    """Joins a call that another process interrupted in the trace."""
    begun: dict[str, str] = {}
    for line in trace.splitlines():
        process, _, rest = line.partition(" ")
        if rest.endswith("<unfinished ...>"):
            begun[process] = rest.removesuffix("<unfinished ...>").rstrip()
        elif resumed := re.match(r"\s*<\.\.\. \w+ resumed>(.*)", rest):
            yield f"{process} {begun.pop(process, '')}{resumed[1]}"
        else:
            yield line


def asked(trace: str, cwd: str) -> Iterator[Asked]:
    """What the command's processes asked the kernel: without the first process, which is the driver."""
    places: dict[str, str] = {}
    driver = trace.partition(" ")[0]
    for line in whole_lines(trace):
        found = LINE.match(line)
        if not found or found[1] == driver:
            continue
        process, call, words, _, error = found.groups()
        folder = FOLDER.match(words)
        if call == "getdents64":
            yield Asked(call, text_of(re.sub(r"^\d+<(.*?)>,.*", r"\1", words)), "")
            continue
        path = TEXT.match(words[folder.end():] if folder else words)
        if not path or not path[1]:
            continue
        place = text_of(folder[1]) if folder and folder[1] else places.get(process, cwd)
        whole = os.path.join(place, text_of(path[1]))
        if call == "chdir" and not error:
            places[process] = os.path.normpath(whole)
        yield Asked(call, plain(whole), error or "")


def listed(text: str) -> dict[str, set[str]]:
    kinds: dict[str, set[str]] = {}
    for line in text.splitlines():
        kind, _, path = line.partition(" ")
        kinds.setdefault(kind, set()).add(plain(path))
    return kinds


def way(path: str) -> Iterator[str]:
    """The paths whose links `realpath` reads for a path."""
    place, left, links = "/", path.split("/")[::-1], 0
    while left and links < 41:
        name = left.pop()
        if name in {"", "."}:
            continue
        place = os.path.dirname(place) if name == ".." else os.path.join(place, name)
        if name == "..":
            continue
        yield place
        if os.path.islink(place):
            links += 1
            left += os.readlink(place).split("/")[::-1]
            place = "/" if os.readlink(place).startswith("/") else os.path.dirname(place)


def misses(seen: set[Asked], kinds: dict[str, set[str]], own: str) -> Iterator[tuple[Asked, str]]:
    """What the kernel saw and the observer didn't, each with the reason, if there is one."""
    of = {kind: kinds.get(kind, set()) for kind in KINDS}
    there = set().union(*(of[kind] for kind in KINDS if kind != "lacking"))
    searched = {re.sub(rf"/{CAPABILITIES}(/.*)?$", "", one.path) for one in seen if re.search(rf"/{CAPABILITIES}(/|$)", one.path)}
    ways = {step for path in of["followed"] | of["lacking"] for step in way(path)}
    for one in sorted(seen):
        if one.path.startswith(own):
            continue
        missing = of["lacking"] | of["made"] | of["sought"]
        known = missing if one.error in {"ENOENT", "ENOTDIR"} else of["listed"] if one.call == "getdents64" else there
        if one.path in known or (one.call == "execve" and not one.error and os.path.realpath(one.path) in there):
            continue
        if one.call in {"readlink", "readlinkat", "faccessat2"} and one.path in ways:
            yield one, "the C library follows links for a path that is in the list"
            continue
        if one.path in searched:
            yield one, LOADER
            continue
        yield one, next((reason for pattern, reason in REASONS if re.fullmatch(pattern, one.path)), "")


class Room:
    """A folder for a call, and the driver."""

    def __init__(self, driver: Path) -> None:
        self.driver, self.path = driver, Path(tempfile.mkdtemp(prefix="observe-")).resolve()
        (self.path / "work").mkdir()
        (self.path / "tmp").mkdir()
        self.reasons: Counter[str] = Counter()

    def observe(self, words: list[str], variables: dict[str, str], files: tuple[int, ...] = (), traced: bool = False) -> tuple[int, str, str]:
        """Runs a command, which has these files of ours. Returns its status, the observer's list, and strace's."""
        lists = [self.path / "list", self.path / "trace"]
        strace = [*STRACE, "-o", str(lists[1])] if traced else []
        environment = os.environ | {"TMPDIR": str(self.path / "tmp")} | variables
        ran = subprocess.run([*strace, str(self.driver), "cache", "observe", str(lists[0]), *words], cwd=self.path / "work", env=environment,
                             stdin=subprocess.DEVNULL, stdout=subprocess.PIPE, stderr=subprocess.STDOUT, check=False, pass_fds=files)
        self.said = ran.stdout
        texts = [file.read_text(errors="surrogateescape") if file.exists() else "" for file in lists]
        return ran.returncode, texts[0], texts[1]

    def remove(self) -> None:
        shutil.rmtree(self.path, ignore_errors=True)


def call_findings(driver: Path, call: Call) -> tuple[list[str], Counter[str], int]:
    """What is wrong with a call's list, how often each reason counted, and how many paths the kernel saw."""
    room, counted = Room(driver), Counter[str]()
    try:
        work = room.path / "work"
        write_sources(work, call.headers)
        subprocess.run(["bash", "-c", call.setup], cwd=work, check=False, capture_output=True)
        _, text, trace = room.observe([shutil.which("nvcc") or "nvcc", *call.words], call.env, (), True)
        if text.startswith("unknown: "):
            return [text.strip()], counted, 0
        seen = set(asked(trace, str(work)))
        found = []
        for one, reason in misses(seen, listed(text), str(room.path / "tmp/zigrunk-observer-")):
            counted[reason] += 1
            found += [] if reason else [f"{one.call} {one.path} {one.error}"]
        return found, counted, len({one.path for one in seen})
    finally:
        room.remove()


# What processes.c does, or a command: lines that its list has to have, or the reason why the list isn't whole. @ is the working directory.
CASES: list[tuple[str, list[str], list[str], str]] = [
    ("errno stays", ["./processes", "errno"], ["read @/a", "lacking @/missing"], ""),
    ("all files are closed", ["./processes", "closed"], ["read @/a", "lacking @/missing"], ""),
    ("threads", ["./processes", "threads"], [f"lacking @/missing.{thread}.{at}" for thread in range(8) for at in (0, 199)], ""),
    ("vfork", ["./processes", "vfork"], ["read @/a", "lacking @/none/cat", "program /usr/bin/cat"], ""),
    ("vfork, and no program", ["./processes", "vfork-fails"], ["lacking /missing/cat"], ""),
    ("posix_spawn", ["./processes", "spawn"], ["read @/a", "lacking @/none/cat", "program /usr/bin/cat"], ""),
    ("system", ["./processes", "system"], ["read @/a", "lacking @/none/cat", "program /usr/bin/cat"], ""),
    ("an open folder", ["./processes", "folder"], ["read @/sub/x", "listed @/sub"], ""),
    ("another working directory", ["./processes", "moves"], ["read @/sub/x", "read @/sub/../a", "seen @/sub"], ""),
    ("the working directory by its other name", ["cat", "/proc/self/cwd/a"], ["read @/a"], ""),
    ("what it makes", ["./processes", "makes"], ["made @/new"], ""),
    ("a link", ["cat", "link"], ["read @/link"], ""),
    ("a link that is read", ["readlink", "-e", "link"], ["followed @/link"], ""),
    ("a script", ["./script"], ["read @/script", "read @/a", "program /usr/bin/cat"], ""),
    ("a script without its interpreter's name", ["sh", "-c", "./plain"], ["read @/plain", "read @/a"], ""),
    ("a folder's names", ["sh", "-c", "echo sub/*"], ["listed @/sub"], ""),
    ("no variables", ["./processes", "no-variables"], [], "could not be loaded into /bin/cat"),
    ("a script that drops variables", ["sh", "-c", "env -i cat a"], [], "could not be loaded into /bin/cat"),
    ("a static program", ["./static", "closed"], [], "could not be loaded into the command"),
    ("a static program that runs another", ["./static", "vfork"], [], "could not be loaded into ./static"),
    ("a static program that becomes another", ["./static", "list"], [], "could not be loaded into ./static"),
    ("a static program that another runs", ["sh", "-c", "./static closed; :"], [], "could not be loaded into @/./static"),
    ("a killed process", ["./processes", "killed"], [], "did not come to its end"),
    ("a process that stays", ["./processes", "stays"], [], "unknown: "),
    ("a program that nothing announces", ["./processes", "list"], [], "how it ran /usr/bin/cat"),
    ("a call of the kernel", ["./processes", "kernel"], [], "a system call"),
    ("another name", ["./processes", "renames"], [], "rename"),
    ("a file that was there", ["./processes", "appends"], [], "changed @/a, which was there before"),
    ("standard input by a name", ["cat", "/dev/stdin"], [], "opened /dev/stdin, which is no plain file"),
    ("a pipe", ["sh", "-c", "echo x > pipe & cat pipe; wait"], [], "opened @/pipe, which is no plain file"),
    ("an open file of the caller", ["sh", "-c", "cat <&@a"], [], "got @/a as an open file"),
    ("a limit of sizes", ["sh", "-c", "ulimit -f 1000; cat a"], [], "could not be loaded into /usr/bin/cat"),
    ("a library that is sought by its name", [sys.executable, "-c", "import ctypes; ctypes.CDLL('libm.so.6')"], [], "dlopen"),
    ("what somebody else changes", ["sh", "-c", "cat a; echo more >> a; cat a"], [], "changed"),
]


# The same for which it takes root: the disk for temporary files is full, and another user runs a program with its owner's rights.
ROOT_CASES: list[tuple[str, list[str], list[str], str]] = [
    ("a full disk", ["./processes", "threads"], [], "unknown: "),
    ("a program with its owner's rights", ["./owned", "errno"], [], "could not be loaded into the command"),
    ("another user", ["./processes", "errno"], ["read @/a", "lacking @/missing"], ""),
]


def full(room: Room) -> None:
    """Leaves little room for temporary files."""
    subprocess.run(["mount", "-t", "tmpfs", "-o", "size=128k", "none", str(room.path / "tmp")], check=True)


def of_nobody(room: Room) -> None:
    """Gives the room to another user, who runs the driver there."""
    shutil.copy(room.driver, room.path / "driver")
    (room.path / "setpriv").write_text(f'#!/bin/sh\nexec setpriv --reuid 65534 --regid 65534 --clear-groups {room.path}/driver "$@"\n')
    (room.path / "setpriv").chmod(0o755)
    room.driver = room.path / "setpriv"
    for path in (room.path, room.path / "work", room.path / "tmp"):
        path.chmod(0o777)


def case_findings(driver: Path, words: list[str], wanted: list[str], unknown: str, prepare: Callable[[Room], None] = lambda room: None) -> list[str]:
    """What is wrong with a case."""
    room = Room(driver)
    work = room.path / "work"
    try:
        (work / "sub").mkdir()
        texts = {"a": "text\n", "sub/x": "text\n", "script": "#!/bin/sh\ncat a\n", "plain": "cat a\n"}
        for name, text in texts.items():
            (work / name).write_text(text)
            (work / name).chmod(0o755)
        (work / "link").symlink_to("a")
        os.mkfifo(work / "pipe")
        for name in ("processes", "static", "owned"):
            words_of_cc = ["cc", "-w", "-pthread", *(["-static"] if name == "static" else []), "-o", str(work / name), str(HERE / "processes.c")]
            subprocess.run(words_of_cc, check=True)
        (work / "owned").chmod(0o4755)
        prepare(room)
        variables = {"PATH": f"{work}/none:/usr/bin:/bin"}
        with open(work / "a", encoding="utf-8") as file:
            number = file.fileno()
            ours = (number,) if "@a" in words[-1] else ()
            status, text, _ = room.observe([word.replace("@a", str(number)) for word in words], variables, ours)
        if unknown:
            if status != 0 and "threads" in words:
                return [f"status {status}: {room.said!r}"]
            return [] if text.startswith("unknown: ") and unknown.replace("@", str(work)) in text else [f"the list is {text[:300]}, status {status}"]
        lines = {f"{kind} {path}" for kind, paths in listed(text).items() for path in paths}
        lacks = [line for line in wanted if line.replace("@", str(work)) not in lines]
        return [f"status {status}: {room.said!r}"] * (status != 0) + [f"lacks {line}: {text[:600]}" for line in lacks]
    finally:
        if prepare is full:
            subprocess.run(["umount", str(room.path / "tmp")], check=False)
        room.remove()


def calls_of(files: list[Path], most: int, only: str) -> list[Call]:
    """The calls of some files that can be made here: without stand-ins for tools."""
    chosen: list[Call] = []
    for file in files:
        lines = [line for line in file.read_text().splitlines() if line and not line.startswith("#") and only in line]
        # (what nvcc makes itself, a link or several sources, no cache keeps)
        lines = [line for line in lines if not re.search(r"@(ours|both|cwd|unset|tmp)=|@how=nvcc|@WORK@", line)]
        step = max(1, -(-len(lines) // most)) if most else 1
        chosen += [Call(line, number) for number, line in enumerate(lines[::step])]
    return chosen


def main() -> int:
    parser = argparse.ArgumentParser(description=__doc__, formatter_class=argparse.RawDescriptionHelpFormatter)
    parser.add_argument("driver", type=Path)
    parser.add_argument("--calls", default=str(HERE.parent / "calls_quick.txt"))
    parser.add_argument("--most", type=int, default=0)
    parser.add_argument("--only", default="")
    parser.add_argument("--jobs", type=int, default=2)
    given = parser.parse_args()
    if not shutil.which("strace"):
        return skip_all("the observer", "there is no strace")
    counts, reasons, paths = Counts(), Counter[str](), 0
    if shutil.which("nvcc"):
        calls = calls_of([Path(file) for file in given.calls.split(",")], given.most, given.only)
        with concurrent.futures.ThreadPoolExecutor(given.jobs) as pool:
            for call, (found, counted, count) in zip(calls, pool.map(lambda call: call_findings(given.driver.resolve(), call), calls)):
                counts.case(call.name, found)
                reasons += counted
                paths += count
    for name, words, wanted, unknown in CASES:
        if given.only in name:
            counts.case(name, case_findings(given.driver.resolve(), words, wanted, unknown))
    for name, words, wanted, unknown in ROOT_CASES if os.geteuid() == 0 else []:
        if given.only in name:
            counts.case(name, case_findings(given.driver.resolve(), words, wanted, unknown, full if name == "a full disk" else of_nobody))
    print(f"{paths} paths; not observed, with a reason:")
    for reason, count in reasons.most_common():
        print(f"  {count} {reason or 'without a reason'}")
    return counts.summary()


if __name__ == "__main__":
    sys.exit(main())
