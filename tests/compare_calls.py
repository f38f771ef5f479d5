#!/usr/bin/env python3
"""Makes calls by nvcc and by zigrunk-nvcc, and says what differs.

    tests/compare_calls.py [OPTIONS] FILE..

    --nvcc PATH --ours PATH     the two tools, if not nvcc and the zigrunk-nvcc that `make rust` leaves, or that is in DRIVER_BIN
    --only TEXT                 only the calls whose lines contain TEXT
    --keep FOLDER               keep each call's files below FOLDER
    --scratch FOLDER            make the calls below FOLDER
    --jobs N                    N calls at once, 1 by default
    --json FILE                 write a record of each call
    --reasons                   print why nvcc itself makes calls that compile, or that the lists say are split, and how many for each reason
    --least-split N             at least N per cent of all calls have to be split, of those that nvcc compiles, and of those that the lists say are
    --all                       print the calls that pass too

A line of FILE is the words of a call, quoted as for bash; nothing is globbed. Words in front of them may be

    @name=TEXT          the call's name
    @env=NAME=VALUE     a variable for both tools; @WORK@ is the work folder, in words too
    @unset=NAME         a variable that neither tool gets
    @setup=SHELL        run by bash in the work folder before each tool
    @after=SHELL        run by bash in the work folder after each tool; its output is compared
    @cwd=FOLDER         the folder of the call, below the work folder
    @tmp=FOLDER         TMPDIR, below the work folder; else an empty folder beside it
    @ours=SHELL         run by bash instead of our tool, which is $TOOL; the words are "$@"
    @both=SHELL         the same for both tools
    @targets=given      its targets and C++ standard stay as they are, though an older nvcc may not know them
    @later=WORDS        words of the call that came with a later nvcc: one whose help lacks the first of them gets the call without them
    @instead=WORDS      what it gets in their place
    @headers=toolkit    the call gets the toolkit's cuda_runtime.h, else a small one
    @how=split          the call is split; @how=nvcc: it goes to nvcc unchanged
    @launched=TEXT      the commands that go through a launcher, as 'cicc:2 ptxas:2'; without it there is no launcher
    @differs=KIND,..    the kinds of differences that docs/DIFFERENCES.md lists
    @differs-VERSION=KIND,..  further ones with such an nvcc, as 11 or 11.2; docs/TRIED.md lists them

Both tools work in the same path, one after the other, since paths get into what is made. These are compared: the status, the
names of files that are made or changed, their bytes (of objects without the symbols that `strip` removes, since one of them
names a temporary file), what is printed (without nvcc's names for temporary files), and what is left in TMPDIR but for the user's folder. If
something differs that the line doesn't name, nvcc makes the call once more: what differs between nvcc and nvcc doesn't count.

nvcc includes cuda_runtime.h in every source, and gcc looks for it first where it runs. So a small one in the work folder takes the
toolkit's place for both tools, and a call takes a fifth of the processor's time.

The line before the last has two shares: which of all calls were split, and which of those that nvcc compiles, that is those where it ends with 0
and makes or changes a file. The lists also have calls that print something, as --help and -dryrun do, and calls that nvcc refuses. The line before
has a third: which of those that the lists say are split, by @how and @launched. A call is split if zigrunk-nvcc runs its plan. That counts too if a
command fails and nvcc, before version 12, makes the call again: it may have run another command first, and says what is wrong with that one.

The last line is 'N passed, M failed'. Two tools that always fail alike show nothing. So it is a failure too if no call was made, if
most fail by both tools, if none compiles anything, or if none is split; with --only, that a call was made is enough.

The lists are for nvcc 13. With an older nvcc, both tools get the newest targets and C++ standard that it knows in place of newer ones, and
the targets themselves for -arch=all and -arch=all-major if it has no such word. It may lack an option that no @later names, or run commands in
another order than a plan: then such a call may go to nvcc, whatever its line says of @how and @launched.
"""
import argparse
import concurrent.futures
import hashlib
import json
import os
import re
import shutil
import subprocess
import sys
import tempfile
import time
from collections import Counter
from collections.abc import Iterable, Iterator
from pathlib import Path
from typing import Literal, TypedDict

from runner import TOOLS, Counts

SMALL_HEADER = (Path(__file__).resolve().parent / "small/cuda_runtime.h").read_text()
SOURCES = {
    "cuda_runtime.h": SMALL_HEADER,
    "sub/cuda_runtime.h": SMALL_HEADER,
    "kernel.cu": "#include <cstdio>\n__global__ void add(int*a,int*b){a[threadIdx.x]+=b[threadIdx.x];}\n"
    "int main(){int*a=nullptr,*b=nullptr;add<<<1,32>>>(a,b);return 0;}\n",
    "dev.cu": 'extern "C" __device__ int g(int x){return x*2;}\n',
    "sub/k2.cu": "__global__ void mul(float*a){a[threadIdx.x]*=2.f;}\nvoid run(float*p){mul<<<1,1>>>(p);}\n",
    "sub/file.cu": '#include "a.h"\n__device__ const char*where=__FILE__;\n__global__ void f(int*p){int unused;*p=where[0]+from_b;}\n'
    "const char*name(){return __FILE__;}\nvoid h(int*p){f<<<1,1>>>(p);}\n",
    "sp ace.cu": "__global__ void one(int*a){*a=1;}\n",
    "host.cpp": "int host(){return 3;}\n",
    "host.c": "int chost(void){return 4;}\n",
    "kern.cpp": "__global__ void cppk(int*a){*a=2;}\nvoid call(int*a){cppk<<<1,1>>>(a);}\n",
    "inc/a.h": '#define A 1\n#include "b.h"\n',
    "inc/b.h": "#define B 2\nstatic __device__ int from_b;\n",
    "useinc.cu": '#include "a.h"\n__global__ void inc(int*a){*a=A+B;from_b=1;}\nvoid i(int*a){inc<<<1,1>>>(a);}\n',
    "syntax.cu": "__global__ void s(int*a){*a = ;}\nint x = ;\n",
    "hosterr.cu": "void f(){ int x = missing; }\n",
    "deverr.cu": "__global__ void k(){ missing(); }\n",
    "asmerr.cu": '__global__ void k(){ asm("no such instruction;"); } void host(){}\n',
    "warn.cu": "__global__ void k(int*p){int unused;p[0]=1;}\nint f(){int never;return 1;}\n",
    "gccwarn.cu": "__global__ void k(int*p){p[0]=1;}\nint g(int a){ if(a=1) return 1; int u; return u; }\n",
    "define.cu": '#ifndef NAME\n#define NAME "none"\n#endif\nconst char*name(){return NAME;}\n__global__ void k(char*p){p[0]=NAME[0];}\n',
    "main.cu": 'extern "C" __device__ int g(int);\n__global__ void k(int*a){*a=g(*a);}\nint main(){k<<<1,1>>>(nullptr);return 0;}\n',
    "printf.cu": '#include <cstdio>\n#include <cassert>\n__global__ void k(int*p){assert(p);printf("%d\\n",p[0]);}\n'
    "void f(int*p){k<<<1,1>>>(p);}\n",
    "lambda.cu": "#include <utility>\ntemplate<class F>__global__ void g(F f){f();}\nvoid h(int*p){g<<<1,1>>>([=]__device__(){p[0]=1;});}\n",
    "static.cu": "namespace {__device__ int c;__global__ void anon(int*p){p[0]=c++;}}\nstatic __global__ void st(){}\n"
    "void h(int*p){anon<<<1,1>>>(p);st<<<1,1>>>();}\n",
    "archerr.cu": "#if defined(__CUDA_ARCH__) && __CUDA_ARCH__ >= 800\n#error too new\n#endif\n__global__ void k(int*p){*p=1;}\n",
    "value.cu": "__global__ void k(int*p){*p=V;}\n",
    "inc/warn.h": "#warning from a header\nstatic __device__ int from_w(){int unused;return 1;}\n",
    "line.cu": '#include "warn.h"\n#line 7 "made/by.y"\n__global__ void l(int*p){int never;*p=from_w();}\nconst char*n(){return __FILE__;}\n',
    "lineerr.cu": '#line 3 "made/by.y"\n__global__ void e(int*p){*p=missing;}\n',
}
LAUNCHER = '#!/bin/sh\nprintf "%s\\n" "${1##*/}" >> "$COMPARE_LOG"\nexec "$@"\n'
FIELDS = {"name", "setup", "after", "cwd", "tmp", "ours", "both", "headers", "targets", "later", "instead", "how", "launched", "differs"}
OLD = 1_600_000_000
WRITTEN_FOR = "13.0"  # the version of nvcc whose options the lists have
TARGET = re.compile(r"(?<=\bsm_)\d+|(?<=\bcompute_)\d+|(?<=\blto_)\d+")
# why an older nvcc makes a call that nvcc 13 doesn't make: whatever it does with the call, or if it ends with an error there
OTHERWISE = "nvcc reads the line otherwise"
# a plan ran, and one of its commands failed
MADE_AGAIN = "a command fails, and nvcc has them in another order"
FAILURES = ("a dry run fails", MADE_AGAIN)
# A kind, which is in capitals if it is a failure, and a text.
Difference = tuple[str, str]


class Call:
    """A line of a file of calls."""

    name = setup = after = cwd = tmp = ours = both = headers = targets = later = instead = how = launched = differs = ""

    def __init__(self, line: str, number: int) -> None:
        self.line, self.number = line, number
        self.env: dict[str, str] = {}
        self.unset: list[str] = []
        self.older: dict[str, str] = {}
        words = shell_words(line)
        while words and words[0].startswith("@") and "=" in words[0]:
            key, value = words.pop(0)[1:].split("=", 1)
            if key == "env":
                name, value = value.split("=", 1)
                self.env[name] = value
            elif key == "unset":
                self.unset.append(value)
            elif key.startswith("differs-"):
                self.older[key.removeprefix("differs-")] = value
            elif key in FIELDS:
                setattr(self, key, value)
            else:
                sys.exit(f"{line}: no such field: {key}")
        self.words = words
        self.name = self.name or " ".join(words)


class Ran(TypedDict):
    """What a call by one of the tools did."""

    status: int | str
    out: str
    err: str
    made: dict[str, bytes]
    gone: list[str]
    left: list[str]
    launched: str
    reason: str | None
    seconds: float
    after: str


Compared = tuple[Call, Ran, Ran, list[Difference], list[Difference]]


def shell_words(line: str) -> list[str]:
    out = subprocess.run(["bash", "-c", "set -f; printf '%s\\0' " + line], capture_output=True, check=True).stdout
    return [word.decode("utf-8", "surrogateescape") for word in out.split(b"\0")[:-1]]


def write_sources(folder: Path, headers: str) -> None:
    for name, text in SOURCES.items():
        if text is SMALL_HEADER and headers == "toolkit":
            continue
        path = folder / name
        path.parent.mkdir(parents=True, exist_ok=True)
        path.write_text(text)
        os.utime(path, (OLD, OLD))


def state(path: Path) -> str:
    """What a path holds, as a text that changes if it does."""
    try:
        return "link " + os.readlink(path) if path.is_symlink() else hashlib.sha256(path.read_bytes()).hexdigest()
    except OSError as error:
        return f"unreadable {error.errno}"


def tree(folder: Path) -> dict[str, str]:
    """The files and empty folders below a folder, and what they hold."""
    found = {}
    for root, folders, files in os.walk(folder):
        for name in folders:
            path = Path(root, name)
            if not os.listdir(path):
                found[f"{path.relative_to(folder)}/"] = "folder"
        for name in files:
            path = Path(root, name)
            found[str(path.relative_to(folder))] = state(path)
    return found


def normal(text: str, base: Path) -> str:
    """A text without what differs between two calls of nvcc: names of temporary files, which gcc underlines by their length, and times."""
    text = text.replace(str(base), "BASE")
    text = re.sub(r'(\.(?:fatbin|stub)\.c"\n +\| +\^)~+', r"\1~", text)
    text = re.sub(r"(BASE/tmp|/tmp)/(zigrunk[-.]\w+(/zigrunk-\w+)?|tmpxft[^/ ]*?-\d+)[/_]?", "", text)
    text = re.sub(r"(BASE/tmp/|/tmp/)?tmpxft_[0-9a-f]+_[0-9a-f]+-\d+_?", "", text)
    text = re.sub(r"tmpxft_[0-9a-f]+_[0-9a-f]+", "TMPXFT", text)
    text = re.sub(r"-[0-9a-f]{6}\.\.lgenfe\.bc", "-N..lgenfe.bc", text)
    text = re.sub(r"\b[0-9a-f]+_(stdout|stderr)\b", r"N_\1", text)
    text = re.sub(r"Compile time = [0-9.]+ ms", "Compile time = N ms", text)
    return re.sub(r", [0-9.]+ , ms", ", N , ms", text)


def environment(call: Call, base: Path, log: Path) -> dict[str, str]:
    env = {name: value for name, value in os.environ.items() if not name.startswith("NVCC_")}
    env.update(TMPDIR=str(base / "work" / call.tmp if call.tmp else base / "tmp"), WORK=str(base / "work"))
    env.update(ZIGRUNK_EXPLAIN="1", COMPARE_LOG=str(log))
    if call.launched:
        env["ZIGRUNK_LAUNCHER"] = str(base / "launcher")
    env.update({name: value.replace("@WORK@", str(base / "work")) for name, value in call.env.items()})
    for name in call.unset:
        env.pop(name, None)
    return env


def start(tool: str, call: Call, base: Path, env: dict[str, str]) -> tuple[int | str, str, str, float]:
    """The status of a call, what it printed, and the seconds that it took."""
    words = [word.replace("@WORK@", str(base / "work")) for word in call.words]
    argv = [tool, *words]
    if (shell := call.both or call.ours) and env.get("TOOL"):
        argv = ["bash", "-c", shell, tool, *words]
    began = time.time()
    status: int | str
    try:
        ran = subprocess.run(argv, cwd=base / "work" / call.cwd, env=env, stdin=subprocess.DEVNULL, capture_output=True, timeout=500)
        status, out, err = ran.returncode, ran.stdout, ran.stderr
    except subprocess.TimeoutExpired as stopped:
        status, out, err = "timeout", stopped.stdout or b"", stopped.stderr or b""
    except OSError as error:
        status, out, err = f"not started: {error}", b"", b""
    return status, out.decode("utf-8", "replace"), err.decode("utf-8", "replace"), time.time() - began


def content(path: Path, what: str) -> bytes:
    return what.encode() if what == "folder" or what.startswith(("link", "unreadable")) else path.read_bytes()


def keep_files(keep: Path, call: Call, kind: str, work: Path, out: str, err: str) -> None:
    folder = keep / str(call.number)
    shutil.rmtree(folder / kind, ignore_errors=True)
    folder.mkdir(parents=True, exist_ok=True)
    subprocess.run(["cp", "-a", str(work), str(folder / kind)], check=True)
    (folder / f"{kind}.out").write_text(out)
    (folder / f"{kind}.err").write_text(err)


def run(tool: str, kind: str, call: Call, base: Path, keep: Path | None) -> Ran:
    """A call by one of the tools, as a record of what is compared."""
    work, tmp, log = base / "work", base / "tmp", base / f"{kind}.log"
    for folder in (work, tmp):
        shutil.rmtree(folder, ignore_errors=True)
        folder.mkdir(parents=True)
    write_sources(work, call.headers)
    (base / "launcher").write_text(LAUNCHER)
    (base / "launcher").chmod(0o755)
    env = environment(call, base, log)
    if kind == "ours" or call.both:
        env["TOOL"] = tool
    if call.setup:
        subprocess.run(["bash", "-c", call.setup], cwd=work, env={**os.environ, "WORK": str(work)}, check=True)
    before = tree(work)
    status, out, err, seconds = start(tool, call, base, env)
    after = tree(work)
    said_after = ""
    if call.after:
        ran = subprocess.run(["bash", "-c", call.after], cwd=work, env=env, capture_output=True, text=True, errors="replace")
        said_after = normal(ran.stdout + ran.stderr, base)
    reason = re.search(r"^zigrunk-nvcc: nvcc itself: (.*)\n", err, re.M)
    if reason:
        err = err[: reason.start()] + err[reason.end():]
    if keep:
        keep_files(keep, call, kind, work, out, err)
    launched = sorted(log.read_text().splitlines()) if log.exists() else []
    return {
        "status": status,
        "out": normal(out, base),
        "err": normal(err, base),
        "made": {name: content(work / name, what) for name, what in after.items() if before.get(name) != what},
        "gone": [name for name in before if name not in after],
        "left": sorted(normal(str(path.relative_to(tmp)), base) for path in tmp.rglob("*")) if tmp.exists() else [],
        "launched": " ".join(f"{name}:{launched.count(name)}" for name in sorted(set(launched))),
        "reason": reason[1] if reason else None,
        "seconds": seconds,
        "after": said_after,
    }


def stripped(data: bytes, base: Path) -> bytes | None:
    given, made = base / "given", base / "made"
    given.write_bytes(data)
    ran = subprocess.run(["objcopy", "--strip-unneeded", str(given), str(made)], capture_output=True)
    return made.read_bytes() if ran.returncode == 0 else None


def symbols(data: bytes, base: Path) -> str:
    path = base / "given"
    path.write_bytes(data)
    names = subprocess.run(["nm", "-S", str(path)], capture_output=True, text=True).stdout
    sizes = subprocess.run(["size", "-A", str(path)], capture_output=True, text=True).stdout.split("\n", 2)[-1]
    return re.sub(r"tmpxft\w+|x_0", "N", names + sizes)


def likeness(one: bytes, other: bytes, base: Path) -> str:
    """How two files are alike: 'bytes', 'stripped', 'symbols' or 'text'; else ''."""
    if one == other:
        return "bytes"
    if one[:4] == other[:4] == b"\x7fELF":
        short = stripped(one, base)
        if short is not None and short == stripped(other, base):
            return "stripped"
        return "symbols" if symbols(one, base) == symbols(other, base) else ""
    try:
        return "text" if normal(one.decode(), base) == normal(other.decode(), base) else ""
    except UnicodeDecodeError:
        return ""


def file_differences(want: dict[str, bytes], got: dict[str, bytes], base: Path) -> Iterator[Difference]:
    for name in sorted(set(want) | set(got)):
        if name not in got:
            yield "FILE-LACKS", name
        elif name not in want:
            yield "FILE-EXTRA", name
        elif (how := likeness(want[name], got[name], base)) == "symbols":
            yield "symbols-only", name
        elif not how:
            yield "CONTENT", name


def said_differences(want: Ran, got: Ran) -> Iterator[Difference]:
    if (want["out"], want["err"]) == (got["out"], got["err"]):
        return
    lines = [sorted(text.splitlines()) for text in (want["out"], want["err"], got["out"], got["err"])]
    wanted, given = (sorted(out + errors) for out, errors in (lines[:2], lines[2:]))
    if lines[:2] == lines[2:]:
        yield "ORDER", f"{got['out'] + got['err']!r}, not {want['out'] + want['err']!r}"
    elif wanted == given:
        yield "STREAM", f"{got['out']!r} on standard output, not {want['out']!r}"
    else:
        lacks, extra = ([*(Counter(one) - Counter(other)).elements()] for one, other in ((wanted, given), (given, wanted)))
        yield "SAID", f"lacks {lacks[:3]}, has {extra[:3]} ({len(wanted)} and {len(given)} lines)"


def differences(want: Ran, got: Ran, base: Path) -> list[Difference]:
    """What differs between two runs of a call."""
    found: list[Difference] = []
    if want["status"] != got["status"]:
        found.append(("STATUS", f"{got['status']}, not {want['status']}"))
    found += file_differences(want["made"], got["made"], base)
    found += said_differences(want, got)
    fields: tuple[Literal["gone", "left", "after"], ...] = ("gone", "left", "after")
    for field in fields:
        if want[field] != got[field]:
            found.append((field.upper(), f"{got[field]}, not {want[field]}"[:300]))
    return found


def claims(call: Call, want: Ran, got: Ran, version: str) -> Iterator[Difference]:
    """What a line says of our call that isn't so."""
    if float(version) < float(WRITTEN_FOR) and (got["reason"] == OTHERWISE or want["status"] != 0 and got["reason"] in FAILURES):
        return
    how = "split" if is_split(got) else "nvcc"
    if call.how and call.how != how:
        yield "HOW", f"{how}, not {call.how}: {got['reason']}"
    if call.launched and call.launched != got["launched"]:
        yield "LAUNCHED", f"'{got['launched']}', not '{call.launched}'"


def loud(found: Iterable[Difference]) -> set[str]:
    """The kinds of differences that are failures, unless the line names them."""
    return {kind for kind, _ in found if kind.isupper()}


def explained(call: Call, version: str) -> set[str]:
    """The kinds of differences that a line names for a version of nvcc."""
    names = [call.differs] + [kinds for of, kinds in call.older.items() if f"{version}.".startswith(f"{of}.")]
    return {kind for kinds in names for kind in kinds.split(",")}


def version_of(nvcc: str) -> str:
    """The version of an nvcc: the one that the lists are for, if it doesn't say."""
    said = subprocess.run([nvcc, "--version"], capture_output=True, text=True).stdout
    found = re.search(r"release (\d+\.\d+)", said)
    return found[1] if found else WRITTEN_FOR


def help_of(nvcc: str) -> str:
    """What an nvcc says of its options; nothing if it doesn't."""
    return subprocess.run([nvcc, "--help"], capture_output=True, text=True).stdout


def values_in(said: str) -> set[str]:
    """The values of options that a help lists, as sm_80, all-major and c++17."""
    return set(re.findall(r"'([\w+-]+)'", said))


def suited(line: str, values: set[str]) -> str:
    """A line for an nvcc with these values: in place of newer targets, the newest that it has and the line doesn't name."""
    known = sorted(int(value.removeprefix("sm_")) for value in values if re.fullmatch(r"sm_\d+", value))
    standards = sorted(value for value in values if re.fullmatch(r"c\+\+\d+", value))
    if not known or not standards or "@targets=given " in line:
        return line
    if "all-major" not in values:
        line = re.sub(r"-arch=(all|all-major)(?![\w-])", lambda found: spelled_out(known, found[1] == "all"), line)
    named = sorted({int(number) for number in TARGET.findall(line)}, reverse=True)
    free = [number for number in reversed(known) if number not in named]
    instead = dict(zip((number for number in named if number > known[-1]), free))
    line = TARGET.sub(lambda found: str(instead.get(int(found[0]), found[0])), line)
    line = re.sub(r"\b((?:sm|compute)_\d+)[af]\b", lambda found: found[0] if found[0] in values else found[1], line)
    return re.sub(r"c\+\+2\d", lambda found: found[0] if found[0] in values else standards[-1], line)


def earlier(call: Call, said: str) -> Call:
    """A call without the words that a later nvcc brought, if this one's help lacks the first of them."""
    if not call.later:
        return call
    later = shell_words(call.later)
    option = later[0].split("=")[0].lstrip("-")
    if not said or re.search(rf"(?<![\w-])--?{re.escape(option)}(?![\w-])", said):
        return call
    places = [at for at in range(len(call.words)) if call.words[at:at + len(later)] == later]
    if not places:
        sys.exit(f"{call.line}: it has no words {call.later}")
    call.words[places[0]:places[0] + len(later)] = shell_words(call.instead) if call.instead else []
    return call


def spelled_out(known: list[int], everyone: bool) -> str:
    """What -arch=all or -arch=all-major means to an nvcc that has the word: code for each target or each major one and the first, and PTX."""
    major = [number for number in known if number % 10 == 0]
    targets = known if everyone else sorted({known[0], *major})
    words = [f"-gencode arch=compute_{number},code=sm_{number}" for number in targets]
    return " ".join([*words, f"-gencode arch=compute_{major[-1]},code=compute_{major[-1]}"])


def compare(call: Call, args: argparse.Namespace) -> Compared:
    """A call by both tools: the records, what differs, and what differs between nvcc and nvcc."""
    base = Path(tempfile.mkdtemp(prefix="compare.", dir=args.scratch))
    keep = Path(args.keep) if args.keep else None
    try:
        want = run(args.nvcc, "nvcc", call, base, keep)
        got = run(args.ours, "ours", call, base, keep)
        folder = f"zigrunk-{os.getuid()}"
        got["left"] = [name for name in got["left"] if name != folder]
        got["made"] = {name: what for name, what in got["made"].items() if Path(name).name != folder or what != b"folder"}
        found = differences(want, got, base)
        noise: list[Difference] = []
        if not loud(found) <= explained(call, args.version):
            noise = differences(want, run(args.nvcc, "noise", call, base, keep), base)
            found = [one for one in found if one not in noise or one[0] == "STATUS"]
        return call, want, got, found + list(claims(call, want, got, args.version)), noise
    finally:
        subprocess.run(["chmod", "-R", "u+rwx", str(base)], capture_output=True)
        shutil.rmtree(base, ignore_errors=True)


def compare_all(calls: list[Call], args: argparse.Namespace) -> Iterator[Compared]:
    """The same for each of many calls, several at once."""
    with concurrent.futures.ThreadPoolExecutor(args.jobs) as pool:
        yield from pool.map(lambda one: compare(one, args), calls)


def record_of(compared: Compared, **more: object) -> dict[str, object]:
    """What is kept of a call, and more."""
    call, want, got, found, noise = compared
    return {"number": call.number, "line": call.line, "compiles": makes(want), "reason": got["reason"], "launched": got["launched"],
            "status": [want["status"], got["status"]], "differences": found, "noise": noise, "said": (want["out"] + want["err"])[-400:],
            "seconds": [want["seconds"], got["seconds"]], **more}


def show(verdict: str, compared: Compared) -> None:
    call, want, got, found, noise = compared
    how = f"nvcc: {got['reason'][:90]}" if got["reason"] else f"split {got['launched']}".rstrip()
    print(f"{call.number:3} {verdict} {want['seconds']:.2f} s, {got['seconds']:.2f} s  {call.line[:150]}  [{how}]")
    for kind, text in found:
        print(f"      {kind}: {text}"[:700])
    if noise:
        print(f"      (nvcc and nvcc: {sorted({kind for kind, _ in noise})})")
    sys.stdout.flush()


def path_of(name: str) -> str:
    """The path of a tool. Calls run in other folders, so it is absolute."""
    if found := shutil.which(name):
        return os.path.abspath(found)
    raise argparse.ArgumentTypeError(f"there is no program {name}")


def common_options(usage: str | None) -> argparse.ArgumentParser:
    """The options that random calls have too."""
    parser = argparse.ArgumentParser(usage=usage)
    parser.add_argument("--nvcc", type=path_of, default="nvcc")
    parser.add_argument("--ours", type=path_of, default=str(TOOLS / "zigrunk-nvcc"))
    parser.add_argument("--scratch", type=lambda name: os.path.abspath(name))
    parser.add_argument("--jobs", type=int, default=1)
    parser.add_argument("--json")
    return parser


def options() -> argparse.Namespace:
    parser = common_options(__doc__)
    parser.add_argument("files", nargs="+")
    parser.add_argument("--only", default="")
    parser.add_argument("--keep")
    parser.add_argument("--reasons", action="store_true")
    parser.add_argument("--least-split", type=int, default=0)
    parser.add_argument("--all", action="store_true")
    return parser.parse_args()


def read_calls(args: argparse.Namespace) -> list[Call]:
    lines = [line for name in args.files for line in Path(name).read_text().splitlines()]
    said = help_of(args.nvcc)
    values = values_in(said)
    lines = [line for line in lines if line and line[0] != "#"]
    calls = [earlier(Call(suited(line, values), number), said) for number, line in enumerate(lines, 1)]
    return [call for call in calls if args.only in call.line]


def longest_first(calls: list[Call]) -> list[Call]:
    """The calls, those for many targets first, so that none of them runs alone at the end."""
    return sorted(calls, key=lambda call: "-arch=all" not in call.line and call.line.count("-gencode") < 5)


def shows_nothing(calls: int, failing: int, compiling: int, split: int) -> Iterator[str]:
    """Why so many calls show nothing, though they are alike: by how many fail by both tools, make a file by nvcc, and are split."""
    if failing * 2 > calls:
        yield f"{failing} of {calls} calls fail by both tools"
    if not compiling:
        yield "no call compiles anything"
    if not split:
        yield "no call is split"


class Totals:
    """How many calls there are, of each kind."""

    def __init__(self) -> None:
        self.calls = self.failing = self.compiling = self.split = self.both = self.listed = self.kept = 0
        self.reasons = Counter[str]()

    def add(self, call: Call, want: Ran, got: Ran) -> None:
        """Counts a call."""
        compiles, split = makes(want), is_split(got)
        listed = call.how == "split" or bool(call.launched)
        self.calls += 1
        self.failing += want["status"] != 0 and got["status"] != 0
        self.compiling += compiles
        self.split += split
        self.both += compiles and split
        self.listed += listed
        self.kept += listed and split
        if not split and compiles:
            self.reasons[f"that nvcc compiles: {got['reason']}"] += 1
        if not split and listed:
            self.reasons[f"that the lists say are split: {why(want, got)}"] += 1

    def say(self, reasons: bool) -> None:
        """Prints the reasons, if they are asked for, and the shares."""
        for reason, number in sorted(self.reasons.items(), key=lambda item: (-item[1], item[0])) if reasons else []:
            print(f"{number:3} {reason}")
        if self.listed:
            print(f"{self.kept} of the {self.listed} calls that the lists say are split: {self.kept * 100 // self.listed} %")
        print(f"{self.split} of {self.calls} calls were split, {self.both} of the {self.compiling} that nvcc compiles: "
              f"{self.both * 100 // max(self.compiling, 1)} %")

    def nothing(self, least: int) -> list[str]:
        """Why so many calls show nothing, though they are alike, or how many too few are split."""
        found = [*shows_nothing(self.calls, self.failing, self.compiling, self.split)]
        shares = (("calls", self.calls, self.split), ("calls that nvcc compiles", self.compiling, self.both),
                  ("calls that the lists say are split", self.listed, self.kept))
        for what, of, split in shares:
            if split * 100 < least * of:
                found.append(f"{split} of the {of} {what} were split, less than {least} %")
        return found


def makes(want: Ran) -> bool:
    """Whether nvcc compiles a call."""
    return want["status"] == 0 and bool(want["made"])


def is_split(got: Ran) -> bool:
    """Whether zigrunk-nvcc ran the plan of a call."""
    return got["reason"] in (None, MADE_AGAIN)


def why(want: Ran, got: Ran) -> str:
    """Why nvcc makes a call: if a dry run fails, what nvcc says of the line."""
    said = re.search(r"^nvcc (?:fatal|error) *:.*", want["err"], re.M)
    return said[0] if said and got["reason"] == "a dry run fails" else str(got["reason"])


def main() -> int:
    args = options()
    args.version = version_of(args.nvcc)
    calls = longest_first(read_calls(args))
    counts, records, totals = Counts(), [], Totals()
    for compared in compare_all(calls, args):
        call, want, got, found, _ = compared
        kinds = loud(found)
        verdict = "same" if not kinds else "documented" if kinds <= explained(call, args.version) else "DIFFERS"
        counts.passed += verdict != "DIFFERS"
        counts.failed += verdict == "DIFFERS"
        totals.add(call, want, got)
        if args.all or verdict == "DIFFERS":
            show(verdict, compared)
        records.append(record_of(compared, verdict=verdict))
    if args.json:
        Path(args.json).write_text(json.dumps(records, indent=1))
    totals.say(args.reasons)
    if calls and not args.only and (nothing := totals.nothing(args.least_split)):
        counts.case("", nothing)
    return counts.summary()


if __name__ == "__main__":
    sys.exit(main())
