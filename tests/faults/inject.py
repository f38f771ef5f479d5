#!/usr/bin/env python3
"""Makes calls of the driver and injects faults, drawn by a seed.

    tests/faults/inject.py [--seed N] [--trials N] [--only KIND] DRIVER

A trial starts a call for two targets with stand-ins for nvcc and its tools, and does something to it at a random time:

    signal   sends a signal to one process of the call, or to its group
    kill     kills one process, two, or all of them
    stop     stops one process or the group, as Ctrl-Z does, and continues it later
    vanish   removes a folder that the call uses
    refuse   has the kernel refuse system calls of the driver (by strace)

Half of the calls have a jobserver of make, and half of them make their last host compile in two halves. What has to hold: the call ends within
twenty seconds and leaves no process, slot or job of make.
A job may be lost only if the driver and its guard are killed at once.
With status 0 its product and dependency file are those that a call without faults makes, or nvcc's. With another there is no part of one,
unless the host compiler itself was killed. No command reads what another wrote in part, but for one that dies with a killed driver, which lets
go of a file that it withheld. The next equal call is right, says nothing and leaves
nothing.

Prints a line for each trial that fails, with its number: --seed and --first make it again. The last line is 'N passed, M failed'.
"""
import argparse
import fcntl
import os
import random
import shutil
import signal
import subprocess
import sys
import tempfile
import time
from collections import Counter
from pathlib import Path
from typing import NamedTuple

HERE = Path(__file__).resolve().parent
DRY_RUNS = HERE.parent / "drivers/test_plans/data/dry_runs"
WORDS = "-MD -c k.cu -o k.o -gencode arch=compute_80,code=sm_80 -gencode arch=compute_90,code=sm_90".split()
PATIENCE = 20
TOKENS = b"abc"
# system calls of the driver, and the errors that they may give
REFUSALS = {
    "clone": "EAGAIN ENOMEM", "memfd_create": "EMFILE ENOSPC ENOMEM", "openat": "EMFILE ENOENT EACCES ENOSPC", "mkdir": "ENOSPC EACCES",
    "mkdirat": "ENOSPC EACCES", "flock": "ENOSYS ENOLCK EINTR", "pipe2": "EMFILE", "signalfd4": "EMFILE", "poll": "EINTR ENOMEM",
    "read": "EIO EINTR", "write": "EIO ENOSPC EINTR", "unlinkat": "EACCES ENOENT", "getdents64": "EIO", "statx": "ENOENT EACCES",
    "mknodat": "ENOSPC EACCES", "fcntl": "EMFILE EINTR", "setpgid": "EACCES", "wait4": "EINTR ECHILD", "utimensat": "EACCES",
    "mmap": "ENOMEM", "lseek": "EINVAL", "symlink": "EACCES ENOSPC", "rename": "EACCES ENOSPC", "ioctl": "EINTR EIO",
}
KINDS = ("signal", "kill", "stop", "vanish", "refuse")


class Process(NamedTuple):
    """A process of a call."""

    number: int
    state: str
    role: str


class Setup(NamedTuple):
    """Whether a call has a jobserver of make, whether its last host compile is in two halves, and how many slots there are. With three, commands
    rarely begin before what they need has ended. Tools that have the word `dies` are killed."""

    has_make: bool
    is_late: bool
    slots: int
    dies: str = ""


class Room:
    """The folders of the trials of one run, and the toolkit of stand-ins."""

    def __init__(self, driver: Path, folder: Path) -> None:
        self.folder, self.cuda, self.bin = folder, folder / "cuda", folder / "bin"
        self.bin.mkdir()
        shutil.copy(driver, self.bin / "zigrunk-nvcc")
        for name in ("cuda/bin", "cuda/nvvm/bin"):
            (folder / name).mkdir(parents=True)
        subprocess.run(["cc", "-O1", "-w", "-o", folder / "tool", HERE / "tool.c"], check=True)
        for name in ("bin/gcc", "bin/cudafe++", "bin/ptxas", "bin/fatbinary", "nvvm/bin/cicc"):
            (self.cuda / name).symlink_to(folder / "tool")
        (self.cuda / "bin/nvcc").symlink_to(HERE.parent / "driver/nvcc")
        self.log = folder / "trial/log"

    def renew(self) -> None:
        """Makes the folders of a trial anew."""
        trial = self.folder / "trial"
        shutil.rmtree(trial, ignore_errors=True)
        for name in ("work", "tmp", "run"):
            (trial / name).mkdir(parents=True)
        (trial / "run").chmod(0o700)
        (trial / "work/k.cu").write_text("a source\n")
        self.log.write_text("")

    def path(self, name: str) -> Path:
        return self.folder / "trial" / name

    def environment(self, mark: str, setup: Setup) -> dict[str, str]:
        kept = {name: value for name, value in os.environ.items() if not name.startswith(("ZIGRUNK", "NVCC", "MAKE"))}
        kept.update(LOG=str(self.log), TMPDIR=str(self.path("tmp")), XDG_RUNTIME_DIR=str(self.path("run")), CUDA=str(self.cuda), DATA=str(DRY_RUNS),
                    PATH=f"{self.cuda}/bin:/usr/bin:/bin", TRIAL=mark, PAUSE="15",
                    ZIGRUNK_SLOTS=str(setup.slots), ZIGRUNK_LATE=str(int(setup.is_late)), DIES=setup.dies)
        if setup.has_make:
            kept["MAKEFLAGS"] = f" -j4 --jobserver-auth=fifo:{self.path('jobs')}"
        return kept

    def start(self, mark: str, setup: Setup, before: list[str]) -> "subprocess.Popen[bytes]":
        said = self.path(f"said.{mark}").open("wb")
        words = [*before, str(self.bin / "zigrunk-nvcc"), *WORDS]
        return subprocess.Popen(words, cwd=self.path("work"), env=self.environment(mark, setup), stdin=subprocess.DEVNULL, stdout=said, stderr=said,
                                process_group=0)

    def made(self) -> tuple[bytes | None, bytes | None]:
        """The product and the dependency file."""
        files = (self.path("work/k.o"), self.path("work/k.d"))
        product, rule = (file.read_bytes() if file.exists() else None for file in files)
        return product, rule


def processes(mark: str, top: int) -> list[Process]:
    """The processes of a call that live, by the mark in their environment, with what each is: the driver, its guard or a program's name."""
    found = []
    wanted = f"TRIAL={mark}\0".encode()
    for folder in Path("/proc").iterdir():
        try:
            if not folder.name.isdigit() or wanted not in (folder / "environ").read_bytes() + b"\0":
                continue
            before, _, behind = (folder / "stat").read_text().rpartition(")")
            state, program = behind.split()[0], before.partition("(")[2]
        except OSError:
            continue
        number = int(folder.name)
        role = "driver" if number == top else "guard" if program == "zigrunk-nvcc" else program
        if state != "Z":
            found.append(Process(number, state, role))
    return found


def send(number: int, what: signal.Signals) -> None:
    try:
        os.kill(number, what)
    except ProcessLookupError:
        pass


def wait_for(call: "subprocess.Popen[bytes]") -> int:
    """The status of a call, which has to end within so many seconds of this process: one that was stopped along with the call didn't wait."""
    for _ in range(10 * PATIENCE):
        try:
            return call.wait(0.1)
        except subprocess.TimeoutExpired:
            pass
    return call.wait(0)


def one_of(draw: random.Random, living: list[Process]) -> Process:
    """A process, by its role first: the roles that are rare are as likely as others."""
    role = draw.choice(sorted({process.role for process in living}))
    return draw.choice([process for process in living if process.role == role])


class Trial:
    """A call with a fault."""

    def __init__(self, room: Room, number: int, seed: int, kinds: list[str], length: float) -> None:
        self.room, self.number, self.draw = room, number, random.Random(f"{seed}.{number}")
        self.kind = self.draw.choice(kinds)
        self.setup = Setup(self.draw.random() < 0.5, self.draw.random() < 0.5, self.draw.choice([3, 8]))
        self.wait = self.draw.uniform(0, length * 1.1)
        self.what = ""
        self.may_leave_part = self.may_read_part = False
        self.may_lose_jobs = self.may_leave_files = False
        self.problems: list[str] = []

    def before(self) -> list[str]:
        """What runs the call."""
        if self.kind != "refuse":
            return []
        call = self.draw.choice(sorted(REFUSALS))
        error = self.draw.choice(REFUSALS[call].split())
        first = self.draw.choice([1, 2, 3, self.draw.randrange(1, 60)])
        which = self.draw.choice([f"{first}", f"{first}+"])
        self.what = f"{call} gives {error} from {which}"
        self.may_leave_files = call in ("statx", "unlinkat", "getdents64", "openat")
        # what the driver becomes is not its own any more
        return ["strace", "-b", "execve", "-o", "/dev/null", "-e", f"trace={call}", "-e", f"inject={call}:error={error}:when={which}"]

    def fault(self, call: "subprocess.Popen[bytes]", mark: str) -> None:
        if self.kind == "refuse":
            return
        time.sleep(self.wait)
        living = processes(mark, call.pid)
        if self.kind == "vanish":
            self.vanish()
        elif living:
            getattr(self, self.kind)(call, living)

    def signal(self, call: "subprocess.Popen[bytes]", living: list[Process]) -> None:
        which = self.draw.choice([signal.SIGTERM, signal.SIGINT, signal.SIGHUP])
        to_group = self.draw.random() < 0.3
        victim = one_of(self.draw, living)
        self.what = f"{which.name} to {'the group' if to_group else victim.role}"
        if to_group:
            try:
                os.killpg(call.pid, which)
            except ProcessLookupError:
                pass
        else:
            self.may_leave_part = victim.role not in ("driver", "guard")
            send(victim.number, which)

    def kill(self, call: "subprocess.Popen[bytes]", living: list[Process]) -> None:
        count = self.draw.choice([1, 1, 1, 2, len(living)])
        victims = [one_of(self.draw, living)] if count == 1 else self.draw.sample(living, min(count, len(living)))
        self.what = "KILL to " + ", ".join(sorted(victim.role for victim in victims))
        self.may_leave_part = len(victims) > 1 or victims[0].role not in ("driver", "guard")
        self.may_read_part = "driver" in {victim.role for victim in victims}
        self.may_lose_jobs = {"driver", "guard"} <= {victim.role for victim in victims}
        for victim in victims:
            send(victim.number, signal.SIGKILL)

    def stop(self, call: "subprocess.Popen[bytes]", living: list[Process]) -> None:
        pause = self.draw.choice([0.02, 0.2, 1.0])
        if self.draw.random() < 0.6:
            self.what = "TSTP and CONT to the group"
            try:
                os.killpg(call.pid, signal.SIGTSTP)
                time.sleep(pause)
                os.killpg(call.pid, signal.SIGCONT)
            except ProcessLookupError:
                pass
            return
        victim = one_of(self.draw, living)
        self.what = f"STOP and CONT to {victim.role}"
        send(victim.number, signal.SIGSTOP)
        time.sleep(pause)
        send(victim.number, signal.SIGCONT)

    def vanish(self) -> None:
        user = os.getuid()
        name = self.draw.choice(["tmp", f"tmp/zigrunk-{user}", f"tmp/zigrunk-{user}/*", "run", f"run/zigrunk-slots-{user}"])
        self.what = f"{name} vanishes"
        for folder in list(self.room.path(".").glob(name)):
            shutil.rmtree(folder, ignore_errors=True) if folder.is_dir() else folder.unlink(missing_ok=True)

    def problem(self, text: str) -> None:
        self.problems.append(text)

    def run(self, wanted: tuple[bytes | None, bytes | None], whole: bytes | None) -> str:
        """Makes the call and checks what is left. Says how it ended. `whole` is the product of a whole host compile, which may take the place of
        two halves."""
        room = self.room
        room.renew()
        jobs = self.jobs()
        mark = f"{os.getpid()}.{self.number}"
        call = room.start(mark, self.setup, self.before())
        self.fault(call, mark)
        status = self.end(call, mark)
        product, rule = room.made()
        by_nvcc = product == b"made by nvcc\n"
        is_right = product in (wanted[0], whole) and rule in (wanted[1], b"by nvcc\n")
        if status == 0 and not by_nvcc and not is_right:
            self.problem(f"status 0 with another product or dependency file: {product!r} {rule!r}")
        # (what seems to be the guard may be a command that isn't its program yet: then its end is the call's)
        may_leave_part = self.may_leave_part or status == 128 + signal.SIGKILL
        if status != 0 and not by_nvcc and product not in (None, wanted[0], whole) and not may_leave_part:
            self.problem(f"status {status} with a part of a product: {product!r}")
        if Path(f"{room.log}.PARTIAL").exists() and not self.may_read_part:
            self.problem("a command read what another wrote in part")
        self.check_slots()
        if jobs is not None:
            self.check_jobs(jobs)
        self.check_next(wanted)
        return f"{self.kind}: {'by nvcc' if by_nvcc else 'status 0' if status == 0 else 'failed'}"

    def jobs(self) -> int | None:
        """The jobserver of the trial, with jobs for the call."""
        if not self.setup.has_make:
            return None
        os.mkfifo(self.room.path("jobs"))
        pipe = os.open(self.room.path("jobs"), os.O_RDWR | os.O_NONBLOCK)
        os.write(pipe, TOKENS)
        return pipe

    def end(self, call: "subprocess.Popen[bytes]", mark: str) -> int:
        """Waits for the end of a call and of all its processes. Says its status."""
        try:
            status = wait_for(call)
        except subprocess.TimeoutExpired:
            self.problem(f"hangs: {processes(mark, call.pid)}")
            status = -1
        left = processes(mark, call.pid)
        for _ in range(250):
            if not left:
                break
            time.sleep(0.02)
            left = processes(mark, call.pid)
        if left:
            self.problem(f"leaves processes: {left}")
        for process in left:
            send(process.number, signal.SIGKILL)
        call.wait()
        return status

    def check_slots(self) -> None:
        for slot in self.room.path("run").glob("*/[0-9]*"):
            with slot.open() as file:
                try:
                    fcntl.flock(file, fcntl.LOCK_EX | fcntl.LOCK_NB)
                except OSError:
                    self.problem(f"slot {slot.name} is held")

    def check_jobs(self, jobs: int) -> None:
        try:
            held = os.read(jobs, 99)
        except BlockingIOError:
            held = b""
        if bytes(sorted(held)) != TOKENS and not self.may_lose_jobs:
            self.problem(f"jobs of make: {held!r}")
        os.close(jobs)
        self.room.path("jobs").unlink(missing_ok=True)

    def check_next(self, wanted: tuple[bytes | None, bytes | None]) -> None:
        """Makes the equal call once more, without a fault."""
        room = self.room
        for name in ("work/k.o", "work/k.d"):
            room.path(name).unlink(missing_ok=True)
        for name in ("tmp", "run"):
            room.path(name).mkdir(mode=0o700, exist_ok=True)
        mark = f"{os.getpid()}.{self.number}.next"
        call = room.start(mark, self.setup._replace(has_make=False), [])
        try:
            status = wait_for(call)
        except subprocess.TimeoutExpired:
            self.problem("the next call hangs")
            for process in processes(mark, call.pid):
                send(process.number, signal.SIGKILL)
            call.wait()
            return
        said = room.path(f"said.{mark}").read_bytes()
        if status != 0 or room.made() != wanted or said:
            self.problem(f"the next call: status {status}, {room.made()!r}, {said[:200]!r}")
        left = [str(path.relative_to(room.folder)) for path in room.path("tmp").rglob("*") if path != room.path(f"tmp/zigrunk-{os.getuid()}")]
        if left and not self.may_leave_files:
            self.problem(f"files left: {left[:4]}")


def reference(room: Room, setup: Setup) -> tuple[tuple[bytes | None, bytes | None], float]:
    """What a call makes to which nothing else is done, and how long it takes."""
    made, lengths = set(), []
    for number in range(3):
        room.renew()
        began = time.monotonic()
        status = room.start(f"reference.{number}", setup, []).wait()
        lengths.append(time.monotonic() - began)
        if status != 0 or None in room.made():
            sys.exit(f"a call without faults: status {status}: " + room.path(f"said.reference.{number}").read_text())
        made.add(room.made())
    if len(made) != 1:
        sys.exit("two calls without faults differ")
    return made.pop(), sorted(lengths)[1]


def main() -> int:
    parser = argparse.ArgumentParser(usage=__doc__)
    parser.add_argument("driver", type=Path)
    parser.add_argument("--seed", type=int, default=20261127)
    parser.add_argument("--trials", type=int, default=200)
    parser.add_argument("--first", type=int, default=0)
    parser.add_argument("--only", choices=KINDS)
    parser.add_argument("--tally", action="store_true", help="print how the calls ended, for each kind of fault")
    args = parser.parse_args()
    if not shutil.which("cc"):
        print("faults: skipped, there is no C compiler\n0 passed, 0 failed, 1 skipped")
        return 0
    kinds = [args.only] if args.only else [kind for kind in KINDS if kind != "refuse" or shutil.which("strace")]
    ends: Counter[str] = Counter()
    failed = 0
    with tempfile.TemporaryDirectory(prefix="faults.") as folder:
        room = Room(args.driver.resolve(), Path(folder))
        references = {is_late: reference(room, Setup(False, is_late, 3)) for is_late in (False, True)}
        if references[False][0][0] == references[True][0][0]:
            sys.exit("no host compile is in two halves")
        if reference(room, Setup(False, True, 3, "assembler"))[0] != references[False][0]:
            sys.exit("a whole host compile in the place of two halves makes something else")
        for number in range(args.first, args.first + args.trials):
            trial = Trial(room, number, args.seed, kinds, references[False][1])
            ends[trial.run(references[trial.setup.is_late][0], references[False][0][0])] += 1
            failed += bool(trial.problems)
            for text in trial.problems:
                more = (", with make" if trial.setup.has_make else "") + (", late" if trial.setup.is_late else "")
                print(f"trial {number}, {trial.kind}, {trial.setup.slots} slots{more}, after {trial.wait:.3f} s: {trial.what}: {text}", flush=True)
    for how, count in sorted(ends.items()) if args.tally else []:
        print(f"{count:5} {how}")
    print(f"{args.trials - failed} passed, {failed} failed")
    return int(failed > 0)


if __name__ == "__main__":
    sys.exit(main())
