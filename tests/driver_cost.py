#!/usr/bin/env python3
"""Measures what a call of the driver costs beside its commands, with stand-ins for nvcc and its tools that cost little.

    tests/driver_cost.py [--calls N] [--batch N] [--many N] DRIVER

Prints the processor's time of a call of seven commands, of those commands alone, and of what goes straight to nvcc beside nvcc alone; and how many
processes such a call has. For a batch of N calls for ten targets, 60 unless you say so, it prints the processor's time and the memory of
zigrunk-batch's own process for each call, and how long it takes to end by an interrupt. Of 100 calls at once whose commands wait, it prints when
the first one ends, and the median, as parts of the time of all. All have to stay within the limits below. The last line is 'N passed, M failed'.

The processor of a virtual machine may take twice as long for the same from one minute to the next. So it prints first and last how long a loop takes.

With a real nvcc on PATH, it also prints how long after its begin a call starts its first compiler, beside what nvcc's dry run takes: both are
times of the machine as it is, so neither has a limit.
"""
import argparse
import json
import os
import resource
import shutil
import signal
import statistics
import subprocess
import sys
import tempfile
import time
from pathlib import Path

HERE = Path(__file__).resolve().parent
DRY_RUNS = HERE / "drivers/test_plans/data/dry_runs"
WORDS = "-c k.cu -o k.o -arch=sm_75".split()
MOST_MILLISECONDS = 12.0  # of a call, its two dry runs included, beside its commands
MOST_PROCESSES = 14
MOST_PLAIN_MILLISECONDS = 1.0  # of what goes to nvcc at once, beside nvcc
TARGETS = 10
MOST_BATCH_MILLISECONDS = 10.0  # of a call of a batch for that many targets, in the batch's own process
MOST_BATCH_KILOBYTES = 60.0
MOST_STOP_MILLISECONDS = 1000.0  # of a batch, from an interrupt to its end
SLOTS, WAIT = 4, 40  # of many calls at once, and the milliseconds that each of their commands waits
MOST_FIRST, MOST_MEDIAN = 5.0, 60.0  # percent of the time that all of them take


def cpu(words: list[str], environment: dict[str, str], folder: Path, calls: int) -> float:
    """The median of the milliseconds of processor's time that a command takes, with all that it waits for."""
    taken = []
    for _ in range(calls):
        before = resource.getrusage(resource.RUSAGE_CHILDREN)
        process = os.posix_spawn(words[0], words, environment, setsigdef=[])
        if os.waitpid(process, 0)[1] != 0:
            sys.exit(f"{words}: it fails, in {folder}")
        after = resource.getrusage(resource.RUSAGE_CHILDREN)
        taken.append(1000 * (after.ru_utime + after.ru_stime - before.ru_utime - before.ru_stime))
    return statistics.median(taken)


def print_speed() -> None:
    """How long the processor takes for what is always the same."""
    taken = []
    for _ in range(9):
        begun, total = time.process_time(), 0
        for number in range(200_000):
            total += number
        taken.append(1000 * (time.process_time() - begun))
    print(f"{statistics.median(taken):6.1f} ms of the processor for 200,000 additions here")


def toolkit(folder: Path) -> Path:
    """A toolkit of stand-ins."""
    cuda = folder / "cuda"
    for name in ("bin", "nvvm/bin"):
        (cuda / name).mkdir(parents=True)
    for source, to in ((HERE / "faults/tool.c", folder / "tool"), (HERE / "driver/dry_run.c", cuda / "bin/nvcc")):
        subprocess.run(["cc", "-O2", "-static", "-w", "-o", to, source], check=True)
    for name in ("bin/gcc", "bin/cudafe++", "bin/ptxas", "bin/fatbinary", "nvvm/bin/cicc"):
        (cuda / name).symlink_to(folder / "tool")
    return cuda


def processes(call: list[str], environment: dict[str, str]) -> int:
    """How many processes a call has, itself included."""
    tracer = ["strace", "-f", "-qq", "-e", "trace=clone,clone3,fork,vfork", "-e", "signal=none"]
    trace = subprocess.run([*tracer, *call], env=environment, check=True, capture_output=True, text=True)
    return 1 + sum(" = " in line and not line.rstrip().endswith("= -1") for line in trace.stderr.splitlines() if "clone" in line or "fork" in line)


def ten_targets(line: str) -> str:
    """A line of a recorded dry run for two targets, for ten of them: one of the first target's once for each of the others."""
    numbers = [52, 60, 61, 62, 70, 72, 75, 86]
    if line.startswith("#$ fatbinary "):
        image = '"--image3=kind=elf,sm=80,file=/t/kernel.compute_80.cubin" '
        image = image if image in line else image.replace("/t/", "")
        return line.replace(image, "".join(image.replace("80", str(number)) for number in [80, *numbers]))
    if "__CUDA_ARCH__=800 " not in line and "arch compute_80 " not in line and "arch=sm_80 " not in line:
        return line
    later = line.replace("--gen_module_id_file ", "")
    others = [later.replace("ARCH__=800 ", f"ARCH__={number}0 ").replace("compute_80", f"compute_{number}").replace("sm_80", f"sm_{number}")
              for number in numbers]
    return "".join([line, *others])


def write_list(calls: int) -> None:
    """The list of a batch of so many calls."""
    Path("list").write_text("".join(f"-c k{number}.cu -o k{number}.o -arch=sm_75\n" for number in range(calls)))


def of_batch(driver: list[str], environment: dict[str, str], calls: int) -> tuple[float, int]:
    """The milliseconds of processor's time that a batch of so many calls takes in its own process, and the most KB of its memory."""
    write_list(calls)
    process = os.posix_spawn(driver[0], ["zigrunk-batch", "list"], environment, setsigdef=[])
    os.waitid(os.P_PID, process, os.WEXITED | os.WNOWAIT)
    own = Path(f"/proc/{process}/stat").read_text().rpartition(")")[2].split()
    _, status, used = os.wait4(process, 0)
    if status != 0:
        sys.exit(f"a batch fails, in {Path.cwd()}")
    return 1000 * (int(own[11]) + int(own[12])) / os.sysconf("SC_CLK_TCK"), used.ru_maxrss


def milliseconds_to_stop(driver: list[str], environment: dict[str, str], calls: int) -> float:
    """How long a batch of so many calls goes on after an interrupt, while commands run that would take a minute."""
    write_list(calls)
    process = os.posix_spawn(driver[0], ["zigrunk-batch", "list"], {**environment, "PAUSE": "60000"}, setsigdef=[signal.SIGINT])
    children, tool = Path(f"/proc/{process}/task/{process}/children"), Path(environment["CUDA"]).parent / "tool"
    while not any(Path(f"/proc/{child}/exe").exists() and Path(f"/proc/{child}/exe").samefile(tool) for child in children.read_text().split()):
        time.sleep(0.01)
    begun = time.time()
    os.kill(process, signal.SIGINT)
    if os.waitstatus_to_exitcode(os.waitpid(process, 0)[1]) not in (130, -signal.SIGINT):
        sys.exit(f"a batch that is interrupted ends otherwise, in {Path.cwd()}")
    return 1000 * (time.time() - begun)


def batch_rows(driver: list[str], environment: dict[str, str], folder: Path, calls: int) -> list[tuple[str, float, float]]:
    """What a call of a batch takes in the batch's own process."""
    data = folder / "data"
    data.mkdir()
    for number in (1, 2):
        recorded = (DRY_RUNS / f"two_targets.dry{number}").read_text().splitlines(keepends=True)
        (data / f"one_target.dry{number}").write_text("".join(ten_targets(line) for line in recorded))
    few, many = (of_batch(driver, {**environment, "DATA": str(data)}, count) for count in (calls // 6, calls))
    more = calls - calls // 6
    return [(f"ms of a call for {TARGETS} targets in a batch's process", (many[0] - few[0]) / more, MOST_BATCH_MILLISECONDS),
            ("KB of such a call there", (many[1] - few[1]) / more, MOST_BATCH_KILOBYTES),
            (f"ms until a batch of {calls} calls ends by an interrupt", milliseconds_to_stop(driver, environment, calls), MOST_STOP_MILLISECONDS)]


def ended_after(begun: float, most: int, options: int) -> list[float]:
    """The times since then at which calls end: all of them, or those that have by now."""
    ends: list[float] = []
    while len(ends) < most:
        process, status = os.waitpid(-1, options)
        if process == 0:
            break
        if status != 0:
            sys.exit(f"one of many calls fails, in {Path.cwd()}")
        ends.append(time.time() - begun)
    return ends


def many_rows(driver: list[str], environment: dict[str, str], calls: int) -> list[tuple[str, float, float]]:
    """When the first of many calls at once ends, and the median, as parts of the time of all."""
    settings = {**environment, "PAUSE": str(WAIT), "ZIGRUNK_SLOTS": str(SLOTS)}
    words = ([*driver, "-c", "k.cu", "-o", f"k{number}.o", "-arch=sm_75"] for number in range(calls))
    begun, ends = time.time(), list[float]()
    for number, call in enumerate(words):
        os.posix_spawn(driver[0], call, settings, setsigdef=[])
        # A busy machine takes as long to start all calls as the first one takes.
        ends += ended_after(begun, number + 1 - len(ends), os.WNOHANG)
    ends += ended_after(begun, calls - len(ends), 0)
    waited = calls * 7 * WAIT / 1000 / SLOTS
    print(f"{ends[-1]:6.2f} s for {calls} calls at once, {ends[-1] / waited:.2f} of what their commands wait in {SLOTS} slots")
    first, median = (100 * end / ends[-1] for end in (ends[0], statistics.median(ends)))
    return [(f"% of the time of {calls} calls at once until the first one ends", first, MOST_FIRST),
            ("% of the time of them until half of them have ended", median, MOST_MEDIAN)]


def print_first_compiler(driver: list[str], folder: Path, calls: int) -> None:
    """How long after its begin a call starts its first compiler, if there is a real nvcc."""
    nvcc = shutil.which("nvcc")
    if nvcc is None:
        return
    environment = {**os.environ, "ZIGRUNK_LOG": str(folder / "log"), "TMPDIR": str(folder / "tmp"), "XDG_RUNTIME_DIR": str(folder / "run")}
    taken, alone = [], []
    for _ in range(calls):
        begun = time.time()
        subprocess.run([*driver, *WORDS], env=environment, check=True)
        begins = json.loads((folder / "log").read_text().splitlines()[-1])["commands"]
        taken.append(1000 * (min(command["begin"] for command in begins) - begun))
        begun = time.time()
        subprocess.run([nvcc, "--dryrun", *WORDS], check=True, capture_output=True)
        alone.append(1000 * (time.time() - begun))
    print(f"{min(taken):6.1f} ms until the first compiler starts at least, {statistics.median(taken):.1f} in the median; a dry run of nvcc alone "
          f"{min(alone):.1f} and {statistics.median(alone):.1f}")


def main() -> int:
    parser = argparse.ArgumentParser(usage=__doc__)
    parser.add_argument("driver", type=Path)
    parser.add_argument("--calls", type=int, default=60)
    parser.add_argument("--batch", type=int, default=60)
    parser.add_argument("--many", type=int, default=100)
    args = parser.parse_args()
    if not shutil.which("cc") or not shutil.which("strace"):
        print("cost: skipped, there is no C compiler or no strace\n0 passed, 0 failed, 1 skipped")
        return 0
    failed = 0
    with tempfile.TemporaryDirectory(prefix="cost.") as name:
        folder = Path(name)
        cuda = toolkit(folder)
        for made in ("work", "tmp", "run"):
            (folder / made).mkdir(mode=0o700)
        shutil.copy(args.driver, folder / "zigrunk-nvcc")
        os.chdir(folder / "work")
        Path("k.cu").write_text("__global__ void k() {}\n")
        environment = {"PATH": f"{cuda}/bin:/usr/bin:/bin", "CUDA": str(cuda), "DATA": str(DRY_RUNS), "TMPDIR": str(folder / "tmp"),
                       "XDG_RUNTIME_DIR": str(folder / "run"), "PAUSE": "0", "ZIGRUNK_LATE": "0"}
        driver = [str(folder / "zigrunk-nvcc")]
        print_speed()
        call = [*driver, *WORDS]
        count = processes(call, environment)
        tools = [[f"{folder}/tool", "-o", "out"]] * 7
        bare = sum(cpu(tool, environment, folder, args.calls) for tool in tools)
        whole = cpu(call, environment, folder, args.calls)
        plain = [(option, cpu([*driver, option, "k.cu"], environment, folder, args.calls),
                  cpu([f"{cuda}/bin/nvcc", option, "k.cu"], environment, folder, args.calls)) for option in ("--version", "-E")]
        rows = [("ms of a call beside its commands", whole - bare, MOST_MILLISECONDS),
                ("processes of a call, its seven commands among them", count, MOST_PROCESSES),
                *((f"ms of {option} beside nvcc", by_driver - alone, MOST_PLAIN_MILLISECONDS) for option, by_driver, alone in plain),
                *batch_rows(driver, environment, folder, args.batch), *many_rows(driver, environment, args.many)]
        for what, value, most in rows:
            failed += value > most
            print(f"{value:6.1f} of {most:4.1f}  {what}")
        print_first_compiler(driver, folder, args.calls // 4)
        print_speed()
    print(f"{len(rows) - failed} passed, {failed} failed")
    return int(failed > 0)


if __name__ == "__main__":
    sys.exit(main())
