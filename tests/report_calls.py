#!/usr/bin/env python3
"""What zigrunk report says of many logged calls, beside their log: no call's longest chain takes longer than the call, the columns of a page have the
sum that the log has, and its counts are the log's. The calls are made by a batch with the stand-ins of tests/driver, and some by nvcc, if it is here.
Prints a line for each finding, and last 'N passed, M failed'.

    tests/report_calls.py [--count N] [--real N]    N calls with stand-ins, 60 unless said; N calls of nvcc, 4 unless said
    tests/report_calls.py LOG..                     looks at these logs instead
    tests/report_calls.py --lists N FILE..          looks at the log of the calls of these lists, as tests/calls.txt, each made N times by nvcc's own
                                                    tools; `make report-calls` does so, with some 1,000 calls
    .. --shots FOLDER                               also has chromium draw the page of the last log there: 400, 700 and 1,100 pixels wide, dark, and
                                                    that of its failed calls. Without it, to out/shots, if there is a chromium

DRIVER_BIN is where zigrunk is, by default where `make rust` leaves it.
"""

import argparse
import concurrent.futures
import html
import json
import os
import re
import shutil
import subprocess
import sys
import tempfile
from pathlib import Path
from typing import Any

from compare_calls import Call, run
from runner import TOOLS, Counts

TOP = Path(__file__).resolve().parent.parent
# A page has seconds with two digits behind the point.
ROUNDING = 0.005

Entry = dict[str, Any]


def stand_ins(room: Path) -> dict[str, str]:
    """A toolkit of stand-ins below a folder, and the variables for it. Its tools take up to 20 ms, so commands overlap in many ways."""
    bin_, nvvm = room / "cuda/bin", room / "cuda/nvvm/bin"
    bin_.mkdir(parents=True)
    nvvm.mkdir(parents=True)
    subprocess.run(["cc", "-O1", "-o", bin_ / "gcc", TOP / "tests/driver_cache/program.c"], check=True)
    for link in [bin_ / "cudafe++", bin_ / "ptxas", bin_ / "fatbinary", nvvm / "cicc"]:
        link.symlink_to(TOP / "tests/driver/tool")
    (bin_ / "nvcc").symlink_to(TOP / "tests/driver/nvcc")
    return {"CUDA": f"{room}/cuda", "DATA": str(TOP / "tests/drivers/test_plans/data/dry_runs"), "STAND_IN": str(TOP / "tests/driver/tool"),
            "LOG": "/dev/null", "PATH": f"{bin_}:{os.environ['PATH']}", "ZIGRUNK_LATE": "0", "TOOL_DOES": "sleep 0.0$(($$ % 3))", "CHILDLESS": "1"}


def make(room: Path, count: int, variables: dict[str, str], log: Path) -> None:
    """Makes so many calls by a batch, each ninth of which links, and one that nvcc refuses."""
    (room / "work").mkdir(exist_ok=True)
    lines = []
    for number in range(count):
        shutil.copy(room / "k.cu", room / f"work/k{number}.cu")
        lines.append(f"nvcc k{number}.cu -o k{number}" if number % 9 == 8 else f"nvcc -c k{number}.cu -o k{number}.o")
    (room / "work/bad.cu").write_text("__global__ void k() { undeclared(); }\n", encoding="utf-8")
    lines.append("nvcc -c bad.cu -o bad.o")
    (room / "list").write_text("\n".join(lines) + "\n", encoding="utf-8")
    kept = {name: value for name, value in os.environ.items() if not name.startswith(("ZIGRUNK_", "NVCC_"))}
    environment = {**kept, **variables, "ZIGRUNK_LOG": str(log), "TMPDIR": str(room)}
    subprocess.run([TOOLS / "zigrunk", "batch", room / "list"], cwd=room / "work", env=environment, capture_output=True, check=False, timeout=900)


def make_lists(files: list[Path], times: int, room: Path, log: Path) -> None:
    """Makes each call of these lists so many times, side by side. Some end with an error, and some go to nvcc."""
    lines = [line for file in files for line in file.read_text(encoding="utf-8").splitlines() if line and not line.startswith("#")]
    calls = [Call(line, number) for number, line in enumerate(lines * times)]
    os.environ["ZIGRUNK_LOG"] = str(log)
    folders = [room / str(call.number) for call in calls]

    def made(call: Call, folder: Path) -> None:
        folder.mkdir()
        run(str(TOOLS / "zigrunk-nvcc"), "ours", call, folder, None)
        shutil.rmtree(folder, ignore_errors=True)

    with concurrent.futures.ThreadPoolExecutor(os.cpu_count()) as pool:
        list(pool.map(made, calls, folders))


def report(log: str, folder: Path) -> tuple[str, str]:
    """What the program says of a log, and its page."""
    (folder / "log").write_text(log, encoding="utf-8")
    words = [f"{TOOLS}/zigrunk", "report", "--html", f"{folder}/page.html", f"{folder}/log"]
    ended = subprocess.run(words, capture_output=True, encoding="utf-8", check=True)
    return ended.stdout, (folder / "page.html").read_text(encoding="utf-8")


def text_of(page: str) -> str:
    return html.unescape(re.sub(r"<[^>]*>", " ", page)).replace("\xa0", " ")


def seconds(command: Entry) -> float:
    return float(command["end"]) - float(command["begin"])


def chain_findings(line: str, folder: Path) -> list[str]:
    """What is wrong with the chain of a call."""
    call = json.loads(line)
    if not call.get("commands"):
        return []
    found = re.search(r"took (\d+\.\d+) s\. Its commands that wait for each other take (\d+\.\d+) s", text_of(report(line + "\n", folder)[1]))
    if not found:
        return ["the page has no chain"]
    took, chain, ran = float(found[1]), float(found[2]), call["end"] - call["begin"]
    wrong = [] if abs(took - ran) <= 2 * ROUNDING else [f"the page says {took} s, and the log {ran:.3f} s"]
    longest = max(seconds(command) for command in call["commands"])
    if not longest - 2 * ROUNDING <= chain <= ran + 2 * ROUNDING:
        wrong.append(f"its chain takes {chain} s, the call {ran:.3f} s, and its longest command {longest:.3f} s")
    return wrong


def sum_findings(log: list[Entry], page: str, text: str) -> list[str]:
    """What is wrong with sums and counts of all calls."""
    wrong = []
    commands = [command for call in log for command in call.get("commands", [])]
    table = re.search(r"Preprocessing and each target</h2>.*?</table>", page, re.DOTALL)
    rows = [float(cell) for cell in re.findall(r"<b>([\d.]+)[^<]*</b>", table[0])] if table else []
    cells = [float(cell) for cell in re.findall(r'--heat:[\d.]+">([\d.]+)', table[0])] if table else []
    work = sum(map(seconds, commands))
    for name, sums in (("columns", cells), ("rows", rows)):
        if abs(sum(sums) - work) > ROUNDING * (len(sums) + 1):
            wrong.append(f"the {name} have {sum(sums):.2f} s, and the log {work:.2f} s")
    failed = sum(call["status"] != 0 for call in log)
    if f"calls: {len(log)}, failed: {failed}\n" not in text:
        wrong.append(f"there are {len(log)} calls, of which {failed} failed: {text[:60]!r}")
    said = re.search(r"^commands of split calls, one after the other: ([\d.]+) s", text, re.MULTILINE)
    if not said or abs(float(said[1]) - work) > 2 * ROUNDING:
        wrong.append(f"the text has {said[1] if said else None} s, and the log {work:.2f} s")
    return wrong


# The words of chromium for each, but for those of all.
SHOTS: dict[str, list[str]] = {"400": [], "700": [], "1100": [], "dark": ["--blink-settings=preferredColorScheme=0"], "failed": []}


def draw(lines: list[str], folder: Path, shots: Path, counts: Counts) -> None:
    """Has chromium draw the page of a log, and that of its failed calls."""
    shots.mkdir(parents=True, exist_ok=True)
    failed = [line for line in lines if json.loads(line)["status"] != 0]
    for name, more in SHOTS.items():
        shot = shots.resolve() / f"{name}.png"
        shot.unlink(missing_ok=True)
        report("\n".join(failed if name == "failed" else lines) + "\n", folder)
        size = f"--window-size={name if name.isdigit() else 1100},1600"
        words = ["chromium", "--headless", "--no-sandbox", "--disable-gpu", "--hide-scrollbars", size, f"--screenshot={shot}", *more]
        subprocess.run([*words, f"file://{folder}/page.html"], capture_output=True, check=False, timeout=120)
        counts.case(f"{shot}", [] if shot.is_file() else ["it isn't there"])


def look(log: Path, least: int, counts: Counts, shots: Path | None = None) -> None:
    """Looks at a log, which has to have so many calls."""
    lines = [line for line in log.read_text(encoding="utf-8").splitlines() if "begin" in json.loads(line)]
    counts.case(f"{log.name}: calls", [] if len(lines) >= least else [f"{len(lines)}, not {least}"])
    with tempfile.TemporaryDirectory() as name:
        folder = Path(name)
        for number, line in enumerate(lines):
            counts.case(f"{log.name}, call {number}", chain_findings(line, folder))
        text, page = report("\n".join(lines) + "\n", folder)
        counts.case(f"{log.name}: sums", sum_findings([json.loads(line) for line in lines], page, text))
        if shots:
            draw(lines, folder, shots, counts)


def main() -> int:
    words = argparse.ArgumentParser(usage=__doc__, formatter_class=argparse.RawDescriptionHelpFormatter)
    words.add_argument("--count", type=int, default=60)
    words.add_argument("--real", type=int, default=4)
    words.add_argument("--shots", type=Path)
    words.add_argument("--lists", type=int, default=0)
    words.add_argument("logs", nargs="*", type=Path)
    asked = words.parse_args()
    if shutil.which("chromium"):
        asked.shots = asked.shots or TOP / "out/shots"
    counts = Counts()
    with tempfile.TemporaryDirectory() as name:
        room = Path(name).resolve()
        if asked.lists:
            make_lists(asked.logs, asked.lists, room, room / "lists")
            asked.logs = [room / "lists"]
        for log in asked.logs:
            look(log, 1, counts, asked.shots)
        if not asked.logs:
            (room / "k.cu").write_text("__global__ void k() {}\n", encoding="utf-8")
            make(room, asked.count, stand_ins(room), room / "stand-ins")
            look(room / "stand-ins", asked.count, counts)
        if not asked.logs and asked.real and shutil.which("nvcc"):
            shutil.copy(TOP / "tests/small/cuda_runtime.h", room)
            make(room, asked.real, {"NVCC_APPEND_FLAGS": f"-I{room}"}, room / "nvcc")
            look(room / "nvcc", asked.real + 1, counts, asked.shots)
    return counts.summary()


if __name__ == "__main__":
    sys.exit(main())
