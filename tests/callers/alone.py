"""Tests what Python's layer has and not all other languages: the names of numbers, settings of a plan without a line, and schedules of commands of
one's own. `alone.py ROOM HEADER VERSION` prints what is wrong: the folder of room.sh, zigrunk.h, and the library's version."""
import re
import sys
from pathlib import Path
from typing import Any, List

import zigrunk
from zigrunk import AfterFailure, HostCompiler, Outcome, PlanStatus, Schedule, Status

# How the header's names of a list begin or end, where they do.
BEGIN = {"Input": "INPUT_", "Tool": "TOOL_", "Language": "LANGUAGE_", "ColorMode": "COLOR_"}
END = {"Missing": "_MISSING"}
# The names of the header that no list has: those that say none, and limits.
OTHERS = {"ABI_VERSION", "OK", "IN_GROUP", "NONE_MISSING", "NO_SUCH_COMMAND", "NOT_RUNNING", "NO_OUTCOME"}
wrong: List[str] = []


def same(what: str, got: Any, wanted: Any) -> None:
    if got != wanted:
        wrong.append(f"{what}: {got!r}, not {wanted!r}")


def names(header: str) -> None:
    ours = {}
    for kind in ("Status", "Input", "Tool", "Language", "ColorMode", "HostCompiler", "Stage", "Reason", "Missing", "AfterFailure", "Outcome",
                 "PlanStatus"):
        ours.update({f"{BEGIN.get(kind, '')}{it.name}{END.get(kind, '')}": int(it) for it in getattr(zigrunk, kind)})
    theirs = {name: int(number) for name, number in re.findall(r"^#define ZIGRUNK_(\w+) (\d+)$", header, re.MULTILINE)}
    same("numbers", ours, {name: number for name, number in theirs.items() if name not in OTHERS})
    same("what the module has", [name for name in zigrunk.__all__ if not hasattr(zigrunk, name)], [])


def refusal(function: Any) -> Any:
    try:
        return function()
    except zigrunk.ZigrunkError as error:
        return error.status, error.input, error.line


def settings(room: Path) -> None:
    """Those that zigrunk_plan_call has and a call of nvcc doesn't."""
    def plan(**more: Any) -> zigrunk.Plan:
        return zigrunk.plan((room / "one.dry1").read_bytes(), (room / "one.dry2").read_bytes(), str(room / "w"), str(room / "t"), "-c", **more)

    text = plan().text("text")
    same("names kept", "/kernel.cpp1.ii" in plan(keeps_names=True).text("text"), True)
    same("names not kept", ("kernel.cpp1.ii" in text, "x_0.cpp1.ii" in text), (False, True))
    same("a suffix", "x_0.module_id" in plan(suffixes=[".module_id"]).text("text"), True)
    same("a bad suffix", refusal(lambda: plan(suffixes=["id"])), (Status.BAD_SUFFIXES, zigrunk.Input.SUFFIXES, None))
    same("no such compiler", refusal(lambda: plan(host_compiler=7)), (Status.BAD_NUMBER, None, None))
    run = b"#$ PATH=/b\n#$ cl -D__NVCC__ -P k.cu\n"
    found = {zigrunk.Lookup("cl", "/b"): "/b/cl"}
    for compiler, wanted in ((HostCompiler.GCC, "group 1\nyes cd"), (HostCompiler.MSVC, "group 0\nno cd"), (HostCompiler.NVHPC, "group 1\nyes cd")):
        same(f"with {compiler.name}", wanted in zigrunk.plan(run, run, "/w", "/t", "-c", programs=found, host_compiler=compiler).text("text"), True)
    missing = refusal(lambda: zigrunk.plan(run, run, "/w", "/t", "-c", programs={}))
    same("a program that is not there", missing, (Status.NOT_FOUND, zigrunk.Input.FIRST, 2))
    same("two plans", len(Schedule([plan(), plan()], 2)), 2 * len(plan().commands))


def schedules() -> None:
    """Schedules of commands of one's own: what starts, and what a failure holds back."""
    it = Schedule([[], [0], []], 2)
    same("a length, and the first", (len(it), it.over, [*it.start_ready()]), (3, False, [0, 2]))
    it.ended(2)
    same("told nothing", it.told(0, 3), (range(0, 0), PlanStatus.UNFINISHED))
    it.ended(0)
    same("the next", [*it.start_ready()], [1])
    it.ended(1, Outcome.FAILED)
    same("told all", (it.over, it.told(1, 3), it.told(0, 1)), (True, (range(1, 2), PlanStatus.ONE_FAILED), (range(0, 1), PlanStatus.ALL_SUCCEEDED)))
    for after, wanted in ((AfterFailure.START_NOTHING, [0]), (AfterFailure.START_EARLIER, [0]), (AfterFailure.GO_ON, [0, 1])):
        for outcome in (Outcome.FAILED, Outcome.CANCELLED):
            it = Schedule([[], []], 1, after)
            started = []
            for number in it.start_ready():
                started.append(number)
                it.ended(number, outcome)
            same(f"after {outcome.name} with {after.name}", started, wanted)
    same("what needs a later one", refusal(lambda: Schedule([[1], []], 1))[0], Status.BAD_NUMBER)
    same("no slot", refusal(lambda: Schedule([[]], 0))[0], Status.BAD_NUMBER)
    same("no outcome", refusal(lambda: Schedule([[]], 1).ended(0, 9))[0], Status.BAD_NUMBER)


def main() -> int:
    names(Path(sys.argv[2]).read_text())
    settings(Path(sys.argv[1]))
    schedules()
    same("the version", zigrunk.version(), sys.argv[3])
    print("\n".join(wrong), end="\n" if wrong else "")
    return int(bool(wrong))


if __name__ == "__main__":
    sys.exit(main())
